"""Channels with damping: the column of a survey, what show tells and draws of it, and runs that are cut."""
import random, re
import xml.etree.ElementTree as xml

from common import (COUNTS, NO_STAFFS, OPEN, OPTIONS, REFUSED, ROWS, check, forget, go, group, listing, parts_left,
    read, saved, tested, write)
from formats import cell_row, counts, dampings, heights, sha, survey

NAMES = "depth_mm,height_um,velocity_um_s,damping_thousandths_s"
REEDS = [0] * 18 + [round(2500 * (j / 12) ** 2) for j in range(1, 13)]  # over the last cells of the channel of ROWS


def damped(column):
    """The survey of ROWS with these fields in a column for damping."""
    return survey([(*row, field) for row, field in zip(ROWS, column)], NAMES)


def make(column, name="d.channel", text=None):
    """The bytes of that channel."""
    write("d.csv", text or damped(column))
    go("make", "d.csv", "-o", name, *COUNTS, "--replace", name=f"make, damped by {column}")
    return read(name)


def words(column):
    """What show tells of a row of dampings."""
    cells = [j for j, damping in enumerate(column, 1) if damping]
    if not cells:
        return "none"
    ends = [j for j in cells if j + 1 not in cells]
    stretches = [f"{first} to {last}" if first < last else f"{last}"
        for first, last in zip([j for j in cells if j - 1 not in cells], ends)]
    where = " and ".join(filter(None, (", ".join(stretches[:-1]), stretches[-1])))
    if len(stretches) > 4:
        more = len(stretches) - 4
        where = f"{', '.join(stretches[:4])} and {more} more stretch{'es' * (more > 1)} up to cell {ends[-1]}"
    least, most = min(filter(None, column)), max(column)
    return (f"{least:,} to " * (least < most) + f"{most:,} thousandth{'s' * (most > 1)} per second in cell"
        f"{'s' * (len(cells) > 1)} {where}" + f"; the greatest first in cell {column.index(most) + 1}" * (least < most))


def columns(begin):
    """The column, its fields, and what stands in the file."""
    group("surveys with a column for damping")
    for name, column in (("all fields empty", [""] * 30), ("all 0", [0] * 30),
        ("some empty, some 0", ["", 0, "000"] * 10)):
        check(make(column) == begin, f"{name}: not the channel without the column")
    for name, column in (("one cell", [0] * 17 + [1] + [0] * 12), ("the most everywhere", [10000] * 30),
        ("reeds", REEDS), ("both ends", [10000, *[""] * 28, 9999]),
        ("signs and zeros", ["+7", "-0", "0010000"] + [""] * 27)):
        data = make(column)
        check(dampings(data) == tuple(int(field or 0) for field in column), f"{name}: {dampings(data)}")
        check(data[:52] == begin[:52] and all(cell_row(data, k) == cell_row(begin, k) for k in range(4)),
            f"{name}: damping changes no other number of the survey")
        check(sha(data) != sha(begin), f"{name}: another channel")
    turned = survey([(field, depth, height, velocity) for field, (depth, height, velocity) in zip(REEDS, ROWS)],
        "Damping_Thousandths_S,depth_mm,height_um,velocity_um_s")
    check(make(REEDS, text=turned) == make(REEDS), "the column in another place, with capitals")
    out, _ = go("make", "d.csv", "-o", "d.channel", *COUNTS, "--replace")
    check("no column" not in out and "not used" not in out, f"nothing is left out: {out}")
    # the first cell out of range is told, whatever stands in the file that is there
    kept = read("d.channel")
    write("d.csv", damped([*REEDS[:28], 10001, -1]))
    go("make", "d.csv", "-o", "d.channel", *COUNTS, "--replace", status=REFUSED,
        says=r"^pathpetal: d.csv: line 30, column 4 \(damping_thousandths_s\): a damping is 0 to 10,000 thousandths "
        r"per second, not 10,001 \(refused, number 38, in cell 29\)\npathpetal: to mend: correct that damping; [^\n]*\n"
        "pathpetal: nothing is written\n$")
    check(read("d.channel") == kept, "START stays as it was")
    forget("d.csv", "d.channel")


def points(shape):
    return [tuple(map(float, point.split(","))) for point in shape.get("points").split()]


def shown():
    """What show tells, and what its picture draws."""
    group("show of a channel with damping")
    draw = random.Random(tested.seed + 11)
    made = [[0] * 30, REEDS, REEDS[::-1], [1] * 30, [10000] * 30, [1] + [0] * 29, [0] * 29 + [10000],
        [0] * 9 + [3] + [0] * 20, [5, 0] * 15, [0, 7, 7] * 10, [2, 0, 0, 0, 0] * 6, [3, 4, 0, 0, 0, 0] * 5,
        ([9] * 4 + [0] * 6) * 3, [1, 2] + [0] * 26 + [2, 1]]
    made += [[draw.choice((0, 0, 1, draw.randrange(10001))) for _ in range(30)] for _ in range(6)]
    for column in made:
        data = make(column)
        out, _ = go("show", "d.channel", "--svg", "d.svg", "--replace")
        check(out.splitlines()[4] == f"  damping        {words(column)}" and out.count("\n") == 8,
            f"show {column}: {out}")
        picture = xml.fromstring(read("d.svg"))
        text = " ".join(picture.itertext())
        shapes = lambda kind: [shape for shape in picture.iter() if shape.get("class") == kind]
        told = "damped cells (reeds)" in text and "thousandths per s" in text and \
            "Damping: how quickly each cell slows the water down, as reeds do" in text
        check(text.count("distance from the left wall (m)") == 1, "the distance is told once")
        if not any(column):
            check(not told and not shapes("damping") and not shapes("reeds") and "710" == picture.get("height"),
                "without damping nothing is said or drawn of it")
            continue
        check(told, f"the picture of {column} does not say what is damped: {text}")
        # a bar for each damped cell, as high as its number asks, over its place between the walls
        bars = {}
        for shape in shapes("damping"):
            edge = points(shape)
            foot, wide = edge[0][1], 860 / 30
            check(edge[-1][1] == foot, "a stretch stands on the foot of its panel")
            for (left, top), (right, same) in zip(edge[1:-1:2], edge[2:-1:2]):
                check(top == same and abs(right - left - wide) < 0.02, f"a bar is as wide as its cell: {left}, {right}")
                bars[round((left - 110) / wide)] = foot - top
        check(sorted(bars) == [j for j, damping in enumerate(column) if damping], f"bars of {column}: {sorted(bars)}")
        tall = max(bars.values()) / max(column)
        check(0 < tall * max(column) <= 100 and all(abs(high - tall * column[j]) < 0.02 for j, high in bars.items()),
            f"how high the bars of {column} are: {bars}")
        # and reeds in the water over the same cells, in every stretch
        reeds = [shape.get("d") for shape in shapes("reeds")]
        check(len(reeds) == 3, f"the strokes in the bars, the reeds and their key: {reeds}")
        over = {int((float(x) - 110) / wide) for x in re.findall(r"M([\d.]+),", reeds[1])}
        first = {j for j in bars if j - 1 not in bars}
        check(over <= set(bars) and all(any(k in over for k in range(j, 30) if set(range(j, k + 1)) <= set(bars))
            for j in first), f"reeds over {over}, damped {sorted(bars)}")
    # one damped cell among the narrowest is still seen
    write("d.csv", survey([(1000, 300 * (j == 100)) for j in range(256)], "depth_mm,damping_thousandths_s"))
    go("make", "d.csv", "-o", "d.channel", *COUNTS, "--replace")
    go("show", "d.channel", "--svg", "d.svg", "--replace",
        tells="\n  damping        300 thousandths per second in cell 101\n")
    picture = xml.fromstring(read("d.svg"))
    reed = [shape.get("d") for shape in picture.iter() if shape.get("class") == "reeds"][1]
    check(re.fullmatch(r"M447\.[567],630\.0 V[\d.]+ ", reed), f"one reed, in cell 101: {reed}")
    check("nan" not in read("d.svg").decode() and "inf" not in read("d.svg").decode(), "numbers in the picture")
    forget("d.csv", "d.channel", "d.svg")


def slowed():
    """What docs/HOST.md says of the unit: half of the speed is gone after 693 / damping seconds, far from the walls."""
    group("how quickly damping slows the water down")
    for damping, step in ((100, 70), (500, 14), (1000, 7)):
        write("d.csv", survey([(1000, 100000, damping)] * 120, "depth_mm,velocity_um_s,damping_thousandths_s"))
        go("make", "d.csv", "-o", "d.channel", "--width-mm", 1000, "--step-ms", step, "--steps", 99)
        go("run", "d.channel", "-o", "d.end")
        speeds = cell_row(read("d.end"), 2)[50:70]
        check(all(49950 <= speed <= 50050 for speed in speeds), f"damping {damping}, after {99 * step} ms: {speeds}")
        forget("d.csv", "d.channel", *saved("d.end"))


def too_much():
    """Water that moves in reeds whose damping times time step is too large: what is advised is taken."""
    group("a first step that does not settle in its reeds")
    for damping, step, most in ((10000, 100, 89), (10000, 95, 89), (9500, 100, 94), (9300, 100, 96)):
        write("d.csv", survey([(5000, 1000000, damping - (j < 5)) for j in range(64)],
            "depth_mm,velocity_um_s,damping_thousandths_s"))
        for taken in (step, most):
            go("make", "d.csv", "-o", "d.channel", "--width-mm", 5000, "--step-ms", taken, "--steps", 20, "--replace")
            if taken == most:
                go("run", "d.channel", "-o", "d.end", "--replace", name=f"damping {damping}, {most} ms, as advised")
                continue
            go("run", "d.channel", "-o", "d.end", status=OPEN, says=r"^pathpetal: step 1 of 20 was refused in its "
                r"correction 10 \(number 10, stage 10\): ten corrections did not settle\n"
                rf"pathpetal: to mend: take a shorter time step: at most {most} ms for the damping of {damping:,} "
                r"thousandths per second in cell 6; or less damping \(their product is to stay below 900,000\)\n")
        forget("d.csv", "d.channel", *saved("d.end"))


def gone_on_with(begin, end):
    """A run with damping, cut at each of some steps, by its checkpoint and by the same command again."""
    group("runs with damping, cut and gone on with")
    data = make(REEDS)
    go("run", "d.channel", "-o", "d.end", *OPTIONS, "--record", "d.record")
    whole, record = read("d.end"), read("d.record")
    check(counts(whole) == (30, 300, 300) and dampings(whole) == tuple(REEDS), "END has the damping of START")
    check(heights(whole) != heights(end), "damping does something")
    check(sum(heights(whole)) == sum(heights(end)), "and neither adds nor takes water")
    for every in (7, 100, 299):
        command = ("run", "d.channel", "-o", "c.end", *OPTIONS, "--record", "c.record", "--checkpoint", "c.check",
            "--checkpoint-every", every)
        go(*command)
        check(read("c.end") == whole and read("c.record") == record, f"a checkpoint every {every} steps: other bytes")
        check(dampings(read("c.check")) == tuple(REEDS), "the checkpoint has the damping of START")
        step = counts(read("c.check"))[1]
        forget("c.record", *saved("c.end"))
        write("c.record.open", record)
        go(*command, says=f"c.check: is of this run, cut before: goes on after step {step}")
        check(read("c.end") == whole and read("c.record") == record and not parts_left(),
            f"goes on after {step}: other bytes")
        go("run", "c.check", "-o", "o.end", *NO_STAFFS)
        check(read("o.end") == whole, f"goes on after {step} under another name: other bytes")
        forget("c.record", *saved("c.end", "c.check", "o.end"))
    # the channel without damping is another one: its END is not taken for this run's, nor this run's for its own
    for start, there in (("d.channel", "one.channel"), ("start.channel", "d.end")):
        before = listing()
        go("run", start, "-o", there, *NO_STAFFS, status=REFUSED, says=rf"^pathpetal: {there}: is there already, is of "
            r"another run \(it began with another channel\) and is not written over; [^\n]*\n$")
        check(listing() == before, "nothing is written or changed")
    check(read("d.channel") == data and read("start.channel") == begin, "START has its bytes")
    forget("d.csv", "d.channel", "d.record", *saved("d.end"))


def damping(begin, end):
    columns(begin)
    shown()
    slowed()
    too_much()
    gone_on_with(begin, end)
