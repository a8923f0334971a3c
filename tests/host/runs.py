"""Runs that are complete, runs that are cut at a checkpoint and gone on with, and steps that are refused."""
import math, os, random

from common import (COUNTS, OPEN, OPTIONS, POUR, REFUSED, ROWS, STAFFS, check, counted, end_is_true, forget, go, group,
    known, listing, parts_left, read, saved, tested, write)
from formats import (beside, counts, every_height, heights, lines_of, record_end, record_head, record_rows, summed,
    survey, up_to, whole_record)
from steps import ADVISED, ALLOWED, longest, narrowest, root


def prepare():
    """START, its table of poured water, and what one run in one go makes of it; the heights after every step."""
    write("start.csv", survey(ROWS))
    write("pour.csv", "step,cell,amount_um\n" + "".join(f"{a},{b},{c}\n" for a, b, c in reversed(POUR)))
    go("make", "start.csv", "-o", "start.channel", *COUNTS)
    go("run", "start.channel", "-o", "one.channel", *OPTIONS, "--record", "one.csv",
        tells="one.channel: complete: all 300 steps accepted")
    go("run", "start.channel", "-o", "each.channel", *OPTIONS[:-1], 1, "--record", "each.csv")
    tested.fed = every_height(read("each.csv"))
    forget(*saved("each.channel"), "each.csv")
    return read("start.channel"), read("one.channel"), read("one.csv")


def runs(begin, end, record):
    group("runs that are complete")
    check(read("start.channel") == begin, "START has its bytes")
    check(counts(end) == (30, 300, 300), "all steps are accepted")
    check(sum(heights(end)) == sum(heights(begin)) + sum(amount for _, _, amount in POUR),
        "the water sum is the start's and what was poured")
    lines = record.decode().splitlines()
    check(record.startswith(record_head((3, 30, 1), (begin, 7, POUR), 5)), "the record's head")
    check(whole_record(record, "complete: 300 of 300 steps accepted"), "the record's last line")
    check(lines_of(record)[2].startswith(counted(300).decode()), "what its gauges counted")
    check(read("one.channel.run").decode() == beside((begin, 7, POUR), known(end, up_to(record, 300))),
        "what stands beside END")
    rows = [line.split(",") for line in lines[6:-1 - len(STAFFS)]]
    check([row[0] for row in rows] == [str(k) for k in range(0, 301, 5)], "the record's steps")
    check([row[1] for row in rows] == [f"{k * 40 / 1000:.3f}" for k in range(0, 301, 5)], "the record's times")
    for row, data in ((rows[0], begin), (rows[-1], end)):
        check([int(height) for height in row[2:]] == [heights(data)[cell - 1] for cell in (3, 30, 1)],
            "the record's heights are the file's")
    check(not os.path.exists("one.csv.open") and not parts_left(), "nothing is left beside")
    out, err = go("run", "start.channel", "-o", "plain.channel")
    check(err == "", "quiet where standard error is no terminal")
    check(read("plain.channel") != end, "pouring and filter passes do something")
    go("run", "start.channel", "-o", "far.channel", "--filter-every", 300)
    check(read("far.channel") == read("plain.channel"), "no filter pass after the last step")
    go("run", "start.channel", "-o", "far2.channel", "--filter-every", 299)
    check(read("far2.channel") != read("plain.channel"), "a filter pass before the last step")
    go("run", "one.channel", "-o", "again.channel", tells="complete")
    check(read("again.channel") == end, "a complete START gives the same END")
    go("run", "start.channel", "-o", "one.channel", status=REFUSED,
        says=r"one.channel: is there already, is of another run \(--filter-every 7 there, none here; --pour a table "
             r"there, none here\) and is not written over; give another name for END, or --replace")
    check(read("one.channel") == end, "an END that was there stays")
    go("run", "start.channel", "-o", "again.channel", "--replace")
    check(read("again.channel") == read("plain.channel"), "--replace writes over END")
    check(read("again.channel.run").decode() == beside((begin, 0, []), (read("plain.channel"), None)), "and beside it")
    for name in ("many.channel", "many.csv"):
        check(not os.path.exists(name), "a fresh name")
    go("run", "start.channel", "-o", "many.channel", *OPTIONS, "--record", "many.csv", "--checkpoint", "many.check",
        "--checkpoint-every", 13)
    check(read("many.channel") == end and read("many.csv") == record, "checkpoints change nothing")
    check(counts(read("many.check")) == (30, 299, 300), "the last checkpoint on the way")
    text = beside((begin, 7, POUR), known(read("many.check"), up_to(record, 299)))
    check(read("many.check.run").decode().startswith(text.rsplit("sum", 1)[0]), "what stands beside the checkpoint")
    forget(*(name for stem in ("plain", "far", "far2", "again", "many") for name in saved(stem + ".channel")),
        *saved("many.check"), "many.csv")


def cut_and_gone_on(begin, end, record):
    group("runs cut at a checkpoint and gone on with")
    run = (begin, 7, POUR)
    for step in (1, 6, 7, 35, 140, 150, 298, 299):
        # the channel at `step`: a poured amount that is refused in the next step leaves END there
        write("dry.csv", read("pour.csv").replace(f"\n{step + 1},".encode(), f"\n# {step + 1},".encode()) +
              b"".join(f"{step + 1},{cell},-1000000\n".encode() for cell in range(1, 9)))
        go("run", "start.channel", "-o", "cut.check", *(word if word != "pour.csv" else "dry.csv" for word in OPTIONS),
            "--record", "cut.csv", status=OPEN,
            says=rf"step {step + 1} of 300 was refused .*number 4, stage 0\){dry(1, 1000)}.*cut.csv.open: holds the "
                 "record")
        rows = read("cut.csv.open")
        check(whole_record(rows, f"open: {step} of 300 steps accepted"), "the open record says open")
        check(record_rows(rows) == record_rows(up_to(record, step)), "the rows so far")
        check(lines_of(rows)[2].startswith(counted(step).decode()), "what its gauges counted")
        check(counts(read("cut.check")) == (30, step, 300), f"cut at step {step}")
        behind = up_to(record, step)
        write("cut.check.run", beside(run, known(read("cut.check"), behind)))
        # the record as a killed run may leave it: with later rows, with a cut line, with a last line, as a whole one
        leaves = [behind, behind + b"30", behind + record_end(behind, f"open: {step} of 300 steps accepted"),
                  behind + counted(step), behind + counted(step)[:-40], record[:-30], record]
        for k, left in enumerate(leaves):
            write("on.csv.open", left)
            go("run", "cut.check", "-o", "on.channel", *OPTIONS, "--record", "on.csv", name=f"on from {step}, {k}")
            check(read("on.channel") == end, f"on from step {step}: other bytes")
            check(os.path.exists("on.csv") and read("on.csv") == record, f"on from step {step}: another record ({k})")
            check(not os.path.exists("on.csv.open"), "the open record has become the record")
            forget(*saved("on.channel"), "on.csv")
        # the row of its own count lacks where it could not be written, and comes then
        if step % 5 == 0:
            less = up_to(record, step - 1)
            write("cut.check.run", beside(run, (begin, None), known(read("cut.check"), less)))
            write("on.csv.open", less + b"7")
            go("run", "cut.check", "-o", "on.channel", *OPTIONS, "--record", "on.csv")
            check(read("on.channel") == end and read("on.csv") == record, "the row that lacked")
            forget(*saved("on.channel"), "on.csv")
        # rows that are lost or changed are not gone on with
        write("cut.check.run", beside(run, known(read("cut.check"), behind)))
        draw = random.Random(step)
        spoilt = [behind[:-1], behind[:-9] + b"\n", b"", behind.replace(b"# every 5 from step 0\n", b""),
                  record_head((3, 30, 1), run, 5),
                  record_head((3, 30, 1), run, 5, 400) + behind[behind.index(b"\n0,"):]]
        for _ in range(4):
            place = draw.randrange(behind.index(b"\n0,") + 1, len(behind))
            spoilt.append(behind[:place] + (b"7" if behind[place:place + 1] != b"7" else b"3") + behind[place + 1:])
        for k, left in enumerate(spoilt):
            write("on.csv.open", left)
            before = listing()
            if left == b"":
                go("run", "cut.check", "-o", "on.channel", *OPTIONS, "--record", "on.csv",
                    says=f"on.csv.open: the record begins at step {(step + 4) // 5 * 5}: no earlier rows are there")
                check(whole_record(read("on.csv"), "complete: 300 of 300 steps accepted, recorded from step "
                    f"{(step + 4) // 5 * 5}"), "its last line says where it begins")
                forget(*saved("on.channel"), "on.csv")
                continue
            go("run", "cut.check", "-o", "on.channel", *OPTIONS, "--record", "on.csv", status=REFUSED,
                says=r"on.csv.open: ((its rows up to step \d+ are not those that START was saved with|it begins at "
                     r"step 400).*give the command that this run began with|it does not say of which run.*remove it), "
                     "or record under another name",
                name=f"spoilt rows {k} at {step}")
            check(listing() == before, "nothing is written")
        # nor where what stands beside START contradicts itself
        if step > 10:
            text = beside(run, known(read("cut.check"), behind)).rsplit("sum", 1)[0]
            rows = len(record_rows(behind))
            for changed in (text.replace(f" {rows} rows", f" {rows + 1} rows"),
                            text.replace(f" {rows} rows", " 9999999 rows"),
                            text.replace(f"at step {step}", f"at step {step + 5}")):
                write("cut.check.run", summed(changed))
                write("on.csv.open", behind)
                go("run", "cut.check", "-o", "on.channel", *OPTIONS, "--record", "on.csv", status=REFUSED,
                    says="on.csv.open: (its rows up to step .* some are lost|it began with another channel)")
        # nor rows that lack though nothing is changed
        if step > 10:
            less = up_to(record, (step - 1) // 5 * 5 - 5)
            write("cut.check.run", beside(run, known(read("cut.check"), less)))
            write("on.csv.open", less)
            go("run", "cut.check", "-o", "on.channel", *OPTIONS, "--record", "on.csv", status=REFUSED,
                says="on.csv.open: its rows up to step .* some are lost")
        forget(*saved("cut.check"), "cut.csv.open", "on.csv.open")
    check(read("start.channel") == begin, "START has its bytes")


LESS = "pour in or take out less in one step"


def dry(cell, width):
    """What is said of a cell that fell dry in a channel with cells of that width in mm, to the end of the line."""
    middle = (2 * cell - 1) * width // 2
    return rf", in cell {cell}, {middle // 1000}\.{middle % 1000:03} m from the left wall: less than 1 mm of water is " \
        "left\n"


def deeper(cell):
    return f"make the water deeper in cell {cell}, which fell dry, or the waves lower, or take a filter pass more " \
        r"often \(every 20 steps\) or narrower cells"


def or_deeper(cell):
    """The line after advice about the time step."""
    return f"\npathpetal: or make the water deeper in cell {cell}, which fell dry"


def advice():
    group("what to mend after a refused step")
    draw = random.Random(tested.seed + 3)
    cases = [(200, 1000, 100), (327, 1090, 35), (327, 1090, 36), (10, 20000, 1), (40, 20000, 1), (41, 20000, 1),
        (41, 20000, 2), (10, 1, 35), (10, 1, 36), (5000, 20000, 100), (10, 5000, 3), (3999, 20000, 100),
        (4003, 20000, 100), (894, 1000, 100)]
    for _ in range(25):
        width, depth = draw.randint(10, 2000), draw.randint(1, 20000)
        cases.append((width, depth, draw.randint(1, min(100, longest(width, depth, ALLOWED)))))
    for _ in range(15):
        # time steps at the border
        width, depth = draw.randint(30, 1500), draw.randint(1, 20000)
        last = longest(width, depth, ADVISED)
        cases += [(width, depth, step) for step in (last, last + 1) if 1 <= step <= 100]
    told = {"a time step": 0, "a width": 0, "neither": 0}
    for width, depth, step in cases:
        # at most 1 m of water, and all of it taken out of one cell
        low = -1000 * max(depth - 1000, 0)
        write("a.csv", survey([(depth, low)] * 8, "depth_mm,height_um"))
        write("a.pour", f"step,cell,amount_um\n1,4,{-1000 * min(depth, 1000)}\n")
        go("make", "a.csv", "-o", "a.channel", "--width-mm", width, "--step-ms", step, "--steps", 9, "--replace")
        advised = longest(width, depth, ADVISED)
        courant = root(4 * 981 * depth * step * step, 10 * width * width) // 2  # hundredths, the nearest
        why = rf"\(the Courant number is {courant // 100}\.{courant % 100:02}, and 0\.35 is advised\)"
        if courant == 35:
            why = r"\(the Courant number is just above the 0\.35 that is advised\)"
        if step <= advised:
            told["neither"] += 1
            words = f"to mend: {LESS}\npathpetal: or {deeper(4)}"
        elif advised >= 1:
            told["a time step"] += 1
            words = f"to mend: take a shorter time step: at most {advised:,} ms for cells of {width:,} mm and a " \
                rf"depth of {depth:,} mm {why}\npathpetal: or {LESS}{or_deeper(4)}"
        else:
            told["a width"] += 1
            words = f"to mend: take wider cells: at least {narrowest(depth, 1, ADVISED):,} mm for a time step of 1 ms " \
                rf"and a depth of {depth:,} mm {why}\npathpetal: or {LESS}{or_deeper(4)}"
        go("run", "a.channel", "-o", "a.end", "--pour", "a.pour", status=OPEN, name=f"{width}, {depth}, {step}",
            says=rf"\(number 4, stage 0\){dry(4, width)}pathpetal: {words}\npathpetal: a.end: open: 0 of 9 steps "
                 "accepted")
        forget("a.end")
    check(min(told.values()) >= 3, f"each is told: {told}")
    # ten corrections that do not settle: too long a step, too narrow cells, and both
    waves = [(40, round(800 * math.cos(math.pi * (j + 0.5) / 4))) for j in range(64)]
    hump = lambda depth, top, half: [(depth, round(top * math.exp(-((j - 31.5) / half) ** 2))) for j in range(64)]
    longer = r"to mend: take a shorter time step: at most {} ms for cells of {} mm and a depth of {} mm \(the " \
        r"Courant number is {}, and 0.35 is advised\)"
    wider = r"take wider cells: at least {} mm for a depth of {} mm \(at most 10 of depth over width is advised\)"
    for rows, width, step, words in ((waves, 20, 78, longer.format(11, 20, 40, "2.44")),
        (hump(10000, 300, 2), 250, 8, "to mend: " + wider.format("1,000", "10,000")),
        (hump(20000, 1000, 20), 100, 5, longer.format(2, 100, "20,000", "0.70") + "\npathpetal: or better "
            + wider.format("2,000", "20,000"))):
        write("a.csv", survey(rows, "depth_mm,height_um"))
        go("make", "a.csv", "-o", "a.channel", "--width-mm", width, "--step-ms", step, "--steps", 1500, "--replace")
        go("run", "a.channel", "-o", "a.end", status=OPEN,
            says=rf"\(number 10, stage 10\): [^\n]*\npathpetal: {words}\npathpetal: a.end: open")
        forget("a.end")
    forget("a.csv", "a.pour", "a.channel", "a.end")


def refused_steps():
    group("steps that are refused")
    write("dry.csv", survey([(50,)] * 20, "depth_mm"))
    go("make", "dry.csv", "-o", "dry.channel", "--width-mm", 1000, "--step-ms", 1, "--steps", 40)
    begin = read("dry.channel")
    write("up.csv", "step,cell,amount_um\n10,10,1000000\n")
    go("run", "dry.channel", "-o", "dry.end", "--pour", "up.csv", "--filter-every", 10, status=OPEN,
       says=rf"^pathpetal: the filter pass before step 11 of 40 was refused \(number 4\){dry(8, 1000)}"
       f"pathpetal: to mend: {LESS}\npathpetal: or {deeper(8)}\npathpetal: dry.end: open: 10 of 40 steps accepted\n$")
    end_is_true("dry.end", "refused filter pass", False)
    check(counts(read("dry.end")) == (20, 10, 40), "what was accepted is kept")
    go("run", "dry.end", "-o", "dry.end2", "--pour", "up.csv", "--filter-every", 10, status=OPEN,
        says=f"the filter pass before step 11 of 40 [^\n]*\npathpetal: to mend: {LESS}\npathpetal: or {deeper(8)}\n"
             "pathpetal: dry.end2: open")
    check(read("dry.end2") == read("dry.end"), "the same refusal when gone on with")
    write("down.csv", "step,cell,amount_um\n17,10,-60000\n")
    go("run", "dry.channel", "-o", "dry.end3", "--pour", "down.csv", "--filter-every", 16, status=OPEN,
        says=rf"step 17 of 40 was refused in its prediction or before it \(number 4, stage 0\){dry(10, 1000)}"
        f"pathpetal: to mend: {LESS}\npathpetal: or {deeper(10)}\npathpetal: dry.end3: open")
    go("run", "dry.channel", "-o", "dry.end4", "--pour", "down.csv", status=OPEN,
        says="dry.end4: open: 16 of 40 steps accepted")
    check(read("dry.end3") == read("dry.end4") and counts(read("dry.end4")) == (20, 16, 40),
        "a filter pass before a refused step is not kept")
    check(read("dry.channel") == begin, "START has its bytes")
    rough = [-19403, 82634, -45743, 27746, -5213, -44147, 75776, -56945, -69366, -32386, -50844, -85741, 70469, -66192,
        -34477, -75723, -29617, 31426, -21128, -81135]
    write("rough.csv", survey([(1000, height) for height in rough], "depth_mm,height_um"))
    go("make", "rough.csv", "-o", "rough.channel", "--width-mm", 200, "--step-ms", 100, "--steps", 2000)
    go("run", "rough.channel", "-o", "rough.end", "--staff", 4, "--record", "rough.csv.record", status=OPEN,
       says=rf"step 614 of 2,000 was refused in its correction 2 \(number 4, stage 2\){dry(20, 200)}pathpetal: to "
       r"mend: take a shorter time step: at most 22 ms for cells of 200 mm and a depth of 1,000 mm \(the Courant number is "
       rf"1.57, and 0.35 is advised\){or_deeper(20)}\npathpetal: rough.end: open: 613 of 2,000 steps accepted")
    end_is_true("rough.end", "refused step", False)
    check(counts(read("rough.end")) == (20, 613, 2000), "613 steps are kept")
    check(whole_record(read("rough.csv.record.open"), "open: 613 of 2000 steps accepted")
        and not os.path.exists("rough.csv.record"), "the record says open")
    check(sum(heights(read("rough.end"))) == sum(rough), "the water sum is the start's")
    go("check", "rough.end", "--complete", status=OPEN, tells="open: 613 of 2,000")
    go("check", "rough.end", tells="open: 613 of 2,000")
