"""What the gauges at the staffs counted: against every height of a run, through cuts, and in what is changed."""
import os, random, re, shutil, signal
from fractions import Fraction
import xml.etree.ElementTree as xml

from common import (ALL, INTERRUPTED, NO_STAFFS, OPEN, OPTIONS, POUR, REFUSED, STAFFS, TOP, check, counted, forget, go,
    group, grown, known, listing, parts_left, read, saved, start, tested, until, write)
from formats import (Gauge, beside, count_lines, counts, every_height, gauge_lines, heights, lines_of, record_end,
    record_rows, survey, unruled, up_to, wave_words, whole_record)

BY = "  waves by the proved counts of {}; in brackets the time of the largest, noted by the host\n"
NONE = "  no counts of waves: {}\n"
EARLIER = NONE.format("an earlier program wrote this record")
CUT = NONE.format("the run that writes them was cut, or still goes; give its command again")
UNTRUE = "the gauges beside it cannot be its own"


def gauges(begin, end, record):
    from_the_files()
    whatever_every(record)
    many_staffs()
    small_waves()
    beyond_the_rows()
    gone_on_with(begin, end, record)
    begun_late(end)
    untrue_gauges(begin, end, record)
    untrue_counts(end, record)
    changed_counts(record)
    in_words(record)


def last_lines(record):
    """What a record says after its rows."""
    return lines_of(record)[2].encode()


def show(path, *more):
    return go("show", "--staff", path, *more)[0]


def from_the_files():
    """A channel is made to want 1 step, 2 steps and so on: the heights in each END are those that the gauges of the
    longest of these runs were fed."""
    group("gauges, against the heights in the file of every step")
    write("f.csv", survey([(900, 9000 * (j % 4 == 1) - 9000 * (j % 4 == 3)) for j in range(14)], "depth_mm,height_um"))
    poured = [(step, 1 + step % 14, 90 - step * 37 % 190) for step in range(2, 120, 5)]
    fed = [[], [], []]
    for steps in range(1, 121):
        write("f.pour", "step,cell,amount_um\n" + "".join(f"{a},{b},{c}\n" for a, b, c in poured if a <= steps))
        go("make", "f.csv", "-o", "f.channel", "--width-mm", 300, "--step-ms", 30, "--steps", steps, "--replace")
        go("run", "f.channel", "-o", "f.end", "--pour", "f.pour", "--filter-every", 11, "--replace")
        for cell, row in zip((4, 12, 8), fed):
            row.append(heights(read("f.end"))[cell - 1])
    check(all(Gauge(row).waves >= 2 for row in fed), "each has waves")
    for every in (1, 4, 120):
        go("run", "f.channel", "-o", "f.end", "--pour", "f.pour", "--filter-every", 11, "--staff", "4,12,8", "--record",
            "f.record", "--every", every, "--replace")
        lines = count_lines((4, 12, 8), fed)
        record = read("f.record")
        check(last_lines(record) == lines + record.splitlines(True)[-1], f"every {every}: {record[-600:]!r}")
        check(show("f.record").endswith(BY.format("all 120 steps") + wave_words((4, 12, 8), fed, 30)), "as shown")
    forget("f.csv", "f.pour", "f.channel", *saved("f.end"), "f.record")


def whatever_every(record):
    group("gauges are fed after every step, whatever --every is, and never the start")
    wave = wave_words(STAFFS, tested.fed, 40)
    for every in (1, 2, 5, 7, 10, 299, 300, 301, 1000000):
        go("run", "start.channel", "-o", "g.end", *OPTIONS[:-1], every, "--record", "g.csv")
        check(last_lines(read("g.csv")).startswith(counted(300)) and whole_record(read("g.csv"), ALL), f"every {every}")
        told = show("g.csv", "--svg", "g.svg")
        rows, time = 300 // every + 1, f"{300 // every * every * 40 / 1000:.3f}"
        check(f"  {rows} row{'s' * (rows > 1)}, from 0.000 s to {time} s; lowest and highest are those of the rows\n"
            in told, f"every {every}: {told}")
        if every <= 300:
            check(told.endswith(BY.format("all 300 steps") + wave), f"every {every}: {told}")
            picture(read("g.svg"), tested.fed)
        else:  # no row tells the time of a step
            step = [gauge.noted for gauge in map(Gauge, tested.fed)]
            check(all(f" (from step {a} to step {b})\n" in told for a, b in step), f"every {every}: {told}")
            picture(read("g.svg"), [])
        go("check", "--staff", "g.csv", "--complete")
        forget(*saved("g.end"), "g.csv", "g.svg")
    check(lines_of(record)[2].encode().startswith(counted(300)), "the record of the run that most tests look at")


def many_staffs():
    group("more than eight staffs")
    draw = random.Random(tested.seed + 5)
    for cells, steps in ((30, 300), (120, 90), (256, 60)):
        write("m.csv", survey([(700, draw.randrange(-9000, 9000)) for _ in range(cells)], "depth_mm,height_um"))
        go("make", "m.csv", "-o", "m.channel", "--width-mm", 500, "--step-ms", 40, "--steps", steps)
        for number in sorted({8, 9, 16, 17, 20, cells}):
            marked = draw.sample(range(1, cells + 1), min(number, cells))
            options = ("--filter-every", 20, "--staff", ",".join(map(str, marked)), "--record", "m.r")
            go("run", "m.channel", "-o", "m.each", *options)
            fed = every_height(read("m.r"))
            check(last_lines(read("m.r")).startswith(count_lines(marked, fed)) and sum(Gauge(row).waves for row in fed),
                f"{number} of {cells}")
            forget("m.r", *saved("m.each"))
            go("run", "m.channel", "-o", "m.end", *options, "--every", 7, "--checkpoint", "m.check",
                "--checkpoint-every", 25)
            record = read("m.r")
            check(last_lines(record).startswith(count_lines(marked, fed)), f"{number} of {cells}, every 7")
            step = counts(read("m.check"))[1]
            behind = up_to(record, step)
            text = beside((read("m.channel"), 20, []), (read("m.check"), behind,
                gauge_lines(marked, [row[:step] for row in fed])))
            check(read("m.check.run").decode().startswith(text.rsplit("sum", 1)[0]), "beside the checkpoint")
            # from the checkpoint, as a killed run leaves it
            os.rename("m.r", "m.r.open")
            forget(*saved("m.end"))
            go("run", "m.channel", "-o", "m.end", *options, "--every", 7, "--checkpoint", "m.check",
                "--checkpoint-every", 25, says="m.check: is of this run, cut before: goes on after step")
            check(read("m.r") == record, f"{number} of {cells}: gone on with, another record")
            told = show("m.r", "--svg", "m.svg")
            check(told.endswith(BY.format(f"all {steps} steps") + wave_words(marked, fed, 40)), "as shown")
            picture(read("m.svg"), fed)
            forget("m.r", "m.svg", *saved("m.end", "m.check"))
        forget("m.channel", "m.csv")


def picture(svg, fed, placed=0):
    """A picture of a record whose gauges were fed these heights: for each staff that has waves the time of the largest
    is shaded, where it was among all steps and nowhere else; so is a patch in the key, if any is. All is within the
    sheet."""
    sheet = xml.fromstring(svg)
    wide, high = float(sheet.get("width")), float(sheet.get("height"))
    name = "{http://www.w3.org/2000/svg}"
    shaded = [rect for rect in sheet.iter(name + "rect") if rect.get("class") == "largest"]
    gauges = [gauge for gauge in (Gauge(row, placed) for row in fed) if gauge.waves]
    check(len(shaded) == len(gauges) + bool(gauges), f"{len(shaded)} times are shaded, {len(gauges)} staffs have waves")
    words = " ".join(sheet.itertext())
    check(("when the largest wave was (noted by the host)" in words) == bool(gauges), f"the key: {words}")
    for rect, gauge in zip(shaded, gauges):
        x, y, w, h = (float(rect.get(at)) for at in ("x", "y", "width", "height"))
        begin, end = (110 + 860 * (step - placed) / gauge.fed for step in gauge.noted)
        begin = min(begin, 968)
        if not (abs(x - begin) < 0.11 and abs(w - max(end - begin, 2)) < 0.11):
            check(False, f"shaded from {x}, {w} wide, and not from {begin} to {end}")
        if not (110 <= x and x + w <= 970.1 and 0 <= y and y + h <= high and wide == 1000):
            check(False, f"{x}, {y}, {w}, {h}: not within the panels")
    check(all(float(text.get("y")) < high for text in sheet.iter(name + "text") if text.get("y")),
        "words within the sheet")


def beyond_the_rows():
    """The largest wave runs after the last row, or before the first: it is shaded where it was."""
    group("gauges whose largest wave lies between no rows")
    go("make", os.path.join(TOP, "examples", "survey.csv"), "-o", "b.channel", "--width-mm", 2000, "--step-ms", 50,
        "--steps", 600)
    go("run", "b.channel", "-o", "b.end", "--staff", "10,60", "--record", "b.csv", "--checkpoint", "b.check",
        "--checkpoint-every", 101)
    fed = every_height(read("b.csv"))
    forget("b.csv", *saved("b.end", "b.check"))
    go("run", "b.channel", "-o", "b.end", "--staff", "10,60", "--record", "b.csv", "--every", 350, "--checkpoint",
        "b.check", "--checkpoint-every", 101)
    check(any(Gauge(row).noted[0] > 350 for row in fed), "one is after the last row")
    told = show("b.csv", "--svg", "b.svg")
    check(told.endswith(wave_words((10, 60), fed, 50)) and "2 rows, from 0.000 s to 17.500 s; " in told, told)
    picture(read("b.svg"), fed)
    # from a checkpoint, with one row that is the last step's
    go("run", "b.channel", "-o", "c.end", "--checkpoint", "c.check", "--checkpoint-every", 101)
    step = counts(read("c.check"))[1]
    go("run", "c.check", "-o", "d.end", "--staff", "60,10", "--record", "d.csv", "--every", 600)
    late = [row[step:] for row in reversed(fed)]
    told = show("d.csv", "--svg", "d.svg")
    check(told.endswith(wave_words((60, 10), late, 50, step)) and "1 row, from 30.000 s to 30.000 s; " in told, told)
    picture(read("d.svg"), late, step)
    forget("b.channel", "b.csv", "b.svg", "d.csv", "d.svg", *saved("b.end", "b.check", "c.end", "c.check", "d.end"))


def small_waves():
    group("waves of the same height, and none")
    draw = random.Random(tested.seed + 6)
    same = 0
    for k in range(12):
        write("w.csv", survey([(500, draw.randrange(-2, 3)) for _ in range(12)], "depth_mm,height_um"))
        go("make", "w.csv", "-o", "w.channel", "--width-mm", 300, "--step-ms", 40, "--steps", 500, "--replace")
        go("run", "w.channel", "-o", "w.end", "--staff", ",".join(map(str, range(1, 13))), "--record", "w.r",
            "--replace")
        fed = every_height(read("w.r"))
        check(last_lines(read("w.r")).startswith(count_lines(range(1, 13), fed)), "small waves")
        for row in fed:
            at = [j for j in range(1, 500) if row[j - 1] < 0 <= row[j]]
            sizes = [max(row[a:b]) - min(row[a:b]) for a, b in zip(at, at[1:])]
            same += sizes.count(max(sizes, default=0)) > 1
    check(same >= 10, f"the largest height comes twice or more at {same} staffs only")
    write("w.csv", survey([(500,)] * 12, "depth_mm"))
    go("make", "w.csv", "-o", "w.channel", "--width-mm", 300, "--step-ms", 40, "--steps", 50, "--replace")
    go("run", "w.channel", "-o", "w.end", "--staff", "4,9", "--record", "w.r", "--replace")
    still = "# cell {}: 50 heights from step 1, 0 waves, largest 0 um, sum 0 um\n"
    check(last_lines(read("w.r")).decode().startswith(still.format(4) + still.format(9)), "still water")
    check(show("w.r", "--svg", "w.svg").endswith(
        BY.format("all 50 steps") + "  cell 4: no complete wave\n  cell 9: no complete wave\n"), "no complete wave")
    picture(read("w.svg"), [[0] * 50] * 2)
    forget("w.csv", "w.channel", "w.r", "w.svg", *saved("w.end"))


def gone_on_with(begin, end, record):
    group("gauges through checkpoints, interrupts and refused steps")
    draw = random.Random(tested.seed + 7)
    command = ("run", "start.channel", "-o", "g.end", *OPTIONS, "--record", "g.csv", "--checkpoint", "g.check")
    files = ("g.csv", "g.csv.open", *saved("g.end", "g.check"))
    for every in (1, 3, 33, 149, 299):
        go(*command, "--checkpoint-every", every)
        check(read("g.csv") == record, "checkpoints change nothing")
        step = counts(read("g.check"))[1]
        # under other names, and the same RECORD
        go("run", "g.check", "-o", "h.end", *OPTIONS, "--record", "g.csv")
        check(read("g.csv") == record and read("h.end") == end, f"from step {step} under another name")
        check(read("h.end.run").decode() == beside((begin, 7, POUR), known(end, up_to(record, 300))), "and beside it")
        forget(*files, *saved("h.end"))
    # refused steps, again and again
    for step in (1, *sorted(draw.sample(range(2, 299), 6))):
        write("dry.csv", read("pour.csv").replace(f"\n{step + 1},".encode(), f"\n# {step + 1},".encode()) +
            b"".join(f"{step + 1},{cell},-1000000\n".encode() for cell in range(1, 9)))
        for _ in range(2):
            go(*(word if word != "pour.csv" else "dry.csv" for word in command), "--checkpoint-every", 40, status=OPEN)
            check(last_lines(read("g.csv.open")).startswith(counted(step)), f"open at step {step}")
            told = show("g.csv.open")
            check(f"open: {step} of 300 steps accepted" in told and
                BY.format(f"the first {step} step{'s' * (step > 1)}") in told, told)
            check("complete:" not in told, told)
            if step >= 5:
                check(told.endswith(wave_words(STAFFS, [row[:step] for row in tested.fed], 40)), told)
        forget(*files, "dry.csv")
    interrupted_slowly()


def interrupted_slowly():
    """A run of many steps is interrupted and killed; what it tells then, and in the end."""
    go("make", "start.csv", "-o", "slow.channel", "--width-mm", 1000, "--step-ms", 40, "--steps", 60000)
    cells = (3, 30, 1, 2, 4, 5, 6, 7, 8, 9)
    options = ("--filter-every", 20, "--staff", ",".join(map(str, cells)))
    words = ("run", "slow.channel", "-o", "s.end", *options, "--every", 50, "--record", "s.csv", "--checkpoint",
        "s.check", "--checkpoint-every", 997)
    go(*words)
    whole = read("s.csv")
    forget("s.csv", *saved("s.end", "s.check"))
    go("run", "slow.channel", "-o", "t.end", *options, "--record", "t.csv")
    fed = every_height(read("t.csv"))
    forget("t.csv", *saved("t.end"))
    check(last_lines(whole).startswith(count_lines(cells, fed)), "in one go")
    for size in (20000, 40000):
        process = start(*words)
        until(process, grown("s.csv.open", size))
        process.send_signal(signal.SIGINT)
        _, err = process.communicate(timeout=60)
        check(process.returncode == INTERRUPTED, f"{err!r}")
        step = counts(read("s.end"))[1]
        lines = count_lines(cells, [row[:step] for row in fed])
        check(last_lines(read("s.csv.open")).startswith(lines), f"interrupted at step {step}")
        check(BY.format(f"the first {step:,} steps") in show("s.csv.open"), "of which steps they are")
        process = start(*words)
        until(process, grown("s.csv.open", size + 10000))
        process.kill()
        process.communicate(timeout=60)
        told = show("s.csv.open")
        check(told.endswith(CUT) and "proved" not in told, told)
    go(*words, says="is of this run, cut before: goes on")
    check(read("s.csv") == whole, "interrupted, killed and gone on with: another record")
    forget("slow.channel", "s.csv", *saved("s.end", "s.check"), *parts_left())


def begun_late(end):
    group("gauges of a record that begins late")
    go("run", "start.channel", "-o", "p.end", *NO_STAFFS, "--checkpoint", "p.check", "--checkpoint-every", 157)
    shutil.copy("p.check", "copied")
    for source, every in (("p.check", 5), ("copied", 5), ("p.check", 1), ("p.check", 143)):
        first = -(-157 // every) * every
        line = ("run", source, "-o", "l.end", *OPTIONS[:-1], every, "--record", "l.csv")
        go(*line, "--checkpoint", "l.check", "--checkpoint-every", 31)
        record, after = read("l.csv"), counted(300, 157)
        if source == "copied":  # a run of its own has filter passes of its own, at the same steps
            check(read("l.end") == end, "the same numbers")
        check(last_lines(record).startswith(after) and whole_record(record, f"{ALL}, recorded from step {first}"),
            f"{source}, every {every}: {record[-700:]!r}")
        check(b"143 heights from step 158," in last_lines(record), "how many, and from which step on")
        told = show("l.csv")
        check(BY.format("the 143 steps from step 158 on") in told and f"recorded from step {first}" in told, told)
        go("check", "--staff", "l.csv", "--complete")
        if source == "copied":  # nothing was fed before the channel that the run began with
            sooner = record[:record.rindex(b"#")].replace(b"143 heights from step 158", b"144 heights from step 157")
            write("sooner.csv", sooner + record_end(sooner, f"{ALL}, recorded from step {first}"))
            go("check", "--staff", "sooner.csv", status=REFUSED, says="not whole")
            forget("sooner.csv")
        # cut, and gone on with
        os.rename("l.csv", "l.csv.open")
        forget(*saved("l.end"))
        go(*line, "--checkpoint", "l.check", "--checkpoint-every", 31, says="l.check: is of this run, cut before")
        check(read("l.csv") == record, "gone on with: another record")
        forget(*saved("l.end"))
        go("run", "l.check", "-o", "l.end", *OPTIONS[:-1], every, "--record", "l.csv")
        check(read("l.csv") == record, "gone on with from the checkpoint: another record")
        forget("l.csv", *saved("l.end", "l.check"))
    # the first row is that of another START too, but not the first height
    go("run", "start.channel", "-o", "q.end", *NO_STAFFS, "--checkpoint", "q.check", "--checkpoint-every", 156)
    line = ("-o", "l.end", *OPTIONS, "--record", "l.csv")
    go("run", "p.check", *line)
    before = listing()
    stays = "l.end: is of this run, but its waves are counted from step 158 on: it is not gone on with, and stays"
    there = "l.csv: is there already and is not written over; give another name for RECORD, or --replace"
    go("run", "q.check", *line, status=REFUSED, says=f"{stays}.*{there}")
    go("run", "q.check", "-o", "m.end", *OPTIONS, "--record", "l.csv", status=REFUSED, says=there)
    check(listing() == before, "the record of another START stays")
    go("run", "q.check", *line, "--replace", says=stays)
    check(last_lines(read("l.csv")).startswith(counted(300, 156)), "from the step after START on")
    go("run", "q.check", *line, tells="it was there already")
    # that of the same START is this run's own; one without counts is not
    late = read("l.csv")
    forget(*saved("l.end"))
    go("run", "q.check", *line)
    check(read("l.csv") == late, "written over by the same")
    rows = up_to(late, 300)
    write("l.csv", rows + record_end(rows, f"{ALL}, recorded from step 160"))
    forget(*saved("l.end"))
    before = listing()
    go("run", "q.check", *line, status=REFUSED, says=there)
    check(listing() == before, "one without counts stays")
    # a channel that is complete already, and one whose first step is refused
    forget("l.csv", *saved("l.end"))
    go("run", "p.end", "-o", "l.end", *OPTIONS, "--record", "l.csv")
    check(last_lines(read("l.csv")).startswith(counted(300, 300)), "no step, no height")
    check(BY.format("no step") in show("l.csv"), "of no step")
    forget("l.csv", *saved("l.end"), "copied", *saved("p.end", "p.check", "q.end", "q.check"))
    write("dry.csv", "step,cell,amount_um\n" + "".join(f"1,{cell},-1000000\n" for cell in range(1, 9)))
    go("run", "start.channel", "-o", "l.end", "--pour", "dry.csv", "--staff", "3,4", "--record", "l.csv", status=OPEN)
    check(last_lines(read("l.csv.open")).startswith(count_lines((3, 4), ([], []))), "no step is accepted")
    check(BY.format("no step") in show("l.csv.open"), "of no step")
    forget("l.csv.open", *saved("l.end"), "dry.csv")


def untrue_gauges(begin, end, record):
    """What stands beside a channel is whole, of this run and has its rows, but its gauges cannot be its own; or a digit
    of it was changed."""
    group("gauges beside a channel that are damaged, or not its own")
    run = (begin, 7, POUR)
    command = ("run", "start.channel", "-o", "u.end", *OPTIONS, "--record", "u.csv", "--checkpoint", "u.check",
        "--checkpoint-every", 140)
    files = ("u.csv", "u.csv.open", *saved("u.end", "u.check"))
    go(*command)
    half, behind = read("u.check"), up_to(record, 280)
    true = gauge_lines(STAFFS, [row[:280] for row in tested.fed])
    lines = [line.split() for line in true.splitlines()]

    def with_numbers(gauge, numbers):
        return "".join(" ".join(str(numbers.get(place, word)) if k == gauge else word for place, word in
            enumerate(line)) + "\n" for k, line in enumerate(lines))

    def with_number(gauge, place, number):
        return with_numbers(gauge, {place: number})

    cell, fed, last, crossings, highest, lowest, largest, total, _, crossed, began, ended = range(1, 13)
    cases = {"another cell": with_number(0, cell, 4), "cell 0": with_number(1, cell, 0),
        "cell 257": with_number(2, cell, 257), "one height less": with_number(0, fed, 279),
        "one more": with_number(1, fed, 281),
        "all one less": re.sub(r"(gauge \d+) 280 ", r"\1 279 ", true),
        "all far more": re.sub(r"(gauge \d+) 280 ", r"\1 281 ", true), "a million": with_number(2, fed, 1000001),
        "another height": with_number(0, last, int(lines[0][last]) - 1), "too low": with_number(0, last, -19999001),
        "too high": with_number(0, last, 20000001),
        "too many crossings": with_number(0, crossings, 141), "fewer than none": with_number(0, crossings, -1),
        "highest below lowest": with_number(0, highest, int(lines[0][lowest]) - 1),
        "a largest above all": with_number(0, largest, 39999001), "a sum below the largest": with_number(0, total, 1),
        "a sum too far": with_number(0, total, 10 ** 13), "a crossing to come": with_number(0, crossed, 281),
        "no crossing noted": with_number(0, crossed, 0), "from the start": with_number(0, began, 1),
        "no begin": with_number(0, began, 0), "an end before it": with_number(0, ended, int(lines[0][began]) - 1),
        "an end beyond the last crossing": with_number(0, ended, 280),
        "a sum above the largest times the waves": with_number(0, total, 2 * int(lines[0][largest]) + 1),
        "waves of no height": with_numbers(0, {largest: 0, total: 0}), "a largest of 0": with_number(0, largest, 0),
        "a highest below the last": with_number(2, highest, int(lines[2][last]) - 1),
        "a lowest above the last": with_number(0, lowest, int(lines[0][last]) + 1),
        "no height of a crossing": with_number(0, highest, -1), "a crossing below zero": with_number(0, crossed, 280),
        "no crossing, but a highest": with_numbers(1, {crossings: 0, crossed: 0}),
        "one lacks": "".join(true.splitlines(True)[:2]),
        "one too many": true + true.splitlines(True)[0], "another order": "".join(reversed(true.splitlines(True)))}
    check([line[place] for line, place in zip(lines, (crossings, crossings, last))] == ["3", "1", "1749"] and
        int(lines[0][last]) < 0, f"the gauges that these cases are made of: {true}")
    for name, text in cases.items():
        forget(*files)
        write("u.check", half)
        write("u.check.run", beside(run, (half, behind, text)))
        write("u.csv.open", behind)
        go(*command, name=name, says=f"u.check: is of this run, but ({UNTRUE}|its waves are counted from step [02] on)"
            ": it is not gone on with, and stays")
        check(read("u.csv") == record and read("u.end") == end, f"{name}: other bytes")
        go(*command, name=name, tells="it was there already")
        # the same beside START
        forget(*saved("u.end"), "u.csv")
        write("u.check", half)
        write("u.check.run", beside(run, (half, behind, text)))
        write("u.csv.open", behind)
        before = listing()
        go("run", "u.check", "-o", "u.end", *OPTIONS, "--record", "u.csv", status=REFUSED, name=name,
            says=f"u.check: {UNTRUE}\npathpetal: give the command that this run began with, or record under another "
                 "name")
        check(listing() == before, f"{name}: something was written or changed")
    # made up on purpose: whatever is taken, the record in the end is whole
    draw = random.Random(tested.seed + 8)
    taken = 0
    for _ in range(300):
        gauge = draw.randrange(3)
        numbers = {place: draw.choice((0, 0, -1, 1, 2, 3, int(lines[gauge][place]) + draw.randrange(-3, 4),
            int(lines[gauge][draw.choice((last, highest, lowest, largest, total, crossed, began, ended))]),
            draw.randrange(281), -draw.randrange(9000), draw.randrange(99000)))
            for place in draw.sample((crossings, highest, lowest, largest, total, crossed, began, ended),
                draw.randrange(1, 4))}
        if draw.random() < 0.3:  # as if there had been no wave, or no crossing
            numbers = {crossings: 1, largest: 0, total: 0, began: 0, ended: 0, **numbers}
        elif draw.random() < 0.3:
            numbers = {place: 0 for place in range(crossings, ended + 1) if place != 9} | numbers
        forget(*files)
        write("u.check", half)
        write("u.check.run", beside(run, (half, behind, with_numbers(gauge, numbers))))
        write("u.csv.open", behind)
        _, err = go(*command)
        taken += "cut before: goes on after step 280" in err
        go("check", "--staff", "u.csv", "--complete", tells="complete: all 300", name=f"{gauge} with {numbers}")
    check(taken >= 10, f"{taken} of 300 are taken")
    # a digit changed: its sum tells, whichever it is
    text = beside(run, (half, behind, true))
    forget(*files)
    for place in [k for k in range(text.index("gauge"), text.index("sum ")) if text[k].isdigit()]:
        write("u.check", half)
        write("u.csv.open", behind)
        write("u.check.run", text[:place] + str((int(text[place]) + 1) % 10) + text[place + 1:])
        before = listing()
        go(*command, status=REFUSED, says="u.check.run: is none that a run writes beside its channel")
        check(listing() == before, "something was written or changed")
    write("u.check.run", text)
    go(*command, says="u.check: is of this run, cut before: goes on after step 280")
    check(read("u.csv") == record, "as it was saved it is gone on with")
    forget(*files)


def untrue_counts(end, record):
    """A record that is whole, has the rows that END was saved with and counts that its gauges can have, but not theirs:
    it is not there already."""
    group("a complete record with other counts than END was saved with")
    command = ("run", "start.channel", "-o", "u.end", *OPTIONS, "--record", "u.csv")
    go(*command)
    rows, true = up_to(record, 300), counted(300)
    largest = int(re.search(rb"largest (\d+)", true)[1])
    for other in (true.replace(b"largest %d" % largest, b"largest %d" % (largest - 1), 1),
                  re.sub(rb"sum (\d+)", lambda found: b"sum %d" % (int(found[1]) - 1), true, count=1),
                  re.sub(rb"to step (\d+)", lambda found: b"to step %d" % (int(found[1]) - 1), true, count=1)):
        write("u.csv", rows + other + record_end(rows + other, ALL))
        go("check", "--staff", "u.csv", "--complete", tells="complete: all 300 steps accepted")
        out, _ = go(*command, says="u.end: is of this run, cut before: goes on after step 300")
        check("already" not in out and read("u.csv") == record and read("u.end") == end, "written anew")
    go(*command, tells="it was there already")
    forget("u.csv", *saved("u.end"))


def changed_counts(record):
    group("a record whose counts were changed")
    head, rows, last = lines_of(record)
    whole, lines = head + "".join(rows), last.splitlines(True)
    ended = lambda text, words=ALL: text + record_end(text.encode(), words).decode()
    number = lambda text, name, to: re.sub(rf"(# cell 3: .*?){name}", rf"\g<1>{to}", text, flags=re.S)
    one, two, three = lines[:3]
    places = [k for k, c in enumerate(last[:last.rindex("# complete")]) if c.isdigit()]
    cases = {f"a digit changed at {k}": whole + last[:k] + str((int(last[k]) + 1) % 10) + last[k + 1:] for k in places}
    cases.update({"a line lost": whole + two + three + lines[3], "all lines lost": whole + lines[3],
        "a word changed": whole + last.replace("waves", "wave"),
        "spaces": whole + last.replace(", largest", ",  largest")})
    # by somebody who works the sum out anew
    cases.update({name: ended(whole + text) for name, text in {
        "none": "", "one lacks": one + two, "one twice": one + one + two + three, "another order": two + one + three,
        "other cells": (one + two + three).replace("cell 30", "cell 29"),
        "fewer heights": (one + two + three).replace("300 heights", "299 heights"),
        "heights of one fewer": one.replace("300 heights from step 1", "299 heights from step 2") + two + three,
        "waves that cannot be": number(one, "3 waves", "150 waves") + two + three,
        "none, with a largest": re.sub(r"3 waves|, noted.*(?=\n)", lambda m: "0 waves" if m[0][0] == "3" else "", one)
            + two + three,
        "a sum below the largest": re.sub(r"sum \d+", "sum 1", one) + two + three,
        "a sum too far": re.sub(r"sum \d+", "sum 99999999", one) + two + three,
        "a largest above all": re.sub(r"largest \d+ um, sum \d+", "largest 39999001 um, sum 39999001", one) + two
            + three,
        "noted before the first": re.sub(r"from step \d+ to", "from step 1 to", one) + two + three,
        "noted beyond the last": re.sub(r"to step \d+\n", "to step 301\n", one) + two + three,
        "noted backwards": re.sub(r"to step \d+\n", "to step 2\n", one) + two + three}.items()})
    cases["between the rows"] = ended(head + "".join(rows[:9]) + one + two + three + "".join(rows[9:]))
    cases["before the rows"] = ended(head + one + two + three + "".join(rows))
    for name, text in cases.items():
        write("c.csv", text)
        told = show("c.csv")
        check("not whole: cut or changed after it was written" in told and "complete" not in told and
            "proved" not in told and told.endswith(NONE.format("the record is not whole")), f"{name}: {told}")
        go("check", "--staff", "c.csv", "--complete", status=REFUSED, name=name)
    # cut inside what its gauges counted, or after it: open, as the rows alone are
    for name, text in (("inside", whole + one + two[:30]), ("after a line", whole + one),
                       ("after all", whole + one + two + three), ("in the last line", (whole + last)[:-9])):
        write("c.csv", text)
        told = show("c.csv")
        check("open: cut after step 300" in told and told.endswith(CUT) and "proved" not in told, f"cut {name}: {told}")
        go("check", "--staff", "c.csv", "--complete", status=OPEN, name=name)
    # an endless count of such lines
    write("c.csv", whole + one * 200000)
    check("proved" not in show("c.csv"), "many lines")
    forget("c.csv")


def in_words(record):
    """Records of the earliest programs tell no counts, and their pictures none; those of this one do."""
    group("gauges in words and in the picture")
    rows, some = unruled(up_to(record, 300)), unruled(up_to(record, 145))
    for name, text, words in (
            ("complete", rows + record_end(rows, ALL), "complete: all 300 steps accepted"),
            ("open", some + record_end(some, "open: 148 of 300 steps accepted"), "open: 148 of 300 steps accepted"),
            ("without a sum", record.splitlines(True)[0] + b"".join(record_rows(record)) +
                b"# complete: 300 of 300 steps accepted\n", "cannot tell whether whole")):
        write("o.csv", text)
        out = show("o.csv", "--svg", "o.svg")
        check(words in out and out.endswith(EARLIER) and "proved" not in out, f"{name}: {out}")
        check("largest" not in "".join(xml.fromstring(read("o.svg")).itertext()).split("}")[-1], "nor does its picture")
        forget("o.csv", "o.svg")
    out = show("one.csv", "--svg", "o.svg")
    words = " ".join(xml.fromstring(read("o.svg")).itertext())
    for row in tested.fed:
        gauge = Gauge(row)
        mean = round(Fraction(gauge.sum, gauge.waves))
        check(f"{gauge.waves} wave{'s' * (gauge.waves > 1)}, mean {mean / 1000:.3f} mm, largest "
            f"{gauge.largest / 1000:.3f} mm" in words, f"the picture's words: {words}")
    check("waves by the proved counts of all 300 steps" in words and "(noted by the host)" in words, words)
    picture(read("o.svg"), tested.fed)
    forget("o.svg")
    # the mean is rounded as the rule rounds, a half to the even number
    head, rows, last = lines_of(record)
    one, *others = last[:last.rindex("# complete")].splitlines(True)
    for waves, largest, total, mean in ((2, 3, 5, 2), (2, 2, 3, 2), (2, 4, 7, 4), (4, 3, 10, 2), (4, 4, 11, 3), (4, 3, 9, 2)):
        text = head + "".join(rows) + re.sub(r"\d+ waves, largest \d+ um, sum \d+",
            f"{waves} waves, largest {largest} um, sum {total}", one) + "".join(others)
        write("o.csv", text.encode() + record_end(text.encode(), ALL))
        out = show("o.csv")
        check(f"cell 3: {waves} waves, mean {mean} um, largest {largest} um" in out, f"{total} over {waves}: {out}")
        forget("o.csv")
