"""show, check and help, names with control characters, a terminal, and the worked example of docs/HOST.md."""
import fcntl, os, pty, random, re, shutil, struct, subprocess, termios
import xml.etree.ElementTree as xml

from common import (COUNTS, DONE, ENVIRONMENT, OPEN, REFUSED, ROWS, TOP, UNWRITTEN, USAGE, check, counted, forget, go,
    group, read, start, tested, write)
from formats import heights, lines_of, record_end, sha, survey


def showing(begin, end, record):
    group("show, check and help")
    out, _ = go("show", "start.channel", "--svg", "s.svg", tells="open: 0 of 300 steps accepted")
    low, high = min(heights(begin)), max(heights(begin))
    check(f"lowest height  {low:,} um" in out and f"highest height {high:,} um" in out
        and f"water sum      {sum(heights(begin)):,} um" in out, f"show: {out}")
    out, _ = go("show", "one.channel", tells="complete: all 300 steps accepted")
    check(f"lowest height  {min(heights(end)):,} um" in out and f"water sum      {sum(heights(end)):,} um" in out,
        f"show: {out}")
    words = lambda path: " ".join(xml.fromstring(read(path)).itertext())
    check("open: 0 of 300 steps accepted" in words("s.svg") and "distance from the left wall (m)" in words("s.svg"),
        "the picture has its words")
    go("show", "start.channel", "--svg", "s.svg", status=REFUSED, says="s.svg: is there already")
    go("show", "one.channel", "--svg", "s.svg", "--replace")
    check("complete: all 300" in words("s.svg"), "the picture says complete")
    go("show", "--staff", "one.csv", "--svg", "r.svg",
        tells="complete: all 300 steps accepted.*61 rows, from 0.000 s to 12.000 s.*cell 3: lowest .*cell 30: .*"
              "cell 1: ")
    check("Staff at cell 30" in words("r.svg") and "time (s)" in words("r.svg"), "the staffs' picture has its words")
    head, rows, last = lines_of(record)
    old = "# complete: 300 of 300 steps accepted\n"
    changed = "not whole: cut or changed after it was written; its last row is of step {}"
    cannot_tell = "cannot tell whether whole: an earlier program wrote it, without a check sum; its last row is of " \
        "step {}"
    whole = head + "".join(rows)

    def ended(text, words, step=300):
        """Rows, what the gauges counted up to a step, and the last line."""
        text = text.encode() + counted(step)
        return (text + record_end(text, words)).decode()

    check(ended(whole, "complete: 300 of 300 steps accepted") == record.decode(), "as a run ends a record")
    for name, text, standing in (
            ("no last line", whole, "open: cut after step 300"),
            ("rows lost at the end", head + "".join(rows[:-2]) + last, changed.format(290)),
            ("all rows but the first lost", head + rows[0] + last, changed.format(0)),
            ("every second row lost", head + "".join(rows[::2]) + last, changed.format(300)),
            ("rows lost at the beginning", head + "".join(rows[7:]) + last, changed.format(300)),
            ("a height changed", head + "".join(rows[:9]) + rows[9].rsplit(",", 1)[0] + ",7\n" + "".join(rows[10:])
                + last, changed.format(300)),
            ("times changed", re.sub(r"^(\d+),\d+", r"\1,7", whole, flags=re.M) + last, changed.format(300)),
            ("another pour in its head", whole.replace("pour ", "pour none\n# "), "open: cut after step 300"),
            ("another filter in its head", whole.replace("filter-every 7", "filter-every 8") + last,
                changed.format(300)),
            ("no head", whole.replace(head, head.splitlines(True)[0]) + last, changed.format(300)),
            ("other columns", whole.replace("cell_30", "cell_29") + last, changed.format(300)),
            ("two columns changed about", whole.replace("cell_3_um,cell_30_um", "cell_30_um,cell_3_um") + last,
                changed.format(300)),
            ("another count in its last line", whole + last.replace("300 of 300", "299 of 299"), changed.format(300)),
            ("another count of rows", whole + last.replace("61 rows", "60 rows"), changed.format(300)),
            ("no sum", whole + old, changed.format(300)),
            ("half a sum", whole + last[:-30] + "\n", changed.format(300)),
            ("a digit of the sum changed", whole + last[:-2] + ("0" if last[-2] != "0" else "1") + "\n",
                changed.format(300)),
            ("line ends of Windows", (whole + last).replace("\n", "\r\n"), changed.format(300)),
            ("a blank line at its end", whole + last + "\n", changed.format(300)),
            ("a blank line between", whole + "\n" + last, changed.format(300)),
            ("a remark after it", whole + last + "# seen by me\n", changed.format(300)),
            ("a false sum of a cut one", ended(head + "".join(rows[:30]), "complete: 300 of 300 steps accepted"),
                changed.format(145)),
            ("a false count of rows", (line := whole + counted(300).decode() + "# complete: 300 of 300 steps accepted, "
                "60 rows, sha256 ") + sha(line.encode()) + "\n", changed.format(300)),
            ("an end of Windows in its last line alone", whole + last[:-1] + "\r\n", changed.format(300)),
            ("blanks before its last line", whole + "  " + last, changed.format(300)),
            ("a second last line", ended(whole + record_end(whole.encode(), "open: 148 of 300 steps accepted").decode(),
                "complete: 300 of 300 steps accepted"), changed.format(300)),
            ("a second head", ended(head + "".join(head.splitlines(True)[1:]) + "".join(rows),
                "complete: 300 of 300 steps accepted"), changed.format(300)),
            ("a later origin", ended(whole.replace("at step 0", "at step 7"), "complete: 300 of 300 steps accepted"),
                changed.format(300)),
            ("half an origin", ended(re.sub("origin ..", "origin ", whole), "complete: 300 of 300 steps accepted"),
                changed.format(300)),
            ("another time", ended(whole.replace("\n20,0.800", "\n20,0.801"), "complete: 300 of 300 steps accepted"),
                changed.format(300)),
            ("a step of 200 ms", ended(re.sub(r"^(\d+),[\d.]+", lambda row: f"{row[1]},{int(row[1]) / 5:.3f}", whole,
                flags=re.M), "complete: 300 of 300 steps accepted"), changed.format(300)),
            ("too many steps", ended(whole, "complete: 1999999 of 1999999 steps accepted"), changed.format(300)),
            ("a filter pass too far", ended(whole.replace("every 7\n", "every 1000001\n"),
                "complete: 300 of 300 steps accepted"), changed.format(300)),
            ("a false count", ended(head + "".join(rows[:30]), "complete: 148 of 300 steps accepted", 148),
                changed.format(145)),
            ("open", ended(head + "".join(rows[:30]), "open: 148 of 300 steps accepted", 148),
                "open: 148 of 300 steps"),
            ("a last line of another", head + "".join(rows[:30]) + last, changed.format(145)),
            ("half a last line", (whole + last)[:-8], "open: cut after step 300"),
            ("a row after it", whole + last + "305,12.200,1,1,1\n", "open: cut after step 305"),
            ("no line end", (whole + last).rstrip("\n"), "open: cut after step 300"),
            ("one row", head + rows[0], "open: cut after step 0"),
            ("that of an earlier program", head.splitlines(True)[0] + "".join(rows) + old, cannot_tell.format(300)),
            ("that of an earlier program, cut", head.splitlines(True)[0] + rows[0] + old, cannot_tell.format(0)),
            ("that of an earlier program, open", head.splitlines(True)[0] + "".join(rows[:30]) +
                "# open: 148 of 300 steps accepted\n", cannot_tell.format(145))):
        write("cut.csv", text)
        out, _ = go("show", "--staff", "cut.csv", "--svg", "r.svg", "--replace", tells=re.escape(standing), name=name)
        check("complete:" not in out and standing in words("r.svg"), f"a record with {name} says complete: {out}")
        for more in ((), ("--complete",)):
            status = REFUSED if standing[:4] != "open" else OPEN if more else DONE
            out, err = go("check", "--staff", "cut.csv", *more, status=status, name=f"check --staff {more}: {name}")
            check(f"cut.csv: {standing}" in out + err and "complete" not in out + err,
                f"check --staff: {name}: {out}{err}")
    for more in ((), ("--complete",)):
        go("check", "--staff", "one.csv", *more, tells="one.csv: complete: all 300 steps accepted")
    for name, text, says in (("a cut row", head + "".join(rows[:39]) + "195,7.8", "last line is cut"),
                             ("no rows", head, "has no rows"), ("no rows but a last line", head + last, "it was cut"),
                             ("a word", head + "".join(rows[:2]) + "10,0.400,a,1,1\n",
                                 r"line 9, column 3 \(cell_3_um\): 'a'"),
                             ("a lost row", head + "".join(rows[:4] + rows[5:]), "is not the step that must follow"),
                             ("a bad time", head + "".join(rows[:2]) + "10,0.4,1,1,1\n", "'0.4' is not a time"),
                             ("another table", survey(ROWS), "is no staff record"),
                             ("another column", "step,time_s,depth\n0,0.000,1\n", "is no marked cell"),
                             ("nothing", "", "is empty")):
        write("cut.csv", text)
        go("show", "--staff", "cut.csv", "--svg", "new.svg", status=REFUSED, says=says, name=name)
        go("check", "--staff", "cut.csv", status=REFUSED, says=says, name=name)
        check(not os.path.exists("new.svg"), "no picture")
    write("big.csv", "step,time_s,cell_1_um\n" + "".join(
        f"{k},{k * 0.04:.3f},{(k * 7919) % 2003 if k != 77777 else 987654}\n" for k in range(100001)))
    go("show", "--staff", "big.csv", "--svg", "big.svg", tells="highest 987,654 um")
    check(len(read("big.svg")) < 200000, "a picture of many rows stays small")
    go("check", "start.channel", tells="start.channel: open: 0 of 300 steps accepted")
    go("check", "start.channel", "--complete", status=OPEN, tells="open")
    go("check", "one.channel", "--complete", tells="complete: all 300 steps accepted")
    odd = "o<&>\"' \xe4\n.channel"
    shutil.copy("start.channel", odd)
    shutil.copy("start.channel", b"bytes\xff\xfe.channel")
    for name in (odd, b"bytes\xff\xfe.channel"):
        process = subprocess.run([tested.program.encode(), b"show", name if isinstance(name, bytes) else name.encode(),
            b"--svg", b"odd.svg", b"--replace"], capture_output=True, env=ENVIRONMENT)
        check(process.returncode == DONE and xml.fromstring(read("odd.svg")) is not None, "a strange name")
        os.remove(name)
    shutil.copy("start.channel", "-dash")
    go("check", "--", "-dash", tells="open")
    os.remove("-dash")
    write("flat.csv", survey([(1,)] * 8, "depth_mm"))
    write("wild.csv", survey([(20000, 20000000 if j % 2 else -19999000) for j in range(256)], "depth_mm,height_um"))
    for name, width in (("flat", 10), ("wild", 5000)):
        go("make", name + ".csv", "-o", name + ".channel", "--width-mm", width, "--step-ms", 1, "--steps", 1000000)
        go("show", name + ".channel", "--svg", name + ".svg")
        check("nan" not in read(name + ".svg").decode() and "inf" not in read(name + ".svg").decode(),
            f"{name}: numbers in the picture")
    for line in (("--help",), ("make", "--help"), ("run", "--help"), ("show", "--help"), ("check", "--help"),
        ("run", "start.channel", "-h")):
        go(*line, tells="Exit status: 0 done")
    forget("s.svg", "r.svg", "cut.csv", "odd.svg", "big.csv", "big.svg")


FAKED = "pathpetal: faked.channel: complete: all 300 steps accepted"
STRANGE = [os.fsdecode(name) for name in (b"\x1b[31mred\x1b[0m", b"bell\a\b\r\t\x7f",
    b"line\n" + FAKED.encode() + b"\n.", b"raw\x9b31m\x85.", b"c1\xc2\x9b31m\xc2\x85\xc2\x80\xc2\x9f",
    b"\xff\xc3\xed\xa0\x80\xf5\xe2\x80.", "turned\u200e\u200f\u061c\u202agnp\u202e\u2066.\u2069\u2028.".encode(),
    b"long" + 45 * b"\x1b[1m")]


def plain(*words, status, name, **more):
    """Runs the program: what it writes is plain text in lines, and none of them is faked. Gives what it writes."""
    process = start(*words, **more)
    out, err = process.communicate(timeout=60)
    check(process.returncode == status, f"{name}: status {process.returncode} where {status} is documented: {err!r}")
    for text in (out, err):
        try:
            text = text.decode()
        except UnicodeDecodeError:
            check(False, f"{name}: is not UTF-8: {text!r}")
            continue
        raw = [c for c in text if ord(c) < 32 and c != "\n" or 127 <= ord(c) < 160 or "\u2028" <= c <= "\u202e"
            or "\u2066" <= c <= "\u2069" or c in "\u061c\u200e\u200f"]
        check(not raw and text[-1:] in ("", "\n"), f"{name}: is not plain: {text!r}")
        check(not any(line.startswith((FAKED, FAKED[11:], ".")) for line in text.split("\n")),
            f"{name}: a line is faked: {text!r}")
    check(all(line.startswith("pathpetal: ") for line in err.decode(errors="replace").split("\n")[:-1]),
        f"{name}: a message without the program's name: {err!r}")
    return out.decode(errors="replace"), err.decode(errors="replace")


def strange_names(begin, end, record):
    group("names and fields with control characters")
    os.mkdir("strange")
    os.chdir("strange")
    for file in ("start.channel", "start.csv", "pour.csv", "one.csv"):
        shutil.copy(os.path.join("..", file), ".")
    for name in STRANGE:
        what = repr(name)
        write(name, begin)
        out, _ = plain("check", name, status=DONE, name=f"check {what}")
        check(out.count("\n") == 1 and len(out) == len(name) + len(": open: 0 of 300 steps accepted\n"),
            f"check {what}: not one line, or a character of the name is lost: {out!r}")
        plain("check", name, "--complete", status=OPEN, name=f"check {what}")
        out, _ = plain("show", name, "--svg", name + ".svg", status=DONE, name=f"show {what}")
        check(out.count("\n") == 8, f"show {what}: eight lines: {out!r}")
        words = "".join(xml.fromstring(read(name + ".svg")).itertext())
        check(not re.search("[\0-\x09\x0b-\x1f\x7f-\x9f\u061c\u200e\u200f\u2028-\u202e\u2066-\u2069]", words),
            f"the picture of {what}: {words!r}")
        plain("show", name, "--svg", name + ".svg", status=REFUSED, name=f"a picture that is there, {what}")
        plain("run", name, "-o", name + ".end", "--staff", 3, "--record", name + ".record", "--checkpoint",
            name + ".check", "--checkpoint-every", 100, status=DONE, name=f"run {what}")
        plain("show", "--staff", name + ".record", "--svg", name + ".2.svg", status=DONE, name=f"show --staff {what}")
        plain("run", name, "-o", name + ".end", status=DONE, name=f"an END of this run that is there, {what}")
        plain("run", name, "-o", name + ".end", "--filter-every", 9, status=REFUSED,
            name=f"an END that is there, {what}")
        plain("run", name, "-o", name, status=REFUSED, name=f"START and END the same, {what}")
        plain("run", name, "-o", name + "/end", status=UNWRITTEN, name=f"an END that cannot be written, {what}")
        write(name + ".pour", "step,cell,amount_um\n100,1,-1000000\n")
        plain("run", name, "-o", name + ".open", "--pour", name + ".pour", "--staff", 3, "--record", name + ".rec",
            status=OPEN, name=f"a refused step, {what}")
        plain("run", name + ".check", "-o", name + ".on", "--staff", 4, "--record", name + ".rec", status=REFUSED,
            name=f"a record of another run, {what}")
        for table in ("step,cell,amount_um\n1,1," + name.replace("\n", "") + "\n", name + ",step\n", "\0", name):
            write(name + ".bad", os.fsencode(table))
            plain("run", "start.channel", "-o", "no.channel", "--pour", name + ".bad", status=REFUSED,
                name=f"poured water, {what}")
            plain("make", name + ".bad", "-o", "no.channel", *COUNTS, status=REFUSED, name=f"make, {what}")
            plain("show", "--staff", name + ".bad", status=REFUSED, name=f"show --staff, {what}")
            for command in (("check",), ("show",), ("run", "-o", "no.channel")):
                plain(*command, name + ".bad", status=REFUSED, name=f"{command[0]} {what}, no channel")
        write(name + ".csv", os.fsencode(survey([(*row, "") for row in ROWS],
            "depth_mm,height_um,velocity_um_s," + re.sub("[\r\n]", "\v", name))))
        out, _ = plain("make", name + ".csv", "-o", name + ".made", *COUNTS, status=DONE, name=f"make {what}")
        check(read(name + ".made") == begin and "not used: '" in out, f"make {what}: {out!r}")
        plain("make", name + ".csv", "-o", name + ".made", *COUNTS, status=REFUSED,
            name=f"a START that is there, {what}")
        for words in (("check", name + ".absent"), ("show", name + ".absent"), ("show", "--staff", name + ".absent"),
            ("make", name + ".absent", "-o", "no.channel", *COUNTS), ("run", name + ".absent", "-o", "no.channel"),
            ("run", "start.channel", "-o", "no.channel", "--pour", name + ".absent"),
            ("run", "start.channel", "-o", "no.channel", "--record", "r.csv", "--staff", name)):
            plain(*words, status=REFUSED, name=f"{words[0]} {what}, absent")
        for words in ((name,), ("check", "--" + name), ("check", "start.channel", name),
            ("run", "start.channel", "-o", "no.channel", "--filter-every", name)):
            plain(*words, status=USAGE, name=f"wrong words, {what}")
        check(read(name) == begin and not os.path.exists("no.channel"), f"{what}: START has its bytes")
    os.chdir("..")
    shutil.rmtree("strange")


def terminal():
    group("progress on a terminal")
    draw = random.Random(4)
    write("slow.csv", survey([(1500 + draw.randrange(200), draw.randrange(30000)) for _ in range(256)],
        "depth_mm,height_um"))
    go("make", "slow.csv", "-o", "slow.channel", "--width-mm", 1500, "--step-ms", 30, "--steps", 20000)
    for width in (0, 80, 46, 30, 20, 10, 3):
        main, side = pty.openpty()
        fcntl.ioctl(side, termios.TIOCSWINSZ, struct.pack("4H", 24, width, 0, 0))
        process = start("run", "slow.channel", "-o", "t.channel", stderr=side)
        os.close(side)
        shown = b""
        while True:
            try:
                some = os.read(main, 4096)
            except OSError:
                break
            if not some:
                break
            shown += some
        process.communicate(timeout=60)
        os.close(main)
        check(process.returncode == DONE, "complete")
        lines = re.split(rb"[\r\n]", shown)
        room = (width or 80) - 1
        check(max(map(len, lines)) <= room, f"{width} columns: a line is wrapped: {shown!r}")
        if room >= 45:
            check(re.search(rb"\r[\d,]+ of 20,000 steps, \d+ %, about \d+ s left", shown),
                f"{width} columns: {shown!r}")
        elif room >= 29:
            check(re.search(rb"\r[\d,]+ of 20,000 steps, \d+ % *\r", shown), f"{width} columns: {shown!r}")
        elif room >= 4:
            check(re.search(rb"\r\d+ % *\r", shown) and b"of" not in shown, f"{width} columns: {shown!r}")
        check(b"".join(lines[-2:]).strip() == b"", f"{width} columns: the line is not taken away: {shown!r}")
        forget("t.channel")
    forget("slow.csv", "slow.channel")


def worked_example():
    """The commands of docs/HOST.md give what stands there, and the files of examples/."""
    group("the worked example of docs/HOST.md")
    text = read(os.path.join(TOP, "docs", "HOST.md")).decode()
    examples = os.path.join(TOP, "examples")
    os.mkdir("example")
    os.mkdir("bin")
    os.symlink(tested.program, "bin/pathpetal")
    for name in ("survey.csv", "pour.csv", "reeds.csv"):
        shutil.copy(os.path.join(examples, name), "example")
    commands = re.findall(r"^    \$ (.*)\n((?:    (?!\$ ).*\n)*)", text, re.M)
    check(len(commands) >= 8, f"{len(commands)} commands")
    for command, printed in commands:
        result = subprocess.run(["sh", "-c", command], cwd="example", stdout=subprocess.PIPE, stderr=subprocess.STDOUT,
                                env=dict(ENVIRONMENT, PATH=os.path.abspath("bin") + ":" + os.environ["PATH"]))
        check(result.stdout.decode() == re.sub(r"^    ", "", printed, flags=re.M),
            f"$ {command}\n{result.stdout.decode()}")
    for name in sorted(os.listdir(examples)):
        path = os.path.join("example", name)
        check(os.path.exists(path) and read(path) == read(os.path.join(examples, name)),
            f"examples/{name} is what comes out")
    check({"start.channel", "reeds_start.channel"} <= set(os.listdir(examples)), "the start files stand in examples/")
    # the lines that the page shows of the record and of what stands beside END, with their sums shortened
    shown = text[text.index("### A record's lines"):text.index("### Signals")]
    for name, first in (("staff.csv", "    step,time_s"), ("end.channel.run", "    channel ")):
        there = read(os.path.join("example", name)).decode().splitlines()
        for line in re.match(r"(?:    .*\n)+", shown[shown.index(first):])[0].splitlines():
            whole = "[0-9a-f]*".join(map(re.escape, line[4:].split("...")))
            check(line == "    ..." or any(re.fullmatch(whole, one) for one in there), f"{name} has no line {line}")
