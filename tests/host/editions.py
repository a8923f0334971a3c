"""Files of edition 1, which has no damping: they are refused in plain words, and stay as they are."""
import os, re, struct

from common import (COUNTS, OPTIONS, POUR, REFUSED, STAFFS, TOP, check, fed_up_to, forget, go, group, listing, read,
    saved, write)
from formats import beside, edition_1, gauge_lines, length, record_end, sha, survey, up_to

REFUSED_1 = "pathpetal: {}: refused, number 13: it is a channel file of edition 1, made before channels had damping, " \
    "and this program does not read it\npathpetal: to mend: make the channel again from its survey; this file stays " \
    "as it is\n"
PLAIN = "pathpetal: {}: refused, number 13: it is not a channel file of edition 2\npathpetal: to mend: take a fresh " \
    "copy of the file, or make it again from its survey\n"
THERE = "{}: is there already, is of another run (it is a channel file of edition 1) and is not written over; give " \
    "another name for {}, or --replace\n"
EXAMPLE_1 = "6ab3ffb830b9c05236d95abc5a633c82a8499731e56473283c7cf977cb2edc89"  # of a file that such a program made
NAMES = ("old.csv", "old.csv.open", *saved("old.end", "old.check"))


def refused(path, says, name):
    """Every command refuses a file with these words, and changes nothing."""
    everything = ("--record", "o.csv", "--checkpoint", "o.check", "--checkpoint-every", 5)
    for line in (("check", path), ("check", path, "--complete"), ("show", path), ("show", path, "--svg", "o.svg"),
        ("run", path, "-o", "o.end"), ("run", path, "-o", "o.end", *OPTIONS, *everything, "--replace")):
        before = listing()
        out, err = go(*line, status=REFUSED, name=f"{line[0]}: {name}")
        check(out == "" and err == says.format(path), f"{line[0]}: {name}: {out!r} {err!r}")
        check(listing() == before, f"{line[0]}: {name}: something was written or changed")


def old_run(begin, end, record):
    """What a run of edition 1 left: its files by name, with a record of the same rows."""
    start, complete = edition_1(begin), edition_1(end)
    rows = up_to(record, 300).replace(sha(begin).encode(), sha(start).encode())
    counted = record[len(up_to(record, 300)):].splitlines(True)[:len(STAFFS)]
    whole = rows + b"".join(counted)
    whole += record_end(whole, "complete: 300 of 300 steps accepted")
    gauges = gauge_lines(STAFFS, fed_up_to(300))
    return {"old.channel": start, "old.end": complete, "old.csv": whole,
        "old.end.run": beside((start, 7, POUR), (complete, rows, gauges)).encode()}


def left_there(begin, end, record):
    """END, checkpoint and record of a run of edition 1 stand where a run of this edition would write."""
    group("END, checkpoint and record of edition 1 in their places")
    old = old_run(begin, end, record)
    for name, data in old.items():
        write(name, data)
    refused("old.channel", REFUSED_1, "START of edition 1 with its END, its record and what stands beside it")
    refused("old.end", REFUSED_1, "END of edition 1, complete, with what stands beside it")
    go("check", "--staff", "old.csv", "--complete", tells="old.csv: complete: all 300 steps accepted")
    before = listing()
    go("run", "old.channel", "-o", "old.end", *OPTIONS, "--record", "old.csv", status=REFUSED,
        says=f"^{REFUSED_1.format('old.channel')}$", name="the same command as in edition 1")
    check(listing() == before, "the same command as in edition 1: something was written or changed")
    # the channel made again, and run by the same command
    command = ("run", "start.channel", "-o", "old.end", *OPTIONS, "--record", "old.csv", "--checkpoint", "old.check",
        "--checkpoint-every", 140)
    bare = "{}: is there already and is not written over; give another name for {}, or --replace\n"
    forget("old.channel")
    for place, use in (("old.end", "END"), ("old.check", "the checkpoint")):
        for known in (True, False):
            forget(*NAMES)
            write(place, old["old.end"])
            if known:
                write(place + ".run", old["old.end.run"])
            before = listing()
            _, err = go(*command, status=REFUSED, name=f"{place} of edition 1")
            says = (THERE if known else bare).format(place, use)
            check(err == f"pathpetal: {says}", f"{place} of edition 1: {err!r}")
            check(listing() == before, f"{place} of edition 1: something was written or changed")
            _, err = go(*command, "--replace", name=f"{place} of edition 1, with --replace")
            says = f"pathpetal: {place}: is of another run (it is a channel file of edition 1); with --replace it is " \
                "written over\n"
            check(err == says * known, f"{place} of edition 1, with --replace: {err!r}")
            check(read("old.end") == end and read("old.csv") == record,
                f"{place} of edition 1, with --replace: other bytes")
    for place, data, says in (("old.csv", old["old.csv"], "old.csv: is there already"),
        ("old.csv.open", up_to(old["old.csv"], 145), "old.csv.open: it began with another channel")):
        forget(*NAMES)
        write(place, data)
        before = listing()
        go(*command, status=REFUSED, says=f"^pathpetal: {says}", name=f"{place} of edition 1")
        check(listing() == before, f"{place} of edition 1: something was written or changed")
    forget(*NAMES)


def editions(begin, end, record):
    group("channel files of edition 1")
    old = edition_1(begin)
    page = read(os.path.join(TOP, "docs", "HOST.md")).decode()
    check(re.sub("^", "    ", REFUSED_1.format("old.channel").rstrip(), flags=re.M) + "\n" in page
        and "    pathpetal: " + THERE.format("end.channel", "END") in page, "docs/HOST.md has the same words")
    check(sha(edition_1(read(os.path.join(TOP, "examples", "start.channel")))) == EXAMPLE_1,
        "the worked example's start is in edition 1 what a program of that edition made of its survey")
    for name, data in (("at its start", old), ("complete", edition_1(end)),
        ("open", edition_1(end[:16] + struct.pack("<I", 148) + end[20:])),
        ("with a depth of 0", old[:48] + bytes(4) + old[52:])):
        write("old.channel", data)
        refused("old.channel", REFUSED_1, f"edition 1, {name}")
    for cells in (8, 256):
        write("old.csv", survey([(1000,)] * cells, "depth_mm"))
        go("make", "old.csv", "-o", "made.channel", *COUNTS, "--replace")
        check(len(read("made.channel")) == length(cells), f"{cells} cells")
        write("old.channel", edition_1(read("made.channel")))
        refused("old.channel", REFUSED_1, f"edition 1, {cells} cells")
    forget("made.channel", "old.csv")
    for name, data in (("a byte short", old[:-1]), ("a byte longer", old + b"\0"), ("its first 48 bytes", old[:48]),
        ("7 cells", old[:4] + struct.pack("<I", 7) + old[8:24 + 64 * 7]),
        ("257 cells", old[:4] + struct.pack("<I", 257) + old[8:48] + bytes(24 + 64 * 257 - 48)),
        ("the longest that is read", old + bytes(65536 - len(old))), ("longer than what is read", old + bytes(100000)),
        ("edition 0", bytes(4) + old[4:]), ("edition 3", b"\3" + old[1:]), ("edition 257", b"\1\1" + old[2:])):
        write("old.channel", data)
        refused("old.channel", PLAIN, f"no edition 1: {name}")
    forget("old.channel")
    left_there(begin, end, record)
