"""A START that is damaged, files of the wrong kind, and places that meet."""
import os, random, re, shutil, struct

from common import (COUNTS, DONE, OPEN, OPTIONS, REFUSED, TOP, check, forget, from_shell, go, group, listing, read,
    start, taken, tested, write)
from formats import cell_row, counts, edition_1, starts
from steps import hasty_mend


def start_faults(begin):
    group("START damaged, truncated, a directory, absent, a million bytes")
    os.mkdir("folder")
    bad = {"empty": (b"", 12), "47 bytes": (begin[:47], 12), "truncated by one": (begin[:-1], 12),
           "truncated to half": (begin[:900], 12),
           "one byte more": (begin + b"\0", 12), "a million bytes": ((begin * 600)[:1000000], 12),
           "a million zeros": (bytes(1000000), 13),
           "edition 3": (b"\3" + begin[1:], 13), "edition 0": (b"\0" + begin[1:], 13),
           "edition 1 with the length of edition 2": (b"\1" + begin[1:], 13),
           "edition 2 with the length of edition 1": (begin[:-4 * counts(begin)[0] - 4], 12),
           "7 cells": (begin[:4] + b"\7\0\0\0" + begin[8:], 1),
           "7 cells in 50 bytes": (begin[:4] + b"\7\0\0\0" + begin[8:50], 1),
           "2^31 cells": (begin[:4] + b"\0\0\0\x80" + begin[8:], 1),
           "offsets of edition 1": (begin[:24] + b"\x30" + begin[25:], 14),
           "two rows in one place": (begin[:48] + begin[44:48] + begin[52:], 14),
           "width 0": (begin[:8] + bytes(4) + begin[12:], 2),
           "more accepted than wanted": (begin[:16] + struct.pack("<I", 301) + begin[20:], 2),
           "a survey": (read("start.csv"), 12), "text": (b"hello\n" * 200, 13)}
    if len(read("start.csv")) >= 48:
        bad["a survey"] = (read("start.csv"), 13)
    for name, (data, number) in bad.items():
        write("bad.channel", data)
        for line in (("run", "bad.channel", "-o", "bad.end", *OPTIONS, "--record", "bad.record", "--checkpoint",
                         "bad.check", "--checkpoint-every", 5),
                     ("show", "bad.channel", "--svg", "bad.svg"), ("check", "bad.channel")):
            before = listing()
            words = "it is not a channel file of edition 2\n" if number == 13 else ""
            go(*line, status=REFUSED, says=f"^pathpetal: bad.channel: refused, number {number}: {words}.*to mend: ",
                name=f"{line[0]} {name}")
            check(listing() == before, f"{line[0]} {name}: something was written or changed")
    for path, words in (("folder", "folder: cannot be read: Is a directory"),
                        ("absent", "absent: cannot be read: No such file"),
                        ("start.channel/x", "Not a directory"), ("loop", "cannot be read: Too many levels")):
        if path == "loop":
            os.symlink("loop", "loop")
        for line in (("run", path, "-o", "bad.end"), ("show", path), ("check", path)):
            before = listing()
            go(*line, status=REFUSED, says=words)
            check(listing() == before, "nothing is written")
    draw = random.Random(tested.seed)
    wrong = 0
    for _ in range(60):
        data = bytearray(begin)
        for _ in range(draw.choice((1, 1, 3, 20))):
            data[draw.randrange(len(data) if draw.random() < 0.5 else 60)] = draw.randrange(256)
        write("bad.channel", bytes(data))
        process = start("run", "bad.channel", "-o", "bad.end", "--filter-every", 3, "--replace")
        _, err = process.communicate()
        good = process.returncode in (DONE, REFUSED, OPEN) and read("bad.channel") == bytes(data)
        if process.returncode == REFUSED:
            good = good and not os.path.exists("bad.end") and b"refused, number" in err
        elif good:
            _, accepted, wanted = counts(read("bad.end"))
            good = taken("bad.end")[0] and (accepted == wanted) == (process.returncode == DONE)
            os.remove("bad.end")
        wrong += not check(good, f"bytes changed at random: status {process.returncode} {err!r}")
    os.remove("loop")
    os.remove("bad.channel")
    os.rmdir("folder")


CELL_ROWS = {31: (0, 0, 20001, "a depth is 1 to 20,000 mm"),
    32: (1, -20000001, 20000001, "a height is -20,000,000 to 20,000,000 um"),
    33: (2, -20000001, 20000001, "a velocity is -20,000,000 to 20,000,000 um/s"),
    34: (3, -2000000001, 2000000001, "a reduced velocity is -2,000,000,000 to 2,000,000,000 um/s"),
    38: (6, -1, 10001, "a damping is 0 to 10,000 thousandths per second")}
LEVELS = {35: (10 ** 15 + 1, "a flux is -10^15 to 10^15 um2/s"),
    36: (10 ** 11 + 1, "an acceleration is -10^11 to 10^11 um/s2")}


def bad_rows(begin):
    group("START with values that are refused, by row and cell")
    cells = counts(begin)[0]

    def changed(values):
        """`begin` with other values: by row 0 to 6 and entry from 0."""
        data = bytearray(begin)
        for (row, j), value in values.items():
            form, size = ("<q", 8) if row in (4, 5) else ("<i", 4)
            struct.pack_into(form, data, starts(cells)[row] + size * j, value)
        return bytes(data)

    def tried(values, says, name):
        write("bad.channel", changed(values))
        says = f"pathpetal: bad.channel: refused, number {says}\n" \
            "pathpetal: to mend: take a fresh copy of the file, or make it again from its survey\n"
        for line in (("run", "bad.channel", "-o", "bad.end"), ("show", "bad.channel"), ("check", "bad.channel")):
            before = listing()
            go(*line, status=REFUSED, says=f"^{re.escape(says)}$", name=f"{line[0]}: {name}")
            check(listing() == before, f"{line[0]}: {name}: something was written or changed")

    for number, (row, least, most, words) in CELL_ROWS.items():
        for j, value in ((0, least), (14, most), (cells - 1, least), (7, most)):
            tried({(row, j): value}, f"{number}, in cell {j + 1}: {words}, not {value:,}", f"row {row}, cell {j + 1}")
        tried({(row, 3): most, (row, 9): least}, f"{number}, in cell 4: {words}, not {most:,}", f"row {row}, twice")
    for number, (most, words) in LEVELS.items():
        row, size = number - 31, cells - 1 if number == 35 else cells
        # face or cell j of a level, the newest first
        place = lambda j: f"at face {j}, between cells {j} and {j + 1}" if number == 35 else f"in cell {j}"
        for values, j in (({0: most}, 1), ({8: -most}, 9), ({size - 1: most}, size), ({size: most}, 1),
            ({2 * size: -most}, 1), ({3 * size - 1: most}, size), ({size + 4: most, 2 * size + 1: most}, 5),
            ({6: -most, size + 1: most}, 7), ({size - 1: most, 2 * size: most}, size), ({5: most, 3: -most}, 4)):
            tried({(row, at): value for at, value in values.items()},
                f"{number}, {place(j)}: {words}, but not in all three levels here", f"levels of row {row}: {values}")
    depth, second, third = cell_row(begin, 0)[:3]
    tried({(0, 8): 0, (1, 0): 20000001}, "31, in cell 9: a depth is 1 to 20,000 mm, not 0", "a depth before a height")
    tried({(3, 0): 2000000001, (2, 29): 20000001},
        "33, in cell 30: a velocity is -20,000,000 to 20,000,000 um/s, not 20,000,001", "33 before 34")
    tried({(5, 0): 10 ** 12, (4, 86): 10 ** 16},
        "35, at face 29, between cells 29 and 30: a flux is -10^15 to 10^15 um2/s, but not in all three levels here",
        "35 before 36")
    tried({(6, 0): -1, (5, 89): 10 ** 12},
        "36, in cell 30: an acceleration is -10^11 to 10^11 um/s2, but not in all three levels here", "36 before 38")
    tried({(1, 0): -1000 * depth + 999, (6, 29): 2147483647},
        "38, in cell 30: a damping is 0 to 10,000 thousandths per second, not 2,147,483,647", "38 before 4")
    tried({(1, 0): -1000 * depth + 999},
        f"4, in cell 1: less than 1 mm of water is left: a depth of {depth:,} mm, a height of {999 - 1000 * depth:,} um",
        "a dry cell")
    steep = "the bottom is too steep for cells this narrow"
    tried({(0, 0): 20000}, f"5, in cell 2: {steep}: {second:,} mm beside 20,000 and {third:,} mm", "a steep bottom")
    tried({(0, 1): 20000}, f"5, in cell 1: {steep}: {depth:,} mm beside 20,000 mm", "a steep bottom at the left wall")
    forget("bad.channel")


def long_steps(begin):
    """Files of channels whose time step is too long, as earlier programs made them."""
    group("START with a time step that is too long for its deepest cell")
    cells = counts(begin)[0]

    def late(width, step, depths, heights=None, accepted=0):
        data = bytearray(begin)
        struct.pack_into("<3I", data, 8, width, step, accepted)
        struct.pack_into(f"<{2 * cells}i", data, starts(cells)[0], *depths, *(heights or [0] * cells))
        return bytes(data)

    wanted = counts(begin)[2]
    for j in (0, 17, cells - 1):
        for accepted in (0, 5, wanted):
            depths = [6535] * cells
            depths[j] = 6541
            data = late(327, 100, depths, accepted=accepted)
            write("bad.channel", data)
            allowed, calm = hasty_mend(327, 6541, 100)
            says = "pathpetal: bad.channel: refused, number 26: the time step is too long for the deepest cell: 100 ms, " \
                f"with cells of 327 mm and a depth of 6,541 mm in cell {j + 1}\npathpetal: to mend: take a fresh copy of " \
                f"the file, if it is damaged; or make it again from its survey, with {allowed}\n{calm}\n"
            for line in (("run", "bad.channel", "-o", "bad.end"), ("show", "bad.channel", "--svg", "bad.svg"),
                ("check", "bad.channel"), ("check", "bad.channel", "--complete")):
                before = listing()
                go(*line, status=REFUSED, says=f"^{re.escape(says)}$", name=f"{line[0]}: cell {j + 1}, {accepted} steps")
                check(listing() == before, f"{line[0]}: something was written or changed")
            depths[j] = 6540
            write("good.channel", late(327, 100, depths, accepted=accepted))
            go("check", "good.channel", name="the deepest depth that is allowed")
    dry = late(327, 100, [6541] * cells, [0] * (cells - 1) + [-6540001])
    steep = late(327, 100, [6541] * (cells - 1) + [1000])
    for data, words in ((dry, f"4, in cell {cells}: less than 1 mm"), (steep, "26: the time step")):
        write("bad.channel", data)
        go("check", "bad.channel", status=REFUSED, says=f"^pathpetal: bad.channel: refused, number {words}")
    # END of such a run, as an earlier program left it, is neither gone on with nor written over
    write("end.channel", late(327, 100, [6541] * cells, accepted=5))
    kept = read("end.channel")
    go("run", "start.channel", "-o", "end.channel", status=REFUSED, says="end.channel: is there already")
    check(read("end.channel") == kept, "it stays")
    forget("bad.channel", "good.channel", "end.channel")


def other_files(begin, record):
    group("files of the wrong kind")
    folder = os.path.join(TOP, "examples")
    a_record = "to mend: this is a staff record, not a channel; pathpetal show --staff shows it\n$"
    a_table = "to mend: this is a table, not a channel; pathpetal make makes a channel from a survey\n$"
    files = {"a record": (record, a_record), "an open record": (record[:200], a_record),
        "a short record": (record[:40], a_record),
        "a record after a byte-order mark": (b"\xef\xbb\xbf" + record, a_record),
        "a long record": (record * 50, a_record), "a survey": (read("start.csv"), a_table),
        "a survey of one column": (b"depth_mm\r\n" + b"1000\r\n" * 30, a_table),
        "a survey with remarks": (read(os.path.join(folder, "survey.csv")), a_table),
        "a survey with semicolons": (read("start.csv").replace(b",", b";"), a_table),
        "a survey with tabs": (read("start.csv").replace(b",", b"\t"), a_table),
        "a short table": (b"a,b\n1,2\n", a_table), "poured water": (read("pour.csv"), a_table),
        "words": (b"nothing of all this\n" * 9, "to mend: take a fresh copy of the file"),
        "a channel cut short": (begin[:-5], "to mend: take a fresh copy of the file")}
    for name, (data, words) in files.items():
        write("other", data)
        number = 12 if len(data) < 48 or data[:4] == begin[:4] else 13
        for line in (("show", "other"), ("show", "other", "--svg", "o.svg"), ("check", "other"),
            ("check", "other", "--complete"), ("run", "other", "-o", "o.channel", *OPTIONS, "--record", "o.csv")):
            before = listing()
            go(*line, status=REFUSED, says=f"^pathpetal: other: refused, number {number}: [^\n]*\npathpetal: {words}",
                name=f"{line[0]} {name}")
            check(listing() == before, f"{line[0]} {name}: something was written")
    for name, data in {"a channel": begin, "a channel cut short": begin[:100], "its first bytes": begin[:4],
        "a channel of edition 1": edition_1(begin), "its first bytes, of edition 1": edition_1(begin)[:4]}.items():
        write("other", data)
        go("show", "--staff", "other", "--svg", "o.svg", status=REFUSED, name=f"show --staff {name}",
            says="^pathpetal: other: is a channel file and no table\npathpetal: to mend: leave out --staff to show a "
            "channel file\n$")
        for line in (("make", "other", "-o", "o.channel", *COUNTS),
            ("run", "start.channel", "-o", "o.channel", "--pour", "other")):
            go(*line, status=REFUSED, says="^pathpetal: other: is a channel file and no table\n$",
                name=f"{line[0]} {name} for a table")
    check(not any(os.path.exists(name) for name in ("o.svg", "o.channel", "o.csv")), "something was written")
    from_shell("(printf '\\2'; sleep 0.2; printf '\\0\\0\\0.') ", "show", "--staff", "/dev/stdin", status=REFUSED,
        says="is a channel file")
    for data in (b"\2", b"\2\0\0", b"\1\0\0", b"\0\0\0\0\0", b"\3\0\0\0"):
        write("other", data)
        go("show", "--staff", "other", status=REFUSED, says="other: line 1: ", name=f"show --staff {data!r}")
    forget("other")


def same_places(begin):
    group("START and END the same, and other places that meet")
    os.link("start.channel", "hard.channel")
    os.symlink("start.channel", "soft.channel")
    os.symlink(".", "here")
    os.symlink("nowhere", "dangling")
    os.mkdir("deep")
    everything = ("--record", "r.csv", "--staff", 1, "--checkpoint", "c.channel", "--checkpoint-every", 5)

    def changed(option, value):
        words = list(everything)
        words[words.index(option) + 1] = value
        return words

    cases = [((*everything, "-o", end), "START and END are the same file") for end in
             ("start.channel", "./start.channel", "hard.channel", "soft.channel", "here/start.channel",
             "deep/../start.channel", os.path.abspath("start.channel"), "here/here/hard.channel")]
    cases += [((*changed("--checkpoint", path), "-o", "e.channel"), "START and the checkpoint are the same file")
        for path in ("start.channel", "hard.channel", "soft.channel")]
    cases += [((*changed("--record", path), "-o", "e.channel"), "START and RECORD are the same file")
        for path in ("start.channel", "hard.channel", "here/start.channel")]
    cases += [((*changed("--checkpoint", "here/e.channel"), "-o", "e.channel"),
        "END and the checkpoint are the same file"),
              ((*changed("--record", "e.channel"), "-o", "./e.channel"), "END and RECORD are the same file"),
              ((*changed("--record", "c.channel"), "-o", "e.channel"), "the checkpoint and RECORD are the same file"),
              ((*everything, "-o", "r.csv.open"), "END and RECORD.open are the same file"),
              ((*everything, "--pour", "pour.csv", "-o", "pour.csv"), "POUR and END are the same file"),
              ((*changed("--record", "pour.csv"), "--pour", "pour.csv", "-o", "e.channel"),
              "POUR and RECORD are the same file"),
              ((*everything, "-o", "dangling"), "dangling: is a symbolic link"),
              ((*everything, "-o", "deep"), "deep: is a folder"),
              ((*everything, "-o", "deep/"), "names a folder"),
              ((*everything, "-o", "/dev/null"), "/dev/null: is a device or pipe"),
              ((*changed("--record", "/dev/null"), "-o", "e.channel"), "/dev/null: is a device or pipe"),
              ((*changed("--checkpoint", "deep"), "-o", "e.channel"), "deep: is a folder")]
    for words, message in cases:
        for replace in ((), ("--replace",)):
            before = listing()
            go("run", "start.channel", *words, *replace, status=REFUSED, says=message)
            check(listing() == before, f"{words}: something was written or changed")
    shutil.copy("start.channel", "x.channel")
    os.symlink("x.channel", "r9.csv.open")
    go("run", "start.channel", "-o", "e.channel", *changed("--record", "r9.csv"), status=REFUSED,
        says="r9.csv.open: is a symbolic link")
    check(read("x.channel") == begin, "a file behind a link keeps its bytes")
    os.rename("start.channel", "r8.csv.open")
    go("run", "r8.csv.open", "-o", "e.channel", *changed("--record", "r8.csv"), status=REFUSED,
        says="START and RECORD.open are the same file")
    os.rename("r8.csv.open", "start.channel")
    go("show", "start.channel", "--svg", "start.channel", "--replace", status=REFUSED,
        says="FILE and PICTURE are the same file")
    go("show", "start.channel", "--svg", "hard.channel", "--replace", status=REFUSED,
        says="FILE and PICTURE are the same file")
    go("show", "--staff", "one.csv", "--svg", "one.csv", "--replace", status=REFUSED,
        says="RECORD and PICTURE are the same file")
    check(read("start.channel") == begin and read("hard.channel") == begin, "START has its bytes")
    go("run", "soft.channel", "-o", "e.channel", name="START by a link")
    check(os.path.islink("soft.channel") and read("start.channel") == begin, "START has its bytes")
    for name in ("hard.channel", "soft.channel", "here", "dangling", "e.channel", "x.channel", "r9.csv.open"):
        os.remove(name)
    os.rmdir("deep")
