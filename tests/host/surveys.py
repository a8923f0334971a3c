"""Surveys and counts, as pathpetal make takes or refuses them."""
import os, random, re

from common import COUNTS, REFUSED, ROWS, USAGE, check, forget, go, group, listing, read, tested, write
from formats import cell_row, dampings, length, survey
from steps import ALLOWED, hasty_mend, longest


def good_surveys():
    group("surveys that are taken")
    write("plain.csv", survey(ROWS))
    go("make", "plain.csv", "-o", "reference.channel", *COUNTS, tells="30 cells of 1,000 mm, 300 steps of 40 ms wanted")
    reference = read("reference.channel")
    check(list(zip(*(cell_row(reference, k) for k in range(3)))) == ROWS and dampings(reference) == (0,) * 30,
        "the file holds the survey's numbers, and no damping")
    plain = survey(ROWS)
    turned = survey([(v, d, "b", h) for d, h, v in ROWS], "velocity_um_s,depth_mm,note,height_um")
    same = {
        "CRLF": plain.replace("\n", "\r\n"),
        "no final newline": plain.rstrip("\n"),
        "CRLF without the last": plain.replace("\n", "\r\n").rstrip("\r\n"),
        "comments and blank lines": "# a\n\n  # b, \"c\n" + plain.replace("\n", "\n\n# d\n  \n,,\n"),
        "quoted fields": re.sub(r"(-?\d+)", r'"\1"', plain),
        "quoted names": plain.replace("depth_mm", '"depth_mm"'),
        "spaces": plain.replace(",", " ,\t"),
        "capitals": plain.replace("depth_mm", "Depth_MM"),
        "columns in another order, one not used": turned,
        "plus signs": re.sub(r"\n(\d)", r"\n+\1", plain),
        "leading zeros": re.sub(r"\n(\d)", r"\n000000000000000000000000\1", plain),
        "a byte-order mark": b"\xef\xbb\xbf" + plain.encode(),
        "Excel's first line": "sep=,\n" + plain,
        "Excel's first line in quotes, after a byte-order mark": b"\xef\xbb\xbf\"Sep=,\"\r\n" + plain.encode(),
        "empty for 0": plain.replace(",0,", ",,").replace(",0\n", ",\n"),
        "counted cells": survey([(j + 1, *row) for j, row in enumerate(ROWS)], "cell,depth_mm,height_um,velocity_um_s"),
    }
    for name, text in same.items():
        write("same.csv", text)
        out, _ = go("make", "same.csv", "-o", "same.channel", *COUNTS, "--replace", name=name)
        check(os.path.exists("same.channel") and read("same.channel") == reference, f"{name}: other bytes")
        if "another order" in name:
            check("not used: 'note'" in out, "a column that is not used is named")
        forget("same.channel")
    write("some.csv", survey([(d,) for d, _, _ in ROWS], "depth_mm"))
    go("make", "some.csv", "-o", "some.channel", *COUNTS,
        tells="\n  no column height_um: all heights are 0\n  no column velocity_um_s: all velocities are 0\n"
        "  no column damping_thousandths_s: all dampings are 0\n$")
    check([cell_row(read("some.channel"), k) for k in (1, 2, 6)] == [(0,) * 30] * 3,
        "heights, velocities and dampings are 0")
    for rows in (8, 256):
        write("edge.csv", survey([(1000,)] * rows, "depth_mm"))
        go("make", "edge.csv", "-o", "edge.channel", *COUNTS, "--replace")
        check(len(read("edge.channel")) == length(rows), f"{rows} rows")


ROW_WORDS = {"depth_mm": "a depth is 1 to 20,000 mm", "height_um": "a height is -20,000,000 to 20,000,000 um",
    "velocity_um_s": "a velocity is -20,000,000 to 20,000,000 um/s",
    "damping_thousandths_s": "a damping is 0 to 10,000 thousandths per second"}
MENDS = {31: "correct that depth; it may have been typed in another unit than mm",
    32: "correct that height; it may have been typed in another unit than um",
    33: "correct that velocity; it may have been typed in another unit than um/s",
    38: "correct that damping; it may have been typed in another unit than thousandths per second",
    4: "make that cell deeper, or the water in it higher", 5: "take wider cells, or smooth the bottom"}


def steep(depths, j, width):
    """Whether the row of a cell is not dominant."""
    h, last = depths[j], len(depths) - 1
    beside = sum(abs(h * (1409805 * h - 5310000 * depths[k])) for k in (j - 1, j + 1) if 0 <= k <= last)
    return 10000000 * width * width + (7800390 + 3900195 * (j in (0, last))) * h * h <= beside


def fault(rows, width, step):
    """The refusal of a survey's rows: its number, the column, the cell from 0 and the words before and after it; None if
    there is none of these."""
    for k, (number, name, least, most) in enumerate(((31, "depth_mm", 1, 20000), (32, "height_um", -20000000, 20000000),
        (33, "velocity_um_s", -20000000, 20000000), (38, "damping_thousandths_s", 0, 10000))):
        for j, row in enumerate(rows):
            if not least <= row[k] <= most:
                return number, name, j, f"{ROW_WORDS[name]}, not {row[k]:,}", MENDS[number]
    for j, (depth, height, *_) in enumerate(rows):
        if 1000 * depth + height < 1000:
            return 4, "height_um", j, \
                f"less than 1 mm of water is left: a depth of {depth:,} mm, a height of {height:,} um", MENDS[4]
    depths = [row[0] for row in rows]
    deepest = max(depths)
    if 9810 * deepest * step * step > 6000000 * width * width:
        return 26, "depth_mm", depths.index(deepest), "the time step is too long for the deepest cell: " \
            f"{step} ms, with cells of {width:,} mm and a depth of {deepest:,} mm", \
            "take {}; or correct that depth, if it is wrong\n{}".format(*hasty_mend(width, deepest, step))
    for j, depth in enumerate(depths):
        if steep(depths, j, width):
            beside = " and ".join(f"{depths[k]:,}" for k in (j - 1, j + 1) if 0 <= k < len(depths))
            return 5, "depth_mm", j, "the bottom is too steep for cells this narrow: " \
                f"{depth:,} mm beside {beside} mm", MENDS[5]
    return None


def refused_cells():
    """Line, column and cell of what the library refuses, in surveys whose lines are not their cells."""
    group("cells of a survey that are refused")
    draw = random.Random(tested.seed + 7)
    names = ["place", "velocity_um_s", "depth_mm", "cell", "height_um", "damping_thousandths_s"]
    seen = {}

    def tried(rows, name, width=1000, step=COUNTS[3]):
        rows = [(*row, 0)[:4] for row in rows]  # without damping where none is given
        wrong = fault(rows, width, step)
        counts = ("--width-mm", width, "--step-ms", step, *COUNTS[4:])
        order = draw.sample(names, len(names))
        lines, at = [], []
        for j, row in enumerate([None, *rows]):
            lines += ["# a remark", "", ",,,,,"][:draw.choice((0, 0, 0, 1, 2, 3))]
            fields = {"place": "", "cell": j, **dict(zip(ROW_WORDS, row or ()))}
            lines.append(",".join(str(fields[name]) for name in order) if row else ",".join(order))
            at.append(len(lines))
        write("bad.csv", "\n".join(lines) + "\n")
        forget("bad.channel")
        before = listing()
        if not wrong:
            go("make", "bad.csv", "-o", "bad.channel", *counts, name=name)
            return forget("bad.channel")
        number, column, j, words, mend = wrong
        seen.setdefault(number, set()).add("first" if j == 0 else "last" if j == len(rows) - 1 else "middle")
        says = f"line {at[j + 1]}, column {order.index(column) + 1} ({column}): {words} (refused, number {number}, in " \
            f"cell {j + 1})"
        if number == 26:
            says = f"refused, number 26: {words} in cell {j + 1}, on line {at[j + 1]}"
        says = f"pathpetal: bad.csv: {says}\npathpetal: to mend: {mend}\npathpetal: nothing is written\n"
        go("make", "bad.csv", "-o", "bad.channel", *counts, status=REFUSED, name=name, says=f"^{re.escape(says)}$")
        return check(listing() == before, f"{name}: something was written or changed")

    plain = [(900 + j % 3, 0, 0) for j in range(60)]

    def with_cells(changes, rows=plain):
        rows = list(rows)
        for j, row in changes.items():
            rows[j] = row
        return rows

    tried(plain, "no fault")
    tried(with_cells({38: (25000, 0, 0)}), "a bad depth in the 39th cell")
    for j in (0, 1, 38, 58, 59):
        for row in ((0, 0, 0), (-1, 0, 0), (20001, 0, 0), (2147483647, 0, 0), (-2147483648, 0, 0), (900, 20000001, 0),
            (900, -20000001, 0), (900, 0, 20000001), (900, 0, -20000001), (900, 2147483647, 0), (900, 0, -2147483648),
            (900, -899001, 0), (900, -899000, 0), (900, 20000000, 0), (900, 0, 9000), (900, 0, 0, -1),
            (900, 0, 0, 10001), (900, 0, 0, 10000), (900, 0, 0, 2147483647), (900, 0, 0, -2147483648)):
            tried(with_cells({j: row}), f"{row} in cell {j + 1}")
        tried(with_cells({j: (2000, 0, 0)}), f"a step of the bottom at cell {j + 1}")
        for deep in (1941, 1942, 4352, 4353):
            tried(with_cells({j: (1000, 0, 0)}, [(deep, 0, 0)] * 60), f"1,000 mm beside {deep} mm at cell {j + 1}")
    tried(with_cells({2: (900, 20000001, 0), 8: (0, 0, 0)}), "a depth before a height in a lower cell")
    tried(with_cells({2: (900, 0, 20000001), 8: (900, -20000001, 0)}), "a height before a velocity in a lower cell")
    tried(with_cells({0: (900, 0, 0, -1), 59: (900, 0, 20000001)}), "a velocity before a damping in a lower cell")
    tried(with_cells({0: (900, -899001, 0), 59: (900, 0, 0, 10001)}), "a damping before a dry cell")
    tried(with_cells({4: (1000, 0, 0), 40: (1942, -1941001, 0)}, [(1942, 0, 0)] * 60), "a dry cell before a steep one")
    tried(with_cells({17: (0, 0, 0), 5: (20001, 0, 0), 41: (0, 0, 0)}), "the lowest of three depths")
    tried(with_cells({j: (0, 20000001, 20000001) for j in range(60)}), "a fault everywhere")
    for k in range(60):
        rows = [(draw.randint(800, 1000), draw.randint(-9000, 9000), draw.randint(-900, 900), draw.randint(0, 10000))
            for _ in range(draw.choice((8, 9, 30, 256)))]
        for _ in range(draw.randint(1, 4)):
            j = draw.choice((0, len(rows) - 1, draw.randrange(len(rows))))
            value = draw.choice((0, -1, 1, 10000, 10001, 20000, 20001, 20000000, 20000001, -20000000, -20000001,
                -899001))
            column = draw.randrange(4)
            rows[j] = tuple(value if i == column else old for i, old in enumerate(rows[j]))
        if fault(rows, 1000, COUNTS[3]):
            tried(rows, f"drawn faults {k}")
    flat = lambda depth: [(depth, 0, 0)] * 60
    for width, depth, step in ((20, 500, 20), (20, 500, 22), (20, 500, 23), (327, 6540, 100), (327, 6541, 100),
        (10, 20000, 1), (10, 20000, 2), (10, 20000, 100), (571, 20000, 100), (572, 20000, 100), (10, 1, 78), (10, 1, 79)):
        tried(flat(depth), f"{depth} mm, cells of {width} mm, steps of {step} ms", width, step)
    for j in (0, 1, 38, 58, 59):
        tried(with_cells({j: (6541, 0, 0)}, flat(6540)), f"the deepest is cell {j + 1}", 327, 100)
        tried(with_cells({j: (6540, 0, 0)}, flat(6500)), f"the deepest, cell {j + 1}, is allowed", 327, 100)
    tried(with_cells({7: (6550, 0, 0), 31: (6550, 0, 0), 40: (6549, 0, 0)}, flat(6540)), "the first of the deepest", 327, 100)
    tried(with_cells({40: (6541, -6540001, 0)}, flat(6540)), "a dry cell before the time step", 327, 100)
    tried(with_cells({3: (6541, 0, 0), 40: (6540, 0, 0, -1)}, flat(6540)), "a damping before it", 327, 100)
    tried(with_cells({4: (1000, 0, 0)}, flat(6541)), "the time step before a steep bottom", 327, 100)
    tried(with_cells({4: (1000, 0, 0)}, flat(6540)), "a steep bottom alone", 327, 100)
    for _ in range(20):
        # the longest time step that is allowed, and 1 ms more
        width, depth = draw.randint(10, 500), draw.randint(100, 20000)
        last = longest(width, depth, ALLOWED)
        for step in (last, last + 1):
            if step <= 100:
                tried(with_cells({draw.randrange(60): (depth, 0, 0)}, flat(depth - 1)), f"at the bound: {width}, {depth}",
                    width, step)
    for number, places in sorted(seen.items()):
        check(len(places) == 3, f"refusal {number} in the first, a middle and the last cell: {places}")
    check(sorted(seen) == [4, 5, 26, 31, 32, 33, 38], f"each refusal of a cell: {sorted(seen)}")


def bad_surveys():
    group("surveys and counts that are refused")
    lines = survey(ROWS).splitlines()

    def with_line(number, text):
        return "\n".join(lines[:number - 1] + [text] + lines[number:]) + "\n"

    def with_damping(number, field):
        rows = [(depth, 0) for depth, _, _ in ROWS]
        rows[number - 2] = (900, field)
        return survey(rows, "depth_mm,damping_thousandths_s")

    bad = {
        "a missing column": (survey([row[1:] for row in ROWS], "height_um,velocity_um_s"),
            "line 1: has no column depth_mm"),
        "a word for a number": (with_line(7, "deep,0,0"),
            r"line 7, column 1 \(depth_mm\): 'deep' is not a whole number"),
        "a word after comments": ("# one\n\n" + with_line(7, "900,x1,0"), r"line 9, column 2 \(height_um\): 'x1'"),
        "a word with CRLF": (with_line(7, "900,0,fast").replace("\n", "\r\n"),
            r"line 7, column 3 \(velocity_um_s\): 'fast'"),
        "a decimal number": (with_line(3, "900.5,0,0"), r"line 3, column 1 .*'900.5' is not a whole number"),
        "a number with thousands": (with_line(3, '"1,900",0,0'), r"line 3, column 1 .*'1,900' is not a whole number"),
        "an exponent": (with_line(3, "1e3,0,0"), "line 3, column 1 .*'1e3' is not a whole number"),
        "a sign alone": (with_line(3, "900,-,0"), "line 3, column 2 .*'-' is not a whole number"),
        "two signs": (with_line(3, "900,--5,0"), "line 3, column 2 .*'--5' is not a whole number"),
        "an empty depth": (with_line(31, ",5,5"), r"line 31, column 1 \(depth_mm\): is empty"),
        "a depth of 2^31": (with_line(3, "2147483648,0,0"),
            r"line 3, column 1 \(depth_mm\): a depth is 1 to 20,000 mm, not 2147483648\n$"),
        "a height far too large": (with_line(3, "900,99999999999999999999999,0"),
            r"line 3, column 2 \(height_um\): a height is -20,000,000 to 20,000,000 um, not 9{23}\n$"),
        "a velocity of 2^32 + 5": (with_line(3, "900,0,4294967301"),
            r"line 3, column 3 \(velocity_um_s\): a velocity is -20,000,000 to 20,000,000 um/s, not 4294967301\n$"),
        "a velocity of -2^31 - 1": (with_line(3, "900,0,-2147483649"), "line 3, column 3 .*um/s, not -2147483649\n$"),
        "a velocity of 2^64 + 5": (with_line(3, "900,0,18446744073709551621"), "line 3, column 3 .*, not 184467"),
        "a damping of 1.5": (with_damping(5, "1.5"),
            r"line 5, column 2 \(damping_thousandths_s\): '1.5' is not a whole number"),
        "a word for a damping": (with_damping(31, "reeds"),
            r"line 31, column 2 \(damping_thousandths_s\): 'reeds' is not a whole number"),
        "a damping of 2^31": (with_damping(2, 2147483648), r"line 2, column 2 \(damping_thousandths_s\): a damping is "
            r"0 to 10,000 thousandths per second, not 2147483648\n$"),
        "a damping of 2^32": (with_damping(2, 4294967296), "line 2, column 2 .*per second, not 4294967296\n$"),
        "a damping of -2^31 - 1": (with_damping(2, -2147483649), "line 2, column 2 .*per second, not -2147483649\n$"),
        "too few fields": (with_line(12, "900,0"), "line 12: has 2 fields where the column names are 3"),
        "too many fields": (with_line(12, "900,0,0,0"), "line 12: has 4 fields"),
        "257 rows": (survey([(1000,)] * 257, "depth_mm"), "line 258: is row 257; a channel has 8 to 256 cells"),
        "7 rows": (survey([(1000,)] * 7, "depth_mm"), "has 7 rows; a channel has 8 to 256 cells"),
        "no rows": ("depth_mm\n", "has 0 rows"),
        "an empty file": ("", "is empty"),
        "only comments": ("# nothing\n\n", "is empty"),
        "a column twice": (survey([row + (1,) for row in ROWS], "depth_mm,height_um,velocity_um_s,Depth_mm"),
            "line 1, column 4 .*stands over column 1"),
        "depth in another unit": (survey(ROWS, "depth_m,height_um,velocity_um_s"),
            r"line 1, column 1 \(depth_m\): is not a name"),
        "a misspelt column": (survey(ROWS, "depth_mm,heigth_um,velocity_um_s"),
            r"line 1, column 2 \(heigth_um\): is not a name"),
        **{f"a column {name}": (survey(ROWS, f"depth_mm,height_um,{name}"),
            rf"line 1, column 3 \({name}\): is not a name of a survey; the names are depth_mm, height_um, "
            r"velocity_um_s, damping_thousandths_s and cell, in these units\n$")
            for name in ("damping", "Damping", "damping_1_s", "damping_s", "dampening", "reeds_thousandths_s")},
        "semicolons": (survey(ROWS).replace(",", ";"), "line 1: columns are parted by ';'"),
        "a quote not closed": (with_line(5, '"900,0,0'), "line 5, column 1 .*quote is not closed"),
        "words after a quote": (with_line(5, '"900"x,0,0'), "line 5, column 1 .*after the closing quote"),
        "a zero byte": (with_line(5, "9\x000,0,0"), "zero byte"),
        "UTF-16": (survey(ROWS).encode("utf-16"), "zero byte"),
        "old line ends": (survey(ROWS).replace("\n", "\r"), "carriage return"),
        "a lost row": (survey([(j + 1 + (j > 4), *row) for j, row in enumerate(ROWS)],
            "cell,depth_mm,height_um,velocity_um_s"), "line 7, column 1 .*is 7 where cell 6 must follow"),
        "bytes at random": (random.Random(5).randbytes(3000), "pathpetal: bad.csv"),
        "a long word": (with_line(3, "z" * 100000 + ",0,0"), r"'z+\.\.\.' is not a whole number"),
        "water too fast": (survey([(20000, 0, 20000000 * (-1) ** j) for j in range(8)]),
            "refused, number 7: .*faster than 20 m/s.*to mend"),
    }
    for name, (text, words) in bad.items():
        write("bad.csv", text)
        before = listing()
        go("make", "bad.csv", "-o", "bad.channel", *COUNTS, status=REFUSED, says=words, name=name)
        check(listing() == before, f"{name}: something was written or changed")
    go("make", "absent.csv", "-o", "bad.channel", *COUNTS, status=REFUSED,
        says="absent.csv: cannot be read: No such file")
    go("make", "/", "-o", "bad.channel", *COUNTS, status=REFUSED, says="/: cannot be read: Is a directory")
    write("ok.csv", survey(ROWS))
    before = listing()
    for option, value, status, words in [("--width-mm", "9", REFUSED, "--width-mm 9: must be 10 to 5,000"),
                                         ("--width-mm", "5001", REFUSED, "must be 10 to 5,000"),
                                         ("--step-ms", "0", REFUSED, "--step-ms 0: must be 1 to 100"),
                                         ("--step-ms", "101", REFUSED, "must be 1 to 100"),
                                         ("--steps", "0", REFUSED, "--steps 0: must be 1 to 1,000,000"),
                                         ("--steps", "1000001", REFUSED, "must be 1 to 1,000,000"),
                                         ("--steps", "-5", REFUSED, "must be 1 to 1,000,000"),
                                         ("--steps", "9" * 40, REFUSED, "must be 1 to 1,000,000"),
                                         ("--steps", "many", USAGE, "'many': is not a whole number"),
                                         ("--steps", "", USAGE, "--steps needs N"),
                                         ("--steps", None, USAGE, "--steps is missing")]:
        words_given = dict(zip(COUNTS[::2], map(str, COUNTS[1::2])))
        words_given[option] = value
        line = [word for pair in words_given.items() if pair[1] is not None for word in pair]
        go("make", "ok.csv", "-o", "bad.channel", *line, status=status, says=words)
    for line, words in [(("make", "ok.csv", *COUNTS), "-o START is missing"),
                        (("make", "-o", "bad.channel", *COUNTS), "file name is missing"),
                        (("make", "ok.csv", "two.csv", "-o", "bad.channel", *COUNTS), "one name too many"),
                        (("make", "ok.csv", "-o", "bad.channel", *COUNTS, "--steps", 5), "--steps is given twice"),
                        (("make", "ok.csv", "-o", "bad.channel", *COUNTS, "--fast"), "'--fast' is no option"),
                        (("make", "ok.csv", *COUNTS, "-o"), "-o needs START"),
                        (("make", "ok.csv", "-o", "b", *COUNTS, "--replace=5"), "takes no value"),
                        (("mak",), "'mak' is no command"), ((), "the commands are")]:
        go(*line, status=USAGE, says=words)
    check(listing() == before, "a refused make wrote something")
    go("make", "ok.csv", "-o", "ok.channel", *COUNTS)
    kept = read("ok.channel")
    go("make", "ok.csv", "-o", "ok.channel", "--width-mm", 900, "--step-ms", 40, "--steps", 7, status=REFUSED,
        says="is there already and is not written over")
    check(read("ok.channel") == kept, "a START that was there is not written over")
    go("make", "ok.csv", "-o", "ok.csv", *COUNTS, "--replace", status=REFUSED,
        says="SURVEY and START are the same file")
    check(read("ok.csv").decode() == survey(ROWS), "the survey keeps its bytes")
