"""Tables of poured water, of records and of surveys: what is refused, other marks, any length, and pipes."""
import os, re, resource, struct, threading, time

from common import (COUNTS, DONE, REFUSED, ROWS, USAGE, check, forget, from_shell, go, group, listing, read, saved,
    start, tested, write)
from formats import record_head, record_rows, survey, whole_record


def bad_tables(begin):
    group("tables of poured water and staffs that are refused")
    head = "step,cell,amount_um\n"
    bad = {"a missing column": ("step,cell\n1,1\n", "line 1: has no column amount_um"),
           "another column": ("step,cell,amount_um,note\n1,1,1,x\n", r"line 1, column 4 \(note\)"),
           "a word": (head + "1,1,much\n", r"line 2, column 3 \(amount_um\): 'much'"),
           "step 0": (head + "0,1,1\n", "line 2, column 1 .*0 is outside 1 to 300"),
           "step 301": (head + "301,1,1\n", "301 is outside 1 to 300"),
           "cell 0": (head + "1,0,1\n", "line 2, column 2 .*0 is outside 1 to 30"),
           "cell 31": (head + "1,31,1\n", "31 is outside 1 to 30"),
           "too much": (head + "1,1,1000001\n", "1000001 is outside -1,000,000 to 1,000,000"),
           "twice": (head + "5,1,1\n6,1,1\n5,1,2\n", "line 4: step 5, cell 1 stands on line 2 already"),
           "empty": ("", "is empty"), "an empty amount": (head + "1,1,\n", "is empty")}
    for name, (text, words) in bad.items():
        write("bad.csv", text)
        before = listing()
        go("run", "start.channel", "-o", "e.channel", "--pour", "bad.csv", status=REFUSED, says=words, name=name)
        check(listing() == before, f"{name}: something was written")
    for line, status, words in [(("--staff", "31"), REFUSED, "'31': is not a cell; the channel's cells are 1 to 30"),
                                (("--staff", "0"), REFUSED, "is not a cell"),
                                (("--staff", "3,,4"), REFUSED, "'': is not a cell"),
                                (("--staff", "x"), REFUSED, "'x': is not a cell"),
                                (("--staff", "3,4,3"), REFUSED, "cell 3 stands there twice"),
                                (("--staff", "3", "--every", "0"), REFUSED, "--every 0: must be 1 to 1,000,000"),
                                (("--staff", "3", "--every", "x"), USAGE, "'x': is not a whole number"),
                                ((), USAGE, "--staff and --record go together")]:
        before = listing()
        go("run", "start.channel", "-o", "e.channel", "--record", "r.csv", *line, status=status, says=words)
        check(listing() == before, f"{line}: something was written")
    for line, words in [(("--staff", 3), "--staff and --record go together"), (("--every", 3), "--every goes with"),
                        (("--checkpoint", "c"), "go together"),
                        (("--checkpoint-every", 3), "go together"), (("--filter-every", "x"), "not a whole number")]:
        go("run", "start.channel", "-o", "e.channel", *line, status=USAGE, says=words)
    go("run", "start.channel", status=USAGE, says="-o END is missing")
    go("run", "start.channel", "-o", "e.channel", "--filter-every", 0, status=REFUSED, says="--filter-every 0: must be")
    plain = (begin, 0, [])
    head = lambda cells=(3,), run=plain, every=5, first=0: record_head(cells, run, every, first)
    words = ("--staff", 3, "--every", 5, "--record", "r.csv")
    for left, differs in [(head((4,)) + b"0,0.000,0\n", "its columns are not those of this run's staffs"),
                          (b"step,time_s,cell_3_um\n0,0.000,0\n", "it does not say of which run it is"),
                          (head(run=(begin, 7, [])), "--filter-every 7 there, none here"),
                          (head(run=(begin, 0, [(1, 1, 1)])), "--pour a table there, none here"),
                          (head(run=(begin[:8] + struct.pack("<I", 999) + begin[12:], 0, [])),
                              "it began with another channel"),
                          (head(every=10), "--every 10 there, 5 here"),
                          (head().replace(b" from", b"  from"), "it does not say of which run"),
                          (head()[:-1] + b"x", "it does not say of which run"),
                          (b"my notes\n", "its columns are not"), (b"99999999999999999999999\n", "its columns are not"),
                          (bytes(70000), "its columns are not")]:
        write("r.csv.open", left)
        before = listing()
        go("run", "start.channel", "-o", "e.channel", *words, status=REFUSED,
            says=f"r.csv.open: {differs}.*remove it, or record under another name")
        check(listing() == before, "an open record of another run keeps its bytes")
        go("run", "start.channel", "-o", "e.channel", *words, "--replace",
            says=rf"r.csv.open: is left from another run \({differs}.*\), and is written over")
        check(whole_record(read("r.csv"), "complete: 300 of 300 steps accepted"), "--replace writes over it")
        forget(*saved("e.channel"), "r.csv")
    go("run", "start.channel", "-o", "mid.channel", "--checkpoint", "mid.check", "--checkpoint-every", 160)
    write("r.csv.open", head() + b"0,0.000,0\n5,0.200,0\n")
    for replace in ((), ("--replace",)):
        before = listing()
        go("run", "mid.check", "-o", "e.channel", *words, *replace, status=REFUSED,
            says="r.csv.open: its rows up to step 160 are not those that START was saved with: some are lost or "
                 "changed")
        check(listing() == before, "an open record keeps its bytes when a run goes on, even with --replace")
    forget("r.csv.open")
    go("run", "mid.check", "-o", "e.channel", *words, says="the record begins at step 160")
    check(record_rows(read("r.csv"))[0].startswith(b"160,6.400,"), "a record that begins on the way")
    check(whole_record(read("r.csv"), "complete: 300 of 300 steps accepted, recorded from step 160"),
        "its last line says where it begins")
    go("show", "--staff", "r.csv", tells="complete: all 300 steps accepted, recorded from step 160")
    go("run", "start.channel", "-o", "e.channel", *words, "--replace",
        says="e.channel: is of this run, but its record begins at step 160: it is not gone on with, and stays")
    whole = read("r.csv")
    check(whole_record(whole, "complete: 300 of 300 steps accepted"), "a whole record in its place")
    forget(*saved("e.channel"))
    go("run", "start.channel", "-o", "mid.channel", *words, "--checkpoint", "mid.check", "--checkpoint-every", 160,
        "--replace")
    _, err = go("run", "mid.check", "-o", "e.channel", *words)
    check(read("r.csv") == whole and err == "", "gone on with once more, the earlier rows come from the record itself")
    forget(*saved("e.channel"))
    go("run", "mid.check", "-o", "e.channel", "--staff", 4, "--every", 5, "--record", "r.csv", status=REFUSED,
        says="r.csv: is there already and is not written over; give another name for RECORD")
    go("run", "mid.check", "-o", "e.channel", "--staff", 4, "--every", 5, "--record", "r.csv", "--replace",
        says="the record begins at step 160")
    forget(*saved("mid.channel", "mid.check", "e.channel"), "r.csv")
    check(read("start.channel") == begin, "START has its bytes")


def other_marks(begin, record):
    group("tables with other marks than commas and other line ends")
    readers = {"a survey": (lambda path: ("make", path, "-o", "no.channel", *COUNTS), survey(ROWS)),
        "poured water": (lambda path: ("run", "start.channel", "-o", "no.channel", "--pour", path),
            read("pour.csv").decode()),
        "a staff record": (lambda path: ("show", "--staff", path), record.decode())}
    tabs, semicolons = (f"columns are parted by {mark}; save the table with commas" for mark in ("tabs", "';'"))
    old = "a carriage return stands inside the line; save the table with line ends of Unix or Windows"
    for name, (words, text) in readers.items():
        quoted = re.sub(r"(\w+)", r'"\1"', text)
        names, rows = text.split("\n", 1)
        cases = {"tabs": (text.replace(",", "\t"), f"line 1: {tabs}"),
            "tabs after remarks": ("# a\n\n" + text.replace(",", "\t"), f"line 3: {tabs}"),
            "tabs, in quotes": (quoted.replace(",", "\t"), f"line 1: {tabs}"),
            "tabs and CRLF": (text.replace(",", "\t").replace("\n", "\r\n"), f"line 1: {tabs}"),
            "tabs between the names alone": (names.replace(",", "\t") + "\n" + rows, f"line 1: {tabs}"),
            "tabs, a comma in a name": (text.replace(",", "\t").replace("\t", '\t"a, b"\t', 1), f"line 1: {tabs}"),
            "semicolons": (text.replace(",", ";"), f"line 1: {semicolons}"),
            "semicolons, in quotes": (quoted.replace(",", ";"), f"line 1: {semicolons}"),
            "sep=;": ("sep=;\r\n" + text.replace(",", ";"), f"line 1: {semicolons}"),
            "sep=; in quotes": ('"sep=;"\n' + text.replace(",", ";"), f"line 1: {semicolons}"),
            "sep= and a tab": ("\ufeffSEP=\t\n" + text.replace(",", "\t"), f"line 1: {tabs}"),
            "sep=|": ("sep=|\n" + text.replace(",", "|"), r"line 1: columns are parted by '\|'"),
            "sep=, and semicolons": ("sep=,\n" + text.replace(",", ";"), f"line 2: {semicolons}"),
            "sep=, in the second line": ("# a\nsep=,\n" + text, "line 2: "),
            "CR alone": (text.replace("\n", "\r"), f"line 1: {old}"),
            "CR alone after a remark": ("# a survey\r" + text.replace("\n", "\r"), f"line 1: {old}"),
            "CR alone after blank lines and a remark": ("\r\r  # a\r" + text.replace("\n", "\r"), f"line 1: {old}"),
            "CR alone, two million bytes": (text.replace("\n", "\r") * 3000, f"line 1: {old}"),
            "a remark with a row after a CR": (f"# a\n{names}\n# b\r{rows}", f"line 3: {old}")}
        for case, (table, says) in cases.items():
            write("marks.csv", table)
            go(*words("marks.csv"), status=REFUSED, says=f"marks.csv: {says}", name=f"{name}: {case}")
        write("marks.csv", "sep=,\n" + text)
        go(*(word if word != "no.channel" else "yes.channel" for word in words("marks.csv")), name=f"{name}: sep=,")
        check(not os.path.exists("no.channel"), f"{name}: something was written")
        forget("marks.csv", "yes.channel")


def little_memory():
    """300 MB of memory; the sanitizers need far more room for addresses, and get it."""
    if not tested.checked:
        resource.setrlimit(resource.RLIMIT_AS, (300 << 20, 300 << 20))


def sparse(path, data, size):
    write(path, data)
    os.truncate(path, size)


def long_tables(begin):
    group("tables of any length, in little memory")
    readers = {"a survey": (lambda path: ("make", path, "-o", "no.channel", *COUNTS), "depth_mm", "1000"),
        "poured water": (lambda path: ("run", "start.channel", "-o", "no.channel", "--pour", path),
            "step,cell,amount_um", "5,1,1"),
        "a staff record": (lambda path: ("show", "--staff", path), "step,time_s,cell_1_um", "0,0.000,1")}
    zero = "is no plain text: it holds a zero byte; save the table as CSV in UTF-8"
    endless = {"a survey": "line 258: is row 257; a channel has 8 to 256 cells",
        "poured water": r"line \d+: step 5, cell 1 stands on line \d+ already",
        "a staff record": "line 3, column 1 .*is not the step that must follow"}
    for name, (words, names, row) in readers.items():
        head = f"{names}\n{row}\n".encode()
        for what, data, line in (("zeros", b"", 1), ("zeros after a row", head, 3), ("zeros in a row", head[:-1], 2),
            ("zeros after a remark", b"# " + b"a" * 200000 + b"\n", 2)):
            sparse("big.csv", data, 3 << 30)
            go(*words("big.csv"), status=REFUSED, says=f"big.csv: line {line}: {zero}", preexec_fn=little_memory,
                name=f"{name}: 3 GB, {what}")
            os.remove("big.csv")
        go(*words("/dev/zero"), status=REFUSED, says=f"/dev/zero: line 1: {zero}", preexec_fn=little_memory)
        for what, data, line in (("names", b"a" * (2 << 20), 1), ("a row", head + b"1" * (2 << 20) + b"\n", 3),
            ("a remark", head + b"#" * 1048577 + b"\n" + row.encode() + b"\n", 3)):
            write("big.csv", data)
            go(*words("big.csv"), status=REFUSED, says=f"big.csv: line {line}: is longer than 1,048,576 bytes",
                preexec_fn=little_memory, name=f"{name}: {what} of 2 MiB")
        write("big.csv", b"," * 1000000 + b"\na\n")
        go(*words("big.csv"), status=REFUSED, preexec_fn=little_memory, says="line 1: has more than 16,384 fields",
            name=f"{name}: a million commas")
        write("big.csv", b",".join(b"n%d" % k for k in range(100000)) + b"\n")
        go(*words("big.csv"), status=REFUSED, preexec_fn=little_memory, says="line 1: has more than 16,384 fields",
            name=f"{name}: 100,000 names")
        os.remove("big.csv")
        from_shell("cat /dev/zero", *words("/dev/stdin"), status=REFUSED, says=zero, preexec_fn=little_memory)
        from_shell("yes | tr -d '\\n'", *words("/dev/stdin"), status=REFUSED,
            says="line 1: is longer than 1,048,576 bytes", preexec_fn=little_memory)
        from_shell(f"echo {names}; yes {row}", *words("/dev/stdin"), status=REFUSED, says=endless[name],
            preexec_fn=little_memory)
        check(not os.path.exists("no.channel"), f"{name}: something was written")
    write("lines.csv", "#" * 1048575 + "\r\n" + survey(ROWS).replace("\n", " " * 70000 + "\n", 3) + "#" * 1048576)
    go("make", "lines.csv", "-o", "lines.channel", *COUNTS, preexec_fn=little_memory, name="the longest lines")
    check(os.path.exists("lines.channel") and read("lines.channel") == begin, "the longest lines: other bytes")
    forget("lines.csv", "lines.channel")


def tables_from_a_pipe(begin):
    group("tables from a pipe")
    text = survey(ROWS).encode()
    for size in (1, 7, 4096):
        for at in ("fifo", "/dev/stdin"):
            reader, writer = os.pipe()
            os.mkfifo("fifo")

            def feed():
                to = os.open("fifo", os.O_WRONLY) if at == "fifo" else writer
                for k in range(0, len(text), size):
                    os.write(to, text[k:k + size])
                os.close(to)

            thread = threading.Thread(target=feed)
            thread.start()
            process = start("make", at, "-o", "piped.channel", *COUNTS, stdin=reader)
            os.close(reader)
            thread.join()
            if at == "fifo":
                os.close(writer)
            process.communicate(timeout=60)
            check(process.returncode == DONE and read("piped.channel") == begin, f"{at}, {size} bytes at a time")
            forget("piped.channel", "fifo")
    write("order.csv", "depth_mm\n" + "1000\n" * 300 + "\0")
    go("make", "order.csv", "-o", "no.channel", *COUNTS, status=REFUSED, says="line 258: is row 257")
    forget("order.csv")
    cells = range(1, 257)
    with open("wide.csv", "w") as file:
        file.write(",".join(["step", "time_s", *(f"cell_{cell}_um" for cell in cells)]) + "\n")
        for k in range(40000):
            file.write(f"{k},{k / 50:.3f}" + ",1" * 256 + "\n")
    go("check", "--staff", "wide.csv", tells="open: cut after step 39,999",
        preexec_fn=None if tested.checked else lambda: resource.setrlimit(resource.RLIMIT_AS, (64 << 20, 64 << 20)),
        name="check --staff holds no heights")
    write("names.csv", ",".join(f"{'n' * 57}{k:05}" for k in range(16384)) + "\n")
    began = time.monotonic()
    go("make", "names.csv", "-o", "no.channel", *COUNTS, status=REFUSED, says="has no column depth_mm")
    check(time.monotonic() - began < 3, f"16,384 names took {time.monotonic() - began:.1f} s")
    forget("wide.csv", "names.csv")
