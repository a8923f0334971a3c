"""Records that are mixed from two runs, other options, and what stands beside a channel and is not of it."""
import os, re, shutil

from common import (COUNTS, OPEN, OPTIONS, POUR, REFUSED, ROWS, check, forget, go, group, known, listing, read, saved,
    write)
from formats import beside, counts, head_of, record_end, record_head, record_rows, summed, survey, up_to


def kept_apart():
    """Two channels whose staffs are alike at step 0, and what a run of each leaves."""
    for name, rows in (("a", ROWS), ("b", [(depth + 40, height, velocity) for depth, height, velocity in ROWS])):
        write(name + ".csv", survey(rows))
        go("make", name + ".csv", "-o", name + ".channel", *COUNTS)


def mixed_records(begin):
    group("records mixed from two runs")
    kept_apart()
    staffs = ("--staff", 10, "--every", 10)
    go("run", "a.channel", "-o", "a.end", *staffs, "--record", "a.record")
    go("run", "b.channel", "-o", "b.end", *staffs, "--record", "b.record", "--checkpoint", "b155",
        "--checkpoint-every", 155)
    a, b = read("a.record"), read("b.record")
    check(record_rows(a)[0] == record_rows(b)[0] and record_rows(a)[1:] != record_rows(b)[1:], "alike at step 0 alone")
    check(counts(read("b155"))[1] == 155, "a count that is no multiple of --every")
    left = {"all rows of the other run": a, "its rows so far": up_to(a, 155),
            "its rows under this run's head": head_of(b) + b"".join(record_rows(a)),
            "half of them": head_of(b) + b"".join(record_rows(b)[:8] + record_rows(a)[8:]),
            "the first row its own, and no head": a.splitlines(True)[0] + b"".join(record_rows(a)),
            "one row of the other": up_to(b, 155).replace(record_rows(b)[9], record_rows(a)[9])}
    for name, data in left.items():
        for source, known in (("b155", True), ("copied", False)):
            if source == "copied":
                shutil.copy("b155", "copied")
            write("r.csv.open", data)
            before = listing()
            _, err = go("run", source, "-o", "mixed.end", *staffs, "--record", "r.csv", status=REFUSED,
                says="r.csv.open: .*(it is left from another run: remove it|its rows up to step 155 .*this run began "
                     "with), or record under another name", name=name)
            check(("copied: nothing beside it says by which rule and under which options its 155 steps were taken" in err) == (not known),
                f"whether START is known: {err!r}")
            check(listing() == before, f"{name}: something was written or changed")
    # the same run's own rows are gone on with, at this count too
    write("r.csv.open", b)
    go("run", "b155", "-o", "on.end", *staffs, "--record", "r.csv")
    check(read("on.end") == read("b.end") and read("r.csv") == b, "gone on with at a count that is no multiple")
    forget("r.csv", *saved("on.end"))
    earlier_records(staffs, a, b)


def earlier_records(staffs, a, b):
    """`a` and `b` are the records of the two runs."""
    group("an earlier run's open record is kept")
    for name, data, words in (
            ("of another start whose first row is the same", up_to(a, 200), "it began with another channel"),
            ("with its last line", up_to(a, 200) + record_end(up_to(a, 200), "open: 203 of 300 steps accepted"),
                "it began with another channel"),
            ("of other options", record_head((10,), (read("b.channel"), 50, []), 10) + b"".join(record_rows(b)),
                "--filter-every 50 there, none here"),
            ("of an earlier program", b.splitlines(True)[0] + b"".join(record_rows(b)),
                "it does not say of which run")):
        write("r.csv.open", data)
        before = listing()
        go("run", "b.channel", "-o", "new.end", *staffs, "--record", "r.csv", status=REFUSED, name=name,
            says=f"r.csv.open: {words}.*remove it, or record under another name")
        check(listing() == before, f"{name}: something was written or changed")
    # this run's own is written again, with a word
    write("r.csv.open", up_to(b, 200) + b"21")
    go("run", "b.channel", "-o", "new.end", *staffs, "--record", "r.csv",
        says="r.csv.open: is left from this same run, which begins again: its rows are written anew from step 0")
    check(read("new.end") == read("b.end") and read("r.csv") == b, "written anew")
    forget(*saved("a.end", "b.end", "b155", "copied", "new.end"), "a.record", "b.record", "r.csv")


def other_options(begin, end, record):
    group("going on with other options")
    go("run", "start.channel", "-o", "o.end", *OPTIONS, "--record", "o.csv", "--checkpoint", "o.check",
        "--checkpoint-every", 140)
    forget("o.csv", *saved("o.end"))
    pour = "step,cell,amount_um\n"
    tables = {"turned": "cell,amount_um,step\n# a note\r\n" + "".join(f"{b}, {c} ,{a}\r\n" for a, b, c in POUR),
              "less": pour + "".join(f"{a},{b},{c}\n" for a, b, c in POUR[1:]),
              "more": read("pour.csv").decode() + "2,2,0\n",
              "another": read("pour.csv").decode().replace(f",{POUR[0][2]}\n", f",{POUR[0][2] + 1}\n", 1)}
    for name, text in tables.items():
        write(name + ".csv", text)
    there = "o.check: its last steps were taken with other options: "
    given = {"--filter-every": 7, "--pour": "pour.csv"}
    for change, words in (({"--filter-every": None}, "--filter-every 7 there, none here"),
                          ({"--filter-every": 8}, "--filter-every 7 there, 8 here"),
                          ({"--pour": None}, "--pour a table there, none here"),
                          ({"--pour": "less.csv"}, "--pour a table there, another here"),
                          ({"--pour": "more.csv"}, "--pour a table there, another here"),
                          ({"--pour": "another.csv"}, "--pour a table there, another here"),
                          ({"--pour": None, "--filter-every": None},
                              "--filter-every 7 there, none here; --pour a table there, none here")):
        options = [str(word) for pair in {**given, **change}.items() if pair[1] is not None for word in pair]
        for more in ((), ("--replace",), ("--staff", "3,30,1", "--every", 5, "--record", "o.csv")):
            write("o.csv.open", up_to(record, 280))
            before = listing()
            go("run", "o.check", "-o", "o.end", *options, *more, status=REFUSED,
                says=re.escape(there + words) + ".*give the same options; or, .* copy it under another name")
            check(listing() == before, f"{change}: something was written or changed")
    # the same water in another table is the same; other staffs are another record
    go("run", "o.check", "-o", "o.end", *(word if word != "pour.csv" else "turned.csv" for word in OPTIONS), "--record",
        "o.csv")
    check(read("o.end") == end and read("o.csv") == record, "the same water, in another order and with other line ends")
    forget("o.csv", *saved("o.end"))
    for words, differs in ((("--staff", "3,30", "--every", 5), "its columns are not"),
                           (("--staff", "3,1,30", "--every", 5), "its columns are not"),
                           (("--staff", "3,30,1", "--every", 10), "--every 5 there, 10 here")):
        write("o.csv.open", up_to(record, 280))
        for replace in ((), ("--replace",)):
            before = listing()
            go("run", "o.check", "-o", "o.end", "--filter-every", 7, "--pour", "pour.csv", *words, "--record", "o.csv",
                *replace, status=REFUSED, says=f"o.csv.open: {differs}")
            check(listing() == before, f"{words}: something was written or changed")
    forget("o.csv.open")
    # a copy under another name begins a run of its own, and says so
    shutil.copy("o.check", "own.channel")
    go("run", "own.channel", "-o", "own.end",
        says="own.channel: nothing beside it says by which rule and under which options its 280 steps")
    check(read("own.end.run").decode() == beside((read("own.channel"), 0, []), (read("own.end"), None)),
        "a run of its own")
    # what stands beside another channel of that name says nothing of this one
    write("o.check", begin)
    _, err = go("run", "o.check", "-o", "o.end")
    check(err == "", f"a new channel under an old name: {err!r}")
    # a step that no option has touched yet binds to none
    write("none.csv", pour + "".join(f"1,{cell},-1000000\n" for cell in range(1, 9)))
    go("run", "start.channel", "-o", "none.end", "--pour", "none.csv", status=OPEN, says="step 1 of 300 was refused")
    go("run", "none.end", "-o", "none.end2", tells="complete")
    forget(*saved("o.check", "o.end", "own.channel", "own.end", "none.end", "none.end2"),
        *(name + ".csv" for name in tables), "none.csv")


def strange_beside(begin, end):
    group("what stands beside a channel and was not written by a run")
    text = beside((begin, 7, POUR), (end, None))
    for name, other in (("notes", "my own notes\n"), ("a changed sum", text[:-3] + "xx\n"),
                        ("another step", text.replace("at step 300", "at step 299")), ("cut", text[:-9]),
                        ("longer", text + "\n"), ("zeros", "\0" * 300), ("a megabyte", "x" * 1000000),
                        ("an edition to come", text.replace("run 1", "run 2")),
                        ("spaces", text.replace(" at", "  at"))):
        for path in ("w.end.run", "w.check.run"):
            write(path, other)
            before = listing()
            words = ("run", "start.channel", "-o", "w.end", "--checkpoint", "w.check", "--checkpoint-every", 100)
            go(*words, status=REFUSED, name=f"{path}: {name}",
                says=f"{path}: is none that a run writes beside its channel, and is not written over")
            check(listing() == before, f"{path}: {name}: something was written or changed")
            go(*words, "--replace", name=f"{path}: {name}")
            forget(*saved("w.end", "w.check"))
    # beside START it is taken for nothing known
    shutil.copy("start.channel", "s.channel")
    write("s.channel.run", text[:-3] + "xx\n")
    _, err = go("run", "s.channel", "-o", "w.end")
    check(err == "", "beside a new START nothing need stand")
    os.mkdir("v.end.run")
    go("run", "s.channel", "-o", "v.end", status=REFUSED, says="v.end.run: is a folder")
    os.rmdir("v.end.run")
    for words, message in ((("-o", "s.channel.run"), "END and START.run are the same file"),
                           (("-o", "x.end", "--checkpoint", "x.end.run", "--checkpoint-every", 5),
                               "the checkpoint and END.run are the same file"),
                           (("-o", "x.end", "--staff", 1, "--record", "x.end.run"),
                               "RECORD and END.run are the same file")):
        before = listing()
        go("run", "s.channel", *words, status=REFUSED, says=message)
        check(listing() == before, "nothing is written")
    forget("s.channel", "s.channel.run", *saved("w.end"))


def untrue_beside(begin, end, record):
    """What stands beside END or the checkpoint is of this run and whole, has the channel's sum, and yet is not true."""
    group("what stands beside a channel and is not true of it")
    run = (begin, 7, POUR)
    words = ("run", "start.channel", "-o", "w.end", *OPTIONS, "--record", "w.csv", "--checkpoint", "w.check",
        "--checkpoint-every", 140)
    go(*words)
    check(counts(read("w.check"))[1] == 280 and read("w.csv") == record, "what is left of a run that is complete")
    rows, half = up_to(record, 300), read("w.check")
    # END with its record; a checkpoint with the rows so far, as a killed run leaves them
    cases = (("w.end", end, rows, {"w.csv": record}), ("w.check", half, up_to(record, 280), {"w.csv.open": rows}))
    forget("w.csv", *saved("w.end", "w.check"))
    for path, channel, behind, with_it in cases:
        step = counts(channel)[1]
        true = beside(run, known(channel, behind))
        untrue = {f"step {other}": (channel, summed(true.rsplit("sum", 1)[0].replace(f"at step {step}\n",
            f"at step {other}\n"))) for other in (0, step - 5, step - 1, step + 1)}
        for what, data in (("cut", channel[:-1]), ("longer", channel + b"\0"), ("edition 3", b"\3" + channel[1:]),
                           ("a depth of 0", channel[:52] + bytes(4) + channel[56:]),
                           ("a damping of -1", channel[:-4] + b"\xff" * 4)):
            untrue[what] = (data, beside(run, (data, *known(channel, behind)[1:])))
        for what, (data, says) in {**untrue, "nothing": (channel, true)}.items():
            for name, there in {path: data, path + ".run": says, **with_it}.items():
                write(name, there)
            before = listing()
            if what == "nothing":
                go(*words, says=f"{path}: is of this run, cut before" if path == "w.check" else "^$",
                    name=f"{path}: all is true")
            else:
                go(*words, status=REFUSED, name=f"{path}: {what}",
                    says=f"^pathpetal: {path}: is there already and is not written over; give another name [^\n]*\n$")
                check(listing() == before, f"{path}: {what}: something was written or changed")
                _, err = go(*words, "--replace", name=f"{path}: {what}, with --replace")
                check(f"{path}: is of this run" not in err, f"{path}: {what}: is not gone on with: {err!r}")
            check(read("w.end") == end and read("w.csv") == record, f"{path}: {what}: other bytes")
            check(read("w.end.run").decode() == beside(run, known(end, rows)), f"{path}: {what}: beside END")
            forget("w.csv", "w.csv.open", *saved("w.end", "w.check"))
