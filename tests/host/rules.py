"""What programs left that took their steps by another rule: it is named, never taken for this run's own, and stays."""
import itertools, os, re, shutil

from common import (ALL, DONE, NO_STAFFS, OPEN, OPTIONS, POUR, REFUSED, STAFFS, check, counted, forget, go, group, known,
    listing, read, saved, write)
from formats import RULE, beside, counts, head_of, record_end, record_head, record_rows, summed, unruled, up_to, \
    whole_record

NAMES = ("v.end", "v.check", "v.csv.open", "v.csv")  # in the order in which a run looks at them
COMMAND = ("run", "start.channel", "-o", "v.end", *OPTIONS, "--record", "v.csv", "--checkpoint", "v.check",
    "--checkpoint-every", 140)
FILES = ("v.csv", "v.csv.open", *saved("v.end", "v.check"))  # all that it can leave
NAMED = "v.csv: is there already and is not written over; give another name for RECORD, or --replace"
UNKNOWN = "nothing beside it says by which rule and under which options its {} steps were taken"


def rules(begin, end, record):
    for rule, gauged in ((RULE - 1, True), (1, True), (1, False)):
        earlier = Earlier(begin, rule, gauged)
        left_by_earlier(begin, end, record, earlier)
        start_of_earlier(begin, end, record, earlier)
    said_beside(begin, end, record)
    said_in_a_record(record)
    shown_records(record)
    shown_channels(begin, end)


def whose(rule):
    return f"{'an earlier' if rule < RULE else 'a later'} program's rule ({rule})"


def differs(rule):
    return f"{whose(rule)} there, {RULE} here"


def taken_by(rule, path, more=""):
    """What is said of a START whose steps were taken by another rule."""
    return f"pathpetal: {path}: its last steps were taken by another rule: {differs(rule)}{more}\npathpetal: begin " \
        "again with the channel that its run began with; or, to begin a run of its own from it, copy it under " \
        "another name, without its .run\n"


class Earlier:
    """What an earlier program has left of the run of COMMAND, with gauges or as the earliest ones did without: by its
    rule it came to other numbers, here to those of a run without filter passes."""

    def __init__(self, begin, rule, gauged):
        go(*(word for word in COMMAND if word not in ("--filter-every", 7)))
        run = (begin, 7, POUR, rule)
        self.rule = rule
        self.name = f"rule {rule}, {'with' if gauged else 'without'} gauges"
        self.end, self.half, there = read("v.end"), read("v.check"), read("v.csv")
        rows = record_head(STAFFS, run, 5) + b"".join(record_rows(there))
        waves = b"".join(re.findall(b"^# cell .*\n", there, re.M)) if gauged else b""
        # the gauges beside END, and of the two channels that are spoken of beside the checkpoint those of the newer
        gauges = ["".join(re.findall("^gauge .*\n", text, re.M)) if gauged else ""
            for text in (read("v.end.run").decode(), read("v.check.run").decode().split("channel")[1])]
        self.files = {"v.end": self.end, "v.end.run": beside(run, (self.end, rows, gauges[0])), "v.check": self.half,
            "v.check.run": beside(run, (self.half, up_to(rows, 280), gauges[1])), "v.csv.open": up_to(rows, 280),
            "v.csv": rows + waves + record_end(rows + waves, ALL)}
        forget(*FILES)

    def leave(self, *names):
        """Leaves these, and of the channels among them what stands beside them; gives all that is there."""
        forget(*FILES)
        for name in self.files:
            if name.removesuffix(".run") in names:
                write(name, self.files[name])
        return listing()


def left_by_earlier(begin, end, record, earlier):
    group(f"what a program of an earlier rule left, {earlier.name}")
    check(earlier.end != end and counts(earlier.end) == counts(end), "other numbers")
    earlier.leave("v.csv")
    go("check", "--staff", "v.csv", "--complete", tells="complete: all 300 steps accepted")
    there = "{}: is there already, is of another run ({}) and is not written over; give another name for {}, or " \
        "--replace"
    other_rule = differs(earlier.rule)
    words = {"v.end": there.format("v.end", other_rule, "END"),
             "v.check": there.format("v.check", other_rule, "the checkpoint"),
             "v.csv.open": f"v.csv.open: {other_rule}\npathpetal: it is left from another run: remove it, or record "
                 "under another name",
             "v.csv": NAMED}
    for names in itertools.chain.from_iterable(itertools.combinations(NAMES, k) for k in range(1, 5)):
        before = earlier.leave(*names)
        out, err = go(*COMMAND, status=REFUSED, name=f"{names}")
        check(err == f"pathpetal: {words[names[0]]}\n" and out == "", f"{names}: {err!r}, {out!r}")
        check(listing() == before, f"{names}: something was written or changed")
        # under another name for each of them: as in one go, and what was there stays
        other = {name: name.replace("v.", "w.") for name in {name.removesuffix(".open") for name in names}}
        _, err = go(*(other.get(word, word) for word in COMMAND), name=f"{names}, other names")
        check(err == "" and {name: data for name, data in listing().items() if name in before} == before,
            f"{names}: under other names: {err!r}")
        check(read(other.get("v.end", "v.end")) == end and read(other.get("v.csv", "v.csv")) == record,
            f"{names}: under other names: other bytes")
        forget("w.csv", *saved("w.end", "w.check"))
        # with --replace: as in one go
        earlier.leave(*names)
        _, err = go(*COMMAND, "--replace", name=f"{names}, --replace")
        over = "".join(f"pathpetal: {name}: is of another run ({other_rule}); with --replace it is written over\n"
            for name in ("v.end", "v.check") if name in names)
        if "v.csv.open" in names:
            over += f"pathpetal: v.csv.open: is left from another run ({other_rule}), and is written over\n"
        check(err == over, f"{names}, --replace: {err!r}")
        check(read("v.end") == end and read("v.csv") == record and not os.path.exists("v.csv.open"),
            f"{names}, --replace: other bytes")
        check(read("v.end.run").decode() == beside((begin, 7, POUR), known(end, up_to(record, 300))),
            f"{names}, --replace: beside END")
        go(*COMMAND, tells=r"v.end: complete: all 300 steps accepted \(it was there already\)")
    # the record alone is of an earlier rule, and END and the checkpoint are of this run
    for name in ("v.csv", "v.csv.open"):
        forget(*FILES)
        go(*COMMAND)
        forget("v.csv")
        write(name, earlier.files[name])
        before = listing()
        _, err = go(*COMMAND, status=REFUSED)
        check(err.endswith(f"pathpetal: {words[name]}\n") and listing() == before, f"{name} alone: {err!r}")
        line = ("run", "v.check", "-o", "w.end", *OPTIONS, "--record", "v.csv")
        for replace in ((), ("--replace",)) if name == "v.csv.open" else ((),):
            _, err = go(*line, *replace, status=REFUSED)
            check(err.endswith(f"pathpetal: {words[name]}\n") and listing() == before, f"{name}, START: {err!r}")
        go(*(word if word != "v.csv" else "w.csv" for word in COMMAND))
        check(read("w.csv") == record and read(name) == earlier.files[name], f"{name} alone: under another name")
        forget("w.csv")
    # what differs beside the rule is named too
    earlier.leave("v.end")
    for given, more in (((), "; --filter-every 7 there, none here; --pour a table there, none here"),
                        (NO_STAFFS[:2], "; --pour a table there, none here")):
        go("run", "start.channel", "-o", "v.end", *given, status=REFUSED, says=re.escape(f"({other_rule}{more})"))
    forget(*FILES)


def start_of_earlier(begin, end, record, earlier):
    group(f"START of a program of an earlier rule, {earlier.name}")
    for names in (("v.check",), ("v.check", "v.csv.open"), ("v.check", "v.csv"), ("v.end",), ("v.end", "v.csv")):
        before = earlier.leave(*names)
        for words in (NO_STAFFS, (*OPTIONS, "--record", "v.csv"), (*OPTIONS, "--record", "w.csv")):
            for replace in ((), ("--replace",)):
                out, err = go("run", names[0], "-o", "w.end", *words, *replace, status=REFUSED)
                check(err == taken_by(earlier.rule, names[0]) and out == "", f"{names}: {err!r}, {out!r}")
                check(listing() == before, f"{names}: something was written or changed")
        _, err = go("run", names[0], "-o", "w.end", "--filter-every", 7, status=REFUSED)
        check(err == taken_by(earlier.rule, names[0], "; --pour a table there, none here"), f"{names}: {err!r}")
    # a complete one whose copy stands at END: that is not there already either
    earlier.leave("v.end")
    for name, copy in zip(saved("v.end"), saved("w.end")):
        shutil.copy(name, copy)
    before = listing()
    out, err = go("run", "v.end", "-o", "w.end", *NO_STAFFS, status=REFUSED)
    check(err == taken_by(earlier.rule, "v.end") and out == "" and listing() == before, f"a complete one: {err!r}, {out!r}")
    forget(*saved("w.end"))
    # copied under another name it begins a run of its own, by this program's rule
    before = earlier.leave("v.check", "v.csv.open")
    for name, step in (("v.check", 280), ("v.end", 300)):
        own = (earlier.files[name], 7, POUR)
        write("own.channel", own[0])
        _, err = go("run", "own.channel", "-o", "w.end", *OPTIONS, "--record", "w.csv")
        check(err == f"pathpetal: own.channel: {UNKNOWN.format(step)}\npathpetal: w.csv.open: the record begins at "
            f"step {step}: no earlier rows are there\n", f"a copy: {err!r}")
        check(counts(read("w.end"))[1:] == (300, 300), "a copy: complete")
        check(read("w.csv").startswith(record_head(STAFFS, own, 5, step)) and
            whole_record(read("w.csv"), f"{ALL}, recorded from step {step}"), "a copy: its record")
        check(read("w.end.run").decode().startswith(beside(own, (read("w.end"), None)).rsplit("sum", 1)[0]),
            "a copy: beside END")
        forget("own.channel", "w.csv", *saved("w.end"))
    # the channel that the run began with begins it again
    go("run", "start.channel", "-o", "w.end", *OPTIONS, "--record", "w.csv")
    check(read("w.end") == end and read("w.csv") == record, "begun again")
    forget("w.csv", *saved("w.end"))
    check(listing() == before, "what an earlier program left stays")
    forget(*FILES)
    # a channel from which no step was taken by the earlier rule binds to none
    for channel in (begin, earlier.half):
        write("v.end", channel)
        write("v.end.run", beside((channel, 7, POUR, earlier.rule), (channel, None)))
        _, err = go("run", "v.end", "-o", "w.end", *NO_STAFFS)
        steps = counts(channel)[1]
        check(err == (f"pathpetal: v.end: {UNKNOWN.format(steps)}\n" if steps else "") and
            (channel != begin or read("w.end") == end), f"a channel that a run began with: {err!r}")
        forget(*saved("v.end", "w.end"))


# lines in the place of that on the rule, and the rule that they say: 0 where no run has written such lines
LINES = {"": 1, **{f"rule {rule}\n": rule for rule in (*range(2, RULE), RULE + 1, 9999999)}, **dict.fromkeys((
    "rule 1\n", "rule 0\n", f"rule 0{RULE}\n", f"rule 0{RULE + 1}\n", f"rule +{RULE}\n", f"rule -{RULE}\n",
    f"rule  {RULE}\n", f"rule {RULE} \n", f" rule {RULE}\n", f"rule\t{RULE}\n", f"rule {RULE}\r\n",
    f"rule {RULE}.0\n", f"rule 0x{RULE}\n", "rule 10000000\n", f"rule {2**32 + RULE}\n", f"rule {2**64 + RULE}\n",
    "rule three\n", "rule\n", "rule \n", f"Rule {RULE}\n", f"rule{RULE}\n", f"rules {RULE}\n",
    f"rule {RULE}\nrule {RULE}\n", f"rule {RULE}\nrule {RULE + 1}\n", f"rule {RULE + 1}\nrule {RULE}\n",
    f"rule 1\nrule {RULE}\n", f"rule {RULE}\n\n", f"\nrule {RULE}\n", f"rule {RULE} rule {RULE}\n",
    f"# rule {RULE}\n"), 0)}


def said_beside(begin, end, record):
    group("what is said of a rule beside a channel")
    go(*COMMAND)
    half, line = read("v.check"), f"rule {RULE}\n"
    for path, channel, rows in (("v.end", end, up_to(record, 300)), ("v.check", half, up_to(record, 280))):
        step = counts(channel)[1]
        true = beside((begin, 7, POUR), known(channel, rows)).rsplit("sum", 1)[0]
        said = {true.replace(line, text): rule for text, rule in LINES.items()}
        lines = true.replace(line, "").splitlines(True)
        said.update({"".join((*lines[:k], line, *lines[k:])): 0 for k in (0, 1, 3, 4, 5, len(lines))})
        said[re.sub("gauge .*\n", "", true)] = said[true.replace(line, f"rule {RULE}\0\n")] = 0
        for text, rule in said.items():
            forget(*FILES)
            write(path, channel)
            write(path + ".run", summed(text))
            write("v.csv.open", rows)
            before = listing()
            out, err = go(*COMMAND, status=REFUSED, name=text)
            what = f"{path}: is there already, is of another run ({differs(rule)})" if rule else \
                f"{path}.run: is none that a run writes beside its channel,"
            check(err.startswith(f"pathpetal: {what} and is not written over; give another name for ") and out == "",
                f"{path}: {err!r} of {text}")
            # beside START: another rule is refused, of what no run has written nothing is known
            _, err = go("run", path, "-o", "w.end", *NO_STAFFS, status=REFUSED if rule else DONE, name=text)
            check(err == (taken_by(rule, path) if rule else f"pathpetal: {path}: {UNKNOWN.format(step)}\n"),
                f"START {path}: {err!r} of {text}")
            if rule == 0:
                check(read("w.end.run").decode() == beside((channel, 7, POUR), (end, None)), "a run of its own")
            forget(*saved("w.end"))
            check(listing() == before, f"{path}: something was written or changed: {text}")
        # as a run has written it
        write(path + ".run", summed(true))
        go(*COMMAND, says=f"{path}: is of this run, cut before: goes on after step {step}")
        check(read("v.end") == end and read("v.csv") == record, f"{path}: gone on with")
    forget(*FILES)


def said_in_a_record(record):
    group("what is said of a rule in a record")
    line, body = f"# rule {RULE}\n".encode(), record[:record.rindex(b"#")]
    for text, rule in LINES.items():
        said = body.replace(line, re.sub("^(?=.)", "# ", text, flags=re.M).encode())
        write("v.csv.open", said)
        before = listing()
        _, err = go(*COMMAND, status=REFUSED, name=f"open, {text!r}")
        what = differs(rule) if rule else "it does not say of which run it is"
        check(err == f"pathpetal: v.csv.open: {what}\npathpetal: it is left from another run: remove it, or record "
            "under another name\n", f"open, {text!r}: {err!r}")
        check(listing() == before, f"open, {text!r}: something was written or changed")
        forget("v.csv.open")
        write("v.csv", said + record_end(said, ALL))
        before = listing()
        _, err = go(*COMMAND, status=REFUSED, name=f"whole, {text!r}")
        check(err == f"pathpetal: {NAMED}\n", f"whole, {text!r}: {err!r}")
        check(listing() == before, f"whole, {text!r}: something was written or changed")
        out, _ = go("show", "--staff", "v.csv", name=f"show, {text!r}")
        check(out == shown_as("v.csv", record, rule) if rule else
            "not whole: cut or changed after it was written" in out and "rule" not in out, f"show, {text!r}: {out}")
        check(drawn(("--staff",), "v.csv") == ([told(rule).strip()] if rule else []), f"its picture, {text!r}")
        out, _ = go("check", "--staff", "v.csv", "--complete", status=DONE if rule else REFUSED, name=f"check, {text!r}")
        check(out == (f"v.csv: complete: all 300 steps accepted\n{told(rule)}" if rule else ""), f"check, {text!r}: {out}")
        forget("v.csv")


def shown_as(path, record, rule):
    """What show --staff tells of a record, if its steps had been taken by another rule."""
    kept = read(path)
    write(path, record)
    first, second, *rest = go("show", "--staff", path)[0].splitlines(True)
    write(path, kept)
    return "".join((first, second, told(rule), *rest))


def told(rule):
    return f"  its steps were taken by {whose(rule)}; this program's is {RULE}\n"


def drawn(words, path):
    """What the picture of a channel or a record says of its rule."""
    go("show", *words, path, "--svg", "v.svg", "--replace")
    picture = read("v.svg").decode()
    forget("v.svg")
    return re.findall(r">(its steps were taken by [^<]*)<", picture)


def shown_records(record):
    group("records of an earlier rule are shown")
    half = up_to(record, 145) + counted(148)
    half += record_end(half, "open: 148 of 300 steps accepted")
    for name, now, status in (("complete", record, DONE), ("open", half, OPEN), ("cut", up_to(record, 200), OPEN),
                              ("cut in its last line", record[:-9], OPEN)):
        write("v.csv", unruled(now) if now[-1:] == b"\n" else unruled(record)[:-9])
        out, _ = go("show", "--staff", "v.csv", name=name)
        check(out == shown_as("v.csv", now, 1), f"{name}: {out}")
        check(drawn(("--staff",), "v.csv") == [told(1).strip()], f"{name}: its picture")
        out, _ = go("check", "--staff", "v.csv", "--complete", status=status, name=name)
        check(out.endswith(told(1)), f"{name}: {out}")
    # what is not whole, or has no head, says no rule
    old = unruled(record)
    head, body = head_of(old), old[:old.rindex(b"#")]
    after, within = body.replace(head, head + b"# mine\n"), body.replace(b"# filter", b"# mine\n# filter")
    for name, text in (("a height", old.replace(b"\n20,", b"\n20,1", 1)), ("a sum", old[:-2] + b"x\n"),
                       ("a remark after the head", after + record_end(after, ALL)),
                       ("a remark in the head", within + record_end(within, ALL)),
                       ("no head", old.splitlines(True)[0] + b"".join(record_rows(old)) + f"# {ALL}\n".encode())):
        write("v.csv", text)
        out, _ = go("show", "--staff", "v.csv", name=name)
        check("complete:" not in out and "rule" not in out, f"{name}: {out}")
        check(drawn(("--staff",), "v.csv") == [], f"{name}: its picture")
        go("check", "--staff", "v.csv", "--complete", status=REFUSED, name=name)
    forget("v.csv")


def shown_channels(begin, end):
    group("channels of an earlier rule are shown")
    write("v.end", end)
    first, second, *rest = go("show", "v.end")[0].splitlines(True)
    plain = "".join((first, second, *rest))
    for run, channel, rule in (((begin, 7, POUR), end, None), ((begin, 7, POUR, 1), end, 1),
                               ((begin, 7, POUR, RULE - 1), end, RULE - 1), ((begin, 7, POUR, RULE + 1), end, RULE + 1),
                               ((begin, 7, POUR, 1), begin, None),
                               ((end, 7, POUR, 1), end, None)):
        write("v.end.run", beside(run, (channel, None)))
        said = told(rule) if rule else ""
        out, err = go("show", "v.end")
        check(out == "".join((first, second, said, *rest)) and err == "", f"{run[3:]}, {rule}: {out}, {err!r}")
        check(drawn((), "v.end") == ([said.strip()] if rule else []), f"{run[3:]}, {rule}: its picture")
        out, err = go("check", "v.end", "--complete")
        check(out == f"v.end: complete: all 300 steps accepted\n{said}" and err == "", f"{run[3:]}, {rule}: {out}, {err!r}")
        os.symlink("v.end", "link")
        check((said in go("show", "link")[0]) if said else "rule" not in go("show", "link")[0], "by a link")
        os.remove("link")
    write("v.end.run", beside((begin, 7, POUR, 1), (end, None))[:-1])
    check(go("show", "v.end")[0] == plain, "what no run has written says nothing")
    os.remove("v.end.run")
    os.mkdir("v.end.run")
    check(go("show", "v.end", says="v.end.run: cannot be read")[0] == plain, "a folder says nothing")
    os.rmdir("v.end.run")
    forget("v.end")
