"""The same command again, after the files that it leaves were taken away, cut, changed or put there by another run."""
import os, shutil, signal, time

from common import (DONE, INTERRUPTED, OPEN, OPTIONS, POUR, REFUSED, UNWRITTEN, check, forget, go, group, grown,
    listing, parts_left, read, saved, start, until, write)
from formats import counts, record_head, record_rows, up_to, whole_record

COMMAND = ("run", "start.channel", "-o", "n.end", *OPTIONS, "--record", "n.csv", "--checkpoint", "n.check",
    "--checkpoint-every", 140)
FILES = ("n.csv", "n.csv.open", *saved("n.end", "n.check"))  # all that it can leave
AGAIN = r"n.end: complete: all 300 steps accepted \(it was there already\)"
SLOW = ("run", "slow.channel", "-o", "y.end", "--filter-every", 7)  # of 300,000 steps
ADDED = ("--staff", 3, "--record", "y.csv", "--every", 10)  # a record to it


def one_set_of_names(begin, end, record):
    group("the same command again")
    go(*COMMAND)
    done = listing()
    _, err = go(*COMMAND, tells=AGAIN)
    check(err == "" and listing() == done, "a run that is complete writes nothing")
    go(*COMMAND, "--replace", tells=AGAIN)
    check(listing() == done, "with --replace neither")
    taken_away(done, end, record)
    files_of_another(begin, record)
    open_records(done, begin, end, record)
    go("make", "start.csv", "-o", "slow.channel", "--width-mm", 1000, "--step-ms", 40, "--steps", 300000)
    never_back()
    of_little_use()
    written_meanwhile()
    refused_again()
    put_there_meanwhile()


def restore(done):
    """Writes what the complete run had left."""
    for name in FILES:
        if name in done:
            write(name, done[name])


def taken_away(done, end, record):
    """With any of its files taken away it comes to the same again."""
    for gone in ([name for k, name in enumerate(FILES) if mask >> k & 1] for mask in range(1, 64)):
        restore(done)
        forget("n.csv.open", *gone)
        known = "n.end.run" not in gone or "n.end" in gone
        known = known and ("n.check.run" not in gone or "n.check" in gone)
        _, err = go(*COMMAND, status=DONE if known else REFUSED, name=f"without {gone}")
        if known:
            check(read("n.end") == end and read("n.csv") == record, f"without {gone}: other bytes")
        else:
            check("is there already and is not written over" in err, f"without {gone}: {err!r}")
            kept = [name for name in FILES if name not in gone and name in done]
            check(all(read(name) == done[name] for name in kept), f"without {gone}: a file was changed")


def files_of_another(begin, record):
    """Files of another run under these names stay."""
    for name, data in (("n.end", begin), ("n.end", read("one.channel")), ("n.check", begin), ("n.csv", b"notes\n"),
                       ("n.csv", record[:-1]), ("n.csv", record.replace(b"\n20,", b"\n25,"))):
        forget(*FILES)
        write(name, data)
        before = listing()
        go(*COMMAND, status=REFUSED, says=f"{name}: is there already and is not written over")
        check(listing() == before, f"{name} of another: something was written or changed")
    forget(*FILES)


def open_records(done, begin, end, record):
    """What is done with an open record beside what else is there."""
    for name in ("n.csv", *saved("n.check")):
        write(name, done[name])
    other = record_head((3, 30, 1), (begin, 8, POUR), 5) + b"".join(record_rows(record)[:9])
    write("n.csv.open", other)
    go(*COMMAND, status=REFUSED, says="n.csv.open: --filter-every 8 there, 7 here")
    check(read("n.csv.open") == other and read("n.csv") == record,
        "an open record of another beside a whole one of this run")
    # where all is there, an open record of another run does not matter, and stays; one of this run goes
    forget(*FILES)
    restore(done)
    for left, stays in ((other, True), (b"", False), (record[:300], False), (up_to(record, 90) + b"77", False)):
        write("n.csv.open", left)
        go(*COMMAND, tells=AGAIN)
        check(listing() == {**done, "n.csv.open": left} if stays else listing() == done,
            "an open record beside a whole one")
        forget("n.csv.open")
    # the record is finished where END stands and it alone is not
    restore(done)
    rows = up_to(record, 300)
    for left in (rows, record, record[:-7], rows + b"305,12.200,1,2,3\n", record[:record.rindex(b"#")]):
        forget("n.csv")
        write("n.csv.open", left)
        go(*COMMAND, tells="n.end: complete: all 300 steps accepted\n", says="n.end: is of this run")
        check(listing() == done, "the record that was not finished")
    # rows that lack: from the checkpoint, and if they lack there too, from START
    for left, words in ((up_to(record, 290), "n.end: is of this run, but n.csv.open has not the rows.*n.check: is of "
                            "this run, cut"),
                        (up_to(record, 100), "n.check: is of this run, but n.csv.open has not the rows.*written anew "
                            "from step 0"),
                        (b"", "n.check: is of this run, but n.csv.open has not the rows")):
        forget("n.csv")
        write("n.csv.open", left)
        go(*COMMAND, says=words)
        check(read("n.end") == end and read("n.csv") == record, "rows that lacked come again")


def never_back():
    """What this run has saved never goes back: a complete END stays when a record is added and the run is cut."""
    go(*SLOW)
    whole = read("y.end")
    for more, name in (((), signal.SIGINT), (("--replace",), signal.SIGTERM), ((), signal.SIGKILL)):
        process = start(*SLOW, *ADDED, *more)
        until(process, grown("y.csv.open", 1000))
        process.send_signal(name)
        _, err = process.communicate(timeout=60)
        check(process.returncode == (-name if name == signal.SIGKILL else INTERRUPTED),
            f"status {process.returncode}: {err}")
        check(b"y.end: is of this run, but was saved without a record: it is not gone on with, and stays" in err,
            f"{err!r}")
        check(name == signal.SIGKILL or
            b"y.end stays as it was, with 300,000 steps; to go on, give the same command again" in err, f"{err!r}")
        check(read("y.end") == whole and not os.path.exists("y.csv"), "a complete END stays complete")
        forget("y.csv.open")
    go("run", "slow.channel", "-o", "c.end", "--filter-every", 7, *ADDED, "--checkpoint", "y.end",
        "--checkpoint-every", 90000, status=REFUSED,
        says="y.end: is complete, and no checkpoint; give another name for the checkpoint, or --replace")
    check(read("y.end") == whole, "a complete END is not taken for a checkpoint")
    go(*SLOW, *ADDED)
    check(read("y.end") == whole and whole_record(read("y.csv"), "complete: 300000 of 300000 steps accepted"),
        "then complete")
    go(*SLOW, *ADDED, tells="it was there already")
    go("run", "slow.channel", "-o", "c.end", "--filter-every", 7, "--checkpoint", "c.check",
        "--checkpoint-every", 90000)
    kept = read("c.check")
    process = start("run", "slow.channel", "-o", "d.end", "--filter-every", 7, *(word.replace("y.csv", "d.csv") if
        isinstance(word, str) else word for word in ADDED), "--checkpoint", "c.check", "--checkpoint-every", 50)
    until(process, grown("d.csv.open", 3000))
    process.send_signal(signal.SIGINT)
    process.communicate(timeout=60)
    check(read("c.check") == kept, "nor does a checkpoint go back")
    forget(*saved("y.end", "c.end", "c.check", "d.end"), "y.csv", "y.csv.open", "d.csv", "d.csv.open")


def of_little_use():
    """A record that would have no rows, a START of which nothing is known, and one by a link."""
    go("run", "slow.channel", "-o", "c.end", "--filter-every", 7, "--checkpoint", "c.check",
        "--checkpoint-every", 299995)
    shutil.copy("c.check", "copied")
    for source in ("c.check", "copied"):
        before = listing()
        go("run", source, "-o", "d.end", "--filter-every", 7, "--staff", 3, "--record", "d.csv", "--every", 7000,
            status=REFUSED,
            says="--every 7,000: no step from 299,995 to 300,000 is recorded; take a smaller number")
        check(listing() == before, "nothing is written")
    # of a START of which nothing is known, an open record is not written over
    for replace in ((), ("--replace",)):
        write("d.csv.open", record_head((3,), (read("slow.channel"), 0, []), 10) + b"0,0.000,0\n")
        before = listing()
        go("run", "copied", "-o", "d.end", "--staff", 3, "--record", "d.csv", "--every", 10, *replace, status=REFUSED,
            says="d.csv.open: it began with another channel.*remove it, or record under another name")
        check(listing() == before, "nothing is written")
    # START by a link is known by what stands beside it
    os.symlink("c.check", "link")
    go("run", "link", "-o", "d.end", "--filter-every", 8, status=REFUSED,
        says="link: its last steps were taken with other")
    forget(*saved("c.end", "c.check", "d.end"), "copied", "link", "d.csv.open")


def written_meanwhile():
    """START is not taken for unknown while another run writes it; what stands beside END is another's by now."""
    process = start("run", "slow.channel", "-o", "c.end", "--filter-every", 7, "--checkpoint", "c.check",
        "--checkpoint-every", 1)
    until(process, lambda: os.path.exists("c.check"))
    for _ in range(60):
        go("run", "c.check", "-o", "d.end", status=REFUSED,
            says="c.check: its last steps were taken with other options")
    process.kill()
    process.communicate()
    forget(*saved("c.end", "c.check"), *parts_left())
    # what stands beside END is another's by now
    process = start(*SLOW, "--checkpoint", "c.check", "--checkpoint-every", 5000)
    until(process, lambda: os.path.exists("c.check"))
    process.send_signal(signal.SIGSTOP)
    os.remove("y.end.run")
    go("run", "start.channel", "-o", "y.end")
    kept = {name: read(name) for name in saved("y.end")}
    process.send_signal(signal.SIGCONT)
    _, err = process.communicate(timeout=60)
    check(process.returncode == UNWRITTEN and b"y.end.run: was taken away or replaced by another program" in err and
        b"c.check stays as it was" in err and b"give the same command again, with another name for END" in err,
        f"{err!r}")
    check({name: read(name) for name in saved("y.end")} == kept, "END of another, and what stands beside it, stay")
    forget(*saved("y.end", "c.check"), "slow.channel")


def refused_again():
    """A step that is refused is refused again, and END stays."""
    write("n.dry", read("pour.csv").replace(b"\n203,", b"\n# 203,") +
          b"".join(f"203,{cell},-1000000\n".encode() for cell in range(1, 9)))
    words = [word if word != "pour.csv" else "n.dry" for word in COMMAND]
    forget(*FILES)
    for _ in range(3):
        go(*words, status=OPEN, says="step 203 of 300 was refused.*n.end: open: 202 of 300 steps accepted")
        check(counts(read("n.end")) == (30, 202, 300) and not os.path.exists("n.csv"), "open, again and again")
        check(whole_record(read("n.csv.open"), "open: 202 of 300 steps accepted"), "and so is the record")
    forget(*FILES, "n.dry")


def put_there_meanwhile():
    """An END or a checkpoint that another puts there during the run stays."""
    go("make", "long.csv", "-o", "n.channel", "--width-mm", 1500, "--step-ms", 30, "--steps", 100000)
    for name in ("n.end", "n.check"):
        process = start("run", "n.channel", "-o", "n.end", "--checkpoint", "n.check", "--checkpoint-every", 30)
        until(process, lambda: os.path.exists("n.check"))
        process.send_signal(signal.SIGSTOP)
        write("n.other", b"another's")
        os.rename("n.other", name)
        process.send_signal(signal.SIGCONT)
        if name == "n.end":
            time.sleep(0.05)
            process.send_signal(signal.SIGINT)
        _, err = process.communicate(timeout=60)
        check(process.returncode == UNWRITTEN, f"{name} of another: status {process.returncode}")
        check(f"{name}: has come to be while this ran and is not written over".encode() in err, f"{name}: {err!r}")
        check(read(name) == b"another's", f"{name} of another stays")
        forget(*FILES)
    forget("n.channel")
