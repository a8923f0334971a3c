"""Two runs at once, and a record or END that is changed or taken away while a run writes it."""
import os, random, shutil, signal, subprocess, time

from common import (DONE, ENVIRONMENT, OPTIONS, REFUSED, UNWRITTEN, check, end_is_true, forget, go, group, grown,
    parts_left, read, saved, start, strace_works, tested, until, write)
from formats import whole_record

FILES = ("t.csv", "t.csv.open", *saved("t.end", "t.check"))  # all that the runs here can leave
SLOW = ("run", "slow.channel", "-o", "t.end", "--filter-every", 7, "--staff", "3", "--record", "t.csv")


def two_at_once(begin, end, record):
    group("two runs at once")
    command = ("run", "start.channel", "-o", "t.end", *OPTIONS, "--record", "t.csv", "--checkpoint", "t.check",
        "--checkpoint-every", 10)
    draw = random.Random(tested.seed + 4)
    seen = {}
    for k in range(40):
        pair = []
        for _ in range(3):
            pair.append(start(*command))
            time.sleep(draw.uniform(0, 0.02))
        results = []
        for process in pair:
            _, err = process.communicate(timeout=60)
            results.append(process.returncode)
            seen[process.returncode] = seen.get(process.returncode, 0) + 1
            check(process.returncode == DONE or process.returncode == REFUSED and b"another run is writing it" in err,
                f"status {process.returncode}: {err!r}")
        check(DONE in results, "one of them is complete")
        check(read("t.end") == end and read("t.csv") == record and not os.path.exists("t.csv.open"),
            "END and the record are whole")
        forget(*FILES)
    check(seen.get(REFUSED, 0) > 0 and seen[DONE] >= 40, f"statuses {seen}")
    tested.notes.append(f"three runs at once, 40 times: {seen[DONE]} complete, {seen[REFUSED]} refused because another "
        "was writing")
    changed_records()
    advice_followed()
    end_goes_away()


def changed_records():
    group("a record that is changed while a run writes it")
    go("make", "start.csv", "-o", "slow.channel", "--width-mm", 1000, "--step-ms", 40, "--steps", 30000)
    for name, change in (("cut", lambda: os.truncate("t.csv.open", 0)),
                         ("cut in the middle", lambda: os.truncate("t.csv.open", 400)),
                         ("removed", lambda: os.remove("t.csv.open")),
                         ("renamed", lambda: os.rename("t.csv.open", "t.away")),
                         ("another in its place", lambda: os.replace(write("t.away", b"notes\n"), "t.csv.open")),
                         ("a byte changed", lambda: os.pwrite(changing, b"7", 390)),
                         ("longer", lambda: os.pwrite(changing, b"x", 9999999))):
        process = start(*SLOW)
        until(process, grown("t.csv.open", 1000))
        process.send_signal(signal.SIGSTOP)
        changing = os.open("t.csv.open", os.O_WRONLY)
        change()
        os.close(changing)
        process.send_signal(signal.SIGCONT)
        _, err = process.communicate(timeout=60)
        check(process.returncode == UNWRITTEN, f"{name}: status {process.returncode}: {err!r}")
        check(b"t.csv.open: was cut, changed or taken away by another program while this ran" in err
            and b"holds the record so far" not in err and b"t.end: complete: all 30,000 steps accepted" in err,
            f"{name}: {err!r}")
        check(not os.path.exists("t.csv"), f"{name}: no record has its name")
        end_is_true("t.end", name, False)
        forget("t.csv.open", "t.away")
        go(*SLOW, says="t.end: is of this run, but t.csv.open has not the rows")
        check(whole_record(read("t.csv"), "complete: 30000 of 30000 steps accepted"), f"{name}: the same command again")
        forget(*FILES)


def advice_followed():
    group("advice that is followed")
    for name, cause in (("TERM", lambda process: process.terminate()),
                        ("a checkpoint", lambda process: shutil.rmtree("away"))):
        os.mkdir("away")
        process = start(*SLOW, "--checkpoint", "away/c", "--checkpoint-every", 9000)
        until(process, grown("t.csv.open", 1000))
        process.send_signal(signal.SIGSTOP)
        os.truncate("t.csv.open", 0)
        cause(process)
        process.send_signal(signal.SIGCONT)
        _, err = process.communicate(timeout=60)
        check(process.returncode == UNWRITTEN and b"holds the record so far" not in err and
            b"t.csv.open: holds no record: remove it\npathpetal: to go on: then give the same command again\n" in err,
            f"{name}: {process.returncode}: {err!r}")
        forget("t.csv.open")
        shutil.rmtree("away", ignore_errors=True)
        os.mkdir("away")
        go(*SLOW, "--checkpoint", "away/c", "--checkpoint-every", 9000)
        check(whole_record(read("t.csv"), "complete: 30000 of 30000 steps accepted"), f"{name}: the advice holds")
        shutil.rmtree("away")
        forget(*FILES)


def end_goes_away():
    group("an END of this run that goes away while it runs again")
    go(*SLOW[:6])
    kept = read("t.end")
    process = start(*SLOW)
    until(process, grown("t.csv.open", 1000))
    os.remove("t.end")
    _, err = process.communicate(timeout=60)
    check(process.returncode == DONE and read("t.end") == kept,
        f"status {process.returncode}, and END is there: {err!r}")
    go(*SLOW, tells="it was there already")
    forget(*FILES, "slow.channel")


def raced(begin, end, record):
    """The moments at which a record was lost, held open by strace: a run that is about to give RECORD.open its name; a
    run that has opened RECORD.open and is about to lock it."""
    group("two runs at once, at the worst moments")
    if tested.checked or not strace_works():
        tested.notes.append("no strace here, or a program with sanitizers: races are tried at random moments alone")
        check(True, "at random moments alone")
        return
    command = lambda to: ["run", "start.channel", "-o", to, *OPTIONS, "--record", "t.csv"]
    files = ("t.csv", "t.csv.open", "t.trace", *saved("t.end", "u.end"))
    traced = "trace=openat,?open,fcntl,?rename,?renameat,?renameat2"

    def started(to, *strace):
        return subprocess.Popen(["strace", "-o", "/dev/null", *strace, tested.program, *map(str, command(to))],
            stdout=subprocess.PIPE, stderr=subprocess.PIPE, env=ENVIRONMENT)

    def ended(process):
        _, err = process.communicate(timeout=60)
        return process.returncode, err.decode()

    # which of its calls gives RECORD.open its name, and which locks it
    subprocess.run(["strace", "-o", "t.trace", "-e", traced, tested.program, *map(str, command("t.end"))],
        env=ENVIRONMENT, stdout=subprocess.DEVNULL, check=True)
    lines = read("t.trace").decode().splitlines()
    call = lambda line: line.split("(")[0]
    count = lambda at: sum(call(line) == call(lines[at]) for line in lines[:at + 1])
    names = [at for at, line in enumerate(lines) if call(line).startswith("rename") and line.count('"t.csv') == 2][-1]
    opens = [at for at, line in enumerate(lines) if '"t.csv.open"' in line and call(line).startswith("open")][-1]
    locks = [at for at, line in enumerate(lines) if "F_SETLK" in line and at > opens][0]
    hold = lambda at, ms: ("-e", traced, "-e", f"inject={call(lines[at])}:delay_enter={ms * 1000}:when={count(at)}")
    forget(*files)
    slow = ("-e", "trace=write", "-e", "inject=write:delay_exit=30000")
    for k in range(2):
        first = started("t.end", *hold(names, 1000))
        until(first, lambda: os.path.exists("t.end"))
        time.sleep(0.05 + 0.05 * k)
        second = ended(started("u.end", *slow))
        check(second[0] == REFUSED and "t.csv.open: another run is writing it" in second[1],
            f"while the first gives the record its name: {second}")
        check(ended(first)[0] == DONE and read("t.csv") == record and read("t.end") == end, "the first is complete")
        forget(*files)
        second = started("u.end", *hold(locks, 1200 + 100 * k))
        until(second, lambda: os.path.exists("t.csv.open"))
        # the second holds it open and has no lock; the first puts another in its place, and writes while the second
        # locks
        first, second = ended(started("t.end", *slow)), ended(second)
        check(first[0] == DONE, f"the first, while the second waits for its lock: {first}")
        check(second[0] == REFUSED and "t.csv.open: another run is writing it" in second[1],
            f"the second, which locks a file that has lost its name: {second}")
        check(os.path.exists("t.csv") and read("t.csv") == record and read("t.end") == end, "the record is whole")
        forget(*files)
    # what comes to be under the record's name, or is done to it, when it is about to get its name
    for what, change, words in (("another's file", lambda: write("t.csv", b"mine\n"),
                                    "t.csv: has come to be while this ran"),
                                ("cut", lambda: os.truncate("t.csv.open", 500),
                                    "t.csv: was changed or taken away by another")):
        first = started("t.end", *hold(names, 1000))
        until(first, lambda: os.path.exists("t.end"))
        time.sleep(0.5)
        change()
        status, err = ended(first)
        check(status == UNWRITTEN and words in err, f"{what} in the last moment: {status}, {err}")
        check(what == "cut" or read("t.csv") == b"mine\n", "another's file stays")
        forget(*files)
    # a START that another run writes over between the reading of START and of what stands beside it
    go("make", "start.csv", "-o", "slow.channel", "--width-mm", 1000, "--step-ms", 40, "--steps", 200000)
    writing = start("run", "slow.channel", "-o", "c.end", "--filter-every", 7, "--checkpoint", "c.check",
        "--checkpoint-every", 5)
    until(writing, lambda: os.path.exists("c.check"))
    for k in range(1, 12):
        process = subprocess.Popen(["strace", "-o", "/dev/null", "-e", "trace=openat", "-e",
            f"inject=openat:delay_enter=60000:when={k}", tested.program, "run", "c.check", "-o", "d.end"],
            env=ENVIRONMENT, stdout=subprocess.PIPE, stderr=subprocess.PIPE)
        status, err = ended(process)
        check(status == REFUSED and "c.check: its last steps were taken with other options" in err,
            f"START written over meanwhile, file {k} held: {status}, {err}")
    # names that are looked at one after the other, while files that lose theirs hand on their numbers
    words = ["run", "slow.channel", "-o", "c.end", "--filter-every", "7", "--checkpoint", "c.check",
        "--checkpoint-every", "5"]
    looks = "trace=?stat,?newfstatat,?statx"
    subprocess.run(["strace", "-o", "t.trace", "-e", looks, tested.program, *words], env=ENVIRONMENT,
        stdout=subprocess.DEVNULL, stderr=subprocess.DEVNULL)
    lines = read("t.trace").decode().splitlines()
    at = [at for at, line in enumerate(lines) if '"c.check.run"' in line][0]
    for k in range(40):
        status, err = ended(subprocess.Popen(["strace", "-o", "/dev/null", "-e", looks, "-e",
            f"inject={call(lines[at])}:delay_enter={2000 + 500 * k}:when={count(at)}", tested.program, *words],
            env=ENVIRONMENT, stdout=subprocess.PIPE, stderr=subprocess.PIPE))
        check(status == REFUSED and "c.end.run: another run is writing it" in err,
            f"the checkpoint and what stands beside it are written meanwhile: {status}, {err}")
    writing.kill()
    writing.communicate()
    forget(*saved("c.end", "c.check", "d.end"), "slow.channel", *parts_left())
    # what was there already is flushed before that is said
    go(*command("t.end"))
    subprocess.run(["strace", "-o", "t.trace", "-e", "trace=fsync", tested.program, *map(str, command("t.end"))],
        env=ENVIRONMENT, stdout=subprocess.DEVNULL, check=True)
    check(read("t.trace").count(b"fsync(") == 5,
        f"END, what stands beside it, the record and their folder: {read('t.trace')}")
    for k in range(1, 6):
        status, err = ended(started("t.end", "-e", "trace=fsync", "-e", f"inject=fsync:error=EIO:when={k}"))
        check(status == UNWRITTEN and "cannot be flushed to disk" in err, f"flush {k} fails: {status}, {err}")
    forget(*files)
