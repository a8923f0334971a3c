"""Writing that fails: modes, full disks, folders that cannot be written, closed pipes."""
import os, re, resource, shutil, stat, subprocess

from common import (COUNTS, DONE, OPTIONS, REFUSED, UNWRITTEN, USAGE, check, end_is_true, forget, go, group,
    listing, parts_left, read, saved, start, taken, tested, write)
from formats import counts, whole_record


def as_nobody():
    """Before the host starts: it is to run as a user who may do little."""
    os.setgroups([])
    os.setgid(65534)
    os.setuid(65534)


def modes(begin, end, record):
    group("a file that is written over keeps its mode")
    files = ("m.csv", *saved("m.end", "m.check"))
    command = ("run", "start.channel", "-o", "m.end", "--staff", 3, "--record", "m.csv", "--checkpoint", "m.check",
        "--checkpoint-every", 100, "--replace")
    mode = lambda name: stat.S_IMODE(os.stat(name).st_mode)
    for wanted in (0o600, 0o640, 0o644, 0o400, 0o666):
        for name in ("m.csv", "m.end", "m.check"):
            write(name, b"old\n")
            os.chmod(name, wanted)
        go(*command)
        check([mode(name) for name in ("m.csv", "m.end", "m.check")] == [wanted] * 3, f"{wanted:o}: "
            f"{[oct(mode(name)) for name in ('m.csv', 'm.end', 'm.check')]}")
        forget(*files)
    for line, name in ((("make", "start.csv", "-o", "m.channel", *COUNTS, "--replace"), "m.channel"),
                       (("show", "start.channel", "--svg", "m.svg", "--replace"), "m.svg")):
        write(name, b"old\n")
        os.chmod(name, 0o600)
        go(*line)
        check(mode(name) == 0o600 and read(name) != b"old\n", f"{name}: {mode(name):o}")
        forget(name)
    if os.geteuid() == 0:
        os.mkdir("free")
        os.chmod("free", 0o777)
        write("free/r.csv", b"secret\n")
        os.chmod("free/r.csv", 0o600)
        words = ("run", "start.channel", "-o", "free/m.end", "--staff", 3, "--record", "free/r.csv")
        before = listing("free")
        go(*words, status=REFUSED, says="free/r.csv: is there already and is not written over", preexec_fn=as_nobody)
        check(listing("free") == before, "a RECORD that cannot be read is met before the first step")
        go(*words, "--replace", preexec_fn=as_nobody)
        check(mode("free/r.csv") == 0o600, f"its mode is kept: {mode('free/r.csv'):o}")
        forget(*("free/" + name for name in os.listdir("free")))
        # a record that was to be read-only can still be gone on with
        write("free/r.csv", b"old\n")
        os.chmod("free/r.csv", 0o444)
        os.chown("free/r.csv", 65534, 65534)
        go(*words, "--replace", status=UNWRITTEN, preexec_fn=lambda: (limited(4200)(), as_nobody()))
        check(mode("free/r.csv.open") == 0o644, f"the open record can be written: {mode('free/r.csv.open'):o}")
        go(*words, "--replace", preexec_fn=as_nobody)
        check(mode("free/r.csv") == 0o444, f"and then has the mode of the old one: {mode('free/r.csv'):o}")
        shutil.rmtree("free")
    old = os.umask(0o027)
    go(*command)
    os.umask(old)
    check([mode(name) for name in files] == [0o640] * 5, "new ones have the mode that is asked of new files")
    forget(*files)


def limited(size):
    def limit():
        resource.setrlimit(resource.RLIMIT_FSIZE, (size, size))
    return limit


def after_no_room(begin, folder, status, err, name, causes):
    """What must hold after a run that could not write everything."""
    check(status == UNWRITTEN, f"{name}: status {status}: {err}")
    check(re.search(causes, err), f"{name}: the cause is not named: {err}")
    check(read("start.channel") == begin, f"{name}: START has its bytes")
    end_is_true(os.path.join(folder, "e.channel"), name)
    end_is_true(os.path.join(folder, "c.channel"), name)
    check(not parts_left(folder), f"{name}: parts are left: {parts_left(folder)}")
    check(not os.path.exists(os.path.join(folder, "r.csv")),
        f"{name}: a record has its name although the run is not done")


def full_disk(begin, end, record):
    group("a full disk: file-size limit")
    size = len(end)
    for limit in (0, 1, 47, 100, size // 2, size - 1):
        os.mkdir("small")
        out, err = go("run", "start.channel", "-o", "small/e.channel", status=UNWRITTEN,
            says="small/e.channel: cannot be written: File too large.*START is as it was", preexec_fn=limited(limit),
            name=f"limit {limit}")
        check(os.listdir("small") == [] and read("start.channel") == begin,
            f"limit {limit}: nothing is there, START is")
        out, err = go("make", "start.csv", "-o", "small/s.channel", *COUNTS, status=UNWRITTEN,
            says="small/s.channel: cannot be written: File too large", preexec_fn=limited(limit))
        go("show", "start.channel", "--svg", "small/s.svg", status=UNWRITTEN,
            says="small/s.svg: cannot be written: File too large", preexec_fn=limited(limit))
        check(os.listdir("small") == [], f"limit {limit}: nothing is there")
        write("small/e.channel", begin)
        go("run", "start.channel", "-o", "small/e.channel", "--replace", status=UNWRITTEN, preexec_fn=limited(limit),
            name="an END that was there")
        check(listing("small") == {"e.channel": begin}, f"limit {limit}: an END that was there stays whole")
        shutil.rmtree("small")
    # room for END but not for the whole record: END says open, and both are gone on with
    for steps in (1, 3):
        os.mkdir("small")
        every = [word if word != 5 else steps for word in OPTIONS]
        _, err = go("run", "start.channel", "-o", "small/e.channel", *every, "--record", "small/r.csv", "--checkpoint",
            "small/c.channel", "--checkpoint-every", 7,
            status=UNWRITTEN, preexec_fn=limited(size + 17),
            says="small/r.csv.open: cannot be written: File too large.*small/e.channel: open: .*to go on")
        after_no_room(begin, "small", UNWRITTEN, err, "record too long", "File too large")
        check(counts(read("small/e.channel"))[1] < 300, "END says open")
        go("run", "start.channel", "-o", "small/whole.channel", *every, "--record", "small/whole.csv")
        shutil.copy("small/r.csv.open", "small/s.csv.open")
        for source, name in (("e", "r"), ("c", "s")):
            go("run", f"small/{source}.channel", "-o", f"small/{source}2.channel", *every, "--record",
                f"small/{name}.csv")
            check(read(f"small/{source}2.channel") == end, "gone on with: the same END")
            check(read(f"small/{name}.csv") == read("small/whole.csv"), "gone on with: the same record")
        shutil.rmtree("small")


def small_file_system(begin):
    group("a full disk: a small file system")
    os.mkdir("small")
    if subprocess.run(["mount", "-t", "tmpfs", "-o", "size=40k", "tmpfs", "small"],
        capture_output=True).returncode != 0:
        tested.notes.append("no file system can be mounted here: a full disk is tested by file-size limits and "
            "/dev/full alone")
        check(True, "by limits alone")
        os.rmdir("small")
        return
    try:
        fits = []
        for room in range(1, 10):
            write("small/filler", bytes(4096 * (10 - room)))
            process = start("run", "start.channel", "-o", "small/e.channel", "--staff", "3,30,1", "--record",
                "small/r.csv", "--checkpoint", "small/c.channel", "--checkpoint-every", 30)
            _, err = process.communicate()
            if process.returncode == DONE:
                check("complete" in taken("small/e.channel")[1]
                    and whole_record(read("small/r.csv"), "complete: 300 of 300 steps accepted"),
                    f"room {room}: complete")
                fits.append(room)
            else:
                after_no_room(begin, "small", process.returncode, err.decode(), f"room {room}",
                    "No space left on device")
            for name in os.listdir("small"):
                os.remove("small/" + name)
        check(fits and fits[0] > 2 and fits == list(range(fits[0], 10)), f"room is enough for {fits} blocks")
    finally:
        subprocess.run(["umount", "small"], check=True)
    os.rmdir("small")


def unwritable(begin):
    group("an unwritable folder")
    os.mkdir("closed")
    os.chmod("closed", 0o555)
    write("file", "a file")
    root = os.geteuid() == 0
    drop = as_nobody if root else None
    outputs = lambda folder: (("run", "start.channel", "-o", folder + "/e.channel"),
                              ("make", "start.csv", "-o", folder + "/s.channel", *COUNTS),
                              ("show", "start.channel", "--svg", folder + "/s.svg"))
    for folder, words, change in (("closed", "Permission denied", drop), ("file", "Not a directory", None),
                                  ("absent", "No such file or directory", None)):
        for line in outputs(folder):
            go(*line, status=UNWRITTEN, says=f"{folder}/[es].(channel|svg): cannot be written: {words}",
                preexec_fn=change, name=f"{line[0]} into {folder}")
    os.mkdir("free")
    os.chmod("free", 0o777)
    for line, words in ((("--record", "closed/r.csv", "--staff", 1), "closed/r.csv: cannot be written"),
                        (("--checkpoint", "closed/c", "--checkpoint-every", 9), "closed/c: cannot be written")):
        go("run", "start.channel", "-o", "free/e.channel", *line, status=UNWRITTEN, says=words, preexec_fn=drop)
        check(os.listdir("free") == [], "nothing is written before all outputs can be")
    check(os.listdir("closed") == [] and read("file") == b"a file" and read("start.channel") == begin,
        "nothing has changed")
    long = "n" * 254
    go("run", "start.channel", "-o", long, status=UNWRITTEN, says="File name too long")
    os.chmod("start.channel", 0o000)
    go("run", "start.channel", "-o", "free/e.channel", status=REFUSED,
        says="start.channel: cannot be read: Permission denied", preexec_fn=drop)
    os.chmod("start.channel", 0o644)
    if root and subprocess.run(["mount", "-t", "tmpfs", "-o", "size=100k,ro", "tmpfs", "closed"],
        capture_output=True).returncode == 0:
        try:
            for line in outputs("closed"):
                go(*line, status=UNWRITTEN, says="cannot be written: Read-only file system",
                    name=f"{line[0]} into a read-only file system")
        finally:
            subprocess.run(["umount", "closed"], check=True)
    else:
        tested.notes.append("no file system can be mounted here: unwritable folders are tested by permissions, a file "
            "and an absent folder")
    os.chmod("closed", 0o755)
    os.rmdir("closed")
    os.rmdir("free")
    os.remove("file")


def closed_pipes(begin, end):
    group("closed pipes")

    def broken():
        reader, writer = os.pipe()
        os.close(reader)
        return writer

    def both(name, *words, status, whole=None, closed_status=None):
        """With standard output on a closed pipe, on a full device and closed; then standard error."""
        for to in ("pipe", "/dev/full"):
            writer = broken() if to == "pipe" else os.open(to, os.O_WRONLY)
            go(*words, status=status, says="standard output could not be written" if status == UNWRITTEN else None,
                stdout=writer, name=f"{name}, output to {to}")
            os.close(writer)
            after(name, whole)
        for closed in ((1,), (2,), (0, 1, 2)):
            process = start(*words, stdout=None if 1 in closed else subprocess.DEVNULL,
                stderr=None if 2 in closed else subprocess.DEVNULL,
                preexec_fn=lambda: [os.close(file) for file in closed])
            process.communicate()
            check(process.returncode == closed_status, f"{name}, files {closed} closed: status {process.returncode}")
            after(name, whole)
        writer = broken()
        go(*words, status=closed_status, stderr=writer, name=f"{name}, errors to a closed pipe")
        os.close(writer)
        after(name, whole)

    def after(name, whole):
        check(read("start.channel") == begin, f"{name}: START has its bytes")
        if whole:
            path, data = whole
            check(os.path.exists(path) and read(path) == data, f"{name}: {path} is whole")
            if os.path.exists(path):
                os.remove(path)

    go("run", "start.channel", "-o", "plain.channel")
    plain = read("plain.channel")
    os.remove("plain.channel")
    both("run", "run", "start.channel", "-o", "e.channel", status=UNWRITTEN, whole=("e.channel", plain),
        closed_status=DONE)
    both("make", "make", "start.csv", "-o", "s.channel", *COUNTS, status=UNWRITTEN, whole=("s.channel", begin),
        closed_status=DONE)
    both("show", "show", "start.channel", status=UNWRITTEN, closed_status=DONE)
    both("check", "check", "start.channel", status=UNWRITTEN, closed_status=DONE)
    both("help", "--help", status=UNWRITTEN, closed_status=DONE)
    both("a refused START", "run", "start.csv", "-o", "e.channel", status=REFUSED, closed_status=REFUSED)
    both("wrong words", "run", status=USAGE, closed_status=USAGE)
