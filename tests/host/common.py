"""What all tests of the host have in common: what is tested, facts that are counted, files, and runs of the host."""
import os, re, shutil, subprocess, time

from formats import count_lines, counts, gauge_lines, length

TOP = os.path.dirname(os.path.dirname(os.path.dirname(os.path.abspath(__file__))))  # the repository
DONE, USAGE, REFUSED, UNWRITTEN, OPEN, INTERRUPTED = 0, 2, 3, 4, 5, 6  # the host's exit statuses
SANITIZER = 99  # the exit status that the sanitizers are told to use
ENVIRONMENT = dict(os.environ, LC_ALL="C",
                   ASAN_OPTIONS=f"exitcode={SANITIZER}:abort_on_error=0:detect_leaks=0",
                   UBSAN_OPTIONS=f"exitcode={SANITIZER}:halt_on_error=1:print_stacktrace=1")

# the survey, the counts, the poured water and the options of the run that most tests look at
ROWS = [(900 + 13 * (j * 7 % 17), 40000 if j in (9, 10, 11) else 0, 1000 * (j % 3)) for j in range(30)]
COUNTS = ("--width-mm", 1000, "--step-ms", 40, "--steps", 300)
POUR = [(step, 1 + step % 30, 300 - 7 * (step % 90)) for step in range(3, 290, 4)] + [(150, 2, 500), (150, 30, -500)]
STAFFS = (3, 30, 1)
OPTIONS = ("--filter-every", 7, "--pour", "pour.csv", "--staff", "3,30,1", "--every", 5)
NO_STAFFS = OPTIONS[:4]  # the same run without a record
ALL = "complete: 300 of 300 steps accepted"


class Tested:
    """What is tested, and what came of it. There is one, `tested`, so that a value set in one module is seen in all."""

    def __init__(self):
        self.program = None  # path of the host, of a copy that nobody else changes
        self.seed = 1  # what the draws begin with
        self.checked = False  # whether it is the host with sanitizers
        self.passed = self.failed = 0  # facts that held, and that did not
        self.groups = []  # [name, passed, failed, when it began]
        self.notes = []  # lines to be printed at the end
        self.running = []  # processes that were started and may not have ended
        self.fed = []  # of the run that most tests look at: the heights after every step, for each staff


tested = Tested()


def check(fact, what):
    """Counts one fact; a fact that does not hold is printed."""
    group_now = tested.groups[-1]
    if fact:
        tested.passed += 1
        group_now[1] += 1
    else:
        tested.failed += 1
        group_now[2] += 1
        print(f"FAILED: {group_now[0]}: {what}")
    return bool(fact)


def group(name):
    """Begins a group of facts."""
    tested.groups.append([name, 0, 0, time.monotonic()])


def report():
    """Prints what came of each group, the notes and the counts; gives the exit status."""
    now = time.monotonic()
    ends = [began for *_, began in tested.groups[1:]] + [now]
    for (name, good, bad, began), ended in zip(tested.groups, ends):
        print(f"{good:6} held, {bad} did not, {ended - began:4.1f} s: {name}")
    for note in tested.notes:
        print(note)
    print(f"{now - tested.groups[0][3]:.0f} s")
    print(f"{tested.passed} passed, {tested.failed} failed")
    return 0 if tested.failed == 0 and tested.passed > 0 else 1


# The gauges of the run that most tests look at ------------------------------------------------------------------------

def known(channel, record):
    """A channel of that run and the rows that it has behind it, as `beside` takes them, with its gauges."""
    return channel, record, gauge_lines(STAFFS, fed_up_to(counts(channel)[1]))


def fed_up_to(step):
    return [heights[:step] for heights in tested.fed]


def counted(step, placed=0):
    """What the record of that run says of its gauges, when it has come to a step."""
    return count_lines(STAFFS, [heights[placed:step] for heights in tested.fed], placed)


# Files ----------------------------------------------------------------------------------------------------------------

def read(path):
    with open(path, "rb") as file:
        return file.read()


def write(path, data):
    with open(path, "wb") as file:
        file.write(data if isinstance(data, bytes) else data.encode())
    return path


def listing(folder="."):
    """What stands in a folder: the bytes of each file, None for what is no file."""
    return {name: read(os.path.join(folder, name)) if os.path.isfile(os.path.join(folder, name)) else None
            for name in os.listdir(folder)}


def forget(*names):
    for name in names:
        if os.path.lexists(name):
            os.remove(name)


def saved(*names):
    """Channels that a run saves, with what stands beside them."""
    return [name + end for name in names for end in ("", ".run")]


def parts_left(folder="."):
    return [name for name in os.listdir(folder) if ".part-" in name]


# The host -------------------------------------------------------------------------------------------------------------

def start(*words, program=None, **more):
    """Starts the host with these words."""
    more.setdefault("stdout", subprocess.PIPE)
    more.setdefault("stderr", subprocess.PIPE)
    more.setdefault("stdin", subprocess.DEVNULL)
    more.setdefault("env", ENVIRONMENT)
    process = subprocess.Popen([program or tested.program, *map(str, words)], **more)
    tested.running = [earlier for earlier in tested.running if earlier.poll() is None] + [process]
    return process


def end_all():
    """Ends what still runs: a test that could not go on may have left it, stopped or waiting."""
    for process in tested.running:
        if process.poll() is None:
            process.kill()
            process.wait()


def go(*words, status=DONE, says=None, tells=None, name=None, **more):
    """Runs the program to its end and checks its status and what it says; gives (standard output, error)."""
    process = start(*words, **more)
    out, err = process.communicate(timeout=60)
    out, err = (out or b"").decode(errors="replace"), (err or b"").decode(errors="replace")
    name = name or " ".join(map(str, words))
    good = process.returncode == status
    check(good, f"{name}: status {process.returncode} where {status} is documented: {err.strip()[-600:]}")
    if says is not None:
        check(re.search(says, err, re.S), f"{name}: the message does not say /{says}/: {err.strip()!r}")
    if tells is not None:
        check(re.search(tells, out, re.S), f"{name}: the output does not say /{tells}/: {out.strip()!r}")
    return out, err


def from_shell(command, *words, **more):
    """Runs the program with what a shell command writes as its standard input."""
    source = subprocess.Popen(["sh", "-c", command], stdout=subprocess.PIPE, stderr=subprocess.DEVNULL)
    go(*words, stdin=source.stdout, name=f"{command} | {' '.join(map(str, words))}", **more)
    source.stdout.close()
    source.wait(timeout=60)


def taken(path):
    """Whether pathpetal check takes the file."""
    process = start("check", path)
    out, _ = process.communicate(timeout=60)
    return process.returncode == DONE, out.decode()


def end_is_true(path, name, allow_absent=True):
    """END is absent, or whole and says what its counts say."""
    if not os.path.lexists(path):
        return check(allow_absent, f"{name}: {path} is absent")
    whole, words = taken(path)
    data = read(path)
    cells, accepted, wanted = counts(data)
    word = "complete: all" if accepted == wanted else "open:"
    return check(whole and len(data) == length(cells) and word in words, f"{name}: {path} is not whole or not true")


def until(process, fact):
    """Waits until something is so while a process runs; it must come to be so before the process ends."""
    began = time.monotonic()
    while not fact():
        if process.poll() is not None or time.monotonic() - began > 20:
            return check(fact(), "what was waited for did not come to be")
        time.sleep(0.001)


def grown(path, size):
    return lambda: os.path.exists(path) and os.path.getsize(path) >= size


def strace_works():
    """Whether strace is here and may look at a process."""
    return shutil.which("strace") and subprocess.run(["strace", "-o", "/dev/null", "true"]).returncode == 0
