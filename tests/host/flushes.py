"""The order in which a run flushes its files and gives them their names, by its system calls.

No file has its name before its bytes are on disk; no name is given before the name given last is on disk too; no
channel is saved before the record's rows are there; and all is there before the run says that it is complete.
"""
import os, re

from common import DONE, OPEN, OPTIONS, check, forget, go, group, read, saved, strace_works, tested, write

FILES = ("t.csv", "t.csv.open", *saved("t.end", "t.check"))  # all that the runs here can leave


def flushed_first():
    group("flushes come before names")
    if not strace_works():
        tested.notes.append("no strace here: the order of flushes and names is not looked at")
        check(True, "without strace")
        return
    command = ("run", "start.channel", "-o", "t.end", *OPTIONS, "--record", "t.csv", "--checkpoint", "t.check",
        "--checkpoint-every", 60)
    at_end = ["t.end.run", "t.end", "t.csv"]
    all_names = ["t.csv.open", *["t.check.run", "t.check"] * 4, *at_end]  # at steps 60, 120, 180 and 240
    in_order("from the start", command, all_names)
    kept = {name: read(name) for name in ("t.csv", *saved("t.check"))}
    for name in FILES:
        write(name, b"another's\n")
    in_order("over files of another run", (*command, "--replace"), all_names)
    forget(*FILES)
    for name, data in kept.items():
        write(name if name != "t.csv" else "t.csv.open", data)
    in_order("going on from the checkpoint", command, ["t.csv.open", *at_end])
    forget(*FILES)
    words = [word if word != "pour.csv" else "t.dry" for word in command]
    write("t.dry", "step,cell,amount_um\n" + "".join(f"100,{cell},-1000000\n" for cell in range(1, 9)))
    in_order("up to a step that is refused", words, ["t.csv.open", "t.check.run", "t.check", "t.end.run", "t.end"],
        OPEN)
    forget(*FILES, "t.dry", "t.trace")


def in_order(case, command, wanted, status=DONE):
    """Runs a command and looks at its calls; `wanted` are the names that it gives, in their order."""
    traced = "trace=write,?pwrite64,?ftruncate,fsync,fdatasync,?rename,?renameat,?renameat2,?link,?linkat"
    go("-o", "t.trace", "-y", "-e", traced, tested.program, *command, status=status, program="strace", name=case,
        tells="^t.end: complete: " if status == DONE else "^$")
    unflushed = set()  # files that were written to after their last flush, and folders that got a name after it
    folder, given = os.path.realpath("."), []
    for line in read("t.trace").decode().splitlines():
        call = re.match(r"(\w+)\((?:(\d+)<([^>]*)>)?", line)
        if not call or ") = -1 E" in line:
            continue  # how the program ended, or a call that has done nothing
        call, number, file = call.groups()
        if call in ("fsync", "fdatasync"):
            unflushed.discard(file)
        elif number == "1":
            check(not unflushed, f"{case}: the run says that it is complete before {unflushed} are flushed")
        elif number and file.startswith("/"):
            unflushed.add(file)
        elif not number:
            part, name = re.findall(r'"([^"]*)"', line)
            given.append(name)
            check(os.path.join(folder, part) not in unflushed, f"{case}: {name} is not flushed before it has its name")
            check(folder not in unflushed, f"{case}: {name} comes before the name {given[-2:-1]} is flushed")
            check(os.path.join(folder, "t.csv.open") not in unflushed,
                f"{case}: {name} comes before the record's rows are flushed")
            unflushed.add(folder)
    check(given == wanted, f"{case}: the names are {given}")
    check(not unflushed, f"{case}: {unflushed} are not flushed at the end")
