"""Signals and kills at random moments, and the same command again after them."""
import os, random, re, signal, subprocess, time

from common import (DONE, INTERRUPTED, check, end_is_true, forget, go, group, listing, parts_left, read, saved, start,
    taken, tested, write)
from formats import (Gauge, count_lines, counts, dampings, every_height, head_of, lines_of, sha, survey, up_to,
    whole_record)


def long_channel():
    """A channel with reeds, its table of poured water and its options for a run of some tenths of a second."""
    draw = random.Random(3)
    reeds = [max(0, 10 - j, j - 37) * 2 for j in range(48)]  # at both ends
    write("long.csv", survey([(1500 + draw.randrange(200), draw.randrange(-15000, 15000), reed) for reed in reeds],
        "depth_mm,height_um,damping_thousandths_s"))
    write("long.pour", "step,cell,amount_um\n" + "".join(
        f"{step},{draw.randrange(48) + 1},{draw.randrange(-200, 200)}\n" for step in range(1, 3000, 9)))
    go("make", "long.csv", "-o", "long.channel", "--width-mm", 1500, "--step-ms", 30, "--steps", 3000)
    cells = (2, 47, 1, 48, 3, 9, 15, 20, 25, 30, 40)  # more than one group of gauges
    options = ("--filter-every", 40, "--pour", "long.pour", "--staff", ",".join(map(str, cells)), "--every", 10)
    go("run", "long.channel", "-o", "long.end", *options, "--record", "long.record")
    record = read("long.record")
    check(dampings(read("long.end")) == tuple(reeds), "END has the damping of the survey")
    go("run", "long.channel", "-o", "each.end", *options[:-1], 1, "--record", "each.record")
    fed = every_height(read("each.record"))
    check(lines_of(record)[2].encode().startswith(count_lines(cells, fed)), "what its gauges counted")
    check(min(Gauge(row).waves for row in fed) >= 10, "each of them counted waves")
    forget(*saved("each.end"), "each.record")
    return options, read("long.channel"), read("long.end"), record


def end_while_it_waits(name, line, waits, begun, begin):
    """A run gets the beginning of an input and then nothing more: the signal ends it, and nothing is written."""
    os.mkfifo("fifo")
    before = set(os.listdir("."))
    reader, writer = os.pipe()
    process = start("run", *line, "-o", "w.channel", "--staff", 1, "--record", "w.csv", "--checkpoint", "w.check",
        "--checkpoint-every", 5, stdin=reader, preexec_fn=lambda: signal.signal(name, signal.SIG_DFL))
    os.close(reader)
    if begun and waits == "fifo":
        os.close(writer)
        writer = os.open("fifo", os.O_WRONLY)
    os.write(writer, begun)
    time.sleep(0.1)
    waited = process.poll() is None
    process.send_signal(name)
    try:
        process.wait(timeout=10)
    except subprocess.TimeoutExpired:
        process.kill()
    _, err = process.communicate(timeout=60)
    os.close(writer)
    what = f"{name.name}, run {' '.join(line)} after {begun!r}"
    check(waited and process.returncode == -name, f"{what}: status {process.returncode}: {err!r}")
    check(set(os.listdir(".")) == before and read("start.channel") == begin, f"{what}: something was written")
    os.remove("fifo")


def waiting(begin):
    group("signals while a run waits for its inputs")
    for name in (signal.SIGINT, signal.SIGTERM, signal.SIGHUP):
        for waits in ("fifo", "/dev/stdin"):
            for begun in (b"", b"\1\0"):
                end_while_it_waits(name, (waits,), waits, begun, begin)
            for begun in (b"", b"step,cell,amount_um\n1,1,"):
                end_while_it_waits(name, ("start.channel", "--pour", waits), waits, begun, begin)


def interrupted(options, begin, end, record, wanted, every, where):
    group(f"interrupted runs, gone on with by the same command, {where}")
    draw = random.Random(tested.seed + 1)
    command = ("run", "long.channel", "-o", "i.channel", *options, "--record", "i.csv", "--checkpoint", "i.check",
        "--checkpoint-every", every)
    began = time.monotonic()
    go(*command)
    whole = time.monotonic() - began
    left = ("i.csv", "i.csv.open", *saved("i.check", "i.channel"))
    forget(*left)
    stopped = {signal.SIGINT: 0, signal.SIGTERM: 0, signal.SIGHUP: 0}  # runs that each of them has stopped
    early = late = 0
    # until when a signal is sent, s; less where a run from its start ended before its signal, more where it did not yet
    # listen: the machine may be faster or slower now than when `whole` was measured
    latest = whole * 0.7
    for k in range(300):
        if sum(stopped.values()) >= wanted and all(stopped.values()):
            break
        name, tries, reached = list(stopped)[k % 3], 0, None  # the count in END, where there is one
        while True:
            tries += 1
            process = start(*command, *(("--replace",) if k % 4 == 3 else ()))
            if tries <= 3:
                time.sleep(draw.uniform(0, latest))
                process.send_signal(name)
            _, err = process.communicate(timeout=60)
            check(read("long.channel") == begin, "START has its bytes")
            if process.returncode == -name:
                early += 1  # before the program began to listen: nothing may have changed
                latest = min(latest * 1.1, 10)
                check(os.path.exists("i.channel") == (reached is not None), "ended before it began: END is as it was")
                continue
            if process.returncode == DONE:
                late += tries <= 3
                latest *= 0.9 if tries == 1 else 1
                break
            stopped[name] += 1
            check(process.returncode == INTERRUPTED, f"status {process.returncode}: {err!r}")
            check(re.search(rb"interrupted before step [\d,]+ of 3,000.*i.channel: open: [\d,]+ of 3,000 steps "
                rb"accepted.*i.csv.open: holds the record so far.*to go on: give the same command again\n$", err, re.S),
                f"interrupted: {err!r}")
            if reached:
                check(b"i.channel: is of this run, cut before: goes on after step" in err, f"goes on: {err!r}")
            end_is_true("i.channel", "interrupted", False)
            check((reached or 0) <= counts(read("i.channel"))[1] < 3000 and not os.path.exists("i.csv"),
                "END says open, and no record has its name")
            reached = counts(read("i.channel"))[1]
            check(whole_record(read("i.csv.open"), f"open: {reached} of 3000 steps accepted"), "the record says open")
        check(read("i.channel") == end, f"interrupted and gone on with: END has other bytes (after {tries})")
        check(read("i.csv") == record, "interrupted and gone on with: another record")
        check(not parts_left(), "nothing is left beside")
        before = listing()
        go(*command, tells=r"i.channel: complete: all 3,000 steps accepted \(it was there already\)")
        check(listing() == before, "a run that is complete writes nothing")
        forget(*left)
    stops = sum(stopped.values())
    check(stops >= wanted and all(stopped.values()), f"only these were interrupted on their way: {stopped}")
    tested.notes.append(f"{where}: interrupted on their way: {stops}; before they listened: {early}; after they were "
        f"complete: {late}")
    ignored(options, end, whole)


def ignored(options, end, whole):
    """`whole` is how long a run takes, s."""
    group("signals that are ignored stay ignored")
    process = start("run", "long.channel", "-o", "h.channel", *options, "--record", "h.csv",
        preexec_fn=lambda: signal.signal(signal.SIGHUP, signal.SIG_IGN))
    time.sleep(whole / 3)
    process.send_signal(signal.SIGHUP)
    process.communicate(timeout=60)
    check(process.returncode == DONE and read("h.channel") == end, "a run under nohup goes on")
    forget(*saved("h.channel"), "h.csv")


def power_cut(draw, head):
    """What a power cut may do to a killed run's open record: bytes that were not flushed are lost, or read as zeros."""
    if not os.path.exists("k.csv.open"):
        return
    flushed = len(head) if len(read("k.csv.open")) >= len(head) else 0
    for name in ("k.check.run", "k.channel.run"):
        for length in re.findall(r"of (\d+) bytes", read(name).decode() if os.path.exists(name) else ""):
            flushed = max(flushed, int(length))
    data = read("k.csv.open")
    if flushed < len(data):
        place = draw.randrange(flushed, len(data) + 1)
        write("k.csv.open", data[:place] + (bytes(len(data) - place) if draw.random() < 0.5 else b""))


def kills(options, begin, end, record, wanted, every, where):
    group(f"kills at random moments, then the same command again, {where}")
    draw = random.Random(tested.seed + 2)
    head = head_of(record)
    command = ("run", "long.channel", "-o", "k.channel", *options, "--record", "k.csv", "--checkpoint", "k.check",
        "--checkpoint-every", every)
    left = ("k.csv", "k.csv.open", *saved("k.channel", "k.check"))
    began = time.monotonic()
    go(*command)
    whole = time.monotonic() - began
    forget(*left)
    killed = ends = inside = chains = resumed = cuts = 0
    while killed < wanted:
        chains += 1
        tries, spoilt = 0, None
        while True:
            tries += 1
            process = start(*command, *(("--replace",) if chains % 5 == 4 else ()))
            if tries <= 5:
                time.sleep(draw.uniform(0, whole if tries == 1 else whole * 0.8))
                process.kill()
            _, err = process.communicate(timeout=60)
            resumed += b"is of this run, cut before: goes on" in err
            check(read("long.channel") == begin, "START has its bytes")
            if process.returncode == DONE:
                break
            if not check(process.returncode == -signal.SIGKILL, f"status {process.returncode}: {err!r}"):
                break
            killed += 1
            inside += bool(parts_left())
            strange = [name for name in parts_left()
                if not re.fullmatch(r"(k\.channel|k\.csv|k\.csv\.open|k\.check)(\.run)?\.part-\d+-\d+", name)]
            check(not strange, f"strange names are left: {strange}")
            forget(*parts_left())
            if os.path.exists("k.channel"):
                ends += 1
                check(read("k.channel") == end and taken("k.channel")[0], "END after a kill is whole and complete")
            if os.path.exists("k.csv"):
                check(read("k.csv") == record, "a record with its name is whole")
            if os.path.exists("k.csv.open"):
                check(record.startswith(read("k.csv.open")) or read("k.csv.open") == spoilt,
                    "the open record is the record so far")
            if os.path.exists("k.check"):
                data = read("k.check")
                good = taken("k.check")[0] and counts(data)[1] % every == 0 and counts(data)[1] < 3000
                check(good, "the checkpoint is whole and says open")
                known = f"channel {sha(data)} at step {counts(data)[1]}\n" \
                    f"record {sha(up_to(record, counts(data)[1]))} of".encode()
                check(known in read("k.check.run"), "what stands beside the checkpoint knows it")
                # under its own name where END was written too, and a run after that had only just begun its open record
                so_far = up_to(record, counts(data)[1])
                there = [read(name) for name in ("k.csv.open", "k.csv") if os.path.exists(name)]
                check(not good or any(rows.startswith(so_far) for rows in there),
                    "the record has come as far as the checkpoint")
            if draw.random() < 0.5:
                cuts += 1
                power_cut(draw, head)
                spoilt = read("k.csv.open") if os.path.exists("k.csv.open") else None
        check(read("k.channel") == end, "killed and gone on with: END has other bytes")
        check(os.path.exists("k.csv") and read("k.csv") == record, "killed and gone on with: another record")
        before = listing()
        go(*command, tells=r"k.channel: complete: all 3,000 steps accepted \(it was there already\)")
        check(listing() == before, "a run that is complete writes nothing")
        forget(*left)
    check(resumed > killed // 4, f"only {resumed} runs went on from what was left")
    tested.notes.append(f"{where}: {killed} kills in {chains} runs, {cuts} of them as power cuts; {resumed} runs went "
        f"on from a checkpoint or END, {inside} kills while a file was being written, {ends} after END had its name")
