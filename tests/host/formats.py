"""What the host's files hold, worked out from docs/HOST.md alone: channels, records, what stands beside a channel."""
import hashlib, re, struct
from fractions import Fraction

RULE = 3  # that steps are taken by; what says none is of rule 1


def length(cells):
    """of a channel file"""
    return 28 + 68 * cells


def starts(cells):
    """where its seven rows start: depths, heights, velocities, reduced velocities, fluxes, accelerations, dampings"""
    return [52 + 4 * cells * k for k in range(5)] + [28 + 40 * cells, 28 + 64 * cells]


def counts(data):
    """cells, accepted, wanted of a channel file's bytes"""
    return struct.unpack_from("<6I", data)[1], *struct.unpack_from("<2I", data, 16)


def cell_row(data, k):
    """one of the rows that have 4 bytes a cell"""
    cells = counts(data)[0]
    return struct.unpack_from(f"<{cells}i", data, starts(cells)[k])


def heights(data):
    """the heights in a channel file's bytes"""
    return cell_row(data, 1)


def dampings(data):
    """the dampings in a channel file's bytes"""
    return cell_row(data, 6)


def edition_1(data):
    """the bytes of the same channel, without its damping, as a file of edition 1 had them"""
    cells = counts(data)[0]
    offsets = [start - 4 for start in starts(cells)[:6]]
    return struct.pack("<I", 1) + data[4:24] + struct.pack("<6I", *offsets) + data[52:starts(cells)[6]]


def sha(data):
    return hashlib.sha256(data).hexdigest()


def survey(rows, names="depth_mm,height_um,velocity_um_s"):
    """A survey's text."""
    return names + "\n" + "".join(",".join(map(str, row)) + "\n" for row in rows)


def run_lines(origin, filter_every, pour, rule=RULE, mark=""):
    """The lines on a run that began with the channel `origin`, pours the rows `pour` and takes its steps by `rule`."""
    rows = "".join(f"{step},{cell},{amount}\n" for step, cell, amount in sorted(pour)).encode()
    lines = (f"origin {sha(origin)} at step {counts(origin)[1]}", *((f"rule {rule}",) if rule > 1 else ()),
             f"filter-every {filter_every or 'none'}", f"pour {sha(rows) if rows else 'none'}")
    return "".join(f"{mark}{line}\n" for line in lines)


def record_head(cells, run, every, first=0):
    """The lines that a record begins with; `run` is what run_lines takes."""
    names = ",".join(["step", "time_s", *(f"cell_{cell}_um" for cell in cells)])
    return f"{names}\n{run_lines(*run, mark='# ')}# every {every} from step {first}\n".encode()


def head_of(record):
    """The lines that a record begins with, of a record."""
    return re.match(rb"(.*\n)*?# every .*\n", record)[0]


def record_rows(record):
    """The lines of a record that are rows."""
    return [line for line in record.splitlines(True) if line[:1].isdigit()]


def record_end(before, words):
    """A record's last line: these words, the count of rows, and the sum of all before the sum."""
    line = f"# {words}, {len(record_rows(before))} rows, sha256 ".encode()
    return line + sha(before + line).encode() + b"\n"


def unruled(record):
    """A record as a program left it that did not say its rule, with the sum of its lines if it has a last line."""
    lines = record.splitlines(True)
    lines.remove(f"# rule {RULE}\n".encode())
    sum_at = lines[-1].find(b", sha256 ") + len(b", sha256 ")
    if sum_at > len(b", sha256 "):
        lines[-1] = lines[-1][:sum_at]
        lines.append(sha(b"".join(lines)).encode() + b"\n")
    return b"".join(lines)


def whole_record(record, words):
    """Whether a record ends in the last line that it must have."""
    lines = record.splitlines(True)
    return lines[-1] == record_end(b"".join(lines[:-1]), words)


def lines_of(record):
    """A record's head, its rows, and what follows them: what its gauges counted, and its last line."""
    head, rows = head_of(record), record_rows(record)
    return head.decode(), [row.decode() for row in rows], record[len(head) + len(b"".join(rows)):].decode()


def up_to(record, step):
    """The bytes of a record up to the row of a step."""
    return head_of(record) + b"".join(row for row in record_rows(record) if int(row.split(b",")[0]) <= step)


class Gauge:
    """A gauge that was fed these heights, one after each step that follows `placed`, by the rule of its own: a crossing
    is a height of zero or more directly after one below; a wave runs from a crossing up to, not including, the next."""

    def __init__(self, heights, placed=0):
        crossings = [k for k in range(1, len(heights)) if heights[k - 1] < 0 <= heights[k]]
        waves = [heights[a:b] for a, b in zip(crossings, crossings[1:])]
        sizes = [max(wave) - min(wave) for wave in waves]
        since = heights[crossings[-1]:] if crossings else [0]
        self.fed, self.waves, self.placed = len(heights), len(waves), placed
        self.largest, self.sum = max(sizes, default=0), sum(sizes)
        step = lambda k: placed + 1 + k
        first = sizes.index(self.largest) if sizes else None
        self.noted = (step(crossings[first]), step(crossings[first + 1])) if sizes else (0, 0)
        self.state = (self.fed, heights[-1] if heights else 0, len(crossings), max(since), min(since), self.largest,
            self.sum)
        self.crossed = step(crossings[-1]) if crossings else 0


def every_height(record):
    """For each staff the heights in a record with a row for every step, without that of the channel it begins with."""
    rows = [list(map(int, line.decode().replace(".", "").split(","))) for line in record_rows(record)]
    assert [row[0] for row in rows] == list(range(rows[0][0], rows[-1][0] + 1))
    return [list(column) for column in zip(*(row[2:] for row in rows[1:]))]


def count_lines(cells, fed, placed=0):
    """What a record says of the gauges at these cells, which were fed these heights."""
    text = ""
    for cell, heights in zip(cells, fed):
        gauge = Gauge(heights, placed)
        text += f"# cell {cell}: {gauge.fed} height{'s' * (gauge.fed != 1)} from step {placed + 1}, {gauge.waves} " \
            f"wave{'s' * (gauge.waves != 1)}, largest {gauge.largest} um, sum {gauge.sum} um"
        text += f", noted from step {gauge.noted[0]} to step {gauge.noted[1]}\n" if gauge.waves else "\n"
    return text.encode()


def gauge_lines(cells, fed, placed=0):
    """The same as it stands beside a channel."""
    text = ""
    for cell, heights in zip(cells, fed):
        gauge = Gauge(heights, placed)
        text += " ".join(map(str, ("gauge", cell, *gauge.state, "noted", gauge.crossed, *gauge.noted))) + "\n"
    return text


def wave_words(cells, fed, step_ms, placed=0):
    """What show --staff tells of them."""
    text = ""
    for cell, heights in zip(cells, fed):
        gauge = Gauge(heights, placed)
        mean = round(Fraction(gauge.sum, gauge.waves)) if gauge.waves else 0
        time = [f"{step * step_ms // 1000}.{step * step_ms % 1000:03}" for step in gauge.noted]
        text += f"  cell {cell}: " + (f"{gauge.waves:,} wave{'s' * (gauge.waves > 1)}, mean {mean:,} um, largest "
            f"{gauge.largest:,} um (from {time[0]} s to {time[1]} s)\n" if gauge.waves else "no complete wave\n")
    return text


def summed(text):
    """What stands beside a channel, with its last line: the sum of all lines before it."""
    return text + f"sum {sha(text.encode())}\n"


def beside(run, *saved):
    """What stands beside a channel; each of `saved` is a channel's bytes, those of the record that it has behind it, or
    None, and the lines on its gauges, which an earlier program left out."""
    text = "pathpetal run 1\n" + run_lines(*run)
    for channel, record, *gauges in saved:
        text += f"channel {sha(channel)} at step {counts(channel)[1]}\n"
        if record is not None:
            rows = len(record_rows(record))
            first = re.search(rb"^# every \d+ from step (\d+)$", record, re.M)[1].decode()
            text += f"record {sha(record)} of {len(record)} bytes: {rows} rows from step {first}\n"
        text += "".join(gauges)
    return summed(text)
