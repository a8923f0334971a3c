"""Channels stepped through the C interface, and what is measured on them."""
import cmath
import math
import subprocess


class Drive:
    """The program made from drive.c, kept running; command is how to start it. It counts the steps that were taken, and
    the calls and walks that were refused."""

    def __init__(self, command):
        self.steps = self.refused = 0
        self.process = subprocess.Popen(command, stdin=subprocess.PIPE, stdout=subprocess.PIPE, text=True)

    def ask(self, text):
        self.process.stdin.write(text + "\n")
        self.process.stdin.flush()

    def line(self):
        line = self.process.stdout.readline()
        if not line:
            raise SystemExit("the driver ended: was it built from this archive and this pathpetal.h?")
        return line.split()

    def number(self, word):
        line = self.line()
        assert line[0] == word, line
        return int(line[1])

    def close(self):
        self.process.stdin.close()
        if self.process.wait():
            raise SystemExit("the driver failed")


class Walk:
    """What became of a number of steps: rows of heights, steps done, the refusal or 0, its stage, and how many steps
    took 1 to 10 corrections."""

    def __init__(self, rows, line):
        self.rows = rows
        self.done, self.number, self.stage = map(int, line[1:4])
        self.corrections = list(map(int, line[4:]))

    def most(self):
        """The most corrections that a step took."""
        return max([k + 1 for k in range(10) if self.corrections[k]], default=0)

    def mean(self):
        return sum((k + 1) * n for k, n in enumerate(self.corrections)) / max(1, sum(self.corrections))


class Channel:
    """N cells of width X mm and depths h mm (one number: the same everywhere), time step T ms; e in µm, u in µm/s, damping
    in thousandths per second. Its file says that so many steps are accepted."""

    def __init__(self, drive, X, T, h, e, u=None, wanted=1000000, accepted=0, damping=None):
        self.drive, self.N, self.X, self.T = drive, len(e), X, T
        self.h = [h] * self.N if isinstance(h, int) else h
        rows = [self.h, e, u or [0] * self.N, damping or [0] * self.N]
        drive.ask(f"make {self.N} {X} {T} {wanted} {accepted}\n" + "\n".join(" ".join(map(str, row)) for row in rows))
        self.made = drive.number("made")
        drive.refused += self.made != 0

    def walk(self, steps, every=0, filter=0):
        drive, rows = self.drive, []
        drive.ask(f"walk {steps} {every} {filter}")
        line = drive.line()
        while line[0] == "e":
            rows.append(list(map(int, line[1:])))
            line = drive.line()
        walk = Walk(rows, line)
        drive.steps += walk.done
        drive.refused += walk.number != 0
        return walk

    def pour(self, cell, amount):
        self.drive.ask(f"pour {cell} {amount}")
        self.drive.steps += 1
        return self.counted("poured")

    def filter(self):
        self.drive.ask("filter")
        return self.counted("filtered")

    def counted(self, word):
        """The number that a call answers; it is counted if it refuses."""
        number = self.drive.number(word)
        self.drive.refused += number != 0
        return number

    def look(self):
        """Heights, velocities and the heights' sum."""
        self.drive.ask("look")
        e, u = (list(map(int, self.drive.line()[1:])) for _ in range(2))
        return e, u, self.drive.number("sum")

    def same(self):
        self.drive.ask("same")
        self.drive.steps += 4
        return self.drive.number("same")


def whole(values):
    return [int(math.floor(v + 0.5)) for v in values]


def mode(N, m):
    """Standing wave m of a closed channel, at the middles of its cells: m half waves in the channel."""
    return [math.cos(math.pi * m * (j + 0.5) / N) for j in range(N)]


def part(row, shape):
    """How much of a standing wave there is in a row."""
    return sum(a * b for a, b in zip(row, shape)) / sum(b * b for b in shape)


def turning(series, guess):
    """Angle and growth factor from one number of a series to the next, for a series that swings at about the guessed
    angle: from the phases and sizes of its two halves, each seen through a window that fades out at both ends."""
    half = len(series) // 2
    window = [math.sin(math.pi * (n + 0.5) / half) ** 4 for n in range(half)]
    growth = 1.0
    for _ in range(4):
        seen = []
        for start in (0, half):
            seen.append(sum(series[start + n] * window[n] * (cmath.exp(1j * guess) * growth) ** -(start + n)
                            for n in range(half)))
        guess += cmath.phase(seen[1] / seen[0]) / half
        growth *= abs(seen[1] / seen[0]) ** (1 / half)
    return guess, growth


def crest(row):
    """Where the highest point is, in cells from the first cell's middle, and its height: by the parabola through the
    highest cell and its neighbours."""
    j = max(range(1, len(row) - 1), key=lambda i: row[i])
    a, b, c = row[j - 1], row[j], row[j + 1]
    bend = a - 2 * b + c
    if bend >= 0:
        return float(j), float(b)
    shift = (a - c) / 2 / bend
    return j + shift, b - (a - c) * shift / 4


def at_wall(row):
    """Height at the wall at the row's end, where it stands level."""
    return (9 * row[-1] - row[-2]) / 8


def line_fit(xs, ys):
    """The slope of the straight line nearest to the points."""
    mx, my = sum(xs) / len(xs), sum(ys) / len(ys)
    return sum((x - mx) * (y - my) for x, y in zip(xs, ys)) / sum((x - mx) ** 2 for x in xs)


def size(row):
    """Root of the mean square."""
    return math.sqrt(sum(v * v for v in row) / len(row))
