"""Known answers: what wave theory says, beside what the channels do."""
import math

import theory
from channels import Channel, at_wall, crest, line_fit, mode, part, size, turning, whole
from draw import Chart

TURN = 2 * math.pi
BOOK = "Wei and Kirby 1998"


def standing(drive, N, X, h, T, m, height, steps):
    """Period and growth a step of standing wave m of that height, let go at rest; and the walk."""
    shape = mode(N, m)
    start = whole(height * s for s in shape)
    channel = Channel(drive, X, T, h, start)
    walk = channel.walk(steps, 1)
    k = math.pi * m / (N * X / 1000)
    series = [part(start, shape)] + [part(row, shape) for row in walk.rows]
    angle, growth = turning(series, theory.on_grid(k, h / 1000, X / 1000) * T / 1000)
    return TURN * T / 1000 / angle, growth, walk


def periods(drive, report, full, out):
    report.head("Period of a standing wave in a closed channel", f"{BOOK}, (5.15) and (5.18)")
    for N, X, h, T, m, height, steps, near in ((64, 1000, 1000, 100, 1, 1000, 2500, 2e-4),
                                               (128, 100, 1000, 10, 4, 3000, 1870, 2e-3)):
        period, _, walk = standing(drive, N, X, h, T, m, height, steps)
        k, depth = math.pi * m / (N * X / 1000), h / 1000
        own, _ = theory.stepped(k, depth, X / 1000, T / 1000, 1)
        name = f"N {N}, X {X}, h {h}, T {T}, mode {m}"
        report.row(f"{name}: Airy", period, TURN / theory.airy(k, depth), "s", near)
        report.row("  Nwogu's equations", period, TURN / theory.nwogu(k, depth), "s", 1e-4)
        report.row("  the same on these cells and time steps", period, TURN / own, "s", 6e-5)
        report.row("  Peregrine's equations (not ours)", period, TURN / theory.peregrine(k, depth), "s")
        report.row("  long waves (not ours)", period, TURN / theory.long_wave(k, depth), "s")
        report.exact("  one correction for each step", walk.corrections[0] == steps,
                     f"{walk.corrections[0]} of {steps} steps")


def weights(drive, report, full, out):
    report.head("Period and growth a step, as the scheme's own weights give them",
                f"{BOOK}, (3.56) to (3.72), solved here for 1 and 2 corrections")
    for N, X, h, T, m, height, steps, corrections in ((64, 2000, 5000, 100, 8, 5000, 600, 1),
                                                      (64, 2000, 5000, 100, 16, 5000, 600, 1),
                                                      (64, 1000, 5000, 100, 16, 5000, 300, 2)):
        period, growth, walk = standing(drive, N, X, h, T, m, height, steps)
        k = math.pi * m / (N * X / 1000)
        own, factor = theory.stepped(k, h / 1000, X / 1000, T / 1000, corrections)
        report.row(f"N {N}, X {X}, h {h}, T {T}, mode {m}: period", period, TURN / own, "s", 2e-5)
        report.row("  growth in 1,000 steps", growth ** 1000, factor ** 1000, "", 2e-3, False)
        took = walk.corrections[corrections - 1]
        report.exact(f"  {corrections} correction{'s' if corrections > 1 else ''} for nearly each step", took >= steps - 4,
                     f"{took} of {steps} steps")


def celerity(drive, report, full, out):
    """Speed of waves over the depth in wave lengths, at 20 cells a wave or more."""
    if not full:
        return
    report.head("Speed of waves over the ratio of depth to wave length",
                "Madsen, Murray and Sørensen 1991, (14) and (15), Fig. 1")
    points, N = [], 80
    for m, X, h in ((2, 2000, 1000), (4, 2000, 2000), (8, 1000, 1500), (8, 1000, 3000), (8, 1000, 4500),
                    (8, 1000, 6000), (8, 1000, 8000), (8, 1000, 10000)):
        k, depth = math.pi * m / (N * X / 1000), h / 1000
        T = min(100, int(1000 * TURN / theory.nwogu(k, depth) / 40))
        height = 1e6 * min(0.002 * TURN / k, 0.001 * depth)
        period, _, walk = standing(drive, N, X, h, T, m, height, int(8 * 1000 * TURN / theory.nwogu(k, depth) / T))
        speed, fall = TURN / period / k, math.sqrt(theory.G * depth)
        deep = depth * theory.airy(k, depth) ** 2 / theory.G / TURN  # depth over the deep-water length
        points.append((k * depth, speed / fall))
        report.row(f"kh {k * depth:.3f}, h/L0 {deep:.3f}: Nwogu's", speed, theory.nwogu(k, depth) / k, "m/s", 0.002)
        report.row("  Airy's", speed, theory.airy(k, depth) / k, "m/s", 0.01)
    N, X, h, T, m = 160, 750, 4200, 100, 25
    k = math.pi * m / (N * X / 1000)
    period, _, walk = standing(drive, N, X, h, T, m, 10000, 300)
    report.row(f"N {N}, X {X}, h {h}, T {T} (Fig. 4), waves of {TURN / k:.1f} m: Airy's period", period,
               TURN / theory.airy(k, h / 1000), "s", 0.02)
    report.row("  Peregrine's (not ours)", period, TURN / theory.peregrine(k, h / 1000), "s")
    chart = Chart("Speed of a wave over its wave number", "kh: wave number times depth", "speed over that of long waves",
                  (0, 4), (0.4, 1.02))
    grid = [0.05 * i for i in range(1, 81)]
    for i, (label, law, dash) in enumerate((("Airy (exact)", theory.airy, ""), ("Nwogu (ours)", theory.nwogu, "7 4"),
                                            ("Peregrine", theory.peregrine, "2 4"))):
        chart.line([(x, law(x, 1) / x / math.sqrt(theory.G)) for x in grid], label, i, dash)
    chart.marks(points, "measured, 20 cells a wave or more", 3)
    chart.save(f"{out}/celerity.svg")


def resolution(drive, report, full, out):
    """The same wave on fewer and fewer cells."""
    if not full:
        return
    report.head("Cells for each wave: kh 1, the wave's period over Nwogu's", f"{BOOK}, (3.60) to (3.63)")
    points = []
    for cells in (40, 20, 16, 10, 8, 6, 5):
        X = 1000
        N, m = 2 * cells * max(1, 60 // (2 * cells)), 4 * max(1, 60 // (2 * cells))
        h = round(cells * X / TURN)
        k, depth = TURN / (cells * X / 1000), h / 1000
        want = TURN / theory.nwogu(k, depth)
        T = min(100, int(1000 * want / 60))
        period, _, _ = standing(drive, N, X, h, T, m, 0.001 * cells * X * 1000, int(8 * 1000 * want / T))
        grid = TURN / theory.stepped(k, depth, X / 1000, T / 1000, 1)[0]
        report.row(f"{cells} cells a wave: Nwogu's equations", period, want, "s")
        report.row("  the same on these cells and time steps", period, grid, "s", 2e-4)
        points.append((cells, 100 * (period / want - 1)))
    chart = Chart("Period of a wave on few cells, kh 1", "cells in a wave", "period too long by, %", (4, 40), (-1, 8))
    chart.line([(c, 100 * (theory.nwogu(1, 1) / theory.on_grid(1, 1, TURN / c) - 1)) for c in
                [4.5 + 0.1 * i for i in range(356)]], "the space differences alone, (3.60) to (3.63)", 0)
    chart.marks(points, "measured", 1)
    chart.save(f"{out}/few-cells.svg")


def solitary(drive, report, full, out):
    report.head("Solitary wave along a channel to its wall: N 256, X 100, h 450, T 20",
                f"{BOOK}, appendix A and section 5.1.1")
    N, X, h, T, begin = 256, 100, 450, 20, 6.0
    for share in (0.1, 0.2, 0.3):
        wave = theory.Solitary(share * h / 1000, h / 1000)
        places = [(j + 0.5) * X / 1000 - begin for j in range(N)]
        channel = Channel(drive, X, T, h, whole(1e6 * wave.height(x) for x in places),
                          whole(1e6 * wave.velocity(x) for x in places))
        walk = channel.walk(640 if full else 540, 4 if not full else 2)
        seconds = [(i + 1) * (2 if full else 4) * T / 1000 for i in range(len(walk.rows))]
        crests = [crest(row) for row in walk.rows]
        run = [i for i, t in enumerate(seconds) if 1.5 <= t <= 5.0]
        speed = line_fit([seconds[i] for i in run], [crests[i][0] * X / 1000 for i in run])
        top = crests[run[-1]][1] / 1000 / h  # height over depth before the wall
        up = max(at_wall(row) for row in walk.rows) / 1000 / h
        report.row(f"height {share} of the depth: speed by (A.19)", speed, wave.C, "m/s", 0.0025)
        report.row("  run-up over depth, against 2a + a²/2 + 3a³/4", up, 2 * top + top ** 2 / 2 + 0.75 * top ** 3, "",
                   0.06)
        report.row("  height over depth before the wall", top, share, "", 0.05)
        if full:
            back = [i for i, t in enumerate(seconds) if t >= 11.5]
            speed = -line_fit([seconds[i] for i in back], [crests[i][0] * X / 1000 for i in back])
            report.row("  speed on the way back", speed, wave.C, "m/s", 0.01)
        if full and share == 0.3:
            chart = Chart("Solitary wave of 0.3 of the depth, N 256, X 100 mm, h 450 mm, T 20 ms", "along the channel, m",
                          "height above still water, mm", (0, 25.6), (-20, 310))
            chart.line([(x + begin, 1000 * wave.height(x)) for x in places], "start", 7)
            rise = max(range(len(walk.rows)), key=lambda i: at_wall(walk.rows[i]))
            for i, (at, dash) in enumerate(((99, ""), (174, ""), (rise, ""), (299, "6 3"))):
                chart.line([((j + 0.5) * X / 1000, walk.rows[at][j] / 1000) for j in range(N)],
                           f"after {seconds[at]:.2f} s" + (" (highest at the wall)" if at == rise else
                                                           " (on its way back)" if at > rise else ""), i, dash)
            for at, colour in ((99, 0), (174, 1)):
                chart.marks([(begin + wave.C * seconds[at], 1000 * wave.height(0))],
                            "crest by (A.19)" if at == 99 else None, 3, "cross")
            chart.save(f"{out}/solitary.svg")
    report.say("2a + a²/2 + 3a³/4 is the height of two equal solitary waves that meet, a their height over the depth:")
    report.say("Su and Mirie 1980, Journal of Fluid Mechanics 98. a is taken as measured before the wall.")


def steep_long_wave(drive, report, full, out):
    report.head("Crest of a long wave of some height: 3 √g(h + a) - 2 √gh", f"Airy's theory of long waves, {BOOK}, chapter 1")
    N, X, h, T = 256, 2000, 1000, 100
    for a in (0.05, 0.1, 0.2) if full else (0.1,):
        rises = [a * math.exp(-(((j + 0.5) * X / 1000 - 150) / 40) ** 2) for j in range(N)]
        channel = Channel(drive, X, T, h, whole(1e6 * v for v in rises),
                          whole(2e6 * (math.sqrt(theory.G * (1 + v)) - math.sqrt(theory.G)) for v in rises))
        walk = channel.walk(300, 10)
        speed = line_fit([(i + 1) * T / 100 for i in range(len(walk.rows))],
                         [crest(row)[0] * X / 1000 for row in walk.rows])
        report.row(f"height {a} of the depth, length about 100 depths", speed,
                   3 * math.sqrt(theory.G * (1 + a)) - 2 * math.sqrt(theory.G), "m/s", 0.002)


def filters(drive, report, full, out):
    report.head("One filter pass: what it leaves of a wave", f"{BOOK}, (3.122) and (3.123)")
    N, points = 240, []
    for cells in (3, 4, 5, 6, 8, 10, 16) if full else (3, 4, 10):
        m = 2 * N // cells
        up = mode(N, m)
        along = [math.sin(math.pi * m * (j + 0.5) / N) for j in range(N)]
        start = whole(1e6 * v for v in up)
        flow = whole(1e6 * v for v in along)
        channel = Channel(drive, 1000, 20, 10000, start, flow)
        channel.filter()
        e, u, _ = channel.look()
        factor = part(e, up) / part(start, up)
        points.append((cells, factor))
        report.row(f"heights, waves of {cells} cells", factor, theory.filter_factor(cells), "", 2e-6, False)
        report.row("  velocities", part(u, along) / part(flow, along), theory.filter_factor(cells), "", 2e-6, False)
    channel = Channel(drive, 1000, 20, 1000, [100 * (-1) ** j for j in range(16)])
    channel.filter()
    report.exact("heights, waves of 2 cells: nothing is left away from walls", channel.look()[0][4:12] == [0] * 8,
                 f"cells 5 to 12: {channel.look()[0][4:12]}")
    along, left = [math.sin(math.pi * 2 / 3 * (j + 0.5)) for j in range(N)], theory.filter_factor(3)
    for accepted, (_, (trial, newest, *older)) in enumerate(theory.LADDER):
        speeds = []
        for passed in (False, True):
            channel = Channel(drive, 1000, 1, 1000, whole(9e5 * v for v in mode(N, 2 * N // 3)), accepted=accepted)
            if passed:
                channel.filter()
            channel.walk(1)
            speeds.append(part(channel.look()[1], along))
        report.row(f"step {accepted + 1} after a pass, waves of 3 cells from rest: velocities", speeds[1] / speeds[0],
                   ((trial + newest) * left + sum(older)) / 24, "", 1e-3, False)
    if full:
        chart = Chart("One filter pass", "cells in a wave", "what is left of the wave", (2, 16), (0, 1.05))
        chart.line([(2 + 0.1 * i, theory.filter_factor(2 + 0.1 * i)) for i in range(141)], "1 - sin⁸(π / cells)", 0)
        chart.marks(points, "measured heights", 1)
        chart.save(f"{out}/filter.svg")


def modes_at(start, cell, law, length, depth):
    """The standing waves of a row at rest, as seen in one cell: how high each is there, and its angular frequency."""
    N = len(start)
    parts = [sum(start) / N] + [part(start, mode(N, m)) for m in range(1, N)]
    return [(a * math.cos(math.pi * m * (cell + 0.5) / N), law(math.pi * m / length, depth) if m else 0)
            for m, a in enumerate(parts) if abs(a) > 0.001]


def basin(drive, report, full, out):
    report.head("A hump let go in a closed basin: N 100, X 100, h 500, T 20",
                f"{BOOK}, section 5.5, along one direction")
    N, X, h, T, top = 100, 100, 500, 20, 1000
    steps, most = (1500, 0.025) if full else (600, 0.012)
    start = whole(top * math.exp(-0.4 * ((j + 0.5) * X / 1000 - 5) ** 2) for j in range(N))
    walk = Channel(drive, X, T, h, start).walk(steps, 1)
    seen, shown = range(0, steps, 4), {}

    def rest(label, law, place, cell, walk, start, T, length, depth, most):
        terms = modes_at(start, cell, law, length, depth)
        want = shown[label, place] = [sum(a * math.cos(w * (n + 1) * T / 1000) for a, w in terms) for n in seen]
        off = size([walk.rows[n][cell] - v for n, v in zip(seen, want)]) / size(want)
        report.row(f"{place}: what the sum of modes leaves, {label}", off, 0, "", most, False)

    for label, law, allowed in (("Airy", theory.airy, most), ("Nwogu", theory.nwogu, most),
                                ("Peregrine (not ours)", theory.peregrine, None)):
        for place, cell in (("at the wall", 0), ("in the middle", N // 2)):
            rest(label, law, place, cell, walk, start, T, 10, 0.5, allowed)
    report.exact("left and right half stay equal to the µm", all(row == row[::-1] for row in walk.rows),
                 f"{steps} steps")
    report.exact("the heights' sum stays the same to the µm", all(sum(row) == sum(start) for row in walk.rows),
                 f"{sum(start)} µm, {steps} steps")
    if not full:
        return
    chart = Chart("Hump of 1 mm let go in a basin of 10 m, 0.5 m deep: height at the wall", "time, s", "height, mm",
                  (0, 30), (-0.6, 1.1))

    def in_time(values):
        return [((n + 1) * T / 1000, v / 1000) for n, v in zip(seen, values)]

    chart.line(in_time(shown["Airy", "at the wall"]), "sum of modes, Airy", 1, thick=3.5)
    chart.line(in_time(walk.rows[n][0] for n in seen), "measured", 0, thick=1.4)
    chart.line(in_time(shown["Peregrine (not ours)", "at the wall"]), "sum of modes, Peregrine", 2, "2 3", 1.2)
    chart.save(f"{out}/basin.svg")
    report.say("the same, all lengths 10 times as large (X 1000, h 5000, T 63), so that a µm of rounding counts a tenth:")
    start = whole(10 * top * math.exp(-0.004 * ((j + 0.5) - 50) ** 2) for j in range(N))
    walk = Channel(drive, 10 * X, 63, 10 * h, start).walk(steps, 1)
    for label, law in (("Airy", theory.airy), ("Nwogu", theory.nwogu)):
        rest(label, law, "at the wall", 0, walk, start, 63, 100, 5, 0.01)
    report.say("the report's own hump, 0.2 m high:")
    start = whole(200000 * math.exp(-0.4 * ((j + 0.5) * X / 1000 - 5) ** 2) for j in range(N))
    walk = Channel(drive, X, T, h, start).walk(2500, 1, 100)
    report.exact("filter every 100 steps: left and right half stay equal", walk.number == 0 and
                 all(row == row[::-1] for row in walk.rows), f"{walk.done} steps")
    report.exact("  the heights' sum stays the same (the report's: within 1 %)",
                 all(sum(row) == sum(start) for row in walk.rows), f"{sum(start)} µm")


def mirror(drive, report, full, out):
    report.head("A wall and a mirror image", f"{BOOK}, section 3.3.1")
    half, steps = 100, 1000 if full else 300
    depths = [1000 + 4 * j for j in range(half)]
    hump = whole(80000 * math.exp(-((j - 70) / 9) ** 2) for j in range(half))
    flow = whole(30000 * math.exp(-((j - 60) / 12) ** 2) for j in range(half))
    one = Channel(drive, 500, 40, depths, hump, flow)
    a, ones = one.walk(steps, 20, 50), one.look()
    two = Channel(drive, 500, 40, depths + depths[::-1], hump + hump[::-1], flow + [-v for v in flow[::-1]])
    b, twos = two.walk(steps, 20, 50), two.look()
    report.exact("a wall does what a mirror image does: heights equal to the µm",
                 all(r == s[:half] for r, s in zip(a.rows, b.rows)), f"{steps} steps over a slope, filter every 50")
    report.exact("  velocities equal to the µm/s", ones[1] == twos[1][:half] and a.number == b.number == 0)
    report.exact("  and the image's heights and velocities mirror them", twos[0][:half] == twos[0][half:][::-1] and
                 twos[1][:half] == [-v for v in twos[1][half:][::-1]])


def water(drive, report, full, out):
    report.head("Water, read from the file's bytes")
    N = 64
    depths = [800 + 15 * j for j in range(N)]
    start = whole(40000 * math.sin(j * j) for j in range(N))
    channel = Channel(drive, 400, 25, depths, start)
    due, poured = sum(start), 0
    for i in range(40):
        amount = (-1) ** i * 700 * i + 333
        if channel.pour(i, amount) == 0:
            due, poured = due + amount, poured + 1
        channel.walk(5, 0, 3)
    report.exact("after 40 pours, 200 steps and 40 filter passes: the sum", channel.look()[2] == due and poured == 40,
                 f"{due} µm")
    report.exact("a file checked again and run on gives the same bytes", channel.same() == 1)
    still = Channel(drive, 400, 25, depths, [77] * N)
    walk = still.walk(200, 200)
    report.exact("level water over a slope stays still, one correction a step",
                 walk.rows == [[77] * N] and walk.corrections[0] == 200, "200 steps")


def solve_row(low, mid, up, side):
    """The unknowns of a system of three diagonals."""
    n, ratio, rest = len(mid), [0.0] * len(mid), [0.0] * len(mid)
    for i in range(n):
        p = mid[i] - (low[i] * ratio[i - 1] if i else 0)
        ratio[i] = up[i] / p
        rest[i] = (side[i] - (low[i] * rest[i - 1] if i else 0)) / p
    for i in range(n - 2, -1, -1):
        rest[i] -= ratio[i] * rest[i + 1]
    return rest


def first_mode(depth, length, n):
    """Slowest standing wave of Nwogu's linear equations over a bottom that is level at both walls: its angular
    frequency and its heights in n parts of the channel. Second differences on n parts, velocities at their ends."""
    d = length / n
    H = [depth(i * d) for i in range(n + 1)]

    def rows(p, q):  # u + p h² u_xx + q h (hu)_xx at the inner ends
        f = [H[i] * H[i] * p / d ** 2 for i in range(1, n)]
        s = [H[i] * q / d ** 2 for i in range(1, n)]
        return ([f[i] + s[i] * H[i] for i in range(n - 1)], [1 - 2 * (f[i] + s[i] * H[i + 1]) for i in range(n - 1)],
                [f[i] + s[i] * H[i + 2] for i in range(n - 1)])

    z = theory.LEVEL
    low, mid, up = rows(z * z / 2, z)
    flux = rows(z * z / 2 - 1 / 6, z + 1 / 2)  # over the depth
    bend = ([1 / d ** 2] * (n - 1), [-2 / d ** 2] * (n - 1), [1 / d ** 2] * (n - 1))
    u = [math.sin(math.pi * i / n) for i in range(1, n)]
    for _ in range(40):
        v = [0.0] + u + [0.0]
        reduced = [low[i] * v[i] + mid[i] * v[i + 1] + up[i] * v[i + 2] for i in range(n - 1)]
        through = solve_row(*bend, [-v for v in reduced])
        after = solve_row(*flux, [through[i] / H[i + 1] for i in range(n - 1)])
        most = max(range(n - 1), key=lambda i: abs(after[i]))
        square = theory.G * u[most] / after[most]
        u = [v / after[most] for v in after]
    ends = [0.0] + through + [0.0]
    heights = [ends[i + 1] - ends[i] for i in range(n)]
    top = max(heights, key=abs)
    return math.sqrt(square), [v / top for v in heights]


def slope(drive, report, full, out):
    report.head("Slowest standing wave over a bottom from 20 m to 10 m in 64 m",
                "Nwogu's linear equations, solved here another way on 256 parts")
    length = 64.0

    def depth(x):
        return 15 + 5 * math.cos(math.pi * x / length)

    coarse, fine = first_mode(depth, length, 128)[0], first_mode(depth, length, 256)
    due = TURN / (fine[0] + (fine[0] - coarse) / 3)
    for N, T, near in ((16, 100, 4e-4), (32, 100, 1e-4), (64, 25, 3e-5)) if full else ((32, 100, 1e-4),):
        X = 64000 // N
        run = 256 // N
        shape = [sum(fine[1][j * run:(j + 1) * run]) / run for j in range(N)]
        start = whole(40000 * s for s in shape)
        channel = Channel(drive, X, T, whole(1000 * depth((j + 0.5) * X / 1000) for j in range(N)), start)
        walk = channel.walk(int(6 * 1000 * due / T), 1)
        angle, _ = turning([part(row, shape) for row in [start] + walk.rows], TURN * T / 1000 / due)
        report.row(f"N {N}, X {X}, T {T}", TURN * T / 1000 / angle, due, "s", near)


def green(drive, report, full, out):
    if not full:
        return
    report.head("Long wave from 1 m to 0.25 m of water: Green's formula, height as depth to the power -1/4",
                "Beji, Barlas and Nadaoka, section 4.1, after Lamb, Hydrodynamics, § 185")
    N, X, T = 256, 500, 50
    places = [(j + 0.5) * X / 1000 for j in range(N)]
    depths = whole(625 + 375 * math.cos(math.pi * min(max(x - 44, 0), 64) / 64) for x in places)
    for width in (6, 8, 10):
        rises = [2000 * math.exp(-((x - 24) / width) ** 2) for x in places]
        walk = Channel(drive, X, T, depths, whole(rises), whole(v * math.sqrt(theory.G) for v in rises)).walk(1100, 5)
        crests = [crest(row) for row in walk.rows]
        before = next(top for at, top in crests if at * X / 1000 > 40)
        after = next(top for at, top in crests if at * X / 1000 > 112)
        report.row(f"hump of half width {width} m: height over height before", after / before, 4 ** 0.25, "", 0.06)


ALL = (periods, weights, solitary, steep_long_wave, filters, basin, mirror, water, slope, celerity, resolution, green)
