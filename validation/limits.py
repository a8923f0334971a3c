"""Limits of the rule, measured: where a run cannot be trusted, and what to choose instead."""
import cmath
import math

import theory
from channels import Channel, at_wall, mode, part, size, turning, whole
from draw import Chart

TURN = 2 * math.pi
STEPS = 1500
LONG = 6000  # steps of each run behind the table of what to choose
GROWN = 1.05  # a run whose waves grow to more than this is not safe
BOUND = math.sqrt(6)  # Courant number of 9,810 h T² = 6,000,000 X²
ADVISED = 0.35  # Courant number that the tables below are made with
ONCE = theory.LATER  # a file that says so many accepted steps takes the later weights from its first step on, as all did once


def courant(h, X, T):
    return math.sqrt(theory.G * h / 1000) * T / X


def step_for(h, X, number):
    """The longest time step in ms with at most that Courant number."""
    return max(1, min(100, int(number * X / math.sqrt(theory.G * h / 1000) + 1e-9)))


def short_waves(drive, h, X, T, cells, filter=0, of_depth=0.02, of_length=0.01, steps=STEPS):
    """Standing waves of that many cells in 64 cells, as high as those shares of the depth and of their length allow: the
    walk, and how large they are after every 10 steps, over the start."""
    height = 1000 * min(of_depth * h, of_length * cells * X)
    start = whole(height * v for v in mode(64, 128 // cells))
    walk = Channel(drive, X, T, h, start).walk(steps, 10, filter)
    return walk, [size(row) / size(start) for row in walk.rows]


def ending(walk):
    if walk.number == 0:
        return f"ran all {walk.done} steps"
    return f"refused {walk.number} in step {walk.done + 1}"


def passes(every):
    return f"a pass every {every} steps" if every else "no filter"


def alike(drive, report):
    """Low waves in very shallow water. Those of 8 cells repeat to the µm along the channel, so that 16 cells tell as much as
    64; others do not repeat."""
    times = range(56, 84)
    report.say(f"low waves refused with 10 though they have not grown: 200 to 600 µm high, h 20, X 100, T {times[0]} to "
               f"{times[-1]}, {STEPS} steps:")
    for N, m, heights in ((16, 4, range(200, 601, 10)), (64, 15, range(200, 601, 40))):
        refused = []
        for height in heights:
            start = whole(height * v for v in mode(N, m))
            for T in times:
                walk = Channel(drive, 100, T, 20, start).walk(STEPS, 10)
                if walk.number:
                    refused.append((T, walk.number, max((size(row) / size(start) for row in walk.rows), default=1)))
        said = f"{len(refused):,} of {len(heights) * len(times):,} runs"
        if refused:
            low, high = min(refused)[0], max(refused)[0]
            said += (f", T {low} to {high}, Courant number {courant(20, 100, low):.2f} to {courant(20, 100, high):.2f}, grown to "
                     f"{max(grown for _, _, grown in refused):.3f} at most")
        report.exact(f"  waves of {2 * N / m:.3g} cells, N {N}",
                     all(number == 10 and grown <= GROWN for _, number, grown in refused) and bool(refused) == (N == 16), said)


def growth(drive, report, out):
    report.head("Limit 1: waves grow when steps take two or more corrections")
    report.say("growth in 1,500 steps by the scheme's weights, by how far a wave should turn in a step (radians):")
    for angle in (0.2, 0.25, 0.3, 0.4, 0.5, 0.7, 1.0):
        report.say(f"  {angle:.2f} ({TURN / angle:4.1f} steps a period): " + ", ".join(
            f"{k} correction{'s' if k > 1 else ''} {abs(theory.step_factor(angle, k)) ** STEPS:.4g}" for k in (1, 2, 3, 10)))
    X, safe = 100, {8: [], 16: []}
    report.say(f"longest time step T up to which waves grow by at most 5 % in {STEPS} steps at every whole ms, and are not")
    report.say(f"refused, but for 10 of waves that have not grown, see below (X {X}, N 64):")
    for ratio in (0.2, 0.5, 1, 2, 5, 10):
        h = int(ratio * X)
        for cells in (8, 16):
            T, unsettled = 0, []
            while T < 100:
                walk, sizes = short_waves(drive, h, X, T + 1, cells)
                if walk.number == 10 and max(sizes) <= GROWN:
                    unsettled.append(f"; T {T + 1}: {ending(walk)}, grown to {max(sizes):.3f}")
                elif walk.number or max(sizes) > GROWN:
                    break
                T += 1
            k = TURN / (cells * X / 1000)
            turn = theory.on_grid(k, h / 1000, X / 1000) * T / 1000
            safe[cells].append((ratio, courant(h, X, T)))
            after = f"T {T + 1}: {ending(walk)}, grown to {max(sizes):.3f}" if T < 100 else "the longest allowed"
            report.say(f"  depth over width {ratio:>4}, waves of {cells:>2} cells: T {T:>3} ms, Courant number "
                       f"{courant(h, X, T):.2f}, {TURN / turn:.0f} steps a period; {after}{''.join(unsettled)}")
    least = min(c for points in safe.values() for _, c in points)
    report.exact(f"a Courant number of {ADVISED} is below all of these", ADVISED <= least, f"least {least:.3f}")
    alike(drive, report)
    report.say("the bound of the rule, 9,810 h T² <= 6,000,000 X² (a Courant number of 2.449), lets these pass:")
    for ratio, X in ((2, 20), (5, 50), (10, 100), (25, 20)):
        h = ratio * X
        T = step_for(h, X, BOUND)
        made = Channel(drive, X, T + 1, h, [0] * 8).made
        report.exact(f"  h {h}, X {X}, T {T + 1}, Courant number {courant(h, X, T + 1):.3f}, is not made", made == 26, f"refused {made}")
        for cells in (8, 16):
            walk, sizes = short_waves(drive, h, X, T, cells)
            report.exact(f"  h {h}, X {X}, T {T}, Courant number {courant(h, X, T):.3f}, waves of {cells} cells",
                         9810 * h * T * T <= 6000000 * X * X and walk.number != 0,
                         f"{ending(walk)}, grown to {max(sizes, default=1):.1f}")
    report.say("and so do these smooth humps, 5 % of the depth, half width 20 cells, N 64:")
    for h, X, T in ((2000, 200, 99), (1000, 100, 78), (250, 50, 78), (500, 20, 22)):
        walk = Channel(drive, X, T, h, hump(64, 50 * h, 20)).walk(STEPS, 0)
        report.say(f"  h {h}, X {X}, T {T}, Courant number {courant(h, X, T):.3f}: {ending(walk)}, {walk.mean():.2f} corrections a step")
    chart = Chart("Standing waves of 8 cells, depth 200 mm, X 100 mm", "step",
                  "size of the waves over their size at the start", (0, STEPS), (0.5, 50), log_y=True)
    report.say("the picture growth.svg: h 200, X 100, waves of 8 cells")
    for i, T in enumerate((25, 47, 61, 70, 84)):
        walk, sizes = short_waves(drive, 200, 100, T, 8)
        crest = [(10 * (n + 1), max(sizes[max(0, n - 5):n + 6])) for n in range(len(sizes))]
        chart.line(crest, f"T {T} ms (Courant {courant(200, 100, T):.2f})", i)
        if walk.number:
            chart.marks([(walk.done, max(sizes[-5:]))], None, i, "cross")
        report.say(f"  T {T} ms, Courant number {courant(200, 100, T):.2f}: {ending(walk)}, {walk.mean():.2f} corrections "
                   f"a step, grown to {max(sizes):.2f}")
    chart.marks([], "refused", 7, "cross")
    chart.save(f"{out}/growth.svg")
    chart = Chart("Longest safe time step, as a Courant number", "depth over cell width", "Courant number √(gh) T / X",
                  (0.2, 10), (0, 2.6), log_x=True)
    chart.line([(0.2, BOUND), (10, BOUND)], "2.449: refused above (26), which does not protect", 6, "8 4")
    chart.line(safe[16], "waves of 16 cells: safe below", 2)
    chart.marks(safe[16], None, 2)
    chart.line(safe[8], "waves of 8 cells: safe below", 0)
    chart.marks(safe[8], None, 0)
    chart.line([(0.2, ADVISED), (10, ADVISED)], "0.35: our advice", 1, thick=2.6)
    chart.save(f"{out}/safe-step.svg")


def roughness(row):
    """Size of what is only a few cells long: the fourth difference over 16, which is the height of waves of 2 cells."""
    return size([(a - 4 * b + 6 * c - 4 * d + e) / 16 for a, b, c, d, e in zip(row, row[1:], row[2:], row[3:], row[4:])])


def hump(N, height, half_width):
    return whole(height * math.exp(-((j - N / 2 + 0.5) / half_width) ** 2) for j in range(N))


def noise(drive, report, out):
    report.head("Limit 2: low waves in deep water with narrow cells")
    report.say("a hump let go, half width 1.5 depths but 6 to 32 cells, 600 steps, N 128: roughness in µm after them, or the refusal")
    lines, refused, kept = {}, [], True
    for depth in (500, 2000, 10000):
        for ratio in (2.5, 5, 10, 16, 25, 40):
            X = round(depth / ratio)
            said = []
            for number in (ADVISED, 0.9):
                T = step_for(depth, X, number)
                for height in (300, 1000, 3000, 10000, 30000):
                    walk = Channel(drive, X, T, depth, hump(128, height, min(32, max(6, 1.5 * ratio)))).walk(600, 200)
                    rough = roughness(walk.rows[-1]) if walk.rows else float("nan")
                    said.append(f"{rough:.1f}" if walk.number == 0 else f"({walk.number}) at {walk.done + 1}")
                    if height == 1000:
                        if walk.number == 0:
                            lines.setdefault((depth, number), []).append((ratio, max(rough, 0.1)))
                        else:
                            refused.append((ratio, {500: 0, 2000: 1, 10000: 2}[depth], number))
                    if ratio <= 10 and number == ADVISED:
                        kept = kept and walk.number == 0
                said.append("|")
            report.say(f"  h {depth:>5}, X {X:>4}, depth over width {ratio:>4}: Courant {ADVISED}: 0.3, 1, 3, 10, 30 mm: "
                       + " ".join(said[:5]) + "; Courant 0.9: " + " ".join(said[6:11]))
    report.exact(f"up to 10 and at a Courant number of {ADVISED} nothing is refused", kept)
    report.say(f"two channels far beyond 10, {STEPS} steps, every height tried:")
    for h, X, T in ((500, 20, 20), (20000, 100, 5)):
        ends = []
        for height in (300, 1000, 3000, 10000, 30000, 100000):
            start = hump(128, height, 32)
            channel = Channel(drive, X, T, h, start)
            walk = channel.walk(STEPS, 0)
            stood = ", and no height changed" if channel.look()[0] == start else ""
            ends.append(walk.number)
            report.say(f"  h {h}, X {X}, T {T}, Courant number {courant(h, X, T):.2f}, hump of {height / 1000:g} mm: "
                       f"{ending(walk)}, {walk.mean():.2f} corrections a step{stood}")
        report.exact(f"  h {h}, X {X}, T {T}: some of them end in refusal 10", 10 in ends, f"{ends.count(10)} of {len(ends)}")
    chart = Chart("A hump of 1 mm after 600 steps, Courant number 0.9", "depth over cell width",
                  "roughness of the water, µm", (2.5, 40), (0.3, 1000), log_x=True, log_y=True)
    for i, depth in enumerate((500, 2000, 10000)):
        points = lines.get((depth, 0.9), [])
        chart.line(points, f"depth {depth / 1000:g} m", i)
        chart.marks(points, None, i)
    for ratio, i, number in refused:
        if number == 0.9:
            chart.marks([(ratio, (270, 400, 600)[i])], None, i, "cross")
    chart.line([(2.5, 0.4), (40, 0.4 * 256)], "square of depth over width", 7, "3 4", 1.2)
    chart.marks([], "refused (10), at the top", 7, "cross")
    chart.save(f"{out}/noise.svg")


def swings(drive, N, X, h, T, height, seconds):
    """Share of the first standing wave in the channel, over its start, as time goes on."""
    shape = mode(N, 1)
    start = whole(height * v for v in shape)
    every = max(1, 50 // T)
    walk = Channel(drive, X, T, h, start).walk(int(1000 * seconds / T), every)
    return [(every * (n + 1) * T / 1000, part(row, shape) / part(start, shape)) for n, row in enumerate(walk.rows)]


def still(drive, report, out):
    report.head("Limit 3: waves too low to move a µm stand still")
    N, X, h = 16, 1000, 1000
    k = math.pi / (N * X / 1000)
    own = TURN / theory.on_grid(k, h / 1000, X / 1000)
    report.say(f"N {N}, X {X}, h {h}, first standing wave, period {own:.3f} s: the highest that has not turned over after a")
    report.say("whole period, found by halving; beside it the height whose slope gives half a µm/s in a step, 500 / (T g k)")
    for T in (1, 2, 5, 10, 20, 50, 100):
        low, high = 0, 2000
        while high - low > 1:
            middle = (low + high) // 2
            if min(v for _, v in swings(drive, N, X, h, T, middle, own)) > 0:
                low = middle
            else:
                high = middle
        report.say(f"  T {T:>3} ms: {low:>4} µm; {500 / (T * theory.G * k):>4.0f} µm")
    report.say("periods of a wave of 2,000 µm, over the true one:")
    for T in (1, 10, 100):
        series = [1.0] + [v for _, v in swings(drive, N, X, h, T, 2000, 6.2 * own)]
        every = max(1, 50 // T) * T / 1000
        angle, _ = turning(series, TURN * every / own)
        report.row(f"  T {T} ms", TURN * every / angle / own, 1, "", 0.005, False)
    chart = Chart("First standing wave, 200 µm high, in 16 cells of 1 m, 1 m deep", "time, s",
                  "height at the wall over its start", (0, 20.5), (-1.2, 1.4))
    for i, (T, dash) in enumerate(((1, ""), (10, ""), (100, "6 4"))):
        chart.line(swings(drive, N, X, h, T, 200, 2 * own), f"T {T} ms", i, dash)
    chart.save(f"{out}/still.svg")


def let_go(drive, X, T, h, start, accepted, steps):
    """Water let go at rest: its heights after each step, and the corrections that each took."""
    channel, rows, corrections = Channel(drive, X, T, h, start, accepted=accepted), [], []
    for _ in range(steps):
        walk = channel.walk(1, 1)
        rows += walk.rows
        corrections.append(walk.most())
    return rows, corrections


def falls(drive, X, T, h, height, half_width, accepted, steps):
    """How far the middle of a hump falls from rest, after each step, over how far it should: measured, and by the weights. Each
    is the mean of a hump and a hollow, so that it does not count that the water is deeper below a crest. And the hump's
    corrections."""
    N, cell, sums = 64, 32, [[0.0] * steps for _ in range(3)]
    turns = [theory.on_grid(math.pi * m / (N * X / 1000), h / 1000, X / 1000) * T / 1000 if m else 0 for m in range(N)]
    at = [math.cos(math.pi * m * (cell + 0.5) / N) for m in range(N)]
    for up in (-height, height):
        start = hump(N, up, half_width)
        rows, corrections = let_go(drive, X, T, h, start, accepted, steps)
        parts = [(sum(start) / N if m == 0 else part(start, mode(N, m))) * at[m] for m in range(N)]
        stepped = [theory.first_steps(turn, corrections, accepted) for turn in turns]
        for n in range(steps):
            sums[0][n] += (start[cell] - rows[n][cell]) / up
            sums[1][n] += sum(a * (1 - y[n].real) for a, y in zip(parts, stepped)) / up
            sums[2][n] += sum(a * (1 - math.cos(turn * (n + 1))) for a, turn in zip(parts, turns)) / up
    return ([a / c for a, c in zip(sums[0], sums[2])], [b / c for b, c in zip(sums[1], sums[2])], corrections)


def stays(drive, X, T, h, heights, accepted):
    """What stays of the first steps in standing wave 15 of 64 cells: its height over the start's and how late it is in time
    steps, against one that turned from the start as it does later. The mean of waves of these heights, and the same by the
    weights; and the most corrections that each of the first four steps took."""
    shape, seen, due, skipped, most = mode(64, 15), 0, 0, 20, [0] * 4
    angle, own, factor = turning_15(X, T, h)
    for height in heights:
        start = whole(height * v for v in shape)
        rows, corrections = let_go(drive, X, T, h, start, accepted, 200)
        swings = [part(row, shape) / part(start, shape) / factor ** (n + 1) for n, row in enumerate(rows)]
        seen += swing(swings[skipped:], own, skipped + 1) / len(heights)
        due += theory.kept(angle, corrections[:skipped], accepted).conjugate() / len(heights)
        most = [max(pair) for pair in zip(most, corrections)]
    return [(abs(z), cmath.phase(z) / own) for z in (seen, due)], most


def turning_15(X, T, h):
    """Standing wave 15 of 64 cells: its angle a step exact in time, as stepped with one correction, and that step's factor."""
    k = math.pi * 15 / (64 * X / 1000)
    own, factor = theory.stepped(k, h / 1000, X / 1000, T / 1000, 1)
    return theory.on_grid(k, h / 1000, X / 1000) * T / 1000, own * T / 1000, factor


def swing(series, angle, first):
    """The a cos + b sin nearest to a series that turns by that angle from one number to the next, the first of them turned
    by so many: a + ib."""
    wave = [(math.cos(angle * n), math.sin(angle * n)) for n in range(first, first + len(series))]
    cc, cs, ss = (sum(w[i] * w[j] for w in wave) for i, j in ((0, 0), (0, 1), (1, 1)))
    c, s = (sum(v * w[i] for v, w in zip(series, wave)) for i in (0, 1))
    return complex(c * ss - s * cs, s * cc - c * cs) / (cc * ss - cs * cs)


def first_steps(drive, report, out):
    report.head("Limit 4: the first two steps")
    report.say("before: the later weights from the first step on, which a file takes that says 2 accepted steps at its start")
    ways, shown, lines = ((ONCE, "before"), (0, "now")), (1, 2, 3, 4, 10), {}
    for accepted, label in ways:
        report.say(f"{label}: under a steady pull, how far it has fallen over what it should, by the weights of steps 1 to 4: "
                   + ", ".join(str(theory.steady_pull(n, accepted)) for n in shown[:4]))
    for h, X, T, height in ((20000, 2000, 100, 200), (1000, 500, 55, 50)):
        report.say(f"a hump of {height} mm let go at rest, N 64, X {X}, h {h}, T {T}, Courant number "
                   f"{courant(h, X, T):.2f}: how far its middle has")
        report.say("fallen, over the same cells exact in time; beside it what the weights make of it")
        for accepted, label in ways:
            seen, due, corrections = falls(drive, X, T, h, 1000 * height, 3, accepted, 12)
            for n in shown:
                report.row(f"{label}, step {n}: fallen over true", seen[n - 1], due[n - 1], "", 0.002, False)
            report.say("  late by " + ", ".join(f"{n - n * math.sqrt(seen[n - 1]):.3f}" for n in shown)
                       + " of a time step after steps 1, 2, 3, 4 and 10; corrections " + " ".join(map(str, corrections[:4])))
            if h == 20000:
                lines[label] = list(enumerate(seen, 1))
    for h, X, T, heights in ((5000, 2000, 100, range(4000, 6001, 250)), (1000, 500, 55, range(800, 1201, 25))):
        angle, _, _ = turning_15(X, T, h)
        report.say(f"afterwards, standing waves of {heights[0] / 1000:g} to {heights[-1] / 1000:g} mm, N 64, X {X}, h {h}, T {T}, "
                   f"mode 15: {TURN / angle:.1f} steps a")
        report.say(f"period, the square of the angle a step over 12 is {angle ** 2 / 12:.5f}")
        for accepted, label in ways:
            (seen, due), most = stays(drive, X, T, h, heights, accepted)
            report.row(f"{label}: its height over that of the start", seen[0], due[0], "", 0.0002, False)
            report.row("  how late its phase is, in time steps", seen[1], due[1], "", 0.001, False)
            report.exact("  most corrections of steps 1 to 4", most == [3, 2 if accepted == 0 else 3, 1, 1],
                         " ".join(map(str, most)))
    chart = Chart("A hump let go at rest: how far it has fallen in the first steps", "step",
                  "fallen over what it should have", (0, 12), (0.7, 1.05))
    chart.line([(0, 1), (12, 1)], "exact in time", 7, "2 4", 1.2)
    for colour, label, said in ((1, "before", "before: the later weights from step 1 on"),
                                (0, "now", "now: weights of their own in steps 1 and 2")):
        chart.line(lines[label], said, colour)
        chart.marks(lines[label], None, colour)
    chart.save(f"{out}/first-steps.svg")


HIGHER = ((0.02, 0.01), (0.05, 0.02), (0.1, 0.03), (0.2, 0.04))  # shares of the depth and of the length


def wide_cells(drive, report, out):
    report.head("Limit 5: high waves on wide cells, and what filter passes do for them")
    X, kept = 100, True
    report.say(f"standing waves, {STEPS} steps, X {X}, N 64, Courant number at most {ADVISED}; their height over the depth (and")
    report.say("the most over their length): no filter | a pass every 100 steps | a pass every 20 steps, each with how large")
    report.say("they grew, or the refusal and its step")
    for ratio in (0.2, 0.5, 1, 2, 4, 10):
        h = int(ratio * X)
        T = step_for(h, X, ADVISED)
        for cells in (8, 16):
            said = []
            for of_depth, of_length in HIGHER:
                each = []
                for every in (0, 100, 20):
                    walk, sizes = short_waves(drive, h, X, T, cells, every, of_depth, of_length)
                    each.append(f"{max(sizes):.2f}" if walk.number == 0 else f"({walk.number}) at {walk.done + 1}")
                    if ratio >= 2 or every == 20:
                        kept = kept and walk.number == 0 and max(sizes) <= GROWN
                said.append(f"{of_depth:g} ({of_length:g}): " + " | ".join(each))
            report.say(f"  depth over width {ratio:>3}, T {T:>2}, waves of {cells:>2} cells")
            for line in said:
                report.say(f"    {line}")
    report.exact("safe: depth over width 2 or more, or a pass every 20 steps", kept)
    chart = Chart("Waves of 16 cells, 10 % of the depth high, h 20, X 100, T 79", "step",
                  "size of the waves over their size at the start", (0, STEPS), (0.4, 3))
    for i, every in enumerate((0, 100, 20)):
        walk, sizes = short_waves(drive, 20, 100, 79, 16, every, 0.1, 0.03)
        chart.line([(10 * (n + 1), max(sizes[max(0, n - 5):n + 6])) for n in range(len(sizes))],
                   passes(every), i)
        if walk.number:
            chart.marks([(walk.done, max(sizes[-5:]))], "refused", i, "cross")
    chart.save(f"{out}/wide-cells.svg")
    report.say("what a filter pass every 20 steps leaves in 1,500 steps of waves of 6, 8, 10, 16 cells: "
               + ", ".join(f"{theory.filter_factor(c) ** (STEPS // 20):.4f}" for c in (6, 8, 10, 16)))
    report.say("waves of 4 cells (h 50, X 100, T 34, Courant number 0.24):")
    for every in (0, 100, 20):
        walk, sizes = short_waves(drive, 50, 100, 34, 4, every)
        report.say(f"  {passes(every)}: {ending(walk)}, at the end {sizes[-1]:.2f}")
    report.say("a hump of 0.2 m in 0.5 m of water (N 100, X 100, T 20), 6,000 steps:")
    for every in (0, 100):
        start = whole(200000 * math.exp(-0.4 * ((j + 0.5) / 10 - 5) ** 2) for j in range(100))
        walk = Channel(drive, 100, 20, 500, start).walk(6000, 3000, every)
        last = walk.rows[-1]
        report.say(f"  {passes(every)}: {ending(walk)}, roughness {roughness(last):.0f} µm, size {size(last) / 1000:.3f} mm")


def safe_table(drive, report, out):
    report.head("What to choose: widths and time steps, each run")
    report.say(f"T is the longest with a Courant number of {ADVISED}. Each row ran {LONG:,} steps from five starts, N 64, no filter:")
    report.say("humps of 5 % and of 0.2 % of the depth (half width 8 cells or 2 depths), standing waves of 8 and of 16 cells (2 %")
    report.say("of the depth, 1 % of their length at most), and standing waves of 16 cells of 20 % and 4 %. shortest: a wave of")
    report.say("16 cells. rough: of the low hump at its end. grown: the most that a standing wave had at any time; left: the")
    report.say("least that one had at the end; both over the start.")
    report.say("  depth m  width mm  step ms  depth/width  longest channel m  shortest m  its period s  rough µm  grown   left  refused")
    for h in (200, 500, 1000, 2000, 5000, 10000, 20000):
        for ratio in (10, 4, 2):
            X = h // ratio
            if X > 5000:
                continue
            T = step_for(h, X, ADVISED)
            most, left, rough, refused = 0, 1, 0, 0
            for share in (0.05, 0.002):
                walk = Channel(drive, X, T, h, hump(64, share * h * 1000, max(8, 2 * ratio))).walk(LONG, 50)
                refused += walk.number != 0
                rough = roughness(walk.rows[-1])
            for cells, shares in ((8, HIGHER[0]), (16, HIGHER[0]), (16, HIGHER[3])):
                walk, sizes = short_waves(drive, h, X, T, cells, 0, *shares, LONG)
                refused += walk.number != 0
                most, left = max(most, max(sizes)), min(left, max(sizes[-60:]))
            length = 16 * X / 1000
            report.count(refused == 0 and most <= GROWN)
            period = TURN / theory.airy(TURN / length, h / 1000)
            report.say(f"  {h / 1000:>7g} {X:>9} {T:>8} {ratio:>12} {256 * X / 1000:>18g} {length:>11g} {period:>13.2f} "
                       f"{rough:>9.1f} {most:>6.3f} {left:>6.3f}  {refused or 'none'}")


def group(x, middle, half_width, k, height):
    return height * math.cos(k * (x - middle)) * math.exp(-((x - middle) / half_width) ** 2)


def wash(drive, N, X, T, h, period, height, seconds, filter, damping=None):
    """A group of waves of that period sets off to the right at a third of the channel: the walk, its start, and the highest
    water at the far wall with its time."""
    depth = h / 1000
    k = 0.1
    for _ in range(100):
        k += (TURN / period - theory.nwogu(k, depth)) / (theory.nwogu(k + 1e-5, depth) - theory.nwogu(k, depth)) * 1e-5
    flow = TURN / period / (k * depth * (1 - theory.ALPHA1 * (k * depth) ** 2))
    places = [(j + 0.5) * X / 1000 for j in range(N)]
    length = N * X / 1000
    start = [group(x, length / 3, 12, k, height) for x in places]
    steps = int(1000 * seconds / T)
    channel = Channel(drive, X, T, h, whole(1e6 * v for v in start), whole(1e6 * v * flow for v in start), steps,
                      damping=damping)
    walk = channel.walk(steps, 1, filter)
    wall = [at_wall(row) / 1e6 for row in walk.rows]
    best = max(range(len(wall)), key=lambda n: wall[n])
    return walk, wall, wall[best], (best + 1) * T / 1000, k


def example(drive, report, out):
    h, period, height, seconds, length = 2000, 3.0, 0.15, 60, 100
    report.head("The worked example: a boat's wash of 3 s and 0.15 m on 2 m of water in a channel of 100 m")
    chart = Chart("The wash at the wall", "time, s", "height at the wall, m", (15, 60), (-0.3, 0.3))
    runs = ((500, 35, 100), (500, 17, 100), (400, 28, 100), (500, 35, 0), (800, 56, 100), (2000, 100, 100))
    tops = []
    for i, (X, T, filter) in enumerate(runs):
        N = 1000 * length // X
        walk, wall, top, when, k = wash(drive, N, X, T, h, period, height, seconds, filter)
        if i == 0:
            speed = (theory.nwogu(k + 1e-5, 2) - theory.nwogu(k, 2)) / 1e-5
            airy = airy_length(period, 2)
            most = 0.35 * X / math.sqrt(theory.G * h / 1000)
            way = length * 2 / 3
            report.say(f"  wave length by Airy {airy:.2f} m, a sixteenth of it {1000 * airy / 16:.0f} mm; in the channel "
                       f"{TURN / k:.2f} m")
            report.say(f"  0.35 X / √(gh) = {most:.1f} ms; T {T} ms: {1000 * period / T:.0f} steps a period, waves below "
                       f"{500 / (T * theory.G * k):.1f} µm would stand still")
            report.say(f"  the group travels at {speed:.2f} m/s over {way:.1f} m: at the wall after {way / speed:.1f} s")
        tops.append(top)
        report.say(f"  N {N}, X {X}, T {T}, {passes(filter)} (depth over width {h / X:g}, Courant number "
                   f"{courant(h, X, T):.2f}, {TURN / k / X * 1000:.1f} cells a wave):")
        report.say(f"    {ending(walk)}, {walk.mean():.2f} corrections a step, highest at the wall {top:.4f} m after "
                   f"{when:.2f} s")
        if i < 3:
            series = [((n + 1) * T / 1000, v) for n, v in enumerate(wall) if (n + 1) * T >= 15000]
            chart.line(series[::max(1, 80 // T)], f"X {X} mm, T {T} ms", i, ("", "7 4", "2 3")[i], 1.6)
    report.row("half the time step: highest at the wall", tops[1], tops[0], "m", 0.02)
    report.row("narrower cells: highest at the wall", tops[2], tops[0], "m", 0.02)
    report.row("no filter: highest at the wall", tops[3], tops[0], "m", 0.02)
    chart.save(f"{out}/example.svg")


def airy_length(period, depth):
    k = 0.1
    for _ in range(100):
        k += (TURN / period - theory.airy(k, depth)) / (theory.airy(k + 1e-5, depth) - theory.airy(k, depth)) * 1e-5
    return TURN / k


ALL = (growth, noise, still, first_steps, wide_cells, safe_table, example)
