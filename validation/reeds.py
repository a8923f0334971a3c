"""Damping, measured: what it takes off waves and currents, what reeds at an end send back, and what it does not do."""
import math

import theory
from channels import Channel, mode, part, size, turning, whole
from draw import Chart
from limits import ADVISED, GROWN, HIGHER, STEPS, ending, hump, passes, roughness, step_for, wash

TURN = 2 * math.pi
N, X, h, T = 256, 500, 2000, 35  # the channel that trains of waves are sent along
HEIGHT = 10000  # of a train, µm
TRAINS = ((20, 60), (40, 80), (80, 80))  # cells of a wave, and half width of its train in cells
WIDTHS = (10, 20, 40)  # of reeds, in cells
RAMPS = ("uniform", "linear", "quadratic")  # the power with which damping rises from the open water to the wall
NUMBERS = (300, 1000, 3000, 10000)  # the greatest damping, thousandths per second
BEST = (3, 8, 15)  # of each ramp: a good greatest damping, per second, times the period
NEAR = (0.02, 0.01, 0.005)  # how far a measured share of each ramp may be from theory, which takes a step as sharp


def ramp(cells, power, most):
    """Damping of that many cells of reeds, from the open water to the wall."""
    return whole(most * ((i + 1) / cells) ** power for i in range(cells))


def at_end(reeds, cells=N):
    return [0] * (cells - len(reeds)) + reeds


def number(cells):
    """Wave number in the channel of trains, per m, of a wave of so many cells."""
    return TURN / (cells * X / 1000)


def period(cells):
    return TURN / theory.nwogu(number(cells), h / 1000)


def greatest(power, cells):
    """The greatest damping that is good for waves of so many cells, and is allowed."""
    return min(10000, 1000 * BEST[power] / period(cells))


def decay(drive, report, full, out):
    report.head("Standing wave in reeds from wall to wall: N 64, X 500, h 2000, T 35",
                "Nwogu's linear equations with damping, on these cells and time steps")
    cells, steps, second = 64, 800, 1000 / T
    for m, damping in ((4, 10), (4, 30), (4, 100), (4, 300), (8, 300)) if full else ((4, 100), (8, 300)):
        shape = mode(cells, m)
        start = whole(20000 * v for v in shape)
        walk = Channel(drive, X, T, h, start, damping=[damping] * cells).walk(steps, 1)
        slow, _ = theory.damped(math.pi * m / (cells * X / 1000), h / 1000, X / 1000, damping / 1000)
        factor = theory.step_factor(abs(slow.imag) * T / 1000 - 1j * slow.real * T / 1000, 1)
        angle, growth = turning([part(row, shape) for row in [start] + walk.rows], abs(slow.imag) * T / 1000)
        report.row(f"damping {damping}, waves of {2 * cells // m} cells: left of the height after 60 s",
                   growth ** (60 * second), abs(factor) ** (60 * second), "", 0.005)
        report.row("  period", TURN * T / 1000 / angle, TURN * T / 1000 / math.atan2(factor.imag, factor.real), "s", 1e-4)
    shape = mode(cells, 4)
    walk = Channel(drive, X, T, h, whole(20000 * v for v in shape), damping=[10000] * cells).walk(250, 1)
    late = [part(row, shape) for row in walk.rows]
    slow, _ = theory.damped(math.pi * 4 / (cells * X / 1000), h / 1000, X / 1000, 10)
    report.row("damping 10000, waves of 32 cells do not swing: left in 7 s", late[-1] / late[49],
               math.exp(slow.real * 200 * T / 1000), "", 0.005)


def current(drive, report, full, out):
    report.head("A current far from both walls: N 128, X 1000, h 2000, T 35", "u' = -damping u")
    cells, steps, start = 128, 250, 100000
    for damping, filter in ((50, 0), (200, 0), (200, 10)):
        channel = Channel(drive, 1000, T, h, [0] * cells, [start] * cells, damping=[damping] * cells)
        channel.walk(steps, 0, filter)
        _, u, _ = channel.look()
        report.row(f"damping {damping}, {passes(filter)}: velocity left in {steps * T / 1000:g} s", u[cells // 2] / start,
                   math.exp(-damping * steps * T / 1e6), "", 5e-4)


def water(drive, report, full, out):
    report.head("Water in reeds, read from the file's bytes")
    cells = 64
    depths = [800 + 15 * j for j in range(cells)]
    reeds = [(j * j * 977 + 10000) % 10001 for j in range(cells)]
    start = whole(40000 * math.sin(j * j) for j in range(cells))
    channel = Channel(drive, 400, 25, depths, start, damping=reeds)
    owed, poured, steps = sum(start), 0, 0
    for i in range(40):
        amount = (-1) ** i * 700 * i + 333
        poured += channel.pour(i, amount) == 0
        owed += amount
        steps += channel.walk(25, 0, 3).done
    report.exact("after 40 pours, 1,000 steps and 320 filter passes: the sum",
                 channel.look()[2] == owed and poured == 40 and steps == 1000, f"{owed} µm")
    report.exact("a file checked again and run on gives the same bytes", channel.same() == 1)
    walk = Channel(drive, 400, 25, depths, [77] * cells, damping=reeds).walk(200, 200)
    report.exact("level water over a slope stays still, one correction a step",
                 walk.rows == [[77] * cells] and walk.corrections[0] == 200, "200 steps")


class Train:
    """A train of waves of so many cells, let go at rest at the left wall, so that it has one way to go, and back at that wall
    when it has been at the right one. out and back are the roots of the sums of the squared heights at the left wall, while
    it sets out and while it is back; out counts twice, for half of the train lies in the wall's mirror image. The heights are
    smoothed over five cells, so that waves of two or three cells do not count. rough is the roughness of the open water when
    the train is back."""

    def __init__(self, drive, cells, half_width, damping=None, filter=0):
        start = whole(HEIGHT * math.cos(TURN * (j + 0.5) / cells) * math.exp(-((j + 0.5) / half_width) ** 2) for j in range(N))
        there = 2000 * N * X / 1000 / theory.group_speed(number(cells), h / 1000) / T  # steps from wall to wall and back
        walk = Channel(drive, X, T, h, start, damping=damping).walk(int(1.3 * there), 4, filter)
        if walk.number:
            raise ValueError(ending(walk))
        wall = [(10 * row[0] + 5 * row[1] + row[2]) / 16 for row in [start] + walk.rows]
        half = int(there / 8)
        self.out = math.sqrt(wall[0] ** 2 + 2 * sum(v * v for v in wall[1:half]))
        self.back = math.sqrt(sum(v * v for v in wall[half:]))
        self.rough = roughness(walk.rows[-1][:N - max(WIDTHS)])


def due(cells, half_width, reeds):
    """The share that comes back from these reeds by theory."""
    return theory.train_back(number(cells), half_width * X / 1000, h / 1000, X / 1000, [v / 1000 for v in reeds])


def returned(drive, report, full, out):
    report.head(f"What comes back from reeds: N {N}, X {X}, h {h}, T {T}",
                "Nwogu's linear equations with damping, solved here another way")
    report.say(f"a train of waves, {HEIGHT / 1000:g} mm high, sets out at the left wall and comes back from reeds before the right one:")
    report.say("root of the sum of the squared heights at the left wall while it is back, over the same without reeds; and the")
    report.say("roughness of the open water then")
    few = ((20, 20, 1, 3000), (40, 10, 2, 300), (40, 40, 0, 3000), (40, 40, 1, 3000), (40, 40, 2, 3000), (40, 40, 0, 10000))
    every = [(cells, width, power, most) for cells, _ in TRAINS for width in WIDTHS for power in range(3) for most in NUMBERS]
    shares, rough = {}, {}
    for cells, half_width in TRAINS if full else TRAINS[:2]:
        bare = Train(drive, cells, half_width)
        report.say(f"waves of {cells} cells, {cells * X / 1000:g} m, {period(cells):.2f} s, half width of the train {half_width} cells; "
                   f"roughness without reeds {bare.rough:.0f} µm:")
        report.row("wall without reeds, over what set out", bare.back / bare.out, 1, "", 0.002, False)
        for wave, width, power, most in every if full else few:
            if wave == cells:
                reeds = ramp(width, power, most)
                train = Train(drive, cells, half_width, at_end(reeds))
                shares[wave, width, power, most] = train.back / bare.back
                rough[wave, width, power, most] = train.rough / bare.rough
                report.row(f"  {width} cells, {RAMPS[power]}, {most}; roughness {train.rough:.0f} µm", train.back / bare.back,
                           due(cells, half_width, reeds), "", NEAR[power], False)
    uniform, linear, quadratic = (shares[40, 40, power, 3000] for power in range(3))
    report.exact("as wide as the wave, to 3,000: quadratic reeds send back least", quadratic < linear < uniform,
                 f"{uniform:.3f}, {linear:.3f}, {quadratic:.3f}")
    report.exact("  and less than 4 %", quadratic < 0.04)
    step = shares[40, 40, 0, 10000]
    report.exact("a step to 10,000 sends back more than half", 0.5 < step < 1, f"{step:.3f}")
    report.exact("  and makes the water ten times as rough; a quadratic ramp does not",
                 rough[40, 40, 0, 10000] > 10 and rough[40, 40, 2, 3000] < 1.5)


def advised(drive, report, out):
    report.head("Reeds as advised: a quadratic ramp to 15,000 thousandths over the period in s")
    report.say("the share that comes back, by the width of the reeds in wave lengths")
    worst = {}
    for cells, half_width in TRAINS:
        bare = Train(drive, cells, half_width)
        for ratio in (0.25, 0.5, 0.75, 1, 1.5, 2):
            if ratio * cells > 80:
                continue
            reeds = ramp(round(ratio * cells), 2, greatest(2, cells))
            share = Train(drive, cells, half_width, at_end(reeds)).back / bare.back
            worst[ratio] = max(worst.get(ratio, 0), share)
            report.row(f"waves of {cells} cells: greatest {reeds[-1]}, {len(reeds)} cells, {ratio:g} wave lengths", share,
                       due(cells, half_width, reeds), "", 0.015, False)
    report.exact("half a wave length sends back less than 10 %, a whole one 5 %", worst[0.5] < 0.1 and worst[1] < 0.05,
                 f"{worst[0.5]:.4f}, {worst[1]:.4f}")
    report.say("chosen for waves of 40 cells (greatest 3127, 40 cells): the share of others")
    for cells, half_width in TRAINS:
        share = Train(drive, cells, half_width, at_end(ramp(40, 2, 3127))).back / Train(drive, cells, half_width).back
        report.row(f"  waves of {cells} cells", share, due(cells, half_width, ramp(40, 2, 3127)), "", NEAR[2], False)
    draw(drive, out)


def draw(drive, out):
    cells, half_width = TRAINS[0]
    bare = Train(drive, cells, half_width)
    chart = Chart(f"What comes back from reeds: waves of {cells} cells, {period(cells):.2f} s", "width of the reeds in wave lengths",
                  "share of the wave that comes back", (0, 2), (0.002, 1), log_y=True)
    chart.line([(0, 1), (2, 1)], "wall without reeds", 7, "2 4", 1.2)
    uniform, linear, quadratic = (greatest(power, cells) for power in range(3))
    for power, most, label, colour in ((0, 10000, "uniform, 10,000 thousandths per second", 6),
                                       (0, uniform, f"uniform, {uniform:,.0f} (3,000 / period)", 4),
                                       (1, linear, f"linear to {linear:,.0f} (8,000 / period)", 2),
                                       (2, quadratic, f"quadratic to {quadratic:,.0f} (15,000 / period)", 0)):
        chart.line([(0, 1)] + [(n / cells, due(cells, half_width, ramp(n, power, most))) for n in range(1, 2 * cells + 1)],
                   label, colour)
        chart.marks([(n / cells, Train(drive, cells, half_width, at_end(ramp(n, power, most))).back / bare.back)
                     for n in (2, 5, 10, 15, 20, 30, 40)], None, colour)
    chart.marks([], "measured; lines: linear theory", 7)
    chart.save(f"{out}/reeds.svg")


def everywhere(cells):
    """Dampings of a channel of so many cells that are as strong as may be."""
    return (("quadratic ramps at both ends", ramp(16, 2, 10000)[::-1] + [0] * (cells - 32) + ramp(16, 2, 10000)),
            ("10,000 in all cells", [10000] * cells),
            ("10,000 in the right half", at_end([10000] * (cells // 2), cells)),
            ("10,000 in one cell", [0] * 20 + [10000] + [0] * (cells - 21)),
            ("10,000 in every second cell", [0, 10000] * (cells // 2)),
            ("0 to 10,000 at random", [(j * j * 977 + 10000) % 10001 for j in range(cells)]))


def chosen():
    """Channels of the table of what to choose, each with four starts: depth, width, time step, heights."""
    for depth in (200, 500, 1000, 2000, 5000, 10000, 20000):
        for ratio in (10, 4, 2):
            width = depth // ratio
            if width > 5000:
                continue
            starts = [hump(64, 50 * depth, max(8, 2 * ratio))]
            for cells, (of_depth, of_length) in ((8, HIGHER[0]), (16, HIGHER[0]), (16, HIGHER[3])):
                height = 1000 * min(of_depth * depth, of_length * cells * width)
                starts.append(whole(height * v for v in mode(64, 128 // cells)))
            for start in starts:
                yield depth, width, step_for(depth, width, ADVISED), start


def first_step(drive, damping, velocity):
    """The first step of water that moves in reeds, T 100."""
    return Channel(drive, 5000, 100, 5000, [0] * 64, [velocity] * 64, damping=[damping] * 64).walk(1)


def strong(drive, report, out):
    report.head("Limit 7: strong damping")
    report.say("largest factor a step by the weights, by damping times time step, with 1, 2, 3 and 10 corrections:")
    for product in (0.1, 0.35, 0.5, 1.0, 1.5, 2.0, 3.0):
        report.say(f"  {product:.2f}: " + ", ".join(f"{theory.largest_factor(1j * product, k):.3f}" for k in (1, 2, 3, 10)))
    grows = [next(p / 100 for p in range(1, 400) if theory.largest_factor(1j * p / 100, k) > 1) for k in range(1, 11)]
    report.say("  it is above 1 from, with 1 to 10 corrections: " + ", ".join(f"{p:.2f}" for p in grows))
    report.exact("damping times time step is at most 1: nothing grows", min(grows) > 1, f"least {min(grows):.2f}")
    report.say("water that moves in reeds at the start, N 64, X 5000, h 5000, T 100: damping times time step, corrections of step 1")
    for velocity in (10000, 100000, 1000000):
        took = [(damping, first_step(drive, damping, velocity)) for damping in (1000, 3000, 5000, 7000, 9000, 10000)]
        low, high = 5000, 10000
        while high - low > 1:
            middle = (low + high) // 2
            low, high = (low, middle) if first_step(drive, middle, velocity).number else (middle, high)
        report.say(f"  {velocity / 1000:g} mm/s: " + ", ".join(f"{d / 10000:g}: {walk.most() or ending(walk)}" for d, walk in took)
                   + f"; settles up to {low / 10000:.3f}")
        report.exact("  settles up to 0.9, and does not at 1: refusal 10", low >= 9000 and took[-1][1].number == 10)
    report.say("a current of 1 mm/s far from both walls, N 128, X 5000, h 2000, after 30 s; beside it 500,000 / (T damping)")
    for step, damping in ((100, 300), (35, 1000), (10, 1000), (10, 10000)):
        channel = Channel(drive, 5000, step, 2000, [0] * 128, [1000] * 128, damping=[damping] * 128)
        channel.walk(30000 // step)
        left = channel.look()[1][64]
        report.exact(f"  T {step}, damping {damping}: {left} µm/s left; {500000 / (step * damping):.0f} µm/s",
                     abs(left - 500000 / (step * damping)) <= 1)
    report.say(f"channels of 'What to choose' with reeds, {STEPS} steps from four starts; grown: the most that the heights' size had;")
    report.say("and the most corrections of a step")
    for name, damping in everywhere(64):
        refused, grown, runs, took = 0, 0, 0, 0
        for depth, width, step, start in chosen():
            walk = Channel(drive, width, step, depth, start, damping=damping).walk(STEPS, 10)
            runs, refused, took = runs + 1, refused + (walk.number != 0), max(took, walk.most())
            grown = max([grown] + [size(row) / size(start) for row in walk.rows])
        report.exact(f"  {name}", refused == 0 and grown <= GROWN,
                     f"{runs} runs, {refused} refused, grown to {grown:.3f}, {took} corrections")
    report.say("a step to 10,000 in the last 40 cells, waves of 20 cells: the share that comes back, and the roughness")
    for every in (0, 20):
        bare, train = (Train(drive, *TRAINS[0], damping, every) for damping in (None, at_end([10000] * 40)))
        report.say(f"  {passes(every)}: {train.back / bare.back:.3f}, {train.rough:.1f} µm; without reeds {bare.rough:.1f} µm")
    report.say("standing waves of 16 cells at the bound of the time step, without damping and with 10,000 in all cells:")
    for depth, width, step in ((40, 20, 78), (250, 50, 78), (1000, 100, 78), (500, 20, 22)):
        start = whole(1000 * min(0.02 * depth, 0.16 * width) * v for v in mode(64, 8))
        walks = [Channel(drive, width, step, depth, start, damping=[most] * 64).walk(STEPS) for most in (0, 10000)]
        report.say(f"  h {depth}, X {width}, T {step}: " + "; ".join(map(ending, walks)))


def worked(drive, report, out):
    report.head("The worked example with reeds: the same wash, seen 60 m along the channel")
    cells, cell, late = 200, 120, int(27000 / T)
    reeds = ramp(23, 2, 5000)
    both = [max(pair) for pair in zip(at_end(reeds, cells), at_end(reeds, cells)[::-1])]
    tops = []
    for label, damping in (("no reeds", None), ("23 cells of reeds to 5,000 at the right wall", at_end(reeds, cells)),
                           ("the same at both walls", both),
                           ("uniform reeds of 10,000 in the last 23 cells", at_end([10000] * 23, cells))):
        walk, *_ = wash(drive, cells, X, T, h, 3.0, 0.15, 60, 100, damping)
        seen = [row[cell] / 1e6 for row in walk.rows]
        tops.append(max(seen[late:]))
        report.say(f"  {label}: {ending(walk)}, {walk.mean():.2f} corrections a step, highest {max(seen[:late]):.4f} m as it passes, "
                   f"{tops[-1]:.4f} m after {late * T / 1000:.0f} s ({tops[-1] / tops[0]:.3f})")
    report.exact("reeds at both walls leave less than 5 % of what came back", tops[2] < 0.05 * tops[0])


ALL = (decay, current, water, returned)
LIMITS = (advised, strong, worked)
