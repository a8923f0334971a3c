"""Known answers of wave theory, in metres and seconds.

Equations and sections are those of Wei and Kirby, 'Simulation of water waves by Boussinesq models', Research Report
CACR-98-02, University of Delaware, 1998, unless another source is named."""
import cmath
import math
from fractions import Fraction

G = 9.81
LEVEL = -0.531  # the reference level over the depth
ALPHA = LEVEL * (LEVEL / 2 + 1)  # (B.3): -0.3900195
ALPHA1 = ALPHA + 1 / 3


def airy(k, h):
    """Angular frequency of a wave of number k in water of depth h, exact linear theory (5.15)."""
    return math.sqrt(G * k * math.tanh(k * h))


def boussinesq(k, h, alpha):
    """The same by Boussinesq equations with the coefficient alpha (5.18)."""
    kh2 = (k * h) ** 2
    return k * math.sqrt(G * h * (1 - (alpha + 1 / 3) * kh2) / (1 - alpha * kh2))


def nwogu(k, h):
    return boussinesq(k, h, ALPHA)


def peregrine(k, h):
    return boussinesq(k, h, -1 / 3)


def long_wave(k, h):
    return k * math.sqrt(G * h)


def on_grid(k, h, x):
    """The same by Nwogu's equations with space differences over cells of width x, exact in time: (3.60) to (3.63)."""
    t = k * x
    slope = math.sin(t) * (4 - math.cos(t)) / 3 / x
    bend = 4 * math.sin(t / 2) ** 2 / x ** 2
    third = math.sin(t) / x * bend
    flux = h * slope - ALPHA1 * h ** 3 * third
    return math.sqrt(G * slope * flux / (1 - ALPHA * h ** 2 * bend))


def damped(k, h, x, damping):
    """The two rates, per second, at which a wave of number k changes in water of depth h that is damped everywhere by so much
    per second: y' = rate y. On cells of width x, exact in time."""
    half = damping / 2 / (1 - ALPHA * h ** 2 * 4 * math.sin(k * x / 2) ** 2 / x ** 2)
    root = cmath.sqrt(half ** 2 - on_grid(k, h, x) ** 2)
    return -half + root, -half - root


# Time weights of a channel's first step, of its second and, by (3.56) and (3.69), of every later one: the prediction's in parts of
# 12, the corrections' in parts of 24, the trial's first.
LADDER = (((12, 0, 0), (12, 12, 0, 0)), ((18, -6, 0), (10, 16, -2, 0)), ((23, -16, 5), (9, 19, -5, 1)))
LATER = len(LADDER) - 1


def step_weights(z, corrections, accepted=LATER):
    """A step of y' = z y (time step 1) is y' = c0 y + c1 y(-1) + c2 y(-2): c0, c1, c2, after so many accepted steps."""
    predicted, (trial, *corrected) = LADDER[min(accepted, LATER)]
    c = [w * z / 12 for w in predicted]
    c[0] += 1
    for _ in range(corrections):
        c = [w * z / 24 + trial * z / 24 * v for w, v in zip(corrected, c)]
        c[0] += 1
    return c


def first_steps(angle, corrections, accepted=0):
    """A wave that should turn by angle in a step and whose past is filled with its start, 1, after each of the steps that take
    these corrections, from so many accepted steps on. What is let go at rest is the real part."""
    y = [1, 1, 1]
    for n, number in enumerate(corrections):
        y.append(sum(c * v for c, v in zip(step_weights(1j * angle, number, accepted + n), y[:-4:-1])))
    return y[3:]


def kept(angle, corrections, accepted=0):
    """What is left of the first steps in a wave that goes on with one correction a step: what it is multiplied by for good."""
    y, own = [1, 1, 1] + first_steps(angle, corrections, accepted), step_factor(angle, 1)
    c0, _, c2 = step_weights(1j * angle, 1)
    others, product = c0 - own, c2 / own  # the sum and the product of the two factors that die away
    return (y[-1] - others * y[-2] + product * y[-3]) / (own ** 2 - others * own + product) / own ** (len(corrections) - 2)


def steady_pull(steps, accepted=0):
    """How far something falls from rest in so many steps under a steady pull, over how far it should."""
    fallen = sum(Fraction(w * max(0, n + 1 - level), 24)
                 for n in range(steps) for level, w in enumerate(LADDER[min(accepted + n, LATER)][1]))
    return 2 * fallen / steps ** 2


def step_factor(angle, corrections):
    """What one step multiplies a wave by that should turn by angle: the root that is nearest to exp(i angle)."""
    z = 1j * angle
    c0, c1, c2 = step_weights(z, corrections)
    y = cmath.exp(z)
    for _ in range(60):
        y -= (y ** 3 - c0 * y ** 2 - c1 * y - c2) / (3 * y ** 2 - 2 * c0 * y - c1)
    return y


def largest_factor(angle, corrections):
    """The largest size of the three factors of a step: above 1 something grows."""
    c0, c1, c2 = step_weights(1j * angle, corrections)
    roots = [1 + 0j, 0.4 + 0.9j, -0.65 + 0.72j]
    for _ in range(200):
        for i in range(3):
            y, others = roots[i], 1
            for j in range(3):
                if j != i:
                    others *= y - roots[j]
            roots[i] = y - (y ** 3 - c0 * y ** 2 - c1 * y - c2) / others
    return max(abs(y) for y in roots)


def stepped(k, h, x, t, corrections):
    """Angular frequency and growth factor a step of a wave as the scheme steps it, with that many corrections."""
    y = step_factor(on_grid(k, h, x) * t, corrections)
    return cmath.phase(y) / t, abs(y)


def fastest_on_grid(h, x):
    """The largest angular frequency that the cells can hold."""
    return max(on_grid(math.pi * i / 400 / x, h, x) for i in range(1, 400))


class Solitary:
    """Appendix A: the approximate solitary wave of height H in depth h, its speed C by (A.19)."""

    def __init__(self, H, h):
        d, a, b = H / h, ALPHA, ALPHA1
        q = 1 + d  # C² over gh, by Newton's rule
        for _ in range(60):
            f = 2 * a * q ** 3 - (3 * a + 1 / 3 + 2 * a * d) * q ** 2 + 2 * d * b * q + b
            q -= f / (6 * a * q ** 2 - 2 * (3 * a + 1 / 3 + 2 * a * d) * q + 2 * d * b)
        gh = G * h
        C2 = q * gh
        self.C = math.sqrt(C2)
        self.A = (C2 - gh) / self.C  # (A.22) to (A.25)
        self.B = math.sqrt((C2 - gh) / (4 * (b * gh * h ** 2 - a * h ** 2 * C2)))
        self.A1 = (C2 - gh) / (3 * (b * gh - a * C2)) * h
        self.A2 = -(C2 - gh) ** 2 / (2 * gh * C2) * (b * gh + 2 * a * C2) / (b * gh - a * C2) * h

    def height(self, x):
        s = 1 / math.cosh(self.B * x) ** 2
        return self.A1 * s + self.A2 * s * s

    def velocity(self, x):
        return self.A / math.cosh(self.B * x) ** 2


def group_speed(k, h):
    return (nwogu(k + 1e-5, h) - nwogu(k, h)) / 1e-5


def solve_five(mid, near, far, side):
    """The unknowns of a system of five diagonals, the outer ones of one number each."""
    n, mid, low, up, side = len(mid), mid[:], [near] * len(mid), [near] * len(mid), side[:]
    for i in range(n):
        if i + 1 < n:
            f = low[i + 1] / mid[i]
            mid[i + 1] -= f * up[i]
            up[i + 1] -= f * far
            side[i + 1] -= f * side[i]
        if i + 2 < n:
            f = far / mid[i]
            low[i + 2] -= f * up[i]
            mid[i + 2] -= f * far
            side[i + 2] -= f * side[i]
    found = [0j] * (n + 2)
    for i in range(n - 1, -1, -1):
        found[i] = (side[i] - up[i] * found[i + 1] - far * found[i + 2]) / mid[i]
    return found[:n]


def sent_back(k, h, x, dampings):
    """Share of a wave of number k that comes back, in depth h, from cells of width x with these dampings per second and a wall
    behind them: Nwogu's linear equations, solved here for a piston that swings for ever, by second differences on half cells,
    velocities at their ends. The waves of the two directions are told apart by the heights at two places of the open water."""
    open_cells, d, omega = int(2 * math.pi / k / x) + 40, x / 2, nwogu(k, h)
    cells = [0.0] * open_cells + dampings
    n = 2 * len(cells)
    own, flux, fall = ALPHA * (h / d) ** 2, ALPHA1 * (h / d) ** 2, G * h / d ** 2
    near, far = omega ** 2 * own + fall * (1 - 4 * flux), fall * flux
    mid = [omega ** 2 * (1 - 2 * own) + fall * (6 * flux - 2) + 0.5j * omega * (cells[(i - 1) // 2] + cells[i // 2])
           for i in range(1, n)]
    mid[0] -= far
    mid[-1] -= far
    u = [1] + solve_five(mid, near, far, [-near - 2 * far, -far] + [0] * (n - 3)) + [0]
    through = [u[i] + flux * (u[i - 1] - 2 * u[i] + u[i + 1]) for i in range(1, n)]
    apart = max(1, round(math.pi / 4 / (k * d)))  # half a quarter of a wave, in half cells
    left, right = (through[i + 1] - through[i] for i in (open_cells - apart, open_cells + apart))
    turn = cmath.exp(1j * k * d * apart)
    return abs((right / turn - left * turn) / (left / turn - right * turn))


def train_back(k, half_width, h, x, dampings):
    """The same for a train of waves of number k below a bell of that half width: root of the share of its energy."""
    back = whole = 0
    for i in range(-6, 7):
        one = k + i / 2 / half_width
        weight = math.exp(-i * i / 8) / group_speed(one, h)
        back, whole = back + weight * sent_back(one, h, x, dampings) ** 2, whole + weight
    return math.sqrt(back / whole)


def filter_factor(cells):
    """What a filter pass multiplies a wave of that many cells by (3.123)."""
    return 1 - math.sin(math.pi / cells) ** 8
