"""Time steps and cell widths by the Courant number: what the library allows, what the host advises, and what it says."""
import math

ALLOWED, ADVISED = 600000, 12250  # the squares of 2.449 and of 0.35, in hundred-thousandths


def root(above, below):
    """The least whole number whose square is at least above / below."""
    return math.isqrt(-(-above // below) - 1) + 1


def longest(width, depth, square):
    """The longest time step in ms, for cells of so many mm; it may be 0, or more than 100."""
    return math.isqrt(square * width * width // (981 * depth))


def narrowest(depth, step, square):
    """The narrowest cells in mm."""
    return root(981 * depth * step * step, square)


def hasty_mend(width, depth, step):
    """What is said after 'to mend: ' and a verb where the time step is longer than is allowed, in two lines."""
    advised = longest(width, depth, ADVISED)
    calm = f"advised is at most {min(advised, 100)} ms with cells of {width:,} mm" if advised else \
        f"advised are cells of at least {narrowest(depth, 1, ADVISED):,} mm, with 1 ms"
    return f"a time step of at most {longest(width, depth, ALLOWED)} ms, the longest that is allowed here, or cells of at " \
        f"least {narrowest(depth, step, ALLOWED):,} mm", \
        f"pathpetal: waves may still grow with what is allowed: {calm} (a Courant number of 0.35)"
