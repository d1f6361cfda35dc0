"""The value axis of a curve."""
import math


class Axis:
    """Values from low to high, drawn from bottom up; `bend` makes the scale that of a root, so that small values are told apart."""

    def __init__(self, low, high, ticks, bottom, height, bend=False):
        self.low, self.high, self.ticks, self.bottom, self.height, self.bend = low, high, ticks, bottom, height, bend

    def y(self, value):
        share = (value - self.low) / (self.high - self.low)
        return self.bottom - self.height * (math.sqrt(share) if self.bend else share)


def whole_steps(low, high, bottom, height, most=5):
    """From the whole step at or below low and 0 to the one at or above high and 0, at most so many steps."""
    low, high = min(low, 0), max(high, 0)
    sizes = (scale * factor for scale in (10 ** power for power in range(8)) for factor in (1, 2, 5))
    step = next(size for size in sizes if math.ceil(high / size) - math.floor(low / size) <= most)
    first, last = math.floor(low / step), max(math.ceil(high / step), math.floor(low / step) + 1)
    return Axis(first * step, last * step, [n * step for n in range(first, last + 1)], bottom, height)
