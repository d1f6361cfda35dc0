"""A post's readings as curves: thinned to what a screen can show, with every peak and dip kept, and broken where the power modules slept."""
from typing import NamedTuple

# a bucket of the drawing's width keeps its lowest and its highest value
BUCKET = 3
# readings that are kept of a post, and of a bucket of its time: the first, the last, and the lowest and highest of three values
MOST, OUTERMOST = 16384, 8


class Reading(NamedTuple):
    """An accepted Power_Modules_Status: volts and amperes are whole tenths."""
    time: int
    volt: int
    amps: int
    kohm: int


class Readings:
    """Readings in the order of their times. Where there are too many, those of a bucket of time that are neither its first, its last nor the lowest or
    highest of a value go, so that at most half are left. Nobody knows the night's length before its end: a bucket has less than a 512th of the time so
    far, which is under two units of a drawing."""

    def __init__(self, most=MOST):
        self.kept, self.most, self.width = [], most, 1

    def add(self, reading):
        self.kept.append(reading)
        if len(self.kept) > self.most:
            self.thin()

    def thin(self):
        begin, end = self.kept[0][0], self.kept[-1][0]
        while end // self.width - begin // self.width >= self.most // (2 * OUTERMOST):
            self.width *= 2
        self.kept = [reading for bucket in buckets(self.kept, lambda reading: reading[0] // self.width) for reading in outermost(bucket)]


def buckets(points, place):
    """Points in a row whose place is the same."""
    found, last = [], None
    for point in points:
        at = place(point)
        if at != last:
            found.append([])
            last = at
        found[-1].append(point)
    return found


def outermost(bucket):
    """The first, the last, and the lowest and highest of each value, in the order in which they came."""
    if len(bucket) < 3:
        return bucket
    kept = {0, len(bucket) - 1}
    for values in list(zip(*bucket))[1:]:
        kept |= {values.index(min(values)), values.index(max(values))}
    return [bucket[place] for place in sorted(kept)]


def runs(points, silence, scale):
    """Points (time, value) apart by more than the silence, and by enough to be seen, belong to different runs."""
    found = []
    for point in points:
        if found:
            before = found[-1][-1][0]
            if point[0] - before <= silence or scale.x(point[0]) - scale.x(before) < BUCKET:
                found[-1].append(point)
                continue
        found.append([point])
    return found


def thinned(run, scale):
    """The first and the last point, and between them each bucket's lowest and highest in the order in which they came."""
    kept = [point for bucket in buckets(run, lambda point: int(scale.x(point[0]) / BUCKET)) for point in extremes(bucket)]
    return without_flat([run[0], *kept, run[-1]])


def extremes(bucket):
    by_value = [min(bucket, key=lambda point: point[1]), max(bucket, key=lambda point: point[1])]
    return sorted(by_value, key=lambda point: point[0])


def without_flat(points):
    """Of points in a row with one value the first and the last."""
    return [point for place, point in enumerate(points)
            if place in (0, len(points) - 1) or not points[place - 1][1] == point[1] == points[place + 1][1]]
