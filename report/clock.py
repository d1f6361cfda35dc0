"""Times of the recorder's clock, ms, unrolled, in words and on an axis. The clock has 32 bits and comes round; unrolled times do not."""
ROUND = 2**32
STEPS = (1, 2, 5, 10, 20, 50, 100, 200, 500, *(1000 * s for s in (1, 2, 5, 10, 15, 30)), *(60000 * m for m in (1, 2, 5, 10, 15, 30)),
         *(3600000 * h for h in (1, 2, 3, 6, 12, 24, 48, 96, 192, 384)))


def later(latest, received):
    """Behind that latest time, as the watch counts it (02, Req 09)."""
    return latest + (received - latest) % ROUND


def near(now, received):
    """Of two clocks that show the same: less than half a round later, or else earlier."""
    return now + (received - now + ROUND // 2) % ROUND - ROUND // 2


def told(time):
    """As the clock showed it."""
    return f'{seconds(time)}.{time % ROUND % 1000:03}'


def seconds(time):
    time %= ROUND
    return f'{time // 3600000}:{time // 60000 % 60:02}:{time // 1000 % 60:02}'


def lasting(span):
    """A length of time: 340 ms, 11.470 s, 4 min 5 s, 8 h 20 min."""
    if span < 1000:
        return f'{span} ms'
    if span < 60000:
        return f'{span // 1000}.{span % 1000:03} s'
    if span < 3600000:
        return f'{span // 60000} min {span // 1000 % 60} s'
    return f'{span // 3600000} h {span // 60000 % 60} min'


def ticks(begin, end, most):
    """Whole steps of the clock between begin and end, at most so many, each with its words; none so close to a round that it would run into its 0. Where
    the steps would have to be longer than any, it is rounds that are told."""
    step = next((step for step in STEPS if (end - begin) // step < most), None)
    if step is None:
        every = -(-(end - begin) // (ROUND * most))
        return [(round * ROUND, f'round {round - begin // ROUND}') for round in range(-(-begin // ROUND), end // ROUND + 1) if round % every == 0]
    words = told if step < 1000 else seconds
    rounds = range(begin // ROUND * ROUND, end + 1, ROUND)
    return [(time, words(time)) for start in rounds for time in steps(start, step, begin, end)]


def steps(start, step, begin, end):
    """Of the round that starts there."""
    last = end if end < start + ROUND else start + ROUND - step
    first = start + max(0, -(-(begin - start) // step)) * step
    return range(first, last + 1, step)
