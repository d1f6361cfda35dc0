"""Records of the night log as desk lines and as bytes, from the words of 02, Req 01, and from nothing of the library."""
import random


def number(n):
    """Groups of seven bits, low group first, high bit set on all but the last."""
    groups = []
    while n >= 128:
        groups.append(n % 128 + 128)
        n //= 128
    return bytes(groups + [n])


def record(line):
    """The bytes of a desk line's record."""
    word, channel, time, *rest = line.split(' ')
    if word == 'tick':
        return number(int(time)) + number(int(channel)) + number(0) + number(9)
    identifier, form, digits = rest
    payload = bytes.fromhex(digits.replace('-', ''))
    part = 2 * int(identifier, 16) + (form == 'x')
    return number(int(time)) + number(int(channel)) + number(part) + number(len(payload)) + payload


def some_line(r):
    """A frame or a tick that the log holds, the bounds of each part often."""
    time = r.choice([0, 127, 128, 16383, 16384, 2**32 - 1, r.randrange(2**32), r.randrange(2000)])
    channel = r.choice([0, 31, r.randrange(32)])
    if r.random() < 0.3:
        return f'tick {channel} {time}'
    form = r.choice('xs')
    ids = 2**29 if form == 'x' else 2**11
    identifier = r.choice([0, ids - 1, r.randrange(ids), 0x6b000 % ids])
    payload = r.randbytes(r.randrange(9)).hex() or '-'
    return f'frame {channel} {time} {identifier:x} {form} {payload}'


def some_lines(seed, count):
    r = random.Random(seed)
    return [some_line(r) for _ in range(count)]
