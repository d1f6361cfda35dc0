"""A night of as many records as are asked for: sixteen posts, a message each 100 ms. No program judged it: what is found and refused is laid down here."""
import random
import struct

from words import number

POSTS, STEP = 16, 100
# of posts: one whose controller is silent for a while, one with sessions of two seconds, one that hears identifiers that are not in the table
SILENT, SHORT, UNKNOWN = 3, 6, 7


def extended(identifier, payload):
    return number(2 * identifier + 1) + bytes([len(payload)]) + payload


def status(volt, amps, insulation):
    return extended(0x63000, struct.pack('<HhBBBB', volt, amps, 70, 60, 1, insulation))


OPENED, FINISHED, CONTROLLER = extended(0x6b001, b'\x02\x01'), extended(0x6b004, b'\x00'), extended(0x6b000, b'\x01')


class Many:
    """POSTS, and, behind `write`, what the page has to tell: findings, refusals and sessions, and of each post the one reading that is its highest."""

    def __init__(self, records, seed=1):
        self.records, self.random = records, random.Random(seed)
        self.posts = ''.join(f'setup {post} {post + 10} 5000 2000 500 5000\n' for post in range(POSTS))
        self.findings, self.sessions, self.refused, self.spikes = [], [0] * POSTS, 0, {}
        self.usual = [status(4000 + self.random.randrange(200), 1000 + self.random.randrange(300), self.random.randrange(200, 256)) for _ in range(500)]
        self.cycles = records // POSTS
        # a moment of each post that no other comes near to
        self.moments = {self.random.randrange(self.cycles // 10, self.cycles) // 3 * 3 + 1: post for post in range(POSTS)}

    def write(self, log, lines):
        """A cycle's records and lines at a time."""
        count = 0
        for cycle in range(self.cycles):
            time = cycle * STEP
            records, answers = [], []
            for post in range(POSTS):
                count += 1
                held, answer = self.message(cycle, post, count, time + post)
                records.append(number(time + post) + bytes([post + 10]) + held)
                answers.append(b'%d %d %s\n' % (count, post, answer))
            log.write(b''.join(records))
            lines.write(b''.join(answers))

    def message(self, cycle, post, count, time):
        late = 2 if post == SILENT and self.cycles // 4 < cycle < self.cycles // 2 else 0
        if post == UNKNOWN and cycle % 10 == 5:
            self.refused += 1
            return extended(0x70000 + cycle, b''), b'R3'
        if self.moments.get(cycle) == post:
            self.spikes[post] = time
            return self.found(status(60000 + post, 3000 + post, 255), post, count, time, late)
        phase = cycle % (20 if post == SHORT else 36000)
        if phase in (3, 18):
            self.sessions[post] += phase == 3
            return self.found(OPENED if phase == 3 else FINISHED, post, count, time, late)
        if cycle % 3 == 0:
            return self.found(CONTROLLER, post, count, time, late)
        if self.random.random() < 0.0003:
            return self.found(status(4000, 0, 10), post, count, time, late | 256)
        return self.found(self.usual[(cycle * 7 + post) % 500], post, count, time, late)

    def found(self, held, post, count, time, findings):
        if findings:
            self.findings += [(post, k, time, count) for k in (2, 9) if findings >> (k - 1) & 1]
        return held, b'A%d' % findings
