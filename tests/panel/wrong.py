"""That the comparison with the desk can fail: each number of a card is changed by itself, and has to be found."""
import copy
import re
import unittest

import recorded
import seen
from browser import Browser
from depot import ROOT, Panel, desk, shown, steps
from found import POSTS, answers, found

# `heard` and its mark have the wall clock in them: dead.py has them
ELSEWHERE = {'heard', 'state', 'session_state', 'number'}


def leaves(value, path=()):
    """The way to each text, number and mark of a card."""
    if isinstance(value, dict | list):
        pairs = value.items() if isinstance(value, dict) else enumerate(value)
        for key, each in pairs:
            yield from leaves(each, (*path, key))
    else:
        yield path


def changed(card, path):
    """A copy with one thing changed."""
    card = copy.deepcopy(card)
    *way, last = path
    place = card
    for key in way:
        place = place[key]
    old = place[last]
    if old is None:
        place[last] = ['a finding', []]
    elif isinstance(old, bool):
        place[last] = not old
    elif isinstance(old, int):
        place[last] = old + 1
    else:
        # the last digit, or a letter more where a name stands
        place[last] = re.sub(r'\d(?=\D*$)', lambda digit: str((int(digit[0]) + 1) % 10), old) if re.search(r'\d', old) else old + 'x'
    return card


class Wrong(unittest.TestCase):
    def test_each_number(self):
        count = 0
        for night in ('faults', 'safety'):
            posts, log = ROOT / f'nights/{night}.posts', ROOT / f'nights/{night}.log'
            lines = [*steps(posts), *shown(log)]
            records = desk([*lines, *(f'record {post}' for post in range(POSTS))])[len(lines):]
            told = found(answers(posts, log), shown(log))
            with Panel(posts, log) as panel, Browser() as browser:
                cards = seen.cards(seen.opened(browser, panel))
            for card, record, each in zip(cards, records, told, strict=True):
                recorded.held(self, card, record, each)
                if record == 'R14':
                    continue
                for path in leaves({name: part for name, part in card.items() if name not in ELSEWHERE}):
                    count += 1
                    with self.subTest(path=path), self.assertRaises(AssertionError):
                        recorded.held(self, changed(card, path), record, each)
        self.assertGreater(count, 300)
        print(f'panel: {count} things that stand on cards, each found where it is wrong')
