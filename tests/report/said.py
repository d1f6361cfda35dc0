"""Names of findings and words of refusals from the second program; of the papers' sentences that they hold what the nights quote."""
import sys

from second import ROOT, answers

# behind the tests' own modules
sys.path += [str(ROOT), str(ROOT / 'nights')]
from report import words
from says import SAYS, SAYS_02

FINDINGS, REFUSALS = range(1, 13), (1, 2, 3, 4, 5, 6, 15, 25, 29)
SENTENCES = {k: rule.sentence for k, rule in words.FINDINGS.items()}
# whose sentence it is
PAPERS = {k: '01' if f'F{k}' in SAYS else '02' for k in FINDINGS}


def names():
    """F<k> to its name."""
    given = answers(f'explain {1 << k - 1}' for k in FINDINGS)
    return {k: answer.removeprefix(f'E F{k} ') for k, answer in zip(FINDINGS, given, strict=True)}


def refusals(numbers=REFUSALS):
    given = answers(f'explain R{n}' for n in numbers)
    return {n: answer.removeprefix(f'E R{n} ') for n, answer in zip(numbers, given, strict=True)}


def quoted(k):
    """Whether the sentence has what the nights quote of 01 or 02, where `[...]` leaves something out."""
    at = 0
    for part in (SAYS if PAPERS[k] == '01' else SAYS_02)[f'F{k}'].split(' [...] '):
        at = SENTENCES[k].find(part, at)
        if at < 0:
            return False
        at += len(part)
    return True


def mended(k, older):
    """What 02 says of a finding where a post has the older interface."""
    return f' 02: {words.OLDER[k]}' if older and k in words.OLDER else ''
