"""A post's times as its record has them, from the night's steps and answers alone."""

import re

from pages import FINISHED, NEW_SESSION, OLDER_FINISHED, OLDER_NEW_SESSION
from traffic import ROUND

KEPT = re.compile(r"([0-9a-f]+[xs]):[-0-9,]+@([0-9]+\+[0-9]+)")
SINCE = re.compile(r" since=(\S+) ")


class Times:
    """Unrolled: the latest, that of each kind's latest message, and that of the opening."""

    def __init__(self):
        self.latest, self.kinds, self.opened = None, {}, None

    def hear(self, received, kind=None):
        """02: "that many ms later"; the first stands as received."""
        self.latest = received if self.latest is None else self.latest + (received - self.latest) % ROUND
        if kind is not None:
            self.kinds[kind] = self.latest
        if kind in (f"{NEW_SESSION}x", f"{OLDER_NEW_SESSION}x") and self.opened is None:
            self.opened = self.latest
        if kind in (f"{FINISHED}x", f"{OLDER_FINISHED}x"):
            self.opened = None

    def kept(self, time):
        """02: "times as received and ages beside them, and an age stops growing at 4,294,967,295"."""
        return "-" if time is None else f"{time % ROUND}+{min(self.latest - time, ROUND - 1)}"

    def are_in(self, record):
        """A session's latest of a kind is the latest of all, so that each kind has one time in a record."""
        kinds = {(kind, self.kept(time)) for kind, time in self.kinds.items()}
        return SINCE.search(record)[1] == self.kept(self.opened) and set(KEPT.findall(record)) == kinds


def changed(record):
    """The record with one age another one."""
    for found in re.finditer(r"(?<=\+)[0-9]+", record):
        yield record[:found.start()] + str(int(found[0]) + 1) + record[found.end():]
