"""Random scripts of many sessions on threads, with regions, limits and units of all sizes. Most end so that the totals of the memory are told when nobody
streams or fills any more."""

import math
import random

from random_scripts import Maker

LARGEST = 1 << 26
LARGEST_UNIT = 1 << 20
GROUPS = [(1, 1), (2, 2), (3, 8), (9, 16), (17, 32), (33, 64)]
SHARES = [1, 5, 6, 4, 3, 2]


def group_of(sessions):
    """The group of a number of sessions, as it is told."""
    first, last = next(group for group in GROUPS if group[0] <= sessions <= group[1])
    return "%d" % first if first == last else "%d to %d" % (first, last)


def number_of_sessions(seed, fewest, most):
    pick = random.Random("sessions %d" % seed)
    groups = [(max(first, fewest), min(last, most), share) for (first, last), share in zip(GROUPS, SHARES)]
    groups = [group for group in groups if group[0] <= group[1]]
    first, last, _ = pick.choices(groups, [share for _, _, share in groups])[0]
    return pick.randint(first, last)


class Crowd(Maker):
    def __init__(self, seed, fewest, most):
        super().__init__(seed, number_of_sessions(seed, fewest, most))
        self.ending = self.one("empty", "empty", "empty", "told", "told", "open")

    def between(self, least, most):
        """A number whose length in digits is as likely as another's."""
        return min(most, max(least, int(math.exp(self.random.uniform(math.log(least), math.log(most + 1))))))

    def options(self):
        size, limit, unit, kind = super().options()
        if self.chance(0.5):
            size = self.between(1024, 131072) if self.chance(0.9) else self.between(131072, LARGEST)
            unit = min(LARGEST_UNIT, self.between(512, max(512, size // 6)) if self.chance(0.8) else self.between(512, LARGEST_UNIT))
        if self.chance(0.002):
            size = LARGEST
        if self.chance(0.3):
            limit = self.between(1, LARGEST)
        return size, limit, unit, kind

    def session(self, count):
        lines = [b"init d"] if self.chance(0.95) else []
        lines += [self.line() for _ in range(count)]
        if self.ending == "empty":
            lines.append(b"query RESET QUERY CACHE")
        if self.ending != "open":
            lines.append(b"query SHOW STATUS LIKE 'Qcache%'")
        return lines + self.one([], [], [], [b"quit"], [b"raw 0100"], [b"raw 05000000034142"], [b"raw 010000010e"], [b"raw ffffff00"], [b"quit", b"ping"])

    def script(self):
        lines = [b"setup"] + self.setup() if self.chance(0.98) else []
        commands = self.random.choice([60, 60, 120, 120, 240])
        for number in range(1, self.sessions + 1):
            lines.append(b"session %d" % number)
            lines += self.session(max(4, min(120, commands // self.sessions)))
        return b"\n".join(lines) + self.one(b"\n", b"")


def maker_of(seed, sessions):
    """What makes the script of a seed: `sessions` is their number, or the fewest and the most with a dash between."""
    fewest, _, most = sessions.partition("-")
    return Crowd(seed, int(fewest), int(most)) if most else Maker(seed, int(fewest))
