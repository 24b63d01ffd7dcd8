"""The scripts: the courses, whose orders are all played, and others that are drawn."""

import itertools
import random

from schedules import Case
from session import Select

ANY = 1048576
TEXT, KEY, NUMBER, BOTH = (("query", Select(*columns)) for columns in ([("t", "v")], [("t", "id")], [("u", "w")], [("t", "v"), ("u", "w")]))
B, C = ("update", "t", "b" * 1040), ("update", "t", "c" * 1040)
FIVE = ("update", "u", 5)
DROP, RESET, FLUSH, STATUS = ("drop", "t"), ("reset",), ("flush",), ("show",)
BEGIN, COMMIT, ROLLBACK = ("begin",), ("commit",), ("rollback",)

NAMES = {TEXT: "SELECT v", KEY: "SELECT id", NUMBER: "SELECT w", B: "UPDATE t to b", C: "UPDATE t to c", FIVE: "UPDATE u", STATUS: "STATUS"}

ONE = [[B], [FIVE], [DROP], [RESET], [FLUSH], [STATUS]]
TWO = [[B, C], [B, DROP], [B, RESET], [B, FLUSH], [B, STATUS], [FIVE, B], [FIVE, FLUSH], [DROP, FLUSH], [RESET, B], [RESET, FLUSH], [FLUSH, B], [FLUSH, RESET]]
TRANSACTIONS = [[BEGIN, B, COMMIT], [BEGIN, FIVE, COMMIT]]
SNAPSHOTS = [[BEGIN, KEY, B, KEY, COMMIT], [BEGIN, KEY, KEY, COMMIT]]
MEETINGS = [[C], [DROP], [BEGIN, C, COMMIT]]

# The events whose orders are counted: what an order's report has.
EVENTS = {"hits": [" hit "], "rivals": [" plain rival "], "hidden": [" plain written ", " plain notvisible "], "prunes": [" prune "],
          "crowded": [" plain noroom "], "gone": [" gone "], "conflicts": [" conflict "]}


class Course:
    """Servers with these sizes and limits, behind these setup parts, and the scripts of both sessions. `holds` says what the tally of each limit comes to."""

    def __init__(self, name, sizes, setups, firsts, seconds, holds, limits=(ANY,), units=(512,)):
        self.name, self.sizes, self.limits, self.units, self.holds = name, sizes, limits, units, holds
        self.setups, self.firsts, self.seconds = setups, firsts, seconds

    def cases(self):
        for limit, size, unit, setup, first, second in itertools.product(self.limits, self.sizes, self.units, self.setups, self.firsts, self.seconds):
            name = "%s%s: %s beside %s, %d bytes" % (self.name, " behind " + listed(setup) if setup else "", listed(first), listed(second), size)
            name += ", limit %d" % limit if limit != ANY else ""
            name += ", unit %d" % unit if unit != 512 else ""
            yield Case(name, size, limit, unit, setup, [first, second])

    def outcomes(self):
        return (outcome for case in self.cases() for outcome in case.orders())


def listed(commands):
    return ", ".join(NAMES.get(command, command[0].upper()) for command in commands)


COURSES = [
    Course("a fill and one step", [2048, 4096], [[]], [[TEXT]], ONE, lambda tally: tally["orders"] == 72 and tally["gone"] > 0),
    Course("a hit and one step", [3072, 65536], [[TEXT], [NUMBER, KEY, TEXT]], [[TEXT]], ONE, lambda tally: tally["orders"] > 72 and tally["hits"] > 72),
    Course("a hit and another reply", [3072, 4096], [[TEXT]], [[TEXT]], [[TEXT], [KEY], [NUMBER]],
           lambda tally: tally["orders"] > 200 and tally["prunes"] > 0 and tally["crowded"] > 0),
    Course("two fills of one entry", [4096], [[]], [[TEXT]], [[TEXT]], lambda tally: tally["rivals"] > 200 and tally["hits"] > 0),
    Course("two fills that lack room", [3072], [[KEY]], [[TEXT]], [[NUMBER]],
           lambda tally: tally["orders"] > 200 and tally["prunes"] > 200 and tally["gone"] > 0),
    Course("a hit and two steps", [4096], [[NUMBER, TEXT]], [[TEXT]], TWO, lambda tally: tally["orders"] > 120),
    Course("a fill and two steps", [3072], [[NUMBER]], [[TEXT]], TWO, lambda tally: tally["orders"] > 240),
    Course("one step and the second session's reply", [3072], [[], [KEY], [TEXT]], ONE, [[TEXT]], lambda tally: tally["orders"] > 72),
    Course("a fill over the limit", [4096], [[KEY]], [[TEXT]], ONE, lambda tally: tally["orders"] == 36 and tally["gone"] > 0, [1000, 1096]),
    Course("a transaction and a reply", [4096], [[], [TEXT]], [[TEXT]], TRANSACTIONS, lambda tally: tally["orders"] > 120),
    Course("transactions that meet", [4096], [[]], TRANSACTIONS, MEETINGS, lambda tally: tally["orders"] == 56 and tally["conflicts"] > 0),
    Course("a snapshot and one step", [4096], [[]], SNAPSHOTS, [[C], [DROP], [RESET]], lambda tally: tally["hidden"] > 0 and tally["hits"] > 0),
    Course("a reply and FLUSH with room", [8192], [[NUMBER, TEXT, KEY], [NUMBER, KEY]], [[TEXT]], [[FIVE, FLUSH], [FIVE, FLUSH, STATUS]],
           lambda tally: tally["hits"] > 0),
    Course("a prune by use", [4096], [[KEY, NUMBER]], [[TEXT]], [[KEY], [NUMBER], [KEY, NUMBER], [NUMBER, KEY]], lambda tally: tally["prunes"] > 0),
    Course("a hit and larger blocks", [8192], [[KEY, TEXT]], [[TEXT]], [[FIVE], [FLUSH], [NUMBER]], lambda tally: tally["hits"] > 0, units=[1024, 1500]),
    Course("a fill and larger blocks", [4096, 8192], [[NUMBER]], [[TEXT]], ONE, lambda tally: tally["orders"] == 144, units=[1024, 1500]),
]


def tally_of(outcomes):
    """How many orders there are, and in how many of them each of some events comes to pass."""
    tally = dict.fromkeys(["orders"] + list(EVENTS), 0)
    for outcome in outcomes:
        report = "\n".join(outcome.report())
        tally["orders"] += 1
        for name, texts in EVENTS.items():
            tally[name] += any(text in report for text in texts)
    return tally


def drawn(seed):
    """A case of two or three sessions of two to four commands, in an order that is drawn too."""
    draws = random.Random(seed)
    selects = [TEXT, KEY, NUMBER, BOTH]
    others = [B, C, FIVE, DROP, RESET, FLUSH, STATUS, BEGIN, BEGIN, COMMIT, ROLLBACK]
    others += [("create", "t"), ("delete", "u"), ("insert", "u", 2, 7), ("insert", "t", 2, "e" * 300)]
    setup = draws.sample(selects, draws.randrange(4))
    scripts = []
    for _ in range(draws.choice([2, 2, 3])):
        scripts.append([draws.choice(selects if draws.random() < 0.5 else others) for _ in range(draws.randint(2, 4))])
    size, unit = draws.choice([2048, 3072, 4096, 5120, 6144, 8192, 65536]), draws.choice([512, 512, 512, 600, 1000, 1024, 1500])
    case = Case("drawn %d" % seed, size, draws.choice([ANY, ANY, ANY, 1000, 1096, 1400]), unit, setup, scripts)
    return case.play(pick=draws.choice)
