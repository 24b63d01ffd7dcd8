"""Scripts of some sessions on a server, an order of their steps, and what comes of it: the lines of a case, the report, and the kinds of meetings."""

import re

from server import Server
from session import Command, Session

SETUP = [("database",), ("create", "t"), ("create", "u"), ("insert", "t", 1, "a" * 1040), ("insert", "u", 1, 0)]

# What session 1 does when all scripts are over. At its end all memory is free.
LAST = [("show",), ("reset",), ("show",)]


def shortened(line):
    """A line in which what comes more than 20 times is told once."""
    return re.sub(r"([^~]{1,2}?)\1{20,}", lambda found: "~%d*%s~" % (len(found[0]) // len(found[1]), found[1]), line)


class Outcome:
    """What a case comes to in an order: the session of each step, the sessions that could have gone on there, the lines, and the kinds of meetings."""

    def __init__(self, case, server, order, choices, lines, kinds):
        self.case, self.server, self.order, self.choices, self.lines, self.kinds = case, server, order, choices, lines, kinds
        self.name = "%s, order %s" % (case.name, "".join(map(str, order)))

    def next_front(self):
        """The front with which the next order begins: at the last step where a later session could have gone on, the next one does. None behind the last order."""
        for place in reversed(range(len(self.order))):
            later = [number for number in self.choices[place] if number > self.order[place]]
            if later:
                return self.order[:place] + [later[0]]
        return None

    def report(self):
        case, sessions = self.case, len(self.case.scripts) + 1
        lines = ["qcache report 1", "options %d %d %d 1" % (case.size // 1024 * 1024, case.limit, (case.unit + 7) // 8 * 8), "sessions %d" % sessions]
        for number in range(sessions):
            mine = [line for line in self.lines if isinstance(line, Command) and line.session == number]
            lines.append("session %d commands %d end input" % (number, len(mine)))
            lines += ["%d %s %s" % (line.place, line.how, line.reply.bytes().hex()) for line in mine]
        lines.append("journal %d" % len(self.server.journal))
        lines += ["%d %s" % (number, event.text) for number, event in enumerate(self.server.journal, 1)]
        return lines + ["counters " + " ".join(str(count) for count in self.server.counters()), "end"]

    def event(self, command):
        """What the line of a command tells of its event, with the prunes that stand before it and the end of the fill that it began."""
        if command.how == "local":
            return "-"
        journal, place = self.server.journal, command.place - 1
        first = place
        while first and journal[first - 1].prunes:
            first -= 1
        words = ", ".join(event.words for event in journal[first:place + 1])
        if command.how == "start":
            serial = int(journal[place].words.split()[-1])
            words += "".join(" " + event.words for event in journal if event.ends == serial)
        return words

    def text(self, with_report, remarks=()):
        lines = ["== %s | %s" % (self.name, self.case.words())]
        lines += ["; " + remark for remark in remarks]
        for line in self.lines:
            if not isinstance(line, Command):
                lines += ["%d." % line.session, "    " + line.task]
            elif line.text != "ping":
                lines += ["%d> %s" % (line.session, line.text), "    %s | %s" % (line.reply.answer, self.event(line))]
        if with_report:
            lines += ["= written"] + ["    " + line for line in self.report()]
        return "".join(shortened(line) + "\n" for line in lines)


def doing(server, session):
    """What a session is amid: a reply that is under way, with how many packets or pieces it has sent, and a transaction."""
    states = []
    if session.fronts:
        word, serial = server.tasks.get(session.number, ("rest", None))
        there = server.entry(serial) is not None
        fill, hit = ("a fill", "a hit") if there else ("an overtaken fill", "a hit of an entry that has left")
        states.append(({"rest": "a reply outside the cache", "fill": fill, "stream": hit}[word], session.sent))
    if session.transaction:
        written = {op[1] for op in session.transaction.ops}
        seen = "without a snapshot" if session.transaction.place is None else "that has written " + " and ".join(sorted(written)) if written else "with a snapshot"
        states.append(("a transaction " + seen, None))
    return states


class Case:
    """Scripts on a server: the setup part's and the sessions'."""

    def __init__(self, name, size, limit, unit, setup, scripts):
        self.name, self.size, self.limit, self.unit, self.setup, self.scripts = name, size, limit, unit, setup, scripts

    def words(self):
        return "run --size %d --limit %d --unit %d" % (self.size, self.limit, self.unit)

    def play(self, front=(), pick=None):
        """Plays the scripts. The order begins with a front; behind it comes the first session that has a step, or the one that is picked."""
        lines, order, choices, kinds = [], [], [], set()
        server = Server(self.size, self.limit, self.unit)
        setup = Session(server, 0, SETUP + self.setup, lines)
        while setup.has_step():
            setup.step()
        lines[:] = [line for line in lines if isinstance(line, Command)]
        sessions = {number: Session(server, number, script, lines) for number, script in enumerate(self.scripts, 1)}
        while any(session.has_step() for session in sessions.values()):
            able = [number for number, session in sessions.items() if session.has_step()]
            number = front[len(order)] if len(order) < len(front) else pick(able) if pick else able[0]
            others = [state for other in sessions.values() if other.number != number for state in doing(server, other)]
            order.append(number)
            choices.append(able)
            sessions[number].step()
            for what in server.happened:
                kinds.add((what, None, None))
                kinds.update((what, other, None) for other, _ in others)
                kinds.update((what, other, sent) for other, sent in others)
        for number, session in sessions.items():
            session.left = (LAST if number == 1 else []) + [("ping",)]
            while session.has_step():
                session.step()
        if not server.is_empty():
            raise AssertionError("memory is left at the end of " + self.name)
        return Outcome(self, server, order, choices, lines, kinds)

    def orders(self):
        front = ()
        while front is not None:
            outcome = self.play(front)
            yield outcome
            front = outcome.next_front()
