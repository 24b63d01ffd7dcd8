#!/usr/bin/env python3
"""judge.py SCRIPT REPORT: whether the report is one that the script may have.

It prints `agrees`, or `refused: ` and why, and its status is 0 or 1."""

import sys

from formats import Refused, cut_commands, read_reply, read_report, read_script
from journal import Journal
from select_rows import TooBig
from session import Session


class Fold:
    """One session's commands and lines, walked beside the journal."""

    def __init__(self, number, kind, commands, lines):
        self.state = Session(number, kind)
        self.number = number
        self.commands, self.lines = commands, lines
        self.at = 0
        self.place = 0

    def check(self, place, word, reply):
        """Compares the line of the command at `at`, and goes on to the next."""
        line = self.lines[self.at]
        where = "session %d, command %d: " % (self.number, self.at + 1)
        if line[0] != place:
            raise Refused(where + "the place is %d and should be %d" % (line[0], place))
        if line[1] != word:
            raise Refused(where + "the word is %s and should be %s" % (line[1], word))
        if line[2] != b"".join(reply):
            raise Refused(where + "the reply is\n%s\nand should be\n%s" % (told(line[2]), told(b"".join(reply))))
        self.at += 1
        self.place = place

    def next_deciding(self):
        """Judges the commands without an event, up to one with an event, and gives its statement; None at the end."""
        while self.at < len(self.commands):
            statement, reply = self.state.read(self.commands[self.at])
            if statement is not None:
                return statement
            self.check(self.place, "local", reply)
        return None

    def step(self, journal, event):
        statement = self.next_deciding()
        if statement is None:
            raise Refused("event %d: session %d has no command for it" % (event.number, self.number))
        reply = self.state.decide(statement, journal, event)
        word = event.kind if event.kind in ("hit", "start", "plain") else "other"
        self.check(event.number, word, reply)


def told(reply):
    """A reply for a reader: what it says, and its bytes."""
    try:
        return "%s\n  %s" % (read_reply(reply), reply.hex())
    except Refused as refusal:
        return "no reply (%s)\n  %s" % (refusal, reply.hex())


def judge(script, report, options=None, kinds=None):
    """Raises Refused where the report of a script is wrong. `options` are those that it must tell, where given; `kinds`
    counts the events of reports that agree."""
    sessions = read_script(script)
    report = read_report(report)
    if options is not None and report.options != options:
        raise Refused("the options are %s and should be %s" % (report.options, options))
    if sorted(report.sessions) != sorted(sessions):
        raise Refused("the sessions are others than the script's")
    folds = {}
    for number, stream in sessions.items():
        commands, ending = cut_commands(stream)
        told_ending, lines = report.sessions[number]
        if told_ending != ending:
            raise Refused("session %d ends with %s and should with %s" % (number, told_ending, ending))
        if len(lines) != len(commands):
            raise Refused("session %d has %d lines and should have %d" % (number, len(lines), len(commands)))
        folds[number] = Fold(number, report.options[3], commands, lines)
    journal = Journal(report.options)
    for event in report.journal:
        if event.kind == "prune":
            journal.prune(event, acting(report.journal, event, journal))
            continue
        journal.arrives(event)
        if event.deciding:
            if event.session not in folds:
                raise Refused("event %d is of a session that isn't there" % event.number)
            folds[event.session].step(journal, event)
        else:
            journal.fill_ends(event)
        journal.passed(event)
    journal.only_fills_prune()
    for fold in folds.values():
        if fold.next_deciding() is not None:
            raise Refused("session %d, command %d: its event is missing" % (fold.number, fold.at + 1))
    for entry in journal.cache.values():
        if not entry.complete:
            raise Refused("entry %d is never ended" % entry.serial)
    if report.counters != journal.counters():
        raise Refused("the counters are %s and should be %s" % (report.counters, journal.counters()))
    if kinds is not None:
        count(kinds, report.journal, journal)


def count(kinds, events, journal):
    """Counts the events by their kinds, the fills that a change or a reset overtook, how often another session than that of the event before comes on, and
    what the end tells of the memory: that nothing is handed out, or that no more is than the entries need."""
    before = None
    for event in events:
        kinds[event.kind if event.kind != "plain" else "plain " + event.fields[2].split()[0]] += 1
        if event.deciding:
            kinds["(changes of session)"] += before not in (None, 0, event.session)
            before = event.session
    kinds["(overtaken)"] += sum(entry.filling for entry in journal.starts.values())
    if events and events[-1].kind == "status" and not journal.in_use(events[-1].session):
        kinds["(told at the end: nothing)" if not journal.cache else "(told at the end: entries)"] += 1
    else:
        kinds["(untold at the end)"] += 1


def acting(events, event, journal):
    """The session that prunes, as far as the next event that isn't a prune tells it."""
    for following in events[event.number:]:
        if following.kind == "prune":
            continue
        if following.kind in ("start", "plain") and all(entry.complete for entry in journal.cache.values()):
            return following.session
        if following.kind in ("done", "toolarge", "goneroom") and following.fields[0] in journal.cache:
            return journal.cache[following.fields[0]].session
        return None
    return None


def main(arguments):
    if len(arguments) != 2:
        print("usage: judge.py SCRIPT REPORT", file=sys.stderr)
        return 2
    with open(arguments[0], "rb") as file:
        script = file.read()
    with open(arguments[1], "rb") as file:
        report = file.read()
    try:
        judge(script, report)
    except Refused as refusal:
        print("refused:", refusal)
        return 1
    except TooBig:
        print("a SELECT has too many combinations of rows to be judged")
        return 2
    print("agrees")
    return 0


if __name__ == "__main__":
    sys.exit(main(sys.argv[1:]))
