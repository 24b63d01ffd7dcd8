"""Inputs that nobody means well, each with how the program has to end on it by docs/FORMATS.md."""

import random
import sys
from pathlib import Path

sys.path.insert(0, str(Path(__file__).resolve().parent.parent / "replay"))

from formats import Refused, read_reply, read_report, read_script

MOST_SCRIPT = 67_108_864
MOST_PAYLOAD = 16_777_214
EMPTY_REPORT = b"qcache report 1\noptions 1048576 1048576 4096 1\nsessions 0\njournal 0\ncounters 0 0 0 0 0 0\nend\n"
LARGE = ["--size", "67108864", "--limit", "67108864"]
TABLE = b"query CREATE DATABASE d\ninit d\nquery CREATE TABLE t (id BIGINT PRIMARY KEY)\nquery INSERT INTO t VALUES (7)\n"


class Wrong(Exception):
    """A report that isn't the one that there should be."""


class Input:
    """A script, made when it's asked for, and how its run ends: the status, the message, and the report's test. `judged` means that attack/replay takes the report."""

    def __init__(self, name, script, status=0, message=b"", words=(), test=None, judged=False, nested=False):
        self.name, self.script, self.status, self.message = name, script, status, message
        self.words, self.test, self.judged, self.nested = list(words), test, judged, nested


def refused(name, script, message):
    return Input(name, script, 2, b"script: " + message + b"\n", test=exactly(b""))


# Tests of reports

def exactly(wanted):
    def test(report):
        if report != wanted:
            raise Wrong("the report has %d bytes and begins with %r" % (len(report), report[:200]))
    return test


def ends_with(wanted):
    """The ending and the number of commands of session 1."""
    def test(report):
        ending, lines = read_report(report).sessions[1]
        if (ending, len(lines)) != wanted:
            raise Wrong("session 1 has %d commands and ends with %s" % (len(lines), ending))
    return test


def said(reply):
    """What a reply says: its rows as texts, the text of its error, or ok."""
    told = read_reply(reply)
    return told[2] if told[0] == "rows" else told[3] if told[0] == "error" else told[0]


def compare(number, lines, wanted):
    """The answers of a session's lines, each of which has to be there; None stands for any answer."""
    if len(lines) != len(wanted):
        raise Wrong("session %d has %d answers in place of %d" % (number, len(lines), len(wanted)))
    for (_, _, reply), answer in zip(lines, wanted):
        if answer is not None and said(reply) != answer:
            raise Wrong("session %d is answered %.300r and should be %.300r" % (number, said(reply), answer))


def answers(*wanted):
    """What the last commands of session 1 are answered."""
    def test(report):
        compare(1, read_report(report).sessions[1][1][-len(wanted):], wanted)
    return test


def all_answers(wanted, counters=None):
    """What all commands of all sessions are answered, by the sessions' numbers, and the counters, where they are given."""
    def test(report):
        told = read_report(report)
        if sorted(told.sessions) != sorted(wanted):
            raise Wrong("the sessions are %s" % sorted(told.sessions))
        for number, (_, lines) in told.sessions.items():
            compare(number, lines, wanted[number])
        if counters is not None and told.counters != counters:
            raise Wrong("the counters are %s and should be %s" % (told.counters, counters))
    return test


def each(*tests):
    def test(report):
        for one in tests:
            one(report)
    return test


def words_are(wanted):
    """How often each word stands at the commands of all sessions."""
    def test(report):
        words = [word for _, lines in read_report(report).sessions.values() for _, word, _ in lines]
        told = {word: words.count(word) for word in set(words)}
        if not wanted(told):
            raise Wrong("the words are %s" % told)
    return test


def status_rows(free_blocks, free_memory, hits, inserts, prunes, not_cached, queries, blocks):
    """The rows of SHOW STATUS."""
    values = {"free_blocks": free_blocks, "free_memory": free_memory, "hits": hits, "inserts": inserts, "lowmem_prunes": prunes, "not_cached": not_cached,
              "queries_in_cache": queries, "total_blocks": blocks}
    return [[b"Qcache_" + name.encode(), b"%d" % value] for name, value in values.items()]


# Long lines and empty ones

def filled(front, byte, length):
    """These bytes, filled up."""
    return front + byte * (length - len(front))


def queries(*texts):
    return b"session 1\n" + TABLE + b"".join(b"query %s\n" % text for text in texts)


def long_lines():
    yield refused("a line of 64 MiB", lambda: b"a" * MOST_SCRIPT, b"bad line 1")
    yield refused("a line of 64 MiB and a byte", lambda: b"a" * (MOST_SCRIPT + 1), b"input too long")
    yield refused("a comment of 64 MiB and a byte", lambda: b"#" * (MOST_SCRIPT + 1), b"input too long")
    yield Input("a comment of 64 MiB", lambda: b"#" * MOST_SCRIPT, test=exactly(EMPTY_REPORT))
    yield refused("a query of 64 MiB", lambda: filled(b"session 1\nquery ", b"a", MOST_SCRIPT), b"bad line 2")
    yield refused("an init of 64 MiB", lambda: filled(b"session 1\ninit ", b"a", MOST_SCRIPT), b"bad line 2")
    yield refused("raw digits of 64 MiB, an odd number", lambda: filled(b"session 1\nraw ", b"0", MOST_SCRIPT - 1), b"bad line 2")
    yield refused("a query a byte too long", lambda: b"session 1\nquery " + b"a" * MOST_PAYLOAD, b"bad line 2")
    yield Input("the longest query, a word", lambda: b"session 1\nquery " + b"a" * (MOST_PAYLOAD - 1), test=answers(b"Syntax error at byte 0"), judged=True)
    yield Input("the longest query, a comment behind a number", lambda: b"session 1\nquery " + filled(b"SELECT 1 #", b"a", MOST_PAYLOAD - 1), test=answers([[b"1"]]), judged=True)
    yield Input("the longest query, brackets", lambda: queries(filled(b"SELECT id FROM t WHERE ", b"(", MOST_PAYLOAD - 1)), test=answers(b"Not supported: nesting"), nested=True)
    yield Input("the longest query, NOTs", lambda: queries(filled(b"SELECT id FROM t WHERE", b" NOT", MOST_PAYLOAD // 8)), test=answers(b"Not supported: nesting"), nested=True)
    yield Input("the longest name", lambda: b"session 1\ninit " + b"a" * (MOST_PAYLOAD - 1), test=answers(b"Unknown database: " + b"a" * 64), judged=True)
    yield Input("a raw line of 64 MiB, a packet and a part of one", raw_line, test=ends_with(("cut 16777207", 1)), judged=True)


def raw_line():
    packet = b"feffff0003" + b"61" * (MOST_PAYLOAD - 1)
    return filled(b"session 1\nraw " + packet + b"feffff0003", b"6", MOST_SCRIPT)


def empty_lines():
    yield Input("a million empty lines", lambda: b"\n" * 1_000_000, test=exactly(EMPTY_REPORT))
    yield Input("64 MiB of empty lines", lambda: b"\n" * MOST_SCRIPT, test=exactly(EMPTY_REPORT))
    yield refused("a million empty lines before a command", lambda: b"\n" * 1_000_000 + b"ping\n", b"no session at line 1000001")
    yield refused("64 MiB, almost all of empty lines", lambda: b"\n" * (MOST_SCRIPT - 9) + b"session 2", b"bad line 67108856")


# Raw bytes

def random_bytes(seed, count):
    return random.Random(seed).randbytes(count)


def raw_bytes():
    yield refused("all bytes", lambda: bytes(range(256)), b"bad line 1")
    for seed in range(3):
        script = random_bytes(seed, 4_000_000)
        try:
            read_script(script)
        except Refused as refusal:
            yield refused("random bytes %d" % seed, lambda script=script: script, str(refusal)[len("script: "):].encode())
    yield Input("queries and names of random bytes", random_queries, judged=True)
    yield Input("streams of random bytes", random_streams, judged=True)
    yield Input("a quarter of a million empty packets", lambda: b"session 1\nraw " + b"00000000" * 262_144 + b"\n", test=ends_with(("input", 262_144)), judged=True)


def random_queries():
    draws = random.Random(1)
    lines = [b"session 1\n" + TABLE]
    for front in b"", b"SELECT ", b"SELECT id FROM t WHERE id = '", b"INSERT INTO t VALUES (", b"SET names = ", b"SELECT `", b"SELECT /*":
        for _ in range(300):
            text = front + draws.randbytes(draws.randrange(200))
            lines.append(b"query %s\n" % text.replace(b"\n", b""))
            lines.append(b"init %s\n" % text.replace(b"\n", b""))
    return b"".join(lines)


def random_streams():
    draws = random.Random(2)
    script = b""
    for number in range(1, 65):
        short = b"".join(draws.randrange(40).to_bytes(3, "little") + b"\0" + draws.randbytes(20) for _ in range(20))
        stream = draws.randbytes(50_000) if number % 2 else short
        script += b"session %d\nraw %s\n" % (number, stream.hex().encode())
    return script


# A statement of a megabyte

def sixty_four(text):
    """A setup part, and 64 sessions that send one text each, by their numbers."""
    script = b"setup\n" + TABLE
    for number in range(1, 65):
        script += b"session %d\ninit d\nquery %s\n" % (number, text(number))
    return script


def megabytes():
    def comment(_):
        return filled(b"SELECT id FROM t /*", b"a", 999_998) + b"*/"

    def literals(_):
        return b"SELECT id FROM t WHERE id IN (%s)" % b",".join(b"%d" % key for key in range(150_000))

    def own(number):
        return filled(b"SELECT id FROM t #%d" % number, b"a", 1_000_000)

    def one_start(told):
        return told.get("start", 0) == 1 and told.get("start", 0) + told.get("hit", 0) + told.get("plain", 0) == 64

    for name, text in ("of a comment", comment), ("of a list", literals):
        for words in [], LARGE:
            yield Input("64 sessions, the same megabyte %s" % name, lambda text=text: sixty_four(text), words=words, test=words_are(one_start), judged=True)
        yield Input("64 sessions, the same megabyte %s, no cache" % name, lambda text=text: sixty_four(text), words=["--size", "0"], test=words_are(lambda told: told.get("plain") == 64), judged=True)
    yield Input("64 sessions, a megabyte of each one's own", lambda: sixty_four(own), judged=True)
    yield Input("64 sessions, a megabyte of each one's own, room for all", lambda: sixty_four(own), words=LARGE + ["--unit", "512"], test=words_are(lambda told: told.get("start") == 64), judged=True)


# Nesting, and what is long and not nested

def brackets(depth):
    return b"SELECT id FROM t WHERE " + b"(" * depth + b"id = 7" + b")" * depth


def nots(depth):
    return b"SELECT id FROM t WHERE " + b"NOT " * depth + b"id = 7"


def both(depth):
    return b"SELECT id FROM t WHERE " + b"NOT (" * (depth // 2) + b"NOT " * (depth % 2) + b"id = 7" + b")" * (depth // 2)


def calls(depth):
    return b"SELECT " + b"LENGTH(" * depth + b"id" + b")" * depth + b" FROM t"


def in_a_condition(depth):
    return b"SELECT id FROM t WHERE " + b"(" * (depth // 2) + b"CONCAT(" * (depth - depth // 2) + b"id" + b")" * (depth - depth // 2) + b" IS NOT NULL" + b")" * (depth // 2)


def alternatives(depth):
    return b"SELECT id FROM t WHERE " + b"(id = 8 OR " * depth + b"id = 7" + b")" * depth


def joined_texts(depth):
    return b"SELECT " + b"CONCAT(''," * depth + b"id" + b")" * depth + b" FROM t"


def deleted(depth):
    return b"DELETE FROM t WHERE " + b"(" * depth + b"id = 8" + b")" * depth


# Each form, and its answer where 64 are open.
FORMS = [(brackets, [[b"7"]]), (nots, [[b"7"]]), (both, [[b"7"]]), (calls, [[b"1"]]), (in_a_condition, [[b"7"]]), (alternatives, [[b"7"]]), (joined_texts, [[b"7"]]), (deleted, "ok")]


def nested():
    for form, answer in FORMS:
        name = form.__name__.replace("_", " ")
        yield Input("64 nested, %s" % name, lambda form=form: queries(form(64)), test=answers(answer), judged=True, nested=True)
        yield Input("64 nested in the setup part, %s" % name, lambda form=form: queries(form(64)).replace(b"session 1", b"setup"), judged=True, nested=True)
        yield Input("65 nested, %s" % name, lambda form=form: queries(form(65)), test=answers(b"Not supported: nesting"), judged=True, nested=True)
        yield Input("10,000 nested, %s" % name, lambda form=form: queries(form(10_000)), test=answers(b"Not supported: nesting"), judged=True, nested=True)
    yield Input("64 nested in 64 sessions", lambda: sixty_four(lambda _: brackets(64)), judged=True, nested=True)
    yield Input("all that is long and isn't nested", long_statements, judged=True, nested=True)


def long_statements():
    many = 20_000
    return queries(
        b"SELECT id FROM t WHERE " + b" AND ".join([b"id = 7"] * many),
        b"SELECT id FROM t WHERE " + b" OR ".join([b"id = 8"] * many),
        b"SELECT id FROM t WHERE " + b" AND ".join([b"NOT (id = 8 OR id = 9)"] * (many // 4)),
        b"SELECT CONCAT(" + b",".join([b"id"] * many) + b") FROM t",
        b"SELECT LENGTH(CONCAT(" + b",".join([b"'abc'"] * 20_000) + b"))",
        b"SELECT " + b",".join([b"1"] * 64),
        b"SELECT " + b",".join([b"1"] * 65),
        b"SELECT " + b",".join([b"1"] * many),
        b"SELECT 1" + b"- 1" * many,
        b"SELECT " + b"- " * many + b"1",
        b"SELECT id FROM t" + b",t" * many,
        b"SELECT id FROM t WHERE id IN (" + b",".join([b"NULL"] * many) + b")",
        b"SELECT id FROM t WHERE id IN (" + b",".join([b"'a'"] * many) + b")",
        b"SELECT id FROM t ORDER BY " + b",".join([b"id DESC"] * many),
        b"SELECT '" + b"''" * 65_535 + b"'",
        b"SELECT '" + b"''" * 65_536 + b"'",
        b"SELECT '" + b"\\'" * many,
        b"SELECT `" + b"``" * 64 + b"`",
        b"SELECT `" + b"``" * 65 + b"`",
        b"SELECT /*" + b"/*" * many,
        b"SELECT 1" + b" /* */" * many,
        b"SELECT 1" + b";" * many,
        b";" * many,
        b"SELECT " + b"1" * 4000,
        b"DELETE FROM t WHERE " + b" OR ".join([b"id = 100"] * many),
        b"INSERT INTO t VALUES " + b",".join(b"(%d)" % key for key in range(100, 100 + many)),
        b"INSERT INTO t VALUES " + b",".join([b"(1, 2)"] * many),
        b"INSERT INTO t VALUES (" + b",".join([b"1"] * many) + b")",
        b"INSERT INTO t (" + b",".join([b"id"] * many) + b") VALUES (1)",
        b"UPDATE t SET " + b",".join([b"id = 1"] * many),
        b"CREATE TABLE u (id BIGINT PRIMARY KEY" + b"".join(b", c%d BIGINT" % column for column in range(many)) + b")",
        b"CREATE TABLE u (id BIGINT" + b", PRIMARY KEY (id)" * many + b")",
        b"SET sql_mode = '" + b"a" * 65_535 + b"'",
        b"SELECT COUNT(*), MIN(id), MAX(id) FROM t",
    )


# Eight tables

def of_rows(count):
    return b"session 1\n" + TABLE + b"query CREATE TABLE a (id BIGINT PRIMARY KEY)\nquery INSERT INTO a VALUES " + b",".join(b"(%d)" % key for key in range(1, 33)) + (
        b"\nquery CREATE TABLE b (id BIGINT PRIMARY KEY)\nquery INSERT INTO b VALUES " + b",".join(b"(%d)" % key for key in range(1, count + 1)) + b"\n")


EIGHT = b"a AS s1, a AS s2, a AS s3, a AS s4, a AS s5, a AS s6, a AS s7, b AS s8"


def combinations():
    """32 rows in each of eight sources, 2^40 combinations; and a row more in one."""
    select = b"query SELECT s1.id, s7.id, s8.id FROM " + EIGHT

    def script(count, *behind):
        return of_rows(count) + b"".join(select + b" " + end + b"\n" for end in behind)

    rows = [[b"1", b"1", b"1"], [b"1", b"1", b"2"], [b"1", b"1", b"3"]]
    yield Input("2^40 combinations, LIMIT 3", lambda: script(32, b"LIMIT 3"), test=answers(rows))
    yield Input("2^40 combinations, LIMIT 3 twice", lambda: script(32, b"LIMIT 3", b"LIMIT 3"), test=answers(rows, rows))
    yield Input("2^40 combinations, LIMIT 0", lambda: script(32, b"LIMIT 0"), test=answers([]))
    yield Input("2^40 combinations, a million passed over", lambda: script(32, b"LIMIT 1000033, 2"), test=answers([[b"1", b"20", b"2"], [b"1", b"20", b"3"]]))
    yield Input("2^40 combinations, sql_select_limit", lambda: of_rows(32) + b"query SET sql_select_limit = 2\n" + select + b"\n", test=answers("ok", rows[:2]))
    yield Input("2^40 combinations, a condition on the last one", lambda: script(32, b"WHERE s8.id = 32 LIMIT 2"), test=answers([[b"1", b"1", b"32"], [b"1", b"2", b"32"]]))
    yield Input("2^40 combinations and more, LIMIT 3", lambda: script(33, b"LIMIT 3"), test=answers(b"Too many row combinations"))
    yield Input("2^40 combinations and more, LIMIT 0", lambda: script(33, b"LIMIT 0"), test=answers(b"Too many row combinations"))
    yield Input("nine sources", lambda: script(32, b", t LIMIT 3"), test=answers(b"Too many tables"))
    told = {0: ["ok"] * 8, **{number: ["ok", rows] for number in range(1, 65)}}
    yield Input("64 sessions, 2^40 combinations", crowd_of_combinations, test=each(all_answers(told), words_are(lambda words: words.get("start", 0) + words.get("hit", 0) + words.get("plain", 0) == 64)))


def crowd_of_combinations():
    select = b"init d\nquery SELECT s1.id, s7.id, s8.id FROM " + EIGHT + b" LIMIT 3\n"
    return of_rows(32).replace(b"session 1", b"setup") + b"".join(b"session %d\n" % number + select for number in range(1, 65))


# Tables

TABLES = 10_000


def tables(reading):
    """So many tables, each with a row, of which the first ones are read twice; all of them are dropped at last."""
    lines = [b"session 1\nquery CREATE DATABASE d\ninit d\n"]
    for number in range(1, TABLES + 1):
        lines.append(b"query CREATE TABLE t%d (id BIGINT PRIMARY KEY)\nquery INSERT INTO t%d VALUES (%d)\n" % (number, number, number))
    for _ in range(2):
        lines += [b"query SELECT id FROM t%d\n" % number for number in range(1, reading + 1)]
    lines.append(b"query SHOW STATUS LIKE 'Qcache%'\nquery UPDATE t1 SET id = 1\nquery DROP TABLE t2\nquery DROP DATABASE d\nquery SELECT id FROM t1\n")
    return b"".join(lines)


def answers_of_tables(reading, status):
    """What session 1 is answered there."""
    rows = [[[b"%d" % number]] for number in range(1, reading + 1)]
    return all_answers({1: ["ok"] * (2 + 2 * TABLES) + rows + rows + [status, b"Not supported: key change", "ok", "ok", b"Unknown database: d"]})


def many_tables():
    """Each entry has a table, a result and a text of a block of 512 bytes each; behind them is one free block."""
    small = ["--size", "67108864", "--unit", "512"]

    def read_twice(reading):
        status = status_rows(1, 67_108_864 - 3 * 512 * reading, reading, reading, 0, 0, reading, 3 * reading + 1)
        return each(answers_of_tables(reading, status), words_are(lambda told: told.get("hit") == reading and told.get("start") == reading))

    never_kept = each(answers_of_tables(500, None), words_are(lambda told: told.get("start") == 1000))
    yield Input("10,000 tables, 500 of them read twice", lambda: tables(500), words=small, test=read_twice(500), judged=True)
    yield Input("10,000 tables, 500 of them read twice, little room", lambda: tables(500), words=["--size", "65536", "--unit", "512"], test=never_kept, judged=True)
    yield Input("10,000 tables, all read twice", lambda: tables(TABLES), words=small, test=read_twice(TABLES))


# A full table

FULL = 1_048_576
IS_FULL = b"Table is full: d.t"
COUNT = b"query SELECT COUNT(*) FROM t\n"
STATUS = b"query SHOW STATUS LIKE 'Qcache%'\n"
LAST = b"query SELECT id FROM t WHERE id >= 1048576\n"

# So many sessions insert a row each in a transaction, and then read all rows so often, which takes a while.
WRITERS = 4
SCAN = b"query SELECT COUNT(*) FROM t WHERE LENGTH(id) = 3\n"
SCANS = 3


def inserted(*keys):
    return b"query INSERT INTO t VALUES " + b",".join(b"(%d)" % key for key in keys) + b"\n"


def table_of(rows):
    """A setup part with a table of so many rows, whose keys count from 1, and with an entry that holds their number; and its answers."""
    parts = [range(first, min(first + 10_000, rows + 1)) for first in range(1, rows + 1, 10_000)]
    script = b"setup\nquery CREATE DATABASE d\ninit d\nquery CREATE TABLE t (id BIGINT PRIMARY KEY)\n" + b"".join(inserted(*keys) for keys in parts) + COUNT
    return script, ["ok"] * (3 + len(parts)) + [[[b"%d" % rows]]]


def full_tables():
    full, filled_up = table_of(FULL)
    count = [[b"%d" % FULL]]

    # Outside of a transaction; and in one, which goes on and makes room for a row.
    setup = full + inserted(FULL + 1) + COUNT + STATUS
    session = b"init d\n" + COUNT + b"query BEGIN\n" + inserted(FULL + 1) + COUNT + b"query DELETE FROM t WHERE id = 1\n" + inserted(FULL + 1, FULL + 2) + inserted(FULL + 1) + COUNT + (
        b"query COMMIT\n" + COUNT + b"query SELECT id FROM t WHERE id < 3 OR id > 1048575\n" + STATUS)
    told = {0: filled_up + [IS_FULL, count, status_rows(2, 1_047_040, 1, 1, 0, 0, 1, 5)],
            1: ["ok", count, "ok", IS_FULL, count, "ok", IS_FULL, "ok", count, "ok", count, [[b"2"], [b"1048576"], [b"1048577"]], status_rows(2, 1_046_016, 2, 4, 0, 1, 2, 7)]}
    yield Input("a full table, a row more, and one in a transaction that makes room", lambda: setup + b"session 1\n" + session, test=all_answers(told, (5, 2, 4, 1, 0, 2)))

    # In a transaction that is open beside another session, which changes nothing either.
    first = b"session 1\ninit d\nquery BEGIN\n" + inserted(FULL + 1) + COUNT + inserted(FULL + 2) + b"query COMMIT\n" + COUNT
    second = b"session 2\ninit d\n" + COUNT + inserted(FULL + 1) + COUNT
    told_both = {0: filled_up, 1: ["ok", "ok", IS_FULL, count, IS_FULL, "ok", count], 2: ["ok", count, IS_FULL, count]}
    yield Input("a full table, a row more in a transaction, beside a session that hits", lambda: full + first + second, test=all_answers(told_both, (2, 3, 2, 0, 0, 2)))

    # A row has room, and several transactions insert one, on snapshots where it has.
    almost, almost_filled = table_of(FULL - 1)
    writers = b"".join(b"session %d\ninit d\nquery BEGIN\n" % number + inserted(FULL + number) + SCAN * SCANS + b"query COMMIT\n" + COUNT + LAST for number in range(1, WRITERS + 1))
    yield Input("a table that COMMITs would overfill", lambda: almost + writers, test=each(one_commit_fills(almost_filled), counters_are_the_journals))


def one_commit_fills(setup):
    """The row of one session is committed. Of the others, those whose INSERT has its place before are refused at COMMIT, and their transaction is over; those behind it, at the INSERT."""
    def test(report):
        told = read_report(report)
        commits = [event for event in told.journal if event.kind == "commit" and event.session != 0]
        if len(commits) != 1:
            raise Wrong("%d sessions have committed" % len(commits))
        commit, refused_at_commit = commits[0], 0
        wanted = {0: setup}
        for number in range(1, WRITERS + 1):
            lines = told.sessions[number][1]
            has_room = lines[2][0] < commit.number
            is_refused = has_room and number != commit.session
            refused_at_commit += is_refused
            wanted[number] = ["ok", "ok", "ok" if has_room else IS_FULL] + [[[b"900"]]] * SCANS + [IS_FULL if is_refused else "ok", [[b"%d" % FULL]], [[b"%d" % (FULL + commit.session)]]]
            if [read_reply(reply)[-1] for _, _, reply in lines[3:3 + SCANS] + lines[-2:]] != [3] * SCANS + [2] * 2:
                raise Wrong("session %d isn't in a transaction up to its COMMIT" % number)
        all_answers(wanted)(report)
        if refused_at_commit == 0:
            raise Wrong("no session was refused at COMMIT")
    return test


def counters_are_the_journals(report):
    """The counters by the journal of a run whose entries are all on one table, which each commit changes."""
    told = read_report(report)
    kinds = [event.kind for event in told.journal]
    entries = set()
    for event in told.journal:
        if event.kind == "start":
            entries.add(event.fields[2])
        elif event.kind == "commit":
            entries.clear()
        elif event.kind in ("toolarge", "goneroom", "ended", "prune"):
            entries.discard(event.fields[0])
    starts, plains = kinds.count("start"), kinds.count("plain")
    errors = sum(event.kind == "plain" and event.fields[2].startswith("error") for event in told.journal)
    counters = (starts + plains, kinds.count("hit"), starts, plains - errors, kinds.count("prune"), len(entries))
    if told.counters != counters:
        raise Wrong("the counters are %s and should be %s" % (told.counters, counters))


# No database

def no_database():
    """Each statement that names a table is refused, and the sessions go on."""
    session = b"session 1\n" + b"".join(b"query %s\n" % text for text in (
        b"SELECT id FROM t", b"INSERT INTO t VALUES (7)", b"UPDATE t SET id = 1", b"DELETE FROM t", b"TRUNCATE t", b"CREATE TABLE t (id BIGINT PRIMARY KEY)", b"DROP TABLE t", b"SELECT 1",
        b"BEGIN", b"SELECT id FROM t", b"INSERT INTO t VALUES (7)", b"COMMIT")) + TABLE + b"query SELECT id FROM t\n" * 2
    other = b"session 2\nquery SELECT id FROM t\nquery SELECT 7\n"
    none = b"No database selected"
    told = {1: [none] * 7 + [[[b"1"]], "ok", none, none, "ok"] + ["ok"] * 4 + [[[b"7"]]] * 2, 2: [none, [[b"7"]]]}
    yield Input("no database, and then one", lambda: session + other, test=all_answers(told, (6, 1, 1, 2, 0, 1)), judged=True)


def inputs():
    for part in long_lines, empty_lines, raw_bytes, megabytes, nested, combinations, many_tables, full_tables, no_database:
        yield from part()
