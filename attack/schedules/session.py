"""A session: its commands and their replies. A step is a command up to the first packet or piece of its reply, or the next packet or piece."""

import itertools

import packets
from server import COLUMNS, applied, name_of, spelt, told

# The bytes of a piece of a hit.
PIECE = 512

# What stands in a key behind the length of the database's name, of which there is none, and whether a transaction is open:
# autocommit, character set 33, no ANSI quotes, the most rows, the two forms.
FLAGS = "01210000ffffffffffffffff0000"

STATUS_COLUMNS = [packets.text_column(["", "", "", "Variable_name", ""], 64), packets.text_column(["", "", "", "Value", ""], 20)]


class Select:
    """A SELECT of columns, each of one table, in which there is no condition."""

    def __init__(self, *columns):
        self.columns = columns
        self.tables = list(dict.fromkeys(table for table, _ in columns))
        self.text = "SELECT %s FROM %s" % (", ".join(column for _, column in columns), ", ".join("d." + table for table in self.tables))

    def place(self, table, column):
        return [name for name, *_ in COLUMNS[table]].index(column)

    def reply(self, tables, status):
        cells = []
        for rows in itertools.product(*[[row for _, row in sorted(tables[table].items())] for table in self.tables]):
            cells.append([rows[self.tables.index(table)][self.place(table, column)] for table, column in self.columns])
        return packets.rows([COLUMNS[table][self.place(table, column)][2] for table, column in self.columns], cells, status)


class Transaction:
    """An open transaction: its snapshot's place and tables, once it has one, and its operations."""

    def __init__(self):
        self.place, self.tables, self.ops = None, None, []


class Command:
    """A command in a case's lines."""

    def __init__(self, session, text, reply, place, how):
        self.session, self.text, self.reply, self.place, self.how = session, text, reply, place, how


class Piece:
    """The next packet or piece, with the task at the one before."""

    def __init__(self, session, task):
        self.session, self.task = session, task


class Session:
    def __init__(self, server, number, commands, lines):
        self.server, self.number, self.left, self.lines = server, number, list(commands), lines
        self.transaction = None
        self.count = 0          # its events
        self.place = 0          # that of the last one
        self.fronts = []        # of the reply under way: the bytes up to the end of each packet or piece
        self.sent = 0
        self.select = None

    def has_step(self):
        return bool(self.fronts or self.left)

    def step(self):
        self.server.happened = []
        if self.fronts:
            word, serial = self.server.tasks.get(self.number, ("rest", None))
            self.lines.append(Piece(self.number, "%s %d" % (word, serial) if serial else word))
            self.send()
        else:
            word, *rest = self.left.pop(0)
            getattr(self, word)(*rest)

    def send(self):
        word, _ = self.server.tasks.get(self.number, ("rest", None))
        front = self.fronts[self.sent]
        self.sent += 1
        if word == "fill" and not self.server.fill(self.number, front):
            self.happened_last(" at its packet %d" % self.sent)
        if self.sent == len(self.fronts):
            self.fronts = []
            word, _ = self.server.tasks.get(self.number, ("rest", None))
            if word == "stream":
                self.server.happened.append("the end of a hit")
                self.server.let_go(self.number)
            elif word == "fill":
                self.server.complete(self.number, front)

    # What comes of a command

    def status(self):
        return 3 if self.transaction else 2

    def ok(self, affected=0):
        return packets.ok(affected, self.status())

    def decide(self, text, words, word="run"):
        """The event of the command."""
        self.count += 1
        self.place = self.server.tell("%s %d %d%s" % (word, self.number, self.count, text), words)

    def answer(self, text, reply, how="other"):
        self.lines.append(Command(self.number, text, reply, self.place, how))

    def other(self, text, reply=None):
        self.decide(" other", "other")
        self.answer(text, reply or self.ok())

    def commit_ops(self, ops):
        self.decide(" %d %s" % (len(ops), ",".join(spelt(op) for op in ops)), "commit " + "; ".join(told(op) for op in ops), "commit")
        self.server.commit(self.place, ops)

    def happens(self, what):
        self.server.happened.insert(0, what)

    def happened_last(self, more):
        self.server.happened[-1] += more

    # The tables that it sees

    def view(self):
        if self.transaction is None:
            return self.server.tables
        return applied(self.transaction.ops, self.server.tables if self.transaction.place is None else self.transaction.tables)

    def snap(self):
        """An open transaction takes its snapshot at its last event, unless it has one."""
        if self.transaction and self.transaction.place is None:
            self.transaction.place, self.transaction.tables = self.place, self.server.tables

    def inside(self):
        return " in a transaction" if self.transaction else ""

    # SELECT

    def query(self, select):
        counts, key = self.server.counts, bytes.fromhex("00%02x" % bool(self.transaction) + FLAGS) + select.text.encode()
        tables = self.view()
        missing = [table for table in select.tables if table not in tables]
        if missing:
            counts["com_select"] += 1
            self.decide(" plain error 1146", "plain error 1146")
            self.answer(select.text, packets.error(1146, "42S02", "No such table: d." + missing[0]), "plain")
            self.happens("a SELECT of a table that is gone")
            self.snap()
            return
        reply = select.reply(tables, self.status())
        how = self.choose(key, select)
        self.answer(select.text, reply, how)
        self.snap()
        self.fronts = reply.fronts()
        if how == "hit":
            self.fronts = list(range(PIECE, self.fronts[-1], PIECE)) + self.fronts[-1:]
        self.sent, self.select = 0, select
        self.send()

    def hidden(self, tables):
        """Why the session sees no entry of these tables, if it doesn't: for a report, for a case's line, and in words."""
        for table in tables:
            if self.transaction and any(op[1] == table for op in self.transaction.ops):
                return "written " + name_of(table), "written d." + table, "a SELECT of what the transaction wrote"
        for table in tables:
            changed = self.server.last_change(table)
            if self.transaction and self.transaction.place is not None and changed > self.transaction.place:
                return "notvisible %s %d %d" % (name_of(table), changed, self.transaction.place), "notvisible d." + table, "a SELECT behind its snapshot"
        return None

    def choose(self, key, select):
        """Decides how a SELECT is answered."""
        why = self.hidden(select.tables)
        if why:
            return self.plain(*why)
        entry = next((entry for entry in self.server.entries if entry.key == key), None)
        if entry and entry.complete:
            self.happens("a hit of an entry that another streams" if entry.serial in self.server.held() else "a hit" + self.inside())
            self.server.counts["hits"] += 1
            self.server.use(entry)
            entry.was_hit = True
            self.decide(" hit %d" % entry.serial, "hit %d" % entry.serial)
            self.server.tasks[self.number] = "stream", entry.serial
            return "hit"
        if entry:
            return self.plain("rival %d" % entry.serial, "rival", "a SELECT that another fills")
        serial, lacks = self.server.start(key, select.tables)
        if lacks:
            return self.plain("noroom %d %d" % lacks, "noroom", "a SELECT that lacks room")
        self.happens("a start" + self.inside())
        self.server.counts["com_select"] += 1
        self.decide(" start %d %s %s" % (serial, key.hex(), ",".join(name_of(table) for table in select.tables)), "start %d" % serial)
        self.server.tasks[self.number] = "fill", serial
        return "start"

    def plain(self, reason, words, what):
        self.happens(what)
        self.server.counts["com_select"] += 1
        self.server.counts["not_cached"] += 1
        self.decide(" plain " + reason, "plain " + words)
        return "plain"

    # Statements that change rows

    def write(self, text, table, ops, affected=None):
        """A statement whose operations these are, where the table is there and it isn't refused."""
        if table not in self.view():
            self.happens("a statement on a table that is gone")
            self.other(text, packets.error(1146, "42S02", "No such table: d." + table))
        elif ops is None:
            self.happens("a row that is there already")
            self.other(text, packets.error(1062, "23000", "Duplicate entry: %d" % affected))
        elif ops and self.transaction is None:
            self.happens("a commit on " + table)
            self.commit_ops(ops)
            self.answer(text, self.ok(len(ops)))
        else:
            self.happens("a write in a transaction" if ops else "a statement that changes nothing")
            if self.transaction:
                self.transaction.ops += ops
            self.other(text, self.ok(len(ops)))
        self.snap()

    def update(self, table, value):
        shown = "'%s'" % value if table == "t" else value
        ops = [("put", table, (key, value)) for key, row in sorted(self.view().get(table, {}).items()) if row[1] != value]
        self.write("UPDATE d.%s SET %s = %s" % (table, COLUMNS[table][1][0], shown), table, ops)

    def insert(self, table, key, value):
        shown = "'%s'" % value if table == "t" else value
        ops = None if key in self.view().get(table, {}) else [("put", table, (key, value))]
        self.write("INSERT INTO d.%s VALUES (%d, %s)" % (table, key, shown), table, ops, key)

    def delete(self, table):
        self.write("DELETE FROM d." + table, table, [("del", table, key) for key in sorted(self.view().get(table, {}))])

    # Statements on tables, with which an open transaction is committed

    def define(self, text, ops, refusal):
        """A statement that makes or drops, and how it is refused where these tables are there."""
        mine = self.transaction.ops if self.transaction else []
        if self.meets(text, mine):
            return
        refused = refusal(applied(mine, self.server.tables))
        if refused:
            self.happens("a statement on tables that is refused")
            self.other(text, refused)
            return
        self.transaction = None
        self.happens("a commit of a transaction by a statement on tables" if mine else "a statement on tables")
        self.commit_ops(mine + ops)
        self.answer(text, self.ok(ops[0][0] == "createdb"))

    def database(self):
        self.define("CREATE DATABASE d", [("createdb",)], lambda tables: None)

    def create(self, table):
        text = "CREATE TABLE d.%s (%s)" % (table, ", ".join("%s %s" % (name, kind.replace("key", "PRIMARY KEY")) for name, kind, *_ in COLUMNS[table]))
        self.define(text, [("create", table)], lambda tables: packets.error(1050, "42S01", "Table exists: d." + table) if table in tables else None)

    def drop(self, table):
        refusal = packets.error(1051, "42S02", "Unknown table: d." + table)
        self.define("DROP TABLE d." + table, [("drop", table)], lambda tables: None if table in tables else refusal)

    # Transactions

    def meets(self, text, mine):
        """Whether another's commit has met the open transaction's operations, which is then rolled back."""
        met = self.server.conflict(self.transaction.place, mine) if mine else None
        if met:
            table, key, by = met
            self.transaction = None
            self.happens("a conflict over a row" if key else "a conflict over a table")
            self.decide(" conflict %s %s %d" % (name_of(table), key or "-", by), "conflict")
            self.answer(text, packets.error(1213, "40001", "Write conflict; transaction rolled back"))
        return bool(met)

    def end(self, text, then):
        """A statement that commits the open transaction, behind which there is this one."""
        mine = self.transaction.ops if self.transaction else []
        if self.meets(text, mine):
            return
        self.transaction = then
        if mine:
            self.happens("a commit of a transaction on " + " and ".join(sorted({op[1] for op in mine})))
            self.commit_ops(mine)
            self.answer(text, self.ok())
        else:
            self.happens("the end of a transaction that wrote nothing" if text == "COMMIT" else text)
            self.other(text)

    def begin(self):
        self.end("BEGIN", Transaction())

    def commit(self):
        self.end("COMMIT", None)

    def rollback(self):
        self.transaction = None
        self.happens("ROLLBACK")
        self.other("ROLLBACK")

    # The others

    def reset(self):
        self.happens("RESET of entries" if self.server.entries else "RESET of nothing")
        self.server.remove_all()
        self.decide("", "reset", "reset")
        self.answer("RESET QUERY CACHE", self.ok())

    def flush(self):
        self.happens("FLUSH that moves " + self.server.blocks.flush(self.server.held()))
        self.decide("", "flush", "flush")
        self.answer("FLUSH QUERY CACHE", self.ok())

    def show(self):
        self.happens("SHOW STATUS")
        blocks, free, free_bytes = self.server.blocks.totals()
        counts = self.server.counts
        values = [("free_blocks", free), ("free_memory", free_bytes), ("hits", counts["hits"]), ("inserts", counts["inserts"]), ("lowmem_prunes", counts["prunes"]),
                  ("not_cached", counts["not_cached"]), ("queries_in_cache", len(self.server.entries)), ("total_blocks", blocks)]
        self.decide(" status %d %d %d" % (blocks, free, free_bytes), "status %d %d %d" % (blocks, free, free_bytes))
        self.answer("SHOW STATUS LIKE 'Qcache%'", packets.rows(STATUS_COLUMNS, [("Qcache_" + name, value) for name, value in values], self.status()))

    def ping(self):
        self.answer("ping", self.ok(), "local")
