"""The state of one session, and what each of its commands answers."""

from database import apply, effect, operation_text, touches
from formats import Refused, error_reply, hex_text, ok_reply, rows_reply, table_text
from select_rows import prepare, rows, select_tables
from sql import SqlError, parse, trimmed, uncached_call

ALL_ROWS = (1 << 64) - 1
STATUS_NAMES = [b"Qcache_free_blocks", b"Qcache_free_memory", b"Qcache_hits", b"Qcache_inserts", b"Qcache_lowmem_prunes",
                b"Qcache_not_cached", b"Qcache_queries_in_cache", b"Qcache_total_blocks"]
SYSTEM = {b"mysql", b"information_schema", b"performance_schema"}


class Transaction:
    """A snapshot (a place and the database there, or None), its operations, and what it sees with them."""

    def __init__(self):
        self.snapshot = None
        self.operations = []
        self.view = None

    def see(self, place, database):
        if self.snapshot is None:
            self.snapshot, self.view = place, database

    def wrote(self, table):
        return any(touches(operation, table) for operation in self.operations)


def row_key(operation, database):
    """The key of the row that an operation puts or deletes, by the form of its table in a database."""
    table = database.get(operation[1][0], {}).get(operation[1][1])
    if operation[0] == "del" or table is None:
        return operation[2] if operation[0] == "del" else None
    return operation[2][table.key] if table.key < len(operation[2]) else None


def expect(event, text):
    """Refuses another event than the one that the command has."""
    who = "run %d %d " % (event.session, event.count)
    if not event.says(who + text):
        raise Refused("event %d should be: %s" % (event.number, (who + text)[:200]))


class Session:
    def __init__(self, number, kind):
        self.number = number
        self.db = b""
        self.autocommit = True
        self.charset = 33
        self.ansi = False
        self.row_limit = ALL_ROWS
        self.kind = kind
        self.transaction = None

    def status(self):
        return (1 if self.transaction else 0) | (2 if self.autocommit else 0)

    def ok(self, affected=0):
        return ok_reply(affected, self.status())

    # Commands

    def read(self, payload):
        """The statement of a command that has a deciding event, as (node, text), or the reply of one that has none."""
        if payload[:1] == b"\x02":
            return ("init", payload[1:]), None
        if payload == b"\x0e":
            return None, self.ok()
        if payload[:1] != b"\x03":
            return None, error_reply(SqlError(1047))
        text = trimmed(payload[1:])
        try:
            node = parse(text, self.ansi)
        except SqlError as error:
            return None, error_reply(error)
        if node.kind == "set" and node.variable.upper() != b"AUTOCOMMIT":
            return None, self.set_variable(node)
        return (node, text), None

    def set_variable(self, node):
        """SET of another variable than autocommit."""
        name, (kind, value) = node.variable.upper(), node.value
        word = value.upper() if kind == "word" else None
        number = value if kind == "number" else None
        if node.names:
            charset = {b"UTF8": 33, b"UTF8MB4": 45}.get(word)
            if charset is None:
                return error_reply(SqlError(1231, b"NAMES"))
            self.charset = charset
            return self.ok()
        if name == b"SQL_SELECT_LIMIT":
            if number is None and kind != "default":
                return error_reply(SqlError(1231, node.variable))
            self.row_limit = ALL_ROWS if kind == "default" else number
        elif name == b"SQL_MODE":
            if kind != "text" or value.upper() not in (b"", b"ANSI_QUOTES"):
                return error_reply(SqlError(1231, node.variable))
            self.ansi = value != b""
        elif name == b"QUERY_CACHE_TYPE":
            chosen = number if number in (0, 1, 2) else {b"OFF": 0, b"ON": 1, b"DEMAND": 2}.get(word)
            if chosen is None:
                return error_reply(SqlError(1231, node.variable))
            self.kind = chosen
        else:
            return error_reply(SqlError(1193, node.variable))
        return self.ok()

    def decide(self, statement, journal, event):
        """The reply of a command with a deciding event, which must be one that the command may have here. The journal
        holds what comes before it, and takes it."""
        node, text = statement
        if node == "init":
            return self.use(text, event, journal)
        if node.kind == "select":
            return self.select(node, text, journal, event)
        if node.kind in ("insert", "update", "delete"):
            return self.change_rows(node, journal, event)
        if node.kind in ("truncate", "create", "drop", "createdb", "dropdb"):
            return self.change_form(node, journal, event)
        if node.kind in ("begin", "commit", "set"):
            return self.end_transaction(node, journal, event)
        if node.kind == "rollback":
            expect(event, "other")
            self.transaction = None
            return self.ok()
        if node.kind == "use":
            return self.use(node.db, event, journal)
        if node.kind == "status":
            return self.show_status(journal, event)
        if not event.says("%s %d %d" % (node.kind, event.session, event.count)):
            raise Refused("event %d should be: %s" % (event.number, node.kind))
        (journal.flush if node.kind == "flush" else journal.reset)(event)
        return self.ok()

    # What a session sees

    def base(self, journal):
        """The database that a statement is judged on."""
        if self.transaction is not None and self.transaction.snapshot is not None:
            return self.transaction.view
        return journal.database

    def arrive(self, journal, event):
        """A statement on rows: without autocommit it opens a transaction, and its first one takes the snapshot."""
        if not self.autocommit and self.transaction is None:
            self.transaction = Transaction()
        if self.transaction is not None:
            self.transaction.see(event.number, journal.database)

    def visible(self, tables, journal):
        return self.hidden(tables, journal) is None

    def hidden(self, tables, journal):
        """The first reason for which an entry of these tables isn't seen, or None."""
        if self.transaction is None or self.transaction.snapshot is None:
            return None
        for table in tables:
            if self.transaction.wrote(table):
                return "written " + table_text(table)
        for table in tables:
            if journal.change(table) > self.transaction.snapshot:
                return "notvisible %s %d %d" % (table_text(table), journal.change(table), self.transaction.snapshot)
        return None

    def use(self, name, event, journal):
        expect(event, "other")
        database = self.base(journal)
        if name not in database:
            return error_reply(SqlError(1049, name[:64]))
        self.db = name
        return self.ok()

    # SELECT

    def key(self, text):
        return (bytes([len(self.db)]) + self.db + bytes([self.transaction is not None, self.autocommit])
                + self.charset.to_bytes(2, "little") + bytes([self.ansi]) + self.row_limit.to_bytes(8, "little")
                + b"\x00\x00" + text)

    def select(self, node, text, journal, event):
        if node.sources:
            self.arrive(journal, event)
        key = self.key(text)
        if journal.words == 0 or self.kind == 0:
            asked = "off"
        elif (node.cache == b"SQL_NO_CACHE") if self.kind == 1 else (node.cache != b"SQL_CACHE"):
            asked = "notasked"
        else:
            asked = None
        database = self.base(journal)
        try:
            scope = prepare(node, database, self.db, self.number, self.transaction is not None)
            error = None
            reply = self.rows(node, text, scope, journal)
        except SqlError as refusal:
            error = refusal
            reply = error_reply(refusal)
        if asked is None:
            for entry in journal.of_key(key):
                if entry.complete and self.visible(entry.tables, journal):
                    expect(event, "hit %d" % entry.serial)
                    journal.hit(event)
                    return reply
        tables = select_tables(node, self.db)
        reason = self.reason(node, error, asked, tables, key, journal)
        if reason is not None:
            expect(event, "plain " + reason)
            journal.plain(event)
        elif event.kind == "plain":
            if not event.fields[2].startswith("noroom "):
                raise Refused("event %d should be a start" % event.number)
            journal.no_room(event, key, tables)
            journal.plain(event)
        else:
            serial = len(journal.starts) + 1
            expect(event, "start %d %s %s" % (serial, hex_text(key), ",".join(map(table_text, tables))))
            if journal.of_key(key):
                raise Refused("event %d starts an entry whose key has one" % event.number)
            journal.start(event, key, tables, [len(packet) for packet in reply])
        return reply

    def rows(self, node, text, scope, journal):
        """The reply to a SELECT that isn't refused, looked up where the same one was made of the same tables. A table is never changed, only replaced."""
        about = self.number if uncached_call(node) else None
        key = (text, self.ansi, self.charset, self.row_limit, self.status(), self.db, about) + tuple(table for _, _, table in scope.sources)
        if key not in journal.replies:
            journal.replies[key] = rows_reply(*rows(node, scope, self.charset, self.row_limit), self.status())
        return journal.replies[key]

    def reason(self, node, error, asked, tables, key, journal):
        """The reason for which a SELECT that is no hit isn't stored, or None."""
        if error is not None:
            return "error %d" % error.code
        if asked is not None:
            return asked
        if node.lock:
            return "locking"
        if not tables:
            return "notables"
        for table in tables:
            if table[0].lower() in SYSTEM:
                return "systemtable " + table_text(table)
        word = uncached_call(node)
        if word is not None:
            return "function " + hex_text(word)
        hidden = self.hidden(tables, journal)
        if hidden is not None:
            return hidden
        for entry in journal.of_key(key):
            if not entry.complete:
                return "rival %d" % entry.serial
        return None

    # Changes

    def must_commit(self, event, operations):
        told = ",".join(operation_text(operation, None) for operation in operations)
        text = "commit %d %d %d %s" % (event.session, event.count, len(operations), told)
        if not event.says(text):
            raise Refused("event %d should be: %s" % (event.number, text[:200]))

    def change_rows(self, node, journal, event):
        self.arrive(journal, event)
        try:
            operations, affected = effect(node, self.base(journal), self.db, self.number)
        except SqlError as error:
            expect(event, "other")
            return error_reply(error)
        if self.transaction is not None or not operations:
            expect(event, "other")
            if operations:
                self.transaction.view = apply(self.transaction.view, operations)
                self.transaction.operations += operations
        else:
            self.must_commit(event, operations)
            journal.commit(event, operations)
        return self.ok(affected)

    def conflict(self, journal):
        """The first conflict of the open transaction, as the journal tells it, or None."""
        snapshot, tables = self.transaction.snapshot, self.transaction.view
        for number, operations in journal.commits:
            if number <= snapshot:
                continue
            formed = [o for o in operations if o[0] in ("create", "drop", "dropdb")]
            rows_met = {(o[1], row_key(o, tables)) for o in operations if o[0] in ("put", "del")}
            for own in self.transaction.operations:
                key = row_key(own, tables)
                if any(touches(other, own[1]) for other in formed):
                    return "conflict %s - %d" % (table_text(own[1]), number)
                if (own[1], key) in rows_met:
                    return "conflict %s %d %d" % (table_text(own[1]), key, number)
        return None

    def ends(self, journal, event):
        """The end of an open transaction: a reply where it is refused, else None. Nothing is committed yet."""
        if self.transaction is None or not self.transaction.operations:
            return None
        conflict = self.conflict(journal)
        if conflict is not None:
            expect(event, conflict)
            self.transaction = None
            return error_reply(SqlError(1213))
        try:
            apply(journal.database, self.transaction.operations)
        except SqlError as error:
            expect(event, "other")
            self.transaction = None
            return error_reply(error)
        return None

    def end_transaction(self, node, journal, event):
        """BEGIN, COMMIT and SET autocommit."""
        autocommit = None
        if node.kind == "set":
            kind, value = node.value
            autocommit = {0: False, 1: True}.get(value) if kind == "number" else \
                {b"OFF": False, b"ON": True}.get(value.upper()) if kind == "word" else None
            if autocommit is None:
                expect(event, "other")
                return error_reply(SqlError(1231, node.variable))
        if node.kind != "set" or (autocommit and not self.autocommit):
            refused = self.ends(journal, event)
            if refused is not None:
                return refused
            operations = self.transaction.operations if self.transaction is not None else []
            if operations:
                self.must_commit(event, operations)
                journal.commit(event, operations)
            else:
                expect(event, "other")
            self.transaction = None
        else:
            expect(event, "other")
        if autocommit is not None:
            self.autocommit = autocommit
        if node.kind == "begin":
            self.transaction = Transaction()
        return self.ok()

    def change_form(self, node, journal, event):
        """CREATE, DROP and TRUNCATE."""
        refused = self.ends(journal, event)
        if refused is not None:
            return refused
        before = list(self.transaction.operations) if self.transaction is not None else []
        database = apply(journal.database, before)
        try:
            operations, affected = effect(node, database, self.db, self.number)
        except SqlError as error:
            expect(event, "other")
            return error_reply(error)
        self.must_commit(event, before + operations)
        journal.commit(event, before + operations)
        self.transaction = None
        return self.ok(affected)

    # SHOW STATUS

    def show_status(self, journal, event):
        if event.kind != "status":
            raise Refused("event %d should be a status" % event.number)
        journal.status(event)
        blocks, free_blocks, free_bytes = event.fields[2:]
        _, hits, inserts, not_cached, prunes, entries = journal.counters()
        values = [free_blocks, free_bytes, hits, inserts, prunes, not_cached, entries, blocks]
        columns = [(b"", b"", b"", name, b"", self.charset, length, 0xFD, 0)
                   for name, length in ((b"Variable_name", 64), (b"Value", 20))]
        return rows_reply(columns, list(zip(STATUS_NAMES, [b"%d" % value for value in values])), self.status())
