"""What the server holds: the tables and the commits on them, the cache's entries and their blocks, and the journal."""

import packets

# The columns of each table: name, type, definition of the column in a result set, and what a report's `create` says of it. The first one is the key.
COLUMNS = {
    "t": [("id", "BIGINT key", packets.number_column(["d", "t", "t", "id", "id"], 3), "02696400000003"),
          ("v", "VARCHAR(2000)", packets.text_column(["d", "t", "t", "v", "v"], 2000), "017601d00700")],
    "u": [("id", "BIGINT key", packets.number_column(["d", "u", "u", "id", "id"], 3), "02696400000003"),
          ("w", "BIGINT", packets.number_column(["d", "u", "u", "w", "w"], 0), "017700000000")],
}

# The words of the smallest block.
LEAST = 64


# Operations of a commit: ("createdb",), ("create", table), ("drop", table), ("put", table, row), ("del", table, key).

def applied(ops, tables):
    """The tables, as rows by key, with operations done on them."""
    tables = {name: dict(rows) for name, rows in tables.items()}
    for word, *rest in ops:
        if word == "create":
            tables[rest[0]] = {}
        elif word == "drop":
            del tables[rest[0]]
        elif word == "put":
            tables[rest[0]][rest[1][0]] = rest[1]
        elif word == "del":
            del tables[rest[0]][rest[1]]
    return tables


def touched(ops):
    return {op[1] for op in ops if op[0] != "createdb"}


def key_of(op):
    """The key of the row that an operation puts or deletes; None where it creates or drops."""
    return op[2][0] if op[0] == "put" else op[2] if op[0] == "del" else None


def told(op):
    """An operation as a line of a case tells it."""
    if op[0] == "createdb":
        return "createdb d"
    rest = {"create": lambda: " " + ", ".join("%s %s" % column[:2] for column in COLUMNS[op[1]]), "drop": lambda: "",
            "put": lambda: " " + ",".join(str(value) for value in op[2]), "del": lambda: " %d" % op[2]}[op[0]]()
    return "%s d.%s%s" % (op[0], op[1], rest)


def name_of(table):
    """A table's name in a report."""
    return "64." + table.encode().hex()


def spelt(op):
    """An operation as a report tells it."""
    if op[0] == "createdb":
        return "createdb:64"
    rest = {"create": lambda: ":" + "".join(column[3] for column in COLUMNS[op[1]]), "drop": lambda: "",
            "put": lambda: ":" + packets.row(op[2]).hex(), "del": lambda: ":%d" % op[2]}[op[0]]()
    return "%s:%s%s" % (op[0], name_of(op[1]), rest)


class Blocks:
    """The memory, as blocks from its front: the words of each, and what it is for, which is None where it is free."""

    def __init__(self, words):
        self.blocks = [(words, None)] if words else []

    def take(self, need, owner):
        """Hands out the front of the smallest free block that holds the need, the lowest among equals. False where there is none."""
        fitting = self.fitting(need)
        if fitting:
            self.cut_at(min(fitting)[1], need, owner)
        return bool(fitting)

    def fitting(self, need):
        """The free blocks that hold a need: their words and places."""
        return [(words, place) for place, (words, owner) in enumerate(self.blocks) if owner is None and words >= need]

    def cut_at(self, place, words, owner):
        """The front of a block has an owner; the rest is free where it is a block."""
        rest = self.blocks[place][0] - words
        self.blocks[place:place + 1] = [(words, owner), (rest, None)] if rest >= LEAST else [(words + rest, owner)]
        self.join()

    def cut(self, owner, words):
        self.cut_at([other for _, other in self.blocks].index(owner), max(words, LEAST), owner)

    def give_back(self, kind, name):
        self.blocks = [(words, None if owner and owner[:2] == (kind, name) else owner) for words, owner in self.blocks]
        self.join()

    def join(self):
        joined = []
        for words, owner in self.blocks:
            if owner is None and joined and joined[-1][1] is None:
                words += joined.pop()[0]
            joined.append((words, owner))
        self.blocks = joined

    def flush(self, pinned):
        """Moves blocks down, but for the replies of these entries. Which blocks moved, in words."""
        moved, free = [], 0
        for words, owner in self.blocks + [(0, ("end", 0))]:
            if owner is None:
                free += words
                continue
            if free and (owner[0] == "end" or owner[0] == "reply" and owner[1] in pinned):
                moved.append((free, None))
                free = 0
            moved.append((words, owner))
        moved.pop()
        before, self.blocks = self.blocks, moved
        gaps = [sum(1 for _, owner in blocks if owner is None) for blocks in (before, moved)]
        return "nothing" if moved == before else "blocks" if gaps[0] == gaps[1] else "blocks and joins free ones"

    def of(self, kind, name):
        return [(words, owner) for words, owner in self.blocks if owner and owner[:2] == (kind, name)]

    def largest(self):
        return max([words for words, owner in self.blocks if owner is None], default=0)

    def totals(self):
        """How many blocks there are, how many free ones, and the bytes of these."""
        free = [words for words, owner in self.blocks if owner is None]
        return len(self.blocks), len(free), 8 * sum(free)


class Entry:
    def __init__(self, serial, key, tables):
        self.serial, self.key, self.tables, self.complete, self.was_hit = serial, key, tables, False, False


class Event:
    """Its text in a report, and what a line of a case tells. An entry's end has its serial."""

    def __init__(self, text, words, prunes=False, ends=None):
        self.text, self.words, self.prunes, self.ends = text, words, prunes, ends


class Server:
    def __init__(self, size, limit, unit):
        self.limit, self.unit = limit, max(LEAST, (unit + 7) // 8)
        self.blocks = Blocks(size // 1024 * 128)
        self.tables = {}
        self.commits = []       # the place and the operations of each
        self.entries = []       # the one first that was used longest ago
        self.tasks = {}         # the entry that a session streams or fills
        self.starting = []      # the tables of the entry that is being started
        self.journal = []
        self.counts = dict.fromkeys(["com_select", "hits", "inserts", "not_cached", "prunes"], 0)
        self.happened = []      # what the present step has brought

    def tell(self, text, words, prunes=False, ends=None):
        """Puts an event at the end of the journal, and gives its number."""
        self.journal.append(Event(text, words, prunes, ends))
        return len(self.journal)

    # The tables

    def commit(self, place, ops):
        self.tables = applied(ops, self.tables)
        self.commits.append((place, ops))
        for entry in list(self.entries):
            if touched(ops) & set(entry.tables):
                self.remove(entry)

    def last_change(self, table):
        return max([place for place, ops in self.commits if table in touched(ops)], default=0)

    def conflict(self, snapshot, own):
        """The first commit behind a snapshot that meets own operations: the table and key of the first that it meets, and its place. Else None."""
        for place, ops in self.commits:
            if place > snapshot:
                for mine in own:
                    met = [key_of(op) for op in ops if op[0] != "createdb" and op[1] == mine[1]]
                    if None in met:
                        return mine[1], None, place
                    if key_of(mine) in met:
                        return mine[1], key_of(mine), place
        return None

    # The entries

    def entry(self, serial):
        return next((entry for entry in self.entries if entry.serial == serial), None)

    def held(self):
        """The serials of the entries that sessions stream or fill."""
        return {serial for _, serial in self.tasks.values()}

    def remove(self, entry):
        self.entries.remove(entry)
        self.blocks.give_back("key", entry.serial)
        self.give_reply_back(entry.serial)
        self.give_tables_back(entry.tables)

    def remove_all(self):
        for entry in list(self.entries):
            self.remove(entry)

    def give_reply_back(self, serial):
        """The blocks of a reply go where its entry has left and no session streams or fills them."""
        if serial not in self.held() and self.entry(serial) is None:
            self.blocks.give_back("reply", serial)

    def give_tables_back(self, tables):
        """The block of a table goes with the last entry on it."""
        for table in tables:
            if table not in self.starting and not any(table in entry.tables for entry in self.entries):
                self.blocks.give_back("table", table)

    def let_go(self, session):
        """A session's stream or fill ends."""
        _, serial = self.tasks.pop(session)
        self.give_reply_back(serial)

    def take(self, need, owner, what):
        """Takes a block for a start or a fill, for which entries are pruned: those first that were used longest ago, of the complete ones that no session
        streams. Where none is left, the answer is the need and the largest free block, and else None."""
        need = max(need, LEAST)
        if len({words for words, _ in self.blocks.fitting(need)}) > 1:
            self.happened.append("a choice among free blocks for " + what)
        while not self.blocks.take(need, owner):
            largest = self.blocks.largest()
            idle = [entry for entry in self.entries if entry.complete and entry.serial not in self.held()]
            if not idle:
                return need, largest
            oldest = idle[0]
            self.happened.append("a prune for " + what)
            if oldest is not self.entries[0]:
                self.happened.append("a prune behind an entry that is streamed or filled")
            earlier = [entry for entry in idle if entry.serial < oldest.serial]
            if earlier:
                use = "complete" if not any(entry.was_hit for entry in earlier) else "used"
                self.happened.append("a prune of an entry that began after another and was %s before it" % use)
            elif len(idle) > 1:
                self.happened.append("a prune of an entry that began and was used before another")
            self.remove(oldest)
            self.counts["prunes"] += 1
            told_so = "prune %d %d %d" % (oldest.serial, need, largest)
            self.tell(told_so, told_so, prunes=True)
        return None

    def start(self, key, tables):
        """Starts an entry, and gives its serial, or the need and the largest free block that it lacked."""
        serial, self.starting = self.counts["inserts"] + 1, tables
        lacks = None
        for table in tables:
            if not lacks and not self.blocks.of("table", table):
                lacks = self.take(LEAST, ("table", table), "a start")
        lacks = lacks or self.take(self.unit, ("reply", serial, 1), "a start") or self.take((len(key) + 7) // 8, ("key", serial), "a start")
        self.starting = []
        if lacks:
            self.blocks.give_back("reply", serial)
            self.give_tables_back(tables)
            return None, lacks
        self.counts["inserts"] = serial
        self.entries.append(Entry(serial, key, tables))
        return serial, None

    def fill(self, session, length):
        """A fill comes to so many bytes: it takes blocks until they hold them, or it is given up. Whether it goes on."""
        _, serial = self.tasks[session]
        entry = self.entry(serial)
        if length > self.limit:
            return self.give_up(session, entry, "toolarge %d %d" % (length, self.limit), "gone %d over %d" % (length, self.limit))
        while True:
            chain = self.blocks.of("reply", serial)
            if 8 * sum(words for words, _ in chain) >= length:
                return True
            if entry is None:
                return self.give_up(session, entry, "", "")
            lacks = self.take(self.unit, ("reply", serial, len(chain) + 1), "a further block")
            if lacks:
                return self.give_up(session, entry, "noroom %d %d" % lacks, "gone for want of room")
            self.happened.append("a further block")

    def give_up(self, session, entry, why, words):
        if entry:
            self.remove(entry)
            self.tell("gone %d %s" % (entry.serial, why), words, ends=entry.serial)
        self.happened.append("a fill that grows too large" if "over" in words else "a fill that lacks room" if entry else "the end of an overtaken fill")
        self.let_go(session)
        return False

    def complete(self, session, length):
        """A fill has come to its end, at so many bytes. Its last block is cut to what it uses."""
        _, serial = self.tasks[session]
        entry = self.entry(serial)
        if entry:
            *chain, (_, last) = sorted(self.blocks.of("reply", serial), key=lambda block: block[1])
            self.blocks.cut(last, (length + 7) // 8 - sum(words for words, _ in chain))
            entry.complete = True
            self.use(entry)
            self.tell("done %d" % serial, "done", ends=serial)
        self.happened.append("the end of a fill" if entry else "the end of an overtaken fill")
        self.let_go(session)

    def use(self, entry):
        self.entries.remove(entry)
        self.entries.append(entry)

    def is_empty(self):
        """Whether all memory is free, in one piece."""
        return [owner for _, owner in self.blocks.blocks] == [None]

    def counters(self):
        """The counters at the end of a report."""
        return [self.counts[name] for name in ("com_select", "hits", "inserts", "not_cached", "prunes")] + [len(self.entries)]
