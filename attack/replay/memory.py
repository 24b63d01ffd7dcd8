"""The blocks of the cache's memory, in words of 8 bytes: which are handed out, where, and for what."""

from formats import Refused

LEAST = 64


def raised(words):
    return max(LEAST, words)


def words_of(length):
    return (length + 7) // 8


class Tiles:
    """The tiling: the handed-out blocks by their first word; what lies between them is free."""

    def __init__(self, words):
        self.words = words
        self.taken = {}

    def free(self):
        """The free blocks in order, as pairs of first word and words."""
        blocks, at = [], 0
        for first in sorted(self.taken):
            if first > at:
                blocks.append((at, first - at))
            at = first + self.taken[first]
        if at < self.words:
            blocks.append((at, self.words - at))
        return blocks

    def largest(self):
        return max((words for _, words in self.free()), default=0)

    def take(self, need):
        """The first word of the smallest free block that holds the need, the lowest among equals; else None."""
        need = raised(need)
        fitting = [(words, first) for first, words in self.free() if words >= need]
        if not fitting:
            return None
        words, first = min(fitting)
        self.taken[first] = need if words - need >= LEAST else words
        return first

    def give_back(self, first):
        del self.taken[first]

    def trim(self, first, used):
        used = raised(used)
        if self.taken[first] - used >= LEAST:
            self.taken[first] = used

    def totals(self):
        free = self.free()
        return len(self.taken) + len(free), len(free), sum(words for _, words in free)


class Stored:
    """The blocks of one entry."""

    def __init__(self, tables, chain, text):
        self.tables, self.chain, self.text = tables, chain, text


class Memory:
    """The blocks of all entries. Every call that asks for blocks is given the prunes that the journal has for it, and
    refuses a journal in which they are others. `pick` names the entry that is pruned next, or None."""

    def __init__(self, words, unit):
        self.tiles = Tiles(words)
        self.unit = unit
        self.entries = {}
        self.tables = {}

    def used_words(self, stored):
        return sum(self.tiles.taken[first] for first in stored.chain)

    def names(self, table):
        return any(table in stored.tables for stored in self.entries.values())

    def need(self, words, prunes, pruned):
        """A block for a need, after the prunes that it takes; None where no entry is left to prune."""
        while True:
            first = self.tiles.take(words)
            if first is not None:
                return first
            if not prunes.left():
                return None
            prunes.next(raised(words), self.tiles.largest())
            pruned()

    def start(self, serial, tables, key_length, prunes):
        """Takes the blocks of a start. The answer is None, or the need and the largest free block of a NoRoom."""
        fresh = []
        stored = Stored(tables, [], None)

        def drop_pruned():
            self.drop(prunes.last, keeping=tables)

        def give_up(words):
            answer = (raised(words), self.tiles.largest())
            for first in stored.chain:
                self.tiles.give_back(first)
            for table in fresh:
                self.tiles.give_back(self.tables.pop(table))
            for table in tables:
                if table in self.tables and not self.names(table):
                    self.tiles.give_back(self.tables.pop(table))
            return answer

        for table in tables:
            if table not in self.tables:
                first = self.need(LEAST, prunes, drop_pruned)
                if first is None:
                    return give_up(LEAST)
                self.tables[table] = first
                fresh.append(table)
        first = self.need(self.unit, prunes, drop_pruned)
        if first is None:
            return give_up(self.unit)
        stored.chain.append(first)
        stored.text = self.need(words_of(key_length), prunes, drop_pruned)
        if stored.text is None:
            return give_up(words_of(key_length))
        self.entries[serial] = stored
        return None

    def grow(self, serial, prunes):
        """One more result block. The answer is None, or the need and the largest free block of a NoRoom."""
        first = self.need(self.unit, prunes, lambda: self.drop(prunes.last))
        if first is None:
            return raised(self.unit), self.tiles.largest()
        self.entries[serial].chain.append(first)
        return None

    def finish(self, serial, length):
        """Cuts the last block at the end of a fill."""
        stored = self.entries[serial]
        before = sum(self.tiles.taken[first] for first in stored.chain[:-1])
        self.tiles.trim(stored.chain[-1], words_of(length - 8 * before))

    def drop(self, serial, keeping=()):
        """Gives back the blocks of an entry. A start that is under way keeps the blocks of its tables."""
        stored = self.entries.pop(serial)
        for first in stored.chain + [stored.text]:
            self.tiles.give_back(first)
        for table in stored.tables:
            if table in self.tables and table not in keeping and not self.names(table):
                self.tiles.give_back(self.tables.pop(table))

    def flush(self):
        """Moves all blocks down, in order."""
        at, moved = 0, {}
        for first in sorted(self.tiles.taken):
            moved[first] = at
            at += self.tiles.taken[first]
        self.tiles.taken = {moved[first]: words for first, words in self.tiles.taken.items()}
        self.tables = {table: moved[first] for table, first in self.tables.items()}
        for stored in self.entries.values():
            stored.chain = [moved[first] for first in stored.chain]
            stored.text = moved[stored.text]

