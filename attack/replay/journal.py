"""What a journal makes: the database, the cache's entries in the order of use, the counters. And whether an event may
follow those before it."""

from database import apply, touches
from formats import Refused
from handed_out import OVER, handed_out, may_be_largest, may_have_totals, most_free_after_flush
from memory import LEAST, Memory, raised, words_of


class Entry:
    def __init__(self, serial, key, tables, session, number, packets):
        self.serial, self.key, self.tables = serial, key, tables
        self.session, self.number, self.packets = session, number, packets
        self.length = sum(packets)
        self.complete, self.filling = False, True


class Journal:
    """The state after the events that were taken so far. `blocks` is the memory, as long as the journal determines it:
    what a session streams or fills beside others isn't told, and `blocks` is None from there to the next reset that
    meets nobody."""

    def __init__(self, options):
        self.size, self.limit, unit, _ = options
        self.words, self.unit = self.size // 8, unit // 8
        self.blocks = Memory(self.words, self.unit)
        self.number = 0
        self.database = {}
        self.replies = {}
        self.commits = []
        self.table_changes, self.drops = {}, {}
        self.cache, self.starts = {}, {}
        self.counts = {}
        self.last = {}
        self.com_select = self.hits = self.inserts = self.not_cached = self.prunes = 0
        self.pending = []
        self.flushed = -1, 0

    # What is asked of the state

    def change(self, table):
        """The number of the last commit that touched a table, or 0."""
        return max(self.table_changes.get(table, 0), self.drops.get(table[0], 0))

    def counters(self):
        return (self.com_select, self.hits, self.inserts, self.not_cached, self.prunes, len(self.cache))

    def of_key(self, key):
        return [entry for entry in self.cache.values() if entry.key == key]

    def entry(self, event, complete):
        entry = self.cache.get(event.fields[0])
        if entry is None or entry.complete != complete:
            raise Refused("event %d names an entry that isn't %s" % (event.number, "complete" if complete else "being filled"))
        return entry

    def others(self, session):
        """The last events of the other sessions. The setup session has ended when others have events."""
        return [event for other, event in self.last.items() if other != session and (other != 0 or session == 0)]

    def streamed(self, serial, session):
        """Whether a session other than this one may stream an entry."""
        return any(event.kind == "hit" and event.fields[2] == serial for event in self.others(session))

    def in_use(self, session):
        """The entries that sessions other than this one may stream or fill, whether they have left the cache or not."""
        serials = {event.fields[2] for event in self.others(session)
                   if event.kind == "hit" or event.kind == "start" and self.starts[event.fields[2]].filling}
        return [self.starts[serial] for serial in serials]

    def handed_out(self, session):
        left = [entry for entry in self.in_use(session) if entry.serial not in self.cache]
        return handed_out(list(self.cache.values()), left, self.unit)

    def has_idle(self, session):
        """Whether a complete entry stands that nobody but this session may stream."""
        return any(entry.complete and not self.streamed(entry.serial, session) for entry in self.cache.values())

    def must_be_crowded(self, event, need, largest, session):
        """A need of a session that isn't met: the largest free block is below it, and the region is no larger than its blocks allow."""
        if largest >= need:
            raise Refused("event %d: a free block holds the need" % event.number)
        amount = self.handed_out(session)
        # The entry that is being started may have its tables' blocks and its first result block.
        amount.add((0, 9), (0, 8 * (LEAST + OVER) + self.unit + OVER))
        may_be_largest(amount, self.words, largest, event)
        counted = dict(self.cache)
        for last in self.last.values():
            serial = None
            if last.kind in ("hit", "start"):
                serial = last.fields[2]
            elif last.kind == "plain" and last.fields[2].startswith("rival "):
                serial = int(last.fields[2].split()[1])
            if serial is not None:
                counted[serial] = self.starts[serial]
        blocks = 9 + sum(2 + len(e.tables) + e.length // (8 * self.unit) for e in counted.values())
        most = 63 + max([LEAST, self.unit, need] + [words_of(len(e.key)) for e in counted.values()])
        if self.words >= (2 * blocks + 1) * most:
            raise Refused("event %d: the region isn't crowded" % event.number)

    def may_prune(self, event, acting):
        """A prune is of a complete entry, and those that were used longer ago are streamed, by another session than the
        one that prunes, where it is known."""
        serial, need, largest = event.fields
        self.must_be_crowded(event, need, largest, acting)
        entry = self.entry(event, True)
        for older in self.cache.values():
            if older is entry:
                return
            if older.complete and not self.streamed(older.serial, acting):
                raise Refused("event %d: entry %d was used longer ago" % (event.number, older.serial))

    def has_no_idle(self, event, session):
        if self.has_idle(session):
            raise Refused("event %d: an entry could have been pruned" % event.number)

    # Events

    def arrives(self, event):
        """What holds of every event that isn't a prune, before its own rules."""
        self.number = event.number
        if event.deciding:
            count = self.counts.get(event.session, 0) + 1
            if event.count != count:
                raise Refused("event %d has the number %d of session %d in place of %d"
                              % (event.number, event.count, event.session, count))
            if event.session == 0 and any(session != 0 for session in self.last):
                raise Refused("event %d of the setup session follows one of another" % event.number)
            last = self.last.get(event.session)
            if last is not None and last.kind == "start":
                entry = self.cache.get(last.fields[2])
                if entry is not None and not entry.complete:
                    raise Refused("event %d comes while the session fills entry %d" % (event.number, entry.serial))
        own = event.fields[0] if event.kind in ("done", "toolarge", "goneroom", "ended") else None
        for entry in self.cache.values():
            if not entry.complete and entry.serial != own and entry.length > 8 * self.unit:
                self.blocks = None

    def passed(self, event):
        """What every event leaves behind."""
        if event.deciding:
            self.counts[event.session] = event.count
            self.last[event.session] = event
        self.only_fills_prune()

    def only_fills_prune(self):
        """Prunes that no start has called for are those of a fill that goes on."""
        for event in self.pending:
            if self.blocks is not None or event.fields[1] != self.unit or not event.filling:
                raise Refused("event %d: no need calls for it" % event.number)
        self.pending = []

    def prune(self, event, acting):
        self.number = event.number
        self.may_prune(event, acting)
        event.filling = any(not entry.complete for entry in self.cache.values())
        self.forget(event.fields[0])
        self.prunes += 1
        self.pending.append(event)

    def forget(self, serial):
        """Takes an entry off the list, but not yet its blocks."""
        return self.cache.pop(serial)

    def take_prunes(self, session):
        """The pending prunes as an order of blocks takes them; they are put back on the list for it, in its order."""
        events, self.pending = self.pending, []
        return PrunesOf(self, events, session)

    def check_needs(self, events, allowed):
        for event in events:
            if event.fields[1] not in allowed:
                raise Refused("event %d has a need that nothing has" % event.number)

    def start_needs(self, key):
        return {LEAST, self.unit, raised(words_of(len(key)))}

    def hit(self, event):
        entry = self.cache[event.fields[2]]
        self.cache[entry.serial] = self.cache.pop(entry.serial)
        self.hits += 1

    def start(self, event, key, tables, packets):
        self.com_select += 1
        self.inserts += 1
        serial = event.fields[2]
        self.check_needs(self.pending, self.start_needs(key))
        if self.blocks is None:
            self.pending = []
        else:
            prunes = self.take_prunes(event.session)
            short = self.blocks.start(serial, tables, len(key), prunes)
            prunes.finish()
            if short is not None:
                raise Refused("event %d should be: noroom %d %d" % ((event.number,) + short))
        entry = Entry(serial, key, tables, event.session, event.number, packets)
        self.cache[serial] = self.starts[serial] = entry

    def no_room(self, event, key, tables):
        need, largest = map(int, event.fields[2].split()[1:])
        self.must_be_crowded(event, need, largest, event.session)
        self.check_needs(self.pending, self.start_needs(key))
        if need not in self.start_needs(key):
            raise Refused("event %d has a need that nothing has" % event.number)
        self.has_no_idle(event, event.session)
        if self.blocks is None:
            self.pending = []
            return
        prunes = self.take_prunes(event.session)
        short = self.blocks.start(None, tables, len(key), prunes)
        prunes.finish()
        if short is None:
            raise Refused("event %d: there is room" % event.number)
        if short != (need, largest):
            raise Refused("event %d should be: noroom %d %d" % ((event.number,) + short))

    def plain(self, event):
        self.com_select += 1
        if not event.fields[2].startswith("error "):
            self.not_cached += 1

    def too_large(self, entry):
        """The length of the shortest front of whole packets that is longer than the limit, or None."""
        length = 0
        for packet in entry.packets:
            length += packet
            if length > self.limit:
                return length
        return None

    def fill_ends(self, event):
        """Done and Gone."""
        entry = self.entry(event, False)
        too_large = self.too_large(entry)
        if event.kind == "done" and too_large is not None:
            raise Refused("event %d stores an answer that is longer than the limit" % event.number)
        if event.kind == "toolarge" and event.fields[1:] != [too_large, self.limit]:
            raise Refused("event %d has a wrong length or limit" % event.number)
        if event.kind == "goneroom":
            need, largest = event.fields[1:]
            if need != self.unit:
                raise Refused("event %d has a need that nothing has" % event.number)
            self.must_be_crowded(event, need, largest, entry.session)
            self.has_no_idle(event, entry.session)
        if event.kind == "ended":
            raise Refused("event %d: no session ends in a fill" % event.number)
        if self.blocks is None:
            self.check_needs(self.pending, {self.unit})
            self.pending = []
        else:
            prunes = self.take_prunes(entry.session)
            expected = self.filled(entry, prunes)
            prunes.finish()
            if expected != event.text:
                raise Refused("event %d should be: %s" % (event.number, expected))
        entry.filling = False
        if event.kind == "done":
            entry.complete = True
            self.cache[entry.serial] = self.cache.pop(entry.serial)
            if self.blocks is not None:
                self.blocks.finish(entry.serial, entry.length)
        else:
            self.forget(entry.serial)
            if self.blocks is not None:
                self.blocks.drop(entry.serial)

    def filled(self, entry, prunes):
        """Takes the blocks of a fill, packet by packet; the answer is the event that ends it."""
        length = 0
        capacity = 8 * self.blocks.used_words(self.blocks.entries[entry.serial])
        for packet in entry.packets:
            length += packet
            if length > self.limit:
                return "gone %d toolarge %d %d" % (entry.serial, length, self.limit)
            while length > capacity:
                short = self.blocks.grow(entry.serial, prunes)
                if short is not None:
                    return "gone %d noroom %d %d" % ((entry.serial,) + short)
                capacity = 8 * self.blocks.used_words(self.blocks.entries[entry.serial])
        return "done %d" % entry.serial

    def remove(self, serials, session):
        for serial in serials:
            entry = self.forget(serial)
            if self.blocks is not None:
                if not entry.complete or self.streamed(serial, session):
                    self.blocks = None
                else:
                    self.blocks.drop(serial)

    def commit(self, event, operations):
        self.remove([entry.serial for entry in self.cache.values()
                     if any(touches(o, table) for o in operations for table in entry.tables)], event.session)
        self.database = apply(self.database, operations)
        self.commits.append((event.number, operations))
        for operation in operations:
            if operation[0] == "dropdb":
                self.drops[operation[1]] = event.number
            elif operation[0] != "createdb":
                self.table_changes[operation[1]] = event.number

    def busy_others(self, session):
        """Whether another session may have a stream or a fill."""
        for event in self.others(session):
            if event.kind == "hit":
                return True
            if event.kind == "start" and self.starts[event.fields[2]].filling:
                return True
        return False

    def reset(self, event):
        self.remove(list(self.cache), event.session)
        if not self.busy_others(event.session):
            self.blocks = Memory(self.words, self.unit)

    def flush(self, event):
        self.flushed = event.number, most_free_after_flush(self.in_use(event.session), self.unit)
        if self.busy_others(event.session):
            self.blocks = None
        if self.blocks is not None:
            self.blocks.flush()

    def status(self, event):
        blocks, free_blocks, free_bytes = event.fields[2:]
        if self.blocks is not None:
            totals = self.blocks.tiles.totals()
            if (blocks, free_blocks, free_bytes) != (totals[0], totals[1], 8 * totals[2]):
                raise Refused("event %d should have the totals %d %d %d"
                              % (event.number, totals[0], totals[1], 8 * totals[2]))
        may_have_totals(self.handed_out(event.session), self.words, event)
        if event.number == self.flushed[0] + 1 and free_blocks > self.flushed[1]:
            raise Refused("event %d: %d blocks are free behind a flush, and at most %d may be" % (event.number, free_blocks, self.flushed[1]))


class PrunesOf:
    """The prunes before an event, matched one by one with the needs that call for them."""

    def __init__(self, journal, events, session):
        self.journal, self.events, self.session = journal, events, session
        self.at, self.last = 0, None

    def left(self):
        return self.at < len(self.events) or self.journal.has_idle(self.session)

    def next(self, need, largest):
        if self.at >= len(self.events):
            raise Refused("before event %d a prune with need %d and largest %d is missing"
                          % (self.journal.number, need, largest))
        event = self.events[self.at]
        if event.fields[1:] != [need, largest]:
            raise Refused("event %d should have the need %d and the largest %d" % (event.number, need, largest))
        self.at += 1
        self.last = event.fields[0]

    def finish(self):
        if self.at != len(self.events):
            raise Refused("event %d: no need calls for it" % self.events[self.at].number)
