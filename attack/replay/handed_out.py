"""What is handed out of the memory, as far as a journal tells it without the blocks: the least and the most that the entries need, with what other sessions
may still stream or fill of entries that have left. A report that tells another number has a block that nobody has, or lacks one that somebody has."""

from formats import Refused
from memory import LEAST, raised, words_of

# A block is handed out whole where less than the smallest block would be left of it.
OVER = LEAST - 1


class Amount:
    """The least and the most blocks and words."""

    def __init__(self):
        self.blocks = self.words = (0, 0)

    def add(self, blocks, words):
        self.blocks = tuple(map(sum, zip(self.blocks, blocks)))
        self.words = tuple(map(sum, zip(self.words, words)))


def result_blocks(entry, unit):
    """The least and the most blocks of a result of its whole length, whose blocks but the last have no room left."""
    return -(-entry.length // (8 * (unit + OVER))), -(-entry.length // (8 * unit))


def add_result(amount, entry, unit):
    """The result blocks of an entry that stands."""
    least, most = result_blocks(entry, unit)
    if not entry.complete:
        amount.add((1, most), (unit, most * (unit + OVER)))
        return
    words = words_of(entry.length)
    amount.add((least, most), (raised(words), words + 2 * OVER))


def handed_out(entries, left, unit):
    """What is handed out where these entries stand and those of `left` may still be streamed or filled."""
    amount = Amount()
    for _ in {table for entry in entries for table in entry.tables}:
        amount.add((1, 1), (LEAST, LEAST + OVER))
    for entry in entries:
        text = raised(words_of(len(entry.key)))
        amount.add((1, 1), (text, text + OVER))
        add_result(amount, entry, unit)
    for entry in left:
        most = result_blocks(entry, unit)[1]
        amount.add((0, most), (0, most * (unit + OVER)))
    return amount


def may_have_totals(amount, words, event):
    """The totals of a SHOW STATUS."""
    blocks, free_blocks, free_bytes = event.fields[2:]
    taken, used = blocks - free_blocks, words - free_bytes // 8
    fits = free_bytes % 8 == 0 and free_bytes // 8 >= LEAST * free_blocks and used >= LEAST * taken and free_blocks <= taken + 1
    if not fits or (free_blocks == 0) != (free_bytes == 0):
        raise Refused("event %d has totals that no tiling has" % event.number)
    if not amount.blocks[0] <= taken <= amount.blocks[1]:
        raise Refused("event %d: %d blocks are handed out, and should be %d to %d" % ((event.number, taken) + amount.blocks))
    if not amount.words[0] <= used <= amount.words[1]:
        raise Refused("event %d: %d words are handed out, and should be %d to %d" % ((event.number, used) + amount.words))


def may_be_largest(amount, words, largest, event):
    """The largest free block where a need isn't met."""
    free = words - amount.words[1], words - amount.words[0]
    if 0 < largest < LEAST or not -(-free[0] // (amount.blocks[1] + 1)) <= largest <= max(0, free[1]):
        raise Refused("event %d: of %d to %d free words between at most %d blocks the largest free block can't have %d"
                      % (event.number, free[0], free[1], amount.blocks[1], largest))


def most_free_after_flush(in_use, unit):
    """The most free blocks right behind a flush, which leaves one beside each block that is streamed or filled; the block itself may be given back since."""
    return 1 + 2 * sum(result_blocks(entry, unit)[1] for entry in in_use)
