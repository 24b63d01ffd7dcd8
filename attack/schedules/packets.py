"""Replies: their packets, and how a line of a case tells them."""


class Reply:
    def __init__(self, payloads, answer):
        self.packets = [len(payload).to_bytes(3, "little") + bytes([number % 256]) + payload for number, payload in enumerate(payloads, 1)]
        self.answer = answer

    def bytes(self):
        return b"".join(self.packets)

    def fronts(self):
        """The bytes up to the end of each packet."""
        return [sum(len(packet) for packet in self.packets[:number]) for number in range(1, len(self.packets) + 1)]


def integer(number):
    if number < 251:
        return bytes([number])
    return b"\xfc" + number.to_bytes(2, "little") if number < 65536 else b"\xfd" + number.to_bytes(3, "little")


def string(text):
    return integer(len(text)) + text.encode()


def ok(affected, status):
    return Reply([b"\0" + integer(affected) + b"\0" + status.to_bytes(2, "little") + b"\0\0"], "ok %d status %d" % (affected, status))


def error(code, state, text):
    return Reply([b"\xff" + code.to_bytes(2, "little") + b"#" + state.encode() + text.encode()], "error %d %s" % (code, text))


def definition(names, charset, length, kind, flags):
    """A column: its schema, table, original table, name and original name."""
    tail = charset.to_bytes(2, "little") + length.to_bytes(4, "little") + bytes([kind]) + flags.to_bytes(2, "little") + b"\0\0\0"
    return b"".join(string(name) for name in ["def"] + names) + b"\x0c" + tail


def number_column(names, flags):
    return definition(names, 63, 20, 0x08, flags)


def text_column(names, length):
    return definition(names, 33, length, 0xFD, 0)


def row(cells):
    return b"".join(string(str(cell)) for cell in cells)


def rows(columns, cells, status):
    end = b"\xfe\0\0" + status.to_bytes(2, "little")
    answer = "rows " + ";".join(",".join(str(cell) for cell in line) for line in cells) if cells else "no rows"
    return Reply([integer(len(columns))] + columns + [end] + [row(line) for line in cells] + [end], "%s status %d" % (answer, status))
