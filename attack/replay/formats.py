"""Scripts, packets and reports: bytes in, plain values out, and replies spelled as bytes."""

import functools
import re

PAYLOAD_LIMIT = 16_777_214
SESSION_LIMIT = 64


class Refused(Exception):
    """A script or a report that isn't one, or a report that is wrong."""


# Scripts

def packet(payload, sequence=0):
    """The bytes of one packet."""
    return len(payload).to_bytes(3, "little") + bytes([sequence % 256]) + payload


def read_script(data):
    """The input bytes of each session by its number; the setup part is session 0."""
    sessions = {}
    current = None
    lines = data.split(b"\n")
    if lines and lines[-1] == b"":
        lines.pop()
    for number, line in enumerate(lines, 1):
        if line == b"" or line.startswith(b"#"):
            continue
        if line == b"setup":
            if sessions:
                raise Refused("script: bad line %d" % number)
            current = 0
            sessions[0] = b""
            continue
        match = re.fullmatch(rb"session ([1-9][0-9]*)", line)
        if match:
            following = max([n for n in sessions if n > 0], default=0) + 1
            if int(match.group(1)) != following:
                raise Refused("script: bad line %d" % number)
            if following > SESSION_LIMIT:
                raise Refused("script: too many sessions at line %d" % number)
            current = following
            sessions[current] = b""
            continue
        piece = command_bytes(line)
        if piece is None:
            raise Refused("script: bad line %d" % number)
        if current is None:
            raise Refused("script: no session at line %d" % number)
        sessions[current] += piece
    return sessions


def command_bytes(line):
    """What a line of a command puts into the stream, or None for another line."""
    if line.startswith(b"query "):
        return packet(b"\x03" + line[6:])
    if line.startswith(b"init "):
        return packet(b"\x02" + line[5:])
    if line == b"ping":
        return packet(b"\x0e")
    if line == b"quit":
        return packet(b"\x01")
    if re.fullmatch(rb"raw ([0-9a-fA-F]{2})*", line):
        return bytes.fromhex(line[4:].decode())
    return None


def cut_commands(stream):
    """The payloads of a session's commands (that of COM_QUIT left out) and its ending."""
    commands = []
    at = 0
    while True:
        left = len(stream) - at
        if left == 0:
            return commands, "input"
        if left < 4:
            return commands, "cut %d" % left
        length = int.from_bytes(stream[at:at + 3], "little")
        if length > PAYLOAD_LIMIT:
            return commands, "toolong %d" % length
        if stream[at + 3] != 0:
            return commands, "badsequence %d 0" % stream[at + 3]
        if left < 4 + length:
            return commands, "cut %d" % left
        payload = stream[at + 4:at + 4 + length]
        if payload == b"\x01":
            return commands, "quit"
        commands.append(payload)
        at += 4 + length


# Replies

def count_bytes(number):
    """A length-encoded integer."""
    if number < 251:
        return bytes([number])
    if number < 1 << 16:
        return b"\xfc" + number.to_bytes(2, "little")
    if number < 1 << 24:
        return b"\xfd" + number.to_bytes(3, "little")
    return b"\xfe" + number.to_bytes(8, "little")


def text_bytes(text):
    """A length-encoded string."""
    return count_bytes(len(text)) + text


def cell_bytes(value):
    """A cell of a row: an integer, bytes, or None."""
    if value is None:
        return b"\xfb"
    if isinstance(value, int):
        return text_bytes(b"%d" % value)
    return text_bytes(value)


def row_payload(cells):
    return b"".join(map(cell_bytes, cells))


def ok_reply(affected, status):
    return [packet(b"\x00" + count_bytes(affected) + b"\x00" + status.to_bytes(2, "little") + b"\x00\x00", 1)]


def error_reply(error):
    """`error` has `code`, `state` and `text`."""
    return [packet(b"\xff" + error.code.to_bytes(2, "little") + b"#" + error.state + error.text, 1)]


def rows_reply(columns, rows, status):
    """The packets of a result set. A column has schema, table, original table, name, original name, charset,
    length, type and flags."""
    payloads = [count_bytes(len(columns))]
    for column in columns:
        schema, table, org_table, name, org_name, charset, length, kind, flags = column
        payloads.append(
            text_bytes(b"def") + text_bytes(schema) + text_bytes(table) + text_bytes(org_table)
            + text_bytes(name) + text_bytes(org_name) + b"\x0c" + charset.to_bytes(2, "little")
            + length.to_bytes(4, "little") + bytes([kind]) + flags.to_bytes(2, "little") + b"\x00\x00\x00")
    eof = b"\xfe\x00\x00" + status.to_bytes(2, "little")
    payloads.append(eof)
    payloads.extend(map(row_payload, rows))
    payloads.append(eof)
    return [packet(payload, sequence) for sequence, payload in enumerate(payloads, 1)]


def read_count(data, at):
    """A length-encoded integer at a place, in its shortest form, and the place behind it."""
    if at >= len(data):
        raise Refused("a reply is cut off")
    first = data[at]
    if first < 251:
        return first, at + 1
    width = {0xFC: 2, 0xFD: 3, 0xFE: 8}.get(first)
    if width is None or at + 1 + width > len(data):
        raise Refused("a length of a reply is wrong")
    number = int.from_bytes(data[at + 1:at + 1 + width], "little")
    if count_bytes(number) != data[at:at + 1 + width]:
        raise Refused("a length of a reply isn't in the shortest form")
    return number, at + 1 + width


def read_cells(data):
    """The texts and NULLs (None) that stand in a payload, to its end."""
    cells, at = [], 0
    while at < len(data):
        if data[at] == 0xFB:
            cells.append(None)
            at += 1
            continue
        length, at = read_count(data, at)
        if at + length > len(data):
            raise Refused("a text of a reply is cut off")
        cells.append(data[at:at + length])
        at += length
    return cells


def cut_packets(data):
    """The payloads of a reply, whose sequence numbers count from 1."""
    payloads, at, sequence = [], 0, 1
    while at < len(data):
        length = int.from_bytes(data[at:at + 3], "little")
        if at + 4 + length > len(data):
            raise Refused("a packet of a reply is cut off")
        if data[at + 3] != sequence % 256:
            raise Refused("a packet of a reply has a wrong sequence number")
        payloads.append(data[at + 4:at + 4 + length])
        at += 4 + length
        sequence += 1
    return payloads


def read_reply(data):
    """What a reply says: ("ok", affected, status), ("error", code, state, text) or ("rows", columns, rows, status)."""
    payloads = cut_packets(data)
    if not payloads or not payloads[0]:
        raise Refused("a reply is empty")
    first = payloads[0]
    if first[0] == 0xFF:
        if len(payloads) != 1 or len(first) < 9 or first[3:4] != b"#":
            raise Refused("an error packet is wrong")
        return ("error", int.from_bytes(first[1:3], "little"), first[4:9], first[9:])
    if first[0] == 0:
        affected, at = read_count(first, 1)
        if len(payloads) != 1 or first[at:at + 1] != b"\x00" or len(first) != at + 5 or first[at + 3:] != b"\x00\x00":
            raise Refused("an OK packet is wrong")
        return ("ok", affected, int.from_bytes(first[at + 1:at + 3], "little"))
    count, at = read_count(first, 0)
    if at != len(first) or not 1 <= count <= 64 or len(payloads) < count + 3:
        raise Refused("a result set is wrong")
    columns = []
    for payload in payloads[1:1 + count]:
        if len(payload) < 13 or payload[-13] != 0x0C or payload[-3:] != b"\x00\x00\x00":
            raise Refused("a column of a result set is wrong")
        names = read_cells(payload[:-13])
        if len(names) != 6 or names[0] != b"def" or None in names:
            raise Refused("a column of a result set is wrong")
        tail = payload[-12:]
        columns.append((names[1], names[2], names[3], names[4], names[5], int.from_bytes(tail[0:2], "little"),
                        int.from_bytes(tail[2:6], "little"), tail[6], int.from_bytes(tail[7:9], "little")))
    eof = payloads[1 + count]
    if len(eof) != 5 or eof[:3] != b"\xfe\x00\x00" or payloads[-1] != eof:
        raise Refused("an EOF packet is wrong")
    rows = [read_cells(payload) for payload in payloads[2 + count:-1]]
    if any(len(row) != count for row in rows):
        raise Refused("a row has a wrong number of cells")
    return ("rows", columns, rows, int.from_bytes(eof[3:], "little"))


# Reports

def hex_text(data):
    return data.hex() if data else "-"


def table_text(table):
    return hex_text(table[0]) + "." + hex_text(table[1])


NUMBER = r"(?:0|[1-9][0-9]*)"
HEX = r"(?:-|(?:[0-9a-f]{2})+)"
TABLE = HEX + r"\." + HEX
REASON = ("(?:error N|off|notasked|locking|notables|systemtable T|function H|written T|notvisible T N N|rival N|noroom N N)"
          .replace("N", NUMBER).replace("T", TABLE).replace("H", HEX))
EVENT_FORMS = {
    "hit": r"run (N) (N) hit (N)",
    "start": r"run (N) (N) start (N) (H) ((?:T(?:,T)*)?)",
    "plain": r"run (N) (N) plain (REASON)",
    "other": r"run (N) (N) other",
    "status": r"run (N) (N) status (N) (N) (N)",
    "conflict": r"run (N) (N) conflict (T) (-|-?N) (N)",
    "commit": r"commit (N) (N) (N) (.+)",
    "done": r"done (N)",
    "toolarge": r"gone (N) toolarge (N) (N)",
    "goneroom": r"gone (N) noroom (N) (N)",
    "ended": r"gone (N) ended",
    "prune": r"prune (N) (N) (N)",
    "reset": r"reset (N) (N)",
    "flush": r"flush (N) (N)",
}
DECIDING = {"hit", "start", "plain", "other", "status", "conflict", "commit", "reset", "flush"}
NUMBERS = {"hit": [1, 2, 3], "start": [1, 2, 3], "plain": [1, 2], "other": [1, 2], "status": [1, 2, 3, 4, 5],
           "conflict": [1, 2, 5], "commit": [1, 2, 3], "done": [1], "toolarge": [1, 2, 3], "goneroom": [1, 2, 3],
           "ended": [1], "prune": [1, 2, 3], "reset": [1, 2], "flush": [1, 2]}


def form_of(text):
    for name, form in (("REASON", REASON), ("N", NUMBER), ("T", TABLE), ("H", HEX)):
        text = re.sub(r"\b%s\b|(?<=[(,])%s(?=[(),])" % (name, name), lambda _: form, text)
    return re.compile(text)


FORMS = {kind: form_of(text) for kind, text in EVENT_FORMS.items()}


def event_kind(text):
    """The kind that an event's words name."""
    words = text.split(" ", 4)
    if words[0] == "run":
        return words[3] if len(words) > 3 else None
    if words[0] == "gone":
        return {"noroom": "goneroom"}.get(words[2], words[2]) if len(words) > 2 else None
    return words[0]


class Event:
    """One line of the journal: its number, its kind, and its fields as numbers or texts."""

    def __init__(self, number, text):
        self.number = number
        self.text = text
        kind = event_kind(text)
        match = FORMS[kind].fullmatch(text) if kind in FORMS else None
        if match:
            self.kind = kind
            fields = list(match.groups())
            for place in NUMBERS[kind]:
                fields[place - 1] = int(fields[place - 1])
            self.fields = fields
            self.deciding = kind in DECIDING
            self.session = fields[0] if self.deciding else None
            self.count = fields[1] if self.deciding else None
            return
        raise Refused("event %d isn't in the form: %s" % (number, text[:80]))

    def says(self, text):
        """Whether this is the event's text."""
        return self.text == text


@functools.lru_cache(maxsize=None)
def line_form(text):
    return re.compile(text.replace("N", NUMBER).replace("H", HEX))


class Report:
    """options, sessions (number -> (ending, lines of place, word, reply)), journal, counters."""


def read_report(data):
    """Reads a report strictly: every field has one spelling, and nothing stands behind `end`."""
    try:
        text = data.decode("ascii")
    except UnicodeDecodeError:
        raise Refused("the report has a byte that isn't ASCII")
    if not text.endswith("\n"):
        raise Refused("the report's last line has no end")
    lines = text[:-1].split("\n")
    at = 0

    def line(form):
        nonlocal at
        if at >= len(lines):
            raise Refused("the report ends too early")
        match = line_form(form).fullmatch(lines[at])
        if not match:
            raise Refused("line %d of the report isn't in the form: %s" % (at + 1, lines[at][:80]))
        at += 1
        return match.groups()

    report = Report()
    line("qcache report 1")
    report.options = tuple(map(int, line("options (N) (N) (N) (N)")))
    report.sessions = {}
    for _ in range(int(line("sessions (N)")[0])):
        number, count, ending = line("session (N) commands (N) end (quit|input|cut N|toolong N|badsequence N N)")
        if report.sessions and int(number) <= max(report.sessions):
            raise Refused("the sessions don't stand by their numbers")
        entries = []
        for _ in range(int(count)):
            place, word, reply = line("(N) (hit|start|plain|other|local) (H)")
            entries.append((int(place), word, b"" if reply == "-" else bytes.fromhex(reply)))
        report.sessions[int(number)] = (ending, entries)
    report.journal = []
    for number in range(1, int(line("journal (N)")[0]) + 1):
        text_number, event = line("(N) (.+)")
        if int(text_number) != number:
            raise Refused("event %d has the number %s" % (number, text_number))
        report.journal.append(Event(number, event))
    report.counters = tuple(map(int, line("counters (N) (N) (N) (N) (N) (N)")))
    line("end")
    if at != len(lines):
        raise Refused("something stands behind the report's end")
    return report
