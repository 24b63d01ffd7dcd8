"""Tokens and statements: a text of a query in, a tree of small tuples and classes out, or an SqlError."""

import functools
import re

WHITE = b"\t\n\x0b\x0c\r "

STATES = {
    1007: b"HY000", 1008: b"HY000", 1040: b"08004", 1046: b"3D000", 1047: b"08S01", 1048: b"23000", 1049: b"42000",
    1050: b"42S01", 1051: b"42S02", 1052: b"23000", 1054: b"42S22", 1060: b"42S21", 1062: b"23000", 1064: b"42000",
    1066: b"42000", 1072: b"42000", 1104: b"42000", 1110: b"42000", 1114: b"HY000", 1116: b"HY000", 1117: b"HY000",
    1136: b"21S01", 1146: b"42S02", 1193: b"HY000", 1213: b"40001", 1231: b"42000", 1235: b"42000", 1364: b"HY000",
    1406: b"22001",
}
TEXTS = {
    1007: b"Database exists: ", 1008: b"No such database to drop: ", 1046: b"No database selected",
    1047: b"Unknown command", 1048: b"Column cannot be null: ", 1049: b"Unknown database: ", 1050: b"Table exists: ",
    1051: b"Unknown table: ", 1052: b"Column is ambiguous: ", 1054: b"Unknown column: ", 1060: b"Duplicate column: ",
    1062: b"Duplicate entry: ", 1064: b"Syntax error at byte ", 1066: b"Table name is not unique: ",
    1072: b"Key column is not there: ", 1104: b"Too many row combinations", 1110: b"Column named twice: ",
    1114: b"Table is full: ", 1116: b"Too many tables", 1117: b"Too many columns",
    1136: b"Wrong number of values in row ", 1146: b"No such table: ", 1193: b"Unknown system variable: ",
    1213: b"Write conflict; transaction rolled back", 1231: b"Wrong value for variable: ", 1235: b"Not supported: ",
    1364: b"Column needs a value: ", 1406: b"Value too long for column: ",
}


class SqlError(Exception):
    """An error that a command is answered with."""

    def __init__(self, code, about=b""):
        self.code = code
        self.state = STATES[code]
        self.text = TEXTS[code] + (about if isinstance(about, bytes) else b"%d" % about)
        super().__init__(self.text)


def unsupported(word):
    return SqlError(1235, word)


def syntax(at):
    return SqlError(1064, at)


RESERVED = set(
    b"SELECT SQL_CACHE SQL_NO_CACHE FROM WHERE ORDER BY LIMIT OFFSET AS AND OR NOT IS NULL IN BETWEEN ASC DESC FOR LOCK "
    b"JOIN INNER LEFT RIGHT CROSS NATURAL ON INSERT INTO VALUES UPDATE SET DELETE TRUNCATE CREATE DROP TABLE DATABASE "
    b"PRIMARY KEY UNION GROUP HAVING DISTINCT EXISTS LIKE ALTER USE SHOW".split())
REFUSED_WORDS = set(
    b"UNION GROUP HAVING DISTINCT EXISTS LEFT RIGHT CROSS NATURAL ALTER AUTO_INCREMENT DEFAULT PREPARE EXECUTE CALL "
    b"UNLOCK REPLACE".split())
UNCACHED_CALLS = set(
    b"AES_DECRYPT AES_ENCRYPT BENCHMARK CONNECTION_ID CONVERT_TZ CURDATE CURRENT_DATE CURRENT_TIME CURRENT_TIMESTAMP "
    b"CURRENT_USER CURTIME DATABASE FOUND_ROWS GET_LOCK IS_FREE_LOCK IS_USED_LOCK LAST_INSERT_ID LOAD_FILE "
    b"MASTER_POS_WAIT NOW PASSWORD RAND RANDOM_BYTES RELEASE_ALL_LOCKS RELEASE_LOCK SLEEP SYSDATE USER UUID "
    b"UUID_SHORT".split())
OTHER_CALLS = {b"ENCRYPT", b"UNIX_TIMESTAMP"}
AGGREGATES = {b"COUNT", b"SUM", b"MIN", b"MAX"}
SPACE = re.compile(rb"[\t-\r ]*")
# A token that no comment can stand before.
NEAR = re.compile(rb"[\t-\r ]*(?:([A-Za-z_\x80-\xff][A-Za-z0-9_$\x80-\xff]*)|([0-9]+)|(<>|!=|<=|>=|[(),.;*=<>+]))")
PLAIN = re.compile(rb"([A-Za-z_\x80-\xff][A-Za-z0-9_$\x80-\xff]*)|([0-9]+)|(<>|!=|<=|>=|[(),.;*=<>+/-])")
ESCAPES = {0x30: 0x00, 0x27: 0x27, 0x22: 0x22, 0x62: 0x08, 0x6E: 0x0A, 0x72: 0x0D, 0x74: 0x09, 0x5A: 0x1A, 0x5C: 0x5C}

WORD, NAME, TEXT, NUMBER, SIGN, END = "word", "name", "text", "number", "sign", "end"


def trimmed(text):
    return text.lstrip(WHITE).rstrip(WHITE + b";")


class Token:
    def __init__(self, kind, value, start, end):
        self.kind, self.value, self.start, self.end = kind, value, start, end
        self.upper = value.upper() if kind == WORD else None


class Lexer:
    """Reads token by token, so that a fault is found only where the parser gets there."""

    def __init__(self, text, ansi):
        self.text, self.ansi, self.at = text, ansi, 0

    def skip(self):
        text = self.text
        while True:
            self.at = SPACE.match(text, self.at).end()
            front = text[self.at:self.at + 3]
            if front[:1] == b"#" or (front[:2] == b"--" and (len(front) == 2 or front[2] in WHITE)):
                end = text.find(b"\n", self.at)
                self.at = len(text) if end < 0 else end + 1
            elif front == b"/*!":
                raise unsupported(b"executable comment")
            elif front[:2] == b"/*":
                end = text.find(b"*/", self.at + 2)
                if end < 0:
                    raise syntax(self.at)
                self.at = end + 2
            else:
                return

    def next(self):
        text = self.text
        match = NEAR.match(text, self.at)
        if match:
            start = match.start(match.lastindex)
        else:
            self.skip()
            start = self.at
            if start == len(text):
                return Token(END, b"", start, start)
            match = PLAIN.match(text, start)
        if match:
            kind = (WORD, NUMBER, SIGN)[match.lastindex - 1]
            value = match.group(match.lastindex)
            if (kind == WORD and len(value) > 64) or (kind == NUMBER and int(value) >= 1 << 64):
                raise syntax(start)
            self.at = match.end()
            return Token(kind, value, start, self.at)
        byte = text[start]
        if byte == 0x60 or (byte == 0x22 and self.ansi):
            value, end = self.quoted(start, escapes=False)
            if not 1 <= len(value) <= 64:
                raise syntax(start)
            self.at = end
            return Token(NAME, value, start, self.at)
        if byte in b"'\"":
            value, end = self.quoted(start, escapes=True)
            if len(value) > 65535:
                raise syntax(start)
            self.at = end
            return Token(TEXT, value, start, self.at)
        raise syntax(start)

    def quoted(self, start, escapes):
        text, quote, at, value = self.text, self.text[start], start + 1, bytearray()
        rest = re.compile(rb"[^%s\\]*" % bytes([quote]))
        while True:
            plain = rest.match(text, at)
            value += plain.group()
            at = plain.end()
            if at >= len(text):
                raise syntax(start)
            byte = text[at]
            if byte == quote:
                if text[at + 1:at + 2] == bytes([quote]):
                    value.append(quote)
                    at += 2
                    continue
                return bytes(value), at + 1
            if byte == 0x5C and escapes:
                if at + 1 >= len(text):
                    raise syntax(start)
                following = text[at + 1]
                if following in b"%_":
                    value += bytes([0x5C, following])
                else:
                    value.append(ESCAPES.get(following, following))
                at += 2
                continue
            value.append(byte)
            at += 1


class Node:
    """A statement or a part of one, with named fields."""

    def __init__(self, kind, **fields):
        self.kind = kind
        self.__dict__.update(fields)


class Parser:
    def __init__(self, text, ansi):
        self.text = text
        self.lexer = Lexer(text, ansi)
        self.ahead = []
        self.before = None          # the token that was taken last
        self.behind_value = False   # whether a value ends with it
        self.in_select = False
        self.tests = 0
        self.open = 0

    # Tokens

    def peek(self, index=0):
        ahead = self.ahead
        while len(ahead) <= index:
            ahead.append(self.lexer.next())
        return ahead[index]

    def take(self):
        token = self.peek()
        self.ahead.pop(0)
        self.before = token
        self.behind_value = False
        return token

    def fail(self):
        """The refusal at the next token, with which nothing goes on."""
        token = self.peek()
        if token.kind == END:
            raise syntax(len(self.text))
        if token.kind == SIGN and self.behind_value and token.value in (b"+", b"-", b"*", b"/"):
            raise unsupported(b"arithmetic")
        if token.kind == WORD:
            if token.upper == b"SELECT" and self.before is not None and self.before.kind == SIGN \
                    and self.before.value == b"(":
                raise unsupported(b"subquery")
            if token.upper in REFUSED_WORDS:
                raise unsupported(token.upper)
            if token.upper == b"INTO" and self.in_select:
                raise unsupported(token.upper)
            if token.upper == b"LIKE" and self.tests:
                raise unsupported(token.upper)
            if token.upper == b"LOCK":
                try:
                    following = self.peek(1)
                except SqlError:
                    raise syntax(token.start)
                if following.kind == WORD and following.upper == b"TABLES":
                    raise unsupported(b"LOCK TABLES")
        raise syntax(token.start)

    def at_word(self, *words):
        token = self.ahead[0] if self.ahead else self.peek()
        return token.kind == WORD and token.upper in words

    def at_sign(self, *signs):
        token = self.ahead[0] if self.ahead else self.peek()
        return token.kind == SIGN and token.value in signs

    def word(self, *words):
        if not self.at_word(*words):
            self.fail()
        return self.take()

    def sign(self, *signs):
        if not self.at_sign(*signs):
            self.fail()
        return self.take()

    def accept_word(self, word):
        if self.at_word(word):
            self.take()
            return True
        return False

    def accept_sign(self, sign):
        if self.at_sign(sign):
            self.take()
            return True
        return False

    def at_name(self):
        token = self.peek()
        return token.kind == NAME or (token.kind == WORD and token.upper not in RESERVED)

    def name(self):
        if not self.at_name():
            self.fail()
        return self.take().value

    def number(self):
        if self.peek().kind != NUMBER:
            self.fail()
        return int(self.take().value)

    # Statements

    def statement(self):
        token = self.peek()
        if token.kind != WORD:
            self.fail()
        rule = {
            b"SELECT": self.select, b"INSERT": self.insert, b"UPDATE": self.update, b"DELETE": self.delete,
            b"TRUNCATE": self.truncate, b"CREATE": self.create, b"DROP": self.drop, b"USE": self.use,
            b"BEGIN": self.begin, b"START": self.begin, b"COMMIT": self.plain, b"ROLLBACK": self.plain,
            b"SHOW": self.show, b"FLUSH": self.flush, b"RESET": self.reset, b"SET": self.set,
        }.get(token.upper)
        if rule is None:
            self.fail()
        self.take()
        node = rule(token.upper)
        if self.peek().kind != END:
            self.fail()
        return node

    def plain(self, word):
        return Node(word.decode().lower())

    def begin(self, word):
        if word == b"START":
            self.word(b"TRANSACTION")
        return Node("begin")

    def use(self, _):
        return Node("use", db=self.name())

    def show(self, _):
        def step(fits):
            if self.peek().kind == END:
                self.fail()
            if not fits(self.peek()):
                raise unsupported(b"SHOW")
            self.take()
        if self.at_word(b"GLOBAL"):
            self.take()
        step(lambda t: t.kind == WORD and t.upper == b"STATUS")
        step(lambda t: t.kind == WORD and t.upper == b"LIKE")
        step(lambda t: t.kind == TEXT and t.value == b"Qcache%")
        return Node("status")

    def flush(self, _):
        if self.word(b"QUERY", b"TABLES").upper == b"TABLES":
            return Node("reset")
        self.word(b"CACHE")
        return Node("flush")

    def reset(self, _):
        self.word(b"QUERY")
        self.word(b"CACHE")
        return Node("reset")

    def set(self, _):
        if self.peek().kind != WORD:
            self.fail()
        first = self.take()
        variable = first.value
        if not self.at_sign(b"="):
            if first.upper == b"NAMES":
                if self.peek().kind != WORD:
                    self.fail()
                names = self.take().value
                if self.at_sign(b","):
                    raise unsupported(b"SET")
                return Node("set", variable=b"NAMES", names=True, value=(WORD, names))
            if first.upper in (b"GLOBAL", b"TRANSACTION"):
                if self.peek().kind == END:
                    self.fail()
                raise unsupported(b"SET " + first.upper)
            if first.upper == b"SESSION":
                if self.peek().kind != WORD:
                    self.fail()
                variable = self.take().value
        self.sign(b"=")
        token = self.peek()
        if token.kind == WORD and token.upper == b"DEFAULT":
            value = ("default", None)
        elif token.kind in (WORD, TEXT):
            value = (token.kind, token.value)
        elif token.kind == NUMBER:
            value = (NUMBER, int(token.value))
        else:
            self.fail()
        self.take()
        if self.at_sign(b","):
            raise unsupported(b"SET")
        return Node("set", variable=variable, names=False, value=value)

    def table(self):
        first = self.name()
        if self.accept_sign(b"."):
            return (first, self.name())
        return (None, first)

    def literal(self):
        """An int, a text or NULL, where one stands; else None."""
        token = self.peek()
        if token.kind == NUMBER or self.at_sign(b"-"):
            negative = self.accept_sign(b"-")
            value = self.number()
            value = -value if negative else value
            if not -(1 << 63) <= value < 1 << 63:
                raise unsupported(b"unsigned")
        elif token.kind == TEXT:
            value = self.take().value
        elif self.at_word(b"NULL"):
            self.take()
            value = None
        else:
            return None
        self.behind_value = True
        return (value,)

    def must_literal(self):
        literal = self.literal()
        if literal is None:
            self.fail()
        return literal[0]

    def bracketed(self, member):
        self.sign(b"(")
        members = [member()]
        while self.accept_sign(b","):
            members.append(member())
        self.sign(b")")
        return members

    def insert(self, _):
        self.word(b"INTO")
        table = self.table()
        names = self.bracketed(self.name) if self.at_sign(b"(") else None
        self.word(b"VALUES")
        rows = [self.bracketed(self.must_literal)]
        while self.accept_sign(b","):
            rows.append(self.bracketed(self.must_literal))
        return Node("insert", table=table, names=names, rows=rows)

    def update(self, _):
        table = self.table()
        self.word(b"SET")
        sets = [self.assignment()]
        while self.accept_sign(b","):
            sets.append(self.assignment())
        return Node("update", table=table, sets=sets, cond=self.where())

    def assignment(self):
        name = self.name()
        self.sign(b"=")
        literal = self.literal()
        if literal is not None:
            return (name, "literal", literal[0])
        right = self.name()
        self.behind_value = True
        return (name, "column", right)

    def delete(self, _):
        self.word(b"FROM")
        table = self.table()
        return Node("delete", table=table, cond=self.where())

    def where(self):
        return self.cond() if self.accept_word(b"WHERE") else None

    def truncate(self, _):
        self.accept_word(b"TABLE")
        return Node("truncate", table=self.table())

    def database_or_table(self, word):
        if self.peek().kind == END:
            self.fail()
        if not self.at_word(b"DATABASE", b"TABLE"):
            raise unsupported(word)
        return self.take().upper

    def create(self, word):
        if self.database_or_table(word) == b"DATABASE":
            return Node("createdb", db=self.name())
        table = self.table()
        parts = self.bracketed(self.part)
        if self.peek().kind == WORD:
            raise unsupported(b"table option")
        return Node("create", table=table, parts=parts)

    def part(self):
        if self.accept_word(b"PRIMARY"):
            self.word(b"KEY")
            self.sign(b"(")
            name = self.name()
            self.sign(b")")
            return ("primary", name)
        name = self.name()
        if self.accept_word(b"BIGINT"):
            length = None
        elif self.accept_word(b"VARCHAR"):
            self.sign(b"(")
            length = self.number()
            self.sign(b")")
        else:
            token = self.peek()
            if token.kind == WORD and token.upper not in RESERVED:
                raise unsupported(token.upper)
            self.fail()
        not_null = False
        if self.accept_word(b"NOT"):
            self.word(b"NULL")
            not_null = True
        else:
            self.accept_word(b"NULL")
        primary = False
        if self.accept_word(b"PRIMARY"):
            self.word(b"KEY")
            primary = True
        return ("column", name, length, not_null, primary)

    def drop(self, word):
        if self.database_or_table(word) == b"DATABASE":
            return Node("dropdb", db=self.name())
        return Node("drop", table=self.table())

    # SELECT

    def select(self, _):
        self.in_select = True
        cache = None
        if self.at_word(b"SQL_CACHE", b"SQL_NO_CACHE"):
            cache = self.take().upper
        node = Node("select", cache=cache, star=False, items=[], sources=[], cond=None, order=[], limit=None, lock=False)
        if self.accept_sign(b"*"):
            node.star = True
        else:
            node.items.append(self.item())
            while self.accept_sign(b","):
                node.items.append(self.item())
        if self.accept_word(b"FROM"):
            conds = []
            node.sources.append(self.source(node.sources))
            while True:
                if self.accept_sign(b","):
                    node.sources.append(self.source(node.sources))
                elif self.at_word(b"INNER", b"JOIN"):
                    if self.take().upper == b"INNER":
                        self.word(b"JOIN")
                    node.sources.append(self.source(node.sources))
                    self.word(b"ON")
                    conds.append(self.cond())
                else:
                    break
            if self.accept_word(b"WHERE"):
                conds.append(self.cond())
            if conds:
                node.cond = conds[0] if len(conds) == 1 else ("and", conds)
            if self.accept_word(b"ORDER"):
                self.word(b"BY")
                node.order.append(self.order())
                while self.accept_sign(b","):
                    node.order.append(self.order())
        if self.accept_word(b"LIMIT"):
            first = self.number()
            if self.accept_sign(b","):
                node.limit = (first, self.number())
            elif self.accept_word(b"OFFSET"):
                node.limit = (self.number(), first)
            else:
                node.limit = (0, first)
        if self.accept_word(b"FOR"):
            self.word(b"UPDATE")
            node.lock = True
        elif self.accept_word(b"LOCK"):
            for word in (b"IN", b"SHARE", b"MODE"):
                self.word(word)
            node.lock = True
        return node

    def item(self):
        start = self.peek().start
        value = self.value(True)
        end = self.before.end
        name = None
        if self.accept_word(b"AS"):
            name = self.name()
        elif self.at_name():
            name = self.take().value
        return Node("item", value=value, name=name, words=self.text[start:end][:255])

    def source(self, sources):
        table = self.table()
        if len(sources) == 8:
            self.peek()
            raise SqlError(1116)
        name = table[1]
        if self.accept_word(b"AS"):
            name = self.name()
        elif self.at_name():
            name = self.take().value
        return Node("source", table=table, name=name)

    def order(self):
        column = self.column()
        desc = False
        if self.at_word(b"ASC", b"DESC"):
            desc = self.take().upper == b"DESC"
        return (column, desc)

    def column(self):
        first = self.name()
        source = None
        if self.accept_sign(b"."):
            source, first = first, self.name()
        self.behind_value = True
        return ("column", source, first)

    def opens(self):
        self.open += 1
        if self.open > 64:
            raise unsupported(b"nesting")

    def closes(self):
        self.open -= 1

    def value(self, aggregates):
        literal = self.literal()
        if literal is not None:
            return ("literal", literal[0])
        token = self.peek()
        if token.kind == WORD and token.upper == b"DATABASE":
            self.take()
            if not self.at_sign(b"("):
                self.fail()
            return self.call(token, aggregates)
        if token.kind == WORD and token.upper not in RESERVED:
            try:
                following = self.peek(1)
            except SqlError:
                following = None
            if following is not None and following.kind == SIGN and following.value == b"(":
                if token.upper in AGGREGATES and not aggregates:
                    raise syntax(token.start)
                if token.upper not in AGGREGATES | UNCACHED_CALLS | OTHER_CALLS | {b"LENGTH", b"CONCAT"}:
                    raise unsupported(token.value)
                self.take()
                return self.call(token, aggregates)
        return self.column()

    def call(self, token, aggregates):
        self.sign(b"(")
        self.opens()
        word = token.upper
        if word == b"COUNT":
            if self.accept_sign(b"*"):
                value = ("countall",)
            else:
                value = ("count", self.value(False))
        elif word in AGGREGATES:
            value = (word.decode().lower(), self.column())
        elif word == b"LENGTH":
            value = ("length", self.value(aggregates))
        else:
            arguments = []
            if word == b"CONCAT" or not self.at_sign(b")"):
                arguments.append(self.value(aggregates))
                while self.accept_sign(b","):
                    arguments.append(self.value(aggregates))
            value = ("concat", arguments) if word == b"CONCAT" else ("call", token.value, arguments)
        self.sign(b")")
        self.closes()
        self.behind_value = True
        return value

    # Conditions

    def cond(self):
        return self.joined(b"OR", "or", lambda: self.joined(b"AND", "and", self.negated))

    def joined(self, word, kind, member):
        members = [member()]
        while self.accept_word(word):
            members.append(member())
        return members[0] if len(members) == 1 else (kind, members)

    def negated(self):
        if self.accept_word(b"NOT"):
            self.opens()
            inner = self.negated()
            self.closes()
            return ("not", inner)
        return self.test()

    def test(self):
        self.tests += 1
        if self.accept_sign(b"("):
            self.opens()
            inner = self.cond()
            self.sign(b")")
            self.closes()
        else:
            inner = self.plain_test()
        self.tests -= 1
        return inner

    def plain_test(self):
        left = self.value(False)
        if self.at_sign(b"=", b"<>", b"!=", b"<", b"<=", b">", b">="):
            op = self.take().value
            return ("compare", left, b"<>" if op == b"!=" else op, self.value(False))
        if self.accept_word(b"IS"):
            negative = self.accept_word(b"NOT")
            self.word(b"NULL")
            test = ("isnull", left)
        else:
            negative = self.accept_word(b"NOT")
            if self.at_word(b"IN"):
                self.take()
                test = ("in", left, self.bracketed(self.must_literal))
            elif self.at_word(b"BETWEEN"):
                self.take()
                low = self.value(False)
                self.word(b"AND")
                test = ("between", left, low, self.value(False))
            else:
                self.fail()
        return ("not", test) if negative else test


@functools.lru_cache(maxsize=4096)
def parsed(text, ansi):
    try:
        return Parser(text, ansi).statement()
    except SqlError as error:
        return error


def parse(text, ansi):
    """The statement of a trimmed text; raises SqlError 1064, 1235 or 1116."""
    statement = parsed(text, ansi)
    if isinstance(statement, SqlError):
        raise statement
    return statement


def calls(node):
    """The calls of a SELECT in the order of its text: word in capitals and number of arguments."""
    found = []

    def walk(value):
        if not isinstance(value, tuple):
            return
        if value[0] == "call":
            found.append((value[1].upper(), len(value[2])))
            for argument in value[2]:
                walk(argument)
        elif value[0] in ("and", "or", "concat"):
            for member in value[1]:
                walk(member)
        elif value[0] in ("count", "length", "not", "isnull", "in"):
            walk(value[1])
        elif value[0] == "compare":
            walk(value[1])
            walk(value[3])
        elif value[0] == "between":
            for member in value[1:]:
                walk(member)

    for item in node.items:
        walk(item.value)
    walk(node.cond)
    return found


def uncached_call(node):
    """The first call that keeps a SELECT out of the cache, in capitals, or None."""
    for word, count in calls(node):
        if word in UNCACHED_CALLS or (word == b"ENCRYPT" and count == 1) or (word == b"UNIX_TIMESTAMP" and count == 0):
            return word
    return None
