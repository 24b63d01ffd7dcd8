"""Random scripts, made so that hits, prunes, want of room, too large replies, transactions, flushes and resets come often."""

import random

NAMES = [b"t", b"u", b"w"]
TEXT_LENGTHS = [0, 1, 2, 3, 5, 9, 17, 40, 100, 249, 250, 251, 252, 400, 700, 1500]


class Maker:
    def __init__(self, seed, sessions=1):
        self.random = random.Random(seed)
        self.sessions = sessions
        pick = self.random
        self.wide = pick.random() < 0.5         # long texts, so that replies are large
        self.faults = pick.choice([0, 0, 0.01, 0.03, 0.3])
        self.transactions = pick.choice([0, 0.05, 0.2])
        self.writes = pick.choice([0.05, 0.15, 0.3])
        self.grow = pick.random() < 0.25        # replies of several blocks in a small memory
        if self.grow:
            self.wide, self.faults = True, 0
        self.selects = [self.select() for _ in range(pick.choice([3, 6, 12]))]
        self.previous = self.selects[0]

    def options(self):
        pick = self.random
        size = pick.choice([self.one(0, 1000), 1024, 2048, 2048, 3072, 2048, 3072, 3072, 4096, 5120, 8192, 8192, 16384, 65536] if not self.chance(0.01) else [1048576, 67108864])
        limit = pick.choice([self.one(0, 61, 62, 63, 100), 200, 500, 1000, 4000, 20000, 1048576, 67108864, 1048576])
        unit = pick.choice([512, 512, 513, 520, 600, 1000, 1024, 2048, 4096, 8192])
        kind = pick.choice([1, 1, 1, 1, 1, 1, 1, 1, 1, 2, 2, 0])
        if self.grow:
            size, unit, kind = pick.choice([3072, 4096, 6144, 8192, 16384, 32768]), pick.choice([512, 512, 520, 600, 1024]), 1
            limit = pick.choice([1500, 4000, 8000, 1048576, 1048576])
        return size, limit, unit, kind

    # Parts

    def one(self, *choices):
        choice = self.random.choice(choices)
        return choice() if callable(choice) else choice

    def chance(self, share):
        return self.random.random() < share

    def text(self):
        length = self.random.choice(TEXT_LENGTHS if self.wide else TEXT_LENGTHS[:7])
        kind = self.random.randrange(12)
        if kind == 0:
            return self.one(b"'a''b'", b"'\\n\\0\\%\\q'", b'"x"', b"'it\\'s'", b"''", b"'\xc3\xa4\xff'", b"'7'", b"'-7'")
        return b"'" + bytes(self.random.choice(b"abcxyz 09") for _ in range(min(length, 12))).ljust(length, b"k")[:length] + b"'"

    def small(self):
        return b"%d" % self.random.randint(0, 9)

    def number(self):
        return self.one(self.small, self.small, self.small, lambda: b"- " + self.small(), lambda: b"-%d" % self.random.randint(0, 300),
                        b"9223372036854775807", b"-9223372036854775808", lambda: b"%d" % self.random.randint(10, 1000))

    def literal(self):
        return self.one(self.number, self.number, self.text, b"NULL")

    def table(self):
        name = self.random.choice(NAMES)
        if self.chance(self.faults):
            return self.one(b"nope", b"x.t", b"d.nope", b"`t`", b"mysql.t", b"T", b"`a``b`", b"e.t")
        return self.one(name, name, b"d." + name, name) if name != b"w" else self.one(b"w", b"d.w", b"d.w", b"e.t")

    def column(self, sources=()):
        plain = self.one(b"id", b"id", b"v", b"s")
        if self.chance(self.faults):
            return self.one(b"nope", b"x.id", b"`v`", b"ID", b"t.nope")
        if sources and (len(sources) > 1 or self.chance(0.2)):
            return self.random.choice(sources) + b"." + plain
        return plain

    def value(self, sources, aggregates=False, depth=0):
        kind = self.random.randrange(14)
        if aggregates and kind < 5:
            return self.one(b"COUNT(*)", lambda: b"COUNT(" + self.value(sources, False, depth + 1) + b")",
                            lambda: self.one(b"SUM", b"MIN", b"MAX", b"sum") + b"(" + self.column(sources) + b")",
                            lambda: b"SUM(" + self.one(b"id", b"v") + b")")
        if kind < 9 or depth > 2:
            return self.column(sources)
        if kind < 11:
            return self.literal()
        if kind == 11:
            return b"LENGTH(" + self.value(sources, aggregates, depth + 1) + b")"
        if kind == 12:
            return b"CONCAT(" + b",".join(self.value(sources, aggregates, depth + 1) for _ in range(self.random.randint(1, 3))) + b")"
        if self.chance(0.05):
            return self.one(b"DATABASE()", b"CONNECTION_ID()")
        return self.one(b"DATABASE()", b"CONNECTION_ID()", b"connection_id()", b"NOW()", b"UNIX_TIMESTAMP()", b"ENCRYPT(id, v)", b"rand(1)",
                        b"DATABASE(1)", b"nope(1)", b"id") if self.chance(self.faults) else self.column(sources)

    def test(self, sources, depth=0):
        kind = self.random.randrange(12)
        if depth < 3 and kind == 0:
            return b"(" + self.cond(sources, depth + 1) + b")"
        if depth < 3 and kind == 1:
            return b"NOT " + self.test(sources, depth + 1)
        if kind == 2:
            return self.value(sources) + self.one(b" IS NULL", b" IS NOT NULL")
        if kind == 3:
            column, member = self.one((b"v", self.number), (b"s", self.text), (b"id", self.number), (b"v", self.literal))
            if sources and len(sources) > 1:
                column = sources[0] + b"." + column
            return column + self.one(b" IN (", b" NOT IN (") + b", ".join(member() for _ in range(self.random.randint(1, 3))) + b")"
        if kind == 4:
            return self.typed(sources) + self.one(b" BETWEEN ", b" NOT BETWEEN ") + self.number() + b" AND " + self.number()
        if kind < 9:
            return self.typed(sources) + self.one(b" = ", b"<", b" >= ", b"<>", b" != ", b" <= ", b" > ") + self.one(self.number, lambda: self.typed(sources))
        if kind == 9:
            prefix = self.random.choice(sources) + b"." if sources else b""
            return prefix + b"s" + self.one(b" = ", b" < ", b" >= ") + self.one(self.text, b"NULL")
        if not self.chance(0.1 + self.faults):
            return self.typed(sources) + b" > " + self.number()
        return self.value(sources) + self.one(b" = ", b" < ", b" > ", b" <> ") + self.value(sources)

    def typed(self, sources):
        """A column of numbers."""
        prefix = self.random.choice(sources) + b"." if sources and (len(sources) > 1 or self.chance(0.2)) else b""
        return prefix + self.one(b"id", b"v", b"id", b"LENGTH(s)" if not prefix else b"v")

    def cond(self, sources, depth=0):
        text = self.test(sources, depth)
        while self.chance(0.3):
            text += self.one(b" AND ", b" OR ", b" and ") + self.test(sources, depth)
        return text

    def select(self):
        pick = self.random
        if self.grow and self.chance(0.8):
            return (b"SELECT " + self.one(b"*", b"s", b"s, s", b"id, s") + b" FROM " + self.one(b"t", b"t", b"u", b"w")
                    + self.one(b"", b" WHERE id < %d" % pick.randint(0, 400), b" WHERE id > %d" % pick.randint(0, 400), b" LIMIT %d" % pick.randint(1, 9)))
        if self.chance(0.05):
            return b"SELECT " + self.one(b"1", b"'a', NULL, 7 AS x", b"DATABASE()", b"1 LIMIT 0", b"COUNT(*)", b"*", b"CONCAT('a', 5) y", b"1 FOR UPDATE",
                                         b"id")
        sources, text = [], b""
        for i in range(pick.choice([1, 1, 1, 1, 2, 2, 3])):
            table = self.table()
            alias = self.one(b" AS a%d" % i, b" b%d" % i) if (self.chance(0.9) if i else self.chance(0.3)) else b""
            name = alias.split()[-1] if alias else table.split(b".")[-1]
            if i == 0:
                text = table + alias
            elif self.chance(0.5):
                text += b", " + table + alias
            else:
                text += self.one(b" JOIN ", b" INNER JOIN ") + table + alias + b" ON " + self.test(sources + [name])
            sources.append(name)
        aggregated = self.chance(0.2)
        if self.chance(0.3):
            items = b"*"
        else:
            items = b", ".join(self.value(sources, aggregated) + self.one(b"", b"", b"", b" AS n", b" m") for _ in range(pick.randint(1, 3)))
            if aggregated and self.chance(0.8):
                items = self.one(b"COUNT(*)", b"COUNT(*), SUM(id), MAX(id)", b"MIN(s), MAX(v)", b"SUM(v)") if len(sources) == 1 else b"COUNT(*)"
        text = b"SELECT " + self.one(b"", b"", b"", b"", b"", b"SQL_CACHE ", b"SQL_NO_CACHE " if self.chance(0.3) else b"SQL_CACHE ") + items + b" FROM " + text
        if self.chance(0.4):
            text += b" WHERE " + self.cond(sources)
        if self.chance(0.2) and not aggregated:
            text += b" ORDER BY " + self.column(sources) + self.one(b"", b" DESC", b" ASC, " + self.column(sources))
        if self.chance(0.15):
            text += b" LIMIT " + self.one(self.small, b"1, 2", b"2 OFFSET 1", b"18446744073709551615 OFFSET 2", b"0")
        if self.chance(0.03):
            text += self.one(b" FOR UPDATE", b" LOCK IN SHARE MODE")
        return text

    # Statements

    def put(self):
        if self.grow:
            rows = b", ".join(b"(%d, %d, %s)" % (key, self.random.randint(-9, 9), self.text())
                              for key in self.random.sample(range(400), self.random.choice([1, 3, 8])))
            return b"INSERT INTO " + self.random.choice(NAMES) + b" VALUES " + rows
        table, rows = self.table(), []
        for _ in range(self.random.choice([1, 1, 2, 5, 12] if not self.chance(0.02) else [60, 120])):
            key = b"%d" % self.random.randint(0, 400) if self.chance(0.9) else self.literal()
            rows.append(b"(" + key + b", " + self.one(self.number, b"NULL", self.number) + b", " + self.one(self.text, self.text, b"NULL") + b")")
        names = self.one(b"", b" (id, v, s)", b" (id, v, s)", b" (id, v, s)") if not self.chance(self.faults) else self.one(b" (id)", b" (v, s)", b" (s, id, id)", b" (id, v)")
        return b"INSERT INTO " + table + names + b" VALUES " + b", ".join(rows)

    def change(self):
        table = self.table()
        name = table.split(b".")[-1]
        where = b" WHERE " + self.cond([name]) if self.chance(0.8) else b""
        if self.chance(0.3):
            return b"DELETE FROM " + table + (where or b" WHERE id < 20")
        sets = self.one(lambda: b"v = " + self.number(), lambda: b"s = " + self.text(), b"v = id", b"v = NULL", lambda: b"s = 'q', v = id, v = " + self.number(),
                        b"id = 3" if self.chance(self.faults) else b"v = v", b"s = v" if self.chance(self.faults) else b"v = 1")
        return b"UPDATE " + table + b" SET " + sets + where

    def form(self):
        return self.one(
            lambda: self.create(self.random.choice(NAMES)), lambda: self.create(self.random.choice(NAMES)),
            lambda: b"DROP TABLE " + self.table(), lambda: self.create(self.random.choice(NAMES)), lambda: b"TRUNCATE " + self.one(b"", b"TABLE ") + self.table(),
            b"CREATE DATABASE e", b"DROP DATABASE e", b"CREATE DATABASE mysql", lambda: self.create(b"e.t"), lambda: self.create(b"mysql.t"),
            b"DROP DATABASE d" if self.chance(0.05) else b"CREATE DATABASE d", self.odd_create)

    def odd_create(self):
        parts = []
        for _ in range(self.random.randint(1, 4)):
            parts.append(self.one(b"a BIGINT", b"b VARCHAR(3) NOT NULL", b"c BIGINT NULL PRIMARY KEY", b"a VARCHAR(0)", b"PRIMARY KEY (a)", b"id BIGINT PRIMARY KEY",
                                  b"PRIMARY KEY (z)", b"d INT", b"s VARCHAR(65536)", b"e BIGINT DEFAULT 1", b"g VARCHAR(5) PRIMARY KEY", b"f BIGINT AUTO_INCREMENT"))
        return b"CREATE TABLE " + self.one(b"o", b"d.o", b"t") + b" (" + b", ".join(parts) + b")" + self.one(b"", b"", b"", b" ENGINE=x")

    def create(self, name):
        if self.grow:
            return b"CREATE TABLE " + name + b" (id BIGINT PRIMARY KEY, v BIGINT, s VARCHAR(2000))"
        form = self.one(b"(id BIGINT PRIMARY KEY, v BIGINT, s VARCHAR(%d))" % self.random.choice([20, 300, 2000, 65535]),
                        b"(id BIGINT, v BIGINT NOT NULL, s VARCHAR(1000) NOT NULL, PRIMARY KEY (id))",
                        b"(id BIGINT PRIMARY KEY, v BIGINT, s VARCHAR(1000))", b"(v BIGINT, s VARCHAR(255), id BIGINT PRIMARY KEY)")
        return b"CREATE TABLE " + name + b" " + form

    def setting(self):
        return self.one(b"SET autocommit = 0", b"SET autocommit = 1", b"SET autocommit=ON", b"SET AUTOCOMMIT = off", b"SET NAMES utf8", b"SET NAMES utf8mb4",
                        b"SET sql_select_limit = %d" % self.random.randint(0, 4), b"SET sql_select_limit = DEFAULT", b"SET SESSION query_cache_type = DEMAND",
                        b"SET query_cache_type = 1", b"SET query_cache_type = ON", b"SET query_cache_type = 0" if self.chance(0.3) else b"SET query_cache_type = 1", b"SET sql_mode = 'ANSI_QUOTES'", b"SET sql_mode = ''",
                        b"SET autocommit = 2", b"SET nope = 1", b"SET NAMES latin1", b"SET query_cache_type = 3", b"SET sql_mode = 'x'", b"SET sql_mode = ansi_quotes",
                        b"SET sql_select_limit = DEFAULT", b"SET query_cache_type = 1", b"SET autocommit = 1", b"SET names = 1")

    def spoiled(self, text):
        """The text with a token taken out, doubled, moved or put in."""
        pieces = text.replace(b"(", b" ( ").replace(b")", b" ) ").replace(b",", b" , ").replace(b".", b" . ").split(b" ")
        at = self.random.randrange(len(pieces))
        kind = self.random.randrange(5)
        if kind == 0:
            del pieces[at]
        elif kind == 1:
            pieces.insert(at, pieces[at])
        elif kind == 2:
            other = self.random.randrange(len(pieces))
            pieces[at], pieces[other] = pieces[other], pieces[at]
        elif kind == 3:
            del pieces[at + 1:]
        else:
            pieces.insert(at, self.one(b"+", b"-", b"*", b"/", b"(", b")", b",", b".", b";", b"SELECT", b"UNION", b"GROUP", b"LIKE", b"INTO", b"NOT", b"LOCK", b"LOCK TABLES", b"DISTINCT",
                                       b"'x", b"`", b"``", b"@", b"!", b"%", b"99999999999999999999", b"9223372036854775808", b"/*", b"/*!", b"-- ", b"#", b"/* c */", b"NULL", b"DATABASE",
                                       b"COUNT(", b"SUM(MIN(", b"LENGTH(", b"foo(", b"IS", b"IN", b"BETWEEN", b"AND", b"x", b"1", b"REPLACE", b"DEFAULT", b"TABLE", b"JOIN", b"LEFT", b"GLOBAL",
                                       b"NAMES", b"=", b"CALL", b"w" * 65, b"\xc3\xa4", b"COUNT", b"HAVING", b"VALUES", b"SET"))
        return b" ".join(pieces)

    def query(self):
        pick = self.random.random()
        if pick < self.writes:
            return self.one(self.put, self.put, self.change)
        if pick < self.writes + 0.04:
            return self.form()
        if pick < self.writes + 0.04 + self.transactions:
            return self.one(b"BEGIN", b"START TRANSACTION", b"COMMIT", b"ROLLBACK", b"COMMIT", b"begin", b"SET autocommit = 0", b"SET autocommit = 1")
        if pick < self.writes + 0.07 + self.transactions:
            return self.setting()
        if pick < self.writes + 0.13 + self.transactions:
            return self.one(b"SHOW STATUS LIKE 'Qcache%'", b"SHOW STATUS LIKE 'Qcache%'", b"SHOW GLOBAL STATUS LIKE 'Qcache%'", b"FLUSH QUERY CACHE", b"FLUSH QUERY CACHE",
                            b"FLUSH TABLES", b"RESET QUERY CACHE")
        if pick < self.writes + 0.15 + self.transactions:
            return self.one(b"USE d", b"USE d", b"USE d", b"USE d", b"USE e", b"USE nope", b"USE mysql", b"USE d")
        if self.chance(0.15):
            return self.select()
        if self.chance(0.25):
            return self.previous
        text = self.previous = self.random.choice(self.selects)
        if self.chance(0.1):
            text = self.one(b" ", b"\t", b"  ") + text + self.one(b";", b" ; ;", b" ")
        if self.chance(0.03):
            text = text.replace(b" ", b"  ", 1)
        if self.chance(0.02):
            text = b"/* c */ " + text + self.one(b" -- x", b" # y", b"")
        return text

    def line(self):
        if self.chance(0.03):
            return self.one(b"ping", b"init d", b"init d", b"init d", b"init e" if self.chance(0.2) else b"init d", b"init nope", b"raw 010000001d", b"raw 00000000", b"raw 0200000e0e".replace(b"00000e", b"0000000e", 1), b"init ",
                            b"raw 0200000001ff", b"query ", b"init " + b"n" * 70, b"# c", b"")
        text = self.query()
        if self.chance(self.faults * 0.5):
            text = self.spoiled(text)
        if b"\n" in text:
            return b"raw " + (len(text) + 1).to_bytes(3, "little").hex().encode() + b"0003" + text.hex().encode()
        return b"query " + text

    def setup(self):
        lines = [b"query CREATE DATABASE d", b"init d"]
        for name in NAMES:
            lines.append(b"query " + self.create(name))
        lines.append(b"query CREATE DATABASE e")
        lines.append(b"query " + self.create(b"e.t"))
        for _ in range(self.random.randint(1, 4)):
            lines.append(b"query " + self.put())
        return lines

    def script(self):
        lines = []
        if self.sessions > 1:
            lines = [b"setup"] + self.setup()
        for number in range(1, self.sessions + 1):
            lines.append(b"session %d" % number)
            lines += self.setup() if self.sessions == 1 else [b"init d"]
            lines += [self.line() for _ in range(self.random.choice([10, 25, 45, 80]))]
            lines += self.one([], [], [], [b"quit"], [b"raw 0100"], [b"raw 05000000034142"], [b"raw 010000010e"], [b"raw ffffff00"], [b"quit", b"ping"])
        return b"\n".join(lines) + self.one(b"\n", b"")
