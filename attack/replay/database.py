"""The database in dictionaries, operations on it, and what a changing statement makes of it."""

from formats import count_bytes, hex_text, row_payload, table_text
from sql import SqlError, unsupported

ROW_LIMIT = 1_048_576


class Column:
    """`length` is None for a BIGINT and the most bytes of a VARCHAR."""

    def __init__(self, name, length, not_null, primary):
        self.name, self.length, self.not_null, self.primary = name, length, not_null or primary, primary

    @property
    def flags(self):
        return 3 if self.primary else 1 if self.not_null else 0


class Table:
    """Columns, and rows by their key. A table is never changed, only replaced."""

    def __init__(self, columns, rows):
        self.columns, self.rows = columns, rows
        self.key = next(i for i, column in enumerate(columns) if column.primary)
        self.sorted = None

    def scan(self):
        """The rows by rising key."""
        if self.sorted is None:
            self.sorted = [self.rows[key] for key in sorted(self.rows)]
        return self.sorted

    def index(self, name):
        for i, column in enumerate(self.columns):
            if column.name == name:
                return i
        return None


def table_named(text):
    return b".".join(text)


# Operations are ("put", table, row), ("del", table, key), ("create", table, columns), ("drop", table),
# ("createdb", name) and ("dropdb", name). A database is a dictionary of dictionaries of tables.

def apply(database, operations):
    """The database that the operations make; raises SqlError 1114 where a table is then too full."""
    database = dict(database)
    copied = {}

    def tables(name):
        if name not in copied:
            copied[name] = database[name] = dict(database[name])
        return copied[name]

    changed = {}

    def rows(table):
        if table not in changed:
            old = database[table[0]][table[1]]
            changed[table] = tables(table[0])[table[1]] = Table(old.columns, dict(old.rows))
        return changed[table]

    for operation in operations:
        kind, about = operation[0], operation[1]
        if kind == "put":
            target = rows(about)
            target.rows[operation[2][target.key]] = operation[2]
        elif kind == "del":
            del rows(about).rows[operation[2]]
        elif kind == "create":
            changed[about] = tables(about[0])[about[1]] = Table(operation[2], {})
        elif kind == "drop":
            changed.pop(about, None)
            del tables(about[0])[about[1]]
        elif kind == "createdb":
            copied[about] = database[about] = {}
        elif kind == "dropdb":
            del database[about]
            copied.pop(about, None)
            changed = {table: value for table, value in changed.items() if table[0] != about}
    for table, value in changed.items():
        if len(value.rows) > ROW_LIMIT:
            raise SqlError(1114, table_named(table))
    return database


def touches(operation, table):
    """Whether an operation touches a table."""
    if operation[0] == "dropdb":
        return operation[1] == table[0]
    return operation[0] != "createdb" and operation[1] == table


def operation_text(operation, database):
    """An operation as a report tells it."""
    kind = operation[0]
    if kind == "put":
        return "put:%s:%s" % (table_text(operation[1]), row_payload(operation[2]).hex())
    if kind == "del":
        return "del:%s:%d" % (table_text(operation[1]), operation[2])
    if kind == "create":
        columns = b"".join(
            bytes([len(c.name)]) + c.name + (b"\x00\x00\x00" if c.length is None
                                             else b"\x01" + c.length.to_bytes(2, "little")) + bytes([c.flags])
            for c in operation[2])
        return "create:%s:%s" % (table_text(operation[1]), columns.hex())
    if kind == "drop":
        return "drop:" + table_text(operation[1])
    return "%s:%s" % (kind, hex_text(operation[1]))


def full_name(table, current):
    """Database and name of a table; the database is the current one where none is named."""
    return (current if table[0] is None else table[0], table[1])


def find(database, table, current):
    """The full name of a table and the table or None; raises 1046 and 1049."""
    name = full_name(table, current)
    if name[0] == b"":
        raise SqlError(1046)
    if name[0] not in database:
        raise SqlError(1049, name[0])
    return name, database[name[0]].get(name[1])


def must_find(database, table, current):
    name, found = find(database, table, current)
    if found is None:
        raise SqlError(1146, table_named(name))
    return name, found


def fits_kind(value, column):
    return value is None or isinstance(value, int) == (column.length is None)


def check_value(value, column):
    if value is None and column.not_null:
        raise SqlError(1048, column.name)
    if isinstance(value, bytes) and len(value) > column.length:
        raise SqlError(1406, column.name)


def effect(node, database, current, session):
    """The operations of a statement that changes something, and the affected rows."""
    return {
        "insert": insert, "update": update, "delete": delete, "truncate": truncate, "create": create, "drop": drop,
        "createdb": create_database, "dropdb": drop_database,
    }[node.kind](node, database, current, session)


def insert(node, database, current, _):
    name, table = must_find(database, node.table, current)
    if node.names is None:
        places = list(range(len(table.columns)))
    else:
        places = []
        for column in node.names:
            place = table.index(column)
            if place is None:
                raise SqlError(1054, column)
            if place in places:
                raise SqlError(1110, column)
            places.append(place)
    for place, column in enumerate(table.columns):
        if column.not_null and place not in places:
            raise SqlError(1364, column.name)
    operations, keys = [], set()
    for number, values in enumerate(node.rows, 1):
        if len(values) != len(places):
            raise SqlError(1136, number)
        row = [None] * len(table.columns)
        for value, place in zip(values, places):
            column = table.columns[place]
            if not fits_kind(value, column):
                raise unsupported(b"mixed value")
            check_value(value, column)
            row[place] = value
        key = row[table.key]
        if key in table.rows or key in keys:
            raise SqlError(1062, key)
        keys.add(key)
        if len(table.rows) + len(keys) > ROW_LIMIT:
            raise SqlError(1114, table_named(name))
        operations.append(("put", name, tuple(row)))
    return operations, len(operations)


def matching(node, name, table, session, current):
    """The rows of a table for which the condition is true, by rising key; the condition's errors come first."""
    from select_rows import Scope, condition_of
    scope = Scope([(node.table[1], name, table)], current, session)
    scope.check_condition(node.cond)
    if node.cond is None:
        return table.scan
    test = condition_of(scope, node.cond)
    return lambda: [row for row in table.scan() if test((row,)) is True]


def update(node, database, current, session):
    name, table = must_find(database, node.table, current)
    sets = []
    for column, kind, right in node.sets:
        place = table.index(column)
        if place is None:
            raise SqlError(1054, column)
        if place == table.key:
            raise unsupported(b"key change")
        if kind == "column":
            source = table.index(right)
            if source is None:
                raise SqlError(1054, right)
            if (table.columns[source].length is None) != (table.columns[place].length is None):
                raise unsupported(b"mixed value")
            sets.append((place, source, None))
        else:
            if not fits_kind(right, table.columns[place]):
                raise unsupported(b"mixed value")
            sets.append((place, None, right))
    operations = []
    for old in matching(node, name, table, session, current)():
        row = list(old)
        for place, source, literal in sets:
            value = literal if source is None else row[source]
            check_value(value, table.columns[place])
            row[place] = value
        if tuple(row) != old:
            operations.append(("put", name, tuple(row)))
    return operations, len(operations)


def delete(node, database, current, session):
    name, table = must_find(database, node.table, current)
    operations = [("del", name, row[table.key]) for row in matching(node, name, table, session, current)()]
    return operations, len(operations)


def truncate(node, database, current, _):
    name, table = must_find(database, node.table, current)
    return [("drop", name), ("create", name, table.columns)], 0


def create(node, database, current, _):
    name, table = find(database, node.table, current)
    if table is not None:
        raise SqlError(1050, table_named(name))
    columns = [part for part in node.parts if part[0] == "column"]
    keys = [part[1] for part in node.parts if part[0] == "primary"]
    if len(columns) > 64:
        raise SqlError(1117)
    names = [part[1] for part in columns]
    for i, column in enumerate(names):
        if column in names[:i]:
            raise SqlError(1060, column)
    for key in keys:
        if key not in names:
            raise SqlError(1072, key)
    primaries = [part[1] for part in columns if part[4]] + keys
    if len(primaries) != 1 or columns[names.index(primaries[0])][2] is not None:
        raise unsupported(b"primary key")
    for part in columns:
        if part[2] is not None and not 1 <= part[2] <= 65535:
            raise unsupported(b"VARCHAR length")
    made = [Column(part[1], part[2], part[3], part[1] == primaries[0]) for part in columns]
    return [("create", name, made)], 0


def drop(node, database, current, _):
    name, table = find(database, node.table, current)
    if table is None:
        raise SqlError(1051, table_named(name))
    return [("drop", name)], 0


def create_database(node, database, *_):
    if node.db in database:
        raise SqlError(1007, node.db)
    return [("createdb", node.db)], 1


def drop_database(node, database, *_):
    if node.db not in database:
        raise SqlError(1008, node.db)
    return [("dropdb", node.db)], len(database[node.db])
