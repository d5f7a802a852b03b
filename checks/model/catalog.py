"""Tables and change streams, and the refusals of a statement: of those that hold the first in this order is answered."""
import re

from .refusal import Refusal

DAY = 86400 * 10 ** 6
HOUR = 3600 * 10 ** 6
GREATEST = {"STRING": 2621440, "BYTES": 10485760}
CAPTURES = ("OLD_AND_NEW_VALUES", "NEW_VALUES", "NEW_ROW", "NEW_ROW_AND_OLD_VALUES")
EXCLUSIONS = ("exclude_insert", "exclude_update", "exclude_delete", "exclude_ttl_deletes", "allow_txn_exclusion")
ORDER = (
    "TableThere", "NoTable", "NoColumn", "KeyListed", "ColumnTwice", "StreamThere", "NoStream", "TooManyStreams", "ColumnWatched",
    "BadOption", "BadRetention", "NotBuilt", "ItemTwice", "TooManyColumns", "BadLength",
)


class Table:
    """`columns` leads from a name to its type's code, its length and whether it is NOT NULL."""

    def __init__(self, columns, key):
        self.columns = columns
        self.key = key

    def code(self, name):
        return self.columns[name][0]

    def others(self):
        """The columns that are none of the key."""
        return [it for it in self.columns if it not in self.key]


class Stream:
    """`watch` is ALL, or a list of tables with their listed columns."""

    def __init__(self, watch, capture, retention, created):
        self.watch = watch
        self.capture = capture
        self.retention = retention
        self.created = created

    def watches_table(self, table):
        return self.watch == "ALL" or any(name == table for name, _ in self.watch)

    def watches(self, table, column):
        return self.watch == "ALL" or any(name == table and (listed is None or column in listed) for name, listed in self.watch)


def first_again(names):
    """The first name that an earlier one is, if any."""
    return next((name for place, name in enumerate(names) if name in names[:place]), None)


def length_holds(code, length):
    return code not in GREATEST or length is None or 1 <= length <= GREATEST[code]


class Catalog:
    def __init__(self):
        self.tables = {}
        self.streams = {}

    def apply(self, at, statement):
        if statement[0] == "NotBuilt":
            raise Refusal("NotBuilt")
        found = {}
        tried = {"CreateTable": self.table_faults, "AddColumn": self.column_faults, "CreateStream": self.stream_faults}
        for name, held in tried[statement[0]](*statement[1:]):
            found.setdefault(name, held)
        for name in ORDER:
            if name in found:
                raise Refusal(name, found[name])
        self.take(at, *statement)

    def take(self, at, what, name, *rest):
        if what == "CreateTable":
            columns, key = rest
            self.tables[name] = Table({column: kind for column, *kind in columns}, key)
        elif what == "AddColumn":
            column, *kind = rest[0]
            self.tables[name].columns[column] = kind
        else:
            watch, options = rest
            given = dict(options)
            capture = given.get("value_capture_type") or CAPTURES[0]
            self.streams[name] = Stream(watch, capture, retention_of(given.get("retention_period")), at)

    def table_faults(self, name, columns, key):
        names = [it[0] for it in columns]
        if name in self.tables:
            yield "TableThere", None
        for column in key:
            if column not in names:
                yield "NoColumn", column
        for again in (first_again(names), first_again(key)):
            if again is not None:
                yield "ColumnTwice", again
        if sum(it.watch == "ALL" for it in self.streams.values()) > 3:
            for column in names:
                if column not in key:
                    yield "ColumnWatched", column
        if len(columns) > 1024:
            yield "TooManyColumns", 1024
        if not all(length_holds(code, length) for _, code, length, _ in columns):
            yield "BadLength", None

    def column_faults(self, table, column):
        name, code, length, _ = column
        if table not in self.tables:
            yield "NoTable", table
        else:
            there = self.tables[table].columns
            if name in there:
                yield "ColumnTwice", name
            if sum(it.watches(table, name) for it in self.streams.values()) > 3:
                yield "ColumnWatched", name
            if len(there) + 1 > 1024:
                yield "TooManyColumns", 1024
        if not length_holds(code, length):
            yield "BadLength", None

    def stream_faults(self, name, watch, options):
        if name in self.streams:
            yield "StreamThere", None
        if len(self.streams) + 1 > 10:
            yield "TooManyStreams", 10
        if watch != "ALL":
            yield from self.watch_faults(watch)
        yield from self.crowd_faults(watch)
        yield from option_faults(options)

    def watch_faults(self, watch):
        for table, listed in watch:
            if table not in self.tables:
                yield "NoTable", table
                continue
            for column in listed or []:
                if column not in self.tables[table].columns:
                    yield "NoColumn", column
                if column in self.tables[table].key:
                    yield "KeyListed", column
            again = first_again(listed or [])
            if again is not None:
                yield "ColumnTwice", again
        again = first_again([table for table, _ in watch])
        if again is not None:
            yield "ItemTwice", again

    def crowd_faults(self, watch):
        """The columns that more than 3 streams would watch."""
        new = Stream(watch, None, None, None)
        for table in self.tables if watch == "ALL" else [it for it, _ in watch if it in self.tables]:
            for column in self.tables[table].others():
                if new.watches(table, column) and sum(it.watches(table, column) for it in self.streams.values()) >= 3:
                    yield "ColumnWatched", column


def retention_of(text):
    """The retention that a text says, or None; no text is a day."""
    if text is None:
        return DAY
    found = re.fullmatch(r"([0-9]+)([hd])", text)
    if not found:
        return None
    number = int(found[1])
    if found[2] == "h":
        return number * HOUR if 24 <= number <= 168 else None
    return number * DAY if 1 <= number <= 7 else None


def option_faults(options):
    names = [it for it, _ in options]
    for place, (name, value) in enumerate(options):
        if name in names[:place]:
            yield "BadOption", name
        elif name == "value_capture_type":
            if value is not None and (not isinstance(value, str) or value not in CAPTURES):
                yield "BadOption", name
        elif name == "retention_period":
            if value is not None and not isinstance(value, str):
                yield "BadOption", name
            elif retention_of(value) is None:
                yield "BadRetention", None
        elif name in EXCLUSIONS:
            yield "NotBuilt", None
        else:
            yield "BadOption", name
