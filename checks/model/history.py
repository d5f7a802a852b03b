"""The transactions of a database, and what a stream captures of them."""
from .refusal import Refusal
from .texts import compact, tree_of

LARGEST_ROW = 65536
FULLEST = 134217728


class Write:
    """`kind` is INSERT, UPDATE or DELETE; `key` and `set` are values by column."""

    def __init__(self, kind, table, key, cells):
        self.kind = kind
        self.table = table
        self.key = key
        self.set = cells

    def row(self):
        return self.table, tuple(sorted(self.key.items()))


class Modification:
    def __init__(self, at, tx, tag, write, before, after):
        self.at = at
        self.tx = tx
        self.tag = tag
        self.write = write
        self.before = before
        self.after = after


def row_size(table, key, cells):
    """The bytes of the compact JSON of the row's cells; an absent row has none."""
    if cells is None:
        return 0
    return len(compact({name: tree_of(value, table.code(name)) for name, value in (key | cells).items()}).encode())


def fits(table, column, value):
    code, length, not_null = table.columns[column]
    if value is None:
        return not not_null
    return length is None or code not in ("STRING", "BYTES") or len(value) <= length


def misfit(table, write):
    """The first column whose cell does not fit, if any."""
    for cells in (write.key, write.set):
        for column in sorted(cells):
            if not fits(table, column, cells[column]):
                return column
    if write.kind == "INSERT":
        return next((it for it in table.others() if it not in write.set and table.columns[it][2]), None)
    return None


class History:
    def __init__(self):
        self.rows = {}
        self.modifications = []
        self.ids = set()
        self.last = 0
        self.writers = {}
        self.sum = 0

    def commit(self, tables, at, tx, writes, tag=""):
        self.refuse(tables, at, tx, writes)
        changed = [self.changed(tables[it.table], it) for it in writes]
        sizes = [tuple(row_size(tables[it.table], it.key, cells) for cells in both) for it, both in zip(writes, changed)]
        for write, (_, after) in zip(writes, sizes):
            if after > LARGEST_ROW:
                raise Refusal("RowTooLarge", write.row())
        total = self.sum + sum(max(both) for both in sizes)
        if total > FULLEST:
            raise Refusal("HistoryFull")
        self.sum = total
        if at != self.last:
            self.last, self.writers = at, {}
        self.ids.add(tx)
        for write, (before, after) in zip(writes, changed):
            self.writers[write.row()] = tx
            self.rows[write.row()] = after
            self.modifications.append(Modification(at, tx, tag, write, before or {}, after or {}))

    def refuse(self, tables, at, tx, writes):
        if tx in self.ids:
            raise Refusal("IdUsed")
        rows = [it.row() for it in writes]
        seen = set()
        for row in rows:
            if row in seen:
                raise Refusal("RowTwice", row)
            seen.add(row)
        for write, row in zip(writes, rows):
            if write.kind == "INSERT" and self.rows.get(row) is not None:
                raise Refusal("RowThere", row)
        for write, row in zip(writes, rows):
            if write.kind != "INSERT" and self.rows.get(row) is None:
                raise Refusal("NoRow", row)
        for write in writes:
            column = misfit(tables[write.table], write)
            if column is not None:
                raise Refusal("BadValue", column)
        for write in writes:
            for column in sorted(write.set):
                if column in write.key:
                    raise Refusal("KeyColumnSet", column)
        for row in rows:
            if at == self.last and row in self.writers:
                raise Refusal("SharedStampRow", self.writers[row])

    def changed(self, table, write):
        """The row's other cells before and after the write; None where it is absent."""
        before = self.rows.get(write.row())
        nulls = dict.fromkeys(table.others())
        if before is not None:
            before = nulls | before
        if write.kind == "DELETE":
            return before, None
        return before, (before or nulls) | write.set


def captured(table, name, stream, item):
    """What the stream captures of a modification, as new and old cells; None where it captures nothing."""
    if not stream.watches_table(name):
        return None
    write = item.write
    held = item.before | item.after
    watched = {it for it in table.others() if it in held and stream.watches(name, it)}
    modified = watched if write.kind == "INSERT" else watched & set(write.set)
    if write.kind == "UPDATE" and not modified:
        return None
    capture = stream.capture
    new, old = set(), set()
    if write.kind == "INSERT":
        new = watched
    elif write.kind == "UPDATE":
        new = watched if capture in ("NEW_ROW", "NEW_ROW_AND_OLD_VALUES") else modified
        old = modified if capture in ("OLD_AND_NEW_VALUES", "NEW_ROW_AND_OLD_VALUES") else set()
    elif capture in ("OLD_AND_NEW_VALUES", "NEW_ROW_AND_OLD_VALUES"):
        old = watched
    return {it: item.after[it] for it in new}, {it: item.before[it] for it in old}
