"""The bytes of a journal: read by the form that docs/FORMATS.md gives them, written by it, and held against an output.

An entry is one of the model's tuples, whose changes have cells with their types here. Of the program this reads nothing but
the two files.
"""
from collections import namedtuple

from model.entries import Begin, Board, Finished, Opened, Progress, text_of
from model.refusal import Refusal
from model.script import TOKEN
from model.texts import LAST_STAMP, compact, tree_of, write_stamp

FORMAT = 1
KINDS = {1: "INSERT", 2: "UPDATE", 3: "DELETE"}
# by the tag of a value its type, and how many bytes a number of it has
TYPES = {1: ("BOOL", 1), 2: ("INT64", 8), 3: ("NUMERIC", 16), 4: ("STRING", None), 5: ("BYTES", None), 6: ("DATE", 4), 7: ("TIMESTAMP", 8)}
NULL = 0
# the least and the greatest number of a type, where these are not those of its bytes
RANGES = {"BOOL": (0, 1), "NUMERIC": (1 - 10 ** 38, 10 ** 38 - 1), "DATE": (-719162, 2932896), "TIMESTAMP": (-62135596800000000, LAST_STAMP)}

Cell = namedtuple("Cell", "column tag value")


class Change(namedtuple("Change", "stamp tx table key kind new old")):
    """A change as an entry has it; each part of the row is a row of cells."""

    __slots__ = ()

    def line(self):
        """Its line in the output."""
        return compact({
            "key": trees(self.key), "kind": KINDS[self.kind], "new": trees(self.new), "old": trees(self.old), "stamp": write_stamp(self.stamp),
            "table": self.table, "tx": self.tx,
        })


def trees(cells):
    return {it.column: None if it.tag == NULL else tree_of(it.value, TYPES[it.tag][0]) for it in cells}


class Unread(Exception):
    """The bytes are no entry; its words say why."""


class Bad(Exception):
    """The journal is bad at the gate of this place."""

    def __init__(self, place, why):
        super().__init__(place, why)
        self.place = place


# ---- gates


def payloads_of(data):
    """The payloads behind the open gates, each with the place of its gate, and the place of the closed gate."""
    found, gate = [], 0
    while data[gate: gate + 1] == b"\x01" and gate + 1 < len(data):
        size = int.from_bytes(data[gate + 1: gate + 5], "little")
        if gate + 5 + size >= len(data):
            raise Bad(gate, "no whole entry stands behind it")
        found.append((gate, data[gate + 5: gate + 5 + size]))
        gate += 5 + size
    return found, gate


def framed(payloads):
    """The file of these payloads, with a closed gate behind them."""
    return b"".join(b"\x01" + number(len(it), 4) + it for it in payloads) + b"\x00"


# ---- reading


def expect(is_so, why):
    if not is_so:
        raise Unread(why)


class Cursor:
    """A payload that is read from its front."""

    def __init__(self, data):
        self.data = data
        self.at = 0

    def take(self, size):
        expect(self.at + size <= len(self.data), "it ends too early")
        self.at += size
        return self.data[self.at - size: self.at]

    def number(self, size, signed=False):
        return int.from_bytes(self.take(size), "little", signed=signed)

    def stamp(self):
        at = self.number(8)
        expect(1 <= at <= LAST_STAMP, f"{at} is no stamp")
        return at

    def text(self):
        try:
            return self.take(self.number(4)).decode()
        except UnicodeDecodeError as fault:
            raise Unread("a text is no UTF-8") from fault

    def token(self):
        text = self.text()
        expect(TOKEN.fullmatch(text) is not None, f"{text!r} is no token")
        return text

    def list(self, item):
        return tuple(item() for _ in range(self.number(4)))

    def cell(self):
        column, tag = self.text(), self.number(1)
        if tag == NULL:
            return Cell(column, tag, None)
        expect(tag in TYPES, f"there is no type {tag}")
        code, size = TYPES[tag]
        if size is None:
            return Cell(column, tag, self.text() if code == "STRING" else self.take(self.number(4)))
        value = self.number(size, signed=code != "BOOL")
        least, most = RANGES.get(code, (value, value))
        expect(least <= value <= most, f"{value} is no {code}")
        return Cell(column, tag, bool(value) if code == "BOOL" else value)

    def cells(self):
        found = self.list(self.cell)
        names = [it.column.encode() for it in found]
        expect(all(one < two for one, two in zip(names, names[1:])), "the columns of cells do not rise")
        return found

    def change(self):
        stamp, tx, table, key, kind = self.stamp(), self.text(), self.text(), self.cells(), self.number(1)
        expect(kind in KINDS, f"there is no kind {kind}")
        return Change(stamp, tx, table, key, kind, self.cells(), self.cells())

    def child(self):
        return self.token(), self.list(self.token), self.stamp()

    def entry(self):
        tag = self.number(1)
        if tag == 1:
            expect(self.number(1) == FORMAT, "the format is another")
            return Begin(self.text(), self.stamp(), self.stamp())
        if tag == 2:
            tokens = self.list(self.token)
            expect(tokens and all(one < two for one, two in zip(tokens, tokens[1:])), "there are no tokens, or they do not rise")
            return Opened(tokens)
        expect(tag in (3, 4), f"there is no entry {tag}")
        token, through, changes = self.token(), self.number(8), self.list(self.change)
        stamps = [it.stamp for it in changes]
        expect(all(one <= two for one, two in zip(stamps, [*stamps[1:], through + 1])), "the stamps of the changes fall, or are above the next one")
        if tag == 3:
            return Progress(token, through, changes)
        children = self.list(self.child)
        expect(len({it for it, _, _ in children}) == len(children), "a child stands twice")
        return Finished(token, through, changes, children)


def entry_of(payload):
    """The entry of a payload; where it is none, Unread is raised."""
    cursor = Cursor(payload)
    entry = cursor.entry()
    expect(cursor.at == len(payload), "bytes stand behind the entry")
    return entry


def plain(entry):
    """The entry as the model has it, with the lines of its changes."""
    return entry._replace(changes=tuple(it.line() for it in entry.changes)) if isinstance(entry, (Progress, Finished)) else entry


def entries_of(data):
    """The entries of a journal, as the model has them; where it is bad, Bad is raised."""
    board, found = Board(), []
    for gate, payload in payloads_of(data)[0]:
        try:
            found.append(plain(entry_of(payload)))
            board.fold(found[-1])
        except (Unread, Refusal) as fault:
            raise Bad(gate, str(fault)) from None
    return found


# ---- writing


def number(value, size):
    return (value % 2 ** (8 * size)).to_bytes(size, "little")


def text(value):
    data = value if isinstance(value, bytes) else value.encode()
    return number(len(data), 4) + data


def many(item, values):
    return number(len(values), 4) + b"".join(item(it) for it in values)


def cell_bytes(cell):
    head = text(cell.column) + number(cell.tag, 1)
    if cell.tag == NULL:
        return head
    size = TYPES[cell.tag][1]
    return head + (text(cell.value) if size is None else number(int(cell.value), size))


def change_bytes(it):
    row = text(it.table) + many(cell_bytes, it.key)
    return number(it.stamp, 8) + text(it.tx) + row + number(it.kind, 1) + many(cell_bytes, it.new) + many(cell_bytes, it.old)


def child_bytes(child):
    token, parents, start = child
    return text(token) + many(text, parents) + number(start, 8)


def payload_of(entry):
    """The payload of an entry, also of one that may not be written so."""
    if isinstance(entry, Begin):
        return bytes([1, FORMAT]) + text(entry.stream) + number(entry.start, 8) + number(entry.end, 8)
    if isinstance(entry, Opened):
        return b"\x02" + many(text, entry.tokens)
    head = text(entry.token) + number(entry.through, 8) + many(change_bytes, entry.changes)
    return b"\x03" + head if isinstance(entry, Progress) else b"\x04" + head + many(child_bytes, entry.children)


# ---- a journal and an output


def unlike(data, output, entries=None):
    """What is wrong with the two files of runs that each ended in good order; None where nothing is. The entries are those that
    should stand there, where they are known."""
    wrong = told_unlike(data, output, entries)
    left = data[payloads_of(data)[1]:] if wrong is None else b""
    return wrong if left in (b"", b"\x00") else f"behind the closed gate stand bytes: {left[:100].hex()}"


def told_unlike(data, output, entries=None):
    """The same, whatever stands behind the closed gate."""
    try:
        payloads, found = payloads_of(data)[0], entries_of(data)
    except Bad as bad:
        return f"the journal is bad: {bad}: {data[:200].hex()}"
    written = [payload_of(entry_of(it)) for _, it in payloads]
    if written != [it for _, it in payloads]:
        return "an entry has another spelling"
    if text_of(found) != output:
        return f"the output is not that of the entries: {output[-300:]!r} and {text_of(found)[-300:]!r}"
    if entries is not None and found != list(entries):
        first = next((place for place, it in enumerate(zip(found, entries)) if it[0] != it[1]), min(len(found), len(entries)))
        return f"{len(found)} entries, and should be {len(entries)}; entry {first} is {found[first:first + 1]}, and should be {list(entries)[first:first + 1]}"
    return None


def unlike_when_stopped(data, output, before=()):
    """What is wrong with the two files of a run that was stopped at any moment, behind earlier entries; None where nothing is.

    An entry is put before its lines are appended, so the output is that of the entries as far as it goes, and all but the last
    entry's lines stand there.
    """
    try:
        found = entries_of(data)
    except Bad as bad:
        return f"the journal is bad: {bad}: {data[:200].hex()}"
    if found[:len(before)] != list(before):
        return f"entries that were there are lost: {len(before)} were, {len(found)} are"
    whole, least = text_of(found), text_of(found[:-1])
    if not whole.startswith(output):
        return f"the output is no front of that of {len(found)} entries: {output[-300:]!r} and {whole[-300:]!r}"
    if not output.startswith(least):
        return f"of {len(found)} entries those before the last one are not in the output: {output[-300:]!r} and {least[-300:]!r}"
    return None
