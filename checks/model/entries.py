"""What a journal tells: its entries, the rows of partitions that they make, and the text of them.

An entry is a tuple by its name. The changes of one are the lines that the output has of them; a child is its token, its
parents and its start.
"""
import functools
import json
from collections import namedtuple

from .refusal import Refusal
from .texts import compact, read_stamp, write_stamp

Begin = namedtuple("Begin", "stream start end")
Opened = namedtuple("Opened", "tokens")
Progress = namedtuple("Progress", "token through changes")
Finished = namedtuple("Finished", "token through changes children")


@functools.lru_cache(maxsize=65536)
def name_of(line):
    """The stamp of a change's line, and what no other change of this stamp has: its transaction, its table and its key."""
    tree = json.loads(line)
    return read_stamp(tree["stamp"]), (tree["tx"], tree["table"], compact(tree["key"]))


class Row:
    """All of its partition is told up to `through`, and `seen` of the microsecond behind it."""

    def __init__(self, parents, start):
        self.parents = parents
        self.start = start
        self.through = start - 1
        self.seen = set()
        self.is_finished = False
        self.tries = 0


class Board:
    """The rows that entries make, and the lines of their text."""

    def __init__(self, entries=()):
        self.begin = None
        self.is_opened = False
        self.rows = {}
        self.written = None
        self.lines = []
        for entry in entries:
            self.fold(entry)

    def mark(self):
        """How far all is told; None where there is no row."""
        if not self.rows:
            return None
        return min((it.through for it in self.rows.values() if not it.is_finished), default=self.begin.end)

    def fold(self, entry):
        """Takes an entry; one that does not follow on those before it is refused."""
        kind = type(entry)
        if (kind is Begin) != (self.begin is None):
            raise Refusal("Begin")
        if kind is Begin:
            self.begin, self.written = entry, entry.start - 1
        elif kind is Opened:
            if self.is_opened:
                raise Refusal("Opened")
            self.is_opened = True
            for token in entry.tokens:
                self.rows[token] = Row((), self.begin.start)
        else:
            self.settle(entry)
            self.lines += entry.changes
        mark = self.mark()
        if mark is not None and mark > self.written:
            self.written = mark
            self.lines.append(compact({"watermark": write_stamp(mark)}))

    def settle(self, entry):
        row = self.rows.get(entry.token)
        if row is None or row.is_finished:
            raise Refusal("Row", entry.token)
        if not row.through <= entry.through <= self.begin.end:
            raise Refusal("Through", entry.through)
        children = entry.children if isinstance(entry, Finished) else ()
        for token, parents, start in children:
            there = self.rows.get(token)
            if start > self.begin.end or (there is not None and (there.parents, there.start) != (parents, start)):
                raise Refusal("Child", token)
        behind = {name for stamp, name in map(name_of, entry.changes) if stamp == entry.through + 1}
        row.seen = row.seen | behind if entry.through == row.through else behind
        row.through = entry.through
        row.is_finished = isinstance(entry, Finished)
        for token, parents, start in children:
            self.rows.setdefault(token, Row(parents, start))


def text_of(entries):
    """The output that entries tell."""
    return "".join(it + "\n" for it in Board(entries).lines).encode()
