"""A follower of a stream: which READs it makes, and which entry each of them adds to its journal.

It keeps a row for each partition that it was told of: how far it is told, and which changes of the next microsecond are. From
READ to READ nothing else is kept, and from run to run nothing but the entries.
"""
import functools
import json

from . import reads
from .entries import Board, Finished, Opened, Progress, name_of
from .refusal import Refusal
from .texts import compact, read_stamp, write_stamp

HEARTBEAT = 10000
MOST_BYTES = 1048576
CHILDREN, DATA, BEAT = reads.KINDS


class Pace:
    """Which of the rows is read next, behind how many READs that caught up it pauses, and how many records one READ takes."""

    def __init__(self, order=0, turns=100, batch=1024):
        self.order = order
        self.turns = turns
        self.batch = batch


# ---- records


def weight(record):
    """The bytes of the columns' names and 1, cell by cell, and those of texts and bytes."""
    codes = {it["name"]: it["type"]["code"] for it in record["column_types"]}
    found = 0
    for mod in record["mods"]:
        for cells in mod.values():
            for name, tree in cells.items():
                found += len(name.encode()) + 1
                if tree is not None and codes[name] in ("STRING", "BYTES"):
                    found += len(tree.encode()) if codes[name] == "STRING" else len(tree) // 4 * 3 - tree[-2:].count("=")
    return found


def change_line(record, mod):
    return compact({
        "key": mod["keys"], "kind": record["mod_type"], "new": mod["new_values"], "old": mod["old_values"], "stamp": record["commit_timestamp"],
        "table": record["table_name"], "tx": record["server_transaction_id"],
    })


@functools.lru_cache(maxsize=65536)
def parsed(line):
    """The kind of a line, its stamp, and what it holds: pairs of a change's name and its line with their weight, or children."""
    tree = json.loads(line)
    if "closing" in tree:
        return tree["closing"], read_stamp(tree["moment"]) if "moment" in tree else None, None
    if tree[BEAT]:
        return BEAT, read_stamp(tree[BEAT][0]["timestamp"]), ((), 0)
    if tree[CHILDREN]:
        record = tree[CHILDREN][0]
        return CHILDREN, read_stamp(record["start_timestamp"]), [(it["token"], it["parent_partition_tokens"]) for it in record["child_partitions"]]
    record = tree[DATA][0]
    changes = [(name_of(line)[1], line) for line in (change_line(record, it) for it in record["mods"])]
    return DATA, read_stamp(record["commit_timestamp"]), (changes, weight(record))


# ---- one READ


class Batch:
    """What a READ brought that was not known: how far it tells all, changes as triples of stamp, name and line, and children."""

    def __init__(self, through, seen):
        self.known = through
        self.seen = seen
        self.through = through
        self.changes = []
        self.names = set()
        self.children = {}
        self.ending = None

    def is_new(self, stamp, name):
        is_known = stamp <= self.known or (stamp == self.known + 1 and name in self.seen)
        return not is_known and name not in self.names

    def take(self, lines, end, most):
        """Takes lines up to the one that closes the READ, or up to the one with which it has enough."""
        count = weights = 0
        for kind, stamp, held in map(parsed, lines):
            if kind == CHILDREN:
                self.children.update((token, (parents, stamp)) for token, parents in held if token not in self.children)
            elif kind in (DATA, BEAT):
                changes, heavy = held
                added = [(stamp, name, line) for name, line in changes if self.is_new(stamp, name)]
                through = stamp - 1 if kind == DATA else stamp
                if added or through > self.through:
                    self.changes += added
                    self.names.update(name for _, name, _ in added)
                    self.through = max(self.through, through)
                    count, weights = count + 1, weights + heavy
                    if count == most or weights > MOST_BYTES:
                        self.ending = "FULL"
                        return
            else:
                self.close(kind, stamp, end)
                return

    def close(self, kind, moment, end):
        self.ending = kind
        if kind == "CAUGHT_UP":
            self.through = max(self.through, moment)
        elif kind == "FINISHED":
            starts = {start for _, start in self.children.values()}
            self.through = max(self.through, min(starts) - 1 if starts else end)


# ---- READ after READ


class Follower:
    """It follows a window over a server at a moment, from where the entries end that earlier runs left."""

    def __init__(self, state, entries, moment, pace):
        self.state = state
        self.entries = list(entries)
        self.board = Board(entries)
        self.moment = moment
        self.pace = pace

    def read(self, token, start):
        """The lines that answer a READ; a refusal is raised."""
        window = self.board.begin
        stamps = [("text", write_stamp(it)) for it in (start, window.end)]
        literals = [*stamps, ("null", None) if token is None else ("text", token), ("number", HEARTBEAT)]
        return reads.read(self.state, f"READ_{window.stream}", list(zip(reads.POSITIONAL, literals)), self.moment)

    def add(self, entry):
        self.entries.append(entry)
        self.board.fold(entry)

    def open(self):
        window = self.board.begin
        first = Batch(window.start - 1, ())
        first.take(self.read(None, window.start), window.end, self.pace.batch)
        self.add(Opened(tuple(sorted(first.children))))

    def next(self):
        """The token of the row that is read next; None where none may be."""
        rows = self.board.rows
        may = [token for token, row in sorted(rows.items()) if not row.is_finished and all(it in rows and rows[it].is_finished for it in row.parents)]
        least = min((rows[it].tries for it in may), default=0)
        fewest = [it for it in may if rows[it].tries == least]
        return fewest[self.pace.order % len(fewest)] if fewest else None

    def settle(self, token, batch):
        """Keeps what the READ of a row brought, where it brought something."""
        lines = tuple(line for _, _, line in batch.changes)
        if batch.ending == "FINISHED":
            children = tuple((it, tuple(parents), start) for it, (parents, start) in batch.children.items())
            self.add(Finished(token, batch.through, lines, children))
        elif lines or batch.through > self.board.rows[token].through:
            self.add(Progress(token, batch.through, lines))

    def follow(self):
        """Whether it came to the end; otherwise it paused."""
        if not self.board.rows:
            self.open()
        caught_up = 0
        while (token := self.next()) is not None:
            row = self.board.rows[token]
            batch = Batch(row.through, row.seen)
            batch.take(self.read(token, max(row.start, row.through)), self.board.begin.end, self.pace.batch)
            self.settle(token, batch)
            if batch.ending == "CAUGHT_UP":
                row.tries += 1
                caught_up += 1
                if caught_up == self.pace.turns:
                    return False
        if not all(it.is_finished for it in self.board.rows.values()):
            raise AssertionError("a row waits for a parent that is told by nobody")
        return True


def followed(state, entries, moment, pace):
    """How it stops, as a status, its name and its values, and the entries that are then there."""
    follower = Follower(state, entries, moment, pace)
    try:
        stop = (0, "Ended") if follower.follow() else (10, "Paused")
    except Refusal as refusal:
        stop = (20, "RetentionPassed", write_stamp(refusal.held)) if refusal.name == "StartTooOld" else (21, "Refused", refusal.name)
    return stop, follower.entries
