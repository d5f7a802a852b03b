"""READ: why a query is refused, and the lines that answer one."""
import functools
import json

from .history import captured
from .refusal import Refusal
from .script import TOKEN
from .sql import POSITIONAL
from .texts import LAST_STAMP, read_stamp, tree_of, write_stamp

MOST_MODS = 32
MOST_CHILDREN = 1024
MOST_RECORDS = 8192
LEAST_BEAT = 1000
MOST_BEAT = 300000
KINDS = ("child_partitions_record", "data_change_record", "heartbeat_record")
START, END, TOKEN_NAME, HEARTBEAT, OPTIONS = POSITIONAL


class Query:
    """A query's typed arguments; those that are absent or NULL are None."""

    def __init__(self, stream, given):
        self.stream = stream
        self.start = given.get(START)
        self.end = given.get(END)
        self.token = given.get(TOKEN_NAME)
        self.heartbeat = given.get(HEARTBEAT)
        self.options = given.get(OPTIONS)


# ---- refusals, in their order


def typed(name, literal):
    """What a literal says to the argument of this name, which takes NULL and what reads as its type."""
    kind, value = literal
    if name not in POSITIONAL:
        raise Refusal("ArgumentType", name)
    if kind == "null" or name == OPTIONS:
        return None if kind == "null" else literal
    if name in (START, END) and kind in ("text", "timestamp"):
        try:
            return read_stamp(value)
        except Refusal:
            raise Refusal("ArgumentType", name) from None
    if name == TOKEN_NAME and kind == "text" and TOKEN.fullmatch(value):
        return value
    if name == HEARTBEAT and kind == "number":
        return value
    raise Refusal("ArgumentType", name)


def typed_query(state, function, arguments):
    """The query of a function and its arguments, or one of the first four refusals."""
    stream = function[len("READ_"):]
    if not function.startswith("READ_") or stream not in state.catalog.streams:
        raise Refusal("UnknownFunction")
    given = {}
    for name, literal in arguments:
        if name in given:
            raise Refusal("ArgumentType", name)
        given[name] = typed(name, literal)
    for name in (START, HEARTBEAT):
        if given.get(name) is None:
            raise Refusal("ArgumentMissing", name)
    query = Query(stream, given)
    if query.options is not None:
        raise Refusal("ReadOptions")
    return query


def refuse_times(stream, query, moment):
    if not LEAST_BEAT <= query.heartbeat <= MOST_BEAT:
        raise Refusal("Heartbeat")
    if query.end is not None and query.end < query.start:
        raise Refusal("EndBeforeStart")
    if query.start < stream.created:
        raise Refusal("StartBeforeCreation")
    if query.start < moment - stream.retention:
        raise Refusal("StartTooOld", moment - stream.retention)
    if query.start > moment:
        raise Refusal("StartInFuture", moment)


def part_of(layout, query):
    """The part of the query's token, or one of the last three refusals; None where the query has no token."""
    if query.token is None:
        return None
    if query.token not in layout.places:
        raise Refusal("UnknownToken")
    part = layout.parts[layout.places[query.token]]
    if query.start < part.born:
        raise Refusal("StartBeforePartition", part.born)
    if part.until is not None and query.start >= part.until:
        raise Refusal("StartPastPartition", part.until)
    return part


# ---- lines


def line(tree):
    return json.dumps(tree, ensure_ascii=False, sort_keys=True, separators=(",", ":"))


def record_line(kind, record):
    return line({it: [record] if it == kind else [] for it in KINDS})


# ---- data records


class Told:
    """What a stream tells of one write, and the part that holds it."""

    def __init__(self, item, part, cells):
        self.item = item
        self.part = part
        self.new, self.old = cells

    def is_alike(self, other):
        """Whether both may stand in one record."""
        one, two = self.item.write, other.item.write
        return (one.table, one.kind, set(self.new), set(self.old)) == (two.table, two.kind, set(other.new), set(other.old))


def holder(state, stream, item):
    """The part that holds the write's row at its stamp; None before the stream's creation."""
    write = item.write
    place = state.row_place(write.table, write.key)
    for part in state.layouts[stream].parts:
        if part.born <= item.at and (part.until is None or item.at < part.until) and part.low <= place and (part.high is None or place < part.high):
            return part
    return None


def transactions(state, name):
    """The changes that a stream captures, transaction by transaction."""
    found, last = [], None
    stream = state.catalog.streams[name]
    for item in state.history.modifications:
        table = item.write.table
        cells = captured(state.catalog.tables[table], table, stream, item)
        part = None if cells is None else holder(state, name, item)
        if part is None:
            continue
        if item.tx != last:
            found.append([])
            last = item.tx
        found[-1].append(Told(item, part, cells))
    return found


def groups(changes):
    """Neighbours that are alike, at most 32 in a group."""
    found = []
    for change in changes:
        if not found or len(found[-1]) == MOST_MODS or not found[-1][-1].is_alike(change):
            found.append([])
        found[-1].append(change)
    return found


def columns_of(table, told):
    """The columns of the change, by their order in the table."""
    write = told.item.write
    return [
        {"is_primary_key": name in table.key, "name": name, "ordinal_position": place, "type": {"code": table.code(name)}}
        for place, name in enumerate(table.columns, 1) if name in write.key or name in told.new or name in told.old
    ]


def mod_of(table, told):
    def trees(cells):
        return {name: tree_of(value, table.code(name)) for name, value in cells.items()}

    return {"keys": trees(told.item.write.key), "new_values": trees(told.new), "old_values": trees(told.old)}


def data_record(state, stream, group, numbers):
    """A group's record; the numbers are its sequence, whether it is the part's last one, and how many records and parts there are."""
    sequence, is_last, records, parts = numbers
    first = group[0].item
    table = state.catalog.tables[first.write.table]
    return {
        "column_types": columns_of(table, group[0]),
        "commit_timestamp": write_stamp(first.at),
        "is_last_record_in_transaction_in_partition": is_last,
        "is_system_transaction": False,
        "mod_type": first.write.kind,
        "mods": [mod_of(table, it) for it in group],
        "number_of_partitions_in_transaction": parts,
        "number_of_records_in_transaction": records,
        "record_sequence": f"{sequence:08}",
        "server_transaction_id": first.tx,
        "table_name": first.write.table,
        "transaction_tag": first.tag,
        "value_capture_type": state.catalog.streams[stream].capture,
    }


@functools.lru_cache(maxsize=64)
def data_records(state, stream):
    """By each part's token its data records, as pairs of a stamp and a line."""
    found = {part.token: [] for part in state.layouts[stream].parts}
    for changes in transactions(state, stream):
        parts = sorted({it.part for it in changes}, key=lambda part: part.low)
        grouped = [groups([it for it in changes if it.part is part]) for part in parts]
        records, sequence = sum(len(it) for it in grouped), 0
        for part, of_part in zip(parts, grouped):
            for group in of_part:
                numbers = (sequence, group is of_part[-1], records, len(parts))
                found[part.token].append((group[0].item.at, record_line("data_change_record", data_record(state, stream, group, numbers))))
                sequence += 1
    return found


# ---- answers


def heartbeat(at):
    return record_line("heartbeat_record", {"timestamp": write_stamp(at)})


def closing(name, **others):
    return line({"closing": name, **others})


def child_records(start, children):
    """The records of parts, each a token with its parents."""
    found = []
    for place in range(0, len(children), MOST_CHILDREN):
        listed = [{"parent_partition_tokens": parents, "token": token} for token, parents in children[place: place + MOST_CHILDREN]]
        found.append({"child_partitions": listed, "record_sequence": f"{len(found):08}", "start_timestamp": write_stamp(start)})
    return [record_line("child_partitions_record", it) for it in found]


def in_order(parts):
    return sorted(parts, key=lambda part: part.low)


def paced(records, start, last, gap):
    """The records with heartbeats where for so long there was none."""
    lines, before = [], start
    for stamp, told in records:
        if stamp >= before + gap:
            lines.append(heartbeat(stamp - 1))
        lines.append(told)
        before = stamp
    return lines + [heartbeat(last)] if last >= before + gap else lines


def lines_of_part(state, query, part, moment):
    end = LAST_STAMP if query.end is None else query.end
    last = min(end, moment) if part.until is None else min(end, moment, part.until - 1)
    records = [it for it in data_records(state, query.stream)[part.token] if query.start <= it[0] <= last]
    lines = paced(records, query.start, last, query.heartbeat * 1000)
    if len(lines) > MOST_RECORDS:
        return lines[:MOST_RECORDS] + [closing("CUT")]
    if part.until is not None and part.until <= end and part.until <= moment:
        children = in_order(it for it in state.layouts[query.stream].parts if part.token in it.parents)
        return lines + child_records(part.until, [(it.token, it.parents) for it in children]) + [closing("FINISHED")]
    return lines + [closing("FINISHED") if end <= moment else closing("CAUGHT_UP", moment=write_stamp(moment))]


def lines_of_start(state, query):
    live = [it for it in state.layouts[query.stream].parts if it.born <= query.start and (it.until is None or query.start < it.until)]
    return child_records(query.start, [(it.token, []) for it in in_order(live)]) + [closing("FINISHED")]


def read(state, function, arguments, moment):
    """The lines of the answer at a moment, without their ends; a refusal is raised."""
    query = typed_query(state, function, arguments)
    refuse_times(state.catalog.streams[query.stream], query, moment)
    part = part_of(state.layouts[query.stream], query)
    return lines_of_start(state, query) if part is None else lines_of_part(state, query, part, moment)
