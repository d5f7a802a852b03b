"""Rows of `show`: a script, a moment and a query, each with the lines that were worked out for it by hand. The model must agree
with a row before the program is asked; where a line differs, both are read by Python's json and the first member that
differs is named."""
import json

import honest
import model
from lines import PREAMBLE, STREAM, TABLE, at, border, commit, compact, ddl, delete, insert, reshape, update

ONE = PREAMBLE + commit(1, "t1", insert(1, A="5", B="x"))
CODES = {"K": (1, "INT64"), "A": (2, "INT64"), "B": (3, "STRING"), "C": (4, "DATE")}
FINISHED = compact({"closing": "FINISHED"})
CUT = compact({"closing": "CUT"})
MICRO = "2024-05-01T00:00:%02d.%06dZ"


def caught_up(seconds):
    return compact({"closing": "CAUGHT_UP", "moment": stamp(seconds)})


def stamp(seconds):
    return at(seconds) if isinstance(seconds, int) else seconds


def record(kind, tree):
    names = ("child_partitions_record", "data_change_record", "heartbeat_record")
    return compact({it: [tree] if it == kind else [] for it in names})


def heartbeat(seconds):
    return record("heartbeat_record", {"timestamp": stamp(seconds)})


def children(seconds, *listed, sequence=0, stream="S"):
    """A record of children, each its number and those of its parents."""
    named = [{"parent_partition_tokens": [f"{stream}-{it:05}" for it in parents], "token": f"{stream}-{number:05}"} for number, *parents in listed]
    return record("child_partitions_record", {"child_partitions": named, "record_sequence": f"{sequence:08}", "start_timestamp": stamp(seconds)})


def mod(key, new=None, old=None):
    return {"keys": {"K": str(key)}, "new_values": new or {}, "old_values": old or {}}


def data(seconds, tx, kind, *mods, place=(0, True), counts=(1, 1), columns="KAB", table="T", tag="", capture="OLD_AND_NEW_VALUES"):
    """A data record. `place` is its sequence and whether it is the last one, `counts` the records and the partitions of its transaction."""
    return record("data_change_record", {
        "column_types": [{"is_primary_key": it == "K", "name": it, "ordinal_position": CODES[it][0], "type": {"code": CODES[it][1]}} for it in columns],
        "commit_timestamp": stamp(seconds),
        "is_last_record_in_transaction_in_partition": place[1],
        "is_system_transaction": False,
        "mod_type": kind,
        "mods": list(mods),
        "number_of_partitions_in_transaction": counts[1],
        "number_of_records_in_transaction": counts[0],
        "record_sequence": f"{place[0]:08}",
        "server_transaction_id": tx,
        "table_name": table,
        "transaction_tag": tag,
        "value_capture_type": capture,
    })


def read(start, end, token, beat=10000, stream="S"):
    """A query of a READ: seconds or stamps, None for no end, and a partition's number or None."""
    texts = [f"'{stamp(start)}'", "NULL" if end is None else f"'{stamp(end)}'", "NULL" if token is None else f"'{stream}-{token:05}'"]
    return f"SELECT ChangeRecord FROM READ_{stream}({', '.join(texts)}, {beat})"


INSERTED = data(1, "t1", "INSERT", mod(1, {"A": "5", "B": "x"}))
SAME = "SELECT ChangeRecord FROM READ_S('2024-05-01T00:00:01Z', '2024-05-01T00:00:20Z', 'S-00000', 10000)"

# the whole of two answers, as they stand in docs/FORMATS.md
RECORD = '{"child_partitions_record":[],"data_change_record":[{"column_types":[{"is_primary_key":true,"name":"K","ordinal_position":1,"type":{"code":"INT64"}},{"is_primary_key":false,"name":"A","ordinal_position":2,"type":{"code":"INT64"}},{"is_primary_key":false,"name":"B","ordinal_position":3,"type":{"code":"STRING"}}],"commit_timestamp":"2024-05-01T00:00:01Z","is_last_record_in_transaction_in_partition":true,"is_system_transaction":false,"mod_type":"INSERT","mods":[{"keys":{"K":"1"},"new_values":{"A":"5","B":"x"},"old_values":{}}],"number_of_partitions_in_transaction":1,"number_of_records_in_transaction":1,"record_sequence":"00000000","server_transaction_id":"t1","table_name":"T","transaction_tag":"","value_capture_type":"OLD_AND_NEW_VALUES"}],"heartbeat_record":[]}'
ONES = [
    ("at the change's moment", ONE, 1, SAME, [RECORD, '{"closing":"CAUGHT_UP","moment":"2024-05-01T00:00:01Z"}']),
    ("at the end", ONE, 20, SAME, [RECORD, '{"child_partitions_record":[],"data_change_record":[],"heartbeat_record":[{"timestamp":"2024-05-01T00:00:20Z"}]}', '{"closing":"FINISHED"}']),
]

SPELLINGS = [
    "select changerecord from read_s('2024-05-01T00:00:01Z', NULL, 'S-00000', 10000)".replace("read_s", "READ_S"),
    "\tSELECT\r\nCHANGERECORD  FROM`READ_S`(TIMESTAMP'2024-05-01T00:00:01.000Z',null,\"S-00000\",010000);",
    "SELECT ChangeRecord FROM READ_S(heartbeat_milliseconds => 10000, partition_token => 'S-00000', start_timestamp => timestamp \"2024-05-01T00:00:01Z\")",
    "SELECT ChangeRecord FROM READ_S (start_timestamp=>'2024-05-01T00:00:01Z',end_timestamp=>NULL,partition_token=>'S-00000',heartbeat_milliseconds=>10000,read_options=>NULL) ; ",
    "SELECT ChangeRecord FROM READ_S(`start_timestamp` => '2024-05-01T00:00:01Z', `partition_token` => 'S-00000', `heartbeat_milliseconds` => 10000)",
    "SELECT ChangeRecord FROM READ_S('2024-05-01T00:00:01Z', '9999-12-31T23:59:59.999999Z', 'S-00000', 0000000000000010000, NULL)",
]

SPLIT = PREAMBLE + reshape(5, [0], [border(100)])
MOVED = PREAMBLE + reshape(2, [0], [border(100)]) + reshape(6, [1, 2], [border(50)])

# the left part is split again, so that the places of the live parts are in the order S-00003, S-00004, S-00002
TWICE = SPLIT + reshape(6, [1], [border(50)])

GRAPH = [
    ("the first READ", PREAMBLE, 0, read(0, None, None), [children(0, (0,)), FINISHED]),
    ("the first READ with its start at a split", SPLIT, 5, read(5, None, None), [children(5, (1,), (2,)), FINISHED]),
    ("the first READ before a split that was", SPLIT, 9, read(MICRO % (4, 999999), 9, None), [children(MICRO % (4, 999999), (0,)), FINISHED]),
    ("the first READ of more than its window", MOVED, 9, read(7, 8, None, 300000), [children(7, (3,), (4,)), FINISHED]),
    ("a move, the left part", MOVED, 10, read(2, 10, 1), [children(6, (3, 1), (4, 1, 2)), FINISHED]),
    ("a move, the right part", MOVED, 10, read(2, 10, 2), [children(6, (4, 1, 2)), FINISHED]),
    ("a part that ends at the end and now", SPLIT, 5, read(1, 5, 0), [children(5, (1, 0), (2, 0)), FINISHED]),
    ("a part that ends behind the end", SPLIT, 5, read(1, MICRO % (4, 999999), 0), [FINISHED]),
    ("a part that will end", SPLIT, MICRO % (4, 999999), read(1, 5, 0), [caught_up(MICRO % (4, 999999))]),
    ("a part that will end, without an end", SPLIT, 3, read(1, None, 0), [caught_up(3)]),
    ("a part that has ended, without an end", SPLIT, 5, read(1, None, 0), [children(5, (1, 0), (2, 0)), FINISHED]),
    ("the last microsecond of a part", SPLIT, 5, read(MICRO % (4, 999999), None, 0), [children(5, (1, 0), (2, 0)), FINISHED]),
    ("a part that goes on", SPLIT, 9, read(5, None, 2), [caught_up(9)]),
    ("a part that is renewed", PREAMBLE + reshape(5, [0]), 5, read(0, None, 0), [children(5, (1, 0)), FINISHED]),
    ("places and not births", TWICE, 9, read(7, None, None), [children(7, (3,), (4,), (2,)), FINISHED]),
    ("the end of time", ddl(TABLE, "9999-12-31T23:59:59Z") + ddl(STREAM, "9999-12-31T23:59:59.999999Z"), "9999-12-31T23:59:59.999999Z", read("9999-12-31T23:59:59.999999Z", None, 0), [FINISHED]),
]

SEEN = PREAMBLE + commit(1, "a", insert(1), insert(200)) + commit(5, "b", insert(2))
NULLS = {"A": None, "B": None}
BEGUN = [data(1, "a", "INSERT", mod(1, NULLS), mod(200, NULLS)), data(5, "b", "INSERT", mod(2, NULLS))]

WINDOWS = [
    ("a window before the changes", SEEN, 9, read(0, MICRO % (0, 999999), 0), [FINISHED]),
    ("a window behind the changes", SEEN, 9, read(MICRO % (5, 1), None, 0), [caught_up(9)]),
    ("the start at a change", SEEN, 9, read(5, 9, 0), [BEGUN[1], FINISHED]),
    ("the end at a change", SEEN, 9, read(0, 1, 0), [BEGUN[0], FINISHED]),
    ("a moment before a change", SEEN, MICRO % (4, 999999), read(0, 9, 0), [BEGUN[0], caught_up(MICRO % (4, 999999))]),
    ("all changes", SEEN, 9, read(0, 9, 0), [*BEGUN, FINISHED]),
]

BEATS = [
    ("no heartbeat before the time", SEEN, MICRO % (10, 999), read(1, None, 0, 5001), [*BEGUN, caught_up(MICRO % (10, 999))]),
    ("a heartbeat just at the time", SEEN, MICRO % (10, 1000), read(1, None, 0, 5001), [*BEGUN, heartbeat(MICRO % (10, 1000)), caught_up(MICRO % (10, 1000))]),
    ("a heartbeat just at the time, before a record", SEEN, 6, read(1, None, 0, 4000), [BEGUN[0], heartbeat(MICRO % (4, 999999)), BEGUN[1], caught_up(6)]),
    ("none a millisecond earlier", SEEN, 6, read(1, None, 0, 4001), [*BEGUN, caught_up(6)]),
    ("a heartbeat just at the time, at the end", SEEN, 9, read(2, 9, 0, 4000), [BEGUN[1], heartbeat(9), FINISHED]),
    ("from the start on", SEEN, 9, read(0, 4, 0, 1000), [heartbeat(MICRO % (0, 999999)), BEGUN[0], heartbeat(4), FINISHED]),
    ("one for a long time", PREAMBLE, 3600, read(0, None, 0, 1000), [heartbeat(3600), caught_up(3600)]),
    ("below the end of a part", SPLIT, 9, read(1, None, 0, 3999), [heartbeat(MICRO % (4, 999999)), children(5, (1, 0), (2, 0)), FINISHED]),
    ("none that would be a microsecond late", SPLIT, 9, read(1, None, 0, 4000), [children(5, (1, 0), (2, 0)), FINISHED]),
    ("none at the moment itself", PREAMBLE, 0, read(0, None, 0, 1000), [caught_up(0)]),
]

CROWD = PREAMBLE + reshape(1, [0], [border(100)]) + commit(2, "many", *(insert(it, A=str(it)) for it in range(100, 165)), *(insert(it) for it in range(33)))


def alike(first, count, numbered):
    return [mod(it, {"A": str(it) if numbered else None, "B": None}) for it in range(first, first + count)]


MANY = (5, 2)
CROWDS = [
    ("33 in the left part", CROWD, 9, read(1, 9, 1), [
        data(2, "many", "INSERT", *alike(0, 32, False), place=(0, False), counts=MANY),
        data(2, "many", "INSERT", *alike(32, 1, False), place=(1, True), counts=MANY), FINISHED]),
    ("65 in the right part", CROWD, 9, read(1, 9, 2), [
        data(2, "many", "INSERT", *alike(100, 32, True), place=(2, False), counts=MANY),
        data(2, "many", "INSERT", *alike(132, 32, True), place=(3, False), counts=MANY),
        data(2, "many", "INSERT", *alike(164, 1, True), place=(4, True), counts=MANY), FINISHED]),
]

MIXED = PREAMBLE + commit(1, "t1", *(insert(it) for it in range(1, 8))) + commit(
    2, "t2", update(1, A="1"), update(2, A="2"), update(3, B="b"), update(4, B="d", A="4"), update(5, A="5", B="e"), delete(6), delete(7), insert(8), tag="app=concert")
TYPES = ("OLD_AND_NEW_VALUES", "NEW_VALUES", "NEW_ROW", "NEW_ROW_AND_OLD_VALUES")


def mixed(sequence, kind, *mods, columns="KAB"):
    return data(2, "t2", kind, *mods, place=(sequence, sequence == 4), counts=(5, 1), columns=columns, tag="app=concert")


def capturing(capture):
    return ddl(TABLE) + ddl(f"{STREAM} OPTIONS (value_capture_type = '{capture}')")


def captured(capture):
    return capturing(capture) + commit(1, "t1", insert(1, A="5", B="x")) + commit(2, "t2", update(1, A="6")) + commit(3, "t3", delete(1))


def told(capture, update_columns, delete_columns, cells):
    """The three records of that story; cells are the update's and the delete's, new and old."""
    (new, old), (gone_new, gone_old) = cells
    return (f"{capture}", captured(capture), 3, read(1, 3, 0), [
        data(1, "t1", "INSERT", mod(1, {"A": "5", "B": "x"}), capture=capture),
        data(2, "t2", "UPDATE", mod(1, new, old), columns=update_columns, capture=capture),
        data(3, "t3", "DELETE", mod(1, gone_new, gone_old), columns=delete_columns, capture=capture),
        FINISHED,
    ])


ROW = {"A": "6", "B": "x"}
OTHER = ddl("CREATE TABLE U (K INT64 NOT NULL, A INT64, B STRING(MAX)) PRIMARY KEY (K)")
BOTH = ddl(TABLE) + OTHER + ddl("CREATE CHANGE STREAM S FOR ALL")
OVER_PARTS = TWICE + commit(7, "t1", insert(200), insert(1), insert(60), insert(201))


def neighbours(what, capture, kinds, columns):
    """Two writes that stand in records of their own, since one thing differs between them."""
    first, second = kinds
    script = capturing(capture) + commit(1, "t1", insert(1, A="5", B="x"), insert(2)) + commit(2, "t2", first[0], second[0])
    told = [data(2, "t2", kind, it, place=(sequence, sequence == 1), counts=(2, 1), columns=columns[sequence], capture=capture) for sequence, (_, kind, it) in enumerate(kinds)]
    return (f"neighbours of {what}", script, 9, read(2, 9, 0), [*told, FINISHED])


def over_parts(part, *told):
    records = [data(7, "t1", "INSERT", *mods, place=(sequence, True), counts=(3, 3)) for sequence, mods in told]
    return (f"a transaction over three parts, {part}", OVER_PARTS, 9, read(7, 9, part), [*records, FINISHED])


RECORDS = [
    over_parts(3, (0, [mod(1, NULLS)])),
    over_parts(4, (1, [mod(60, NULLS)])),
    over_parts(2, (2, [mod(200, NULLS), mod(201, NULLS)])),
    neighbours("another kind", "NEW_VALUES", ((update(1, A="6", B="x"), "UPDATE", mod(1, ROW)), (insert(3, A="6", B="x"), "INSERT", mod(3, ROW))), ("KAB", "KAB")),
    neighbours("other new cells", "NEW_VALUES", ((update(1, A="6"), "UPDATE", mod(1, {"A": "6"})), (update(2, B="b"), "UPDATE", mod(2, {"B": "b"}))), ("KA", "KB")),
    neighbours("other old cells", "NEW_ROW_AND_OLD_VALUES", (
        (update(1, A="6"), "UPDATE", mod(1, ROW, {"A": "5"})), (update(2, B="b"), "UPDATE", mod(2, {"A": None, "B": "b"}, {"B": None}))), ("KAB", "KAB")),
    ("neighbours of another table", BOTH + commit(1, "t1", insert(1), insert(1, table="U"), insert(2, table="U")), 1, read(1, 1, 0), [
        data(1, "t1", "INSERT", mod(1, NULLS), place=(0, False), counts=(2, 1)),
        data(1, "t1", "INSERT", mod(1, NULLS), mod(2, NULLS), place=(1, True), counts=(2, 1), table="U"), FINISHED]),
    ("a column that was added later", PREAMBLE + commit(1, "t1", insert(1)) + ddl("ALTER TABLE T ADD COLUMN C DATE", 2) + commit(3, "t2", update(1, C="2024-02-29")), 9, read(1, 9, 0), [
        data(1, "t1", "INSERT", mod(1, NULLS)), data(3, "t2", "UPDATE", mod(1, {"C": "2024-02-29"}, {"C": None}), columns="KC"), FINISHED]),
    ("a key that is not the first column", ddl("CREATE TABLE T (B STRING(MAX), A INT64, K INT64) PRIMARY KEY (A, K)") + ddl(STREAM) + commit(1, "t1", {"insert": "T", "key": {"A": None, "K": "1"}, "set": {}}), 1, read(1, 1, 0), [
        record("data_change_record", json.loads(INSERTED)["data_change_record"][0] | {
            "column_types": [{"is_primary_key": it != "B", "name": it, "ordinal_position": place, "type": {"code": CODES[it][1]}} for place, it in enumerate("BAK", 1)],
            "mods": [{"keys": {"A": None, "K": "1"}, "new_values": {"B": None}, "old_values": {}}]}), FINISHED]),
    ("neighbours that are alike", MIXED, 9, read(2, 9, 0), [
        mixed(0, "UPDATE", mod(1, {"A": "1"}, {"A": None}), mod(2, {"A": "2"}, {"A": None}), columns="KA"),
        mixed(1, "UPDATE", mod(3, {"B": "b"}, {"B": None}), columns="KB"),
        mixed(2, "UPDATE", mod(4, {"A": "4", "B": "d"}, NULLS), mod(5, {"A": "5", "B": "e"}, NULLS)),
        mixed(3, "DELETE", mod(6, {}, NULLS), mod(7, {}, NULLS)),
        mixed(4, "INSERT", mod(8, NULLS)), FINISHED]),
    told(TYPES[0], "KA", "KAB", (({"A": "6"}, {"A": "5"}), ({}, ROW))),
    told(TYPES[1], "KA", "K", (({"A": "6"}, {}), ({}, {}))),
    told(TYPES[2], "KAB", "K", ((ROW, {}), ({}, {}))),
    told(TYPES[3], "KAB", "KAB", ((ROW, {"A": "5"}), ({}, ROW))),
    ("two transactions of one stamp", PREAMBLE + commit(1, "b", insert(2)) + commit(1, "a", insert(1)), 9, read(1, 9, 0), [
        data(1, "b", "INSERT", mod(2, NULLS)), data(1, "a", "INSERT", mod(1, NULLS)), FINISHED]),
    ("a transaction at a split", SPLIT + commit(5, "t1", insert(99), insert(100), insert(101)), 9, read(5, 9, 2), [
        data(5, "t1", "INSERT", mod(100, NULLS), mod(101, NULLS), place=(1, True), counts=(2, 2)), FINISHED]),
    ("the first part of it", SPLIT + commit(5, "t1", insert(99), insert(100), insert(101)), 9, read(5, 9, 1), [
        data(5, "t1", "INSERT", mod(99, NULLS), counts=(2, 2)), FINISHED]),
    ("the parent of both", SPLIT + commit(5, "t1", insert(99), insert(100)), 9, read(1, 9, 0), [children(5, (1, 0), (2, 0)), FINISHED]),
    ("a part of which a transaction has nothing", SPLIT + commit(6, "t1", insert(1)), 9, read(5, 9, 2), [FINISHED]),
    ("the counts of one part", SPLIT + commit(6, "t1", insert(1)), 9, read(5, 9, 1), [data(6, "t1", "INSERT", mod(1, NULLS)), FINISHED]),
    ("signs and escapes", PREAMBLE + commit(1, "~t!", insert(1, B="\u00e9\"\\/\n\u0001\u007f\u2028\U0001f600"), tag="\u00e9\""), 1, read(1, 1, 0), [
        data(1, "~t!", "INSERT", mod(1, {"A": None, "B": "\u00e9\"\\/\n\u0001\u007f\u2028\U0001f600"}), tag="\u00e9\""), FINISHED]),
]


def members(tree, path=""):
    """Each value of a tree with the way to it."""
    if isinstance(tree, dict):
        return [it for name, value in tree.items() for it in members(value, f"{path}.{name}")] or [(path, {})]
    if isinstance(tree, list):
        return [it for place, value in enumerate(tree) for it in members(value, f"{path}[{place}]")] or [(path, [])]
    return [(path, tree)]


def difference(saw, want):
    """The first line that differs, and in it the first member; None where there is none."""
    if len(saw) != len(want):
        return f"{len(saw)} lines for {len(want)}: {saw[-3:]} for {want[-3:]}"
    for number, (one, two) in enumerate(zip(saw, want), 1):
        if one != two:
            try:
                pairs = [it for it in zip(members(json.loads(one)), members(json.loads(two))) if it[0] != it[1]]
            except ValueError:
                pairs = []
            return f"line {number}: {pairs[0] if pairs else (one[:300], two[:300])}"
    return None


def check_row(note, room, what, row):
    script, seconds, query, want = row
    now, want = stamp(seconds), [*want, "0 Ended", ""]
    own = model.show(script, now, query)
    saw = difference(own.console.split("\n"), want)
    note(own.status == 0 and saw is None, f"show, {what}: the model", saw)
    room.clear()
    ran = room.run(["show", room.put("script", script), now, query])
    saw = difference(ran.stdout.decode().split("\n"), want)
    note(ran.returncode == 0 and ran.stderr == b"" and saw is None, f"show, {what}", f"{saw}, status {ran.returncode}, error {ran.stderr[:300]}")
    note(room.names() == ["script"] and room.read("script") == script, f"show, {what}: it makes no file")


def long_story():
    """8,193 transactions, a microsecond apart, from the first second on; then a split, and one more."""
    stamps = [MICRO % (1, it) for it in range(8193)]
    return PREAMBLE + b"".join(commit(it, f"t{key}", insert(key)) for key, it in enumerate(stamps)) + reshape(3, [0], [border(100)]) + commit(4, "z", insert(9000), insert(-1))


def check_cut(note, room):
    """Answers of 8,192 records and of more, and the READs that follow on a cut one."""
    script = long_story()
    told = [data(MICRO % (1, it) if it else 1, f"t{it}", "INSERT", mod(it, NULLS)) for it in range(8193)]
    beat = heartbeat(MICRO % (0, 999999))
    second, last = MICRO % (1, 1), MICRO % (1, 8191)
    for what, query, want in (
        ("8,192 records", read(1, last, 0), [*told[:8192], FINISHED]),
        ("8,193 records", read(1, 2, 0), [*told[:8192], CUT]),
        ("8,191 records and a heartbeat", read(0, MICRO % (1, 8190), 0, 1000), [beat, *told[:8191], FINISHED]),
        ("8,192 records and a heartbeat before them", read(0, last, 0, 1000), [beat, *told[:8191], CUT]),
        ("8,192 records", read(second, 2, 0, 1000), [*told[1:], FINISHED]),
        ("8,192 records and a heartbeat behind them", read(second, 9, 0, 1000), [*told[1:], CUT]),
        ("8,192 records and children", read(second, 9, 0), [*told[1:], children(3, (1, 0), (2, 0)), FINISHED]),
        ("the rest of a cut answer", read(last, 2, 0), [*told[8191:], FINISHED]),
    ):
        check_row(note, room, what, (script, 9, query, want))
    path = room.put("script", script)

    def ask(now, query):
        ran = room.run(["show", path, now, query])
        return ran.returncode, ran.stdout.decode()

    window = at(1), at(9)
    saw = honest.unlike(ask, "S", window, [at(2), at(9)], [it.line for it in model.changes(script, "S", *window)])
    note(saw is None, "show, a stream followed through a cut answer and a split", saw)


def check_wide(note, room):
    """A stream of 1,025 live partitions: a second record of them."""
    reshapes = b"".join(reshape(1 + it, [64 * it], [border(it * 64 + to) for to in range(63)]) for it in range(17))
    layout = model.load(PREAMBLE + reshapes).layouts["S"]
    live = [(int(it.token[2:]),) for it in sorted((it for it in layout.parts if it.until is None), key=lambda it: it.low)]
    want = [children(18, *live[:1024]), children(18, *live[1024:], sequence=1), FINISHED]
    check_row(note, room, f"{len(live)} live partitions", (PREAMBLE + reshapes, 20, read(18, 20, None), want))


def check_faults(note, room, is_explained):
    room.clear()
    script = room.put("script", ONE)
    query = read(1, None, 0)
    for words, missing in (([room.path("none"), at(1), query], room.path("none")), (["", at(1), query], "")):
        ran = room.run(["show", *words])
        note(ran.returncode == 70 and ran.stdout == b"" and b"cannot open " + missing.encode() in ran.stderr, f"show of {words}", str(ran)[:400])
    ran = room.run(["show", room.path("none"), at(1), "SELECT 1"])
    note(ran.returncode == 50 and ran.stdout == b"50 BadWords 3\n" and is_explained(ran), "show of a bad query and an absent script", str(ran)[:400])
    # as a script a folder opens as a file does, and every read of it fails
    ran = room.run(["show", room.at, at(1), query])
    note(ran.returncode == 42 and ran.stdout == b"42 SourceFault\n" and is_explained(ran), "show of a folder as a script", str(ran)[:400])
    for words in (query, read(1, None, 7)):
        with open("/dev/full", "wb") as full:
            ran = room.run(["show", script, at(1), words], stdout=full)
        note(ran.returncode == 43 and is_explained(ran), "show with a console whose writes fail", str(ran)[:400])


def check(note, room, is_explained):
    for name, rows in (("", ONES), ("", GRAPH), ("", WINDOWS), ("heartbeats: ", BEATS), ("", CROWDS), ("", RECORDS)):
        for what, *row in rows:
            check_row(note, room, name + what, row)
    for query in SPELLINGS:
        check_row(note, room, query, (ONE, 1, query, [INSERTED, caught_up(1)]))
    check_cut(note, room)
    check_wide(note, room)
    check_faults(note, room, is_explained)
