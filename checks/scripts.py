"""Scripts that are refused, each with the line and the cause that were worked out by hand. The model must agree with a
row before the program is asked."""
import model
from lines import PREAMBLE, STREAM, at, border, commit, ddl, delete, insert, line, reshape, update

WINDOW = (at(1), at(10))
ONE = commit(1, "t1", insert(1, A="5", B="x"))
MOST_BYTES = 67108864
TYPES = ddl("CREATE TABLE T (K INT64, F BOOL, N NUMERIC, S STRING(3), B BYTES(2), D DATE, M TIMESTAMP) PRIMARY KEY (K)")


def raw(text):
    return text.encode() + b"\n"


def nested(depth):
    """An object in which arrays are nested, so many in all."""
    return raw('{"a":' + "[" * (depth - 1) + "]" * (depth - 1) + "}")


def on_a_commit(**members):
    """A commit with members in place of its own; None leaves one out."""
    whole = {"id": "t1", "writes": [insert(1)]} | members
    return line(1, commit={name: it for name, it in whole.items() if it is not None})


def on_a_reshape(**members):
    whole = {"stream": "S", "parts": ["S-00000"], "borders": []} | members
    return line(1, reshape={name: it for name, it in whole.items() if it is not None})


def cell(column, value):
    return TYPES + commit(1, "t1", {"insert": "T", "key": {"K": "1"}, "set": {column: value}})


def tables(count):
    return b"".join(ddl(f"CREATE TABLE U{it} (K INT64) PRIMARY KEY (K)") for it in range(count))


def streams(count, watch=""):
    return b"".join(ddl(f"CREATE CHANGE STREAM S{it}{watch}") for it in range(count))


def inserts(count, first=0):
    return [insert(it) for it in range(first, first + count)]


# the number of the bad line, and the script
NOT_JSON = [
    (1, b"x\n"),
    (1, b"x"),
    (1, b"[]\n"),
    (1, b'"x"\n'),
    (1, b" \n"),
    (1, b"\xef\xbb\xbf" + PREAMBLE),
    (1, b"\r"),
    (1, b" # no comment\n"),
    (1, b'{"at":"\xff"}\n'),
    (1, nested(128)),
    (1, b'{"a":1e999}\n'),
    (1, b'{"a":"\\ud800"}\n'),
    (1, b'{"a":"\t"}\n'),
    (1, b'{"a":01}\n'),
    (1, b'{"a":1,}\n'),
    (1, b"{}{}\n"),
    (1, PREAMBLE[:40] + b"\n"),
    (4, b"# one\n\n\r\n{\n"),
    (3, PREAMBLE + bytes(9)),
]

MEMBER = [
    (1, b"{}\n"),
    (1, nested(127)),
    (1, raw('{"ddl":"DROP CHANGE STREAM S"}')),
    (1, raw('{"at":1,"ddl":"DROP CHANGE STREAM S"}')),
    (1, line(0)),
    (1, line(0, ddl=STREAM, colour=1)),
    (1, line(0, ddl=None)),
    (1, line(0, ddl=STREAM, commit={})),
    (1, line(0, ddl=STREAM, reshape={})),
    (1, line(0, commit=[])),
    (1, line(0, reshape="S")),
    (1, line(0, ddl=STREAM, system=True)),
    *((3, PREAMBLE + it) for it in (
        on_a_commit(id=None),
        on_a_commit(id=""),
        on_a_commit(id=1),
        on_a_commit(id="a" * 65),
        on_a_commit(id="a b"),
        on_a_commit(id="it's"),
        on_a_commit(id='a"b'),
        on_a_commit(id="a\\b"),
        on_a_commit(id="é"),
        on_a_commit(tag=1),
        on_a_commit(tag="é" * 33),
        raw('{"at":"%s","commit":{"id":"t1","tag":null,"writes":[%s]}}' % (at(1), '{"delete":"T","key":{"K":1}}')),
        on_a_commit(writes=None),
        on_a_commit(writes=[]),
        on_a_commit(writes={}),
        on_a_commit(writes=[1]),
        on_a_commit(colour=1),
        on_a_commit(writes=[{"key": {}, "set": {}}]),
        on_a_commit(writes=[{"insert": 1, "key": {}, "set": {}}]),
        on_a_commit(writes=[insert(1) | {"delete": "T"}]),
        on_a_commit(writes=[{"insert": "T", "set": {}}]),
        on_a_commit(writes=[{"insert": "T", "key": [], "set": {}}]),
        on_a_commit(writes=[{"insert": "T", "key": {"K": "1"}}]),
        on_a_commit(writes=[{"update": "T", "key": {"K": "1"}}]),
        on_a_commit(writes=[{"update": "T", "key": {"K": "1"}, "set": None}]),
        on_a_commit(writes=[delete(1) | {"set": {}}]),
        on_a_commit(writes=[insert(1) | {"excluded": True}]),
        on_a_commit(writes=[insert(1), insert(2) | {"colour": 1}]),
        on_a_reshape(stream=None),
        on_a_reshape(stream=1),
        on_a_reshape(parts=None),
        on_a_reshape(parts="S-00000"),
        on_a_reshape(parts=[1]),
        on_a_reshape(parts=[""]),
        on_a_reshape(parts=["S 0"]),
        on_a_reshape(parts=["a" * 1025]),
        on_a_reshape(borders=None),
        on_a_reshape(borders={}),
        on_a_reshape(borders=["T"]),
        on_a_reshape(borders=[{"key": {"K": "1"}}]),
        on_a_reshape(borders=[{"key": None, "table": "T"}]),
        on_a_reshape(borders=[border(1) | {"colour": 1}]),
        on_a_reshape(system=True),
    )),
]

NOT_BUILT = [(3, PREAMBLE + it) for it in (
    on_a_commit(system=True),
    on_a_commit(excluded=False, id=None),
    line("noon", commit={"system": 1}),
)]

STAMPS = [
    ("Shape", 1, line("2024-05-01 00:00:00Z", ddl=STREAM)),
    ("Shape", 1, line("", ddl="no statement")),
    ("Range", 1, line("2024-02-30T00:00:00Z", ddl=STREAM)),
    ("Range", 1, line("1970-01-01T00:00:00.0000009Z", ddl=STREAM)),
    ("TooFine", 1, line("2024-05-01T00:00:00.0000001Z", ddl=STREAM)),
]

ORDER = [
    (2, ddl("CREATE CHANGE STREAM S", 1) + ddl("CREATE CHANGE STREAM R", 0)),
    (2, ddl("CREATE CHANGE STREAM S", 1) + line("2024-05-01T00:00:00.999999Z", ddl="no statement")),
    (4, PREAMBLE + commit(2, "t1", insert(1)) + commit(1, "t2", insert(2))),
    (4, PREAMBLE + commit(1, "t1", insert(1)) + ddl("CREATE CHANGE STREAM R", 1)),
    (4, PREAMBLE + commit(1, "t1", insert(1)) + reshape(1, [0], [border(1)])),
    (6, PREAMBLE + commit(1, "t1", insert(1)) + reshape(2, [0]) + commit(2, "t2", insert(2)) + reshape(2, [1])),
]

SYNTAX = [
    (1, ddl("CREATE STREAM S")),
    (1, ddl("")),
    (1, ddl("CREATE CHANGE STREAM ALL")),
    (1, ddl("CREATE CHANGE STREAM S FOR T(K,)")),
    (1, ddl("CREATE CHANGE STREAM S;;")),
    (1, ddl("CREATE CHANGE STREAM " + "a" * 129)),
    (1, ddl("CREATE CHANGE STREAM S OPTIONS (a = 'b\\')")),
    (1, ddl("CREATE CHANGE STREAM S -- a comment")),
    (1, ddl("CREATE TABLE T (K FLOAT64) PRIMARY KEY (K)")),
    (1, ddl("CREATE TABLE T (K INT64) PRIMARY KEY ()")),
    (1, ddl("CREATE TABLE T (K STRING) PRIMARY KEY (K)")),
    (1, ddl("DROP TABLE T")),
    (1, ddl("ALTER TABLE T ADD COLUMN A INT64 NOT NULL")),
]

SCHEMA = [
    ("TableThere", 2, ddl("CREATE TABLE T (K INT64) PRIMARY KEY (K)") * 2),
    ("NoTable", 1, ddl("CREATE CHANGE STREAM S FOR U")),
    ("NoTable", 1, ddl("ALTER TABLE U ADD COLUMN A INT64")),
    ("NoTable", 3, PREAMBLE + ddl("CREATE CHANGE STREAM R FOR T(Z), t")),
    ("NoColumn", 1, ddl("CREATE TABLE T (K INT64) PRIMARY KEY (L)")),
    ("NoColumn", 3, PREAMBLE + ddl("CREATE CHANGE STREAM R FOR T(Z)")),
    ("KeyListed", 3, PREAMBLE + ddl("CREATE CHANGE STREAM R FOR T(K)")),
    ("ColumnTwice", 1, ddl("CREATE TABLE T (K INT64, K DATE) PRIMARY KEY (K)")),
    ("ColumnTwice", 1, ddl("CREATE TABLE T (K INT64) PRIMARY KEY (K, K)")),
    ("ColumnTwice", 3, PREAMBLE + ddl("ALTER TABLE T ADD COLUMN K DATE")),
    ("ColumnTwice", 3, PREAMBLE + ddl("CREATE CHANGE STREAM R FOR T(A, A)")),
    ("StreamThere", 3, PREAMBLE + ddl(STREAM)),
    ("TooManyStreams", 11, streams(11)),
    ("ColumnWatched", 5, PREAMBLE + streams(3, " FOR ALL")),
    ("ColumnWatched", 5, streams(4, " FOR ALL") + ddl("CREATE TABLE T (K INT64, A INT64) PRIMARY KEY (K)")),
    ("ColumnWatched", 6, ddl("CREATE TABLE T (K INT64) PRIMARY KEY (K)") + streams(4, " FOR T") + ddl("ALTER TABLE T ADD COLUMN A INT64")),
    ("BadOption", 1, ddl("CREATE CHANGE STREAM S OPTIONS (colour = 'red')")),
    ("BadOption", 1, ddl("CREATE CHANGE STREAM S OPTIONS (value_capture_type = 'new_row')")),
    ("BadOption", 1, ddl("CREATE CHANGE STREAM S OPTIONS (retention_period = TRUE)")),
    ("BadOption", 1, ddl("CREATE CHANGE STREAM S OPTIONS (retention_period = '1d', retention_period = NULL)")),
    ("BadOption", 1, ddl("CREATE CHANGE STREAM S OPTIONS (Retention_Period = '1d')")),
    ("BadOption", 1, ddl("CREATE CHANGE STREAM S OPTIONS (exclude_insert = TRUE, exclude_insert = TRUE)")),
    ("BadRetention", 1, ddl("CREATE CHANGE STREAM S OPTIONS (retention_period = '8d')")),
    ("BadRetention", 1, ddl("CREATE CHANGE STREAM S OPTIONS (retention_period = '23h')")),
    ("BadRetention", 1, ddl("CREATE CHANGE STREAM S OPTIONS (retention_period = '1 d')")),
    ("NotBuilt", 1, ddl("CREATE CHANGE STREAM S OPTIONS (allow_txn_exclusion = NULL)")),
    ("NotBuilt", 1, ddl("ALTER CHANGE STREAM S DROP FOR ALL")),
    ("NotBuilt", 1, ddl("ALTER CHANGE STREAM S SET OPTIONS (colour = 'red')")),
    ("NotBuilt", 1, ddl("DROP CHANGE STREAM S")),
    ("ItemTwice", 3, PREAMBLE + ddl("CREATE CHANGE STREAM R FOR T(A), T(B)")),
    ("TooManyColumns", 1, ddl("CREATE TABLE T (" + "".join(f"C{it} DATE, " for it in range(1025)) + ") PRIMARY KEY (C0)")),
    ("TooManyColumns", 2, ddl("CREATE TABLE T (" + "".join(f"C{it} DATE, " for it in range(1024)) + ") PRIMARY KEY (C0)") + ddl("ALTER TABLE T ADD COLUMN D DATE")),
    ("BadLength", 1, ddl("CREATE TABLE T (K STRING(0)) PRIMARY KEY (K)")),
    ("BadLength", 1, ddl("CREATE TABLE T (K STRING(2621441)) PRIMARY KEY (K)")),
    ("BadLength", 3, PREAMBLE + ddl("ALTER TABLE T ADD COLUMN C BYTES(10485761)")),
]

NO_TABLE = [
    (1, commit(1, "t1", insert(1))),
    (3, PREAMBLE + commit(1, "t1", insert(1, Z="1"), insert(1, table="t"))),
    (3, PREAMBLE + commit(1, "t1", insert(1, table="S"))),
    (3, PREAMBLE + reshape(1, [0], stream="T")),
    (3, PREAMBLE + reshape(1, [9], [border(1), {"table": "U"}])),
]

NO_COLUMN = [(3, PREAMBLE + it) for it in (
    commit(1, "t1", insert(1, Z="1")),
    commit(1, "t1", insert(1, a="1")),
    commit(1, "t1", {"insert": "T", "key": {}, "set": {}}),
    commit(1, "t1", {"insert": "T", "key": {"K": "1", "A": "1"}, "set": {}}),
    commit(1, "t1", {"delete": "T", "key": {"A": "1"}}),
    commit(1, "t1", insert("x"), update(2, Z="1")),
    reshape(1, [9], [{"key": {}, "table": "T"}]),
    reshape(1, [9], [{"key": {"A": "1"}, "table": "T"}]),
)]

VALUE = [
    *(("WrongKind", 2, cell(*it)) for it in (("F", "true"), ("F", 1), ("N", 5), ("S", 7), ("B", []), ("D", 0), ("M", {}))),
    ("WrongKind", 3, PREAMBLE + commit(1, "t1", insert(1, A=1.5))),
    ("WrongKind", 3, PREAMBLE + commit(1, "t1", insert(1, A=2 ** 64))),
    ("WrongKind", 3, PREAMBLE + commit(1, "t1", insert(1, A=True))),
    ("WrongKind", 3, PREAMBLE + raw('{"at":"%s","commit":{"id":"t1","writes":[{"insert":"T","key":{"K":5.0},"set":{}}]}}' % at(1))),
    ("WrongKind", 3, PREAMBLE + raw('{"at":"%s","commit":{"id":"t1","writes":[{"insert":"T","key":{"K":-0},"set":{}}]}}' % at(1))),
    ("Range", 3, PREAMBLE + commit(1, "t1", insert(1, A="9223372036854775808"))),
    ("Range", 3, PREAMBLE + commit(1, "t1", insert(1, A=2 ** 63))),
    *(("Range", 2, cell(*it)) for it in (("N", "0.0000000001"), ("N", "-100000000000000000000000000000"), ("D", "2023-02-29"), ("D", "0000-01-01"), ("M", "2024-05-01T00:00:60Z"), ("M", "2024-05-01T00:00:00.0000001Z"))),
    *(("BadText", 2, cell(*it)) for it in (("N", "1."), ("N", ".5"), ("N", "1" * 65), ("B", "AP8"), ("B", "AP9="), ("D", "2023-2-9"), ("M", "2024-05-01"))),
    ("BadText", 3, PREAMBLE + commit(1, "t1", insert("+1"))),
    ("BadText", 3, PREAMBLE + commit(1, "t1", insert("1" * 65))),
    ("BadText", 3, PREAMBLE + reshape(1, [9], [border("x")])),
]

TOO_MANY_AT_STAMP = [
    (3, PREAMBLE + commit(1, "t1", *inserts(1025))),
    (4, PREAMBLE + commit(1, "t1", *inserts(1024)) + commit(1, "t1", insert(1))),
]

LARGE = "x" * 65500


def written_again(times):
    """A row of 65,536 bytes, of which one column is written again and again."""
    row = commit(1, "t", insert(1, B="x" * (65536 - len('{"A":null,"B":"","K":"1"}'))))
    return row + b"".join(commit(2 + it // 1024, f"t{it}", update(1, A=None)) for it in range(0, times * 1024, 1024))


TXN = [
    ("IdUsed", 4, PREAMBLE + ONE + commit(2, "t1", insert(1))),
    ("RowTwice", 3, PREAMBLE + commit(1, "t1", insert(1), update(1, A="6"))),
    ("RowThere", 4, PREAMBLE + ONE + commit(2, "t2", insert(1))),
    ("NoRow", 4, PREAMBLE + ONE + commit(2, "t2", update(9, A="6"))),
    ("NoRow", 3, PREAMBLE + commit(2, "t2", delete(9))),
    ("NoRow", 5, PREAMBLE + ONE + commit(2, "t2", delete(1)) + commit(3, "t3", update(1, A="6"))),
    ("BadValue", 2, cell("S", "four")),
    ("BadValue", 2, cell("B", "AAAA")),
    ("BadValue", 3, PREAMBLE + commit(1, "t1", {"insert": "T", "key": {"K": None}, "set": {}})),
    ("BadValue", 2, ddl("CREATE TABLE T (K INT64, A DATE NOT NULL) PRIMARY KEY (K)") + commit(1, "t1", insert(1))),
    ("KeyColumnSet", 3, PREAMBLE + commit(1, "t1", insert(1, K="1"))),
    ("SharedStampRow", 4, PREAMBLE + ONE + commit(1, "t2", update(1, A="6"))),
    ("SharedStampRow", 5, PREAMBLE + ONE + commit(2, "t2", delete(1)) + commit(2, "t3", insert(1))),
    ("RowTooLarge", 3, PREAMBLE + commit(1, "t1", insert(1, B="x" * (65537 - len('{"A":null,"B":"","K":"1"}'))))),
    ("RowTooLarge", 4, PREAMBLE + commit(1, "t1", insert(1, B=LARGE)) + commit(2, "t2", update(1, A="1" * 19))),
    ("HistoryFull", 2051, PREAMBLE + written_again(2048)),
]

SPLIT = reshape(5, [0], [border(100)])


def grown(count):
    """Reshapes that each end the last part and make 64 of it."""
    return b"".join(reshape(1 + it, [64 * it], [border(it * 64 + to) for to in range(63)]) for it in range(count))


LAYOUT = [
    ("NoPart", 4, PREAMBLE + SPLIT + reshape(6, [9])),
    ("NoPart", 4, PREAMBLE + SPLIT + reshape(6, [0, 9])),
    ("NotLive", 4, PREAMBLE + SPLIT + reshape(6, [0])),
    ("NotNeighbours", 3, PREAMBLE + reshape(6, [])),
    ("NotNeighbours", 4, PREAMBLE + SPLIT + reshape(6, [2, 1])),
    ("NotNeighbours", 4, PREAMBLE + SPLIT + reshape(6, [1, 1])),
    ("BorderOutside", 4, PREAMBLE + SPLIT + reshape(6, [2], [border(100)])),
    ("BorderOutside", 4, PREAMBLE + SPLIT + reshape(6, [1], [border(100)])),
    ("BordersNotRising", 4, PREAMBLE + SPLIT + reshape(6, [1], [border(50), border(50)])),
    ("BordersNotRising", 3, PREAMBLE + reshape(6, [0], [border(1), {"table": "T"}])),
    ("StampNotAfter", 4, PREAMBLE + SPLIT + reshape(5, [1])),
    ("StampNotAfter", 3, PREAMBLE + reshape(0, [0])),
    ("TooManyParts", 1026, PREAMBLE + grown(1024)),
    ("TooWide", 3, PREAMBLE + reshape(1, [0], [border(it) for it in range(64)])),
    ("TooWide", 5, PREAMBLE + reshape(1, [0], [border(it) for it in range(63)]) + reshape(2, [64], [border(99)]) + reshape(3, [*range(1, 64), 65, 66])),
]

TOO_LONG = [
    (0, b"#" * (MOST_BYTES + 1)),
    (0, PREAMBLE + b"#" * (MOST_BYTES - len(PREAMBLE)) + b"\n"),
    (0, PREAMBLE + b"#" * (MOST_BYTES - len(PREAMBLE) - 1) + b"\nx\n"),
]

ENDS_IN_TIME = [
    (3, PREAMBLE + b"x" * (MOST_BYTES - len(PREAMBLE))),
    (3, PREAMBLE + b"x\n" + b"#" * MOST_BYTES),
]


def refused():
    """The cause, the line and the script of each."""
    plain = {
        "NotJson": NOT_JSON + ENDS_IN_TIME, "Member": MEMBER, "Order": ORDER, "NoTable": NO_TABLE, "NoColumn": NO_COLUMN,
        "TooManyAtStamp": TOO_MANY_AT_STAMP, "NotBuilt": NOT_BUILT, "TooLong": TOO_LONG,
    }
    inner = {"Stamp": STAMPS, "Schema": SCHEMA, "Value": VALUE, "Txn": TXN, "Layout": LAYOUT}
    rows = [(cause, *it) for cause, found in plain.items() for it in found]
    rows += [(f"{cause} {fault}", *it) for cause, found in inner.items() for fault, *it in found]
    return rows + [("Syntax At", *it) for it in SYNTAX]


def check(note, room, is_explained):
    for place, (cause, number, script) in enumerate(refused()):
        what = f"script {place}, {cause}: {script[-200:]!r}"
        want = f"51 BadScript {number} {cause}\n"
        own = model.replay(script, "S", *WINDOW)
        note(own.console == want, f"{what}: the model", own.console)
        room.clear()
        ran = room.run(["replay", room.put("script", script), "journal", "output", "S", *WINDOW])
        note(ran.returncode == 51 and ran.stdout.decode() == want and is_explained(ran), what, (want, ran))
        note(room.read("output") == b"" and room.read("journal") == b"", f"{what}: nothing is written")
