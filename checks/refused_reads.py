"""READs that are refused, each with the console's line that was worked out by hand: the smallest case of each refusal with its
last case that is none, pairs of which the first is answered, and queries and words that are none."""
import model
from lines import PREAMBLE, STREAM, TABLE, at, border, commit, ddl, insert, reshape
from shows import MICRO, ONE, SPLIT, difference, read, stamp

DAY_LATER = "2024-05-02T00:00:00Z"
TWO_LATER = "2024-05-03T00:00:00Z"
MOVED = PREAMBLE + reshape(2, [0], [border(100)])
LATE = ddl(TABLE) + ddl(STREAM, 9)
KEPT = ddl(TABLE) + ddl(f"{STREAM} OPTIONS (retention_period = '36h')")


def named(start="'2024-05-01T00:00:01Z'", beat="10000", function="READ_S", **others):
    """A query by names; an argument that is None is left out."""
    given = {"start_timestamp": start, "heartbeat_milliseconds": beat} | others
    return f"SELECT ChangeRecord FROM {function}({', '.join(f'{name} => {value}' for name, value in given.items() if value is not None)})"


# a script, a moment, a query, and the refusal; None where it is none
REFUSALS = [
    (ONE, 1, named(function="READ_X"), "UnknownFunction"),
    (ONE, 1, named(function="READ_s"), "UnknownFunction"),
    (ONE, 1, named(function="read_S"), "UnknownFunction"),
    (ONE, 1, named(function="READ_"), "UnknownFunction"),
    (ONE, 1, named(function="S"), "UnknownFunction"),
    (ONE, 1, named(function="READ_T"), "UnknownFunction"),
    (ONE, 1, named(function="READ_SS"), "UnknownFunction"),
    (ddl(TABLE), 1, named(), "UnknownFunction"),
    (ddl("CREATE CHANGE STREAM `all`"), 1, named(function="READ_all"), None),
    (ddl("CREATE CHANGE STREAM " + "s" * 128), 1, named(function="READ_" + "s" * 128), None),
    (ONE, 1, named(colour="1"), "ArgumentType"),
    (ONE, 1, named(Partition_Token="NULL"), "ArgumentType"),
    (ONE, 1, named("10000"), "ArgumentType"),
    (ONE, 1, named("'now'"), "ArgumentType"),
    (ONE, 1, named("'2024-05-01'"), "ArgumentType"),
    (ONE, 1, named("'2024-05-01T00:00:01.0000001Z'"), "ArgumentType"),
    (ONE, 1, named("'2024-02-30T00:00:01Z'"), "ArgumentType"),
    (ONE, 1, named("TIMESTAMP 'now'"), "ArgumentType"),
    (ONE, 1, named(end_timestamp="5"), "ArgumentType"),
    (ONE, 1, named(end_timestamp="''"), "ArgumentType"),
    (ONE, 1, named(partition_token="0"), "ArgumentType"),
    (ONE, 1, named(partition_token="''"), "ArgumentType"),
    (ONE, 1, named(partition_token="'S 00000'"), "ArgumentType"),
    (ONE, 1, named(partition_token='"it\'s"'), "ArgumentType"),
    (ONE, 1, named(partition_token="'\u00e9'"), "ArgumentType"),
    (ONE, 1, named(partition_token="TIMESTAMP 'S-00000'"), "ArgumentType"),
    (ONE, 1, named(partition_token=f"'{'a' * 1025}'"), "ArgumentType"),
    (ONE, 1, named(partition_token=f"'{'a' * 1024}'"), "UnknownToken"),
    (ONE, 1, named(beat="'10000'"), "ArgumentType"),
    (ONE, 1, named(beat="TIMESTAMP '2024-05-01T00:00:01Z'"), "ArgumentType"),
    (ONE, 1, named().replace(")", ", start_timestamp => NULL)"), "ArgumentType"),
    (ONE, 1, named().replace(")", ", heartbeat_milliseconds => 10000)"), "ArgumentType"),
    (ONE, 1, named(read_options="NULL").replace(")", ", read_options => NULL)"), "ArgumentType"),
    (ONE, 1, "SELECT ChangeRecord FROM READ_S('2024-05-01T00:00:01Z', 'x', 'S-00000', 10000)", "ArgumentType"),
    (ONE, 1, "SELECT ChangeRecord FROM READ_S()", "ArgumentMissing"),
    (ONE, 1, named(None), "ArgumentMissing"),
    (ONE, 1, named("NULL"), "ArgumentMissing"),
    (ONE, 1, named(beat=None), "ArgumentMissing"),
    (ONE, 1, named(beat="NULL"), "ArgumentMissing"),
    (ONE, 1, "SELECT ChangeRecord FROM READ_S('2024-05-01T00:00:01Z', NULL, NULL)", "ArgumentMissing"),
    (ONE, 1, "SELECT ChangeRecord FROM READ_S(NULL, NULL, NULL, NULL, NULL)", "ArgumentMissing"),
    (ONE, 1, named(read_options="'x'"), "ReadOptions"),
    (ONE, 1, named(read_options="0"), "ReadOptions"),
    (ONE, 1, named(read_options="TIMESTAMP 'x'"), "ReadOptions"),
    (ONE, 1, "SELECT ChangeRecord FROM READ_S('2024-05-01T00:00:01Z', NULL, NULL, 10000, '')", "ReadOptions"),
    (ONE, 1, named(read_options="NULL"), None),
    (ONE, 1, named(beat="999"), "Heartbeat"),
    (ONE, 1, named(beat="1000"), None),
    (ONE, 1, named(beat="300000"), None),
    (ONE, 1, named(beat="300001"), "Heartbeat"),
    (ONE, 1, named(beat="0"), "Heartbeat"),
    (ONE, 1, named(beat="-10000"), "Heartbeat"),
    (ONE, 1, named(beat="9999999999999999999"), "Heartbeat"),
    (ONE, 1, named(beat="4294977296"), "Heartbeat"),
    (ONE, 1, read(1, MICRO % (0, 999999), 0), "EndBeforeStart"),
    (ONE, 1, read(1, 1, 0), None),
    (ONE, 1, read(1, 0, None), "EndBeforeStart"),
    (LATE, 9, read(MICRO % (8, 999999), None, None), "StartBeforeCreation"),
    (LATE, 9, read(9, None, None), None),
    (LATE, 9, read("1970-01-01T00:00:00.000001Z", None, 0), "StartBeforeCreation"),
    (PREAMBLE, TWO_LATER, read("2024-05-01T23:59:59.999999Z", None, None), f"StartTooOld {DAY_LATER}"),
    (PREAMBLE, TWO_LATER, read(DAY_LATER, None, None), None),
    (KEPT, "2024-05-02T12:00:01.000001Z", read(1, None, 0), "StartTooOld 2024-05-01T00:00:01.000001Z"),
    (KEPT, "2024-05-02T12:00:01Z", read(1, None, 0), None),
    (PREAMBLE, "9999-12-31T23:59:59.999999Z", read(1, 1, 7), "StartTooOld 9999-12-30T23:59:59.999999Z"),
    (PREAMBLE, TWO_LATER, read("2024-05-03T00:00:00.000001Z", None, None), "StartInFuture"),
    (PREAMBLE, TWO_LATER, read(TWO_LATER, None, None), None),
    (PREAMBLE, "1970-01-01T00:00:00.000001Z", read(1, None, 0), "StartInFuture"),
    (PREAMBLE, 1, named(partition_token="'x'"), "UnknownToken"),
    (PREAMBLE, 1, named(partition_token="'S-00001'"), "UnknownToken"),
    (PREAMBLE, 1, named(partition_token="'S-0000'"), "UnknownToken"),
    (PREAMBLE, 1, named(partition_token="'s-00000'"), "UnknownToken"),
    (PREAMBLE + ddl("CREATE CHANGE STREAM R"), 1, named(partition_token="'R-00000'"), "UnknownToken"),
    (MOVED, 9, read(MICRO % (1, 999999), None, 1), "StartBeforePartition"),
    (MOVED, 9, read(2, None, 1), None),
    (MOVED, 1, read(1, None, 2), "StartBeforePartition"),
    (MOVED, 9, read(2, None, 0), "StartPastPartition"),
    (MOVED, 9, read(MICRO % (1, 999999), None, 0), None),
    (MOVED, 2, read(2, 2, 0), "StartPastPartition"),
]

# two refusals hold, and the first in their order is answered
PAIRS = [
    (ONE, 1, named(function="READ_X", colour="1"), "UnknownFunction"),
    (ONE, 1, named("5", None), "ArgumentType"),
    (ONE, 1, named(None, "'x'"), "ArgumentType"),
    (ONE, 1, named("5", read_options="'x'"), "ArgumentType"),
    (ONE, 1, named(None, read_options="'x'"), "ArgumentMissing"),
    (ONE, 1, named(None, "999"), "ArgumentMissing"),
    (ONE, 1, named(beat="999", read_options="'x'"), "ReadOptions"),
    (ONE, 1, read(1, 0, 0, 999), "Heartbeat"),
    (ONE, 1, read(5, None, 7, 300001), "Heartbeat"),
    (LATE, 9, read(5, 4, 0), "EndBeforeStart"),
    (PREAMBLE, 1, read(5, 4, 0), "EndBeforeStart"),
    (LATE, TWO_LATER, read(5, None, 0), "StartBeforeCreation"),
    (LATE, 2, read(5, None, 0), "StartBeforeCreation"),
    (LATE, 9, read(5, None, 7), "StartBeforeCreation"),
    (PREAMBLE, TWO_LATER, read(5, None, 7), f"StartTooOld {DAY_LATER}"),
    (MOVED, TWO_LATER, read(5, None, 0), f"StartTooOld {DAY_LATER}"),
    (PREAMBLE, 4, read(5, None, 7), "StartInFuture"),
    (MOVED, 1, read(5, None, 0), "StartInFuture"),
]

# texts that are no queries
NO_QUERIES = [
    "",
    " ",
    ";",
    "x",
    "SELECT",
    "SELECT 1",
    "SELECT * FROM READ_S('2024-05-01T00:00:01Z', NULL, NULL, 10000)",
    "SELECT `ChangeRecord` FROM READ_S('2024-05-01T00:00:01Z', NULL, NULL, 10000)",
    "SELECT ChangeRecord FROM READ_S",
    "SELECT ChangeRecord FROM READ_S(",
    "SELECT ChangeRecord FROM (READ_S())",
    "SELECT ChangeRecord FROM READ_S(,)",
    "SELECT ChangeRecord FROM READ_S();;",
    "SELECT ChangeRecord FROM READ_S() x",
    "SELECT ChangeRecord FROM READ_S() WHERE TRUE",
    "SELECT ChangeRecord FROM READ_S() -- all",
    "SELECT ChangeRecord AS r FROM READ_S()",
    "SELECT ChangeRecord FROM 'READ_S'()",
    "SELECT ChangeRecord FROM 1READ_S()",
    "SELECT ChangeRecord FROM ALL()",
    "SELECT ChangeRecord FROM READ_S('a', 'b',)",
    "SELECT ChangeRecord FROM READ_S('a' 'b')",
    "SELECT ChangeRecord FROM READ_S('a, NULL, NULL, 10000)",
    "SELECT ChangeRecord FROM READ_S('a\\'b', NULL, NULL, 10000)",
    "SELECT ChangeRecord FROM READ_S('a\nb', NULL, NULL, 10000)",
    "SELECT ChangeRecord FROM READ_S(NULL, NULL, NULL, 10000, NULL, NULL)",
    "SELECT ChangeRecord FROM READ_S(NULL, NULL, NULL, 12345678901234567890)",
    "SELECT ChangeRecord FROM READ_S(NULL, NULL, NULL, +1)",
    "SELECT ChangeRecord FROM READ_S(NULL, NULL, NULL, 1.5)",
    "SELECT ChangeRecord FROM READ_S(NULL, NULL, NULL, - 1)",
    "SELECT ChangeRecord FROM READ_S(NULL, NULL, NULL, TRUE)",
    "SELECT ChangeRecord FROM READ_S(NULL, NULL, NULL, @beat)",
    "SELECT ChangeRecord FROM READ_S(TIMESTAMP)",
    "SELECT ChangeRecord FROM READ_S(TIMESTAMP NULL)",
    "SELECT ChangeRecord FROM READ_S(TIMESTAMP '1970-01-02T00:00:00Z' 'x')",
    "SELECT ChangeRecord FROM READ_S(start_timestamp)",
    "SELECT ChangeRecord FROM READ_S(start_timestamp = NULL)",
    "SELECT ChangeRecord FROM READ_S(start_timestamp => )",
    "SELECT ChangeRecord FROM READ_S('start_timestamp' => NULL)",
    "SELECT ChangeRecord FROM READ_S(start_timestamp => NULL, NULL)",
    "SELECT ChangeRecord FROM READ_S(NULL, end_timestamp => NULL)",
    "SELECT ChangeRecord FROM READ_S(null => NULL)",
    f"SELECT ChangeRecord FROM READ_S({'a' * 129} => NULL)",
    f"SELECT ChangeRecord FROM {'a' * 134}()",
    "SELECT ChangeRecord FROM READ_\u00e9()",
]


def console_of(refusal):
    name, *held = refusal.split()
    return f"20 RetentionPassed {held[0]}\n" if name == "StartTooOld" else f"21 Refused {name}\n"


def check_refused(note, room, is_explained, script, now, query, refusal):
    what = f"show at {now} of {query[:200]}"
    own = model.show(script, stamp(now), query)
    room.clear()
    ran = room.run(["show", room.put("script", script), stamp(now), query])
    if refusal is None:
        note(own.status == 0, f"{what}: the model", own.console)
        saw = difference(ran.stdout.decode().split("\n"), own.console.split("\n"))
        note(ran.returncode == 0 and saw is None and ran.stderr == b"", what, f"{saw}, {ran.stderr[:300]}")
        return
    want = console_of(refusal)
    note(own.console == want, f"{what}: the model", own.console)
    note(ran.returncode == int(want.split()[0]) and ran.stdout.decode() == want and is_explained(ran), what, str(ran)[:600])
    note(room.names() == ["script"], f"{what}: it makes no file")


def check_queries(note, room, is_explained):
    room.clear()
    script = room.put("script", ONE)
    for query in NO_QUERIES:
        own = model.show(ONE, at(1), query)
        note(own.console == "50 BadWords 3\n", f"show of {query!r}: the model", own.console)
        ran = room.run(["show", script, at(1), query])
        note(ran.returncode == 50 and ran.stdout == b"50 BadWords 3\n" and is_explained(ran), f"show of {query!r}", str(ran)[:400])


def check_scripts(note, room, is_explained):
    """Bad scripts; a bad line is told before a refusal."""
    again = ONE + commit(2, "t1", insert(2))
    for script, want in ((again, "51 BadScript 4 Txn IdUsed"), (b"x\n", "51 BadScript 1 NotJson"), (SPLIT + reshape(6, [0]), "51 BadScript 4 Layout NotLive")):
        for query in (read(1, None, None), named(function="READ_X")):
            own = model.show(script, at(9), query)
            note(own.console == want + "\n", f"show of a bad script, {want}: the model", own.console)
            room.clear()
            ran = room.run(["show", room.put("script", script), at(9), query])
            note(ran.returncode == 51 and ran.stdout.decode() == want + "\n" and is_explained(ran), f"show of a bad script, {want}", str(ran)[:400])


def check(note, room, is_explained):
    for row in REFUSALS + PAIRS:
        check_refused(note, room, is_explained, *row)
    check_queries(note, room, is_explained)
    check_scripts(note, room, is_explained)
