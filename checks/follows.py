"""Replays whose READs were gone through by hand: which lines stand in which order, which watermarks stand between them, and how
the replay stops. The model must agree with a row, and the judge with its output, before the program is asked; what the program
wrote is then checked by the program itself."""
import base64

import commands
import journal
import judge
import model
from lines import PREAMBLE, STREAM, at, border, change, commit, ddl, insert, reshape, watermark

MICRO = "2024-05-01T00:00:%02d.999999Z"


def ins(key, second, tx):
    return commit(second, tx, insert(key, A="5", B="x"))


def told(key, second, tx):
    return change("INSERT", key, second, tx, {"A": "5", "B": "x"})


def before(second):
    """The watermark a microsecond below so many seconds."""
    return watermark(MICRO % (second - 1))


ONE = PREAMBLE + ins(1, 1, "t1")
TWO = PREAMBLE + ins(1, 1, "a") + ins(2, 2, "b")
TIES = PREAMBLE + ins(1, 1, "t1") + ins(2, 1, "t2")
CUT = reshape(5, [0], [border(100)])
SPLIT = PREAMBLE + CUT + ins(100, 5, "t1")
LEFT = PREAMBLE + CUT + ins(1, 5, "t1")
HALVES = PREAMBLE + reshape(2, [0], [border(100)]) + ins(1, 3, "a") + ins(200, 4, "b")
MERGE = HALVES + reshape(6, [1, 2]) + ins(2, 7, "c")
MOVE = PREAMBLE + reshape(2, [0], [border(100)]) + ins(10, 3, "a") + ins(200, 4, "b") + reshape(6, [1, 2], [border(50)]) + ins(20, 7, "c") + ins(60, 8, "d")
AGAIN = HALVES + reshape(6, [2], [border(300)]) + ins(150, 7, "c") + ins(400, 7, "d")
THIRDS = PREAMBLE + reshape(1, [0], [border(100), border(200)]) + ins(1, 2, "a") + ins(100, 3, "b") + ins(200, 4, "c")
FAR = PREAMBLE + ins(1, 1, "a") + ins(2, 60, "b")
CROWD = PREAMBLE + commit(1, "a", *(insert(it) for it in range(33))) + commit(2, "b", insert(33))
CROWDED = b"".join(change("INSERT", it, 1, "a", {"A": None, "B": None}) for it in range(33))
ENDED, PAUSED = "0 Ended", "10 Paused"


def to(start, end, **options):
    """A window by its seconds, with options."""
    return at(start), at(end), *(word for name, value in options.items() for word in ("--" + name, str(value)))


# pages of one partition, each row with the words behind the stream, the console's line and the output
PAGES = [
    ("one insert", ONE, to(1, 1), ENDED, told(1, 1, "t1") + watermark(1)),
    ("no commit", PREAMBLE, to(10, 20), ENDED, watermark(20)),
    ("two records, each of a READ of its own", TWO, to(1, 3, batch=1), ENDED, told(1, 1, "a") + told(2, 2, "b") + before(2) + watermark(3)),
    ("two records of one READ", TWO, to(1, 3), ENDED, told(1, 1, "a") + told(2, 2, "b") + watermark(3)),
    ("two records of a READ of two", TWO, to(1, 3, batch=2), ENDED, told(1, 1, "a") + told(2, 2, "b") + before(2) + watermark(3)),
    ("two records of a READ of three", TWO, to(1, 3, batch=3), ENDED, told(1, 1, "a") + told(2, 2, "b") + watermark(3)),
    ("ties, each of a READ of its own", TIES, to(1, 2, batch=1), ENDED, told(1, 1, "t1") + told(2, 1, "t2") + watermark(2)),
    ("ties above the start", TIES, to(0, 2, batch=1), ENDED, told(1, 1, "t1") + before(1) + told(2, 1, "t2") + watermark(2)),
    ("a transaction of two records", CROWD, to(1, 3, batch=1), ENDED, CROWDED + change("INSERT", 33, 2, "b", {"A": None, "B": None}) + before(2) + watermark(3)),
    ("a heartbeat that is a page", FAR, to(1, 61, batch=1), ENDED, told(1, 1, "a") + before(60) + told(2, 60, "b") + watermark(61)),
    ("a heartbeat that ends a page", FAR, to(1, 61, batch=2), ENDED, told(1, 1, "a") + before(60) + told(2, 60, "b") + watermark(61)),
    ("a heartbeat within a page", FAR, to(1, 61, batch=3), ENDED, told(1, 1, "a") + told(2, 60, "b") + before(60) + watermark(61)),
    ("a heartbeat, and no page", FAR, to(1, 61, batch=4), ENDED, told(1, 1, "a") + told(2, 60, "b") + watermark(61)),
    ("a heartbeat at the end", FAR, to(1, 100, batch=1), ENDED, told(1, 1, "a") + before(60) + told(2, 60, "b") + watermark(100)),
]

GRAPH = [
    ("a split at a row's own place", SPLIT, to(1, 10), ENDED, before(5) + told(100, 5, "t1") + watermark(10)),
    ("a merge", MERGE, to(3, 8), ENDED, told(1, 3, "a") + told(200, 4, "b") + before(6) + told(2, 7, "c") + watermark(8)),
    ("a merge in the order 0", MERGE, to(3, 8, order=0), ENDED, told(1, 3, "a") + told(200, 4, "b") + before(6) + told(2, 7, "c") + watermark(8)),
    ("a merge in the order 1", MERGE, to(3, 8, order=1), ENDED, told(200, 4, "b") + told(1, 3, "a") + before(6) + told(2, 7, "c") + watermark(8)),
    ("a merge by pages of one record", MERGE, to(3, 8, batch=1), ENDED, told(1, 3, "a") + told(200, 4, "b") + before(4) + before(6) + told(2, 7, "c") + before(7) + watermark(8)),
    ("a start at a split", PREAMBLE + CUT, to(5, 6), ENDED, watermark(6)),
    ("an end at a split", LEFT, to(1, 5), ENDED, before(5) + told(1, 5, "t1") + watermark(5)),
    ("an end below a split", LEFT, (at(1), MICRO % 4), ENDED, before(5)),
    ("a moved border", MOVE, to(2, 10), ENDED, told(10, 3, "a") + told(200, 4, "b") + before(6) + told(20, 7, "c") + told(60, 8, "d") + watermark(10)),
    ("a moved border in the order 1", MOVE, to(2, 10, order=1), ENDED, told(200, 4, "b") + told(10, 3, "a") + before(6) + told(60, 8, "d") + told(20, 7, "c") + watermark(10)),
    ("three partitions", THIRDS, to(1, 5), ENDED, told(1, 2, "a") + told(100, 3, "b") + told(200, 4, "c") + watermark(5)),
    ("three partitions in the order 1", THIRDS, to(1, 5, order=1), ENDED, told(100, 3, "b") + told(200, 4, "c") + told(1, 2, "a") + watermark(5)),
    ("three partitions in the order 2", THIRDS, to(1, 5, order=2), ENDED, told(200, 4, "c") + told(1, 2, "a") + told(100, 3, "b") + watermark(5)),
    ("three partitions in the order 5", THIRDS, to(1, 5, order=5), ENDED, told(200, 4, "c") + told(100, 3, "b") + told(1, 2, "a") + watermark(5)),
    ("three partitions in the last order", THIRDS, to(1, 5, order=9999999999), ENDED, told(1, 2, "a") + told(200, 4, "c") + told(100, 3, "b") + watermark(5)),
]

MOMENTS = [
    ("a moment within the window, two turns", ONE, to(1, 10, moment=at(5), turns=2), PAUSED, told(1, 1, "t1") + watermark(5)),
    ("a moment within the window, one turn", ONE, to(1, 10, moment=at(5), turns=1), PAUSED, told(1, 1, "t1") + watermark(5)),
    ("a moment within the window", ONE, to(1, 10, moment=at(5)), PAUSED, told(1, 1, "t1") + watermark(5)),
    ("a moment a microsecond below the end", ONE, to(1, 10, moment=MICRO % 9), PAUSED, told(1, 1, "t1") + before(10)),
    ("a moment at the end", ONE, to(1, 10, moment=at(10)), ENDED, told(1, 1, "t1") + watermark(10)),
    ("a moment above the end", ONE, to(1, 10, moment="2024-05-01T00:00:10.000001Z", turns=1), ENDED, told(1, 1, "t1") + watermark(10)),
    ("a moment at the start, where a change is", ONE, to(1, 10, moment=at(1)), PAUSED, told(1, 1, "t1") + watermark(1)),
    ("a moment at the start, without a change", PREAMBLE, to(10, 20, moment=at(10)), PAUSED, watermark(10)),
    ("a moment between two changes", TWO, to(1, 10, moment=at(1)), PAUSED, told(1, 1, "a") + watermark(1)),
    ("pages up to a moment", TWO, to(1, 10, moment=at(5), turns=1, batch=1), PAUSED, told(1, 1, "a") + told(2, 2, "b") + before(2) + watermark(5)),
    ("one turn of two partitions", HALVES, to(3, 10, moment=at(5), turns=1), PAUSED, told(1, 3, "a")),
    ("one turn of two partitions in the order 1", HALVES, to(3, 10, moment=at(5), turns=1, order=1), PAUSED, told(200, 4, "b")),
    ("two turns of two partitions", HALVES, to(3, 10, moment=at(5), turns=2), PAUSED, told(1, 3, "a") + told(200, 4, "b") + watermark(5)),
    ("two turns of two partitions in the order 1", HALVES, to(3, 10, moment=at(5), turns=2, order=1), PAUSED, told(200, 4, "b") + told(1, 3, "a") + watermark(5)),
    ("three turns of two partitions", HALVES, to(3, 10, moment=at(5), turns=3), PAUSED, told(1, 3, "a") + told(200, 4, "b") + watermark(5)),
    ("a moment below a split", LEFT, to(1, 10, moment=MICRO % 4), PAUSED, before(5)),
    ("a moment at a split, one turn", LEFT, to(1, 10, moment=at(5), turns=1), PAUSED, before(5) + told(1, 5, "t1")),
    ("a moment at a split, one turn in the order 1", LEFT, to(1, 10, moment=at(5), turns=1, order=1), PAUSED, before(5)),
    ("a moment at a split, two turns", LEFT, to(1, 10, moment=at(5), turns=2), PAUSED, before(5) + told(1, 5, "t1") + watermark(5)),
    ("a moment at a merge", MERGE, to(3, 8, moment=at(6), turns=1), PAUSED, told(1, 3, "a") + told(200, 4, "b") + before(6) + watermark(6)),
    ("children before a partition that was tried, two turns", AGAIN, to(3, 10, moment=at(7), turns=2), PAUSED, told(1, 3, "a") + told(200, 4, "b") + before(6) + told(150, 7, "c")),
    ("children before a partition that was tried, three turns", AGAIN, to(3, 10, moment=at(7), turns=3), PAUSED,
     told(1, 3, "a") + told(200, 4, "b") + before(6) + told(150, 7, "c") + told(400, 7, "d") + watermark(7)),
    ("a start as old as the stream keeps", ONE, to(1, 10, moment="2024-05-02T00:00:01Z"), ENDED, told(1, 1, "t1") + watermark(10)),
    ("a start a microsecond too old", ONE, to(1, 10, moment="2024-05-02T00:00:01.000001Z"), "20 RetentionPassed 2024-05-01T00:00:01.000001Z", b""),
    ("a moment far behind", MERGE, to(3, 8, moment="2024-06-01T00:00:00Z", batch=1), "20 RetentionPassed 2024-05-31T00:00:00Z", b""),
    ("a moment a microsecond below the start", ONE, to(1, 10, moment=MICRO % 0), "21 Refused StartInFuture", b""),
    ("the first moment of all", ONE, to(1, 10, moment="1970-01-01T00:00:00.000001Z"), "21 Refused StartInFuture", b""),
    ("a start above the moment and before the creation", ddl("CREATE CHANGE STREAM S", 9), to(8, 10, moment=at(7)), "21 Refused StartBeforeCreation", b""),
    ("a moment far behind a start before the creation", ddl("CREATE CHANGE STREAM S", 9), to(8, 10, moment="2024-06-01T00:00:00Z"), "21 Refused StartBeforeCreation", b""),
    ("a moment, and no stream", ddl("CREATE CHANGE STREAM R"), to(8, 10, moment=at(7)), "21 Refused UnknownFunction", b""),
]

# bytes behind which one READ has enough
HEAVIEST = 1048576
LETTERS = ddl("CREATE TABLE T (K INT64 NOT NULL, B STRING(MAX)) PRIMARY KEY (K)") + ddl(STREAM)
RAW = ddl("CREATE TABLE T (K INT64 NOT NULL, B BYTES(MAX)) PRIMARY KEY (K)") + ddl(STREAM)


def heavy(what, tables, texts, most):
    """Inserts of texts, a second each, of which one READ takes `most`."""
    script = tables + b"".join(commit(1 + place, f"t{place}", insert(place, B=it)) for place, it in enumerate(texts))
    lines = [change("INSERT", place, 1 + place, f"t{place}", {"B": it}) for place, it in enumerate(texts)]
    marks = before(most) if most < len(texts) else b""
    return what, script, to(1, 59), ENDED, b"".join(lines[:most]) + marks + b"".join(lines[most:]) + watermark(59)


def weights():
    # a cell of K weighs 2, and one of B weighs 2 and its bytes
    text = "x" * 61000
    count = HEAVIEST // 61004
    last = HEAVIEST - count * 61004 - 4
    rest = ["x", "y"]
    return [
        heavy("texts of as many bytes as a READ takes", LETTERS, [text] * count + ["x" * last, *rest], count + 2),
        heavy("texts of a byte more", LETTERS, [text] * count + ["x" * (last + 1), *rest], count + 1),
        heavy("letters of two bytes", LETTERS, ["\u00e9" * 30500] * count + ["\u00e9" * (last // 2 + 1), *rest], count + 1),
        heavy("bytes", RAW, [base64.b64encode(b"x" * 45000).decode()] * 25, HEAVIEST // 45004 + 1),
    ]


# words that are taken, and what they stand for
SPELLED = [
    (("--order", "0000000001"), {"order": 1}),
    (("--batch", "8192"), {}),
    (("--batch", "0000000001"), {"batch": 1}),
    (("--turns", "1"), {}),
    (("--turns", "1000000"), {}),
    (("--turns", "0001000000", "--order", "0"), {}),
    (("--moment", "2024-05-01T00:00:08.000000000Z"), {}),
    (("--batch", "1", "--order", "1"), {"order": 1, "batch": 1}),
    (("--moment", "9999-12-31T23:59:59.999999Z", "--turns", "7", "--batch", "3", "--order", "9999999999"), None),
]


def check_row(note, room, is_explained, what, script, words, want, output):
    own = model.replay(script, "S", *words)
    note(own.console == want + "\n" and own.output == output, f"replay, {what}: the model", (own.console, own.output[-400:]))
    status = int(want.split()[0])
    wanted = [it.line for it in model.changes(script, "S", *words[:2])] if status in (0, 10) else []
    saw = judge.wrong(status, output, wanted, words[1])
    note(saw is None, f"replay, {what}: the judge", saw)
    room.clear()
    path = room.put("script", script)
    ran = room.run(["replay", path, "journal", "output", "S", *words])
    note(ran.returncode == status and ran.stdout.decode() == want + "\n" and is_explained(ran), f"replay, {what}", str(ran)[:400])
    note(room.left("output") == output, f"replay, {what}: output", (room.left("output") or b"")[-400:])
    saw = journal.unlike(room.left("journal") or b"", output, own.entries)
    note(saw is None, f"replay, {what}: journal", saw)
    if status in (0, 10):
        marks = [it for it in output.decode().split("\n") if it.startswith('{"watermark"')]
        verdict = ENDED if status == 0 else f"11 Verdict Prefix {marks[-1][14:-2] if marks else '-'}"
        ran = room.run(["check", path, "output", "S", *words[:2]])
        note(ran.returncode == int(verdict.split()[0]) and ran.stdout.decode() == verdict + "\n", f"replay, {what}: check", (verdict, str(ran)[:400]))


def check_judge(note):
    """The judge, by outputs with verdicts that were worked out by hand."""
    window = at(1), at(3)
    wanted = [it.line for it in model.changes(commands.SCRIPT, "S", *window)]
    for output, verdict in commands.VERDICTS:
        is_good, is_complete = verdict == ENDED or verdict.startswith("11 Verdict Prefix"), verdict == ENDED
        saw = judge.fault(output, wanted, window[1]), judge.lack(output, wanted, window[1])
        note((saw[0] is None, saw[1] is None) == (is_good, is_complete), f"the judge of {output[-300:]!r}", (verdict, saw))


def check_children(note, room):
    """The first READ of a window that begins at a split."""
    script, query = PREAMBLE + CUT, f"SELECT ChangeRecord FROM READ_S('{at(5)}', '{at(6)}', NULL, 10000)"
    children = '[{"child_partitions":[{"parent_partition_tokens":[],"token":"S-00001"},{"parent_partition_tokens":[],"token":"S-00002"}],"record_sequence":"00000000","start_timestamp":"2024-05-01T00:00:05Z"}]'
    want = '{"child_partitions_record":%s,"data_change_record":[],"heartbeat_record":[]}\n{"closing":"FINISHED"}\n0 Ended\n' % children
    note(model.show(script, at(6), query).console == want, "the first READ at a split: the model")
    room.clear()
    ran = room.run(["show", room.put("script", script), at(6), query])
    note(ran.returncode == 0 and ran.stdout.decode() == want, "the first READ at a split", str(ran)[:400])


def check_spelled(note, room, is_explained):
    """Options are taken in any order and spelling; those that say the same have the same output."""
    for words, meant in SPELLED:
        own = model.replay(MERGE, "S", *to(3, 8), *words)
        if meant is not None:
            same = model.replay(MERGE, "S", *to(3, 8, **meant))
            note((own.console, own.output) == (same.console, same.output), f"options {words}: the model", own.console)
        check_row(note, room, is_explained, f"options {words}", MERGE, (*to(3, 8), *words), own.console[:-1], own.output)


def check_not_empty(note, room, is_explained):
    """An output that has bytes is found before a READ is refused, and stays."""
    room.clear()
    room.put("output", b"x")
    ran = room.run(["replay", room.put("script", ONE), "journal", "output", "S", *to(1, 10, moment=at(0))])
    note(ran.returncode == 55 and ran.stdout == b"55 OutputNotEmpty 1\n" and is_explained(ran), "an output of one byte, and a refused READ", str(ran)[:400])
    note(room.read("output") == b"x", "the output of one byte stays")


def check(note, room, is_explained):
    check_judge(note)
    for row in (*PAGES, *GRAPH, *MOMENTS, *weights()):
        check_row(note, room, is_explained, *row)
    check_children(note, room)
    check_spelled(note, room, is_explained)
    check_not_empty(note, room, is_explained)
