"""Scripts that are taken, each with the output that was worked out by hand, and windows with their answers. The model
must agree with a row before the program is asked."""
import journal
import model
from follows import before
from lines import PREAMBLE, at, border, change, commit, ddl, delete, insert, reshape, update, watermark
from scripts import MOST_BYTES, ONE, SPLIT, WINDOW, grown, inserts, written_again

INSERTED = change("INSERT", 1, 1, "t1", {"A": "5", "B": "x"})

# scripts that are taken, with the window and the output
TAKEN = [
    ("one insert", PREAMBLE + ONE, (at(1), at(1)), INSERTED + watermark(1)),
    ("no commit", PREAMBLE, (at(10), at(20)), watermark(20)),
    ("no line's end at the end", PREAMBLE + ONE[:-1], WINDOW, INSERTED + watermark(10)),
    ("CR LF", (PREAMBLE + ONE).replace(b"\n", b"\r\n"), WINDOW, INSERTED + watermark(10)),
    ("comments and empty lines", b"# one\n\n" + PREAMBLE + b"\r\n#\xff\n" + ONE + b"#", WINDOW, INSERTED + watermark(10)),
    ("blanks and another order of members", PREAMBLE + b' { "commit" : {"writes":[{"set":{"B":"x","A":5},"key":{"K":1},"insert":"T"}],"id":"t1","tag":""}, "at":"%s" }\t\n' % at(1).encode(), WINDOW, INSERTED + watermark(10)),
    ("a member twice", PREAMBLE + ONE.replace(b'{"at":', b'{"at":7,"at":'), WINDOW, INSERTED + watermark(10)),
    ("escapes", PREAMBLE + ONE.replace(b'"x"', b'"\\u0078\\n\\u007f\\ud83d\\ude00\\/"'), WINDOW, change("INSERT", 1, 1, "t1", {"A": "5", "B": "x\n\x7f\U0001f600/"}) + watermark(10)),
    ("names between backquotes", ddl("create table `all` (`K` int64) primary key (K asc);") + ddl("CREATE CHANGE STREAM S FOR `all`") + commit(1, "t1", insert(1, table="all")), WINDOW, change("INSERT", 1, 1, "t1", table="all") + watermark(10)),
    ("the largest row", PREAMBLE + written_again(1), (at(2), at(2)), change("UPDATE", 1, 2, "t0", {"A": None}, {"A": None}) + watermark(2)),
    ("1,024 writes of a stamp", PREAMBLE + commit(1, "t1", *inserts(1023)) + commit(1, "t2", insert(1023)) + commit(2, "t3", insert(1024)), (at(2), at(2)), change("INSERT", 1024, 2, "t3", {"A": None, "B": None}) + watermark(2)),
    ("64 parts, and all of their parts", PREAMBLE + grown(1023), WINDOW, b"".join(before(it) for it in range(2, 11)) + watermark(10)),
    ("the longest script", PREAMBLE + ONE + b"#" * (MOST_BYTES - len(PREAMBLE + ONE)), WINDOW, INSERTED + watermark(10)),
    ("a column that was added later", PREAMBLE + ONE + ddl("ALTER TABLE T ADD COLUMN C DATE", 2) + commit(3, "t2", update(1, C="2024-02-29")) + commit(4, "t3", delete(1)), WINDOW,
     INSERTED + change("UPDATE", 1, 3, "t2", {"C": "2024-02-29"}, {"C": None}) + change("DELETE", 1, 4, "t3", {}, {"A": "5", "B": "x", "C": "2024-02-29"}) + watermark(10)),
    ("FOR T(A)", ddl("CREATE TABLE T (K INT64 NOT NULL, A INT64, B STRING(MAX)) PRIMARY KEY (K)") + ddl("CREATE CHANGE STREAM S FOR T(A)") + ONE + commit(2, "t2", update(1, B="y")) + commit(3, "t3", update(1, A="5")), WINDOW,
     change("INSERT", 1, 1, "t1", {"A": "5"}) + change("UPDATE", 1, 3, "t3", {"A": "5"}, {"A": "5"}) + watermark(10)),
    ("FOR T()", ddl("CREATE TABLE T (K INT64 NOT NULL, A INT64, B STRING(MAX)) PRIMARY KEY (K)") + ddl("CREATE CHANGE STREAM S FOR T()") + ONE + commit(2, "t2", update(1, A="6")) + commit(3, "t3", delete(1)), WINDOW,
     change("INSERT", 1, 1, "t1") + change("DELETE", 1, 3, "t3") + watermark(10)),
    ("a split at a row's own place", PREAMBLE + SPLIT + commit(5, "t1", insert(100, A="5", B="x")), WINDOW, before(5) + change("INSERT", 100, 5, "t1", {"A": "5", "B": "x"}) + watermark(10)),
    ("a split and a merge", PREAMBLE + reshape(2, [0], [border(100)]) + commit(3, "a", insert(1)) + commit(4, "b", insert(200)) + reshape(6, [1, 2]) + commit(7, "c", insert(2)), (at(3), at(8)),
     change("INSERT", 1, 3, "a", {"A": None, "B": None}) + change("INSERT", 200, 4, "b", {"A": None, "B": None}) + before(6) + change("INSERT", 2, 7, "c", {"A": None, "B": None}) + watermark(8)),
]

RETAINED = b"".join(ddl(f"CREATE CHANGE STREAM {name} OPTIONS (retention_period = {text})", 9) for name, text in (("S", "NULL"), ("R", "'036h'"), ("Q", "'7d'")))

# the words behind the output of a replay, and the console's line
WINDOWS = [
    (("N", at(1), at(10)), "21 Refused UnknownFunction"),
    (("s", at(1), at(10)), "21 Refused UnknownFunction"),
    (("S", at(8), at(10)), "21 Refused StartBeforeCreation"),
    (("S", "2024-05-01T00:00:08.999999Z", "2024-05-09T00:00:00Z"), "21 Refused StartBeforeCreation"),
    (("S", at(9), at(9)), "0 Ended"),
    (("S", at(9), "2024-05-02T00:00:09Z"), "0 Ended"),
    (("S", at(9), "2024-05-02T00:00:09.000001Z"), "20 RetentionPassed 2024-05-01T00:00:09.000001Z"),
    (("R", at(9), "2024-05-02T12:00:09Z"), "0 Ended"),
    (("R", at(9), "2024-05-02T12:00:10Z"), "20 RetentionPassed 2024-05-01T00:00:10Z"),
    (("Q", at(9), "2024-05-08T00:00:09Z"), "0 Ended"),
    (("Q", at(9), "9999-12-31T23:59:59.999999Z"), "20 RetentionPassed 9999-12-24T23:59:59.999999Z"),
]


def check_taken(note, room):
    for what, script, window, output in TAKEN:
        own = model.replay(script, "S", *window)
        note(own.status == 0 and own.output == output, f"script with {what}: the model", own.console)
        room.clear()
        path = room.put("script", script)
        ran = room.run(["replay", path, "journal", "output", "S", *window])
        note(ran.returncode == 0 and ran.stdout == b"0 Ended\n" and ran.stderr == b"", f"script with {what}", str(ran)[:400])
        note(room.read("output") == output, f"script with {what}: output", room.read("output")[:400])
        ran = room.run(["check", path, "output", "S", *window])
        note(ran.returncode == 0 and ran.stdout == b"0 Ended\n" and ran.stderr == b"", f"script with {what}: check", str(ran)[:400])


def check_windows(note, room, is_explained):
    for words, want in WINDOWS:
        own = model.replay(RETAINED, *words)
        note(own.console == want + "\n", f"window {words}: the model", own.console)
        room.clear()
        ran = room.run(["replay", room.put("script", RETAINED), "journal", "output", *words])
        note(ran.returncode == own.status and ran.stdout.decode() == own.console and is_explained(ran), f"window {words}", str(ran)[:400])
        saw = journal.unlike(room.read("journal"), room.read("output"), own.entries)
        note(room.read("output") == own.output and saw is None, f"window {words}: both files", (saw, room.read("output")))


def check(note, room, is_explained):
    check_taken(note, room)
    check_windows(note, room, is_explained)
