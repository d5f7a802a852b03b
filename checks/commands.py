"""Rows of `check` and `gen`: outputs with their verdicts, worked out by hand, and the generator's script and summary. The
model must agree with a row before the program is asked."""
import model
from lines import PREAMBLE, STREAM, TABLE, at, change, commit, ddl, delete, insert, update, watermark
from model.generated import script_of

SCRIPT = PREAMBLE + commit(1, "t1", insert(1, A="5", B="x")) + commit(2, "t2", insert(2), update(1, A="6")) + commit(3, "t3", delete(1))
ONE = change("INSERT", 1, 1, "t1", {"A": "5", "B": "x"})
TWO = change("INSERT", 2, 2, "t2", {"A": None, "B": None})
SIX = change("UPDATE", 1, 2, "t2", {"A": "6"}, {"A": "5"})
GONE = change("DELETE", 1, 3, "t3", {}, {"A": "6", "B": "x"})
ALL = ONE + TWO + SIX + GONE

# an output, and the last line of a check from the first second to the third
VERDICTS = [
    (ALL + watermark(3), "0 Ended"),
    (ONE + watermark(1) + SIX + TWO + watermark(2) + GONE + watermark(3), "0 Ended"),
    (TWO + ONE + SIX + GONE + watermark(3), "0 Ended"),
    (b"", "11 Verdict Prefix -"),
    (ALL, "11 Verdict Prefix -"),
    (ONE + watermark(1), "11 Verdict Prefix 2024-05-01T00:00:01Z"),
    (watermark("1970-01-01T00:00:00.000001Z") + ONE, "11 Verdict Prefix 1970-01-01T00:00:00.000001Z"),
    (ALL + watermark("2024-05-01T00:00:02.999999Z"), "11 Verdict Prefix 2024-05-01T00:00:02.999999Z"),
    (ALL + watermark(3) + ONE, "11 Verdict OutOfOrder 6"),
    (ONE + ONE, "11 Verdict OutOfOrder 2"),
    (SIX, "11 Verdict OutOfOrder 1"),
    (ONE + GONE + SIX, "11 Verdict OutOfOrder 2"),
    (watermark(1) + ONE, "11 Verdict WatermarkEarly 1"),
    (ONE + TWO + watermark(2), "11 Verdict WatermarkEarly 3"),
    (ONE + watermark(1) + watermark(1), "11 Verdict WatermarkBack 3"),
    (ONE + watermark(1) + watermark("2024-05-01T00:00:00.500000Z"), "11 Verdict WatermarkBack 3"),
    (ALL + watermark("2024-05-01T00:00:03.000001Z"), "11 Verdict WatermarkBack 5"),
    (ONE + watermark(4), "11 Verdict WatermarkEarly 2"),
    (b'{"key":{}}\n', "11 Verdict Extra 1"),
    (ONE + ONE.replace(b'"5"', b'"7"'), "11 Verdict Extra 2"),
    (ONE + TWO.replace(b"INSERT", b"insert") + SIX + SIX, "11 Verdict Extra 2"),
    (ONE[:-1], "56 BadOutput 1"),
    (ALL + watermark(3)[:-1], "56 BadOutput 5"),
    (ALL + watermark(3) + b"\n", "56 BadOutput 6"),
    (ALL + watermark(3) + b"x", "56 BadOutput 6"),
    (ONE.replace(b"\n", b"\r\n"), "11 Verdict Extra 1"),
    (watermark(3).replace(b"\n", b"\r\n"), "56 BadOutput 1"),
    (watermark("2024-05-01T00:00:03.0Z"), "56 BadOutput 1"),
    (watermark("2024-05-01T00:00:03.000000Z"), "56 BadOutput 1"),
    (watermark("1970-01-01T00:00:00Z"), "56 BadOutput 1"),
    (b" " + ONE, "56 BadOutput 1"),
    (b'{"key":\xff}\n', "56 BadOutput 1"),
    (b'{"key":{}}\n\n' + ONE[:-1], "56 BadOutput 2"),
    (ONE + b'{"key":', "56 BadOutput 2"),
    (ONE + b'{"ke', "56 BadOutput 2"),
]

# a script, an output, a window of the stream S, and the last line
OTHERS = [
    (PREAMBLE + b"x\n", b"x", (at(1), at(3)), "51 BadScript 3 NotJson"),
    (ddl(TABLE), b"x", (at(1), at(3)), "21 Refused UnknownFunction"),
    (SCRIPT, watermark(5), (at(5), at(5)), "0 Ended"),
    (SCRIPT, watermark(5), (at(4), "9999-12-31T23:59:59.999999Z"), "11 Verdict Prefix 2024-05-01T00:00:05Z"),
    # a change before the stream was made is a wanted one, and no retention is asked for
    (ddl(TABLE) + commit(1, "t1", insert(1, A="5", B="x")) + ddl(STREAM, 2), ONE + watermark(3), (at(1), at(3)), "0 Ended"),
    (ddl(TABLE) + commit(1, "t1", insert(1, A="5", B="x")) + ddl(STREAM, 2), watermark(3), (at(1), at(3)), "11 Verdict WatermarkEarly 1"),
    (SCRIPT, ALL + watermark("2029-05-01T00:00:00Z"), ("1970-01-01T00:00:01Z", "2029-05-01T00:00:00Z"), "0 Ended"),
]


def check_verdicts(note, room, is_explained):
    rows = [(SCRIPT, output, (at(1), at(3)), want) for output, want in VERDICTS] + OTHERS
    for script, output, window, want in rows:
        what = f"check of {output[-300:]!r} in {window}"
        own = model.check(script, output, "S", *window)
        note(own.console == want + "\n", f"{what}: the model", own.console)
        room.clear()
        ran = room.run(["check", room.put("script", script), room.put("output", output), "S", *window])
        note(ran.returncode == int(want.split()[0]) and ran.stdout.decode() == want + "\n" and is_explained(ran), what, str(ran)[:400])
        note(room.read("output") == output, f"{what}: the output stays")


def check_faults(note, room, is_explained):
    room.clear()
    script = room.put("script", SCRIPT)
    output = room.put("output", ALL + watermark(3))
    rest = ["S", at(1), at(3)]
    for words, missing in (([room.path("none"), output], room.path("none")), ([script, room.path("none")], room.path("none")), ([script, room.at], room.at)):
        ran = room.run(["check", *words, *rest])
        note(ran.returncode == 70 and ran.stdout == b"" and b"cannot open " + missing.encode() in ran.stderr, f"check of {words}", str(ran)[:400])
    note(sorted(it for it in room.names()) == ["output", "script"], "check makes no file")
    # as a script a folder opens as a file does, and every read of it fails
    ran = room.run(["check", room.at, output, *rest])
    note(ran.returncode == 42 and ran.stdout == b"42 SourceFault\n" and is_explained(ran), "check of a folder as a script", str(ran)[:400])
    with open("/dev/full", "wb") as full:
        ran = room.run(["check", script, output, *rest], stdout=full)
    note(ran.returncode == 43 and is_explained(ran), "check with a console whose writes fail", str(ran)[:400])


def check_generated(note, room):
    for word in ("10", "0010", "12", "1998", "5000"):
        ran = room.run(["gen", word, "--text"])
        note(ran.returncode == 0 and ran.stdout == script_of(int(word)) and ran.stderr == b"", f"gen {word} --text", str(ran)[:400])
    for word in ("10", "0502", "5000"):
        ran = room.run(["gen", word])
        note(ran.returncode == 0 and ran.stdout.decode() == model.gen(int(word)) and ran.stderr == b"", f"gen {word}", str(ran)[:400])
    room.clear()
    script = script_of(5000)
    window = ["G", at(3600), at(7200)]
    ran = room.run(["replay", room.put("script", script), "journal", "output", *window])
    own = model.replay(script, *window)
    note(ran.returncode == 0 and room.read("output") == own.output, "replay of a generated script", str(ran)[:400])
    with open("/dev/full", "wb") as full:
        ran = room.run(["gen", "10", "--text"], stdout=full)
    note(ran.returncode == 43, "gen with a console whose writes fail", str(ran)[:400])


def check(note, room, is_explained):
    check_verdicts(note, room, is_explained)
    check_faults(note, room, is_explained)
