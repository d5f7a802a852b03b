"""Files that a replay must not touch: those of a run that still goes, one file under both names, and files that are no journal.
And journals that no run leaves, but whose entries follow each other: they are answered by a status."""
import os
import signal
import time

import journal
from follows import MERGE, ONE, to
from kills import WINDOW, Folder, Whole
from lines import PREAMBLE, at, ddl
from model.entries import Begin, Finished, Opened
from model.generated import END, START, script_of
from model.texts import read_stamp

WORDS = ("S", *to(1, 1))
LIST = b"A list of things to buy.\nApples\n"
# a journal has at most so many bytes before the gate of its first entry is open
FRONT = 160
OPENED = journal.framed([journal.payload_of(Opened(("S-00000",)))])
BEGIN = journal.framed([journal.payload_of(Begin("S", read_stamp(at(1)), read_stamp(at(1))))])
FOREIGN = (
    ("a text", LIST),
    ("a text of one letter", b"A"),
    ("the script", ONE),
    ("an output", b'{"watermark":"2024-05-01T00:00:01Z"}\n'),
    ("4 KiB of zeros", b"\x00" * 4096),
    ("an image", b"\x89PNG\r\n\x1a\n\x00\x00\x00\rIHDR\x00\x00\x00\x01"),
    ("a program", b"\x7fELF\x02\x01\x01" + b"\x00" * 57),
    ("an archive", b"PK\x03\x04\x14\x00\x00\x00"),
    # an opening that asks the first byte alone would write at the first gate of these that is not open, and cut off the rest
    ("the byte 1", b"\x01"),
    ("the byte 1 and a text", b"\x01" + LIST),
    ("the byte 1 and a long text", b"\x01" + LIST * 100),
    ("an entry of no bytes and a text", b"\x01\x00\x00\x00\x00" + LIST),
    ("an entry of no bytes and a gate", b"\x01\x00\x00\x00\x00\x00"),
    ("an entry of one byte and a text", b"\x01\x01\x00\x00\x00\x01" + LIST),
    ("a whole entry that begins no window", OPENED),
    ("a whole entry that begins no window, and a text", OPENED[:-1] + LIST),
    ("a whole entry that begins no window, and a window", OPENED[:-1] + BEGIN),
    ("a window with a byte more, and a text", b"\x01\x18" + BEGIN[2:-1] + b"\x07" + LIST),
    ("a window with a byte less, and a text", b"\x01\x16" + BEGIN[2:-1] + LIST),
    ("a window of another format, and a text", BEGIN[:6] + b"\x02" + BEGIN[7:-1] + LIST),
    ("a window without the gate behind it", BEGIN[:-1]),
    ("a length of 4 GiB", b"\x01\xff\xff\xff\xff" + LIST),
    ("a length beyond the file", b"\x01\x20" + BEGIN[2:]),
    ("161 zeros", b"\x00" * (FRONT + 1)),
    ("a closed gate and 160 bytes", b"\x00" + (LIST * 5)[:FRONT]),
    ("the byte 2", b"\x02"),
    ("the byte 7 and a window", b"\x07" + BEGIN[1:]),
)
# what a run may leave before its first entry is there, and a run goes on from
UNBEGUN = (
    ("no byte", b""),
    ("a closed gate", b"\x00"),
    ("160 zeros", b"\x00" * FRONT),
    ("a closed gate and 159 bytes", b"\x00" + (LIST * 5)[:FRONT - 1]),
    ("a closed gate and a window", b"\x00" + BEGIN[1:]),
    ("a closed gate and a front of a window", b"\x00" + BEGIN[1:9]),
)


def is_refused(answer):
    """It could not be opened: status 70, no line on the console, and one on standard error."""
    return answer.returncode == 70 and answer.stdout == b"" and answer.stderr.endswith(b"\n")


def check_two_runs(note, program):
    """A second run while the first one goes, which is held so that it cannot end meanwhile."""
    folder = Folder(program, script_of(200))
    words, first = (*WINDOW, "--batch", "1"), None
    try:
        folder.run(words)
        whole = Whole(words, folder.files())
        folder.forget()
        first = folder.start(words)
        deadline = time.monotonic() + 60
        while folder.size() < len(whole.files.output) // 2 and first.poll() is None and time.monotonic() < deadline:
            time.sleep(0.0005)
        first.send_signal(signal.SIGSTOP)
        held = folder.files()
        for others in (words, (*WINDOW, "--batch", "7"), ("G", START, "2024-05-02T00:00:00Z"), ("H", START, END)):
            answer, files = folder.run(others), folder.files()
            note(is_refused(answer), f"guards, a second run of {others}", answer)
            note((files.journal, files.output) == (held.journal, held.output), f"guards, a second run of {others}: both files")
        first.send_signal(signal.SIGCONT)
        console, _ = first.communicate(timeout=120)
        files = folder.files()
        same = (files.journal, files.output) == (whole.files.journal, whole.files.output)
        note(console == b"0 Ended\n" and same, "guards, the first run goes on to its end", console)
        answer = folder.run(words)
        note(answer.stdout == b"0 Ended\n", "guards, a run behind the first one", answer)
    finally:
        if first is not None and first.poll() is None:
            first.kill()
            first.wait()
        folder.remove()


def check_one_file(note, room):
    """JOURNAL and OUTPUT are one file, by one word or by two."""
    room.clear()
    room.run(["replay", room.put("script", ONE), "journal", "output", *WORDS])
    good = room.read("journal"), room.read("output")
    for content in (None, b"", *good, good[0] + good[1]):
        for what, names, link in (
            ("one word", ("one", "one"), None), ("two words", ("one", "./one"), None), ("a hard link", ("one", "two"), os.link), ("a soft link", ("one", "two"), os.symlink),
            ("a soft link as the journal", ("two", "one"), os.symlink),
        ):
            room.clear()
            script = room.put("script", ONE)
            if content is not None:
                room.put("one", content)
            if link is not None:
                if content is None:
                    continue
                link(room.path("one"), room.path("two"))
            answer = room.run(["replay", script, *names, *WORDS])
            size = "none" if content is None else f"{len(content)} bytes"
            note(is_refused(answer) and (room.left("one") or b"") == (content or b""), f"guards, one file by {what}, {size}", (answer, room.left("one")))


def check_foreign(note, room, is_explained):
    """A file that is no journal stays, and nothing is written beside it."""
    for what, content in FOREIGN:
        for output in (None, b"", b"x"):
            room.clear()
            room.put("journal", content)
            if output is not None:
                room.put("output", output)
            answer = room.run(["replay", room.put("script", ONE), "journal", "output", *WORDS])
            is_bad = answer.returncode == 53 and answer.stdout == b"53 BadJournal 0\n" and is_explained(answer)
            note(is_bad, f"guards, {what} as the journal, and the output {output}", answer)
            left = room.left("journal"), room.left("output")
            note(left == (content, output or b""), f"guards, {what} as the journal, and the output {output}: both files", left)


def check_unbegun(note, room, is_explained):
    """A file whose first entry was being written is a journal without entries, whatever stands there."""
    room.clear()
    room.run(["replay", room.put("script", ONE), "journal", "output", *WORDS])
    whole = room.read("journal"), room.read("output")
    for what, content in UNBEGUN:
        room.clear()
        room.put("journal", content)
        answer = room.run(["replay", room.put("script", ONE), "journal", "output", *WORDS])
        left = room.read("journal")[:len(whole[0])], room.read("output")
        note(answer.stdout == b"0 Ended\n" and left == whole, f"guards, {what} as the journal", (answer, left))
    # the longest window that a journal begins with is known again
    name = "S" * 128
    room.clear()
    script = room.put("script", PREAMBLE + ddl(f"CREATE CHANGE STREAM {name} FOR T"))
    words = ["replay", script, "journal", "output", name, *to(1, 1)]
    answers = [room.run(words) for _ in range(2)]
    note([it.stdout for it in answers] == [b"0 Ended\n"] * 2, "guards, the longest name of a stream", answers)
    cut = room.read("journal")[:1 + 4 + 2 + 4 + len(name) + 16] + b"\x00"
    room.put("journal", b"\x00" + cut[1:])
    room.put("output", b"")
    note(room.run(words).stdout == b"0 Ended\n", "guards, the longest window behind a closed gate", len(cut))
    answer = room.run([*words[:-1], at(2)])
    note(answer.returncode == 52 and is_explained(answer), "guards, another end with the longest name", answer)


def check_other_hands(note, room, is_explained):
    """Entries that follow on each other and tell another stream's story than the script: what offends is named, and nothing breaks."""
    begin, six = Begin("S", read_stamp(at(3)), read_stamp(at(8))), read_stamp(at(6))
    both, child = ("S-00001", "S-00002"), "S-00003"
    left = Finished("S-00001", six - 1, (), ((child, both, six),))
    later = left._replace(children=((child, both, six + 1),))
    for what, want, *entries in (
        ("a row that waits for a parent that is none", "31 Breach Orphan S-00003 S-00002", begin, Opened(both[:1]), left),
        ("a child that begins at another stamp", "31 Breach ChildDiffers S-00003 S-00003", begin, Opened(both), later),
        ("a token that is none", "21 Refused UnknownToken", begin, Opened(("S-00009",))),
    ):
        room.clear()
        room.put("journal", journal.framed([journal.payload_of(it) for it in entries]))
        answer = room.run(["replay", room.put("script", MERGE), "journal", "output", "S", *to(3, 8)])
        note(answer.stdout.decode() == want + "\n" and answer.returncode == int(want.split()[0]) and is_explained(answer), f"guards, {what}", str(answer)[:400])


def check(note, room, is_explained):
    check_two_runs(note, room.program)
    check_one_file(note, room)
    check_foreign(note, room, is_explained)
    check_unbegun(note, room, is_explained)
    check_other_hands(note, room, is_explained)
    room.clear()
