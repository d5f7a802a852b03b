"""Replays that go on with what earlier runs left, also with files that were cut or damaged between the runs. What a journal says
is read by `journal`, what a run then does by the model, and rows that were worked out by hand stand beside them."""
import concurrent.futures
import os
import shutil

import follows
import journal
import model
from follows import to, told
from lines import at, ddl, watermark
from model.entries import Begin, Finished, Opened, Progress
from model.texts import read_stamp

ONE = (follows.ONE, ("S", *to(1, 1)))
TWO = (follows.TWO, ("S", *to(1, 3, batch=1)))
MERGE = (follows.MERGE, ("S", *to(3, 8)))
PAGES = (follows.AGAIN, ("S", *to(3, 10, batch=1, order=1)))
CHANGE, MARK = told(1, 1, "t1"), watermark(1)
# bytes that a crash may leave in place of a gate that was not opened
TORN_GATES = (7, 2, 128, 255)


class Files:
    """The two files before or behind a run; None where one is absent."""

    def __init__(self, journal, output):
        self.journal = journal
        self.output = output


def left_in(room):
    return Files(room.left("journal"), room.left("output"))


def ran(room, script, words, files):
    """Runs a replay over these files, and gives what it answered and what it left."""
    room.clear()
    path = room.put("script", script)
    for name, content in (("journal", files.journal), ("output", files.output)):
        if content is not None:
            room.put(name, content)
    return room.run(["replay", path, "journal", "output", *words]), left_in(room)


def wanted(script, words, files):
    """The console's line, the entries and the output that a run leaves; without entries where it leaves both files as they are."""
    try:
        entries = journal.entries_of(files.journal or b"")
    except journal.Bad as bad:
        return f"53 BadJournal {bad.place}\n", None, files.output
    own = model.replay(script, *words, output=files.output or b"", entries=entries)
    return own.console, None if own.status == 52 else own.entries, own.output


class Rows:
    """The program, asked to go on."""

    def __init__(self, note, room, is_explained):
        self.note = note
        self.room = room
        self.is_explained = is_explained

    def whole(self, script, words):
        """The files that a run leaves from absent ones."""
        answer, files = ran(self.room, script, words, Files(None, None))
        saw = journal.unlike(files.journal, files.output, model.replay(script, *words).entries)
        self.note(saw is None, f"restart, the first run of {words}", (answer, saw))
        return files

    def wrong(self, room, script, words, files, want=None, kept=b"\x00"):
        """What is wrong with a run over these files; `kept` is what stands from the closed gate on."""
        console, entries, output = wanted(script, words, files)
        if want is not None and console != want + "\n":
            return f"the model says {console!r}"
        answer, left = ran(room, script, words, files)
        if answer.stdout.decode() != console or answer.returncode != int(console.split()[0]) or not self.is_explained(answer):
            return f"{answer}, and should {console!r}"
        if entries is None:
            return None if (left.journal, left.output) == (files.journal, files.output) else f"it did not leave both files: {left.journal!r} and {left.output!r}"
        closed = journal.payloads_of(left.journal)[1]
        if left.journal[closed:] != kept:
            return f"behind the gates stands {left.journal[closed:][:100]!r}"
        if not entries or answer.returncode == 55:
            return None if left.output == files.output and closed == 0 else f"it did not leave the output: {left.output!r}"
        return journal.unlike(left.journal[:closed + 1], left.output, entries)

    def row(self, what, script, words, files, want=None, kept=b"\x00"):
        saw = self.wrong(self.room, script, words, files, want, kept)
        self.note(saw is None, f"restart, {what}", saw)

    def rows(self, what, script, words, many):
        """Many files, each with its name, by several runs at once; one check, which tells the first that is wrong."""
        rooms = [type(self.room)(self.room.program) for _ in range(os.cpu_count() or 1)]
        try:
            with concurrent.futures.ThreadPoolExecutor(len(rooms)) as pool:
                jobs = [list(range(first, len(many), len(rooms))) for first in range(len(rooms))]
                saw = list(pool.map(lambda room, places: [(it, self.wrong(room, script, words, many[it][1])) for it in places], rooms, jobs))
        finally:
            for room in rooms:
                shutil.rmtree(room.at, ignore_errors=True)
        wrong = sorted((place, it) for job in saw for place, it in job if it is not None)
        first = [(many[place][0], it) for place, it in wrong[:1]]
        self.note(not wrong, f"restart, {what}", f"{len(wrong)} of {len(many)}, first {first}")


def check_again(rows):
    """A run again leaves both files as they are, and paused ones go on."""
    for what, (script, words) in (("one insert", ONE), ("pages", TWO), ("a merge", MERGE), ("more children", PAGES)):
        files = rows.whole(script, words)
        _, left = ran(rows.room, script, words, files)
        rows.note((left.journal, left.output) == (files.journal, files.output), f"restart, a run again of {what}: both files", left.output)
        rows.row(f"a run again of {what}", script, words, files, "0 Ended")
        # all is told: nothing is read, whatever the present moment is
        rows.row(f"a run again of {what} at another moment", script, (*words, "--moment", at(0)), files, "0 Ended")
    script, window = follows.ONE, ("S", *to(1, 10))
    paused = (*window, "--moment", at(5), "--turns", "2")
    files = rows.whole(script, paused)
    rows.note(files.output == CHANGE + watermark(5), "restart, paused: output", files.output)
    rows.row("paused, the same again", script, paused, files, "10 Paused")
    rows.row("paused, the present moment too late", script, (*window, "--moment", "2024-06-01T00:00:00Z"), files, "20 RetentionPassed 2024-05-31T00:00:00Z")
    rows.row("paused, the present moment too early", script, (*window, "--moment", at(0)), files, "21 Refused StartInFuture")
    answer, left = ran(rows.room, script, window, files)
    closed = journal.payloads_of(files.journal)[1]
    ok = answer.stdout == b"0 Ended\n" and left.output == CHANGE + watermark(5) + watermark(10) and left.journal[:closed] == files.journal[:closed]
    rows.note(ok, "restart, paused and then to the end", (answer, left.output))
    rows.row("paused, and then by other options", script, (*window, "--batch", "1", "--order", "7"), files, "0 Ended")


def check_others(rows):
    """Another window, an output that belongs to no journal, and a bad script, each of which leaves both files."""
    two = follows.ONE + ddl("CREATE CHANGE STREAM R FOR T", 2)
    files = rows.whole(two, ONE[1])
    begun = f"52 OtherJournal S {at(1)} {at(1)}"
    for words in (("S", *to(1, 2)), ("S", *to(0, 1)), ("R", *to(2, 2)), ("S", at(1), "2024-05-01T00:00:01.000001Z"), ("X", *to(1, 1))):
        rows.row(f"the words {words} over another window's files", two, words, files, begun)
        rows.row(f"the words {words} over another window's journal", two, words, Files(files.journal, b"x"), begun)
    for there in (None, b"", b"\x00"):
        for output in (b"x", CHANGE + MARK):
            rows.row(f"an output of {len(output)} bytes and the journal {there}", *ONE, Files(there, output), f"55 OutputNotEmpty {len(output)}")
    torn = b"\x00" + files.journal[1:20]
    rows.row("an output of one byte and a first entry that was not whole", *ONE, Files(torn, b"x"), "55 OutputNotEmpty 1", torn)
    for script, want in ((follows.ONE + b"x\n", b"51 BadScript 4 NotJson\n"),):
        answer, left = ran(rows.room, script, ONE[1], files)
        rows.note(answer.stdout == want and (left.journal, left.output) == (files.journal, files.output), "restart, a bad script leaves both files", answer)


def check_outputs(rows):
    """An output that was cut or written over is brought to its text."""
    files = rows.whole(*ONE)
    whole = files.output
    rows.row("a torn tail", *ONE, Files(files.journal, CHANGE + b'{"water#'), "0 Ended")
    rows.row("an output that is absent", *ONE, Files(files.journal, None), "0 Ended")
    rows.row("bytes behind the text", *ONE, Files(files.journal, whole + b"x"), "0 Ended")
    rows.row("a line behind the text", *ONE, Files(files.journal, whole + watermark(2)), "0 Ended")
    rows.row("the text twice", *ONE, Files(files.journal, whole + whole), "0 Ended")
    rows.row("another text", *ONE, Files(files.journal, b"\x00" * 70000), "0 Ended")
    rows.rows("an output cut at each byte", *ONE, [(f"{it} bytes", Files(files.journal, whole[:it])) for it in range(len(whole))])
    foreign = [(f"foreign behind {it}", Files(files.journal, whole[:it] + b"#" * (1 + it % 3 * 100))) for it in range(len(whole))]
    rows.rows("foreign bytes behind each byte of an output", *ONE, foreign)


def check_gates(rows):
    """A gate that was not opened, or whose byte a crash left, and entries that are not whole."""
    for what, (script, words) in (("one insert", ONE), ("pages", TWO), ("a merge", MERGE), ("more children", PAGES)):
        files = rows.whole(script, words)
        data, (stored, closed) = files.journal, journal.payloads_of(files.journal)
        gates = [it for it, _ in stored] + [closed]
        for byte in (0, *TORN_GATES):
            many = [(f"the byte {byte} at the gate {it}", data[:it] + bytes([byte]) + data[it + 1:]) for it in gates[1:]]
            rows.rows(f"{what}, the byte {byte} at each gate", script, words, [(name, Files(it, files.output)) for name, it in many])
            rows.rows(f"{what}, the byte {byte} at each gate, and an empty output", script, words, [(name, Files(it, b"")) for name, it in many])
        behind = [(f"the byte {byte} and others at the end", Files(data[:closed] + bytes([byte]) + b"left", files.output)) for byte in TORN_GATES]
        rows.rows(f"{what}, bytes behind a gate that a crash left", script, words, behind)
        rows.row(f"{what}, bytes behind the closed gate", script, words, Files(data + b"left", files.output), "0 Ended", b"\x00left")
        for gate in gates[:-1]:
            long = data[:gate + 1] + b"\xff\xff\xff\x0f" + data[gate + 5:]
            rows.row(f"{what}, the gate {gate} without a whole entry", script, words, Files(long, files.output), f"53 BadJournal {gate}")


def check_last_entry(rows):
    """A journal that was cut, or in which one byte is another, at each byte of its last entry."""
    for what, (script, words) in (("one insert", ONE), ("a merge", MERGE)):
        files = rows.whole(script, words)
        data = files.journal
        first = journal.payloads_of(data)[0][-1][0]
        places = range(first, len(data))
        rows.rows(f"{what}, the last entry cut", script, words, [(f"{it} bytes", Files(data[:it], files.output)) for it in places])
        # its gate is still closed: a front of it stands there, and behind it what a crash may leave
        torn = [(f"{it} bytes and a closed gate", Files(data[:first] + b"\x00" + data[first + 1:it], files.output)) for it in range(first + 1, len(data))]
        rows.rows(f"{what}, the last entry torn behind its closed gate", script, words, torn)
        zeros = [(f"zeros from {it}", Files(data[:it] + b"\x00" * (len(data) - it), files.output)) for it in places]
        rows.rows(f"{what}, the last entry with zeros", script, words, zeros)
        flipped = [(f"byte {it} of {bit}", Files(data[:it] + bytes([data[it] ^ bit]) + data[it + 1:], files.output)) for it in places for bit in (1, 128)]
        rows.rows(f"{what}, the last entry with one other byte", script, words, flipped)


def payloads_that_do_not_follow():
    """Rows of entries, and the number of the first that does not follow or is none."""
    start, end = read_stamp(at(3)), read_stamp(at(8))
    begin, opened = Begin("S", start, end), Opened(("S-00001", "S-00002"))
    child = ("S-00003", ("S-00001", "S-00002"), read_stamp(at(6)))
    left = Finished("S-00001", child[2] - 1, (), (child,))
    key = (journal.Cell("K", 2, 1),)
    change = journal.Change(start, "x", "T", key, 1, (journal.Cell("A", 2, 5), journal.Cell("B", 4, "x")), ())
    early = change._replace(stamp=start - 1)
    for what, number, *entries in (
        ("no Begin", 0, opened),
        ("a second Begin", 1, begin, begin),
        ("a second Opened", 2, begin, opened, opened),
        ("an Opened behind a row", 3, begin, opened, left, opened),
        ("no row", 1, begin, left),
        ("a row that is there no more", 3, begin, opened, left, left),
        ("a row that ended", 3, begin, opened, left, Progress("S-00001", left.through, ())),
        ("a row of another token", 2, begin, opened, Progress("S-00004", start, ())),
        ("a `through` that falls", 3, begin, opened, Progress("S-00001", start + 1, ()), Progress("S-00001", start, ())),
        ("a `through` below the start", 2, begin, opened, Progress("S-00001", start - 2, ())),
        ("a `through` above the end", 2, begin, opened, Progress("S-00001", end + 1, ())),
        ("a child above the end", 2, begin, opened, left._replace(children=((*child[:2], end + 1),))),
        ("a child with other parents", 3, begin, opened, left, left._replace(token="S-00002", children=(("S-00003", ("S-00002",), child[2]),))),
        ("a child with another start", 3, begin, opened, left, left._replace(token="S-00002", children=((*child[:2], child[2] + 1),))),
        ("a child that stands twice", 2, begin, opened, left._replace(children=(child, child))),
        ("tokens that do not rise", 1, begin, Opened(("S-00002", "S-00001"))),
        ("tokens that are one", 1, begin, Opened(("S-00001", "S-00001"))),
        ("no token", 1, begin, Opened(())),
        ("stamps that fall", 2, begin, opened, Progress("S-00001", start, (change, early))),
        ("a stamp above the next one", 2, begin, opened, Progress("S-00001", start - 2, (change,))),
        ("no kind", 2, begin, opened, Progress("S-00001", start, (change._replace(kind=4),))),
        ("no stamp", 2, begin, opened, Progress("S-00001", start, (change._replace(stamp=0),))),
        ("columns that do not rise", 2, begin, opened, Progress("S-00001", start, (change._replace(new=change.new[::-1]),))),
        ("a column twice", 2, begin, opened, Progress("S-00001", start, (change._replace(old=key + key),))),
        ("a number out of range", 2, begin, opened, Progress("S-00001", start, (change._replace(old=(journal.Cell("A", 3, 10 ** 38),)),))),
        ("a date out of range", 2, begin, opened, Progress("S-00001", start, (change._replace(old=(journal.Cell("A", 6, 2932897),)),))),
        ("a text that is none", 2, begin, opened, Progress("S-00001", start, (change._replace(tx=b"\xff"),))),
        ("a token that is none", 2, begin, opened, Progress("", start, ())),
    ):
        yield what, number, [journal.payload_of(it) for it in entries]
    good = [journal.payload_of(it) for it in (begin, opened, left)]
    for number in range(3):
        for what, payload in (
            ("one byte more", good[number] + b"\x00"), ("one byte less", good[number][:-1]), ("no byte", b""), ("another entry's number", b"\x05" + good[number][1:]),
        ):
            yield f"{what} in the entry {number}", number, good[:number] + [payload] + good[number + 1:]
    yield "another format", 0, [b"\x01\x02" + good[0][2:], *good[1:]]
    yield "a start that is no stamp", 0, [journal.payload_of(begin._replace(start=0)), *good[1:]]


def check_entries(rows):
    """Entries that do not follow on those before them, or are none, are told by the place of their gate; both files stay."""
    script, words = MERGE
    for what, number, payloads in payloads_that_do_not_follow():
        data = journal.framed(payloads)
        gate = len(journal.framed(payloads[:number])) - 1
        for output in (b"", CHANGE):
            rows.row(f"a journal with {what}", script, words, Files(data, output), f"53 BadJournal {gate}")


def check(note, room, is_explained):
    rows = Rows(note, room, is_explained)
    check_again(rows)
    check_others(rows)
    check_outputs(rows)
    check_gates(rows)
    check_last_entry(rows)
    check_entries(rows)
    room.clear()
