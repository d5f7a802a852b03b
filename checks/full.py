"""A journal that is as long as one may be: the entry with which it would pass its limit by one byte is refused with that length,
run after run, and both files stay; one byte less, and it is written."""
import os
import shutil
import sys
import tempfile

import journal
from journal import Cell, Change
from kills import FAST, Folder
from lines import PREAMBLE, at, change, commit, update, watermark
from model.entries import Finished
from model.texts import read_stamp

sys.path.append(os.path.join(os.path.dirname(os.path.dirname(os.path.realpath(__file__))), "bench"))
from journals import write_journal  # noqa: E402

LIMIT = 268_435_456
END = at(60)
WORDS = ("S", at(0), END)
# letters of a row, so that a long journal has some thousand entries
LETTERS = 60_000
# what the two files have, and what the program needs to hold them
NEEDED = 4 << 30


def script(tx):
    """Behind the journal's changes there is one that it does not tell."""
    return PREAMBLE + commit(0, "t0", {"insert": "T", "key": {"K": "1"}, "set": {"A": "0"}}) + commit(10, tx, update(1, A="5"))


def told(tx):
    """The entry that the next READ adds, and its lines."""
    row = Change(read_stamp(at(10)), tx, "T", (Cell("K", 2, 1),), 2, (Cell("A", 2, 5),), (Cell("A", 2, 0),))
    return journal.payload_of(Finished("S-00000", read_stamp(END), (row,), ())), change("UPDATE", 1, 10, tx, {"A": "5"}, {"A": "0"}) + watermark(60)


def available():
    """The memory that this machine has to give; 0 where it does not say."""
    try:
        with open("/proc/meminfo", encoding="ascii") as file:
            return next((int(it.split()[1]) << 10 for it in file if it.startswith("MemAvailable:")), 0)
    except OSError:
        return 0


def set_script(folder, tx):
    with open(folder.path("script"), "wb") as file:
        file.write(script(tx))


def check_small(note, folder):
    """The same journal, short, beside what the model says of it: that it has the length asked for, and tells its output."""
    for size, letters in ((2000, 0), (2000, 100), (2001, 100), (2002, 100)):
        write_journal(folder.path("journal"), size, 60_000_000, letters=letters, output=folder.path("output"))
        files = folder.files()
        saw = journal.unlike(files.journal, files.output)
        note(saw is None and len(files.journal) <= size and (letters == 0 or len(files.journal) == size), f"full, a journal of {size} bytes", (saw, len(files.journal)))


def check_full(note, folder):
    payload, lines = told("a")
    # a closed gate is there already, so an entry adds its payload, its length and its gate
    size = LIMIT - len(payload) - 5
    count = write_journal(folder.path("journal"), size, 60_000_000, letters=LETTERS, output=folder.path("output"))
    files = folder.files()
    note(len(files.journal) == size, "full, the journal's length", (len(files.journal), size, count))
    set_script(folder, "aa")
    for what in ("a byte too much", "a byte too much, again"):
        answer, left = folder.run(WORDS), folder.files()
        want = b"54 Full %d\n" % (LIMIT + 1)
        note((answer.returncode, answer.stdout) == (54, want) and answer.stderr.endswith(b"\n"), f"full, {what}", answer)
        is_kept = left.journal == files.journal and left.output == files.output
        note(is_kept, f"full, {what}: both files stay", (len(left.journal), len(left.output)))
    set_script(folder, "a")
    for what in ("just the limit", "just the limit, again"):
        answer, left = folder.run(WORDS), folder.files()
        note((answer.returncode, answer.stdout) == (0, b"0 Ended\n") and answer.stderr == b"", f"full, {what}", answer)
        journal_, output = left.journal.startswith(files.journal[:-1]), left.output.startswith(files.output)
        added = left.journal[size - 1:], left.output[len(files.output):]
        is_right = journal_ and output and len(left.journal) == LIMIT and added == (journal.framed([payload]), lines)
        note(is_right, f"full, {what}: what is added", (journal_, output, len(left.journal), [it[:1000] for it in added]))


def check(note, room):
    at_ = next((it for it in (FAST, tempfile.gettempdir()) if it and shutil.disk_usage(it).free > NEEDED), None)
    if at_ is None or available() < NEEDED:
        print(f"full: this machine has less than {NEEDED} bytes to give, and no journal is filled", flush=True)
        return
    folder = Folder(room.program, b"", at_)
    try:
        check_small(note, folder)
        check_full(note, folder)
    finally:
        folder.remove()
