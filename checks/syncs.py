"""That what a replay writes is on the disk before it goes on: the calls that it makes on its two files, as strace saw them, in
their order. From them come the bytes that a crash of the machine may leave at each moment, and a run goes on over these. Where
there is no strace, or it may trace nothing, that is said and nothing is counted."""
import os
import sys

import journal
import restarts
from kills import Folder, Whole, folders, in_folders
from lines import watermark

sys.path.append(os.path.join(os.path.dirname(os.path.dirname(os.path.realpath(__file__))), "bench"))
from traces import can_trace, traced  # noqa: E402

# what a crash leaves of the calls since the last sync: nothing, all, the front half of the last one, or other bytes in their place
IMAGES = ("none", "all", "half", "sevens")
ROWS = (("one insert", *restarts.ONE), ("pages", *restarts.TWO), ("a merge", *restarts.MERGE))


# ---- what they make of a file


class Disk:
    """A file's bytes, those that a sync has made durable, and the calls since."""

    def __init__(self, data, durable, is_gated):
        self.data, self.durable = data, durable
        # its first byte is a gate, which is written whole or not at all: another one makes the file foreign
        self.is_gated = is_gated
        self.calls = [] if data == durable else [("write", *difference(durable, data))]

    def take(self, what, *values):
        if what == "write":
            place, bytes_ = values
            if bytes_:
                self.calls.append((what, *values))
                self.data = written(self.data, place, bytes_)
        elif what == "cut":
            self.calls.append((what, *values))
            self.data = self.data[:values[0]]
        elif what == "sync":
            self.durable, self.calls = self.data, []

    def image(self, kind):
        """The bytes that a crash leaves."""
        data = self.durable
        for number, (what, place, *bytes_) in enumerate(self.calls if kind != "none" else ()):
            if what == "cut":
                data = data[:place]
                continue
            whole = bytes_[0] if kind != "sevens" or (self.is_gated and place == 0) else b"\x07" * len(bytes_[0])
            is_torn = kind == "half" and number == len(self.calls) - 1
            data = written(data, place, whole[:len(whole) // 2] if is_torn else whole)
        return data


def difference(one, two):
    """The write that makes the first bytes the second ones, which are no fewer."""
    place = len(os.path.commonprefix([one, two]))
    behind = len(two)
    while len(one) == len(two) and one[behind - 1] == two[behind - 1]:
        behind -= 1
    return place, two[place:behind]


def written(data, place, bytes_):
    data = data.ljust(place, b"\x00")
    return data[:place] + bytes_ + data[place + len(bytes_):]


class Start:
    """The files over which a run begins, and what of them is durable: a run that was killed may have synced less."""

    def __init__(self, files, durable=None):
        self.files = files
        self.durable = durable or files


class Order:
    """Takes events, and tells the first that comes too early."""

    def __init__(self, start):
        pairs = [(it.journal or b"", it.output or b"") for it in (start.files, start.durable)]
        self.disks = {name: Disk(data, durable, name == "journal") for name, data, durable in zip(("journal", "output"), *pairs)}
        self.opened = 0

    def early(self, event):
        """What is wrong with an event, which is then done; None where nothing is."""
        file, what, *values = event
        wrong = None
        if file == "console":
            wrong = self.of_console()
        elif what == "write" and values[1]:
            wrong = self.of_gate(*values) if file == "journal" else None
        elif what == "cut" and file == "journal":
            wrong = self.of_cut(values[0])
        if file != "console":
            self.disks[file].take(what, *values)
        if wrong is None and file == "output" and what == "write" and values[1]:
            wrong = self.of_output()
        return wrong

    def of_gate(self, place, bytes_):
        """A write of the journal: of one gate that is closed, or of what stands behind it."""
        disk = self.disks["journal"]
        if disk.calls:
            return f"a write of the journal at {place} before the one at {disk.calls[-1][1]} was synced"
        closed = journal.payloads_of(disk.data)[1]
        if place > closed:
            return None
        if place < closed or len(bytes_) != 1:
            return f"a write of {len(bytes_)} bytes at {place}, where the closed gate is at {closed}"
        if bytes_ != b"\x01":
            return None
        self.opened += 1
        if journal.payloads_of(written(disk.durable, place, bytes_))[1] == closed:
            return f"the gate at {place} is opened, and no entry behind it is synced"
        return None

    def of_cut(self, to):
        disk = self.disks["journal"]
        closed = journal.payloads_of(disk.data)[1]
        return f"a cut to {to}, where the closed gate is at {closed}" if disk.calls or to < closed else None

    def of_output(self):
        """A write of the output, which was done: its bytes are those of entries that are synced."""
        if self.disks["journal"].calls:
            return "a write of the output before the journal was synced"
        whole = journal.text_of(journal.entries_of(self.disks["journal"].durable))
        output = self.disks["output"].data
        return None if whole.startswith(output) else f"the output is no front of what the synced entries tell: {output[-200:]!r}"

    def of_console(self):
        for name, disk in self.disks.items():
            if disk.calls:
                return f"a line on the console before the {name} was synced"
        return None


def disorder(events, start, whole):
    """The first event that comes too early; None where none does. Each entry that the run adds has its gate opened once."""
    order = Order(start)
    for number, event in enumerate(events):
        try:
            wrong = order.early(event)
        except journal.Bad as bad:
            wrong = f"the journal is bad: {bad}"
        if wrong is not None:
            return f"call {number}, {event}: {wrong}"
    added = len(whole.gates) - 1 - len(journal.payloads_of(start.files.journal or b"")[0])
    left = order.disks["journal"].data[:whole.gates[-1] + 1], order.disks["output"].data
    if left != (whole.files.journal, whole.files.output):
        return f"the calls make other files: {left}"
    if not any(it[0] == "console" for it in events):
        return "no line on the console"
    return None if order.opened == added else f"{order.opened} gates were opened, and {added} entries added"


def crashes(events, start):
    """Of each moment the images that a crash may then leave of the two files, and how many entries are durable."""
    order, found = Order(start), []
    for event in ((None, None), *events):
        if event[0] in order.disks:
            order.disks[event[0]].take(*event[1:])
        if event[1] in ("len", "read"):
            continue
        journal_, output = order.disks["journal"], order.disks["output"]
        count = len(journal.payloads_of(journal_.durable)[0])
        pairs = [(it, it) for it in IMAGES] + [("none", "all"), ("all", "none"), ("sevens", "none"), ("none", "sevens")]
        found += [(count, restarts.Files(journal_.image(one), output.image(two))) for one, two in pairs]
    return list({(count, it.journal, it.output): (count, it) for count, it in found}.values())


def crash_fault(folder, whole, count, files):
    """What is wrong with a run over what a crash left where so many entries were durable; None where nothing is."""
    try:
        left = journal.payloads_of(files.journal)[1]
    except journal.Bad as bad:
        return f"a crash leaves a bad journal: {bad}: {files.journal!r}"
    if left not in whole.gates[count:] or files.journal[:left] != whole.files.journal[:left]:
        return f"of {count} durable entries a crash leaves others: {files.journal!r}"
    folder.put_files(files)
    answer, found = folder.run(whole.words), folder.files()
    closed = whole.gates[-1]
    same = (found.journal[:closed + 1], found.output) == (whole.files.journal, whole.files.output)
    return None if answer.stdout == b"0 Ended\n" and same else f"over {files.journal!r} and {files.output!r}: {answer}"


def check_row(note, rooms, what, words, whole, start):
    """The order of a run's calls, and runs over what a crash at each of them leaves."""
    folder = rooms[0]
    folder.put_files(start.files)
    answer, trace = traced(folder.words(words), folder.at)
    events = trace.events
    saw = disorder(events, start, whole)
    note(answer.returncode == 0 and saw is None, f"syncs, {what}: the order of the calls", (saw, answer))
    syncs = sum(1 for it in events if it[1] == "sync")
    note(syncs > 0, f"syncs, {what}: a sync was seen", len(events))
    images = crashes(events, start)
    saw = in_folders(rooms, lambda room, number: crash_fault(room, whole, *images[number]), len(images))
    wrong = [it for _, it in sorted(saw.items()) if it is not None]
    note(not wrong, f"syncs, {what}: crashes at each call", f"{len(wrong)} of {len(images)}, first {wrong[:1]}")
    return len(images)


def starts(whole):
    """Over what a run is traced, each with its name."""
    files, last = whole.files, whole.gates[-2]
    closed = files.journal[:last] + b"\x00" + files.journal[last + 1:]
    front, before = files.output[:len(files.output) // 2], files.output[:whole.texts[-2]]
    Files = restarts.Files
    yield "from absent files", Start(Files(None, None))
    yield "an output with a torn tail", Start(Files(files.journal, front + b'{"water#'))
    yield "an output with a foreign line", Start(Files(files.journal, front + watermark(9) * 3 + files.output))
    yield "a gate that a crash left", Start(Files(files.journal[:last] + b"\x07" + files.journal[last + 1:] + b"left", before))
    yield "a gate that was not opened", Start(Files(closed, before))
    # a kill between the last write of a file and its sync
    yield "a gate that was opened and not synced", Start(Files(files.journal, before), Files(closed, before))
    yield "an output that was not synced", Start(files, Files(files.journal, b""))


def check(note, room):
    if not can_trace():
        print("syncs: there is no strace here that may trace, and the order of the calls was not looked at", flush=True)
        return
    crashed = 0
    for what, script, words in ROWS:
        rooms = folders(room.program, script)
        try:
            rooms[0].run(words)
            whole = Whole(words, rooms[0].files())
            for how, start in starts(whole):
                crashed += check_row(note, rooms, f"{what}, {how}", words, whole, start)
        finally:
            for it in rooms:
                it.remove()
    print(f"syncs: {crashed} runs behind a crash", flush=True)
    room.clear()
