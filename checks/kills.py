"""Replays that are stopped: by the signal that nobody catches, at moments made at random, and by a disk without room. The same words
then go on, from stop to stop, until the run ends; what is left is held against the journal's entries behind each stop, and at the
end against the files of a run that nobody stopped."""
import concurrent.futures
import os
import random
import resource
import shutil
import signal
import subprocess
import tempfile
import time

import journal
import model
import restarts
from follows import to
from lines import PREAMBLE, border, reshape
from model.entries import Board
from model.generated import END, START, STREAM, script_of
from restarts import Files

WINDOW = (STREAM, START, END)
# the words of the runs that are stopped, by their options
PACES = (("--batch", "1"), ("--batch", "1", "--order", "1"), ("--batch", "2", "--order", "5"), ("--batch", "7"))
# a memory disk, where there is one: the signal leaves what the system holds, so a real disk would show no more
FAST = "/dev/shm" if os.path.isdir("/dev/shm") else None
NO_ROOM = {40: b"40 JournalFault\n", 41: b"41 OutputFault\n"}


class Whole:
    """What a run leaves that nobody stopped, entry by entry."""

    def __init__(self, words, files):
        self.words = words
        self.files = files
        payloads, closed = journal.payloads_of(files.journal)
        self.gates = [gate for gate, _ in payloads] + [closed]
        board, self.texts = Board(), [0]
        told = 0
        for entry in journal.entries_of(files.journal):
            board.fold(entry)
            self.texts.append(self.texts[-1] + sum(len(it.encode()) + 1 for it in board.lines[told:]))
            told = len(board.lines)

    def stopped(self, files, before):
        """What is wrong with the files of a run that was stopped behind so many entries, and how many entries there are now."""
        data, output = files.journal or b"", files.output or b""
        try:
            closed = journal.payloads_of(data)[1]
        except journal.Bad as bad:
            return f"the journal is bad: {bad}", before
        if closed not in self.gates or data[:closed] != self.files.journal[:closed]:
            return f"the entries up to {closed} are others", before
        count = self.gates.index(closed)
        if count < before:
            return f"of {before} entries {count} are left", before
        if not self.files.output.startswith(output):
            return f"the output is no front of what it will be: {output[-200:]!r}", count
        if not self.texts[max(count - 1, 0)] <= len(output) <= self.texts[count]:
            return f"{count} entries, and an output of {len(output)} bytes; their lines have {self.texts[count]}", count
        return None, count


class Folder:
    """A folder of one script and its two files, and the program."""

    def __init__(self, program, script, at=FAST):
        self.at = tempfile.mkdtemp(prefix="spanstream-kills-", dir=at)
        self.program = program
        with open(self.path("script"), "wb") as file:
            file.write(script)

    def path(self, name):
        return os.path.join(self.at, name)

    def files(self):
        found = []
        for name in ("journal", "output"):
            try:
                with open(self.path(name), "rb") as file:
                    found.append(file.read())
            except FileNotFoundError:
                found.append(None)
        return Files(*found)

    def size(self):
        """Of the journal and the output together."""
        return sum(os.stat(self.path(it)).st_size for it in ("journal", "output") if os.path.exists(self.path(it)))

    def forget(self):
        for name in ("journal", "output"):
            if os.path.exists(self.path(name)):
                os.remove(self.path(name))

    def put_files(self, files):
        """Makes the two files these; one that is None is absent."""
        for name, content in (("journal", files.journal), ("output", files.output)):
            if content is not None:
                with open(self.path(name), "wb") as file:
                    file.write(content)
            elif os.path.exists(self.path(name)):
                os.remove(self.path(name))

    def words(self, words):
        return [self.program, "replay", "script", "journal", "output", *words]

    def start(self, words):
        return subprocess.Popen(self.words(words), stdout=subprocess.PIPE, stderr=subprocess.PIPE, cwd=self.at)

    def run(self, words, limit=None):
        """A run to its end; no file may then have more bytes than the limit."""
        def bound():
            signal.signal(signal.SIGXFSZ, signal.SIG_IGN)
            resource.setrlimit(resource.RLIMIT_FSIZE, (limit, limit))

        return subprocess.run(
            self.words(words), stdout=subprocess.PIPE, stderr=subprocess.PIPE, cwd=self.at, timeout=600,
            preexec_fn=None if limit is None else bound, restore_signals=limit is None,
        )

    def remove(self):
        shutil.rmtree(self.at, ignore_errors=True)


def in_folders(rooms, job, count):
    """The answers of so many calls of a job, each with its number, by a thread for each folder."""
    def work(place):
        return [(it, job(rooms[place], it)) for it in range(place, count, len(rooms))]

    with concurrent.futures.ThreadPoolExecutor(len(rooms)) as pool:
        return dict(pair for pairs in pool.map(work, range(len(rooms))) for pair in pairs)


def folders(program, script):
    return [Folder(program, script) for _ in range(os.cpu_count() or 1)]


# ---- the signal


class Stops:
    """A run that is stopped from time to time until it ends."""

    def __init__(self, folder, whole, seconds, seed):
        self.folder = folder
        self.whole = whole
        self.seconds = seconds
        self.rng = random.Random(seed)
        self.entries = 0

    def wait(self, process):
        """Until the moment of the stop: some time after the start, or when so many bytes were written."""
        deadline = time.monotonic() + self.seconds * (self.rng.random() if self.rng.randrange(3) == 0 else 4)
        most = self.folder.size() + self.rng.randrange(max(1, len(self.whole.files.output) // 3))
        while process.poll() is None and time.monotonic() < deadline and self.folder.size() <= most:
            time.sleep(0.0003)

    def stop(self):
        """Starts the run and stops it; the console where it ended by itself, and what is wrong with what stands."""
        process = self.folder.start(self.whole.words)
        self.wait(process)
        process.kill()
        console, error = process.communicate(timeout=60)
        if process.returncode not in (-signal.SIGKILL, 0):
            return console, f"status {process.returncode}, {console}, {error[-300:]}"
        files = self.folder.files()
        wrong, self.entries = self.whole.stopped(files, self.entries)
        if wrong is None and self.rng.randrange(10) == 0:
            wrong = journal.unlike_when_stopped(files.journal or b"", files.output or b"")
        if wrong is None and process.returncode == 0:
            same = console == b"0 Ended\n" and (files.journal, files.output) == (self.whole.files.journal, self.whole.files.output)
            wrong = None if same else f"it ended with {console}, and the files are others"
        return (console if process.returncode == 0 else None), wrong


def kill_rounds(folder, wholes, seconds, seed, stops):
    """So many stops, in runs one after another; how many of them came before the end, by the entries that stood, and the first fault."""
    rng, told, done = random.Random(seed), [], 0
    while done < stops:
        folder.forget()
        run = Stops(folder, rng.choice(wholes), seconds, rng.random())
        ended = None
        while ended is None:
            ended, wrong = run.stop()
            if wrong is not None:
                return told, f"{run.whole.words} behind {run.entries} entries: {wrong}"
            if ended is None:
                done += 1
                told.append(run.entries)
            if done >= stops and ended is None:
                answer = folder.run(run.whole.words)
                files = folder.files()
                same = (files.journal, files.output) == (run.whole.files.journal, run.whole.files.output)
                return told, None if same else f"{run.whole.words}, the last run: {answer}"
    return told, None


def size_for(program):
    """So many commits that a run is short: some thousand by the proved program."""
    folder = Folder(program, script_of(200))
    begun = time.monotonic()
    folder.run((*WINDOW, "--batch", "1"))
    seconds = time.monotonic() - begun
    folder.remove()
    return 3000 if seconds < 0.15 else 1000 if seconds < 0.4 else 200


def check_kills(note, program, rounds, seed):
    commits = size_for(program)
    script = script_of(commits)
    rooms = folders(program, script)
    try:
        wholes, seconds = [], 0
        for pace in PACES:
            words = (*WINDOW, *pace)
            begun = time.monotonic()
            answer = rooms[0].run(words)
            seconds = max(seconds, time.monotonic() - begun)
            files = rooms[0].files()
            saw = journal.unlike(files.journal, files.output, model.replay(script, *words).entries)
            note(answer.stdout == b"0 Ended\n" and saw is None, f"kills, a run of {words} that nobody stops", (answer, saw))
            wholes.append(Whole(words, files))
            rooms[0].forget()
        print(f"kills: {rounds} stops over {commits} commits from the seed {seed}", flush=True)
        each = -(-rounds // len(rooms))
        saw = in_folders(rooms, lambda room, number: kill_rounds(room, wholes, seconds, f"{seed}.{number}", each), len(rooms))
        told = [it for entries, _ in saw.values() for it in entries]
        for number, (_, wrong) in saw.items():
            note(wrong is None, f"kills, seed {seed}.{number}", wrong)
        between = sum(1 for it in told if it > 0)
        print(f"kills: {len(told)} stops, {between} behind an entry, {len(set(told))} places", flush=True)
        note(len(told) >= rounds or any(it for _, it in saw.values()), "kills, as many stops as were asked for", len(told))
        # many stops behind entries, or the kills are no test
        note(rounds < 20 or between >= rounds // 3, "kills, stops behind entries", between)
    finally:
        for room in rooms:
            room.remove()


# ---- a disk without room


# no commit, and parts that are split and split again: the journal is longer than the output
SPLITS = PREAMBLE + b"".join(reshape(2 + it, [it if it == 0 else 2 * it], [border(100 * (it + 1))]) for it in range(12))
FULL = (("one insert", *restarts.ONE), ("pages", *restarts.TWO), ("a merge", *restarts.MERGE), ("splits", SPLITS, ("S", *to(1, 30))))


def stop_of(whole, limit):
    """The status where no file may have more bytes than this, by the sizes of the files behind each entry."""
    if limit < 1:
        return 40
    for count, gate in enumerate(whole.gates[1:], 1):
        if gate + 1 > limit:
            return 40
        if whole.texts[count] > limit:
            return 41
    return 0


def full_fault(folder, whole, limits):
    """What is wrong with runs under rising limits and one without; None where nothing is."""
    folder.forget()
    entries = 0
    for limit in limits:
        answer, want = folder.run(whole.words, limit), stop_of(whole, limit)
        if (answer.returncode, answer.stdout) != (want, NO_ROOM.get(want, b"0 Ended\n")) or (want != 0) != (answer.stderr != b""):
            return f"with {limit} bytes: {answer}, and should be {want}"
        wrong, entries = whole.stopped(folder.files(), entries)
        if wrong is not None:
            return f"with {limit} bytes: {wrong}"
    answer, files = folder.run(whole.words), folder.files()
    same = answer.stdout == b"0 Ended\n" and (files.journal, files.output) == (whole.files.journal, whole.files.output)
    return None if same else f"with room behind {limits}: {answer}"


def edges(whole):
    """Limits at which another write is the first without room, those beside them, and some more."""
    most = max(len(whole.files.journal), len(whole.files.output))
    near = {edge + it for edge in (*whole.gates, *whole.texts) for it in (-1, 0, 1)} | set(range(0, most, most // 20))
    return sorted(it for it in near | {0, most} if 0 <= it <= most)


def check_limits(note, program):
    """No file may grow above a limit: one limit and then none, and rising limits."""
    stops = set()
    for what, script, words in FULL:
        rooms = folders(program, script)
        try:
            rooms[0].run(words)
            whole = Whole(words, rooms[0].files())
            limits = edges(whole)
            lists = [(it,) for it in limits] + [limits[it::7] for it in range(7)]
            saw = in_folders(rooms, lambda room, number: full_fault(room, whole, lists[number]), len(lists))
            wrong = [it for _, it in sorted(saw.items()) if it is not None]
            note(not wrong, f"no room, {what}: limits up to {limits[-1]} bytes", f"{len(wrong)} of {len(lists)}, first {wrong[:1]}")
            stops |= {stop_of(whole, it) for it in limits}
        finally:
            for room in rooms:
                room.remove()
    note(stops == {0, 40, 41}, "no room: what stops the runs", stops)


def mounted(at, size):
    return subprocess.run(["mount", "-t", "tmpfs", "-o", f"size={size}", "none", at], stdout=subprocess.PIPE, stderr=subprocess.PIPE).returncode == 0


PAGE = 4096


def pages_of(size):
    return -(-size // PAGE)


def page_stop_of(whole, free):
    """The status on a disk with so many pages free: an entry takes those of the journal first, and then those of its lines."""
    told = 0
    for gate, text in zip(whole.gates[1:], whole.texts[1:]):
        size = pages_of(gate + 1)
        if size + pages_of(told) > free:
            return 40
        if size + pages_of(text) > free:
            return 41
        told = text
    return 0


def check_small_disk(note, program, seed):
    """A disk in memory of some pages, of which a file takes all but a few; where this machine mounts one."""
    at = tempfile.mkdtemp(prefix="spanstream-disk-")
    if os.geteuid() != 0 or shutil.which("mount") is None or not mounted(at, 256 * PAGE):
        os.rmdir(at)
        print("kills: no small disk can be mounted here, none was filled, and no run was stopped by one", flush=True)
        return
    try:
        script, words = script_of(200), (*WINDOW, "--batch", "1")
        folder = Folder(program, script, at)
        folder.run(words)
        whole, rng = Whole(words, folder.files()), random.Random(seed)
        stops = {it: page_stop_of(whole, it) for it in range(1, sum(map(pages_of, (len(whole.files.journal), len(whole.files.output)))))}
        # some of each stop
        free = []
        for status in NO_ROOM:
            of_status = [it for it in stops if stops[it] == status]
            free += rng.sample(of_status, min(4, len(of_status)))
        statuses = set()
        for it in free:
            folder.forget()
            saw = small_disk_fault(folder, whole, it, stops[it])
            note(saw is None, f"no room, a small disk with {it} free pages", saw)
            statuses.add(stops[it])
        note(statuses == set(NO_ROOM), "no room, a small disk: what stops the runs", (statuses, stops))
    finally:
        subprocess.run(["umount", at])
        os.rmdir(at)


def small_disk_fault(folder, whole, free, want):
    """A run on a disk with so many pages free, which ends with this status, and one behind it with all of them."""
    with open(folder.path("filler"), "wb", buffering=0) as file:
        try:
            while file.write(b"x" * PAGE) == PAGE:
                pass
        except OSError:
            pass
        file.truncate(max(0, os.fstat(file.fileno()).st_size // PAGE - free) * PAGE)
    answer = folder.run(whole.words)
    wrong, _ = whole.stopped(folder.files(), 0)
    os.remove(folder.path("filler"))
    if wrong is not None or (answer.returncode, answer.stdout) != (want, NO_ROOM[want]) or answer.stderr == b"":
        return f"with {free} pages: {wrong}, {answer}, and should be {want}"
    answer, files = folder.run(whole.words), folder.files()
    same = answer.stdout == b"0 Ended\n" and (files.journal, files.output) == (whole.files.journal, whole.files.output)
    return None if same else f"behind {free} pages, with room: {answer}"


def check(note, room, rounds, seed):
    seed = seed or str(int(time.time()))
    check_kills(note, room.program, rounds, seed)
    check_limits(note, room.program)
    check_small_disk(note, room.program, seed)
    room.clear()
