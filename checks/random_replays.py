"""Replays made at random, over scripts made at random whose partitions are split, merged and moved: windows, orders, pages, turns
and moments. What the program writes is compared with the model byte by byte, and its journal entry by entry, judged, and
checked by the program itself; a run that paused or was refused is gone on with by other options, run after run. A window that
is replayed in every order and by every size of page tells the same lines of each row. Each round can be made again by its
seed."""
import random
import time

import journal
import judge
import model
from model.texts import LAST_STAMP, write_stamp
from random_lines import STREAMS
from random_reads import Crowd, lines_of, near
from random_scripts import DAY, joined, smallest

ORDERS = (0, 1, 1, 2, 3, 5, 60, 10 ** 10 - 1)
BATCHES = (1, 1, 2, 2, 3, 5, 31, 1024, 8192)
TURNS = (1, 1, 2, 3, 4, 7, 101, 1000000)
GRID = [(0, 1), (1, 2), (2, 1024), (7, 3)]


def options_of(rng, start, end, moments):
    """Some of the options, in any order."""
    given = {}
    if rng.randrange(3):
        given["--order"] = rng.choice(ORDERS)
    if rng.randrange(3):
        given["--batch"] = rng.choice(BATCHES)
    if rng.randrange(3):
        within = [it for it in moments if start <= it < end] or [start]
        near_end = (end - 1, end, end + 1, end + 10 ** 6)
        far = (start - 1, start + DAY, start + DAY + 1, start + 7 * DAY, start + 7 * DAY + 1)
        now = rng.choice((rng.choice(within), rng.choice(within), near(rng, within), near(rng, within), rng.randrange(start, end + 1), rng.choice(near_end), rng.choice(far)))
        given["--moment"] = write_stamp(min(max(now, 1), LAST_STAMP))
    if rng.randrange(2):
        # without a moment below the end so many turns are never made
        given["--turns"] = rng.choice(TURNS if "--moment" not in given else TURNS[:-1])
    words = list(given.items())
    rng.shuffle(words)
    return tuple(str(it) for pair in words for it in pair)


class Round:
    """One script, made by its seed, and the replays that are asked of it."""

    def __init__(self, seed):
        rng = random.Random(seed)
        self.maker = Crowd(rng)
        self.lines = lines_of(rng, self.maker)
        self.ends = [b"\n"] * len(self.lines)
        streams = [*self.maker.state.layouts] or [rng.choice(STREAMS)]
        self.windows = [self.window(rng, it) for it in streams for _ in range(2)]
        self.asked = [(window, [self.options(rng, window) for _ in range(rng.choice((1, 2, 3)))]) for window in self.windows for _ in range(3)]

    def script(self):
        return joined(self.ends, self.lines)

    def window(self, rng, stream):
        """A stream, and a start and an end in microseconds."""
        there = self.maker.state.catalog.streams.get(stream)
        created = there.created if there else self.maker.moments[0]
        moments = [it for it in self.maker.moments if created <= it] or [created]
        some = sorted(rng.choice((near(rng, moments), rng.choice(moments), early)) for early in (created, self.maker.at))
        if rng.randrange(3) == 0:
            some = [created, self.maker.at + rng.choice((0, 1, 10 ** 6, 60 * 10 ** 6))]
        return stream, *(it if rng.randrange(40) == 0 else max(it, created) for it in some)

    def options(self, rng, window):
        return options_of(rng, *window[1:], self.maker.moments)


def words_of(window):
    stream, start, end = window
    return stream, write_stamp(start), write_stamp(end)


class Asked:
    """The program, asked as the model is."""

    def __init__(self, room, is_explained):
        self.room = room
        self.is_explained = is_explained

    def replay(self, script, words):
        """From absent files."""
        self.room.clear()
        return self.go_on(self.room.put("script", script), words)

    def go_on(self, path, words):
        return self.room.run(["replay", path, "journal", "output", *words]), self.room.left("output")

    def differs(self, script, window, runs):
        """What is wrong with runs of a window that go on with each other's files, by their options; None where nothing is."""
        self.room.clear()
        path, own = self.room.put("script", script), None
        for number, options in enumerate(runs):
            own = model.replay(script, *window, *options, entries=own.entries if own else (), output=own.output if own else b"")
            wrong = self.unlike(path, script, (*window, *options), own)
            if wrong is not None:
                return f"run {number}, {options}: {wrong}"
        return None

    def unlike(self, path, script, words, own):
        """What is wrong with the program's answer to a replay, and with its check of what it wrote; None where nothing is."""
        ran, output = self.go_on(path, words)
        if not (ran.returncode == own.status and ran.stdout.decode() == own.console and self.is_explained(ran) and output == own.output):
            return f"{ran.stdout} and {(output or b'')[-600:]}, the model {own.console!r} and {own.output[-600:]}, error {ran.stderr[:300]}"
        wrong = journal.unlike(self.room.left("journal") or b"", output, own.entries)
        if wrong is not None:
            return wrong
        wanted = [it.line for it in model.changes(script, *words[:3])] if output else []
        wrong = judge.wrong(own.status, output, wanted, words[2]) if own.status in (0, 10) else judge.fault(output, wanted, words[2])
        return wrong or (self.checked(own.status, output, words[:3]) if own.status in (0, 10) else None)

    def checked(self, status, output, window):
        marks = [it for it in output.decode().split("\n") if it.startswith('{"watermark"')]
        want = "0 Ended\n" if status == 0 else f"11 Verdict Prefix {marks[-1][14:-2] if marks else '-'}\n"
        ran = self.room.run(["check", self.room.path("script"), "output", *window])
        return None if ran.stdout.decode() == want and ran.returncode == int(want.split()[0]) else f"check says {ran.stdout}, and should {want!r}"

    def differ(self, script, window):
        """What differs among the rows of replays in several orders and by several pages; None where nothing does."""
        rows = None
        for order, batch in GRID:
            words = (*window, "--order", str(order), "--batch", str(batch))
            ran, output = self.replay(script, words)
            if ran.returncode != 0:
                return f"{words}: {ran.stdout}"
            told = judge.rows_of(judge.lines_of(output))
            if rows is not None and told != rows:
                return f"{words}: {sorted(set(map(str, told.items())) ^ set(map(str, rows.items())))[:2]}"
            rows = told
        return None


def fullest(script, windows):
    """The words of the window with the most changes among those of which a replay ends; None where there is none."""
    ended = [it for it in map(words_of, windows) if model.replay(script, *it).status == 0]
    return max(ended, key=lambda it: len(model.changes(script, *it)), default=None)


def check_round(note, asked, seed, counts):
    made = Round(seed)
    script = made.script()
    for window, runs in made.asked:
        words, less = words_of(window), script
        saw = asked.differs(script, words, runs)
        if saw is not None:
            less = smallest(made.ends, made.lines, lambda it: asked.differs(it, words, runs))
            saw = asked.differs(less, words, runs)
        note(saw is None, f"seed {seed}, replays of {words} by {runs}", f"{less!r}: {saw}")
        own = model.replay(script, *words, *runs[0])
        counts[own.status] = counts.get(own.status, 0) + 1
    window = fullest(script, made.windows)
    if window is not None:
        saw = asked.differ(script, window)
        note(saw is None, f"seed {seed}, replays of {window} in several orders", f"{script!r}: {saw}")
        counts["orders"] = counts.get("orders", 0) + (len(model.changes(script, *window)) > 1)


def check(note, room, is_explained, rounds, seed):
    seed = seed or str(int(time.time()))
    print(f"random replays: {rounds} scripts from the seed {seed}", flush=True)
    asked, counts = Asked(room, is_explained), {}
    for number in range(rounds):
        check_round(note, asked, f"{seed}.{number}", counts)
    orders = counts.pop("orders", 0)
    told = ", ".join(f"{count} of status {status}" for status, count in sorted(counts.items()))
    print(f"random replays: {told}, {orders} windows with many changes in several orders", flush=True)
    # many ended and many paused, or the replays are no test
    note(rounds < 20 or (counts.get(0, 0) >= rounds and counts.get(10, 0) >= rounds // 2), "random replays end and pause", told)
    note(rounds < 20 or orders >= rounds // 2, "random replays in several orders", orders)
    room.clear()
