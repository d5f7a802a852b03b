"""Scripts made at random, with every member, and what the program answers to them beside the model: replays of random
windows, and checks of outputs that were damaged on purpose. Each round can be made again by its seed."""
import random
import time

import model
from model.texts import read_stamp, write_stamp
from random_lines import STREAMS, Maker
from random_outputs import another_order, bytes_of, damaged, mark

MOST_LINES = 120
DAY = 86400 * 10 ** 6


def lines_of(rng, maker):
    """A script's lines: refused ones are left out, but for one at the end of some scripts, with what follows it."""
    lines = [it for it in (maker.line() for _ in range(rng.randrange(1, MOST_LINES))) if maker.cause(it) is None]
    if rng.random() < 0.5:
        return lines
    refused = {}
    for _ in range(20):
        line = maker.line(True)
        cause = maker.cause_apart(line)
        if cause is not None:
            refused[cause] = line
    last = [refused[rng.choice(sorted(refused))]] if refused else []
    return lines + last + [maker.line() for _ in range(rng.randrange(3))]


def joined(ends, lines):
    return b"".join(line + end for line, end in zip(lines, ends))


def window_of(rng, maker):
    """A stream, and a start and an end near the moments of the script."""
    streams = list(maker.state.catalog.streams)
    stream = rng.choice(streams if streams and rng.random() < 0.95 else STREAMS)
    some = [max(1, rng.choice(maker.moments) + rng.choice((0, 0, 1, -1, -10 ** 6))) for _ in range(2)]
    if rng.random() < 0.4:
        there = maker.state.catalog.streams.get(stream)
        some = [there.created if there else maker.moments[0], maker.moments[-1] + 1]
    if rng.random() < 0.1:
        some.append(max(some) + rng.choice((1, 7)) * DAY + rng.choice((0, 1)))
    return stream, write_stamp(min(some)), write_stamp(max(some))


class Round:
    """One script, made by its seed, and the questions that are asked of it."""

    def __init__(self, seed):
        rng = random.Random(seed)
        self.maker = Maker(rng)
        self.lines = lines_of(rng, self.maker)
        self.ends = [rng.choice((b"\n", b"\n", b"\n", b"\r\n")) for _ in self.lines]
        if self.ends and rng.random() < 0.1:
            self.ends[-1] = b""
        self.windows = [window_of(rng, self.maker) for _ in range(2)]
        self.checks = [it for window in self.windows for it in self.outputs(rng, window)]

    def script(self):
        return joined(self.ends, self.lines)

    def outputs(self, rng, window):
        """The window with some outputs to be checked."""
        good = model.replay(self.script(), *window)
        if good.status != 0:
            return [(window, b'{"key":{}}\n')]
        lines = [it.line.encode() for it in model.changes(self.script(), *window)] + [mark(read_stamp(window[2]))]
        other, own = another_order(rng, lines), good.output.split(b"\n")[:-1]
        return [(window, bytes_of(rng, it)) for it in (lines, other, damaged(rng, lines), damaged(rng, other), damaged(rng, other), damaged(rng, own))]


class Asked:
    """The program, asked as the model is."""

    def __init__(self, room, is_explained):
        self.room = room
        self.is_explained = is_explained

    def replay(self, script, window):
        """What the program answers where the model answers otherwise, else None."""
        own = model.replay(script, *window)
        self.room.clear()
        ran = self.room.run(["replay", self.room.put("script", script), "journal", "output", *window])
        output = self.room.read("output")
        ok = ran.returncode == own.status and ran.stdout.decode() == own.console and self.is_explained(ran) and output == own.output
        return None if ok else f"{ran.stdout} and {output[:300]}, the model {own.console!r} and {own.output[:300]}, error {ran.stderr[:300]}"

    def check(self, script, window, output):
        own = model.check(script, output, *window)
        self.room.clear()
        ran = self.room.run(["check", self.room.put("script", script), self.room.put("output", output), *window])
        ok = ran.returncode == own.status and ran.stdout.decode() == own.console and self.is_explained(ran)
        return None if ok else f"{ran.stdout}, the model {own.console!r}, error {ran.stderr[:300]}"


def smallest(ends, lines, differs):
    """The script without each line that the difference does not need."""
    place = len(lines) - 1
    while place >= 0:
        fewer = lines[:place] + lines[place + 1:]
        less = ends[:place] + ends[place + 1:]
        if differs(joined(less, fewer)) is not None:
            lines, ends = fewer, less
        place -= 1
    return joined(ends, lines)


def check_round(note, asked, seed):
    made = Round(seed)
    script = made.script()
    for window in made.windows:
        saw = asked.replay(script, window)
        if saw is not None:
            script = smallest(made.ends, made.lines, lambda it: asked.replay(it, window))
            saw = asked.replay(script, window)
        note(saw is None, f"seed {seed}, replay of {window}", f"{script!r}: {saw}")
    for window, output in made.checks:
        saw = asked.check(script, window, output)
        note(saw is None, f"seed {seed}, check in {window}", f"{script!r} with {output!r}: {saw}")
    return [model.replay(made.script(), *it).status for it in made.windows]


def check(note, room, is_explained, rounds, seed):
    seed = seed or str(int(time.time()))
    print(f"random scripts: {rounds} from the seed {seed}", flush=True)
    asked, counts = Asked(room, is_explained), {}
    for number in range(rounds):
        for status in check_round(note, asked, f"{seed}.{number}"):
            counts[status] = counts.get(status, 0) + 1
    told = ", ".join(f"{count} of status {status}" for status, count in sorted(counts.items()))
    print(f"random scripts: replays, {told}", flush=True)
    # many ended and many were refused, or the scripts are no test
    note(rounds < 20 or (counts.get(0, 0) >= rounds // 4 and counts.get(51, 0) >= rounds // 4), "random scripts are replayed and refused", told)
