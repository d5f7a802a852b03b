"""READs made at random, over scripts made at random in which partitions are reshaped again and again: what the program shows
beside the model, byte by byte, and each stream followed by a reader that knows nothing of the model. Each round can be made
again by its seed."""
import random
import time

import honest
import model
from model.texts import LAST_STAMP, write_stamp
from random_lines import CAPTURES, STREAMS, Maker
from random_scripts import DAY, joined, smallest

MOST_STEPS = 14
MOST_READS = 30
SELECT = ("SELECT ChangeRecord FROM", "select changerecord from", "Select\tChangeRecord\n FROM ")
NAMES = ("start_timestamp", "end_timestamp", "partition_token", "heartbeat_milliseconds", "read_options")
BEATS = (1000, 1000, 1001, 5000, 10000, 300000)
FAULTS = ("", "'", '"', ",", "(", ")", ";", "=>", "=", "NULL", "TIMESTAMP", "`", "x", "\u00e9", "-", "0", " ", "\\", "12345678901234567890", "ALL")


class Crowd(Maker):
    """A maker of lines with large transactions of rows that are alike, and with reshapes between them."""

    def commit(self):
        commit = super().commit()
        table = self.pick(self.state.catalog.tables) if self.state.catalog.tables else None
        if table is not None and self.is_rare(5):
            commit["writes"] = self.alike(table)
        return commit

    def alike(self, name):
        """Inserts of rows that name the same columns, or deletes."""
        table = self.state.catalog.tables[name]
        if self.is_rare(4):
            there = [dict(values) for (it, values), cells in self.state.history.rows.items() if it == name and cells is not None]
            if there:
                return [{"delete": name, "key": self.key_of(table, it.items())} for it in there]
        others = [it for it in table.others() if table.columns[it][2] or self.is_rare(2)]
        writes = []
        for number in range(self.pick((2, 5, 32, 33, 64, 70))):
            key = self.cells(table, table.key) | {it: str(number) for it in table.key if table.code(it) == "INT64"}
            writes.append({"insert": name, "key": key, "set": self.cells(table, others)})
        return writes

    def border(self):
        """Most borders are places of rows that are or were there."""
        rows = [it for it in self.state.history.rows if it[0] in self.state.catalog.tables]
        if not rows or self.is_rare(4):
            return super().border()
        name, values = self.pick(rows)
        return {"table": name, "key": self.key_of(self.state.catalog.tables[name], values)}

    def later(self, **action):
        step = self.pick((0, 1, 1, 999999, 10 ** 6, 10 ** 6, 2 * 10 ** 6, 30 * 10 ** 6))
        return self.spelled({"at": write_stamp(self.at + step)} | action).encode()


def lines_of(rng, maker):
    """A script's lines: tables and streams, then transactions and reshapes by turns; lines that are refused are left out."""
    made = []

    def keep(line):
        if maker.cause(line) is None:
            made.append(line)

    for _ in range(rng.choice((1, 2, 3))):
        keep(maker.later(ddl=maker.create_table()))
    if rng.randrange(4):
        keep(maker.later(ddl=f"CREATE CHANGE STREAM {rng.choice(STREAMS[:3])} FOR ALL OPTIONS (value_capture_type = '{rng.choice(CAPTURES)}')"))
    for _ in range(rng.choice((0, 1, 1, 2))):
        keep(maker.later(ddl=maker.create_stream()))
    for _ in range(rng.randrange(1, MOST_STEPS)):
        for _ in range(rng.choice((0, 1, 2, 4, 8))):
            keep(maker.later(commit=maker.commit()))
        if maker.is_rare(8):
            keep(maker.later(ddl=rng.choice((maker.create_table, maker.add_column, maker.create_stream))()))
        for _ in range(rng.choice((1, 1, 2))):
            keep(maker.later(reshape=maker.reshape()))
    return made


def near(rng, moments):
    at = rng.choice(moments) + rng.choice((0, 0, 0, 1, -1, 10 ** 6, -10 ** 6, 5 * 10 ** 6))
    return min(max(at, 1), LAST_STAMP)


def quoted(rng, text):
    mark = rng.choice("''\"")
    return mark + text + mark


def stamp_literal(rng, at):
    if at is None:
        return rng.choice(("NULL", "null"))
    text = write_stamp(at)
    if rng.randrange(8) == 0:
        text = text[:-1] + ("000Z" if "." in text else ".000000000Z")
    return rng.choice(("", "", "", "TIMESTAMP ", "timestamp")) + quoted(rng, text)


def query_of(rng, stream, start, end, token, beat):
    """A text for the arguments: by position or by name, in other letters and blanks."""
    values = [stamp_literal(rng, start), stamp_literal(rng, end), "NULL" if token is None else quoted(rng, token), rng.choice(("", "0", "000")) + str(beat) if rng.randrange(9) == 0 else str(beat)]
    if rng.randrange(5) == 0:
        values.append("NULL")
    if rng.randrange(2) == 0:
        named = [f"{name}{rng.choice((' => ', '=>'))}{value}" for name, value in zip(NAMES, values) if value.upper() != "NULL" or rng.randrange(2) == 0]
        rng.shuffle(named)
        values = named
    name = rng.choice((f"READ_{stream}", f"READ_{stream}", f"`READ_{stream}`"))
    return f"{rng.choice(SELECT)} {name}{rng.choice(('', ' '))}({rng.choice((', ', ',')).join(values)}){rng.choice(('', '', ';', ' ; '))}"


def spoilt(rng, query):
    """The query with one fault, which may make it no query at all, or another one."""
    place = rng.randrange(len(query) + 1)
    roll = rng.randrange(4)
    if roll == 0:
        return query[:place] + rng.choice(FAULTS) + query[place:]
    if roll == 1:
        return query[:place] + query[place + rng.choice((1, 2, 7)):]
    if roll == 2:
        return query.replace(rng.choice(("READ_", "'", "=>", ",", "_timestamp", "ChangeRecord", "from", "Z", "-", ")")), rng.choice(FAULTS), 1)
    words = query.split(" ")
    rng.shuffle(words)
    return " ".join(words)


class Round:
    """One script, made by its seed, and the READs and windows that are asked of it."""

    def __init__(self, seed):
        rng = random.Random(seed)
        self.maker = Crowd(rng)
        self.lines = lines_of(rng, self.maker)
        self.ends = [b"\n"] * len(self.lines)
        layouts = self.maker.state.layouts
        self.reads = [it for stream in layouts for it in self.of_stream(rng, stream)]
        rng.shuffle(self.reads)
        self.reads = self.reads[:MOST_READS] + self.odd(rng)
        self.windows = [self.window(rng, stream) for stream in layouts]

    def script(self):
        return joined(self.ends, self.lines)

    def of_stream(self, rng, stream):
        """READs of each part of a stream, and some without a token, as moments and queries."""
        layout = self.maker.state.layouts[stream]
        found = []
        for part in [None, *layout.parts, None]:
            begin = layout.parts[0].born if part is None else part.born
            last = self.maker.at if part is None or part.until is None else part.until
            start = rng.choice((begin, begin, begin, begin, begin + 1, rng.randrange(begin, last + 1), last - 1, near(rng, self.maker.moments)))
            moments = [it for it in (*self.maker.moments, start, last) if start <= it] or [start]
            now = rng.choice((last, last - 1, self.maker.at, self.maker.at, near(rng, moments)))
            end = rng.choice((None, last, last - 1, now, now + 1, near(rng, moments), near(rng, moments)))
            found.append(self.asked(rng, stream, start, end, None if part is None else part.token, now))
        return found

    def asked(self, rng, stream, start, end, token, now, beats=BEATS):
        stamps = [None if it is None else min(max(it, 1), LAST_STAMP) for it in (start, end)]
        return write_stamp(min(max(now, 1), LAST_STAMP)), query_of(rng, stream, *stamps, token, rng.choice(beats))

    def odd(self, rng):
        """READs of anything at any moment, and queries with a fault."""
        found = []
        for _ in range(6):
            stream = rng.choice([*self.maker.state.layouts] * 3 + STREAMS)
            some = [near(rng, self.maker.moments) for _ in range(3)]
            some[2] += rng.choice((0, 0, DAY, DAY + 1, 7 * DAY))
            token = rng.choice((None, f"{stream}-00000", f"{stream}-00001", f"{stream}-99999", "x"))
            found.append(self.asked(rng, stream, some[0], rng.choice((None, some[1])), token, some[2], (999, 1000, 300000, 300001, 0, -1)))
        return found + [(now, spoilt(rng, query)) for now, query in rng.sample(self.reads, min(8, len(self.reads)))]

    def window(self, rng, stream):
        """A stream, a window of it, and the moments at which it is read."""
        created = self.maker.state.catalog.streams[stream].created
        moments = [it for it in self.maker.moments if created <= it] or [created]
        some = sorted((rng.choice((created, near(rng, moments))), rng.choice((self.maker.at, near(rng, moments)))))
        start, end = max(some[0], created), max(some[1], created)
        between = sorted({near(rng, moments) for _ in range(rng.choice((0, 1, 3)))} | {rng.choice((end, end, end + 1))})
        return stream, [write_stamp(it) for it in (start, end)], [write_stamp(it) for it in between if start <= it]


class Asked:
    """The program, asked as the model is."""

    def __init__(self, room, is_explained):
        self.room = room
        self.is_explained = is_explained
        self.script = None

    def put(self, script):
        if script != self.script:
            self.room.clear()
            self.room.put("script", script)
            self.script = script

    def show(self, script, now, query):
        self.put(script)
        return self.room.run(["show", self.room.path("script"), now, query])

    def differs(self, script, now, query):
        """What the program answers where the model answers otherwise, else None."""
        own = model.show(script, now, query)
        ran = self.show(script, now, query)
        if ran.returncode == own.status and ran.stdout == own.console.encode() and self.is_explained(ran):
            return None
        lines, wanted = ran.stdout.split(b"\n"), own.console.encode().split(b"\n")
        first = next((it for it in zip(lines, wanted) if it[0] != it[1]), None)
        return f"status {ran.returncode}, {len(lines) - 1} lines; the model {own.status}, {len(wanted) - 1} lines; first {first}; error {ran.stderr[:300]}"

    def answer(self, script):
        def ask(now, query):
            ran = self.show(script, now, query)
            return ran.returncode, ran.stdout.decode()

        return ask


def check_round(note, asked, seed):
    made = Round(seed)
    script = made.script()
    for now, query in made.reads:
        saw = asked.differs(script, now, query)
        less = script
        if saw is not None:
            less = smallest(made.ends, made.lines, lambda it: asked.differs(it, now, query))
            saw = asked.differs(less, now, query)
        note(saw is None, f"seed {seed}, show at {now} of {query!r}", f"{less!r}: {saw}")
    for stream, window, moments in made.windows:
        if model.replay(script, stream, *window).status == 0 and moments and moments[-1] >= window[1]:
            saw = honest.unlike(asked.answer(script), stream, window, moments, [it.line for it in model.changes(script, stream, *window)])
            note(saw is None, f"seed {seed}, {stream} followed in {window} at {moments}", f"{script!r}: {saw}")


def check(note, room, is_explained, rounds, seed):
    seed = seed or str(int(time.time()))
    print(f"random reads: {rounds} scripts from the seed {seed}", flush=True)
    asked = Asked(room, is_explained)
    for number in range(rounds):
        check_round(note, asked, f"{seed}.{number}")
    room.clear()


def count_of(script, now, query):
    """How many steps the model answers, as a line; None where the query is none."""
    own = model.show(script, now, query)
    if own.status == 0:
        return str(own.console.count("\n") - 1)
    return "refused" if own.status in (20, 21) else None


def check_links(note, measure, room, rounds, seed):
    """READs that follow each other over one link, which keeps the index of a stream from one to the next."""
    seed = seed or str(int(time.time()))
    print(f"random READs over one link: {rounds} scripts from the seed {seed}", flush=True)
    for number in range(rounds):
        made = Round(f"{seed}.{number}")
        script, now = made.script(), write_stamp(max(made.maker.at, 1))
        queries = [query.replace("\n", " ") for _, query in made.reads]
        told = [(query, count) for query in queries if (count := count_of(script, now, query)) is not None]
        words = [room.put("script", script), now, room.put("queries", "".join(query + "\n" for query, _ in told).encode()), "1000000"]
        ran = measure(["reads", *words])
        lines = ran.stdout.decode().splitlines()
        wrong = [it for it in zip(told, lines) if it[0][1] != it[1]]
        note(ran.returncode == 0 and len(lines) == len(told) and not wrong, f"seed {seed}.{number}, READs over one link", f"{len(told)} READs, {len(lines)} lines, {wrong[:1]}: {script!r}")
    room.clear()
