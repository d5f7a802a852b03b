"""What the commands answer: the status, what the console shows, and for a replay the output and the journal's entries."""
import functools
import re

from . import reads
from .entries import Begin, text_of
from .follower import Pace, followed
from .generated import END, START, STREAM, script_of
from .history import captured
from .refusal import Refusal
from .script import BadScript, load
from .sql import parse_query
from .texts import compact, read_stamp, tree_of, write_stamp

NAME = re.compile(r"[A-Za-z][A-Za-z0-9_]{0,127}")
WATERMARK = re.compile(r'\{"watermark":"([^"]*)"\}')
CHANGE = '{"key":'


class Answer:
    def __init__(self, status, name, *values, output=b"", entries=(), lines=()):
        self.status = status
        self.console = "".join(it + "\n" for it in [*lines, " ".join([str(status), name, *(str(it) for it in values)])])
        self.output = output
        self.entries = list(entries)


class Change:
    def __init__(self, item, line):
        self.at = item.at
        self.row = item.write.row()
        self.line = line


@functools.lru_cache(maxsize=4)
def loaded(script):
    """The state of a script's lines, or why there is none."""
    try:
        return load(script)
    except BadScript as bad:
        return bad


def line_of(table, item, new, old):
    def cells(values):
        return {name: tree_of(values[name], table.code(name)) for name in sorted(values)}

    write = item.write
    return compact({
        "key": cells(write.key), "kind": write.kind, "new": cells(new), "old": cells(old), "stamp": write_stamp(item.at), "table": write.table, "tx": item.tx,
    })


def watermark(at):
    return compact({"watermark": write_stamp(at)})


def wanted(state, stream, start, end):
    """The stream's changes of the window, in the order of the commits."""
    found = []
    for item in state.history.modifications:
        if start <= item.at <= end:
            table = state.catalog.tables[item.write.table]
            both = captured(table, item.write.table, state.catalog.streams[stream], item)
            if both is not None:
                found.append(Change(item, line_of(table, item, *both)))
    return found


def bad_window(stream, start, end, before):
    """The place of the first bad word of a window, where there is one; so many words stand before the stream."""
    if not NAME.fullmatch(stream):
        return before
    stamps = []
    for place, word in enumerate((start, end)):
        try:
            stamps.append(read_stamp(word))
        except Refusal:
            return before + 1 + place
    return before + 2 if stamps[1] < stamps[0] else None


def number(word, least, most):
    """The number that a word of 1 to 10 digits is, within its bounds; None where it is none."""
    return int(word) if re.fullmatch("[0-9]{1,10}", word) and least <= int(word) <= most else None


def moment_of(word):
    try:
        return read_stamp(word)
    except Refusal:
        return None


OPTIONS = {
    "--order": lambda word: number(word, 0, 10 ** 10),
    "--turns": lambda word: number(word, 1, 1000000),
    "--batch": lambda word: number(word, 1, 8192),
    "--moment": moment_of,
}


def options_of(words):
    """The values of the options by their words, or the place among these words of the first bad one."""
    given = {}
    for place in range(0, len(words), 2):
        if words[place] not in OPTIONS or words[place] in given:
            return place
        value = OPTIONS[words[place]](words[place + 1]) if place + 1 < len(words) else None
        if value is None:
            return place + 1
        given[words[place]] = value
    return given


def replay(script, stream, start, end, *options, output=b"", entries=()):
    """Of a replay over a script's bytes, an output that has these bytes and a journal that has these entries."""
    there = {"output": output, "entries": entries}
    place = bad_window(stream, start, end, 4)
    if place is not None:
        return Answer(50, "BadWords", place, **there)
    given = options_of(options)
    if isinstance(given, int):
        return Answer(50, "BadWords", 7 + given, **there)
    state = loaded(script)
    if isinstance(state, BadScript):
        return Answer(51, "BadScript", state.line, state.cause, **there)
    begin = Begin(stream, read_stamp(start), read_stamp(end))
    if entries and entries[0] != begin:
        return Answer(52, "OtherJournal", entries[0].stream, write_stamp(entries[0].start), write_stamp(entries[0].end), **there)
    if output and not entries:
        return Answer(55, "OutputNotEmpty", len(output), **there)
    pace = Pace(**{name[2:]: value for name, value in given.items() if name != "--moment"})
    stop, entries = followed(state, entries or [begin], given.get("--moment", begin.end), pace)
    return Answer(*stop, output=text_of(entries), entries=entries)


def changes(script, stream, start, end):
    """What a script's stream tells of a window, in commit order."""
    return wanted(loaded(script), stream, read_stamp(start), read_stamp(end))


def is_line(line):
    try:
        text = line.decode()
    except UnicodeDecodeError:
        return False
    if text.startswith(CHANGE):
        return True
    found = WATERMARK.fullmatch(text)
    try:
        return found is not None and watermark(read_stamp(found[1])) == text
    except Refusal:
        return False


def read_output(data):
    """The lines of an output; a bad one is refused with its number."""
    *lines, rest = data.split(b"\n")
    for number, line in enumerate(lines + [rest] if rest else lines, 1):
        if not is_line(line):
            raise Refusal("BadLine", number)
    if rest:
        raise Refusal("NoEnd", len(lines) + 1)
    return [it.decode() for it in lines]


def audit(lines, changes, end):
    """The verdict's words: the first line that offends, and its first offence; or how far the output is."""
    places = {it.line: place for place, it in enumerate(changes)}
    by_row = {}
    for place, change in enumerate(changes):
        by_row.setdefault(change.row, []).append(place)
    stood, first_missing, last = set(), 0, None
    for number, line in enumerate(lines, 1):
        found = WATERMARK.fullmatch(line)
        if not found:
            if line not in places:
                return "Extra", number
            place = places[line]
            if by_row[changes[place].row][:1] != [place]:
                return "OutOfOrder", number
            by_row[changes[place].row].pop(0)
            stood.add(place)
            continue
        at = read_stamp(found[1])
        while first_missing in stood:
            first_missing += 1
        # stamps do not fall in the list, so the first that is missing has the least stamp
        if first_missing < len(changes) and changes[first_missing].at <= at:
            return "WatermarkEarly", number
        if (last is not None and at <= last) or at > end:
            return "WatermarkBack", number
        last = at
    if len(stood) == len(changes) and lines and lines[-1] == watermark(end):
        return ("Complete",)
    return "Prefix", "-" if last is None else write_stamp(last)


def check(script, output, stream, start, end):
    place = bad_window(stream, start, end, 3)
    if place is not None:
        return Answer(50, "BadWords", place)
    state = loaded(script)
    if isinstance(state, BadScript):
        return Answer(51, "BadScript", state.line, state.cause)
    if stream not in state.catalog.streams:
        return Answer(21, "Refused", "UnknownFunction")
    try:
        lines = read_output(output)
    except Refusal as bad:
        return Answer(56, "BadOutput", bad.held)
    verdict = audit(lines, wanted(state, stream, read_stamp(start), read_stamp(end)), read_stamp(end))
    return Answer(0, "Ended") if verdict == ("Complete",) else Answer(11, "Verdict", *verdict)


def show(script, moment, query):
    """Of the READ that a query asks for at a moment."""
    try:
        moment = read_stamp(moment)
    except Refusal:
        return Answer(50, "BadWords", 2)
    try:
        function, arguments = parse_query(query)
    except Refusal:
        return Answer(50, "BadWords", 3)
    state = loaded(script)
    if isinstance(state, BadScript):
        return Answer(51, "BadScript", state.line, state.cause)
    try:
        return Answer(0, "Ended", lines=reads.read(state, function, arguments, moment))
    except Refusal as refusal:
        if refusal.name == "StartTooOld":
            return Answer(20, "RetentionPassed", write_stamp(refusal.held))
        return Answer(21, "Refused", refusal.name)


def gen(commits):
    """All that `gen N` prints."""
    state = load(script_of(commits))
    changes = wanted(state, STREAM, read_stamp(START), read_stamp(END))
    lines = [f"gen {commits} commits {commits} changes {len(changes)} parts {len(state.layouts[STREAM].parts)}"]
    return "".join(it + "\n" for it in lines + [f"order {it} Complete" for it in range(3)] + ["0 Ended"])
