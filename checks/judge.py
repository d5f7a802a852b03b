"""Whether an output is good, and whether it is complete, read off what these words mean, row by row and watermark by
watermark. It holds the output against the changes that a window wants; of the program's verdicts, and of how the model comes
to its own, it knows nothing."""
import json

FIRST = "1970-01-01T00:00:00.000001"


def moment(text):
    """A stamp's text in the form with six digits behind the point."""
    seconds, _, fraction = text[:-1].partition(".")
    return f"{seconds}.{fraction.ljust(6, '0')}"


def mark_of(line):
    """The moment of a watermark's line, as something that can be compared; None where the line is none."""
    if not line.startswith('{"watermark":'):
        return None
    text = json.loads(line)["watermark"]
    if line != '{"watermark":"%s"}' % text or text.endswith(".000000Z") or len(text) not in (20, 27) or moment(text) < FIRST:
        raise ValueError(f"a watermark that is written otherwise: {line}")
    return moment(text)


def rows_of(lines):
    """By each row the lines of its changes, in their order."""
    found = {}
    for line in lines:
        if mark_of(line) is None:
            tree = json.loads(line)
            found.setdefault((tree["table"], json.dumps(tree["key"])), []).append(line)
    return found


def lines_of(output):
    """The lines of an output; a ValueError where the last one has no end."""
    text = output.decode()
    if text and not text.endswith("\n"):
        raise ValueError(f"the last line has no end: {text[-100:]!r}")
    return text.split("\n")[:-1]


def row_fault(lines, wanted):
    """The first row whose lines are not the first of those that are wanted of it."""
    foreign = set(lines) - set(wanted)
    strange = next((it for it in lines if it in foreign and mark_of(it) is None), None)
    if strange is not None:
        return f"a line of no change that is wanted: {strange}"
    rows = rows_of(wanted)
    for row, found in rows_of(lines).items():
        if found != rows[row][:len(found)]:
            return f"the lines of {row} are not the first that are wanted: {found}"
    return None


def mark_fault(lines, wanted, end):
    marks = [(place, mark_of(line)) for place, line in enumerate(lines) if mark_of(line) is not None]
    places = {line: place for place, line in enumerate(lines)}
    stamps = [(moment(json.loads(line)["stamp"]), places.get(line, len(lines))) for line in wanted]
    for place, mark in marks:
        if any(stamp <= mark and place < behind for stamp, behind in stamps):
            return f"a change up to the watermark {mark} does not stand before it"
    told = [mark for _, mark in marks]
    if any(one >= two for one, two in zip(told, told[1:])):
        return f"watermarks do not rise: {told}"
    return f"the watermark {told[-1]} is above the end" if told and told[-1] > moment(end) else None


def fault(output, wanted, end):
    """Why the output is not good for the lines that are wanted, which stand in commit order, up to a stamp's text; None where it is."""
    try:
        lines = lines_of(output)
        return row_fault(lines, wanted) or mark_fault(lines, wanted, end)
    except ValueError as wrong:
        return str(wrong)


def lack(output, wanted, end):
    """Why the output is not complete; None where it is."""
    found = fault(output, wanted, end)
    if found is not None:
        return found
    lines = lines_of(output)
    absent = set(wanted) - set(lines)
    if absent:
        return f"changes that are wanted are absent: {sorted(absent)[:2]}"
    if not lines or mark_of(lines[-1]) != moment(end):
        return f"the last line is not the watermark of {end}"
    return None


def wrong(status, output, wanted, end):
    """What is wrong with the output of a replay that ended, or paused before the end, or was refused; None where nothing is."""
    if status == 0:
        return lack(output, wanted, end)
    if status == 10:
        return fault(output, wanted, end) or ("it paused, and its output is complete" if lack(output, wanted, end) is None else None)
    return None if output == b"" else f"status {status}, and the output is not empty"
