"""Outputs made at random: right ones in another order of rows, and damaged ones."""
import json

from lines import compact
from model.texts import read_stamp, write_stamp

LAST = 253402300799999999


def row_of(line):
    tree = json.loads(line)
    return tree["table"], compact(tree["key"])


def stamp_of(line):
    tree = json.loads(line)
    return read_stamp(tree.get("stamp") or tree["watermark"])


def mark(at):
    return compact({"watermark": write_stamp(min(max(at, 1), LAST))}).encode()


def another_order(rng, lines):
    """The change lines of a complete output in an order that keeps that of each row, with watermarks where they are right."""
    changes, last = lines[:-1], lines[-1]
    rows = {}
    for line in changes:
        rows.setdefault(row_of(line), []).append(line)
    left, found = sorted(stamp_of(it) for it in changes), []
    before = 0
    while rows:
        row = rng.choice(list(rows))
        line = rows[row].pop(0)
        found.append(line)
        left.remove(stamp_of(line))
        if not rows[row]:
            del rows[row]
        whole = left[0] - 1 if left else stamp_of(last) - 1
        if whole > before and rng.randrange(3) == 0:
            before = rng.randrange(before + 1, whole + 1)
            found.append(mark(before))
    return found + [last]


def foreign(rng, lines):
    line = rng.choice(lines)
    return rng.choice([
        b'{"key":{}}', b"", b"x", b'{"key":\xff}', b'{"watermark":"noon"}', b'{"watermark":"2024-05-01T00:00:00.000Z"}', line[:-1], line + b" ", b" " + line,
        line.replace(b"1", b"2"), line.replace(b"INSERT", b"UPDATE"), line.replace(b'"new"', b'"old"'), line + b"\r",
    ])


def damaged(rng, lines):
    """The lines with one fault or two."""
    whole, lines = lines, list(lines)
    for _ in range(rng.choice((1, 1, 2))):
        place = rng.randrange(len(lines)) if lines else 0
        roll = rng.randrange(8)
        if roll == 0 and lines:
            del lines[place]
        elif roll == 1 and lines:
            lines.insert(rng.randrange(len(lines) + 1), lines[place])
        elif roll == 2 and lines:
            lines.insert(rng.randrange(len(lines)), lines.pop(place))
        elif roll == 3 and lines:
            lines[place] = foreign(rng, lines)
        elif roll == 4 and lines:
            lines.insert(place, foreign(rng, lines))
        elif roll == 5 and lines:
            lines.insert(place, mark(stamp_of(rng.choice(whole)) + rng.choice((0, -1, 1, 10 ** 6))))
        elif roll == 6:
            del lines[place:]
        elif lines:
            place = rng.randrange(len(lines))
            lines[place] = lines[place][: rng.randrange(len(lines[place]) + 1)]
    return lines


def bytes_of(rng, lines):
    data = b"".join(it + b"\n" for it in lines)
    return data[:-1] if data and rng.randrange(12) == 0 else data
