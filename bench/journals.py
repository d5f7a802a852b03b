"""Journals of any size: a window of stream S, its one partition, and then an entry for each change of one row, microsecond by
microsecond. The output that they tell stands beside them, where it is asked for."""
import struct

START = 1_714_521_600_000_000  # 2024-05-01T00:00:00Z
DAY = 86_400_000_000
TOKEN = "S-00000"


def text(value):
    return struct.pack("<I", len(value)) + value.encode()


def entry(payload):
    """An open gate and a whole entry."""
    return b"\x01" + struct.pack("<I", len(payload)) + payload


def number_cell(column, value):
    return text(column) + b"\x02" + struct.pack("<q", value)


# of an entry's payload what stands before its stamps, and of a change what stands behind its transaction, and behind the number
HEAD = b"\x03" + text(TOKEN)
ROW = text("T") + struct.pack("<I", 1) + number_cell("K", 1) + b"\x02"
NONE = struct.pack("<I", 0)


def progress(number, letters):
    """The entry of a change so many microseconds behind the start, whose row also has so many letters; it tells all up to its stamp."""
    stamp = struct.pack("<Q", START + number)
    cells = b"\x01\x00\x00\x00%b" % number_cell("A", number) if not letters else b"\x02\x00\x00\x00%b%b\x04%b" % (number_cell("A", number), text("B"), text("x" * letters))
    return entry(b"%b%b\x01\x00\x00\x00%b%b%b%b%b" % (HEAD, stamp, stamp, text("t%d" % number), ROW, cells, NONE))


def stamp_text(micros):
    """The text of a stamp so many microseconds into the day."""
    second, fraction = divmod(micros, 10 ** 6)
    point = ".%06d" % fraction if fraction else ""
    return "2024-05-01T%02d:%02d:%02d%sZ" % (second // 3600, second // 60 % 60, second % 60, point)


def watermark(micros):
    return b'{"watermark":"%s"}\n' % stamp_text(micros).encode()


def lines(number, letters):
    """What the output says of such an entry."""
    at, row = stamp_text(number), ',"B":"%s"' % ("x" * letters) if letters else ""
    return (
        '{"key":{"K":"1"},"kind":"UPDATE","new":{"A":"%d"%s},"old":{},"stamp":"%s","table":"T","tx":"t%d"}\n{"watermark":"%s"}\n' % (number, row, at, number, at)
    ).encode()


def write_journal(path, size, end=DAY, is_whole=False, letters=0, output=None):
    """A journal of at most so many bytes, of just so many where its rows have letters; the window ends so many microseconds into
    the day. A whole one has a last entry that tells all up to there. Answers how many entries it has."""
    front = entry(b"\x01\x01" + text("S") + struct.pack("<QQ", START, START + end)) + entry(b"\x02" + struct.pack("<I", 1) + text(TOKEN))
    last = entry(b"\x04" + text(TOKEN) + struct.pack("<Q", START + end) + struct.pack("<II", 0, 0)) if is_whole else b""
    count = 2 + is_whole
    left = size - len(front) - len(last) - 1
    with open(path, "wb") as journal, open(output or "/dev/null", "wb") as told:
        journal.write(front)
        for number in range(1, end):
            made = progress(number, letters)
            if len(made) > left:
                # where the rows have letters, the last one fills what is left
                letters -= len(made) - left
                if letters <= 0:
                    break
                made = progress(number, letters)
            journal.write(made)
            if output:
                told.write(lines(number, letters))
            left -= len(made)
            count += 1
        journal.write(last + b"\x00")
        told.write(watermark(end) if is_whole else b"")
    return count
