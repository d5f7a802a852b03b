"""What the program must say of words, and of some scripts that it takes: each row has an input and the answer that the formats give it."""

STATUSES = (0, 10, 11, 20, 21, 31, 40, 41, 42, 43, 50, 51, 52, 53, 54, 55, 56, 60, 70)

TABLE = b'{"at":"2024-05-01T00:00:00Z","ddl":"CREATE TABLE T (K INT64 NOT NULL, A INT64, B STRING(MAX)) PRIMARY KEY (K)"}\n'
STREAM = b'{"at":"2024-05-01T00:00:00Z","ddl":"CREATE CHANGE STREAM S FOR T"}\n'
PREAMBLE = TABLE + STREAM
WINDOW = ("2024-05-01T00:00:01Z", "2024-05-01T00:00:10Z")


def insert(key=b"1", at=b"2024-05-01T00:00:01Z", tx=b"t1", a=b"5", b=b"x"):
    return b'{"at":"%s","commit":{"id":"%s","writes":[{"insert":"T","key":{"K":"%s"},"set":{"A":"%s","B":"%s"}}]}}\n' % (at, tx, key, a, b)


def change(key=b"1", at=b"2024-05-01T00:00:01Z", tx=b"t1", a=b"5", b=b"x"):
    return b'{"key":{"K":"%s"},"kind":"INSERT","new":{"A":"%s","B":"%s"},"old":{},"stamp":"%s","table":"T","tx":"%s"}\n' % (key, a, b, at, tx)


def watermark(at):
    return b'{"watermark":"%s"}\n' % at.encode()


GOOD_SCRIPT = PREAMBLE + insert()
GOOD_OUTPUT = change() + watermark(WINDOW[1])

REPLAY = ("replay", "SCRIPT", "journal", "output")
START, END = WINDOW
OPTIONS = (*REPLAY, "S", START, END)
TAKEN_OPTIONS = (("--order", "0"), ("--turns", "1000000"), ("--batch", "8192"), ("--moment", END))
ALL_OPTIONS = tuple(it for pair in TAKEN_OPTIONS for it in pair)

# no numbers of 1 to 10 digits
NO_NUMBERS = ("", "x", "-1", "+1", "1.0", "1e1", " 1", "1 ", "0x1", "1_0", "00000000001", "10000000000", "\u0661", "--turns")

MOMENT = END
QUERY = "SELECT ChangeRecord FROM READ_S('2024-05-01T00:00:01Z', NULL, NULL, 10000)"

# no stamps
NO_STAMPS = (
    "", "now", "2024-05-01", "2024-05-01T00:00:00", "2024-05-01T00:00:60Z", "2024-05-01T00:60:00Z", "2024-05-01T24:00:00Z",
    "2024-05-01t00:00:00Z", "2024-05-01T00:00:00z", "2024-05-01 00:00:00Z", " 2024-05-01T00:00:00Z", "2024-05-01T0:00:00Z",
    "2024-05-01T00:00:0aZ", "2024-05-01T00:00:00+00:00", "--order",
    "2024-02-30T00:00:00Z", "2024-05-01T00:00:01.Z", "2024-05-01T00:00:01.0000001Z", "0000-01-01T00:00:00Z", "10000-01-01T00:00:00Z",
)

# no names of a stream
NO_NAMES = ("", "1S", "_S", "S-00000", "S T", "\u00e9", "S" * 129)

BAD_WORDS = [
    ((), 0),
    (("x",), 0),
    (("REPLAY",), 0),
    (("--help", "replay"), 0),
    (("--version", "x"), 0),
    (("replay",), 1),
    (("replay", "SCRIPT"), 2),
    (("replay", "SCRIPT", "journal"), 3),
    (REPLAY, 4),
    ((*REPLAY, "S"), 5),
    ((*REPLAY, "S", START), 6),
    *(((*REPLAY, it, START, END), 4) for it in NO_NAMES),
    ((*REPLAY, "-"), 4),
    ((*REPLAY, "S", "noon"), 5),
    *(((*REPLAY, "S", it, END), 5) for it in NO_STAMPS),
    *(((*REPLAY, "S", START, it), 6) for it in NO_STAMPS),
    ((*REPLAY, "S", START, "2024-04-30T23:59:59.999999Z"), 6),
    ((*REPLAY, "S", "2024-05-01T00:00:01.000001Z", START), 6),
    ((*REPLAY, "S", END, START), 6),
    ((*REPLAY, "S", END, START, "x"), 6),
    (("replay", "a", "b", "c", "S"), 5),
    ((*REPLAY, "S", START, END, "x"), 7),
    ((*REPLAY, "S", START, END, ""), 7),
    ((*REPLAY, "--order", "0", "S", START, END), 4),
    ((*REPLAY, "S", "--order", "0", START, END), 5),
    ((*REPLAY, "S", START, "--order", "0", END), 6),
    *(((*OPTIONS, it, "1"), 7) for it in ("order", "-order", "--ORDER", "--orders", "--order=1", "--workers", "--step", "--text", "--", "--help")),
    *(((*OPTIONS, it), 8) for it in ("--order", "--turns", "--batch", "--moment")),
    *(((*OPTIONS, name, it), 8) for name in ("--order", "--turns", "--batch") for it in NO_NUMBERS),
    *(((*OPTIONS, "--turns", it), 8) for it in ("0", "0000000000", "1000001", "0001000001", "9999999999")),
    *(((*OPTIONS, "--batch", it), 8) for it in ("0", "0000000000", "8193", "0000008193", "9999999999")),
    *(((*OPTIONS, "--moment", it), 8) for it in (*NO_STAMPS, "1", "--turns")),
    *(((*OPTIONS, *it, "x"), 9) for it in TAKEN_OPTIONS),
    *(((*OPTIONS, *it, ""), 9) for it in TAKEN_OPTIONS),
    *(((*OPTIONS, *it, *it), 9) for it in TAKEN_OPTIONS),
    *(((*OPTIONS, name, it, name, "x"), 9) for name, it in TAKEN_OPTIONS),
    *(((*OPTIONS, name, it, name), 9) for name, it in TAKEN_OPTIONS),
    *(((*OPTIONS, *one, two), 10) for one, (two, _) in zip(TAKEN_OPTIONS, (*TAKEN_OPTIONS[1:], TAKEN_OPTIONS[0]))),
    *(((*OPTIONS, *one, two, "-1"), 10) for one, (two, _) in zip(TAKEN_OPTIONS, (*TAKEN_OPTIONS[1:], TAKEN_OPTIONS[0]))),
    ((*OPTIONS, *ALL_OPTIONS, "x"), 15),
    ((*OPTIONS, *ALL_OPTIONS, "--order", "1"), 15),
    ((*OPTIONS, *ALL_OPTIONS[2:], "--order", "x"), 14),
    (("check",), 1),
    (("check", "SCRIPT"), 2),
    (("check", "SCRIPT", "output"), 3),
    (("check", "SCRIPT", "output", "S"), 4),
    (("check", "SCRIPT", "output", "S", START), 5),
    *((("check", "SCRIPT", "output", it, START, END), 3) for it in NO_NAMES),
    (("check", "SCRIPT", "output", "S", "noon", END), 4),
    (("check", "SCRIPT", "output", "S", START, "noon"), 5),
    (("check", "SCRIPT", "output", "S", END, START), 5),
    (("check", "SCRIPT", "output", "S", START, END, "x"), 6),
    (("check", "SCRIPT", "output", "S", START, END, "--order", "0"), 6),
    (("show",), 1),
    (("show", "SCRIPT"), 2),
    (("show", "SCRIPT", MOMENT), 3),
    *((("show", "SCRIPT", it, QUERY), 2) for it in NO_STAMPS),
    (("show", "SCRIPT", QUERY, MOMENT), 2),
    (("show", "SCRIPT", "noon"), 2),
    (("show", "SCRIPT", "noon", "no query", "x"), 2),
    (("show", "SCRIPT", MOMENT, "no query"), 3),
    (("show", "SCRIPT", MOMENT, "no query", "x"), 3),
    (("show", "SCRIPT", MOMENT, ""), 3),
    (("show", "SCRIPT", MOMENT, QUERY.replace(")", ",")), 3),
    (("show", "SCRIPT", MOMENT, *QUERY.split()), 3),
    (("show", "SCRIPT", MOMENT, QUERY, "x"), 4),
    (("show", "SCRIPT", MOMENT, QUERY, ""), 4),
    (("show", "SCRIPT", MOMENT, QUERY, "--order", "0"), 4),
    (("SHOW", "SCRIPT", MOMENT, QUERY), 0),
    (("gen",), 1),
    *((("gen", it), 1) for it in ("", "x", "8", "11", "50001", "50002", "-10", "+10", "10.0", " 10", "00000000010", "9999999999", "--text")),
    (("gen", "10", "x"), 2),
    (("gen", "10", "--order", "0"), 2),
    (("gen", "10", "--TEXT"), 2),
    (("gen", "10", "--text", "--text"), 3),
    (("gen", "11", "--text"), 1),
]


def stamp(seconds, fraction=b""):
    return b"2024-05-01T%02d:%02d:%02d%sZ" % (seconds // 3600, seconds // 60 % 60, seconds % 60, fraction)


def many(commits):
    """A script with a window from its second third, and its output: each READ takes 1,024 records, and a watermark a microsecond
    below the last of them follows."""
    stamps = [stamp(k // 2) for k in range(commits)]
    script = PREAMBLE + b"".join(insert(b"%d" % k, stamps[k], b"t%d" % k, b"%d" % (k * k), b"n%d" % k) for k in range(commits))
    start, end = stamps[commits // 3].decode(), stamps[2 * commits // 3].decode()
    wanted = [k for k in range(commits) if start.encode() <= stamps[k] <= end.encode()]
    lines = [change(b"%d" % k, stamps[k], b"t%d" % k, b"%d" % (k * k), b"n%d" % k) for k in wanted]
    pages = [b"".join(lines[place: place + 1024]) for place in range(0, len(lines), 1024)]
    marks = [watermark(stamp(wanted[place] // 2 - 1, b".999999").decode()) for place in range(1023, len(wanted), 1024)]
    return script, (start, end), b"".join(page + mark for page, mark in zip(pages, [*marks, b""])) + watermark(end)


GOOD_SCRIPTS = [
    ("without a commit", PREAMBLE, ("2024-05-01T00:00:10Z", "2024-05-01T00:00:20Z"), watermark("2024-05-01T00:00:20Z")),
    ("with the insert at the start", GOOD_SCRIPT, (START, END), GOOD_OUTPUT),
    ("with the insert at the end", GOOD_SCRIPT, ("2024-05-01T00:00:00Z", START), change() + watermark(START)),
    ("with the insert before the start", GOOD_SCRIPT, ("2024-05-01T00:00:02Z", END), watermark(END)),
    ("with the insert behind the end", GOOD_SCRIPT, ("2024-05-01T00:00:00Z", "2024-05-01T00:00:00Z"), watermark("2024-05-01T00:00:00Z")),
    ("with the least texts", PREAMBLE + insert(key=b"0", tx=b"a", a=b"0", b=b""), WINDOW, change(key=b"0", tx=b"a", a=b"0", b=b"") + watermark(END)),
    (
        "with the greatest texts",
        PREAMBLE + insert(key=b"9" * 18, tx=b"Z" * 64, a=b"9" * 18, b=b"~" * 64, at=b"2024-05-01T23:59:59Z"),
        ("2024-05-01T23:59:59Z", "2024-05-01T23:59:59Z"),
        change(key=b"9" * 18, tx=b"Z" * 64, a=b"9" * 18, b=b"~" * 64, at=b"2024-05-01T23:59:59Z") + watermark("2024-05-01T23:59:59Z"),
    ),
    (
        "with two inserts of one stamp",
        PREAMBLE + insert() + insert(key=b"2", tx=b"t2"),
        WINDOW,
        change() + change(key=b"2", tx=b"t2") + watermark(END),
    ),
    (
        "of other days",
        PREAMBLE + insert(at=b"2024-05-01T00:00:00Z") + insert(key=b"2", tx=b"t2", at=b"2025-02-28T12:00:00Z") + insert(key=b"3", tx=b"t3", at=b"9999-12-31T23:59:59Z"),
        ("2025-02-28T11:59:59.9Z", "2025-03-01T11:59:59.900000Z"),
        change(key=b"2", tx=b"t2", at=b"2025-02-28T12:00:00Z") + watermark("2025-03-01T11:59:59.900000Z"),
    ),
    ("with a window that ends within a second", GOOD_SCRIPT, ("2024-05-01T00:00:01.000001Z", "2024-05-02T00:00:01.000001Z"), watermark("2024-05-02T00:00:01.000001Z")),
    ("with letters of any alphabet", PREAMBLE + insert(b="\u00e9\U0001f600".encode()), WINDOW, change(b="\u00e9\U0001f600".encode()) + watermark(END)),
    ("of 10,000 commits", *many(10000)),
    ("with a text of signs", PREAMBLE + insert(b=b" !#$%&'()*+,-./:;<=>?@[]^_`{|}~"), WINDOW, change(b=b" !#$%&'()*+,-./:;<=>?@[]^_`{|}~") + watermark(END)),
]

# what the program answers that runs the libraries
MEASURED = [
    (["commit", "3000"], b"commit 3000: 3000 modifications\n"),
    (["audit", "3000"], b"audit 3000: 3000 changes, 3001 lines, Complete\n"),
    (["fill"], b"fill: 2048 modifications, RowTooLarge at one byte more, HistoryFull at one row more\n"),
]
