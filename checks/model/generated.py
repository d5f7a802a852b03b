"""The script that `gen N --text` prints."""
from .texts import compact, read_stamp, write_stamp

START = "2024-05-01T00:00:00Z"
END = "2024-05-01T22:13:20Z"
STREAM = "G"
T0 = read_stamp(START)
STATEMENTS = (
    "CREATE TABLE Singers (Id INT64 NOT NULL, Name STRING(MAX), Note STRING(MAX)) PRIMARY KEY (Id)",
    "CREATE TABLE Albums (Id INT64 NOT NULL, Title STRING(MAX), Note STRING(MAX)) PRIMARY KEY (Id)",
    "CREATE CHANGE STREAM G FOR Singers, Albums(Title)",
)
RESHAPES = (
    (10000, ["G-00000"], [{"table": "Singers"}]),
    (20000, ["G-00002"], [{"key": {"Id": "250"}, "table": "Singers"}]),
    (30000, ["G-00001"], [{"key": {"Id": "250"}, "table": "Albums"}]),
    (40000, ["G-00006", "G-00003"], []),
    (50000, ["G-00007", "G-00004"], []),
)


def write_of(i):
    table, title = ("Singers", "Name") if i % 500 % 2 == 0 else ("Albums", "Title")
    key = {"Id": str(i % 500)}
    part = i // 500 % 4
    if part == 3:
        return {"delete": table, "key": key}
    column = title if part < 2 else "Note"
    write = {"insert" if part == 0 else "update": table, "key": key, "set": {column: f"n{i}"}}
    return dict(sorted(write.items()))


def script_of(commits):
    unit = 80000 * 10 ** 6 // commits
    lines = [(T0, 0, {"ddl": it}) for it in STATEMENTS]
    lines += [(T0 + second * 10 ** 6, 0, {"reshape": {"borders": borders, "parts": parts, "stream": STREAM}}) for second, parts, borders in RESHAPES]
    lines += [(T0 + (i // 2 + 1) * 2 * unit, 1, {"commit": {"id": f"t{i}", "writes": [write_of(i)]}}) for i in range(commits)]
    lines.sort(key=lambda it: it[:2])
    return "".join(compact({"at": write_stamp(at)} | action) + "\n" for at, _, action in lines).encode()
