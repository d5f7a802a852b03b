"""The lines that scripts and outputs of the checks are made of."""
import json

TABLE = "CREATE TABLE T (K INT64 NOT NULL, A INT64, B STRING(MAX)) PRIMARY KEY (K)"
STREAM = "CREATE CHANGE STREAM S FOR T"


def compact(tree):
    return json.dumps(tree, ensure_ascii=False, separators=(",", ":"))


def at(seconds):
    """A stamp so many seconds into the first of May 2024."""
    return "2024-05-01T%02d:%02d:%02dZ" % (seconds // 3600, seconds // 60 % 60, seconds % 60)


def line(seconds, **action):
    """A line of a script at so many seconds, or at a stamp's text."""
    stamp = at(seconds) if isinstance(seconds, int) else seconds
    return compact({"at": stamp, **action}).encode() + b"\n"


def ddl(text, seconds=0):
    return line(seconds, ddl=text)


def commit(seconds, tx, *writes, **others):
    return line(seconds, commit={"id": tx, "writes": list(writes), **others})


def insert(key, table="T", **cells):
    return {"insert": table, "key": {"K": str(key)}, "set": cells}


def update(key, table="T", **cells):
    return {"update": table, "key": {"K": str(key)}, "set": cells}


def delete(key, table="T"):
    return {"delete": table, "key": {"K": str(key)}}


def border(key, table="T"):
    return {"key": {"K": str(key)}, "table": table}


def reshape(seconds, parts, borders=(), stream="S"):
    """Parts by their numbers."""
    tokens = [f"{stream}-{it:05}" for it in parts]
    return line(seconds, reshape={"borders": list(borders), "parts": tokens, "stream": stream})


PREAMBLE = ddl(TABLE) + ddl(STREAM)


def change(kind, key, seconds, tx, new=None, old=None, table="T"):
    """A change line of the output."""
    members = {"key": {"K": str(key)}, "kind": kind, "new": new or {}, "old": old or {}, "stamp": at(seconds), "table": table, "tx": tx}
    return compact(members).encode() + b"\n"


def watermark(seconds):
    stamp = at(seconds) if isinstance(seconds, int) else seconds
    return compact({"watermark": stamp}).encode() + b"\n"
