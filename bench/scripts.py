"""Scripts that grow in one thing each, as bytes made by a number."""
import json
import random

DAY = "2024-05-01T"
SECONDS = 80000
PARTS = 65536
TABLE = "CREATE TABLE T (K INT64 NOT NULL, A INT64, B STRING(MAX)) PRIMARY KEY (K)"


def line(micros, **action):
    """A line at so many microseconds into the day."""
    second, fraction = divmod(micros, 10 ** 6)
    at = "%s%02d:%02d:%02d%sZ" % (DAY, second // 3600, second // 60 % 60, second % 60, ".%06d" % fraction if fraction else "")
    return json.dumps({"at": at, **action}, separators=(",", ":")) + "\n"


def ddl(text):
    return line(0, ddl=text)


PREAMBLE = ddl(TABLE) + ddl("CREATE CHANGE STREAM S FOR T")


def spread(k, count):
    """The moment of the k-th of so many things, over the day, in microseconds."""
    return 10 ** 6 + k * SECONDS * 10 ** 6 // max(count, 1)


def commit(micros, tx, *writes):
    return line(micros, commit={"id": tx, "writes": list(writes)})


def insert(key, number, table="T"):
    return {"insert": table, "key": {"K": str(key)}, "set": {"A": str(number % 1000), "B": f"n{number}"}}


def inserts(count):
    """One insert a commit."""
    for k in range(count):
        yield commit(spread(k, count) // 10 ** 6 * 10 ** 6, f"t{k}", insert(k, k))


def replay(count):
    yield PREAMBLE
    yield from inserts(count)


def one_row(count):
    """One row that is written again and again."""
    yield PREAMBLE
    yield commit(0, "t", insert(0, 0))
    for k in range(count):
        yield commit(spread(k, count), f"t{k}", {"update": "T", "key": {"K": "0"}, "set": {"B": f"n{k}"}})


def many_writes(count):
    """Commits of 1,024 writes."""
    yield PREAMBLE
    for k in range(0, count, 1024):
        yield commit(spread(k, count), f"t{k}", *(insert(it, it) for it in range(k, k + 1024)))


def one_stamp(count):
    """1,024 commits of each stamp."""
    yield PREAMBLE
    for k in range(count):
        yield commit(spread(k // 1024 * 1024, count), f"t{k}", insert(k, k))


def many_tables(count):
    """So many tables, and a commit in each."""
    for k in range(count):
        yield ddl(f"CREATE TABLE T{k} (K INT64 NOT NULL, A INT64, B STRING(MAX)) PRIMARY KEY (K)")
    yield ddl("CREATE CHANGE STREAM S FOR ALL")
    for k in range(count):
        yield commit(spread(k, count), f"t{k}", insert(k, k, f"T{k * 7919 % count}"))


def many_streams(count):
    """Ten streams, three over each column, with many reshapes each, and commits between them."""
    for k in range(10):
        yield ddl(f"CREATE TABLE T{k} (K INT64 NOT NULL, A INT64, B STRING(MAX)) PRIMARY KEY (K)")
    yield ddl("CREATE CHANGE STREAM S FOR ALL")
    for k in range(9):
        yield ddl(f"CREATE CHANGE STREAM S{k} FOR " + ", ".join(f"T{it}" for it in range(k, 10, 5)))
    for k in range(count):
        at = spread(k, count)
        if k % 10 == 0:
            step = k // 10
            stream, part = f"S{step % 9}", step // 9 * 2
            table = f"T{step % 9 % 5}"
            yield line(at, reshape={"borders": [{"key": {"K": str(step)}, "table": table}], "parts": [f"{stream}-{part:05}"], "stream": stream})
        yield commit(at, f"t{k}", insert(k, k, f"T{k % 10}"))


def reshapes(count):
    """Splits of any of the live parts, and a commit behind each."""
    pick = random.Random(1)
    live, parts = [(0, 0, 2 ** 60)], 1
    yield PREAMBLE
    for k in range(count):
        place = pick.randrange(len(live))
        number, low, high = live[place]
        border = (low + high) // 2
        if low < border:
            live[place] = (parts, low, border)
            live.append((parts + 1, border, high))
            parts += 2
            yield line(spread(k, count), reshape={"borders": [{"key": {"K": str(border)}, "table": "T"}], "parts": [f"S-{number:05}"], "stream": "S"})
        yield commit(spread(k, count), f"t{k}", insert(pick.randrange(2 ** 60), k))


def split(splits, ways, count):
    """The first so many partitions split each into as many as `ways`, before all commits, and commits behind them."""
    yield PREAMBLE
    ranges = [(0, 2 ** 60)]
    for k in range(splits):
        low, width = ranges[k][0], ranges[k][1] // ways
        ranges += [(low + width * it, width) for it in range(ways)]
        borders = [{"key": {"K": str(low + width * it)}, "table": "T"} for it in range(1, ways)]
        yield line(1 + k, reshape={"borders": borders, "parts": [f"S-{k:05}"], "stream": "S"})
    for k in range(count):
        yield commit(spread(k, count), f"t{k}", insert((k * 7919 * 2 ** 40 + k) % 2 ** 60, k))


def many_parts(count):
    """As many partitions as a stream may have, the ended ones counted, and commits behind them."""
    yield from split(PARTS // 64 - 1, 64, count)


def nine_parts(count):
    """One partition that becomes eight, and commits behind them."""
    yield from split(1, 8, count)


def live_parts(count):
    """4,096 partitions that are live together, 65 that have ended before, and commits behind them."""
    yield from split(65, 64, count)


def chain(count):
    """A partition that goes on in another one again and again, and a commit in each."""
    yield PREAMBLE
    for k in range(count):
        yield line(spread(k, count), reshape={"borders": [], "parts": [f"S-{k:05}"], "stream": "S"})
        yield commit(spread(k, count), f"t{k}", insert(k, k))


# the row's name, the script, and its sizes; the main one comes first
SCRIPTS = [
    ("replay", replay, None),
    ("one row", one_row, (25000, 200000)),
    ("1,024 writes", many_writes, (51200, 409600)),
    ("one stamp", one_stamp, (40960, 327680)),
    ("tables", many_tables, (5000, 40000)),
    ("streams", many_streams, (25000, 200000)),
    ("reshapes", reshapes, (3750, 30000)),
    ("9 parts", nine_parts, (50000, 400000)),
    ("4,096 parts", live_parts, (50000, 400000)),
    ("65,473 parts", many_parts, (25000, 200000)),
    ("chain", chain, (2500, 20000)),
]
