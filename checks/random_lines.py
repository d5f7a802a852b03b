"""Lines of a script, made at random: most of them fit the database as it is, some are wrong on purpose."""
import copy
import json

from model.refusal import Refusal
from model.script import State
from model.texts import table_place, tree_of, write_stamp

NAMES = ["T", "U", "t", "Singers", "Albums", "a_1", "null", "x" * 128]
STREAMS = ["S", "R", "T", "G", "s1", "all"]
COLUMNS = ["K", "A", "B", "a", "Id", "Name", "not", "Z9", "c_c"]
TYPES = ["BOOL", "INT64", "INT64", "NUMERIC", "DATE", "TIMESTAMP", "STRING(MAX)", "STRING(3)", "STRING(1)", "BYTES(MAX)", "BYTES(2)", "string( 20 )"]
CAPTURES = ["OLD_AND_NEW_VALUES", "NEW_VALUES", "NEW_ROW", "NEW_ROW_AND_OLD_VALUES"]
OPTIONS = [
    *(f"value_capture_type = '{it}'" for it in CAPTURES * 3), "value_capture_type = NULL", "value_capture_type='new_row'", 'retention_period = "7d"',
    "retention_period = '36h'", "retention_period = '024h'", "retention_period = null", "retention_period='0d'", "retention_period = '169h'", "retention_period = true",
    "exclude_insert = TRUE", "allow_txn_exclusion = FALSE", "colour = 'red'",
]
GOOD = {
    "BOOL": [True, False],
    "INT64": ["0", "1", "2", "3", "-1", 4, 5, -6, "007", "-0", "9223372036854775807", "-9223372036854775808", -2 ** 63, 2 ** 63 - 1],
    "NUMERIC": ["0", "-0.50", "1.000000000", "007.5", "-0.0", "99999999999999999999999999999.999999999", "-0.000000001", "12.0000000000"],
    "STRING": ["", "a", "b", "\u00e9", "\U0001f600", "a\u0000b", "\"\\/", "\n\t\u007f", "xyz", "\u0001\u001f", "\u2028"],
    "BYTES": ["", "AA==", "AP8=", "/+8=", "AAA="],
    "DATE": ["2024-02-29", "0001-01-01", "9999-12-31", "1970-01-01", "1969-12-31"],
    "TIMESTAMP": ["2024-05-01T00:00:00Z", "2024-05-01T00:00:00.5Z", "0001-01-01T00:00:00Z", "9999-12-31T23:59:59.999999000Z", "1969-12-31T23:59:59.999999Z"],
}
BAD = {
    "BOOL": ["true", 0, []],
    "INT64": ["9223372036854775808", 2 ** 63, 2 ** 64, "x", "", "+1", " 1", 1.5, 1e3, True, "1" * 65, {}],
    "NUMERIC": ["1.", ".5", "0.0000000001", "100000000000000000000000000000", 5, "1e3", "1" * 65],
    "STRING": [5, True, ["a"]],
    "BYTES": ["AP8", "AP9=", "A", "AA", "_-8=", "AA==\n", 1],
    "DATE": ["2023-02-29", "2024-2-9", "0000-01-01", "2024-13-01", "2024-05-01 ", 7],
    "TIMESTAMP": ["2024-05-01T00:00:00.0000001Z", "2024-05-01T00:00:60Z", "2024-05-01", "2024-05-01t00:00:00Z", "0000-05-01T00:00:00Z", 7],
}
JUNK = [None, True, 0, -1, 1.5, "", "x", [], {}, ["x"], {"a": 1}, [[]], "\U0001f600", 1e300]
NO_JSON = [b"x", b"[]", b"{", b'{"at":1e999}', b'{"\\ud800":1}', b"\xff", b" ", b"{}x", b'{"a":' + b"[" * 127 + b"]" * 127 + b"}", b"nul", b"\r", b'{"at":NaN}']
BAD_STAMPS = ["noon", "", "2024-05-01", "2024-05-01 00:00:00Z", "2024-02-30T00:00:00Z", "2024-05-01T24:00:00Z", "1970-01-01T00:00:00Z", "2999-01-01T00:00:00.0000001Z", "9999-12-31T23:59:59.9999999Z"]
BEGIN = 1714521600000000


class Maker:
    """It makes lines that fit its state, which takes each line that the script keeps."""

    def __init__(self, rng):
        self.rng = rng
        self.state = State()
        self.at = BEGIN
        self.ids = 0
        self.moments = [BEGIN]
        self.is_wrong = False

    def cause(self, line):
        """Takes the line; where it is refused, the words of the cause."""
        try:
            self.state.line(line)
        except Refusal as cause:
            return cause.words()
        self.at = max(self.at, self.state.last)
        self.moments.append(self.at)
        return None

    def cause_apart(self, line):
        """The cause with which the line would be refused, if any, without taking it."""
        kept = copy.deepcopy(self.state)
        cause = None
        try:
            self.state.line(line)
            self.state = kept
        except Refusal as found:
            cause = found.words()
        return cause

    def is_rare(self, times=30):
        """One time in so many; in a line that should be wrong, far more often."""
        return self.rng.randrange(3 if self.is_wrong and times >= 20 else times) == 0

    def pick(self, things):
        return self.rng.choice(list(things))

    def line(self, is_wrong=False):
        self.is_wrong = is_wrong and self.rng.randrange(2) == 0
        roll = self.rng.randrange(100)
        if roll < 4:
            return self.pick([b"", b"#", b"# a comment", b"#\xff\x00", b"#{}"])
        if roll < 5:
            return self.pick(NO_JSON)
        tree = {"at": self.stamp()}
        tables, streams = self.state.catalog.tables, self.state.catalog.streams
        if roll < 12 or not tables:
            tree["ddl"] = self.spaced(self.create_table() if self.is_rare(2) or not tables else self.add_column())
        elif roll < 18 or not streams:
            tree["ddl"] = self.spaced(self.create_stream())
        elif roll < 20:
            tree["ddl"] = self.spaced(self.pick(["DROP CHANGE STREAM S", "ALTER CHANGE STREAM S SET FOR ALL", "DROP TABLE T", "CREATE STREAM S", "ALTER TABLE T ADD COLUMN", ""]))
        elif roll < 34:
            tree["reshape"] = self.reshape()
        else:
            tree["commit"] = self.commit()
        if self.is_rare(25) and self.rng.randrange(3) == 0:
            self.spoil(tree)
        return self.spelled(tree).encode()

    def stamp(self):
        if self.is_rare(60):
            return self.pick(BAD_STAMPS)
        step = self.pick([0, 0, 0, 0, 1, 1, 999999, 10 ** 6, 10 ** 6, 3 * 10 ** 6, 3600 * 10 ** 6])
        if self.is_rare(40):
            step = -1 - self.rng.randrange(3 * 10 ** 6)
        text = write_stamp(self.at + step)
        if self.is_rare(6):
            text = text[:-1] + ("000Z" if "." in text else self.pick([".0Z", ".000000000Z"]))
        return text

    # statements

    def name(self, names):
        name = self.pick(names)
        return f"`{name}`" if name.upper() in ("ALL", "NOT", "NULL") and not self.is_rare() or self.is_rare(5) else name

    def spaced(self, text):
        """The statement in other letters and blanks, and now and then spoilt."""
        if self.is_rare(3):
            for word in ("CREATE", "TABLE", "CHANGE", "STREAM", "PRIMARY", "KEY", "ALTER", "COLUMN", "FOR", "OPTIONS"):
                text = text.replace(word + " ", self.pick([word.lower(), word.title()]) + self.pick([" ", "\t", "\n ", "  "]))
        if self.is_rare(5):
            text += self.pick([";", " ;", " ", ";;", " x", "\r\n"])
        if self.is_rare(40) and text:
            place = self.rng.randrange(len(text))
            text = text[:place] + self.pick(["", " ", "'", "1", "\\", ",", ")", "\u00e9"]) + text[place + 1:]
        return text

    def create_table(self):
        names = self.rng.sample(COLUMNS, self.rng.randrange(1, 7))
        if self.is_rare():
            names.append(self.pick(COLUMNS))
        columns = [f"{self.quoted(it)} {self.pick(TYPES)}{self.pick(['', '', '', ' NOT NULL'])}" for it in names]
        key = self.rng.sample(names, min(len(names), self.pick([1, 1, 1, 2, 3])))
        if self.is_rare():
            key.append(self.pick(COLUMNS))
        if self.is_rare(60):
            columns.append(f"Y {self.pick(['STRING(0)', 'BYTES(10485761)', 'STRING(2621441)', 'BYTES(-1)', 'FLOAT64'])}")
        ends = self.pick(["", ","])
        return f"CREATE TABLE {self.name(NAMES)} ({', '.join(columns)}{ends}) PRIMARY KEY ({', '.join(self.quoted(it) + self.pick(['', ' ASC']) for it in key)})"

    def quoted(self, name):
        return f"`{name}`" if name == "not" or self.is_rare(6) else name

    def add_column(self):
        return f"ALTER TABLE {self.name(self.some_table())} ADD COLUMN {self.quoted(self.pick(COLUMNS))} {self.pick(TYPES)}"

    def some_table(self):
        return NAMES if self.is_rare() else list(self.state.catalog.tables) or NAMES

    def create_stream(self):
        text = f"CREATE CHANGE STREAM {self.name(STREAMS)}"
        roll = self.rng.randrange(10)
        if roll < 3:
            text += " FOR ALL"
        elif roll < 9:
            tables = self.rng.sample(list(self.state.catalog.tables) or NAMES, min(len(self.state.catalog.tables) or 1, self.pick([1, 1, 2, 3])))
            text += " FOR " + ", ".join(self.item(it) for it in tables + ([self.pick(NAMES)] if self.is_rare() else []))
        options = self.rng.sample(OPTIONS, self.pick([0, 0, 1, 1, 1, 2]))
        return text + (f" OPTIONS ({', '.join(options)})" if options else "")

    def item(self, table):
        quoted = f"`{table}`"
        if self.is_rare(2):
            return quoted
        there = self.state.catalog.tables.get(table)
        others = there.others() if there and not self.is_rare(20) else COLUMNS
        return f"{quoted}({', '.join(f'`{it}`' for it in self.rng.sample(others, self.rng.randrange(len(others) + 1)))})"

    # commits

    def cells(self, table, names):
        return {it: self.cell(table.columns[it]) if it in table.columns else self.pick(JUNK) for it in names}

    def cell(self, column):
        code, length, not_null = column
        if self.is_rare(60):
            return self.pick(BAD[code] + [None])
        if self.is_rare(5) and not not_null:
            return None
        fitting = [it for it in GOOD[code] if code not in ("STRING", "BYTES") or length is None or len(it) <= (length if code == "STRING" else 4)]
        return self.pick(fitting)

    def write(self):
        name = self.pick(self.some_table())
        table = self.state.catalog.tables.get(name)
        if table is None:
            return {"insert": name, "key": {"K": "1"}, "set": {}}
        there = [values for (it, values), cells in self.state.history.rows.items() if it == name and cells is not None]
        kind = self.pick(["insert", "insert", "update", "update", "update", "delete"]) if there else "insert"
        others = self.rng.sample(table.others(), self.rng.randrange(len(table.others()) + 1))
        others += [it for it in table.others() if it not in others and table.columns[it][2] and kind == "insert"]
        if self.is_rare(60):
            others.append(self.pick(COLUMNS))
        write = {kind: name, "key": self.cells(table, table.key)}
        if kind != "insert" and not self.is_rare(20):
            write["key"] = self.key_of(table, self.pick(there))
        if self.is_rare(60):
            write["key"][self.pick(COLUMNS)] = "1"
        return write if kind == "delete" else write | {"set": self.cells(table, others)}

    def key_of(self, table, values):
        return {name: tree_of(value, table.code(name)) for name, value in values}

    def commit(self):
        self.ids += 1
        tx = f"t{self.ids}" if not self.is_rare(40) else self.pick(["t1", "~!#" * 21, "a" * 65, "", "\u00e9"])
        writes = [self.write() for _ in range(self.pick([1, 1, 1, 2, 2, 3, 5]))]
        if self.is_rare(150):
            writes = writes * self.pick([2, 600])
        commit = {"id": tx, "writes": writes}
        if self.is_rare(4):
            commit["tag"] = self.pick(["", "app", "\u00e9" * 32, "x" * 64]) if not self.is_rare(10) else "x" * 65
        return commit

    # reshapes

    def border(self):
        name = self.pick(self.some_table())
        table = self.state.catalog.tables.get(name)
        if table is None or self.is_rare(3):
            return {"table": name}
        return {"table": name, "key": self.cells(table, table.key)}

    def reshape(self):
        streams = list(self.state.catalog.streams) or STREAMS
        stream = self.pick(streams if not self.is_rare() else STREAMS)
        layout = self.state.layouts.get(stream)
        if layout is None:
            return {"stream": stream, "parts": [f"{stream}-00000"], "borders": []}
        live = sorted((it for it in layout.parts if it.until is None), key=lambda it: it.low)
        first = self.rng.randrange(len(live))
        parts = live[first: first + self.pick([1, 1, 1, 2, 2, 3])]
        if self.is_rare(20):
            self.rng.shuffle(parts)
        if self.is_rare(20):
            parts = parts + [self.pick(layout.parts)]
        tokens = [it.token for it in parts] + ([self.pick(["S-99999", "x"])] if self.is_rare(60) else [])
        borders = [self.border() for _ in range(self.pick([0, 1, 1, 2, 3, 8]))]
        if not self.is_rare(8):
            borders = self.in_order(borders, parts)
        return {"stream": stream, "parts": tokens, "borders": borders}

    def in_order(self, borders, parts):
        """Those that lie within the parts, rising, as far as their texts can be read."""
        placed = {}
        for it in borders:
            try:
                placed[self.state.place(it)] = it
            except (Refusal, KeyError):
                # a border that is wrong is left at its table's place
                placed[table_place(it["table"])] = it
        low, high = parts[0].low, parts[-1].high
        return [placed[it] for it in sorted(placed) if low < it and (high is None or it < high)]

    # wrong and other spellings

    def spoil(self, tree):
        """One member somewhere is left out, given another value, or added."""
        objects = []

        def walk(it):
            if isinstance(it, dict):
                objects.append(it)
            for inner in it.values() if isinstance(it, dict) else it if isinstance(it, list) else ():
                walk(inner)

        walk(tree)
        it = self.pick(objects)
        roll = self.rng.randrange(4)
        if roll == 0 and it:
            del it[self.pick(it)]
        elif roll == 1 and it:
            it[self.pick(it)] = copy.deepcopy(self.pick(JUNK))
        else:
            it[self.pick(["at", "ddl", "commit", "reshape", "insert", "update", "delete", "set", "key", "tag", "system", "excluded", "colour", "table", ""])] = copy.deepcopy(self.pick(JUNK))

    def spelled(self, tree):
        """A JSON text of the tree: members in any order and now and then twice, with blanks and escapes."""
        blank = self.pick(["", "", "", " ", "\t"])
        if isinstance(tree, dict):
            items = list(tree.items())
            self.rng.shuffle(items)
            parts = []
            for name, value in items:
                if self.is_rare(60):
                    parts.append(f"{self.spelled(name)}:{self.spelled(self.pick(JUNK))}")
                parts.append(f"{self.spelled(name)}{blank}:{blank}{self.spelled(value)}")
            return "{" + blank + f"{blank},{blank}".join(parts) + "}"
        if isinstance(tree, list):
            return "[" + f"{blank},".join(self.spelled(it) for it in tree) + blank + "]"
        if isinstance(tree, str):
            text = json.dumps(tree, ensure_ascii=self.is_rare(3))
            if len(tree) > 1 and self.is_rare(20) and tree[0].isalnum():
                text = f'"\\u{ord(tree[0]):04X}' + text[2:] if ord(tree[0]) < 128 else text
            return text
        return json.dumps(tree)
