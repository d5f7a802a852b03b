"""What a script means: its lines one after another, and of the first bad one its number and its cause."""
import json
import re

from . import sql
from .catalog import Catalog
from .history import History, Write
from .layouts import Layout
from .refusal import Refusal, within
from .texts import read_stamp, read_value, table_place, value_place

LONGEST = 67108864
MOST_WRITES = 1024
DEEPEST = 127
ID = re.compile(r"[!#-&(-\[\]-~]{1,64}")
TOKEN = re.compile(r"[!#-&(-\[\]-~]{1,1024}")
ACTIONS = ("ddl", "commit", "reshape")
KINDS = ("insert", "update", "delete")
STRING_OR_BRACKET = re.compile(r'"(?:[^"\\]|\\.)*"|[\[\]{}]', re.S)
SURROGATE = re.compile(r"\\u[dD][89a-fA-F]")


class BadScript(Exception):
    """Its line, or 0 for a script that is too long, and the words of the cause."""

    def __init__(self, line, cause):
        super().__init__(line, cause)
        self.line = line
        self.cause = cause


def depth(text):
    now = most = 0
    for found in STRING_OR_BRACKET.finditer(text):
        now += {"[": 1, "{": 1, "]": -1, "}": -1}.get(found[0], 0)
        most = max(most, now)
    return most


def whole(text):
    """A number without fraction and exponent; past 64 bits, and as minus zero, it is none that the tree holds as whole."""
    number = int(text) if len(text) < 30 else None
    if number is None or text == "-0" or not -2 ** 63 <= number < 2 ** 64:
        return real(text)
    return number


def real(text):
    number = float(text)
    if number in (float("inf"), float("-inf")):
        raise ValueError("beyond a double")
    return number


def members(pairs):
    """The members of an object, in the order of their names; of two of one name the last."""
    return dict(sorted(dict(pairs).items()))


def refuse_lone_surrogates(text):
    if SURROGATE.search(text):
        for found in STRING_OR_BRACKET.finditer(text):
            if found[0].startswith('"'):
                json.loads(found[0]).encode()


def refuse_constant(text):
    raise ValueError(text)


def read_tree(line):
    try:
        text = line.decode()
        if depth(text) > DEEPEST:
            raise Refusal("NotJson")
        tree = json.loads(text, object_pairs_hook=members, parse_int=whole, parse_float=real, parse_constant=refuse_constant)
        refuse_lone_surrogates(text)
    except (ValueError, RecursionError):
        raise Refusal("NotJson") from None
    if not isinstance(tree, dict):
        raise Refusal("NotJson")
    return tree


def member(tree, name, kind):
    if not isinstance(tree.get(name), kind):
        raise Refusal("Member", name)
    return tree[name]


def no_others(tree, known):
    for name in tree:
        if name not in known:
            raise Refusal("Member", name)


def the_one_of(tree, names):
    """The first of the names that stands; where none does, the first of them is what is missing."""
    found = next((it for it in names if it in tree), None)
    if found is None:
        raise Refusal("Member", names[0])
    return found


def check_commit(tree):
    if not ID.fullmatch(member(tree, "id", str)):
        raise Refusal("Member", "id")
    if "tag" in tree and len(member(tree, "tag", str).encode()) > 64:
        raise Refusal("Member", "tag")
    writes = member(tree, "writes", list)
    if not writes or not all(isinstance(it, dict) for it in writes):
        raise Refusal("Member", "writes")
    for write in writes:
        kind = the_one_of(write, KINDS)
        member(write, kind, str)
        member(write, "key", dict)
        if kind != "delete":
            member(write, "set", dict)
        no_others(write, (kind, "key") if kind == "delete" else (kind, "key", "set"))
    no_others(tree, ("id", "tag", "writes"))


def check_reshape(tree):
    member(tree, "stream", str)
    if not all(isinstance(it, str) and TOKEN.fullmatch(it) for it in member(tree, "parts", list)):
        raise Refusal("Member", "parts")
    borders = member(tree, "borders", list)
    if not all(isinstance(it, dict) for it in borders):
        raise Refusal("Member", "borders")
    for border in borders:
        member(border, "table", str)
        if "key" in border:
            member(border, "key", dict)
        no_others(border, ("table", "key"))
    no_others(tree, ("stream", "parts", "borders"))


def check_members(tree):
    """The name of the line's one action."""
    commit = tree.get("commit")
    if isinstance(commit, dict) and ("system" in commit or "excluded" in commit):
        raise Refusal("NotBuilt")
    member(tree, "at", str)
    action = the_one_of(tree, ACTIONS)
    content = member(tree, action, str if action == "ddl" else dict)
    if action == "commit":
        check_commit(content)
    if action == "reshape":
        check_reshape(content)
    no_others(tree, ("at", action))
    return action


class State:
    """The database after some lines."""

    def __init__(self):
        self.catalog = Catalog()
        self.history = History()
        self.layouts = {}
        self.last = 0
        self.last_commit = 0
        self.writes_at_last = 0

    def line(self, line):
        """Takes one line without its end; a refusal leaves the state as it was."""
        if line == b"" or line.startswith(b"#"):
            return
        tree = read_tree(line)
        action = check_members(tree)
        at = within("Stamp", read_stamp, tree["at"])
        if at < self.last or (action != "commit" and 0 < self.last_commit and at <= self.last_commit):
            raise Refusal("Order")
        {"ddl": self.ddl, "commit": self.commit, "reshape": self.reshape}[action](at, tree[action])
        self.last = at

    def ddl(self, at, text):
        statement = within("Syntax", sql.parse, text)
        within("Schema", self.catalog.apply, at, statement)
        if statement[0] == "CreateStream":
            self.layouts[statement[1]] = Layout(statement[1], at)

    def check_cells(self, table, key, cells):
        table = self.catalog.tables[table]
        for name in [*key, *cells]:
            if name not in table.columns:
                raise Refusal("NoColumn", name)
        if set(key) != set(table.key):
            raise Refusal("NoColumn", next(it for it in [*key, *table.key] if (it in key) != (it in table.key)))

    def cells(self, table, tree):
        columns = self.catalog.tables[table].columns
        return {name: within("Value", read_value, value, columns[name][0]) for name, value in tree.items()}

    def check_tables(self, named):
        for table in named:
            if table not in self.catalog.tables:
                raise Refusal("NoTable", table)

    def commit(self, at, tree):
        writes = [(kind, it[kind], it["key"], it.get("set", {})) for it in tree["writes"] for kind in KINDS if kind in it]
        self.check_tables(table for _, table, _, _ in writes)
        for _, table, key, cells in writes:
            self.check_cells(table, key, cells)
        writes = [Write(kind.upper(), table, self.cells(table, key), self.cells(table, cells)) for kind, table, key, cells in writes]
        there = self.writes_at_last if at == self.last_commit else 0
        if there + len(writes) > MOST_WRITES:
            raise Refusal("TooManyAtStamp")
        within("Txn", self.history.commit, self.catalog.tables, at, tree["id"], writes, tree.get("tag", ""))
        self.last_commit, self.writes_at_last = at, there + len(writes)

    def reshape(self, at, tree):
        if tree["stream"] not in self.catalog.streams:
            raise Refusal("NoTable", tree["stream"])
        self.check_tables(it["table"] for it in tree["borders"])
        for border in tree["borders"]:
            if "key" in border:
                self.check_cells(border["table"], border["key"], {})
        borders = [self.place(it) for it in tree["borders"]]
        within("Layout", self.layouts[tree["stream"]].reshape, at, tree["parts"], borders)

    def place(self, border):
        return self.row_place(border["table"], self.cells(border["table"], border.get("key", {})))

    def row_place(self, table, cells):
        """The place of the row that has these cells as its key; of none, the table's."""
        columns = self.catalog.tables[table].columns
        return table_place(table) + b"".join(value_place(cells[it], columns[it][0]) for it in sorted(cells))


def lines_of(data):
    """The lines without their ends; behind the last line feed there is a line where there are bytes."""
    *lines, rest = data.split(b"\n")
    lines = [it[:-1] if it.endswith(b"\r") else it for it in lines]
    return lines + [rest] if rest else lines


def load(data):
    """The state of a script's lines."""
    state = State()
    too_long = len(data) > LONGEST
    if too_long:
        data = data[: data.rfind(b"\n", 0, LONGEST) + 1]
    for number, line in enumerate(lines_of(data), 1):
        try:
            state.line(line)
        except Refusal as cause:
            raise BadScript(number, cause.words()) from None
    if too_long:
        raise BadScript(0, "TooLong")
    return state
