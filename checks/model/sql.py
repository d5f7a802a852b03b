"""The statements of a script, and the query that reads a change stream. A text outside of the grammar is refused with the
byte of the first token with which no text of the grammar goes on."""
import re

from .refusal import Refusal

BLANKS = re.compile(rb"[ \t\r\n]*")
WORD = re.compile(rb"[A-Za-z][A-Za-z0-9_]*")
QUOTED = re.compile(rb"`([A-Za-z][A-Za-z0-9_]*)`")
NUMBER = re.compile(rb"-?[0-9]+")
TEXT = re.compile(rb"'([^'\\\r\n]*)'|\"([^\"\\\r\n]*)\"")
SIGN = re.compile(rb"=>|[(),;=]")
RESERVED = {"ALL", "ASC", "FALSE", "FOR", "NOT", "NULL", "TRUE"}
LONGEST_NAME = 128
LONGEST_FUNCTION = 133
POSITIONAL = ("start_timestamp", "end_timestamp", "partition_token", "heartbeat_milliseconds", "read_options")
PLAIN_TYPES = ("BOOL", "INT64", "NUMERIC", "DATE", "TIMESTAMP")
SIZED_TYPES = ("STRING", "BYTES")


class Cursor:
    """The token that comes next: its kind, its text, and where it begins."""

    def __init__(self, text):
        self.data = text.encode()
        self.end = 0
        self.step()

    def step(self):
        self.place = BLANKS.match(self.data, self.end).end()
        self.kind, self.text, self.end = self.token()

    def token(self):
        at = self.place
        if at == len(self.data):
            return "end", "", at
        if found := WORD.match(self.data, at):
            return "word", found[0].decode(), found.end()
        if found := QUOTED.match(self.data, at):
            return "quoted", found[1].decode(), found.end()
        if found := NUMBER.match(self.data, at):
            return ("number" if len(found[0].lstrip(b"-")) <= 19 else "bad"), found[0].decode(), found.end()
        if found := TEXT.match(self.data, at):
            return "text", (found[1] if found[1] is not None else found[2]).decode(), found.end()
        if found := SIGN.match(self.data, at):
            return "sign", found[0].decode(), found.end()
        return "bad", "", at

    def fail(self):
        raise Refusal("At", self.place)

    def take(self):
        text = self.text
        self.step()
        return text

    def is_word(self, *words):
        return self.kind == "word" and self.text.upper() in words

    def is_sign(self, sign):
        return self.kind == "sign" and self.text == sign

    def words(self, *words):
        for word in words:
            if not self.is_word(word):
                self.fail()
            self.step()

    def sign(self, sign):
        if not self.is_sign(sign):
            self.fail()
        self.step()

    def had_sign(self, sign):
        if self.is_sign(sign):
            self.step()
            return True
        return False

    def had_word(self, word):
        if self.is_word(word):
            self.step()
            return True
        return False

    def name(self, longest=LONGEST_NAME):
        if self.kind != "quoted" and (self.kind != "word" or self.text.upper() in RESERVED):
            self.fail()
        if len(self.text) > longest:
            self.fail()
        return self.take()


def size(at):
    at.sign("(")
    if at.is_word("MAX"):
        at.step()
        found = None
    elif at.kind == "number":
        found = int(at.take())
    else:
        at.fail()
    at.sign(")")
    return found


def type_of(at):
    """The type's code, and its length; None is MAX."""
    if at.is_word(*PLAIN_TYPES):
        return at.take().upper(), None
    if at.is_word(*SIZED_TYPES):
        return at.take().upper(), size(at)
    at.fail()


def column(at):
    name = at.name()
    code, length = type_of(at)
    not_null = at.is_word("NOT")
    if not_null:
        at.words("NOT", "NULL")
    return name, code, length, not_null


def key(at):
    name = at.name()
    at.had_word("ASC")
    return name


def create_table(at):
    name = at.name()
    at.sign("(")
    columns = [column(at)]
    while at.had_sign(","):
        if at.is_sign(")"):
            break
        columns.append(column(at))
    at.sign(")")
    at.words("PRIMARY", "KEY")
    at.sign("(")
    keys = [key(at)]
    while at.had_sign(","):
        keys.append(key(at))
    at.sign(")")
    return "CreateTable", name, columns, keys


def item(at):
    """A table, and its listed columns; None is all of them."""
    name = at.name()
    if not at.had_sign("("):
        return name, None
    columns = []
    if not at.is_sign(")"):
        columns.append(at.name())
        while at.had_sign(","):
            columns.append(at.name())
    at.sign(")")
    return name, columns


def watch(at):
    if at.had_word("ALL"):
        return "ALL"
    items = [item(at)]
    while at.had_sign(","):
        items.append(item(at))
    return items


def option(at):
    """The option's name, and its value: a text, True, False or None."""
    name = at.name()
    at.sign("=")
    if at.kind == "text":
        return name, at.take()
    if not at.is_word("TRUE", "FALSE", "NULL"):
        at.fail()
    return name, {"TRUE": True, "FALSE": False, "NULL": None}[at.take().upper()]


def options(at):
    at.sign("(")
    found = [option(at)]
    while at.had_sign(","):
        found.append(option(at))
    at.sign(")")
    return found


def create_stream(at):
    name = at.name()
    watched = watch(at) if at.had_word("FOR") else []
    return "CreateStream", name, watched, options(at) if at.had_word("OPTIONS") else []


def alter_stream(at):
    at.name()
    if at.had_word("DROP"):
        at.words("FOR", "ALL")
    else:
        at.words("SET")
        if at.had_word("FOR"):
            watch(at)
        else:
            at.words("OPTIONS")
            options(at)
    return ("NotBuilt",)


def statement(at):
    if at.had_word("CREATE"):
        if at.had_word("TABLE"):
            return create_table(at)
        at.words("CHANGE", "STREAM")
        return create_stream(at)
    if at.had_word("ALTER"):
        if at.had_word("TABLE"):
            table = at.name()
            at.words("ADD", "COLUMN")
            return "AddColumn", table, (at.name(), *type_of(at), False)
        at.words("CHANGE", "STREAM")
        return alter_stream(at)
    at.words("DROP", "CHANGE", "STREAM")
    at.name()
    return ("NotBuilt",)


def text_literal(at, kind):
    if at.kind != "text":
        at.fail()
    return kind, at.take()


def literal(at):
    """The literal's kind and what it says: null, text, timestamp or number."""
    if at.had_word("NULL"):
        return "null", None
    if at.kind == "number":
        return "number", int(at.take())
    if at.had_word("TIMESTAMP"):
        return text_literal(at, "timestamp")
    return text_literal(at, "text")


def first_argument(at):
    """The first argument's name, or None where it has a position alone, and its literal."""
    if at.kind in ("text", "number") or at.is_word("NULL"):
        return None, literal(at)
    if at.is_word("TIMESTAMP"):
        name = at.take()
        if not at.is_sign("=>"):
            return None, text_literal(at, "timestamp")
    else:
        name = at.name()
    at.sign("=>")
    return name, literal(at)


def arguments(at):
    """Each argument's name and literal; a position stands for a name."""
    name, value = first_argument(at)
    if name is None:
        values = [value]
        while at.had_sign(","):
            if len(values) == len(POSITIONAL):
                at.fail()
            values.append(literal(at))
        return list(zip(POSITIONAL, values))
    found = [(name, value)]
    while at.had_sign(","):
        name = at.name()
        at.sign("=>")
        found.append((name, literal(at)))
    return found


def query(at):
    at.words("SELECT", "CHANGERECORD", "FROM")
    function = at.name(LONGEST_FUNCTION)
    at.sign("(")
    found = [] if at.is_sign(")") else arguments(at)
    at.sign(")")
    return function, found


def whole(text, grammar):
    at = Cursor(text)
    found = grammar(at)
    at.had_sign(";")
    if at.kind != "end":
        at.fail()
    return found


def parse(text):
    return whole(text, statement)


def parse_query(text):
    """The function's name, and the arguments by their names, each with its literal."""
    return whole(text, query)
