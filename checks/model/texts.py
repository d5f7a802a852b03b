"""Stamps, values and places: which texts stand for them, the one text that is written, and the bytes of a place."""
import base64
import binascii
import datetime
import json
import re

from .refusal import Refusal

EPOCH = datetime.datetime(1970, 1, 1)
LAST_STAMP = 253402300799999999
SHAPE = "dddd-dd-ddTdd:dd:dd"
MOMENT = re.compile(r"([0-9]{4})-([0-9]{2})-([0-9]{2})T([0-9]{2}):([0-9]{2}):([0-9]{2})(?:\.([0-9]{1,9}))?Z")
DATE = re.compile(r"([0-9]{4})-([0-9]{2})-([0-9]{2})")
INT64 = re.compile(r"-?[0-9]{1,64}")
NUMERIC = re.compile(r"(-?)([0-9]+)(?:\.([0-9]+))?")


def shape_place(text):
    """The place of the first byte with which no stamp goes on, or the length where the text ends early."""
    data = text.encode()

    def stands(place, kind):
        byte = data[place: place + 1]
        return byte.isdigit() if kind == "d" else byte == kind.encode()

    for place, kind in enumerate(SHAPE):
        if not stands(place, kind):
            return place
    place = len(SHAPE)
    if stands(place, "."):
        place += 1
        digits = 0
        while digits < 9 and stands(place, "d"):
            digits, place = digits + 1, place + 1
        if digits == 0:
            return place
    return place + 1 if stands(place, "Z") else place


def nanoseconds(fields):
    """The moment of a stamp's fields since 1970, or a ValueError where they are no civil date and time."""
    year, month, day, hour, minute, second = (int(it) for it in fields[:6])
    gone = datetime.datetime(year, month, day, hour, minute, second) - EPOCH
    return (gone.days * 86400 + gone.seconds) * 10 ** 9 + int((fields[6] or "").ljust(9, "0"))


def read_stamp(text):
    found = MOMENT.fullmatch(text)
    if not found:
        raise Refusal("Shape", shape_place(text))
    try:
        moment = nanoseconds(found.groups())
    except ValueError:
        raise Refusal("Range") from None
    if not 1000 <= moment <= LAST_STAMP * 1000:
        raise Refusal("Range")
    if moment % 1000 != 0:
        raise Refusal("TooFine")
    return moment // 1000


def write_stamp(moment):
    at = EPOCH + datetime.timedelta(microseconds=moment)
    fraction = f".{at.microsecond:06}" if at.microsecond else ""
    return f"{at.year:04}-{at.month:02}-{at.day:02}T{at.hour:02}:{at.minute:02}:{at.second:02}{fraction}Z"


def is_whole(tree):
    return isinstance(tree, int) and not isinstance(tree, bool)


def read_int64(tree):
    if isinstance(tree, str):
        if not INT64.fullmatch(tree):
            raise Refusal("BadText")
        tree = int(tree)
    elif not is_whole(tree):
        raise Refusal("WrongKind")
    if not -2 ** 63 <= tree < 2 ** 63:
        raise Refusal("Range")
    return tree


def read_numeric(text):
    found = NUMERIC.fullmatch(text)
    if not found or len(text) > 64:
        raise Refusal("BadText")
    sign, whole, fraction = found.groups()
    fraction = fraction or ""
    value = int(whole + fraction[:9].ljust(9, "0"))
    if fraction[9:].strip("0") or value >= 10 ** 38:
        raise Refusal("Range")
    return -value if sign else value


def write_numeric(value):
    whole, fraction = divmod(abs(value), 10 ** 9)
    text = f"{whole}.{fraction:09}".rstrip("0").rstrip(".") if fraction else str(whole)
    return "-" + text if value < 0 else text


def read_bytes(text):
    try:
        value = base64.b64decode(text, validate=True)
    except (binascii.Error, ValueError):
        raise Refusal("BadText") from None
    if base64.b64encode(value).decode() != text:
        raise Refusal("BadText")
    return value


def read_date(text):
    found = DATE.fullmatch(text)
    if not found:
        raise Refusal("BadText")
    try:
        return (datetime.date(*(int(it) for it in found.groups())) - EPOCH.date()).days
    except ValueError:
        raise Refusal("Range") from None


def read_timestamp(text):
    found = MOMENT.fullmatch(text)
    if not found:
        raise Refusal("BadText")
    try:
        moment = nanoseconds(found.groups())
    except ValueError:
        raise Refusal("Range") from None
    if moment % 1000 != 0:
        raise Refusal("Range")
    return moment // 1000


def read_value(tree, code):
    """The value that a JSON tree is in a column of the type; None is NULL."""
    if tree is None:
        return None
    if code == "INT64":
        return read_int64(tree)
    if code == "BOOL":
        if not isinstance(tree, bool):
            raise Refusal("WrongKind")
        return tree
    if not isinstance(tree, str):
        raise Refusal("WrongKind")
    readers = {"NUMERIC": read_numeric, "BYTES": read_bytes, "DATE": read_date, "TIMESTAMP": read_timestamp}
    return readers[code](tree) if code in readers else tree


def tree_of(value, code):
    """The JSON that is written for a value."""
    if value is None or code in ("BOOL", "STRING"):
        return value
    if code == "INT64":
        return str(value)
    if code == "NUMERIC":
        return write_numeric(value)
    if code == "BYTES":
        return base64.b64encode(value).decode()
    if code == "DATE":
        return (EPOCH.date() + datetime.timedelta(days=value)).isoformat()
    return write_stamp(value)


def compact(tree):
    return json.dumps(tree, ensure_ascii=False, separators=(",", ":"))


def turned(value, size):
    """The number's bytes, most significant first, with the top bit turned over."""
    return (value + 2 ** (8 * size - 1)).to_bytes(size, "big")


def value_place(value, code):
    if value is None:
        return b"\x00"
    if code == "BOOL":
        return bytes([1, value])
    if code in ("STRING", "BYTES"):
        data = value.encode() if code == "STRING" else value
        return (b"\x04" if code == "STRING" else b"\x05") + data.replace(b"\x00", b"\x00\xff") + b"\x00\x00"
    tag, size = {"INT64": (2, 8), "NUMERIC": (3, 16), "DATE": (6, 4), "TIMESTAMP": (7, 8)}[code]
    return bytes([tag]) + turned(value, size)


def table_place(name):
    return name.encode() + b"\x00"
