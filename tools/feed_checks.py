"""What feeds give, and the features that JSON texts and rows of CSV stand for, read apart from the program."""

import codecs
import collections
import functools
import json
import math
import re

MOST_FEEDS = 16
MOST_BYTES = 268_435_456  # that are read of a feed
MOST_ITEMS = 1_048_576  # that a load pulls
MOST_TILES = 4096
MOST_ZOOM = 16
DEEPEST = 127  # that JSON nests
IDS = 1 << 26

CODE = re.compile(r"[A-Za-z][A-Za-z0-9_-]{1,15}")
OWN_TEXT = re.compile(f"carmen:text_{CODE.pattern}")
HEADER = (b"id", b"text", b"zxy", b"score")
QUOTED = re.compile(rb'"((?:[^"]+|"")*)"?')  # also one that is never closed
PLAIN = re.compile(rb"[^,\r\n]*")
STRING = re.compile(r'"(?:[^"\\]|\\.)*"', re.DOTALL)
HALF = re.compile("[\ud800-\udfff]")  # of a surrogate pair
Feature = collections.namedtuple("Feature", "id rows")  # the most rows that it can have


def number_of(field):
    """The number of a field, which is 1 to 10 digits, or None."""
    return int(field) if re.fullmatch("[0-9]{1,10}", field) else None


# ---- features


def tile_of(entry):
    """The tile that a string z/x/y names, or None."""
    numbers = [number_of(field) for field in entry.split("/")] if isinstance(entry, str) else []
    if len(numbers) != 3 or None in numbers or numbers[0] > MOST_ZOOM:
        return None
    return tuple(numbers) if max(numbers[1:]) < 1 << numbers[0] else None


def is_whole(value):
    return isinstance(value, int) and not isinstance(value, bool)


def feature_of(zoom, some_id, texts, tiles, score, relev):
    """The feature of a layer of this zoom that has these, or its first fault."""
    if not is_whole(some_id) or not 0 <= some_id < IDS:
        return "2 Id"
    if not all(isinstance(text, str) for text in texts):
        return "3 Text"
    if not 1 <= len(tiles) <= MOST_TILES or None in tiles:
        return "4 Zxy"
    if any(tile[0] != zoom for tile in tiles):
        return "5 Zoom"
    if score is not None and not is_whole(score):
        return "6 Score"
    if relev is not None and not (is_whole(relev) and relev in (40, 60, 80, 100)):
        return "7 Relev"
    return Feature(some_id, len(set(tiles)) * sum(text.count(",") + 1 for text in texts))


def finite(text):
    """A number with a fraction or an exponent, or one that 64 bits don't hold."""
    value = float(text)
    if math.isinf(value):
        raise ValueError(text)
    return value


def whole(text):
    """A number without fraction and exponent."""
    if text != "-0" and len(text) <= 20 and -(1 << 63) <= int(text) < 1 << 64:
        return int(text)
    return finite(text)


def no_number(text):
    raise ValueError(text)


def halves(value):
    """Some string of the value has one half of a surrogate pair; objects in it were looked into before."""
    if isinstance(value, list):
        return any(map(halves, value))
    return isinstance(value, str) and HALF.search(value)


def members(pairs):
    """The members of an object, of equal keys the last."""
    if any(halves(key) or halves(value) for key, value in pairs):
        raise ValueError("half of a surrogate pair")
    return dict(pairs)


def depth(text):
    """How deep the brackets of a JSON text nest."""
    level = deepest = 0
    for bracket in re.findall(r"[\[\]{}]", STRING.sub("", text)):
        level += 1 if bracket in "[{" else -1
        deepest = max(deepest, level)
    return deepest


def value_of(raw):
    """What a JSON text stands for, with the numbers and strings that the program reads; a ValueError where it is none."""
    text = raw.decode("utf-8")
    if text.count("[") + text.count("{") > DEEPEST and depth(text) > DEEPEST:
        raise ValueError("too deep")
    return json.loads(text, object_pairs_hook=members, parse_int=whole, parse_float=finite, parse_constant=no_number)


def feature_of_text(raw, zoom):
    """The feature of a layer of this zoom that a JSON text stands for, or its first fault."""
    try:
        value = value_of(raw)
    except ValueError:
        return "1 Json"
    properties = value.get("properties") if isinstance(value, dict) else None
    if not isinstance(properties, dict):
        return "1 Json"
    own = [text for name, text in properties.items() if OWN_TEXT.fullmatch(name) and text is not None]
    zxy = properties.get("carmen:zxy")
    tiles = list(map(tile_of, zxy)) if isinstance(zxy, list) else []
    texts = [properties.get("carmen:text"), *own]
    return feature_of(zoom, value.get("id"), texts, tiles, properties.get("carmen:score"), properties.get("carmen:relev"))


def feature_of_row(fields, zoom):
    """The feature of a layer of this zoom that a row of CSV stands for, or its first fault."""
    try:
        some_id, text, zxy, score = (field.decode("utf-8") for field in fields)
    except ValueError:  # of the number of fields too
        return "1 Json"
    tiles = [tile_of(word) for word in zxy.split(" ") if word]
    if re.fullmatch("-?[0-9]{1,18}", score):
        score = int(score)
    return feature_of(zoom, number_of(some_id), [text], tiles, score or None, None)


@functools.lru_cache(maxsize=8)  # a feed may have very many equal items
def feature_of_item(item, zoom):
    return feature_of_row(item, zoom) if isinstance(item, tuple) else feature_of_text(item, zoom)


# ---- feeds


def json_items(raw):
    """The lines that aren't empty, without a line feed and one carriage return before it."""
    *lines, rest = raw.split(b"\n")
    return [line for line in [line.removesuffix(b"\r") for line in lines] + [rest] if line]


def field_at(raw, at):
    """The field that begins there, and the place behind it."""
    quoted = QUOTED.match(raw, at)
    front = quoted.group(1).replace(b'""', b'"') if quoted else b""
    rest = PLAIN.match(raw, quoted.end() if quoted else at)  # what follows a closed quote is of the field too
    return front + rest.group(), rest.end()


def records(raw):
    """The records of a text of CSV, each a tuple. They end with line feeds and carriage returns; an empty line is none."""
    rows, at = [], 0
    while at < len(raw):
        if raw[at] in b"\r\n":
            at += 1
            continue
        row, more = [], True
        while more:
            field, at = field_at(raw, at)
            row.append(field)
            more = raw[at : at + 1] == b","
            at += more
        rows.append(tuple(row))
    return rows


def csv_items(raw):
    """The records behind a byte order mark, without a header as the first one."""
    rows = records(raw.removeprefix(codecs.BOM_UTF8))
    return rows[1:] if rows[:1] == [HEADER] else rows


def items_of(kind, raw):
    """The items of a feed of this kind from a file with these bytes."""
    return (csv_items if kind == "csv" else json_items)(raw[:MOST_BYTES])


def feed_of(word):
    """The kind and the path that a word of the command line names, or None."""
    if isinstance(word, bytes):  # no text
        return None
    kind, colon, path = word.partition(":")
    return (kind, path) if kind in ("json", "csv") and colon and path else None
