"""Random words of a command line and the files of their feeds: rows of CSV and lines of JSON, in order and not."""

import collections

from feed_checks import IDS, MOST_FEEDS, MOST_ITEMS
from thrown_features import ESCAPES, change_bytes, change_feature, digits, feature, gap, name, number, tile

Given = collections.namedtuple("Given", "words files loads")  # a file that is None is a folder
NONE = Given([], {}, [])
TITLE = "id,text,zxy,score"
TITLES = [TITLE] * 8 + [
    '"id","text","zxy","score"', '"id",text,zxy,"score"', "id,text,zxy", TITLE + ",more", TITLE + ",", "ID,text,zxy,score",
    "id, text,zxy,score", " " + TITLE, TITLE + " ", "\ufeff" + TITLE, 'id,te"xt,zxy,score', '"id"x,text,zxy,score',
    "text,id,zxy,score",
]
NO_IDS = [
    "", "x", "id", "67108864", "9999999999", "00000000001", "99999999999", " 1", "1 ", "-1", "+1", "1.0", "1e0", "\u0663", "\t1",
]
NO_SCORES = [
    "x", "1.5", "+1", "1 ", " 1", "-", "--1", "1-", "1" * 19, "0" * 19, "-" + "9" * 19, "1e3", "null", "0x1", "\u0663", " ",
]
SCORES = ["", "", "", "0", "1", "9", "15", "16", "-3", "-0", "0009", "9" * 18, "-" + "9" * 18]
NO_LINES = [
    "x", "{", "}", "null", "[]", "{}", "0", '""', " ", "\t", "\r", '{"id":1}', '{"id":1,"properties":{}}', "# words", TITLE,
    '{"type":"FeatureCollection","features":[', "]}", "\ufeff", "\udcff", "\0",
]
SUFFIXES = [".json", ".csv", "", " b", ":c", "\u00e9", "'", "-"]
NO_WORDS = [
    "json:", "csv:", "json", "csv", "", ":", ":a", "xml:a", "JSON:a", "Csv:a", " csv:a", "csv :a", "plain", b"json:\xff",
    b"\xff:a",
]
NOWHERE = ["json:nowhere", "csv:nowhere", "csv:nowhere/a", "json::", "json:csv:a", "csv: ", "json:" + "a" * 300]


def some_id(rng):
    """An id, mostly one that others have too."""
    return rng.choice([rng.randrange(5), rng.randrange(5), rng.randrange(5), rng.randrange(IDS), IDS - 1])


# ---- rows of CSV


def field(rng, text):
    """A text as a field of a row, in quotes where it needs them, and at times where it doesn't."""
    if any(sign in text for sign in ',"\r\n') or rng.random() < 0.1:
        return '"%s"' % text.replace('"', '""')
    return text


def fields(rng, zoom, of):
    """The fields of a row that stands for a feature."""
    names = [name(rng, of.names, rng.choice([1, 1, 1, 2, 3])) for _ in range(rng.choice([1, 1, 1, 2, 3]))]
    if rng.random() < 0.2:
        names.append(rng.choice(["", ".", '"new"', '"', '""', "\n", "a\r\nb", "\u00e9", "\0", " ' "]))
    tiles = [tile(rng, zoom, of.points) for _ in range(rng.choice([1, 1, 1, 2, 3]))]
    text = rng.choice([",", ", "]).join(names)
    return [digits(rng, some_id(rng)), text, gap(rng).join(tiles), rng.choice(SCORES)]


def changed_fields(rng, zoom, some):
    """The fields with something done to them, by which they mostly stand for no feature."""
    at = rng.randrange(5)
    if at == 4:
        return rng.choice([some[:3], some[:1], some[:2] + [some[2] + "," + some[3]], some + [""], some + ["x"], [""] + some])
    if rng.random() < 0.1:
        return some[:at] + [some[at] + "\udcff"] + some[at + 1 :]
    here = f"{zoom}/0/0"
    no_tiles = [
        "", " ", "x", f"{zoom}/0", here + "/", here + "/0", f"/{here}", f"{zoom}/-0/0", f"{zoom}/{1 << zoom}/0",
        f"{zoom}/0/{1 << zoom}", "17/0/0", "4294967296/0/0", f"{zoom + 1}/0/0", f"{max(zoom - 1, 0)}/0/0", f"{here},{here}",
        f"{here}\t{here}", f"{here} x", " ".join([here] * 4096), " ".join([here] * 4097),
    ]
    new = rng.choice([NO_IDS, ["", ".", "\u00e9", "w " * 20, "w " * 21], no_tiles, NO_SCORES][at])
    return some[:at] + [new] + some[at + 1 :]


def row(rng, zoom, of):
    """A row, mostly one that stands for a feature."""
    some = fields(rng, zoom, of)
    if rng.random() < 0.3:
        some = changed_fields(rng, zoom, some)
    text = ",".join(field(rng, text) for text in some)
    if rng.random() < 0.03:  # a quote that nobody closes, or one within a field
        at = rng.randrange(len(text) + 1)
        text = text[:at] + rng.choice([',"', '"', ' "a"']) + text[at:]
    return text


def csv_file(rng, zoom, of, most):
    """Rows, mostly with a header."""
    lines = [row(rng, zoom, of) for _ in range(rng.randrange(most + 1))]
    if rng.random() < 0.7:
        lines.insert(0 if rng.random() < 0.9 else rng.randrange(len(lines) + 1), rng.choice(TITLES))
    ends = rng.choice([["\n"], ["\n"], ["\r\n"], ["\r\n"], ["\r"], ["\n", "\r\n", "\r", "\n\n", "\r\n\r\n", "\n\r", "\r\r\n"]])
    return joined(rng, lines, ends, ["", "\r", "\n", "\r\n\r\n", '"', '"a,\n', ",", ",,,", " "])


# ---- lines of JSON


def line(rng, zoom, of):
    """A line, mostly one that is a feature."""
    text = feature(rng, zoom, some_id(rng), of)
    draw = rng.random()
    if draw < 0.7:
        return text
    if draw < 0.8:
        return change_feature(rng, text)
    if draw < 0.85:
        at = rng.randrange(len(text) + 1)
        return text[:at] + rng.choice([*ESCAPES, "\udcff", "\udced\udca0\udc80", "\r", "\0", " ", number(rng)]) + text[at:]
    return rng.choice([*NO_LINES, text + ",", text + text, "\ufeff" + text, f"[{text}]", " " + text + "\t"])


def json_file(rng, zoom, of, most):
    """Lines of JSON."""
    lines = [line(rng, zoom, of) for _ in range(rng.randrange(most + 1))]
    ends = rng.choice([["\n"], ["\n"], ["\r\n"], ["\n", "\r\n", "\n\n", "\r\n\r\n", "\r\r\n", "\r", "\n \n"]])
    return joined(rng, lines, ends, ["", "\r", "\n", "\r\n\r\n", "x", " ", "\r\r"])


# ---- files and words


def joined(rng, lines, ends, rests):
    """The bytes of lines with such ends, at times with a byte order mark at their start or with such a rest at their end."""
    text = "".join(line + rng.choice(ends) for line in lines)
    draw = rng.random()
    if draw < 0.3:
        text = text.rstrip("\r\n")
    elif draw < 0.5:
        text += rng.choice(rests)
    mark = "\ufeff" * rng.choice([0, 0, 0, 0, 0, 0, 0, 0, 1, 1, 1, 2])
    return (mark + text).encode("utf-8", "surrogateescape")


def file(rng, kind, zoom, of, most):
    """The bytes of a file for a feed, with about so many items that are mostly in order; or None for a folder."""
    draw = rng.random()
    if draw < 0.03:
        return None
    if draw < 0.06:
        return rng.randbytes(rng.choice([0, 1, 2, 3, 100, 5000]))
    if draw < 0.10:
        kind = "json" if kind == "csv" else "csv"
    raw = (csv_file if kind == "csv" else json_file)(rng, zoom, of, most)
    return change_bytes(rng, raw) if draw > 0.85 else raw


def feeds(rng, zooms, of):
    """A few feeds, and lines that load them into layers of these zooms, each once at the most."""
    words, files, loads = [], {}, []
    count = rng.choice([1, 1, 1, 1, 2, 2, 3, 3, rng.randrange(MOST_FEEDS + 1)])
    for n in range(count):
        kind = rng.choice(["json", "csv"])
        layer = rng.randrange(len(zooms))
        path = rng.choice(list(files)) if files and rng.random() < 0.05 else f"{n}{rng.choice(SUFFIXES)}"
        if path not in files:
            files[path] = file(rng, kind, zooms[layer], of, 20 if len(zooms) * count < 6 else 4)
        words.append(f"{kind}:{path}")
        if rng.random() < 0.9:
            loads.append("load" + gap(rng) + digits(rng, n) + gap(rng) + digits(rng, layer))
    rng.shuffle(loads)
    return Given(words, files, loads)


def broken_words(rng, words):
    """The words with one more that is refused or whose file isn't there, or with too many."""
    draw = rng.random()
    if draw < 0.2:
        return words + ["csv:nowhere"] * (MOST_FEEDS + rng.choice([0, 1]) - len(words))
    words = list(words)
    for _ in range(rng.choice([1, 1, 1, 2])):
        words.insert(rng.randrange(len(words) + 1), rng.choice(NO_WORDS if draw < 0.6 else NOWHERE))
    return words


# ---- as many as are allowed


def many_items(rng):
    """The word of a feed with as many items as a load pulls, or with one more or less, and its file."""
    count = MOST_ITEMS + rng.choice([-1, 0, 1])
    some = rng.choice(["x\n", "x\r\n", "{}\n", ",\n", "0\n\n"])
    return [rng.choice(["json:many", "csv:many"])], {"many": (some * count).encode()}


def rows_file(rows):
    return "".join(",".join(map(str, row)) + "\n" for row in rows).encode()
