"""Random features as JSON, in order and not."""

import collections
import re

LIMITS = [
    "0", "1", "7", "8", "15", "16", "17", "00", "007", "-1", "-0", "+1", "1.0", "1.5", "1e0", "1E2", "0.1e1",
    "6.0", "7e-1", "255", "256", "4096", "65535", "65536", "67108863", "67108864", "67108863.0", "8388608", "8388609",
    "2147483647", "2147483648", "4294967295", "4294967296", "9999999999", "0000000001", "00000000001",
    "9007199254740993", "9223372036854775807", "9223372036854775808", "-9223372036854775808", "-9223372036854775809",
    "18446744073709551615", "18446744073709551616", "1e308", "1e309", "1e999999999", "0e99", "9" * 40, "9" * 400,
    "0x10", "1_000", "NaN", "Infinity", ".5", "5.", "",
]
ESCAPES = [
    r"\u0041", r"\u0000", r"\ud800", r"\udc00", r"\ud83d\ude00", r"\ude00\ud83d", r"\n", r"\"", r"\\",
    r"\/", r"\b", r"\x41", r"\u12", r"\U00000041", "\\", r"\ud800\u0041", r"\u006e", r"\u00e9",
]
NAMES = ["a", "b", "ab", "new", "New", "york", "YORKSHIRE", "paris", "st", "0", "00", "x1"]  # of features
POINTS = [(20000, 30000), (20001, 30000), (20300, 30011), (50000, 9)]  # as tiles of zoom 16
Stock = collections.namedtuple("Stock", "names points")


def number(rng):
    """A number, near a limit more often than not."""
    if rng.random() < 0.6:
        return rng.choice(LIMITS)
    return str(rng.randrange(1 << rng.randrange(1, 70)))


def digits(rng, n):
    """The number, at times with zeros before it."""
    return str(n).zfill(rng.choice([0, 0, 0, 0, 2, 10]))


def gap(rng):
    """The spaces between two fields."""
    return rng.choice([" ", " ", " ", "  ", "     "])


def stock(rng):
    """A few names and a few points, so that queries match and tiles nest."""
    return Stock(rng.sample(NAMES, rng.choice([1, 2, 3, 5])), rng.sample(POINTS, rng.choice([1, 1, 2, 4])))


def name(rng, names, tokens):
    """A text of so many of the names."""
    return rng.choice([" ", " ", "-", " ' "]).join(rng.choice(names) for _ in range(tokens))


def tile(rng, zoom, points):
    """A tile of the zoom, mostly one over a point."""
    x, y = rng.choice(points) if rng.random() < 0.8 else (rng.randrange(1 << 16), rng.randrange(1 << 16))
    return "/".join(digits(rng, n) for n in (zoom, x >> (16 - zoom), y >> (16 - zoom)))


def feature(rng, zoom, some_id, of):
    """The JSON of a feature, which is in order."""
    names = [name(rng, of.names, rng.choice([1, 1, 1, 1, 2, 3])) for _ in range(rng.choice([1, 1, 1, 1, 2, 3]))]
    if rng.random() < 0.05:
        names.append(rng.choice(["", ".", name(rng, of.names, 20), name(rng, of.names, 21), names[0]]))
    tiles = ",".join(f'"{tile(rng, zoom, of.points)}"' for _ in range(rng.choice([1, 1, 1, 2, 3])))
    members = [f'"carmen:text":"{rng.choice([",", ", "]).join(names)}"', f'"carmen:zxy":[{tiles}]']
    if rng.random() < 0.4:
        members.append('"carmen:score":' + rng.choice(["0", "1", "2", "9", "15", "16", "-3", "null", "18446744073709551615"]))
    if rng.random() < 0.1:
        members.append(rng.choice(['"carmen:relev":null', '"carmen:text_en":null', '"carmen:text_":1', '"x":1.5', '"y":[{}]']))
    rng.shuffle(members)
    whole = [f'"id":{some_id}', '"properties":{%s}' % ",".join(members)]
    if rng.random() < 0.1:
        whole.append(rng.choice(['"type":"Feature"', '"geometry":null', '"bbox":[0.5,1e2,-1,2]', '"x":"\\u0041"']))
    rng.shuffle(whole)
    return "{%s}" % ",".join(whole)


def change_feature(rng, line):
    """The line of a put with something done to its JSON."""
    kind = rng.randrange(5)
    if kind == 0:
        return re.sub(r'"id":[^,}]*', lambda m: '"id":' + number(rng), line, count=1)
    if kind == 1:
        return re.sub(r'("carmen:score":)[^,}]*', lambda m: m.group(1) + number(rng), line, count=1)
    if kind == 2:
        twice = rng.choice([
            '"carmen:score":1.5,', '"carmen:score":1.0,', '"carmen:score":-1,', '"carmen:text":"a",', '"carmen:text":1,',
            '"carmen:text":"\\u00e9",', '"carmen\\u003atext":"b",', '"carmen:text_de":"a",', '"carmen:text_de":null,',
            '"carmen:text_d":"a",', '"carmen:zxy":[],', '"carmen:zxy":null,', '"carmen:relev":80,', '"carmen:relev":null,',
            '"carmen:other":1,', '"x":null,',
        ])
        return line.replace('"properties":{', '"properties":{' + twice, 1)
    if kind == 3:
        words = " ".join(["w"] * rng.choice([19, 20, 21]))
        inside = rng.choice([",", "\u00e9", "\\u00e9", "\U0001f600", " ", "", ",,,", words])
        return re.sub(r'("carmen:text":")[^"]*', lambda m: m.group(1) + inside, line, count=1)
    spot = rng.choice([
        '"6/0/0"', '"6/63/63"', '"6/64/0"', '"5/1/1"', '"06/1/1"', '"6/1"', '"6/1/1/"', '"6/-1/1"', '"6/ 1/1"', '"17/0/0"',
        "6", "null", "",
    ])
    count = rng.choice([1, 1, 2, 4096, 4097])
    return re.sub(r'("carmen:zxy":\[)[^\]]*', lambda m: m.group(1) + ",".join([spot] * count), line, count=1)


def as_bytes(text):
    return text if isinstance(text, bytes) else text.encode("utf-8", "surrogatepass")


def change_bytes(rng, raw):
    """The bytes cut off, flipped, dropped or put in."""
    raw = bytearray(raw)
    kind = rng.randrange(5)
    if kind == 0:
        return bytes(raw[: rng.randrange(len(raw) + 1)])
    for _ in range(rng.choice([1, 1, 1, 2, 8])):
        at = rng.randrange(len(raw) + 1)
        if kind == 1 and at < len(raw):
            raw[at] ^= 1 << rng.randrange(8)
        elif kind == 2 and at < len(raw):
            raw[at] = rng.randrange(256)
        elif kind == 3:
            del raw[at : at + rng.choice([1, 1, 2, 40])]
        elif kind == 4:
            raw[at:at] = rng.choice([b"\n", b"\r", b"\0", b" ", b"\xff", b"\xc3\xa9", b'"', b"\xef\xbb\xbf", b"}"])
    return bytes(raw)
