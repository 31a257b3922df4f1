"""Random sessions with their feeds: some in order, some not, and some that were in order and are changed."""

import collections
import random
import re

from feed_checks import IDS
from session_checks import LONGEST, MOST_ASKS, MOST_FEATURES, MOST_LANGS, MOST_LAYERS, MOST_LIMIT, MOST_ROWS, USUAL_LIMIT
from thrown_features import (
    ESCAPES, NAMES, as_bytes, change_bytes, change_feature, digits, feature, gap, number, stock,
)
from thrown_feeds import NONE, broken_words, feeds, many_items, rows_file
from thrown_searches import broken_line, change_search, events, played_lines, replay_line, search_line

# The bytes of a session, the command, the words after it, the files that they name (None is a folder), whether the session
# has to be accepted, and what its lines that explain and replay are told, which is None where that isn't known.
Thrown = collections.namedtuple("Thrown", "session command words files in_order told", defaults=[None])

COMMANDS = ["plain", "plain", "plain", "replay", "replay"]  # (searches that are played are for `replay` alone)
NO_COMMANDS = ["", "Plain", "REPLAY", "replay ", " plain", "replays", "explain", "ask", "csv:0", b"replay\xff", "replay plain"]

WORDS = [
    "nowhere", "Z9", "saint", "petersburg", "w" * 60, "rio-de-janeiro", "o'hare", "end", "ask", "publish", "q", "7",
]
SIGNS = [" ", " ", "  ", "-", ",", ".", "|", "\t", "'", "/", "{", "}", '"', "\\", "#", "=", "\r", "\u00e9"]
SKIPPED = ["", " ", "     ", "#", "# words", "#put 0 {}", "#\t", "# \u00e9\U0001f600"]
LINES = SKIPPED + [
    "end", "end ", "end x", "end\r", "END", " end", "join", "join  ", "join join", "publish", "publish  ", "publish 1",
    "publish\t", "\tpublish", " publish", " ", " #", "publish \u00e9", "carmen 1", "carmen 1   ", "carmen 2", "carmen  1",
    "langs", "langs ", "langs en", "langs  en de ", "langs en en", "langs e", "langs en\tde", "langs \u00e9n", "langs 1n",
    "layer", "layer ", "layer {}", "layer []", "layer null", "layer\t{}", 'layer {"name":"city","zoom":16}',
    'layer  {"name":"city","zoom":16,"stack":null,"tokens":null,"scoremax":null} ', 'layer {"name":"","zoom":16}',
    'layer {"name":"city","zoom":17}', 'layer {"name":"city","zoom":0}', 'layer {"zoom":16,"name":"City"}',
    'layer {"name":"city","zoom":16,"stack":[]}', 'layer {"name":"city","zoom":16,"stack":["A"]}',
    'layer {"name":"city","zoom":16,"stack":{}}', 'layer {"name":"city","zoom":16,"tokens":{"st":"street"}}',
    'layer {"name":"city","zoom":16,"scoremax":100}', 'layer {"name":"c\u00e9","zoom":16}',
    "put", "put ", "put 0", "put 0 ", "put 0 {}", "put 1 {}", "put 16 {}", "put x {}", "put 0{}", "put -1 {}", "put 0 null",
    "put 0 []", "put  00  {}", "put 00000000000 {}", "put 4294967296 {}", "put 16 \u00e9", "put x \u00e9", "put 0\t{}",
    'put 0 {"id":1,"properties":{}}', 'put 9 {"id":1,"properties":{"carmen:relev":80}}',
    'put 0 {"id":1,"properties":{"carmen:text_en":"a"}}', 'put 0 {"id":1,"properties":{"carmen:text_e":"a"}}',
    "drop", "drop 0", "drop 0 1", "drop 0 1 ", "drop  00  01", "drop 0 1 2", "drop 0 67108863", "drop 0 67108864",
    "drop 9999999999 0", "drop 0 99999999999", "drop 0 x", "drop 16 1", "drop 0 \u00e9", "drop 0 +1", "drop 0\t1",
    "limit", "limit 0", "limit 1", "limit 2", "limit 0001", "limit 8388608", "limit 8388609", "limit 00000000001",
    "limit 9999999999", "limit 1 1", "limit x", "limit -1", "limit 2 \r",
    "load", "load 0 0", "load 0 0", "load 1 0", "load 0 1", "load 2 0", "load 0 16", "load 16 0", "load 0", "load 0 0 0",
    "load 00 00", "load  0  0 ", "load x 0", "load 0 x", "load 0 9999999999", "load 9999999999 0", "load 99999999999 0",
    "load 00000000000 0", "load 0\t0", "load -0 0", "load 9 9", "serve", "bake", "fly",
    "explain", "explain ", "explain  ", "explain a", "explain  a ", "explain a\r", "explain 0 a", "explain ; a", "explain\ta",
    "explain auto=0 | a", "explain box=1/1/0/0/0|a", "explain |", "explain \u00e9", "explain;a", "Explain a", "explains a",
    "replay", "replay ", "replay  ", "replay;", "replay;a", "replay; a", "replay ;", "replay ; ", "replay ; a", "replay  ;a ",
    "replay ; a ; b", "replay ;;a", "replay ;|a", "replay ;auto=0|a", "replay ; lang=en | a\r", "replay a", "replay | ; a",
    "replay c0 ; a", "replay c0;a", "replay c7 o7;a", "replay c8 ; a", "replay c0 c ; a", "replay c0 x0 ; a", "replay c00 ; a",
    "replay  l0   r7 ; a", "replay c0\t; a", "replay \tc0 ; a", "replay c0o0 ; a", "replay C0 ; a", "replay 0c ; a",
    "replay \u00e9 ; a", "replay ; \u00e9", "replay c0 a", "replay\tc0 ; a", "Replay ; a", "replay# ; a", "replay c0 ; c0 ; a",
    "ask", "ask ", "ask 0", "ask 0 ", "ask 0  ", "ask 00 a", "ask 7 a ", "ask 8 a", "ask x a", "ask  0 a", "ask 0\ta",
    "ask 0000000007 a", "ask 00000000007 a", "ask 0 \u00e9", "ask 8 \u00e9", "ask x \u00e9", "ask 9 lang=en | a",
    "ask 0 lang=en | a", "ask 0 lang= | a", "ask 0 lang=en a", "ask 0 lang | a", "ask 0 | lang=en", "ask 0 auto=0 |a",
    "ask 0 auto=1 |a", "ask 0 auto=01 |a", "ask 0 auto=0 auto=0 | a", "ask 0 |", "ask 0 ||a", "ask 0 | a | b", "ask 0 |,",
    "ask 0 =|a", "ask 0 auto|a", "ask 0 auto==0|a", "ask 0 speed=1 | a", "ask 0 box=0/0/0/0/0 | a", "ask 0 box=|a",
    "ask 0 box=16/0/0/65535/65535|a", "ask 0 box=16/0/0/65536/0|a", "ask 0 box=17/0/0/0/0|a", "ask 0 box=1/1/0/0/0|a",
    "ask 0 box=1/0/0/0|a", "ask 0 box=1/0/0/0/0/|a", "ask 0 box=01/00/00/0000000001/1|a", "ask 0 box=4294967296/0/0/0/0|a",
    "ask 0 box=9999999999/0/0/9999999999/0|a", "ask 0 box=1/0/0/00000000000/0|a", "ask 0 box=2/0/0/0/0 speed=1 | a",
]
SMALL = [
    "carmen 1", 'layer {"name":"a","zoom":6}', 'put 0 {"id":1,"properties":{"carmen:text":"a","carmen:zxy":["6/0/0"]}}',
    "publish", "ask 0 a", "end",
]
FILLED = [  # which lines of it a filled line stands for, and what is filled
    (0, 0, "#", "#", ""), (0, 0, " ", " ", ""), (0, 1, "carmen 1", " ", ""), (1, 2, "layer", " ", SMALL[1][6:]),
    (1, 2, SMALL[1], "\t", ""), (2, 3, "put", " ", SMALL[2][4:]), (2, 3, 'put 0 {"pad":"', "p", '",' + SMALL[2][7:]),
    (2, 3, 'put 0 {"id":1,"properties":{"carmen:text":"', "a ", '","carmen:zxy":["6/0/0"]}}'),
    (2, 3, 'put 0 {"id":1,"properties":{"carmen:text":"', "a,", '","carmen:zxy":["6/0/0"]}}'),
    (3, 4, "publish", " ", ""), (4, 5, "ask 0 ", "a ", ""), (5, 6, "end", " ", ""), (6, 6, "#", "#", ""),
]
FILLED_SEARCHES = [
    (4, 5, "explain ", "a ", ""), (4, 5, "replay ;", "a ", ""), (4, 5, "replay ", " ", ";a"), (4, 5, "replay", " r7", " ;a"),
    (4, 5, "replay ", "c0 ", "; a"), (4, 5, "replay ", "c0 ", "; b"), (4, 5, "replay c0 o0", " l0", "  ;a"),
]


def layer(rng, zoom):
    """The JSON of a layer, which is in order."""
    members = ['"name":"%s"' % rng.choice(["a", "b", "c", "d", "e", "f", "city_2-x", "z" * 32]), f'"zoom":{zoom}']
    if rng.random() < 0.4:
        words = [f'"{rng.choice(["us", "ca"])}"' for _ in range(rng.choice([0, 1, 1, 2, 3, 64]))]
        members.append(rng.choice(['"stack":[%s]' % ",".join(words)] * 4 + ['"stack":null']))
    if rng.random() < 0.1:
        members.append(rng.choice(['"tokens":null', '"scoremax":null', '"x":[1.5]']))
    rng.shuffle(members)
    return "{%s}" % ",".join(members)


def head(rng, zooms):
    """The lines of a head with layers of these zooms."""
    lines = ["carmen 1" + " " * rng.choice([0, 0, 0, 3])]
    if rng.random() < 0.3:
        codes = rng.sample(["en", "de", "fr", "zh_Hant", "x-1", "EN", "a" * 16], rng.randrange(1, 8))
        lines.append("langs" + gap(rng) + gap(rng).join(codes) + " " * rng.choice([0, 0, 2]))
    return lines + ["layer" + gap(rng) + layer(rng, zoom) for zoom in zooms]


def box(rng, points):
    """The option of a box over a point."""
    zoom = rng.choice([0, 1, 2, 6, 12, 16])
    x, y = (n >> (16 - zoom) for n in rng.choice(points))
    wide, high = (rng.choice([0, 0, 1, 1 << zoom]) for _ in range(2))
    ends = (min((1 << zoom) - 1, n) for n in (x + wide, y + high))
    return "box=" + "/".join(digits(rng, n) for n in (zoom, x, y, *ends))


def query(rng, most, of):
    """A query of at most so many names, mostly one that can be read."""
    words = [rng.choice(of.names) for _ in range(rng.randrange(1, most + 1))]
    if rng.random() < 0.3:
        words[-1] = words[-1][: rng.randrange(1, len(words[-1]) + 1)]
    if rng.random() < 0.2:
        words.insert(rng.randrange(len(words)), rng.choice(WORDS))
    text = rng.choice([" ", " ", " ", "-", ", "]).join(words)
    if rng.random() < 0.05:
        text = rng.choice(["", " ", "...", "a" * 256, "a" * 257, " ".join("q" * 20), " ".join("q" * 21)])
    options = [rng.choice(["auto=0", "auto=0", "auto=1"])] if rng.random() < 0.3 else []
    options += [box(rng, of.points)] if rng.random() < 0.3 else []
    options += [rng.choice(["auto=1", "speed=1", "box=1/1/1/0/0", "auto"])] if rng.random() < 0.04 else []
    rng.shuffle(options)
    return " ".join(options) + rng.choice(["|", " | "]) + text if options or rng.random() < 0.1 else text


def asking_line(rng, command, text):
    """A line of this command that asks."""
    if command == "replay" and rng.random() < 0.7:
        return search_line(rng, text)
    return "ask" + gap(rng) + digits(rng, rng.choice([0, 0, 1, 7])) + " " + text


def body_line(rng, command, zooms, of, texts):
    """A line of the body, which asks one of these queries where it asks."""
    draw = rng.random()
    layer_number = rng.randrange(len(zooms))
    some_id = rng.choice([rng.randrange(4), rng.randrange(4), rng.randrange(IDS), IDS - 1])
    if draw < 0.45:
        return asking_line(rng, command, rng.choice(texts))
    if draw < 0.75:
        return "put" + gap(rng) + digits(rng, layer_number) + gap(rng) + feature(rng, zooms[layer_number], some_id, of)
    if draw < 0.82:
        return "drop" + gap(rng) + digits(rng, layer_number) + gap(rng) + digits(rng, some_id)
    if draw < 0.86:
        return "limit" + gap(rng) + digits(rng, rng.choice([1, 2, 5, 100, USUAL_LIMIT, MOST_LIMIT]))
    if draw < 0.97:
        return "publish" + " " * rng.choice([0, 0, 2])
    return "join" + " " * rng.choice([0, 0, 2])


def ended(rng, lines):
    """The lines as a session, which may have lines between that are skipped, and bytes after its end."""
    if rng.random() < 0.3:
        for _ in range(rng.randrange(1, 6)):
            lines.insert(rng.randrange(len(lines) + 1), rng.choice(SKIPPED))
    ends = rng.choice([["\n"], ["\n"], ["\n"], ["\r\n"], ["\n", "\r\n"]])
    text = "".join(line + rng.choice(ends) for line in lines)
    return text + rng.choice(["end\n", "end\n", "end", "end\r", "end\r\n", "end  \n", "end\nput 0\n", "end\n\0"])


def accepted(rng):
    """A session that is in order, at times with feeds, whatever these give."""
    command = rng.choice(COMMANDS)
    of = stock(rng)
    layers = rng.choice([1, 1, 2, 2, 3, 3, 4, 6, 16])
    zooms = sorted(rng.choice([0, 1, 4, 6, 8, 16, rng.randrange(17)]) for _ in range(layers))
    first = []
    features = rng.choice([0, 3, 8, 16, 60 if layers < 3 else 16])
    for _ in range(features):
        k = rng.randrange(len(zooms))
        first.append(f"put {k} " + feature(rng, zooms[k], rng.randrange(5 if features < 60 else 60), of))
    most = 2 if layers > 6 else 3 if layers > 2 else 5  # there are very many contexts of many links
    texts = [query(rng, most, of) for _ in range(rng.choice([1, 2, 5, 20]))]
    count = rng.choice([0, 1, 5, 20])
    body = first + ["publish"] * rng.choice([0, 1, 1, 1]) + [body_line(rng, command, zooms, of, texts) for _ in range(count)]
    given = feeds(rng, zooms, of) if rng.random() < 0.4 else NONE
    for load in given.loads:
        body.insert(rng.randrange(len(first if rng.random() < 0.6 else body) + 1), load)
    return Thrown(as_bytes(ended(rng, head(rng, zooms) + body)), command, given.words, given.files, True)


def played(rng):
    """A session that is in order, with what its searches are told."""
    lines, told = played_lines(rng)
    return Thrown(as_bytes(ended(rng, lines)), "replay", [], {}, True, told)


def padded(rng, command):
    """A session with a line of about as many bytes as a line may have, and whether it is in order."""
    size = LONGEST + rng.choice([0, 0, 0, 1, 1, 1, -1, 2, -100, 100, 65536])
    start, stop, before, fill, after = rng.choice(FILLED + (FILLED_SEARCHES if command == "replay" else []))
    carriage_return = rng.choice(["", "", "\r"])
    room = size - len(before + after + carriage_return)
    lines = list(SMALL)
    lines[start:stop] = [before + (fill * (room // len(fill))).ljust(room) + after + carriage_return]
    if rng.random() < 0.1:
        return "\n".join(lines[: start + 1]), False
    return "\n".join(lines + [""]), size <= LONGEST or start == len(SMALL)


def nested(rng, command):
    """A feature or a layer with a member that is nested deep."""
    depth = rng.choice([1, 10, 125, 126, 127, 128, 129, 200, 1000, 10000, 100000])
    opened, closed = rng.choice([("[", "]"), ('{"a":', "}"), ('[{"a":', "}]")])
    inner = opened * depth + "0" + closed * rng.choice([depth, depth, depth, depth - 1, 0])
    at = rng.choice(['{"id":7,"x":%s,"properties":{%s}}', '{"id":7,"properties":{"x":%s,%s}}'])
    put = at % (inner, '"carmen:text":"York","carmen:zxy":["6/31/20"]')
    if rng.random() < 0.1:
        put = inner
    city = '{"name":"city","zoom":6}'
    if rng.random() < 0.2:
        city = '{"name":"city","x":%s,"zoom":6}' % inner
    asks = [asking_line(rng, command, "york") for _ in range(2)]
    return "\n".join(["carmen 1", "layer " + city, "put 0 " + put, "publish", *asks, "end", ""])


def many(rng, command):
    """Rounds with as many lines that ask as are allowed, or with one more, and whether the session is in order."""
    rounds = [rng.choice([MOST_ASKS - 1, MOST_ASKS, MOST_ASKS, MOST_ASKS + 1]) for _ in range(rng.choice([1, 1, 2]))]
    lines = ["carmen 1", 'layer {"name":"city","zoom":6}']
    lines += ["put 0 " + feature(rng, 6, k, stock(rng)) for k in range(4)] + ["publish"]
    text = rng.choice(["york", "a b", "...", "speed=1 | a"])
    for asks in rounds:
        lanes = rng.sample(range(8), rng.choice([1, 8]))
        kinds = [f"ask {lane} {text}" for lane in lanes]
        if command == "replay":
            kinds = rng.choice([kinds, []]) + [f"explain {text}", f"replay ;{text}", replay_line(rng, events(rng), text)]
        lines += [rng.choice(kinds) for _ in range(asks)] + ["join"]
    return "\n".join(lines + ["end", ""]), max(rounds) <= MOST_ASKS


def heads(rng, command):
    """Heads with as many layers and languages as are allowed, or with one more, and whether the session is in order."""
    layers = rng.choice([MOST_LAYERS - 1, MOST_LAYERS, MOST_LAYERS, MOST_LAYERS + 1])
    langs = rng.choice([1, MOST_LANGS - 1, MOST_LANGS, MOST_LANGS + 1])
    zooms = sorted(rng.randrange(17) for _ in range(layers))
    lines = ["carmen 1", "langs " + " ".join(f"l{k}" for k in range(langs))] + ["layer " + layer(rng, zoom) for zoom in zooms]
    of = stock(rng)
    lines += [f"put {k} " + feature(rng, zoom, k, of) for k, zoom in enumerate(zooms)] + ["publish"]
    lines += [asking_line(rng, command, query(rng, 3, of)) for _ in range(3)]
    return ended(rng, lines), layers <= MOST_LAYERS and langs <= MOST_LANGS


def heavy(rng, command):
    """As many features or rows of them as are allowed, and more; the session is in order, whatever is refused."""
    tiles = ",".join(f'"12/{k % 64}/{k // 64}"' for k in range(4096))
    put = 'put 0 {"id":%d,"properties":{"carmen:text":"%s","carmen:zxy":[%s]}}'

    def rows(some_id, names):
        return put % (some_id, ",".join(f"n{k}" for k in range(names)), tiles)

    most = MOST_ROWS // 4096
    half = rng.choice([1, most // 2, most - 1])
    rest = most - half + rng.choice([0, 0, 1])
    lines = [rows(1, half), rows(2, rest), rows(1, half), rows(2, rest + 1), rows(3, 1), "drop 0 1", rows(3, half)]
    if rng.random() < 0.1:
        lines = [put % (k, "a", '"12/0/0"') for k in [*range(MOST_FEATURES + 1), 0, IDS - 1]]
        lines += ["drop 0 1", lines[-1]]
    lines += ["publish", asking_line(rng, command, "other"), "end", ""]
    return "\n".join(["carmen 1", 'layer {"name":"city","zoom":12}'] + lines)


def heavy_loads(rng):
    """Feeds with as many items, features or rows as are allowed, and with more; the session is in order."""
    draw = rng.random()
    if draw < 0.4:
        words, files = many_items(rng)
    elif draw < 0.7:
        ids = [*range(MOST_FEATURES + rng.choice([-1, 0, 1, 2])), *rng.sample(range(MOST_FEATURES), 3), IDS - 1]
        rng.shuffle(ids)
        words, files = ["csv:0"], {"0": rows_file((k, "a", "12/0/0", "") for k in ids)}
    else:
        tiles = " ".join(f"12/{k % 64}/{k // 64}" for k in range(4096))
        most = MOST_ROWS // 4096
        half = rng.choice([1, most // 2, most - 1])
        sizes = [(1, half), (2, most - half), (1, half), (2, most - half + 1), (3, 1), (2, 1), (4, 1)]
        rows = [(some_id, '"%s"' % ",".join(f"n{k}" for k in range(names)), tiles, "") for some_id, names in sizes]
        words, files = ["csv:0"], {"0": rows_file(rows)}
    words, files = words + ["csv:few"], {**files, "few": rows_file([(k, "few", "12/9/9", 3) for k in (1, 2, IDS - 1)])}
    lines = ["load 0 0", "load 1 0", 'put 0 {"id":3,"properties":{"carmen:text":"one","carmen:zxy":["12/0/0"]}}']
    command = rng.choice(COMMANDS)
    lines += ["drop 0 1", "publish", asking_line(rng, command, "few"), asking_line(rng, command, "one")]
    text = "\n".join(["carmen 1", 'layer {"name":"city","zoom":12}'] + lines + ["end", ""])
    return Thrown(as_bytes(text), command, words, files, True)


def noise(rng):
    """Bytes with no order, or lines or words of a session with none."""
    draw = rng.random()
    if draw < 0.3:
        return bytes(rng.randrange(256) for _ in range(rng.choice([0, 1, 2, 100, 5000])))
    if draw < 0.6:
        lines = [rng.choice(LINES) for _ in range(rng.randrange(30))]
        return "\n".join(rng.choice([[], ["carmen 1"], ["carmen 1", 'layer {"name":"city","zoom":6}']]) + lines + ["end", ""])
    return "".join(rng.choice(LINES + NAMES + WORDS + SIGNS + ["\n", "\n", "\r\n"]) for _ in range(rng.randrange(60)))


def change_layer(rng, line):
    """The line of a layer with something done to its JSON."""
    kind = rng.randrange(4)
    if kind == 0:
        return re.sub(r'("zoom":)[^,}]*', lambda m: m.group(1) + number(rng), line, count=1)
    if kind == 1:
        inside = rng.choice(["", "A", "a b", "a.", "_", "-", "z" * 33, "\\u0061", "\u00e9", "\\u00e9"])
        return re.sub(r'("name":")[^"]*', lambda m: m.group(1) + inside, line, count=1)
    if kind == 2:
        words = ",".join(['"a"'] * rng.choice([64, 65]))
        stack = rng.choice(["null", "[]", "{}", '"a"', "[1]", '["a",null]', '["a","a"]', '[""]', f"[{words}]"])
        return line.replace("{", '{"stack":%s,' % stack, 1)
    twice = rng.choice([
        '"tokens":{},', '"tokens":null,', '"scoremax":15,', '"scoremax":null,', '"name":null,', '"zoom":6,"zoom":7,',
        '"x":1,"x":2,',
    ])
    return line.replace("{", "{" + twice, 1)


def change_json(rng, line):
    """The line with something done to its JSON."""
    kind = rng.randrange(8)
    if kind == 0:
        return re.sub(r"\d+", lambda m: number(rng) if rng.random() < 0.4 else m.group(), line)
    if kind == 1:
        twice = rng.choice(['"id":1,', '"properties":{},', '"properties":null,', '"x":1,"x":2,', '"name":1,', '"zoom":6.0,'])
        return line.replace("{", "{" + twice, 1)
    if kind == 2:
        at = rng.randrange(len(line) + 1)
        return line[:at] + rng.choice(ESCAPES) + line[at:]
    if kind == 3:
        space = rng.choice([" ", "  ", "\t", "\r"])
        return re.sub(r"[{}:,\[\]]", lambda m: m.group() + (space if rng.random() < 0.3 else ""), line)
    return (change_layer if line.startswith("layer") else change_feature)(rng, line)


def asked(rng):
    """A line that asks by words and signs that no feature is called by."""
    words = [rng.choice(WORDS) + rng.choice(SIGNS) for _ in range(rng.choice([0, 1, 5, 19, 20, 21, 60]))]
    options = rng.choice(["", "", "auto=0 |", "box=1/0/0/1/1 |", "auto=0 box=0/0/0/0/0|", "lang=en |"])
    text = options + "".join(words)
    draw = rng.random()
    if draw < 0.4:
        return f"ask {rng.choice(['0', '1', '7', '8', ''])} {text}"
    return search_line(rng, text) if draw < 0.7 else broken_line(rng, text)


def loaded(rng):
    """A load of a feed that may be there, or may be named by another line."""
    return f"load{gap(rng)}{rng.choice([0, 0, 1, 2, 15, 16])}{gap(rng)}{rng.choice([0, 0, 1, 16, number(rng)])}"


def change_lines(rng, text):
    """The text with a line doubled, dropped, swapped, put in or changed."""
    lines = text.split("\n")
    at = rng.randrange(len(lines))
    kind = rng.randrange(11)
    if kind == 0:
        lines.insert(at, lines[at])
    elif kind == 1:
        del lines[at]
    elif kind == 2:
        other = rng.randrange(len(lines))
        lines[at], lines[other] = lines[other], lines[at]
    elif kind == 3:
        lines.insert(at, rng.choice(LINES))
    elif kind == 4:
        lines.insert(at, asked(rng) if rng.random() < 0.7 else loaded(rng))
    elif kind == 5:
        lines[at] = re.sub(r"\d+", lambda m: number(rng) if rng.random() < 0.5 else m.group(), lines[at])
    elif kind == 6:
        lines[at] = lines[at].replace(" ", rng.choice(["", "  ", "\t", " x "]), rng.choice([1, 1, -1]))
    else:
        words, change = (("put ", "layer "), change_json) if kind < 9 else (("explain ", "replay "), change_search)
        of_words = [k for k, line in enumerate(lines) if line.startswith(words)]
        if of_words:
            chosen = rng.choice(of_words)
            lines[chosen] = change(rng, lines[chosen])
    return "\n".join(lines)


def broken_command(rng, thrown):
    """The input with a command that is refused, with the other command, or with other words after it."""
    draw = rng.random()
    if draw < 0.7 and thrown.words:
        return thrown._replace(words=broken_words(rng, thrown.words), in_order=False, told=None)
    return thrown._replace(command=rng.choice(rng.choice([COMMANDS, NO_COMMANDS])), in_order=False, told=None)


def spoiled(rng):
    """A session for `replay` that was in order, with a line that mostly has a fault."""
    some = accepted(rng) if rng.random() < 0.5 else played(rng)
    lines = some.session.decode("utf-8").split("\n")
    line = broken_line(rng, rng.choice(NAMES)) if rng.random() < 0.5 else rng.choice(LINES)
    lines.insert(rng.randrange(len(lines) // 2, len(lines)), line)
    return some._replace(session=as_bytes("\n".join(lines)), command="replay", in_order=False, told=None)


def mutated(rng, examples):
    """A session that was in order and is changed by lines, by bytes, or by both; at times its command or words are too."""
    draw = rng.random()
    if draw < 0.3:
        some = rng.choice(examples)._replace(command=rng.choice(COMMANDS))
    else:
        some = accepted(rng) if draw < 0.8 else played(rng)
    if rng.random() < 0.15:
        some = broken_command(rng, some)
    text = some.session.decode("utf-8")
    if rng.random() < 0.7:
        for _ in range(rng.choice([1, 1, 1, 2, 3])):
            text = change_lines(rng, text)
    raw = as_bytes(text)
    raw = change_bytes(rng, raw) if rng.random() < 0.4 else raw
    return some._replace(session=raw, in_order=False, told=None)


def alone(command, made):
    """A session that has no feeds, and whether it is in order."""
    text, in_order = made
    return Thrown(as_bytes(text), command, [], {}, in_order)


def make(seed, index, examples):
    """The input of this number."""
    rng = random.Random(f"{seed}/{index}")
    if index < len(examples):
        return examples[index]
    command = rng.choice(COMMANDS)
    draw = rng.random()
    if draw < 0.20:
        return accepted(rng)
    if draw < 0.30:
        return played(rng)
    if draw < 0.35:
        maker = padded if draw < 0.32 else many if draw < 0.33 else heads
        return alone(command, maker(rng, command))
    if draw < 0.354:
        return alone(command, (heavy(rng, command), True)) if draw < 0.352 else heavy_loads(rng)
    if draw < 0.43:
        return alone(command, (nested(rng, command) if draw < 0.38 else noise(rng), False))
    return spoiled(rng) if draw < 0.50 else mutated(rng, examples)
