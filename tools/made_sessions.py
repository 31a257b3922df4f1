"""Sessions that are too large to be written out, each with what has to come of it: by hand, from the rules of the session text."""

import collections
import random

from search_machine import Layer, Place, Query, Search, replayed
from thrown_searches import play

Made = collections.namedtuple("Made", "name words session files written told status")

HEAD = 'carmen 1\nlayer {"name":"a","zoom":6}\n'
MOST_LINE = 1_048_576  # bytes


def made(name, session, written="", told="", status=0, words=("plain",), files=None):
    return Made(name, list(words), session.encode(), files or {}, written.encode(), told.encode(), status)


def put(layer, feature, names, tiles):
    listed = ",".join(f'"{tile}"' for tile in tiles)
    return f'put {layer} {{"id":{feature},"properties":{{"carmen:text":"{names}","carmen:zxy":[{listed}]}}}}\n'


def some_names(count):
    return ",".join(f"part {n}" for n in range(count))


def some_tiles(count):
    """Tiles of zoom 6, from the last to the first."""
    return [f"6/{n // 64}/{n % 64}" for n in reversed(range(count))]


# ---- as much as may be, and one more


def asks():
    """A round may ask 4,096 times."""
    found = "".join(f"ask 7 {k} gen 0 found 0\n" for k in range(4096))
    yield made("4096_asks", HEAD + "ask 7 x\n" * 4096 + "join\nask 7 x\nend", found + "ask 7 4096 gen 0 found 0\n")
    yield made("4097_asks", HEAD + "ask 7 x\n" * 4097 + "end", told="carmen: line 4099: 11 Asks\n", status=2)
    mixed = "".join(f"explain {k}\n" for k in range(2048)) + "".join(f"replay ; {k}\n" for k in range(2048))
    told = "carmen: line 4099: 11 Asks\n"
    yield made("4097_lines_that_ask", HEAD + mixed + "ask 0 usa\nend\n", told=told, status=2, words=["replay"])
    told = "carmen: line 4099: 5 Form\n"
    yield made("form_before_asks", HEAD + mixed + "replay c ; usa\nend\n", told=told, status=2, words=["replay"])


def lines():
    """A line may have 1,048,576 bytes, also one that is skipped or lacks its line feed."""
    room = MOST_LINE - len("ask 7 ")
    yield made("longest_line", HEAD + "ask 7 " + "x" * room + "\nend", "ask 7 0 unreadable 3 Long\n")
    yield made("line_too_long", HEAD + "ask 7 " + "x" * (room + 1) + "\nend", told="carmen: line 3: 1 Long\n", status=2)
    yield made("longest_rest", "carmen 1\n" + "#" * MOST_LINE, told="carmen: no end line\n", status=3)
    yield made("rest_too_long", "carmen 1\n" + "#" * (MOST_LINE + 1), told="carmen: line 2: 1 Long\n", status=2)


def tokens():
    """A layer may replace 4,096 tokens."""
    for count, status, told in [(4096, 0, ""), (4097, 2, "carmen: line 2: 7 Layer 6 Tokens\n")]:
        pairs = ",".join(f'"W{n}":"{"long" * 17}{n}"' for n in range(count))
        session = f'carmen 1\nlayer {{"name":"a","zoom":6,"tokens":{{{pairs}}}}}\n'
        session += put(0, 1, "w4095 w7", ["6/0/0"]) + f"publish\nask 0 w4095 {'long' * 17}7\nask 0 w4095 w8\nend\n"
        written = "put 0 1 new\npublished 1\nask 0 0 gen 1 found 1\ncontext 20000/20000 score 0 0:1@6/0/0[0,2)=20000\n"
        written = "" if status else written + "ask 0 1 gen 1 found 0\n"
        yield made(f"{count}_replaced_tokens", session, written, told, status)


def large_features():
    """A feature may have thousands of names on one tile, or 4,096 tiles."""
    session = HEAD + put(0, 1, some_names(5000), ["6/0/0"]) + put(0, 2, "wide", some_tiles(4096))
    session += "limit 4096\npublish\nask 0 part 4999\nask 0 auto=0 | part 0\nask 0 wide\nlimit 4095\npublish\nask 0 wide\nend\n"
    written = "put 0 1 new\nput 0 2 new\nlimit 4096\npublished 1\n"
    written += "ask 0 0 gen 1 found 1\ncontext 16000/20000 score 0 0:1@6/0/0[0,2)=16000\n"
    written += "ask 0 1 gen 1 found 1\ncontext 20000/20000 score 0 0:1@6/0/0[0,2)=20000\n"
    written += "ask 0 2 gen 1 found 1\ncontext 10000/10000 score 0 0:2@6/0/0[0,1)=10000\n"
    yield made("thousands_of_names_and_tiles", session, written + "limit 4095\npublished 2\nask 0 3 gen 2 grids 4096 4095\n")
    told = "carmen: line 3: 10 Feature 4 Zxy\n"
    yield made("put_of_4097_tiles", HEAD + put(0, 1, "a", ["6/5/7"] * 4097) + "end\n", told=told, status=2)
    table = "".join(f"{count},a,{' 6/5/7' * count},3\n" for count in (4096, 4097)).encode()
    session = HEAD + "load 0 0\npublish\nask 0 a\nend\n"
    written = "load 0 0 read 2 bad 1 full 0 end\npublished 1\nask 0 0 gen 1 found 1\n"
    written += "context 10000/10000 score 3 0:4096@6/5/7[0,1)=10000\n"
    yield made("row_of_4097_tiles", session, written, words=["plain", "csv:long.csv"], files={"long.csv": table})


def rows():
    """All features together may have 8,388,608 rows, which are names times tiles."""
    puts = [
        (1, 2049, 4096, "rows"), (1, 2048, 4096, "new"), (2, 1, 1, "rows"), (1, 2049, 4096, "rows"), (1, 2048, 4095, "changed"),
        (2, 1, 2049, "rows"), (2, 1, 2048, "new"), (3, 1, 1, "rows"), (3, 0, 1, "new"),
    ]  # fmt: skip
    session = HEAD + "".join(put(0, id, some_names(names), some_tiles(tiles)) for id, names, tiles, _ in puts)
    yield made("most_rows", session + "end\n", "".join(f"put 0 {id} {told}\n" for id, _, _, told in puts))
    table = b"2,a,6/0/0,\n3,,6/0/0,\nx,a,6/0/0,\n1,b,6/0/0,\n2,a,6/0/0,\n"
    session = HEAD + put(0, 1, some_names(2048), some_tiles(4096)) + "load 0 0\ndrop 0 2\ndrop 0 3\ndrop 0 1\nend\n"
    written = "put 0 1 new\nload 0 0 read 5 bad 1 full 1 end\ndrop 0 2 gone\ndrop 0 3 gone\ndrop 0 1 gone\n"
    yield made("load_of_too_many_rows", session, written, words=["plain", "csv:rows.csv"], files={"rows.csv": table})


def features():
    """All layers together may have 262,144 features; one that stands may still be changed, or dropped for another."""
    places = [(layer, id) for id in range(16_384) for layer in range(16)]
    head = "carmen 1\n" + "".join(f'layer {{"name":"n{n}","zoom":6}}\n' for n in range(16))
    fill = head + "".join(put(layer, id, "part", ["6/0/0"]) for layer, id in places)
    written = "".join(f"put {layer} {id} new\n" for layer, id in places)
    more = put(3, 16_384, "part", ["6/0/0"]), put(3, 7, "part", ["6/0/0"])
    session = fill + more[0] + more[1] + "limit 1\npublish\nask 0 part\ndrop 3 7\npublish\nask 0 part\n" + more[0] + more[1] + "end\n"
    written += "put 3 16384 features\nput 3 7 changed\nlimit 1\npublished 1\nask 0 0 gen 1 grids 262144 1\n"
    written += "drop 3 7 gone\npublished 2\nask 0 1 gen 2 grids 262143 1\nput 3 16384 new\nput 3 7 features\n"
    yield made("most_features", session, written)


def items():
    """A load reads 1,048,576 items."""
    session, lines = HEAD + "load 0 0\nend\n", b"x\n" * 1_048_577
    written = "load 0 0 read 1048576 bad 1048576 full 0 limit\n"
    yield made("most_items", session, written, words=["plain", "json:x.jsonl"], files={"x.jsonl": lines})


# ---- whatever the workers do, and when


def schedules():
    """A query of a street, 60 towns and a country, searched in a thousand ways, each played on a plain machine."""
    towns = range(101, 161)
    six = [(x, 0) for x in range(6)]
    layers = [Layer("country", 6, None), Layer("place", 6, None)]
    places = [Place(0, 1, [(("france",), 100)], [(0, 0)], 0), Place(1, 2, [(("main", "street"), 100)], [(0, 0)], 0)]
    places += [Place(1, town, [(("springfield",), 100)], six, 0) for town in towns]
    query = "main street springfield france"
    search, rng = Search(layers, places, Query(query.split(), True, None)), random.Random(19)
    session = "carmen 1\n" + "".join(f'layer {{"name":"{layer.name}","zoom":6}}\n' for layer in layers)
    for place in places:
        session += put(place.layer, place.id, " ".join(place.names[0][0]), [f"6/{x}/{y}" for x, y in place.tiles])
    written = "".join(f"put {place.layer} {place.id} new\n" for place in places) + "published 1\n"
    answer = "found 40\ncontext 30000/40000 score 0 1:2@6/0/0[0,2)=20000 0:1@6/0/0[3,4)=10000\n"
    for town in towns[:39]:
        answer += f"context 20000/40000 score 0 1:{town}@6/0/0[2,3)=10000 0:1@6/0/0[3,4)=10000\n"
    schedules = [play(rng, search) for _ in range(1000)]
    assert any(event[0] == "x" for events in schedules for event in events), "nothing is cut"
    verdicts = [replayed(search, events) for events in schedules]
    session += "publish\n" + "".join(f"replay {' '.join(events)} ; {query}\n" for events in schedules) + "end\n"
    written += "".join("replay gen 1 " + (answer if told == "found 40" else told + "\n") for told in verdicts)
    yield made("thousand_schedules", session, written, words=["replay"])


def made_sessions():
    """All of them."""
    for group in (asks, lines, tokens, large_features, rows, features, items, schedules):
        yield from group()
