"""Random lines that explain and replay queries: events in order and not; and small sessions whose searches are played."""

from search_machine import WORKERS, Layer, Machine, Place, Query, Search, explained, replayed
from thrown_features import gap

EVENTS = [letter + str(w) for letter in "clxor" for w in range(WORKERS)]
NO_EVENTS = [
    "c8", "o8", "x8", "l8", "r8", "c9", "l9", "c", "0", "c00", "00", "C0", "O0", "c0c1", "c0o0", "c-1", "c+0", "0c", "c0,", "cc",
    "d0", "a0", "\tc0", "c0\t", "c0\to0", "c\u0660", "\u00e90", "c0\u00e9", "|", "|c0", "#", "\\", "c0\r", "claim", "explain",
    "\0", "c0\0",
]
PATTERNS = [
    "", "", "c0", "c0 o0", "c0 o0", "c0 o0", "c7 o7", "c0 o0 o0", "c0 o0 o0 o0", "c0 o0 o0 o0 o0 o0", "c0 o0 c0", "c0 o0 c0 o0",
    "c0 o0 c0 o0 c0 o0", "c0 c1 o0 o1", "c0 c1 o1 o0", "c3 c5 c3 o5", "c0 c0", "c0 c1 c2 c3 c4 c5 c6 c7", "c0 x0", "c0 r0 l0 x0",
    "c0 o0 r0 l0", "c0 l0 r0 o0", "c0 o0 r0 l1 c1 x1", "o0", "x0", "x7", "l0", "r0", "l0 r0 l7 r7", "c0 o0 x0", "c0 o0 x1",
]
MOST_EVENTS = 200  # that are played
VOCABULARY = ["a", "b", "ab", "abc", "new", "york"]


def events(rng):
    """Some events, few of which are all allowed where they are many."""
    if rng.random() < 0.7:
        return rng.choice(PATTERNS).split()
    crew = rng.sample(range(WORKERS), rng.choice([1, 1, 2]))
    return [f"{rng.choice('ccooolrx')}{rng.choice(crew)}" for _ in range(rng.choice([1, 2, 4, 8, 30]))]


def replay_line(rng, some_events, text):
    """The line that replays a query by these events."""
    listed = gap(rng).join(some_events) + rng.choice([" ", " ", "", "   "])
    return "replay" + gap(rng) + listed + ";" + rng.choice([" ", " ", ""]) + text


def search_line(rng, text):
    """A line that explains or replays a query."""
    return "explain " + text if rng.random() < 0.4 else replay_line(rng, events(rng), text)


def broken_line(rng, text):
    """A line that is meant to explain or replay, and mostly has a fault."""
    if rng.random() < 0.5:
        listed = events(rng)
        for _ in range(rng.choice([1, 1, 2])):
            listed.insert(rng.randrange(len(listed) + 1), rng.choice(NO_EVENTS))
        return replay_line(rng, listed, text)
    word = rng.choice(["explain", "replay", "replay", "replay", "Replay", "explain;", "replay;", "replay:", "\treplay"])
    front = word + rng.choice([" ", " ", "  ", "\t", ""]) + " ".join(events(rng))
    return front + rng.choice(["", " ;", ";", ";;", " ; ;", ":"]) + text


def change_search(rng, line):
    """The line of a search with something done to its words or its signs."""
    kind = rng.randrange(6)
    if kind == 0:
        return line.replace(";", rng.choice(["", ":", ";;", " ; ; ", "\t;", ";|", "|;"]), 1)
    if kind == 1:
        return rng.choice(["replay", "explain", "ask 0", "explain ;", "replay ;"]) + line[line.find(" ") :]
    words = line.split(" ")
    at = rng.randrange(1, len(words) + 1)
    if kind == 2:
        words.insert(at, rng.choice(EVENTS + NO_EVENTS))
    elif kind == 3:
        words[at : at + 1] = [rng.choice(EVENTS + NO_EVENTS + [""])]
    elif kind == 4:
        words[at : at + 1] = []
    else:
        words[at:] = words[at:][::-1]
    return " ".join(words)


# ---- searches that are played


def some_layers(rng):
    """A few layers, most of which may stand together."""
    zooms = sorted(rng.choice([4, 6, 6, 8, 10]) for _ in range(rng.choice([1, 2, 2, 3, 3, 4])))
    stacks = [None, None, None, None, ["us"], ["ca"], ["us", "ca"], []]
    names = rng.sample("abcd", 4) if rng.random() < 0.8 else rng.choices("abcd", k=4)
    return [Layer(name, zoom, rng.choice(stacks)) for name, zoom in zip(names, zooms)]


def some_tile(rng, zoom):
    """A tile on or near one of two points."""
    point = rng.choice([(5, 9), (12, 3)])
    return tuple((c << zoom >> 4) + rng.choice([0, 0, 0, rng.randrange(4)]) for c in point)


def some_place(rng, layers, words):
    """A feature called by a few of the words."""
    n = rng.randrange(len(layers))
    names = [tuple(rng.choices(words, k=rng.choice([1, 1, 1, 2]))) for _ in range(rng.choice([1, 1, 2]))]
    tiles = {some_tile(rng, layers[n].zoom) for _ in range(rng.choice([1, 1, 1, 2]))}
    worths = [(name, 80 if k else 100) for k, name in enumerate(names)]
    return Place(n, rng.randrange(9), worths, sorted(tiles), rng.randrange(16))


def some_crowd(rng, layers, name):
    """So many features of one name that a list of the best has a floor, or just too few."""
    n, first = rng.randrange(len(layers)), rng.choice([100, 200])
    scores = rng.choice([range(16), range(12, 16), [0], [15], [7, 8]])
    count = rng.choice([39, 40, 40, 41, 60])
    tiles = [[some_tile(rng, layers[n].zoom)] for _ in range(count)]
    return [Place(n, first + k, [(name, 100)], tiles[k], rng.choice(scores)) for k in range(count)]


def put_line(layers, place):
    text = ",".join(" ".join(name) for name, _ in place.names)
    tiles = ",".join(f'"{layers[place.layer].zoom}/{x}/{y}"' for x, y in place.tiles)
    members = f'"carmen:text":"{text}","carmen:zxy":[{tiles}],"carmen:score":{place.score}'
    return f'put {place.layer} {{"id":{place.id},"properties":{{{members}}}}}'


def layer_line(layer):
    stack = "" if layer.stack is None else ',"stack":[%s]' % ",".join(f'"{word}"' for word in layer.stack)
    return f'layer {{"name":"{layer.name}","zoom":{layer.zoom}{stack}}}'


def some_query(rng, words, name, most):
    """A query of about so many tokens, which may have this name among them, and its text."""
    tokens = rng.choices(words, k=rng.randrange(1, most + 1))
    if rng.random() < 0.5:
        at = rng.randrange(len(tokens))
        tokens[at : at + len(name)] = name
    auto, box = rng.random() < 0.6, None
    options = [] if auto else ["auto=0"]
    if rng.random() < 0.2:
        box = rng.choice([(4, 5, 9, 5, 9), (4, 0, 0, 5, 15), (6, 21, 36, 22, 40), (0, 0, 0, 0, 0), (10, 0, 0, 9, 9)])
        options.append("box=" + "/".join(map(str, box)))
    front = " ".join(options) + "|" if options else ""
    return Query(tokens, auto, box), front + rng.choice([" ", " ", " ", ";", " ; "]).join(tokens)


def play(rng, search):
    """Events by which some workers search, each of them allowed: to the end, where they aren't too many."""
    machine, played = Machine(search), []
    crew = rng.sample(range(WORKERS), rng.choice([1, 1, 2, 2, 3, 8]))
    hasty = rng.choice([0.1, 0.3, 0.6])
    while machine.left() is not None and len(played) < MOST_EVENTS:
        w = rng.choice(crew)
        if rng.random() < hasty:
            event = rng.choice("lr") + str(w)
        elif machine.stacks[w]:
            event = ("o" if machine.is_allowed(f"o{w}") else "x") + str(w)
        else:
            event = f"c{w}"
        machine.happen(event)
        played.append(event)
    return played + [rng.choice("lrc") + str(rng.randrange(WORKERS)) for _ in range(rng.choice([0, 0, 0, 1, 3]))]


def damaged(rng, played):
    """The events with something done to one or two of them, or the first of them."""
    made = list(played)
    at = rng.randrange(len(made) + 1)
    kind = rng.randrange(7)
    if kind < 2:
        return made[:at]
    if kind == 2:
        del made[at : at + 1]
    elif kind == 3:
        made.insert(at, rng.choice(EVENTS))
    elif kind == 4:
        made[at : at + 2] = made[at : at + 2][::-1]
    elif kind == 5:
        made[at : at + 1] = [event[0] + str(rng.randrange(WORKERS)) for event in made[at : at + 1]]
    else:
        made[at : at + 1] = [rng.choice("ox") + event[1] for event in made[at : at + 1]]
    return made


def search_lines(rng, search, text):
    """Lines that ask, explain and replay a query, and what those that explain and replay are told."""
    lines, told = [], []
    for _ in range(rng.choice([1, 2, 4])):
        draw = rng.random()
        if draw < 0.2:
            lines.append(f"ask {rng.randrange(8)} {text}")
        elif draw < 0.4:
            lines.append("explain " + text)
            told += explained(search)
        else:
            played = play(rng, search) if draw < 0.95 else events(rng)
            made = damaged(rng, played) if draw > 0.65 else played
            lines.append(replay_line(rng, made, text))
            told.append(replayed(search, made))
    return lines, told


def played_lines(rng):
    """The lines of a session, but its `end`, whose searches are played; and what its lines that explain and replay are told."""
    layers, words = some_layers(rng), rng.sample(VOCABULARY, rng.choice([1, 2, 3, 4]))
    name = tuple(rng.choices(words, k=rng.choice([1, 1, 2])))
    lines, told, places = ["carmen 1", *map(layer_line, layers)], [], {}
    for _ in range(rng.choice([1, 1, 2])):
        added = [some_place(rng, layers, words) for _ in range(rng.randrange(1, 12))]
        for _ in range(rng.choice([0, 0, 1, 1, 2])):
            added += some_crowd(rng, layers, name)
        rng.shuffle(added)
        places.update(((place.layer, place.id), place) for place in added)
        lines += [put_line(layers, place) for place in added] + ["publish"]
        for _ in range(rng.choice([1, 2, 3])):
            query, text = some_query(rng, words, name, 4 if len(layers) < 3 else 3)
            more, known = search_lines(rng, Search(layers, list(places.values()), query), text)
            lines += more
            told += known
    return lines, told
