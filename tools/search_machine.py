"""The search of a query over a few features, event by event: slow and plain, and written apart from the program."""

import collections
import functools
import itertools

WORKERS = 8
MOST_FOUND = 40  # targets of an answer
Layer = collections.namedtuple("Layer", "name zoom stack")  # a stack that is None is absent
Place = collections.namedtuple("Place", "layer id names tiles score")  # a name is its tokens and a relevance
Query = collections.namedtuple("Query", "tokens auto box")  # a box that is None is absent
Piece = collections.namedtuple("Piece", "layer start stop top cells")
Cell = collections.namedtuple("Cell", "id x y value score")


# ---- what a query matches


def stand_together(a, b):
    """The layers' names differ and their stacks share a word."""
    return a.name != b.name and (a.stack is None or b.stack is None or not set(a.stack).isdisjoint(b.stack))


def meets(box, zoom, x, y):
    """A tile of this zoom meets the box."""
    z, x0, y0, x1, y1 = box
    up, down = max(z - zoom, 0), max(zoom - z, 0)
    return x0 >> up <= x >> down <= x1 >> up and y0 >> up <= y >> down <= y1 >> up


def matches(query, start, stop, name):
    """A run of the query's tokens is a name, or at the query's end the beginning of one."""
    run, text = (" ".join(tokens) for tokens in (query.tokens[start:stop], name))
    return text.startswith(run) if query.auto and stop == len(query.tokens) else text == run


def piece(layers, places, query, n, start, stop):
    """What a run matches in a layer, with the greatest pair of value and score whether in the box or not; None for nothing."""
    tops, cells = set(), set()
    for place in places:
        worths = [relevance for name, relevance in place.names if place.layer == n and matches(query, start, stop, name)]
        for worth in worths:
            value = (stop - start) * worth * 100
            tops.add((value, place.score))
            tiles = (tile for tile in place.tiles if query.box is None or meets(query.box, layers[n].zoom, *tile))
            cells.update(Cell(place.id, *tile, value, place.score) for tile in tiles)
    return Piece(n, start, stop, max(tops), cells) if tops else None


# ---- the tree


class Search:
    """The pieces of a query, and the tree of partials, which are tuples of piece numbers."""

    def __init__(self, layers, places, query):
        self.layers = layers
        runs = list(itertools.combinations(range(len(query.tokens) + 1), 2))
        found = (piece(layers, places, query, n, *run) for n in range(len(layers)) for run in runs)
        self.pieces = list(filter(None, found))
        self.bound = functools.lru_cache(maxsize=None)(self.bound_of)
        self.survivors = functools.lru_cache(maxsize=None)(self.survivors_of)
        self.roots = sorted(((k,) for k in range(len(self.pieces))), key=lambda root: (-self.bound(root), root))

    def goes_below(self, deep, shallow):
        a, b = self.pieces[deep], self.pieces[shallow]
        disjoint = a.stop <= b.start or b.stop <= a.start
        return b.layer < a.layer and disjoint and stand_together(self.layers[a.layer], self.layers[b.layer])

    def candidates(self, partial):
        return [k for k in range(len(self.pieces)) if all(self.goes_below(j, k) for j in partial)]

    def children(self, partial):
        return [(*partial, k) for k in self.candidates(partial)]

    def bound_of(self, partial):
        """What no key of a context that begins with these pieces exceeds."""
        runs = ((self.pieces[k].start, self.pieces[k].stop) for k in self.candidates(partial))
        tokens = set().union(*itertools.starmap(range, runs))
        return 16 * (sum(self.pieces[k].top[0] for k in partial) + 10000 * len(tokens)) + self.pieces[partial[0]].top[1]

    def best_parent(self, deep, cell, k):
        """The greatest value of a cell of piece k whose tile holds that of the cell of a deeper piece, or None."""
        up = self.layers[self.pieces[deep].layer].zoom - self.layers[self.pieces[k].layer].zoom
        tile = cell.x >> up, cell.y >> up
        return max((parent.value for parent in self.pieces[k].cells if (parent.x, parent.y) == tile), default=None)

    def survivors_of(self, partial):
        """The targets and keys of the best contexts of exactly these pieces, one for each cell of the first that has one."""
        found = []
        for cell in self.pieces[partial[0]].cells:
            parents = [self.best_parent(partial[0], cell, k) for k in partial[1:]]
            if None not in parents:
                target = self.pieces[partial[0]].layer, cell.id
                found.append((target, 16 * (cell.value + sum(parents)) + cell.score))
        return found


# ---- the machine


class Machine:
    """Workers that claim roots, open and cut partials, and share a floor."""

    def __init__(self, search):
        self.search = search
        self.next = 0  # root
        self.floor = 0
        self.stacks = [[] for _ in range(WORKERS)]  # of partials, the top one last
        self.seen = [0] * WORKERS
        self.bests = [{} for _ in range(WORKERS)]  # the greatest key of each target
        self.counts = collections.Counter()

    def is_allowed(self, event):
        letter, w = event[0], int(event[1])
        stack = self.stacks[w]
        if letter in "ox":
            return bool(stack) and (self.search.bound(stack[-1]) < self.seen[w]) == (letter == "x")
        return letter in "lr" or not stack

    def happen(self, event):
        letter, w = event[0], int(event[1])
        self.counts[letter] += 1
        if letter == "c":
            self.stacks[w] += self.search.roots[self.next : self.next + 1]
            self.next += 1
        elif letter == "l":
            self.seen[w] = max(self.seen[w], self.floor)
        elif letter == "r":
            keys = sorted(self.bests[w].values(), reverse=True)
            self.floor = max([self.floor, *keys[MOST_FOUND - 1 : MOST_FOUND]])
        else:
            partial = self.stacks[w].pop()
            if letter == "o":
                self.open(w, partial)

    def open(self, w, partial):
        survivors = self.search.survivors(partial)
        for target, key in survivors:
            self.bests[w][target] = max(key, self.bests[w].get(target, 0))
        if survivors:
            self.stacks[w] += reversed(self.search.children(partial))

    def left(self):
        """The first root that isn't done, or None."""
        held = {partial[:1] for stack in self.stacks for partial in stack}
        return next((k for k, root in enumerate(self.search.roots) if k >= self.next or root in held), None)

    def verdict(self):
        """What is told after the events."""
        left = self.left()
        return f"found {min(MOST_FOUND, len(set().union(*self.bests)))}" if left is None else f"unfinished {left}"


def replayed(search, events):
    """What is told of a search by these events."""
    machine = Machine(search)
    for place, event in enumerate(events):
        if not machine.is_allowed(event):
            return f"illegal {place}"
        machine.happen(event)
    return machine.verdict()


def explained(search):
    """What is told of the search by one worker: what it found, and how many partials it opened and cut."""
    machine = Machine(search)
    while machine.left() is not None:
        if machine.stacks[0]:
            machine.happen("r0")
            machine.happen("l0")
            machine.happen("x0" if machine.is_allowed("x0") else "o0")
        else:
            machine.happen("c0")
    return [machine.verdict(), f"opens {machine.counts['o']} cuts {machine.counts['x']}"]
