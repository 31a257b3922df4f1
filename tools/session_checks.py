"""What a run of the program on a session has to be, as far as the words of the session's lines say."""

import collections
import itertools
import json
import re
import unicodedata

from feed_checks import (
    CODE, IDS, MOST_FEEDS, MOST_ITEMS, Feature, feature_of_item, feature_of_text, feed_of, items_of, number_of,
)
from search_checks import MOST_FOUND, VERDICT, counts_fault, events_of, found_fault, verdict_fault

LONGEST = 1_048_576  # the most bytes of a line
MOST_ASKS = 4096  # lines of a round that ask
MOST_LAYERS = 16
MOST_LANGS = 127
MOST_FEATURES = 262_144
MOST_ROWS = 8_388_608
MOST_LIMIT = 8_388_608
USUAL_LIMIT = 2_000_000

BODY = {"put", "drop", "load", "limit", "publish", "ask", "join", "end"}
SEARCHES = {"explain", "replay"}
WORDS = {"plain": BODY, "replay": BODY | SEARCHES}  # of lines of the body, by the command
LAYER_FAULTS = [
    "7 Layer 1 Json", "7 Layer 2 Name", "7 Layer 3 Zoom", "7 Layer 4 Falling", "7 Layer 5 Stack", "7 Layer 6 Tokens",
    "7 Layer 7 TooMany", "7 Layer 8 ScoreMax",
]
WORTHS = list(itertools.product((40, 60, 80, 100), (96, 100)))  # relevances and factors
NO_END = "no line `end`"
REFUSED = re.compile(r"carmen: line ([1-9]\d*): (\d.*)\n")
ANSWER = re.compile(r"gen (\d+) found (\d+)|gen (\d+) grids (\d+) (\d+)|unreadable (\d \w+)")
CONTEXT = re.compile(r"context (\d+)/(\d+) score (\d+)((?: \d+:\d+@\d+/\d+/\d+\[\d+,\d+\)=\d+)+)")
SEARCHED = re.compile(r"^(?:(?:explain|replay) gen \d+ (.+)|(opens .+))$", re.MULTILINE)
LOADED = re.compile(r"load (\d+) (\d+) read (\d+) bad (\d+) full (\d+) (end|fault|limit)")
LINK = re.compile(r" (\d+):(\d+)@(\d+)/(\d+)/(\d+)\[(\d+),(\d+)\)=(\d+)")


# ---- what the words of a session say


def numbers_of(text):
    """The numbers of fields with spaces between, or None."""
    numbers = [number_of(field) for field in text.split(" ") if field]
    return None if None in numbers else numbers


def token_count(text):
    """The number of runs of letters, marks and numbers in the normal form of a text."""
    folded = unicodedata.normalize("NFD", unicodedata.normalize("NFD", text).casefold())
    kept = (c for c in folded if not "\u0300" <= c <= "\u036f")
    return sum(inside for inside, _ in itertools.groupby(kept, lambda c: unicodedata.category(c)[0] in "LMN"))


def tokens_and_fault(line):
    """How many tokens the text of a query has, and the fault that it has by its length or by these, or None."""
    text = line.partition("|")[2] if "|" in line else line
    tokens = token_count(text)
    return tokens, "3 Long" if len(text) > 256 else "4 Empty" if tokens == 0 else "5 Tokens" if tokens > 20 else None


class Reading:
    """Where a session that has so many feeds, and these words of lines of the body, stands between two of its lines, and what
    those of its closed rounds were."""

    def __init__(self, feeds, words):
        self.feeds = feeds
        self.words = words
        self.named = set()
        self.place = "title"
        self.zooms = []
        self.open = []
        self.asks = 0
        self.closed = []

    def line(self, line):
        """What the line says, which is None where it can't be accepted, and the faults of which it may have one."""
        if len(line) > LONGEST:
            return None, ["1 Long"]
        try:
            text = line.decode("utf-8").removesuffix("\r")
        except UnicodeDecodeError:
            return None, ["2 Utf8"]
        if not text.strip(" ") or text.startswith("#"):
            return ("skipped",), []
        if self.place == "title":
            return (("title",), []) if text.rstrip(" ") == "carmen 1" else (None, ["3 Head"])
        word, _, rest = text.partition(" ")
        if word == "langs" and self.place == "langs":
            return self.langs(rest)
        if word == "layer" and self.place != "body":
            return (None if len(self.zooms) == MOST_LAYERS else ("layer", rest)), LAYER_FAULTS
        if word not in self.words or not self.zooms:
            return None, ["4 Word"]
        return self.body_line(word, rest)

    def langs(self, rest):
        codes = [code for code in rest.split(" ") if code]
        if not 1 <= len(codes) <= MOST_LANGS or len(set(codes)) < len(codes) or not all(map(CODE.fullmatch, codes)):
            return None, ["6 Lang"]
        return ("langs",), []

    def body_line(self, word, rest):
        if word in ("put", "ask"):
            field, _, text = rest.lstrip(" ").partition(" ")
            n = number_of(field)
            if n is None:
                return None, ["5 Form"]
            return self.put(n, text) if word == "put" else self.ask(n, text)
        if word == "explain":
            return self.asking(word, rest)
        if word == "replay":
            return self.replay(*rest.partition(";"))
        numbers = numbers_of(rest)
        wanted = {"drop": 2, "load": 2, "limit": 1}.get(word, 0)
        if numbers is None or len(numbers) != wanted:
            return None, ["5 Form"]
        if word == "limit":
            return ((word, *numbers), []) if 1 <= numbers[0] <= MOST_LIMIT else (None, ["8 Number"])
        if word == "drop":
            return ((word, *numbers), []) if numbers[0] < len(self.zooms) and numbers[1] < IDS else (None, ["8 Number"])
        if word == "load":
            return self.load(*numbers)
        return (word,), []

    def load(self, feed, n):
        if n >= len(self.zooms):
            return None, ["8 Number"]
        if feed >= self.feeds or feed in self.named:
            return None, ["9 Feed"]
        return ("load", feed, n), []

    def put(self, n, text):
        if n >= len(self.zooms):
            return None, ["8 Number"]
        feature = feature_of_text(text.encode("utf-8"), self.zooms[n])
        return (("put", n, feature), []) if isinstance(feature, Feature) else (None, [f"10 Feature {feature}"])

    def ask(self, n, text):
        return self.asking("ask", n, text) if n <= 7 else (None, ["8 Number"])

    def replay(self, fields, semicolon, text):
        events = events_of(fields)
        return self.asking("replay", events, text) if semicolon and events is not None else (None, ["5 Form"])

    def asking(self, *item):
        return (item, []) if self.asks < MOST_ASKS else (None, ["11 Asks"])

    def take(self, item):
        """Takes what an accepted line says."""
        if item[0] == "title":
            self.place = "langs"
        elif item[0] == "langs":
            self.place = "head"
        elif item[0] == "layer":
            self.place = "head"
            self.zooms.append(json.loads(item[1])["zoom"])
        elif item[0] != "skipped":
            self.place = "body"
            if item[0] in ("join", "end"):
                self.closed += self.open
                self.open, self.asks = [], 0
            else:
                self.open.append(item)
                self.asks += item[0] == "ask" or item[0] in SEARCHES
                if item[0] == "load":
                    self.named.add(item[1])


def walked(reading, raw, refused):
    """Reads a session up to its end, or to the line of which the program says, by number and fault, that it is refused.
    What is wrong with that, or None."""
    lines = raw.split(b"\n")
    rest = lines.pop()
    if rest in (b"end", b"end\r") or len(rest) > LONGEST:
        lines.append(rest)
    told = "line %d is refused for %s" % refused if refused else None
    for at, line in enumerate(lines, 1):
        item, faults = reading.line(line)
        if refused and refused[0] == at:
            return None if refused[1] in faults else f"{told}, where it may be for {' or '.join(faults) or 'nothing'}"
        if item is None:
            return f"line {at} isn't refused for {' or '.join(faults)}"
        try:
            reading.take(item)
        except (ValueError, LookupError, TypeError, AttributeError, RecursionError):
            return f"line {at} isn't refused, though its JSON is none of a layer"
        if item[0] == "end":
            return f"{told}, which stands after the end" if refused else None
    return f"{told}, which isn't there" if refused else NO_END


# ---- what is written


class Standing:
    """What stands between two lines of the closed rounds, in a session with feeds of these kinds from files with these bytes,
    which are None where they can't be read."""

    def __init__(self, zooms, feeds):
        self.zooms = zooms
        self.feeds = feeds
        self.features = {}  # the most rows that each can have, by layer and id
        self.unsure = set()  # those of them that may not stand: a load may have been refused them, or others in their place
        self.rows = 0  # the sum of these
        self.limit = USUAL_LIMIT
        self.number = 0
        self.published = set()
        self.published_limit = USUAL_LIMIT
        self.asks = [0] * 8
        self.told = {}  # of the generation, by the words of lines that ask

    def stands(self, at, yes, no):
        """The words that may be told of a feature: one where it stands, one where it doesn't."""
        return {yes, no} if at in self.unsure else {yes if at in self.features else no}

    def refusals(self, at, rows):
        """The words by which a feature may be refused for a limit."""
        risen = self.rows - self.features.get(at, 0) + rows
        is_new = at not in self.features or at in self.unsure
        others = len(self.features) - (at in self.features)
        reached = {"features": is_new and others >= MOST_FEATURES, "rows": risen > MOST_ROWS}
        return {word for word in reached if reached[word]}

    def is_refused(self, at):
        """The feature would be one too many, whatever stands of those that are unsure."""
        return at not in self.features and len(self.features) - len(self.unsure) >= MOST_FEATURES

    def put(self, n, feature, line):
        at = n, feature.id
        front, _, said = line.rpartition(" ")
        may_be = {"features"} if self.is_refused(at) else self.stands(at, "changed", "new") | self.refusals(at, feature.rows)
        if said in ("new", "changed"):
            self.set(at, feature.rows)
        return front == f"put {n} {feature.id}" and said in may_be

    def set(self, at, rows):
        """A feature stands."""
        self.rows += rows - self.features.get(at, 0)
        self.features[at] = rows
        self.unsure.discard(at)

    def drop(self, n, some_id, line):
        at = n, some_id
        may_be = self.stands(at, "gone", "none")
        self.rows -= self.features.pop(at, 0)
        self.unsure.discard(at)
        return line in {f"drop {n} {some_id} {word}" for word in may_be}

    def load(self, feed, n, line):
        found = LOADED.fullmatch(line)
        if not found or (int(found.group(1)), int(found.group(2))) != (feed, n):
            return False
        read, bad, full = map(int, found.group(3, 4, 5))
        kind, raw = self.feeds[feed]
        items = [] if raw is None else items_of(kind, raw)[:MOST_ITEMS]
        end = "fault" if raw is None else "limit" if len(items) == MOST_ITEMS else "end"
        features = [feature_of_item(item, self.zooms[n]) for item in items]
        good = [feature for feature in features if isinstance(feature, Feature)]
        if (read, bad, found.group(6)) != (len(items), len(items) - len(good), end):
            return False
        return self.fill(n, good, full)

    def fill(self, n, features, full):
        """Puts features of which so many were refused, and says whether that may be."""
        least = most = 0
        for feature in features:
            at = n, feature.id
            if self.is_refused(at):
                least, most = least + 1, most + 1
            elif not full or not self.refusals(at, feature.rows):
                most += bool(self.refusals(at, feature.rows))
                self.set(at, feature.rows)
            else:
                most += 1
                may_be_none = at not in self.features or at in self.unsure
                self.set(at, max(feature.rows, self.features.get(at, 0)))
                self.unsure |= {at} if may_be_none else set()
        return least <= full <= most

    def set_limit(self, n, line):
        self.limit = n
        return line == f"limit {n}"

    def publish(self, line):
        self.number += 1
        self.published = set(self.features)
        self.published_limit = self.limit
        self.told = {}
        return line == f"published {self.number}"

    def front(self, word, *fields):
        """What stands before the reply to a line that asks."""
        if word != "ask":
            return f"{word} "
        self.asks[fields[0]] += 1
        return f"ask {fields[0]} {self.asks[fields[0]] - 1} "

    def answer(self, text, said):
        """How many contexts follow a reply, and of how many tokens; or None, where it is none to this text."""
        found = ANSWER.fullmatch(said)
        if not found:
            return None
        tokens, unreadable = tokens_and_fault(text)
        if found.group(6):
            return (0, tokens) if found.group(6) in (unreadable, "1 Option", "2 Box") else None
        if unreadable or int(found.group(1) or found.group(3)) != self.number:
            return None
        if found.group(3):
            return (0, tokens) if int(found.group(4)) > int(found.group(5)) == self.published_limit else None
        contexts = int(found.group(2))
        return (contexts, tokens) if contexts <= min(MOST_FOUND, MOST_FOUND * len(self.published)) else None

    def verdict_fault(self, events, text, verdict):
        """What is wrong with a verdict on a search by events, or None."""
        tokens, unreadable = tokens_and_fault(text)
        if unreadable or int(verdict.group(1)) != self.number:
            return f"{verdict.group()!r} for {text[:120]!r}"
        return verdict_fault(events, self.layers(), tokens, self.may_fill(), verdict)

    def layers(self):
        """How many layers have published features."""
        return len({at for at, _ in self.published})

    def may_fill(self):
        """An answer may be full."""
        return len(self.published) >= MOST_FOUND

    def differs(self, text, told):
        """Something else was told of a query before; or None."""
        text = text.strip(" ") if len(text) <= 256 else text  # spaces around a query that isn't long don't matter
        differ = [key for key, said in told.items() if self.told.setdefault((text, key), said) != said]
        return f"another {differ[0][:120]!r} of {text[:120]!r} than before" if differ else None

    def is_link(self, tokens, link):
        """The link is of a published feature, on a tile of its layer's zoom, with a run of so many tokens and a value of it."""
        at, some_id, z, x, y, start, stop, value = link
        return (
            (at, some_id) in self.published and z == self.zooms[at] and x < 1 << z and y < 1 << z
            and start < stop <= tokens and value in ((stop - start) * relevance * factor for relevance, factor in WORTHS)
        )

    def target_and_key(self, tokens, line):
        """The target and the key of a context; or None, where it isn't the line of one."""
        found = CONTEXT.fullmatch(line)
        if not found:
            return None
        reached, most, score = map(int, found.groups()[:3])
        links = [tuple(map(int, link)) for link in LINK.findall(found.group(4))]
        pairs = itertools.combinations(links, 2)
        if not all(self.is_link(tokens, link) for link in links) or not all(joins(*pair) for pair in pairs):
            return None
        if most != 10000 * tokens or reached != sum(link[7] for link in links) or reached > most or score > 15:
            return None
        return links[0][:2], 16 * reached + score


def joins(deep, shallow):
    """The links' layers fall, their runs are disjoint, and the second's tile holds the first's."""
    up = deep[2] - shallow[2]
    return (
        deep[0] > shallow[0] and (deep[6] <= shallow[5] or shallow[6] <= deep[5])
        and up >= 0 and (deep[3] >> up, deep[4] >> up) == shallow[3:5]
    )


def contexts_fault(standing, tokens, lines):
    """What is wrong with the contexts of an answer, or None."""
    found = [standing.target_and_key(tokens, line) for line in lines]
    if None in found:
        return f"no context: {lines[found.index(None)][:120]!r}"
    if len(set(target for target, _ in found)) < len(found):
        return "two contexts of one target"
    if found != sorted(found, key=lambda entry: (-entry[1], entry[0])):
        return "contexts that aren't in order"
    return None


def reply_fault(standing, word, fields, lines):
    """Takes what is told of a line that asks from the lines, and says what is wrong with it, or None."""
    *others, text = fields
    front = standing.front(word, *others)
    line = lines.popleft() if lines else ""
    said = line.removeprefix(front) if line.startswith(front) else ""
    verdict = VERDICT.fullmatch(said) if word == "replay" else None
    if verdict:
        fault = standing.verdict_fault(others[0], text, verdict)
        return fault or standing.differs(text, {"reply": "found", "replay " + " ".join(others[0]): said})
    answer = standing.answer(text, said)
    if answer is None or answer[0] > len(lines):
        return f"for {word} {fields}"[:200] + f": {line[:120]!r}"
    if " found " not in said:
        return standing.differs(text, {"reply": said})
    contexts = [lines.popleft() for _ in range(answer[0])]
    fault = contexts_fault(standing, answer[1], contexts)
    told = {"reply": "found", "contexts": contexts}
    if word == "explain":
        told["counts"] = lines.popleft() if lines else ""
        fault = fault or counts_fault(contexts, standing.layers(), answer[1], told["counts"])
    if word == "replay":
        told["replay " + " ".join(others[0])] = said
        fault = fault or found_fault(others[0], contexts, standing.may_fill())
    return fault or standing.differs(text, told)


def output_fault(reading, feeds, output):
    """What is wrong with the text of the closed rounds, or None."""
    if output and not output.endswith("\n"):
        return "the output ends within a line"
    if re.search(r"\b0\d", output):
        return "a number begins with a zero"
    lines = collections.deque(output.split("\n")[:-1])
    standing = Standing(reading.zooms, feeds)
    steps = {
        "put": standing.put, "drop": standing.drop, "load": standing.load, "limit": standing.set_limit,
        "publish": standing.publish,
    }
    for word, *fields in reading.closed:
        if word in steps:
            line = lines.popleft() if lines else ""
            fault = None if steps[word](*fields, line) else f"for {word} {fields}: {line[:120]!r}"
        else:
            fault = reply_fault(standing, word, fields, lines)
        if fault:
            return fault
    return f"more lines: {lines[0][:120]!r}" if lines else None


def session_fault(thrown, status, told):
    """What is wrong with the status of a run on a session and with its text, or None; and the reading of the closed rounds."""
    reading = Reading(len(thrown.words), WORDS[thrown.command])
    if status == 3 and told == "carmen: no end line\n":
        fault = walked(reading, thrown.session, None)
        return (None if fault == NO_END else fault or "status 3, and there is a line `end`"), reading
    if status == 0 and not told:
        return walked(reading, thrown.session, None), reading
    refused = REFUSED.fullmatch(told)
    if status == 2 and refused:
        return walked(reading, thrown.session, (int(refused.group(1)), refused.group(2))), reading
    return f"status {status} with {told[:120]!r} on standard error", reading


def words_end(thrown):
    """The status and the text of a run that ends before it reads a session, by its words and the files that are there, or
    None."""
    feeds = list(map(feed_of, thrown.words))
    if thrown.command not in WORDS or None in feeds or len(feeds) > MOST_FEEDS:
        return 1, "carmen: usage\n"
    missing = [n for n, (_, path) in enumerate(feeds) if path not in thrown.files]
    return (9, f"carmen: feed {missing[0]} cannot be opened\n") if missing else None


def told_fault(thrown, output):
    """What is told of the searches of an input isn't what is known of it; or None."""
    told = [some or counts for some, counts in SEARCHED.findall(output)]
    if thrown.told is None or told == thrown.told:
        return None
    some, known = next(pair for pair in itertools.zip_longest(told, thrown.told) if pair[0] != pair[1])
    return f"of a search {some!r} is told, and not {known!r}"


def run_fault(thrown, status, output, told):
    """What is wrong with the status of a run on an input, and with what it wrote, or None."""
    end = words_end(thrown)
    if end:
        return None if (status, told, output) == (*end, "") else f"status {status} with {told[:120]!r}, where it is {end}"
    fault, reading = session_fault(thrown, status, told)
    feeds = [(kind, thrown.files[path]) for kind, path in map(feed_of, thrown.words)]
    return fault or output_fault(reading, feeds, output) or told_fault(thrown, output)
