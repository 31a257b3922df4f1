"""What may be told of the search of a query, as far as the words of its line and the contexts that were found say."""

import math
import re

MOST_FOUND = 40  # targets of an answer, and of a list that has a floor

EVENT = re.compile("[clxor][0-7]")
VERDICT = re.compile(r"gen (\d+) (illegal|unfinished) (\d+)")
COUNTS = re.compile(r"opens (\d+) cuts (\d+)")
RUN = re.compile(r" (\d+):\d+@\d+/\d+/\d+(\[\d+,\d+\))")  # the layer and the run of a link


def events_of(text):
    """The events of fields with spaces between, or None."""
    words = [word for word in text.split(" ") if word]
    return words if all(map(EVENT.fullmatch, words)) else None


def most_roots(layers, tokens):
    """The most pieces that a query of so many tokens has in so many layers."""
    return layers * math.comb(tokens + 1, 2)


def most_partials(layers, tokens):
    """The most partials that it has: some of the layers, as many runs that share no token, and which layer has which run."""
    return sum(
        math.comb(layers, links) * math.comb(tokens + links, 2 * links) * math.factorial(links)
        for links in range(1, layers + 1)
    )


def surely_refused(events, may_fill):
    """The place of the first event that isn't allowed, whatever is searched, or None: one that opens or cuts where its worker
    claimed no root before, or cuts where it can have seen no floor. There is no floor where no list may be full."""
    claimed, opened, looked = set(), set(), set()
    is_raised = False
    for place, (letter, worker) in enumerate(events):
        if letter in "ox" and worker not in claimed or letter == "x" and worker not in looked:
            return place
        if letter == "c":
            claimed.add(worker)
        elif letter == "o":
            opened.add(worker)
        elif letter == "r" and may_fill and worker in opened:
            is_raised = True
        elif letter == "l" and is_raised:
            looked.add(worker)
    return None


def may_be_refused(events, place):
    """The event at this place, if there is one, may be one that isn't allowed: none is that looks or raises, nor a worker's
    first claim."""
    if place >= len(events):
        return False
    return events[place][0] in "ox" or events[place][0] == "c" and events[place] in events[:place]


def verdict_fault(events, layers, tokens, may_fill, told):
    """What is wrong with the verdict on a query of so many tokens, which so many layers may match, or None."""
    _, verdict, number = told.groups()
    number = int(number)
    refused = surely_refused(events, may_fill)
    if verdict == "illegal":
        fits = may_be_refused(events, number) and (refused is None or number <= refused)
    else:
        claims = sum(event[0] == "c" for event in events)
        fits = refused is None and number <= claims and number < most_roots(layers, tokens)
    return None if fits else f"{verdict} {number} for {' '.join(events)[:120]!r}"


def found_fault(events, contexts, may_fill):
    """What is wrong with an answer that events found, or None."""
    letters = {event[0] for event in events}
    if surely_refused(events, may_fill) is not None or contexts and not {"c", "o"} <= letters:
        return f"found for {' '.join(events)[:120]!r}"
    return None


def counts_fault(contexts, layers, tokens, line):
    """What is wrong with the line that says how many partials were opened and cut for these contexts, or None. Those whose
    contexts are told were opened, and those above them; something was cut only where the answer is full."""
    told = COUNTS.fullmatch(line)
    if not told:
        return f"no counts: {line[:120]!r}"
    opens, cuts = map(int, told.groups())
    runs = [RUN.findall(context) for context in contexts]
    least = len({tuple(some[:n]) for some in runs for n in range(1, len(some) + 1)})
    fits = least <= opens and opens + cuts <= most_partials(layers, tokens) and (cuts == 0 or len(contexts) == MOST_FOUND)
    return None if fits else f"{line[:120]!r} for {len(contexts)} contexts"
