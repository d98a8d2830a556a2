"""What a desk tells on standard error."""

import re

# The pieces in which messages are written.
PIECE = re.compile(r"cut: script |run |: |\d+|no memory|write failed|read failed|in use|tables changed|\n|.")
ALONE, OF_A_RUN = ("no memory", "write failed", "read failed", "in use", "tables changed"), ("no memory", "write failed")
# How a message goes on behind its first piece: what may stand at each place, None for a number.
FORMS = {"cut: script ": (None, ("\n",)), "run ": (None, (": ",), OF_A_RUN, ("\n",)), **{text: (("\n",),) for text in ALONE}}


def goes_on(message, piece):
    """Whether a message, its text so far and the places that are left, goes on with a piece."""
    place = message[1][0]
    return piece.isdigit() if place is None else piece in place


def steps(piece, under_way):
    """In which ways a piece is of the messages under way, at most two, or begins another: these then, and what is done."""
    for place, message in enumerate(under_way):
        if goes_on(message, piece):
            text, places = message[0] + piece, message[1][1:]
            others = under_way[:place] + under_way[place + 1 :]
            yield (*others, (text, places)) if places else others, () if places else (text,)
    if len(under_way) < 2 and piece in FORMS:
        yield (*under_way, (piece, FORMS[piece])), ()


def messages(said, is_cut=False):
    """The messages in a text, without line ends; where it is cut, the last may lack some. A desk tells from two threads, each message in
    pieces, so those of one may stand between those of another."""
    pieces, ways = PIECE.findall(said), [(0, (), ())]
    while ways:
        at, under_way, done = ways.pop()
        if at < len(pieces):
            ways += [(at + 1, left, done + more) for left, more in steps(pieces[at], under_way)][::-1]
        elif is_cut or not under_way:
            return [text.rstrip("\n") for text in (*done, *(text for text, _ in under_way))]
    return [repr(said)]
