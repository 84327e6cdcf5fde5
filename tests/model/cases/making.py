"""What cases are made of.

Parts: a case; the commands of a description; the cases of each letter.
"""

import itertools
from typing import NamedTuple

from model.cases.answers import OPERANDS, Tape, untouched, with_buffer
from model.definitions.description import (APART, CLOUD, DATUM, END, PIN, READS, SERVICE, WIDTHS,
                                           WRITES)


# ---- A case ----------------------------------------------------------------------------

class Case(NamedTuple):
    content: bytes
    expected: str | None        # the answer worked out by hand, if there is one
    again: bool = False         # store it even if the same bytes are stored already

    def letter(self):
        return chr(self.content[0])

    def text(self):
        return self.content[3:3 + int.from_bytes(self.content[1:3], "big")]

    def operands(self):
        return self.content[3 + len(self.text()):]

    def placement(self):
        """The first operand of Judge, Transfers, Picture, Picture size and Bill."""
        return self.operands()[:16]


def with_length(letter, text):
    return letter + len(text).to_bytes(2, "big") + text


def cases_in(content):
    """The cases of which a file of them is made; the answers are not known."""
    tape = Tape(content)
    while not tape.ended():
        letter = tape.take(1)
        text = tape.take(tape.number(2))
        yield Case(with_length(letter, text) + tape.take(OPERANDS[letter.decode("ascii")]), None)


# ---- The commands of a description, and a placement ------------------------------------

def encode(command, *operands):
    pairs = zip(operands, WIDTHS[command], strict=True)
    return bytes([command]) + b"".join(value.to_bytes(width, "big") for value, width in pairs)


def cloud(label=0, storage=0, inward=0, outward=0, cpu=0):
    return encode(CLOUD, label, storage, inward, outward, cpu)


def datum(label=0, size=0, longevity=0):
    return encode(DATUM, label, size, longevity)


def service(location=0, clearance=0, units=0):
    return encode(SERVICE, location, clearance, units)


def reads(by, what):
    return encode(READS, by, what)


def writes(by, what):
    return encode(WRITES, by, what)


def pin(block, to):
    return encode(PIN, block, to)


def apart(one, other):
    return encode(APART, one, other)


STOP = encode(END)


def placed(*clouds):
    return bytes(clouds).ljust(16, b"\0")


# ---- The cases of each letter ----------------------------------------------------------

def read_case(text, expected=None):
    return Case(with_length(b"R", text), expected)


def judge_case(text, placement, expected=None):
    return Case(with_length(b"J", text) + placement, expected)


def transfers_case(text, placement, room, expected=None):
    return Case(with_length(b"T", text) + placement + room.to_bytes(2, "big"), expected)


def picture_case(text, placement, room, expected=None):
    return Case(with_length(b"P", text) + placement + room.to_bytes(2, "big"), expected)


def size_case(text, placement, expected=None):
    return Case(with_length(b"B", text) + placement, expected)


def masks_case(text, expected=None):
    return Case(with_length(b"M", text), expected)


def bill_case(text, placement, expected=None):
    return Case(with_length(b"A", text) + placement, expected)


def standing_case(text, position, to, expected=None):
    return Case(with_length(b"W", text) + bytes([position, to]), expected)


def census_case(text, expected=None):
    return Case(with_length(b"C", text), expected)


def draw_case(text, cursor, expected=None, again=False):
    """A draw from the start if the cursor is None, otherwise from a cost and bytes."""
    flag, (price, placement) = (0, (0, placed())) if cursor is None else (1, cursor)
    return Case(with_length(b"D", text) + cursor_bytes(flag, price, placement), expected, again)


def start_case(text, price, placement, expected=None):
    """A draw from the start, with operands after it that count for nothing."""
    return Case(with_length(b"D", text) + cursor_bytes(0, price, placement), expected)


def cursor_bytes(flag, price, placement):
    return bytes([flag]) + price.to_bytes(8, "big") + placement


def refused(text, number, place):
    return read_case(text, f"refused {number} {place}")


def accepted(text, clouds, blocks, edges):
    return read_case(text, f"accepted {clouds} {blocks} {edges}")


def refused_at_each(number, before, *commands):
    """Each command is at fault if it follows `before`, whatever comes after it."""
    for command in commands:
        yield refused(before + command + STOP, number, len(before))
    yield refused(before + commands[0] + b"\xff\xff" + STOP, number, len(before))


def refused_transfers(text, placement, room, number, place):
    expected = with_buffer(f"refused {number} {place}", untouched(room))
    return transfers_case(text, placement, room, expected)


def given_transfers(text, placement, room, entries):
    """A case whose transfers are known; a room too short for them is refused."""
    filled = bytes(itertools.chain.from_iterable(entries))
    if room < len(filled):
        return refused_transfers(text, placement, room, 16, len(filled))
    buffer = filled + untouched(room - len(filled))
    return transfers_case(text, placement, room, with_buffer(f"transfers {len(entries)}", buffer))
