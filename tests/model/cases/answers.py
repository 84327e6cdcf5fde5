"""The cases as the program callcases reads them, and the line that answers each, by the model."""

from model.definitions.calls import (bill, census, draw, judge, masks, picture, picture_size, read,
                                     standing, transfers)
from model.definitions.description import MOST_BLOCKS, Refused

LETTERS = "RJCDTPBMAW"
MOST_ROOM = 2048                # bytes of a lent buffer
FILLER = 0xA5                   # what a lent buffer holds before the call


class BadCase(Exception):
    """What is read is not a case."""


class Tape:
    """The bytes of a file of cases, taken from the front."""

    def __init__(self, content):
        self.content = content
        self.at = 0

    def ended(self):
        return self.at == len(self.content)

    def take(self, count):
        if self.at + count > len(self.content):
            raise BadCase
        self.at += count
        return self.content[self.at - count:self.at]

    def number(self, width):
        return int.from_bytes(self.take(width), "big")


# Each answer takes its operands off the tape before it calls, since a call may refuse.

def answer_read(text, tape):
    described = read(text)
    return f"accepted {len(described.clouds)} {len(described.blocks)} {len(described.edges)}"


def answer_judge(text, tape):
    placement = tape.take(16)
    judge(text, placement)
    return "secure"


def answer_census(text, tape):
    return "census " + " ".join(str(count) for count in census(text))


def answer_draw(text, tape):
    kind, price, placement = tape.number(1), tape.number(8), tape.take(16)
    if kind > 1:
        raise BadCase
    return row_line(draw(text, (price, placement) if kind == 1 else None))


def row_line(row):
    return "finished" if row is None else f"row {row.shown(MOST_BLOCKS)}"


def answer_transfers(text, tape):
    return answer_lent("transfers", transfers, text, tape)


def answer_picture(text, tape):
    return answer_lent("picture", picture, text, tape)


def answer_lent(word, call, text, tape):
    """The answer of a call that is lent a buffer, and the buffer as the call leaves it."""
    placement, room = tape.take(16), tape.number(2)
    if room > MOST_ROOM:
        raise BadCase
    buffer = bytearray(untouched(room))
    try:
        words = f"{word} {call(text, placement, buffer)}"
    except Refused as refusal:
        words = str(refusal)
    return with_buffer(words, buffer)


def untouched(room):
    return bytes([FILLER] * room)


def with_buffer(words, buffer):
    return f"{words} {buffer.hex()}" if buffer else words


def answer_size(text, tape):
    placement = tape.take(16)
    return f"bytes {picture_size(text, placement)}"


def answer_masks(text, tape):
    return masks_line(masks(text))


def masks_line(found):
    return f"masks {found.hex()}"


def bytes_in(line):
    return bytes.fromhex(line.split()[1])


def answer_bill(text, tape):
    placement = tape.take(16)
    amounts = bill(text, placement)
    return " ".join(map(str, ("bill", sum(amounts), *amounts)))


def answer_standing(text, tape):
    position, cloud = tape.number(1), tape.number(1)
    return f"standing {standing(text, position, cloud)}"


# How many bytes of operands follow the description.
OPERANDS = {"R": 0, "J": 16, "C": 0, "D": 25, "T": 18, "P": 18, "B": 16, "M": 0, "A": 16,
            "W": 2}

ANSWERS = {"R": answer_read, "J": answer_judge, "C": answer_census, "D": answer_draw,
           "T": answer_transfers, "P": answer_picture, "B": answer_size, "M": answer_masks,
           "A": answer_bill, "W": answer_standing}


def answer_one(tape, letters):
    letter = chr(tape.number(1))
    if letter not in letters:
        raise BadCase
    text = tape.take(tape.number(2))
    try:
        return ANSWERS[letter](text, tape)
    except Refused as refusal:
        return str(refusal)


def answer_all(content, letters):
    """One line for each case; what is no case ends the list."""
    tape = Tape(content)
    lines = []
    while not tape.ended():
        try:
            lines.append(answer_one(tape, letters))
        except BadCase:
            return lines + ["bad case"]
    return lines
