"""Descriptions that several calls are asked about.

Parts: the examples, and sound beginnings; descriptions that are refused; pairs and pipes; what
is known by hand of a description.
"""

import itertools
from typing import NamedTuple

from model.cases.making import STOP, apart, cloud, datum, pin, placed, reads, service, writes
from model.definitions.costs import Amounts
from model.definitions.description import HIGHEST_LEVEL
from model.definitions.options import Row


# ---- The examples, and sound beginnings ------------------------------------------------

M_COMMANDS = [bytes.fromhex(command) for command in (
    "01 00 000A 000A 000A 000A", "01 01 000A 000A 000A 000A",
    "02 01 0064 000C", "03 00 01 00000064", "02 00 0032 0000", "03 00 00 00000032",
    "02 00 000A 000C", "04 01 00", "05 01 02", "04 03 02", "05 03 04", "00")]
M = b"".join(M_COMMANDS)

# Sound beginnings, all without their 00.
PAIR = cloud(1) + datum(1) + service(0, 1)                 # block 0 a datum, 1 a service
TRIO = PAIR + service(1, 1)                                # and 2 a second service
FILES = cloud(1) + datum() * 4 + service() * 2             # data 0 to 3, services 4 and 5
EIGHT_CLOUDS = b"".join(cloud(height) for height in range(8))
SIXTEEN_BLOCKS = cloud() + cloud() + datum() * 8 + service() * 8
SIXTEEN_PINS = b"".join(pin(block, block % 2) for block in range(16))
# Services 8 to 11 read all of 0 to 7; or 8 to 10 do, and 11 to 14 write two of them each.
ALL_READ = b"".join(reads(8 + e // 8, e % 8) for e in range(32))
SOME_WRITE = ALL_READ[:3 * 24] + b"".join(writes(11 + d // 2, d) for d in range(8))
THIRTY_TWO_EDGES = SIXTEEN_BLOCKS + ALL_READ
MIXED_EDGES = SIXTEEN_BLOCKS + SOME_WRITE
# No sound description without pairs is longer: thirteen services and three data still give
# 32 edges.
LONGEST = (EIGHT_CLOUDS + datum() * 3 + service(0, 0) * 13
           + b"".join(reads(3 + e // 3, e % 3) for e in range(32))
           + b"".join(pin(block, block % 8) for block in range(16)) + STOP)

# Of the ten pairs of five data, the first eight; service 5 is there to be named by mistake.
FIVE_DATA = cloud() * 2 + datum() * 5 + service()
PAIRS_OF_FIVE = list(itertools.combinations(range(5), 2))
EIGHT_APART = b"".join(apart(*pair) for pair in PAIRS_OF_FIVE[:8])
EIGHT_PAIRS = FIVE_DATA + EIGHT_APART
# With pairs none is longer than this: eight of them take five data.
LONGEST_APART = (EIGHT_CLOUDS + datum() * 5 + service() * 11
                 + b"".join(reads(5 + e // 5, e % 5) for e in range(32))
                 + b"".join(pin(block, block % 8) for block in range(16)) + EIGHT_APART + STOP)

# A sound description whose commands come mixed, with pins of both kinds of block.
MIXED_COMMANDS = [
    datum(2, 7, 3), cloud(3, 1, 2, 3, 4), service(1, 2, 9), pin(0, 0), reads(1, 0),
    cloud(2, 4, 3, 2, 1), datum(1, 11, 65535), writes(1, 2), service(0, 1, 0xFFFFFFFF),
    pin(3, 1), cloud(0, 65535, 65535, 65535, 65535), reads(3, 2), writes(1, 0), reads(1, 2),
    datum(0, 65535, 1), writes(3, 4), pin(4, 2), STOP]

# Pairs as early as they can stand: before the clouds, the edges and the pins.
APART_COMMANDS = [
    datum(1, 3, 2), datum(0, 9, 1), apart(1, 0), cloud(1, 1, 2, 3, 4), service(0, 1, 5),
    datum(0, 12, 3), apart(3, 1), cloud(1, 2, 1, 1, 5), reads(2, 0), cloud(0, 3, 1, 1, 1),
    apart(0, 3), pin(0, 1), writes(2, 0), STOP]

M_APART = M[:-1] + apart(0, 4) + STOP                      # M's first and last file

# The method paper's second example, in the block numbers of its Table 8.
SECOND = (
    cloud(0, 5, 5, 5, 5) + cloud(1, 10, 5, 5, 10)
    + service(0, 1, 100) + datum(1, 100, 12)               # s1, d1
    + service(1, 1, 10) + datum(1, 10, 0)                  # s3, d3
    + service(0, 1, 40) + datum(1, 200, 0)                 # s4, d4
    + service(0, 0, 50) + datum(0, 50, 12)                 # s2, d2
    + service(1, 1, 60) + datum(1, 200, 12)                # s5, d5
    + writes(0, 1) + reads(2, 1) + writes(2, 3) + reads(4, 3) + writes(4, 5) + reads(8, 5)
    + writes(6, 7) + reads(8, 7) + writes(8, 9) + STOP)

# Clouds at levels 0, 1, 2.  Block 0 is a datum at level 1, 2 one at level 2, 1 and 3 are
# services that may stand anywhere; 1 reads 0 and writes 2, and 3 reads 2.
STEPS = (cloud(0) + cloud(1) + cloud(2) + datum(1) + service(0, 2) + datum(2) + service(0, 2)
         + reads(1, 0) + writes(1, 2) + reads(3, 2))


# ---- Descriptions that are refused, or nearly ------------------------------------------

def ruled(*edges):
    """Data at levels 0 to 3 as blocks 0 to 3, and service 4 at location 1, clearance 2."""
    return (cloud(15) + datum(0) + datum(1) + datum(2) + datum(3) + service(1, 2)
            + b"".join(edges))


def counted(choices, *pins):
    """As many blocks as choices, each free to stand on that many of eight clouds."""
    return (EIGHT_CLOUDS + b"".join(datum(8 - choice) for choice in choices)
            + b"".join(pins) + STOP)


# For each number of Read, a description it refuses, and the place.
REFUSED_BY_READ = [
    (M[:40], 1, 39), (M[:-1], 1, 64), (b"", 1, 0),
    (M[:52] + b"\x09" + M[52:], 2, 52),
    (M + b"\0", 3, 65), (M + b"\xff" * 1200, 3, 65),
    (EIGHT_CLOUDS + cloud() + datum() + STOP, 4, 80),
    (SIXTEEN_BLOCKS + datum() + STOP, 4, 124),
    (THIRTY_TWO_EDGES + reads(15, 0) + STOP, 4, 220),
    (EIGHT_PAIRS + apart(4, 3) + STOP, 4, 81),
    (PAIR + datum(64) + STOP, 5, 23),
    (PAIR + reads(0, 1) + STOP, 6, 23),
    (FILES + apart(0, 4) + STOP, 6, 48),
    (PAIR + pin(0, 0) + pin(0, 0) + STOP, 7, 26),
    (FILES + apart(0, 1) + apart(1, 0) + STOP, 7, 51),
    (STOP, 8, 1), (cloud() + STOP, 8, 11), (datum() + STOP, 8, 7),
    (PAIR + service(2, 1) + STOP, 9, 2),
    (ruled(reads(4, 0), reads(4, 3)) + STOP, 10, 1),
    (ruled(writes(4, 1), reads(4, 1), writes(4, 0)) + STOP, 11, 2),
    (cloud() * 3 + datum() * 11 + STOP, 12, 0),
]


# ---- Pairs and pipes -------------------------------------------------------------------

def meeting(edges, pairs=apart(0, 1)):
    """Data 0 and 1 apart, services 2 and 3, three clouds that are good enough for everything."""
    return cloud() * 3 + datum() * 2 + service() * 2 + pairs + edges + STOP


# Clouds at levels 0, 1, 1; data 0 and 1 at level 1 apart; service 2 reads 0 and 3 writes 1.
GUARDED = (cloud(0) + cloud(1) * 2 + datum(1) * 2 + service(0, 1) * 2 + reads(2, 0) + writes(3, 1)
           + apart(0, 1) + STOP)


# Sixteen data in eight pairs, two by two; and the same pairs from the last to the first.
TWO_BY_TWO = cloud() * 2 + datum() * 16
EIGHT_TWOS = [apart(2 * pair, 2 * pair + 1) for pair in range(8)]


def together(pairs):
    """The data of these pairs side by side, those of the others on two clouds."""
    return bytes(0 if block // 2 in pairs else block % 2 for block in range(16))


def stores(*rates):
    """Clouds at level 0 that charge for storage alone."""
    return b"".join(cloud(0, rate) for rate in rates)


def pipe(what=datum(0, 10, 1), order="wdr", edges="wr", clearance=HIGHEST_LEVEL):
    """A writer, a datum and its only reader, the one shape in which two homes are one option.

    The letters w, d, r say in which order the blocks are declared, and then the edges.
    """
    blocks = {"w": service(0, clearance), "d": what, "r": service(0, clearance)}
    links = {"w": writes(order.index("w"), order.index("d")),
             "r": reads(order.index("r"), order.index("d"))}
    return b"".join(blocks[each] for each in order) + b"".join(links[each] for each in edges)


ACROSS = pin(0, 0) + pin(2, 1)                             # a pipe's writer on 0, its reader on 1


def fork(what):
    """A writer on cloud 0, its datum and two readers."""
    return (service() + what + service() * 2 + writes(0, 1) + reads(2, 1) + reads(3, 1)
            + pin(0, 0))


# ---- What is known by hand -------------------------------------------------------------

class Known(NamedTuple):
    """A description with its census and its rows, both worked out by hand.

    A row is a cost, a digit for each block, and its storage, transfer and cpu; without
    these three, all of the cost is for storage.
    """
    text: bytes
    counts: tuple
    rows: str

    def found(self):
        return [known_row(*shown.split()) for shown in self.rows.split(", ") if shown]


def known_row(price, clouds, *amounts):
    parts = Amounts(*map(int, amounts or (price, 0, 0)))
    return Row(int(price), placed(*map(int, clouds)), parts)


class Barred(NamedTuple):
    """A description and a placement, and what refuses them, whatever buffer is lent."""
    text: bytes
    placement: bytes
    number: int
    place: int
