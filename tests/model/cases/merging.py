"""Descriptions for Census and Draw in which options merge or seem to, and the largest ones."""

import itertools

from model.cases.descriptions import (ALL_READ, EIGHT_CLOUDS, EIGHT_TWOS, SOME_WRITE, TWO_BY_TWO,
                                      pipe, stores)
from model.cases.known_lists import FORK, ONE_WAY
from model.cases.making import STOP, apart, cloud, datum, pin, reads, service, writes


def pipes():
    """One merging datum in every order of blocks and edges, with equal costs and without."""
    for order in map("".join, itertools.permutations("wdr")):
        for edges in ("wr", "rw"):
            for clouds in (stores(1, 2), stores(2, 1), stores(1, 1), stores(3, 1, 2)):
                yield clouds + pipe(datum(0, 11, 2), order, edges) + STOP


def pipes_with_prices():
    """Transfers and cpu as well as storage, so that the order of rows depends on all three."""
    for clouds in (cloud(0, 3, 1, 2, 5) + cloud(0, 1, 2, 1, 4),
                   cloud(0, 0, 7, 0, 1) + cloud(0, 0, 0, 7, 1),
                   cloud(1, 2, 1, 1, 3) + cloud(0, 1, 1, 1, 1) + cloud(1, 1, 1, 1, 2)):
        for what in (datum(0, 10, 1), datum(0, 25, 0), datum(0, 0, 3), datum(1, 1, 65535)):
            for block in range(3):
                yield clouds + pipe(what) + service(0, 0, 2) + pin(block, 0) + STOP
            yield clouds + pipe(what) + STOP


def two_pipes():
    """Two data that merge, each by itself: in a row, in a circle, between the same two."""
    blocks = service() * 2 + datum(0, 10, 1) + datum(0, 20, 1)
    row = service() * 3 + datum(0, 10, 1) + datum(0, 20, 0)
    for clouds in (stores(1, 2), stores(2, 1), stores(1, 1), stores(0, 0)):
        yield clouds + blocks + writes(0, 2) + reads(1, 2) + writes(1, 3) + reads(0, 3) + STOP
        yield clouds + blocks + writes(0, 3) + reads(1, 2) + writes(0, 2) + reads(1, 3) + STOP
        yield clouds + row + writes(0, 3) + reads(1, 3) + writes(1, 4) + reads(2, 4) + STOP


def pipes_with_levels():
    """Levels and pins that leave a datum fewer homes, and its services fewer clouds."""
    for levels in itertools.product((0, 1), repeat=3):
        clouds = b"".join(cloud(height, 3 - k) for k, height in enumerate(levels))
        yield clouds + pipe(datum(1, 10, 1)) + STOP
        for home in range(3):
            yield clouds + pipe(datum(0, 10, 1)) + pin(1, home) + STOP


def forks():
    """Two readers, on one cloud or on two."""
    for pins in (b"", pin(2, 1), pin(3, 0), pin(1, 0), pin(1, 1)):
        for clouds in (ONE_WAY, stores(1, 2, 3), stores(3, 1, 2), stores(2, 2, 1)):
            yield clouds + FORK + pins + STOP


# As many candidates as are allowed.  These take their time, so there are only four: all rows
# and all free; with a pipe, on eight clouds; with few that are secure; with eight pairs.
LARGE_FREE = cloud() * 2 + datum() * 16 + STOP
LARGE_PIPE = (b"".join(cloud(k // 6, k % 3, k % 2, k // 4, 7 - k) for k in range(8)) + pipe()
              + datum(0, 10, 1) + service(0, 0, 3) + datum(1) + reads(4, 3) + STOP)
LARGE_SPLIT = (b"".join(cloud(k // 2, 4 - k, k, 1, k % 2) for k in range(4))
               + service(0, 1, 1) * 6 + datum(1, 10, 1) * 4 + writes(0, 6) + reads(1, 6)
               + writes(2, 7) + reads(3, 7) + reads(4, 8) + writes(5, 9) + STOP)
LARGE_APART = TWO_BY_TWO + b"".join(EIGHT_TWOS) + STOP


def pinned_but(free, clouds):
    """Sixteen blocks pinned to so many clouds in turn, without those that are free."""
    return b"".join(pin(block, block % clouds) for block in range(16) if block not in free)


# Costs near the highest there can be: eight rows, 2^32 - 1 apart or several times that.
HEAVY = (cloud(cpu=65535) + cloud(cpu=65534) + service(units=0xFFFFFFFF) * 16
         + pinned_but((0, 7, 15), 1) + STOP)
# Sixteen blocks of which the first and the last are free, on eight clouds without prices.
FIRST_AND_LAST = EIGHT_CLOUDS + datum() * 16 + pinned_but((0, 15), 8) + STOP


def crowded():
    """Sixteen blocks and thirty-two edges, with four blocks that are not pinned."""
    clouds = cloud(0, 1, 2, 3, 4) + cloud(0, 2, 1, 2, 3)
    blocks = datum(0, 10, 1) * 8 + service(0, 0, 1) * 8
    for edges in (ALL_READ, SOME_WRITE):
        for free in ((0, 1, 8, 9), (0, 7, 14, 15), (3, 11, 12, 15)):
            yield clouds + blocks + edges + pinned_but(free, 2) + STOP


def pipes_apart():
    """Pipes, and data that may not meet theirs: a third datum, or that of a second pipe."""
    for order in map("".join, itertools.permutations("wdr")):
        for clouds in (stores(1, 2), stores(3, 1, 2), stores(1, 1, 1, 1)):
            text = clouds + pipe(datum(0, 11, 2), order) + datum(0, 10, 1)
            yield text + apart(order.index("d"), 3) + STOP
    row = service() * 3 + datum(0, 10, 1) + datum(0, 20, 0) + datum(0, 10, 2)
    edges = writes(0, 3) + reads(1, 3) + writes(1, 4) + reads(2, 4)
    two = (pipe() + service() + datum(0, 20, 1) + service() + writes(3, 4) + reads(5, 4)
           + apart(1, 4))
    for clouds in (stores(1, 2), stores(2, 1, 1)):
        for pairs in (apart(3, 5), apart(5, 4), apart(3, 5) + apart(4, 5), apart(3, 4)):
            yield clouds + row + edges + pairs + STOP
        yield clouds + two + STOP


def guarded_apart():
    """Two data apart that not every cloud is good enough for: all three rules have their part."""
    for levels in ((0, 1, 1), (1, 0, 1), (1, 1, 0, 1)):
        clouds = b"".join(cloud(height, k, 1, k % 2, 1) for k, height in enumerate(levels))
        blocks = datum(1, 10, 1) * 2 + service(0, 1, 1) * 2
        for edges in (reads(2, 0) + writes(3, 1), writes(3, 0) + reads(2, 1),
                      reads(2, 0) + writes(2, 0) + writes(3, 1),
                      reads(2, 0) + reads(3, 0) + writes(3, 1)):
            yield clouds + blocks + edges + apart(1, 0) + STOP
        # Datum 1 may stand anywhere, and only its copies can break the pair.
        yield (clouds + datum(1, 10, 1) + datum(0, 10, 2) + service(0, 1, 1) * 2 + reads(2, 0)
               + writes(3, 0) + apart(0, 1) + STOP)


def crowded_apart():
    """Sixteen blocks and eight pairs in a circle, with three blocks that are not pinned."""
    blocks = datum(0, 10, 1) * 8 + service(0, 0, 1) * 8
    pairs = b"".join(apart(d, (d + 1) % 8) for d in range(8))
    for edges in (b"".join(reads(8 + d, d) for d in range(8)),
                  b"".join(writes(8 + d, d) for d in range(8))):
        for free in ((0, 8, 3), (7, 0, 1), (8, 9, 15)):
            yield (b"".join(cloud(0, k % 3, 1, k % 2, 8 - k) for k in range(8)) + blocks + pairs
                   + edges + pinned_but(free, 8) + STOP)
