"""Descriptions in which the price of copies counts, for Transfers, Census and Draw.

A transfer leaves a copy with its service, which is stored there for one month.  So a datum
between its writer and its only reader costs more or less at the one end or at the other by
what is charged for its own time there and for the copy's month at the other end.

Parts: rows and transfers written down by hand; random descriptions.
"""

import itertools

from model.cases.descriptions import ACROSS, ALL_READ, M, SOME_WRITE, Known, fork, pipe, stores
from model.cases.making import STOP, apart, cloud, datum, pin, placed, reads, service, writes


# ---- Rows and transfers written down by hand -------------------------------------------

def kept(months):
    """A datum of one gigabyte."""
    return datum(0, 10, months)


ALONE = pin(0, 0) + pin(2, 0)                              # a pipe's writer and reader on cloud 0
HALVES = b"".join(pin(block, block // 8) for block in range(16))
# M with a cloud 1 that charges twice as much for storage.
M_DEARER = M[:10] + cloud(1, 20, 10, 10, 10) + M[20:]
# Two services and two data that each go from one service to the other: both the same way, or
# one there and one back.
SIDE_BY_SIDE = writes(0, 2) + reads(1, 2) + writes(0, 3) + reads(1, 3) + pin(0, 0) + pin(1, 1)
THERE_AND_BACK = writes(0, 2) + reads(1, 2) + writes(1, 3) + reads(0, 3) + pin(0, 0) + pin(1, 1)
# Every rate is different.
PRICED = cloud(0, 2, 3, 5, 7) + cloud(0, 11, 13, 17, 19)

ANYWHERE, ONE_OPTION, TWO_FREE = (8, 0, 0, 0, 8, 6), (2, 0, 0, 0, 2, 1), (2, 0, 0, 0, 2, 2)

COPIES = [Known(begin + STOP, counts, found) for begin, counts, found in (
    # The dearer cloud second.  Kept for no month, the datum stands there and its copy on the
    # cheaper one; for one month it costs the same at either end, and the lower cloud stands for
    # the option; for longer it stands where it is cheap itself.
    (stores(1, 3) + pipe(kept(0)), ANYWHERE, "0 000, 0 111, 1 011, 1 110, 2 010, 6 101"),
    (stores(1, 3) + pipe(kept(1)), ANYWHERE, "1 000, 3 111, 4 001, 4 100, 5 010, 7 101"),
    (stores(1, 3) + pipe(kept(2)), ANYWHERE, "2 000, 5 001, 5 100, 6 111, 8 010, 8 101"),
    # The dearer cloud first.
    (stores(3, 1) + pipe(kept(0)), ANYWHERE, "0 000, 0 111, 1 001, 1 100, 2 101, 6 010"),
    (stores(3, 1) + pipe(kept(1)), ANYWHERE, "1 111, 3 000, 4 001, 4 100, 5 101, 7 010"),
    (stores(3, 1) + pipe(kept(2)), ANYWHERE, "2 111, 5 011, 5 110, 6 000, 8 010, 8 101"),
    # Equal rates: the lower cloud, however long the datum is kept.
    (stores(2, 2) + pipe(kept(0)), ANYWHERE, "0 000, 0 111, 2 001, 2 100, 4 010, 4 101"),
    (stores(2, 2) + pipe(kept(1)), ANYWHERE, "2 000, 2 111, 4 001, 4 100, 6 010, 6 101"),
    (stores(2, 2) + pipe(kept(2)), ANYWHERE, "4 000, 4 111, 6 001, 6 100, 8 010, 8 101"),
    # A cloud that charges nothing, two gigabytes, and a copy of nothing.
    (stores(0, 5) + pipe(kept(0)), ANYWHERE, "0 000, 0 010, 0 011, 0 110, 0 111, 10 101"),
    (stores(5, 0) + pipe(kept(0)), ANYWHERE, "0 000, 0 001, 0 100, 0 101, 0 111, 10 010"),
    (stores(1, 3) + pipe(datum(0, 25, 0)), ANYWHERE, "0 000, 0 111, 2 011, 2 110, 4 010, 12 101"),
    (stores(1, 3) + pipe(datum(0, 5, 0)), ANYWHERE, "0 000, 0 001, 0 010, 0 100, 0 101, 0 111"),
    # A pin leaves the datum one of the two ends, the dearer or the cheaper.
    (stores(1, 3) + pipe(kept(0)) + pin(1, 0), (4, 0, 0, 0, 4, 4), "0 000, 3 001, 3 100, 6 101"),
    (stores(1, 3) + pipe(kept(0)) + pin(1, 1), (4, 0, 0, 0, 4, 4), "0 111, 1 011, 1 110, 2 010"),
    (stores(1, 3) + pipe(kept(1)) + pin(1, 0), (4, 0, 0, 0, 4, 4), "1 000, 4 001, 4 100, 7 101"),
    (stores(1, 3) + pipe(kept(1)) + pin(1, 1), (4, 0, 0, 0, 4, 4), "3 111, 4 011, 4 110, 5 010"),
    (stores(3, 1) + pipe(kept(2)) + pin(1, 0), (4, 0, 0, 0, 4, 4), "6 000, 7 001, 7 100, 8 101"),
    (stores(3, 1) + pipe(kept(2)) + pin(1, 1), (4, 0, 0, 0, 4, 4), "2 111, 5 011, 5 110, 8 010"),
    (stores(1, 3) + pipe(kept(0)) + ACROSS + pin(1, 0), (1, 0, 0, 0, 1, 1), "3 001"),
    (stores(3, 1) + pipe(kept(1)) + ACROSS + pin(1, 1), (1, 0, 0, 0, 1, 1), "4 011"),
    # A third cloud between the two is an option of its own, with two copies.
    (stores(1, 2, 4) + pipe(kept(0)) + pin(0, 0) + pin(2, 2), (3, 0, 0, 0, 3, 2), "1 022, 5 012"),
    (stores(1, 2, 4) + pipe(kept(1)) + pin(0, 0) + pin(2, 2), (3, 0, 0, 0, 3, 2), "5 002, 7 012"),
    (stores(1, 2, 4) + pipe(kept(2)) + pin(0, 0) + pin(2, 2), (3, 0, 0, 0, 3, 2), "6 002, 9 012"),
    (stores(1, 2, 4) + pipe(kept(0)) + pin(0, 2) + pin(2, 0), (3, 0, 0, 0, 3, 2), "1 220, 5 210"),
    # Writer and reader on one cloud: no copy, or two there; with 3 months both cost the same.
    (stores(3, 1) + pipe(kept(0)) + ALONE, TWO_FREE, "0 000, 6 010"),
    (stores(3, 1) + pipe(kept(2)) + ALONE, TWO_FREE, "6 000, 8 010"),
    (stores(3, 1) + pipe(kept(3)) + ALONE, TWO_FREE, "9 000, 9 010"),
    (stores(3, 1) + pipe(kept(4)) + ALONE, TWO_FREE, "10 010, 12 000"),
    # Two readers on one cloud have a copy each.  Both ends are options of their own.
    (stores(1, 3) + fork(kept(0)) + pin(2, 1) + pin(3, 1), TWO_FREE, "1 0111, 6 0011"),
    (stores(1, 3) + fork(kept(1)) + pin(2, 1) + pin(3, 1), TWO_FREE, "4 0111, 7 0011"),
    (stores(1, 3) + fork(kept(2)) + pin(2, 1) + pin(3, 1), TWO_FREE, "7 0111, 8 0011"),
    (stores(1, 3) + fork(kept(3)) + pin(2, 1) + pin(3, 1), TWO_FREE, "9 0011, 10 0111"),
    (stores(3, 1) + fork(kept(0)) + pin(2, 1) + pin(3, 1), TWO_FREE, "2 0011, 3 0111"),
    (stores(3, 1) + fork(kept(1)) + pin(2, 1) + pin(3, 1), TWO_FREE, "4 0111, 5 0011"),
    # One reader on the cloud of the writer, and three clouds, of which each holds the datum once.
    (stores(1, 3) + fork(kept(0)) + pin(2, 0) + pin(3, 1), TWO_FREE, "2 0101, 3 0001"),
    (stores(1, 3) + fork(kept(1)) + pin(2, 0) + pin(3, 1), TWO_FREE, "4 0001, 5 0101"),
    (stores(1, 2, 4) + fork(kept(0)) + pin(2, 1) + pin(3, 2), (3, 0, 0, 0, 3, 3),
     "3 0212, 5 0112, 6 0012"),
    (stores(1, 2, 4) + fork(kept(1)) + pin(2, 1) + pin(3, 2), (3, 0, 0, 0, 3, 3),
     "7 0012, 7 0112, 7 0212"),
    (stores(1, 2, 4) + fork(kept(2)) + pin(2, 1) + pin(3, 2), (3, 0, 0, 0, 3, 3),
     "8 0012, 9 0112, 11 0212"),
    # One service that reads, that writes, that does both: the copy is always where it stands.
    (stores(1, 3) + service() + kept(0) + reads(0, 1), (4, 0, 0, 0, 4, 4),
     "0 00, 0 11, 1 01, 3 10"),
    (stores(1, 3) + service() + kept(0) + writes(0, 1), (4, 0, 0, 0, 4, 4),
     "0 00, 0 11, 1 01, 3 10"),
    (stores(1, 3) + service() + kept(0) + writes(0, 1) + reads(0, 1), (4, 0, 0, 0, 4, 4),
     "0 00, 0 11, 2 01, 6 10"),
    # Two data between the same two services: each at the end that is best for it.
    (stores(1, 3) + service() * 2 + kept(0) + kept(2) + SIDE_BY_SIDE, (4, 0, 0, 0, 4, 1),
     "6 0110"),
    (stores(3, 1) + service() * 2 + kept(0) + kept(2) + SIDE_BY_SIDE, (4, 0, 0, 0, 4, 1),
     "6 0101"),
    (stores(3, 1) + service() * 2 + kept(1) + kept(1) + SIDE_BY_SIDE, (4, 0, 0, 0, 4, 1),
     "8 0100"),
    (stores(1, 3) + service() * 2 + kept(0) + kept(2) + THERE_AND_BACK, (4, 0, 0, 0, 4, 1),
     "6 0110"),
    (stores(3, 1) + service() * 2 + kept(1) + kept(0) + THERE_AND_BACK, (4, 0, 0, 0, 4, 1),
     "5 0100"),
    # Between the same two clouds the transfer costs the same, and the copy is no part of it.
    (PRICED + pipe(datum(0, 15, 0)) + ACROSS, ONE_OPTION, "40 011 4 36 0"),
    (PRICED + pipe(datum(0, 15, 1)) + ACROSS, ONE_OPTION, "62 001 26 36 0"),
    (PRICED + pipe(datum(0, 15, 2)) + ACROSS, ONE_OPTION, "66 001 30 36 0"),
    (PRICED + pipe(datum(0, 15, 0)) + pin(0, 1) + pin(2, 0), ONE_OPTION, "44 110 4 40 0"),
    (M_DEARER[:-1], (16, 8, 0, 0, 8, 6),
     "4060 11110 2540 20 1500, 4140 11111 2640 0 1500, 4170 11100 2570 100 1500, "
     "4320 11101 2700 120 1500, 4460 11010 2740 220 1500, 4540 11011 2840 200 1500"),
    (M_DEARER[:-1] + apart(0, 4), (16, 8, 0, 6, 2, 1), "4170 11100 2570 100 1500"),
    # A home that is free but too low, and a datum beside the pipe that may not meet its own.
    (cloud(1, 1) + cloud(1, 3) + cloud(0, 0) + pipe(datum(1, 10, 0)) + ACROSS, ONE_OPTION, "1 011"),
    (stores(1, 3, 4) + pipe(kept(0)) + kept(1) + ACROSS + apart(1, 3), (9, 0, 0, 7, 2, 1),
     "5 0112"),
    # As many copies as there can be, of data that are not kept or kept where it is free, and no
    # charge for them if only the services' cloud is free.
    *((cloud(0, 65535, 65535, 65535) * 2 + datum(0, 65535, 0) * 8 + service() * 8 + edges + HALVES,
       (1, 0, 0, 0, 1, 1), "41233573440 0000000011111111 13744524480 27489048960 0")
      for edges in (ALL_READ, SOME_WRITE)),
    *((stores(0, 1) + datum(0, 65535, 65535) * 8 + service() * 8 + edges + HALVES,
       (1, 0, 0, 0, 1, 1), "209728 0000000011111111") for edges in (ALL_READ, SOME_WRITE)),
    *((stores(1, 0) + datum(0, 65535, 1) * 8 + service() * 8 + edges + HALVES,
       (1, 0, 0, 0, 1, 1), "52432 0000000011111111") for edges in (ALL_READ, SOME_WRITE)),
)]


# Where a datum of one gigabyte stands between two clouds, and what that costs: by the rates of
# the two and the months that it is kept.
BETWEEN = {((1, 3), 0): (1, 1), ((1, 3), 1): (0, 4), ((1, 3), 2): (0, 5),
           ((3, 1), 0): (0, 1), ((3, 1), 1): (0, 4), ((3, 1), 2): (1, 5),
           ((2, 2), 0): (0, 2), ((2, 2), 1): (0, 4), ((2, 2), 2): (0, 6)}


def crossings():
    """A pipe across two clouds, either way and with its blocks in every order."""
    for (rates, months), (home, price) in BETWEEN.items():
        for order in map("".join, itertools.permutations("wdr")):
            for writer, reader, edges in ((0, 1, "wr"), (1, 0, "rw")):
                clouds = {"w": writer, "d": home, "r": reader}
                pins = b"".join(pin(order.index(each), clouds[each]) for each in "wr")
                found = "".join(str(clouds[each]) for each in order)
                yield Known(stores(*rates) + pipe(kept(months), order, edges) + pins + STOP,
                            ONE_OPTION, f"{price} {found}")


# The transfers of a pipe and of a fork, wherever they stand: edge, datum, from, to.
COPY_TRANSFERS = [(text + STOP, placed(*map(int, clouds)), entries) for text, clouds, entries in (
    (stores(1, 3) + pipe(kept(1)), "000", []),
    (stores(1, 3) + pipe(kept(1)), "001", [(1, 1, 0, 1)]),
    (stores(1, 3) + pipe(kept(1)), "010", [(0, 1, 0, 1), (1, 1, 1, 0)]),
    (stores(1, 3) + pipe(kept(1)), "011", [(0, 1, 0, 1)]),
    (stores(1, 3) + pipe(kept(1)), "100", [(0, 1, 1, 0)]),
    (stores(1, 3) + pipe(kept(1)), "101", [(0, 1, 1, 0), (1, 1, 0, 1)]),
    (stores(1, 3) + pipe(kept(1)), "110", [(1, 1, 1, 0)]),
    (stores(1, 3) + pipe(kept(1)), "111", []),
    (stores(1, 3) + fork(kept(0)), "0011", [(1, 1, 0, 1), (2, 1, 0, 1)]),
    (stores(1, 3) + fork(kept(0)), "0111", [(0, 1, 0, 1)]),
    (stores(1, 3) + fork(kept(0)), "0101", [(0, 1, 0, 1), (1, 1, 1, 0)]),
    (stores(1, 2, 4) + fork(kept(1)), "0212", [(0, 1, 0, 2), (1, 1, 2, 1)]),
)]


# ---- Random descriptions ---------------------------------------------------------------

def shorten(dice, made):
    """Data are kept for a month or two or not at all, on clouds of other storage rates."""
    made.clouds = [each._replace(storage_rate=dice.choice((0, 1, 1, 2, 3, 65535)))
                   for each in made.clouds]
    for d in made.data():
        made.blocks[d] = made.blocks[d]._replace(longevity=dice.choice((0, 0, 1, 1, 2)))
    return made
