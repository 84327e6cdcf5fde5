"""The stored cases of Bill (letter A): what any secure placement costs, by its parts.

Parts: bills written down by hand; placements that have none; random placements; labels with
marks.
"""

import itertools

from model.cases.chance import (apart_workflow, assorted_candidates, bend, commands_of,
                                damage_bytes, random_placement, random_workflow, spoil)
from model.cases.copies import COPIES, PRICED, kept, shorten
from model.cases.descriptions import M, M_APART, SECOND, pipe, stores
from model.cases.draw import CHARGES
from model.cases.flows import apart_flows, random_flows
from model.cases.known_lists import KNOWN
from model.cases.known_pictures import barred
from model.cases.label_moves import BARRED, MOVED
from model.cases.labels import add_marks
from model.cases.making import STOP, bill_case, cloud, datum, placed, reads, service, writes
from model.cases.merging import pipes_with_prices
from model.cases.picture import pinned_workflow
from model.definitions.calls import read
from model.definitions.placements import candidates


# ---- Bills written down by hand --------------------------------------------------------

def given_bill(text, clouds, storage=0, transfer=0, cpu=0):
    """A case whose amounts are known, with a digit for the cloud of each block."""
    return bill_case(text, placed(*map(int, clouds)),
                     f"bill {storage + transfer + cpu} {storage} {transfer} {cpu}")


def refused_bill(text, clouds, number, place):
    return bill_case(text, placed(*map(int, clouds)), f"refused {number} {place}")


# The secure placements of M, with storage, transfer and cpu.  11100 and 11101 are no rows, and
# cost as much as the rows of their options, 11000 and 11001.
BILLS_OF_M = {"11111": (1320, 0, 1500), "11110": (1330, 20, 1500), "11000": (1370, 100, 1500),
              "11100": (1370, 100, 1500), "11001": (1380, 120, 1500), "11101": (1380, 120, 1500),
              "11011": (1420, 200, 1500), "11010": (1430, 220, 1500)}


def bill_of_the_interview():
    """Every placement of M on its two clouds; with files 0 and 4 apart, two are secure."""
    for clouds in map("".join, itertools.product("01", repeat=5)):
        if clouds in BILLS_OF_M:
            yield given_bill(M, clouds, *BILLS_OF_M[clouds])
        else:
            yield refused_bill(M, clouds, 13 if clouds[0] == "0" else 14, 0)
    for clouds, amounts in BILLS_OF_M.items():
        if clouds in ("11000", "11100"):
            yield given_bill(M_APART, clouds, *amounts)
        else:
            yield refused_bill(M_APART, clouds, 17, 0)


def bill_of_the_second():
    """The three rows of the second example, and the one secure placement that is no row.

    In that one datum 7 is kept for a year on the dearer cloud: 600 + 25 for it and its copy, and
    not 300 + 50.
    """
    yield given_bill(SECOND, "1111110011", 3950, 50, 2350)
    yield given_bill(SECOND, "1111110111", 4225, 50, 2350)
    yield given_bill(SECOND, "1111111011", 4000, 100, 2600)
    yield given_bill(SECOND, "1111111111", 4200, 0, 2600)
    yield refused_bill(SECOND, "0111111111", 15, 0)
    yield refused_bill(SECOND, "1111011111", 14, 3)


# The storage of a pipe of one gigabyte that is kept for 0, 1 or 2 months: by the clouds of its
# writer, its datum and its reader.  First for storage rates 1 and 3, then for 2 and 2.
UNEVEN = {"000": (0, 1, 2), "001": (3, 4, 5), "010": (2, 5, 8), "011": (1, 4, 7),
          "100": (3, 4, 5), "101": (6, 7, 8), "110": (1, 4, 7), "111": (0, 3, 6)}
EVEN = {"000": (0, 2, 4), "001": (2, 4, 6), "010": (4, 6, 8), "011": (2, 4, 6),
        "100": (2, 4, 6), "101": (4, 6, 8), "110": (2, 4, 6), "111": (0, 2, 4)}
# With rates 3 and 1 the two clouds change places.
EXCHANGED = {clouds.translate(str.maketrans("01", "10")): amounts
             for clouds, amounts in UNEVEN.items()}


def bill_of_pipes():
    """Every placement of a pipe, its blocks in several orders.

    Of two placements that are one option, one is no row: it costs more, or the same.
    """
    for rates, order, known in (((1, 3), "wdr", UNEVEN), ((3, 1), "drw", EXCHANGED),
                                ((2, 2), "rwd", EVEN)):
        for months in range(3):
            text = stores(*rates) + pipe(kept(months), order) + STOP
            for clouds, amounts in known.items():
                stands = dict(zip("wdr", clouds))
                yield given_bill(text, [stands[each] for each in order], amounts[months])


def bill_of_all_rates():
    """A pipe of two gigabytes with every rate different: 12 or 66 at home, 4 or 22 for a copy.

    Two gigabytes from cloud 0 to 1 cost 36, and 40 the other way.
    """
    text = (PRICED + service(units=5) + datum(0, 15, 3) + service(units=1) + writes(0, 1)
            + reads(2, 1) + STOP)
    for clouds, storage, transfer, cpu in (
            ("000", 12, 0, 42), ("001", 12 + 22, 36, 54), ("010", 66 + 4 + 4, 36 + 40, 42),
            ("011", 66 + 4, 36, 54), ("100", 12 + 22, 40, 102), ("101", 12 + 22 + 22, 40 + 36, 114),
            ("110", 66 + 4, 40, 102), ("111", 66, 0, 114)):
        yield given_bill(text, clouds, storage, transfer, cpu)


def bill_of_one_amount():
    """Data, copies, transfers and computing, each alone; and nothing to pay."""
    for clouds, storage in (("0", 14), ("1", 18)):
        yield given_bill(stores(7, 9) + datum(0, 10, 2) + STOP, clouds, storage)
    for edge, there, back in ((reads, 5, 7), (writes, 7, 5)):
        linked = datum(0, 10, 0) + service() + edge(1, 0) + STOP
        for clouds, copy in (("00", 0), ("01", 9), ("10", 7), ("11", 0)):
            yield given_bill(stores(7, 9) + linked, clouds, copy)
        moving = cloud(0, 0, 1, 2) + cloud(0, 0, 3, 6) + linked
        for clouds, price in (("00", 0), ("01", there), ("10", back), ("11", 0)):
            yield given_bill(moving, clouds, 0, price)
    for clouds, price in (("00", 14), ("01", 16), ("10", 19), ("11", 21)):
        text = cloud(cpu=2) + cloud(cpu=3) + service(units=5) + service(units=2) + STOP
        yield given_bill(text, clouds, 0, 0, price)
    for clouds in ("000", "010", "101", "777"):
        yield given_bill(cloud() * 8 + pipe(datum(0, 65535, 65535)) + STOP, clouds)


SIZES = (0, 5, 6, 14, 15, 25, 26, 34, 35, 45, 65525, 65526, 65534, 65535)


def bill_of_sizes():
    """Sizes at a half and next to one: stored for two months, moved, and kept as a copy."""
    charge = {size: charged for charged, sizes in CHARGES.items() for size in sizes}
    for size in SIZES:
        for edge, rate in ((reads(1, 0), 3 + 11), (writes(1, 0), 13 + 2)):
            text = (cloud(0, 1, 2, 3, 5) + cloud(0, 7, 11, 13, 17) + datum(0, size, 2)
                    + service(units=1) + edge + STOP)
            yield given_bill(text, "01", (2 + 7) * charge[size], rate * charge[size], 17)


def bill_of_known_rows():
    """The first and the last row of each list that is written down."""
    for known in (*KNOWN, *COPIES):
        found = known.found()
        for row in dict.fromkeys(found[:1] + found[-1:]):
            yield given_bill(known.text, row.placement, *row.amounts)


# ---- Placements that have none ---------------------------------------------------------

def bill_refused():
    for each in barred():
        yield bill_case(each.text, each.placement, f"refused {each.number} {each.place}")


# ---- Random placements -----------------------------------------------------------------

def small_texts(dice):
    """Descriptions with few candidates: pipes, any, some in which copies count, some with pairs."""
    yield from itertools.islice(pipes_with_prices(), 1, None, 5)
    for make in (random_flows, lambda dice, most: shorten(dice, random_flows(dice, most)),
                 apart_flows):
        for _ in range(6):
            yield b"".join(commands_of(dice, make(dice, 10)))


def bill_of_every_candidate(dice):
    for text in small_texts(dice):
        for placement in candidates(read(text)):
            yield bill_case(text, placement)


def bill_of_some(dice, made, most):
    text = b"".join(commands_of(dice, made))
    found = assorted_candidates(dice, made, most)
    for placement in found:
        yield bill_case(text, placement)
    if found and dice.one_in(2):
        yield bill_case(text, bend(dice, made, dice.choice(found)))


def bill_random(dice):
    for _ in range(30):
        yield from bill_of_some(dice, pinned_workflow(dice, random_workflow), most=2)
    for _ in range(15):
        yield from bill_of_some(dice, random_workflow(dice), most=1)
    for _ in range(10):
        yield from bill_of_some(dice, apart_workflow(dice), most=1)
    for _ in range(20):
        made = random_workflow(dice)
        spoil(dice, made)
        yield bill_case(b"".join(commands_of(dice, made)), random_placement(dice, made))
    for _ in range(15):
        made = random_workflow(dice)
        text = damage_bytes(dice, b"".join(commands_of(dice, made)))
        yield bill_case(text, random_placement(dice, made))


def bill_cases(dice):
    for part in (bill_of_the_interview, bill_of_the_second, bill_of_pipes, bill_of_all_rates,
                 bill_of_one_amount, bill_of_sizes, bill_of_known_rows, bill_refused):
        yield from part()
    yield from bill_of_every_candidate(dice)
    yield from bill_random(dice)


# ---- Labels with marks -----------------------------------------------------------------

# What the placements of `MOVED` cost, in its order; the last seven are free.
BILLS_OF_MOVED = [(1, 0, 0), (4, 0, 0), (1 + 4, 0, 0), (4 + 1, 0, 0), (1 + 4 + 4, 0, 0),
                  (1370, 100, 1500), (1430, 220, 1500), *[(0, 0, 0)] * 7]


def label_bills(dice):
    for each in BARRED:
        yield bill_case(each.text, each.placement, f"refused {each.number} {each.place}")
    for each, amounts in zip(MOVED, BILLS_OF_MOVED, strict=True):
        yield given_bill(each.text, each.clouds, *amounts)
    for _ in range(15):
        made = pinned_workflow(dice, lambda dice: add_marks(dice, random_workflow(dice)))
        yield from bill_of_some(dice, made, most=1)
