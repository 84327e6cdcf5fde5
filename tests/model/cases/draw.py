"""The stored cases of Draw (letter D).

Parts: cursors; draws whose answers are known; random draws; sizes, pairs, copies and labels.
"""

from model.cases.answers import row_line
from model.cases.chance import commands_of
from model.cases.copies import COPIES, crossings
from model.cases.descriptions import (APART_COMMANDS, EIGHT_PAIRS, LONGEST, LONGEST_APART, M,
                                      MIXED_COMMANDS, M_APART, REFUSED_BY_READ, STEPS, pipe, stores)
from model.cases.flows import (apart_text, brief_text, flow_text, random_flows, spoilt_texts,
                               workflow_texts)
from model.cases.known_lists import GRID, KNOWN, POWERS
from model.cases.label_lists import LABELLED, listed_alike
from model.cases.labels import REFUSED_BY_MARKS, spoilt_text, text_of_marks
from model.cases.making import (STOP, cloud, datum, draw_case, pin, placed, reads, service,
                                start_case, writes)
from model.cases.merging import (FIRST_AND_LAST, HEAVY, LARGE_APART, LARGE_FREE, LARGE_PIPE,
                                 LARGE_SPLIT, crowded, crowded_apart, forks, guarded_apart, pipes,
                                 pipes_apart, pipes_with_levels, pipes_with_prices, two_pipes)
from model.definitions.calls import read, rows
from model.definitions.costs import Amounts
from model.definitions.options import Row, row_at
from model.definitions.placements import candidates


# ---- Cursors ---------------------------------------------------------------------------

HIGHEST_COST = 2 ** 64 - 1
FULL = bytes([255] * 16)
ABOVE_CLOUDS = (8, 16, 64, 255)                            # bytes that no placement has


def chain(text, found):
    """Draws from the start to the last row and three beyond it, each from the last row."""
    cursor = None
    for row in found + [None] * 3:
        yield draw_case(text, cursor, row_line(row), again=row is None)
        cursor = cursor if row is None else row.cursor()


def replaced(placement, position, value):
    return placement[:position] + bytes([value]) + placement[position + 1:]


# Cursors near one cursor, which is mostly at a row.

def one_byte_off(cursor, positions):
    price, placement = cursor
    for position in positions:
        for value in (placement[position] - 1, placement[position] + 1):
            if 0 <= value <= 255:
                yield price, replaced(placement, position, value)


def one_byte_high(cursor, positions):
    """A byte above every cloud, among them one that is the row's own but for high bits."""
    price, placement = cursor
    for position in positions:
        for value in (*ABOVE_CLOUDS, placement[position] + 8, placement[position] + 128):
            yield price, replaced(placement, position, value)


def cost_off(cursor):
    price, placement = cursor
    for other in (price - 1, price + 1):
        if other >= 0:
            for at in (placement, placed(), FULL):
                yield other, at
    for bit in (16, 32, 48, 53, 63):                       # the row's cost but for a high bit
        yield price + (1 << bit), placement


def same_cost(cursor):
    """At the row, before and after all rows of its cost, and just after it."""
    price, placement = cursor
    yield cursor
    yield price, placed()
    yield price, FULL
    yield price, placement[:-1] + bytes([255])


OUTERMOST = [(0, placed()), (0, FULL), (HIGHEST_COST, placed()), (HIGHEST_COST, FULL),
             (2 ** 53, placed()), (2 ** 63, FULL)]


def odd_cursor(dice, found, blocks):
    """A cursor at a row, or one that is only slightly not, or any at all."""
    at = price, placement = dice.choice(found).cursor() if found else (0, placed())
    position = dice.below(dice.choice((blocks, 16)))
    near = [at, *same_cost(at), *one_byte_off(at, [position])]
    far = [*cost_off(at), *one_byte_high(at, [position]), *OUTERMOST,
           (price, dice.bytes(16)), (dice.below(price + 2), dice.bytes(16)),
           (price, placed(*(dice.below(8) for _ in range(blocks))))]
    return dice.choice(dice.choice((near, near, far)))


def random_cursor(dice):
    if dice.one_in(3):
        return None
    return dice.below(100), placed(*(dice.below(3) for _ in range(5)))


# ---- Draws whose answers are known, and draws near them --------------------------------

def draw_refused():
    for text, number, place in REFUSED_BY_READ:
        expected = f"refused {number} {place}"
        for cursor in (None, (0, placed()), (HIGHEST_COST, FULL)):
            yield draw_case(text, cursor, expected)
        yield start_case(text, 1, FULL, expected)


def draw_by_hand():
    for known in KNOWN:
        found = known.found()
        yield from chain(known.text, found)
        first = row_line(found[0] if found else None)
        yield start_case(known.text, 0, FULL, first)
        yield start_case(known.text, HIGHEST_COST, FULL, first)
        if found:
            yield start_case(known.text, *found[-1].cursor(), first)
            yield draw_case(known.text, (found[0].cost, FULL))
        yield draw_case(known.text, (HIGHEST_COST, placed()), "finished")
        yield draw_case(known.text, (HIGHEST_COST, FULL), "finished")
        yield draw_case(known.text, (0, placed()))


def draw_around():
    """Cursors near rows, in every direction."""
    tied = stores(1, 1) + pipe() + STOP
    for text in (M, tied):
        for row in rows(text):
            at = row.cursor()
            for cursor in (*same_cost(at), *one_byte_off(at, range(16))):
                yield draw_case(text, cursor)
    for text, numbers in ((M, (0, 3, 5)), (tied, (1, 3, 4)), (GRID + STOP, (0, 7, 29, 31, 62, 63)),
                          (FIRST_AND_LAST, (0, 31, 63)), (POWERS + STOP, (0, 21, 63)),
                          (HEAVY, (0, 3, 7))):
        for number in numbers:
            at = rows(text)[number].cursor()
            for cursor in (*same_cost(at), *one_byte_off(at, (0, 1, 2, 7, 15)),
                           *one_byte_high(at, (0, 1)), *cost_off(at)):
                yield draw_case(text, cursor)
        for cursor in OUTERMOST:
            yield draw_case(text, cursor)


def draw_large():
    """As many candidates as are allowed, hence only a few draws of each."""
    for number in (0, 1, 255, 256, 32767, 65534, 65535):   # rows of LARGE_FREE count in binary
        cursor = (0, binary(number))
        later = Row(0, binary(number + 1), Amounts(0, 0, 0)) if number < 65535 else None
        yield draw_case(LARGE_FREE, cursor, row_line(later))
        yield draw_case(LARGE_FREE, (0, replaced(binary(number), 15, 2)))
    for text in (LARGE_FREE, LARGE_PIPE, LARGE_SPLIT, LARGE_APART):
        found = rows(text)
        yield draw_case(text, None, row_line(found[0]))
        yield draw_case(text, found[-1].cursor(), "finished")
        for part in range(5):
            price, placement = found[part * len(found) // 5].cursor()
            yield draw_case(text, (price, placement))
            yield draw_case(text, (price, FULL))
            yield draw_case(text, (price, replaced(placement, part, 255)))


def binary(number):
    return placed(*(number >> bit & 1 for bit in range(15, -1, -1)))


# ---- Random draws ----------------------------------------------------------------------

def draw_at_random(dice, text, times):
    found, blocks = rows(text), len(read(text).blocks)
    for _ in range(times):
        yield draw_case(text, odd_cursor(dice, found, blocks))


def from_the_start(number, text):
    """A draw from the start, and for every fourth description all draws, if they are few."""
    if number % 4 == 0 and len(rows(text)) <= 20:
        yield from chain(text, rows(text))
    yield draw_case(text, None)


def draw_merges(dice):
    """Where options merge, or seem to: whole chains, or single draws."""
    for text in (*pipes(), *pipes_with_levels(), *two_pipes(), *forks()):
        if len(rows(text)) <= dice.choice((8, 8, 30)):
            yield from chain(text, rows(text))
        else:
            yield draw_case(text, None)
            yield from draw_at_random(dice, text, 4)
    for text in (*pipes_with_prices(), *crowded(), HEAVY, STEPS + STOP, LONGEST,
                 b"".join(MIXED_COMMANDS)):
        yield draw_case(text, None)
        yield from draw_at_random(dice, text, 4)


def draw_random(dice):
    for number in range(80):
        text = flow_text(dice, dice.choice((8, 24, 24, 64, 64, 200, 600)))
        yield from from_the_start(number, text)
        yield start_case(text, dice.below(2 ** 16), dice.bytes(16))
        yield from draw_at_random(dice, text, 6)
    for text in workflow_texts(dice, 50):
        yield from draw_at_random(dice, text, 4)
    for text in spoilt_texts(dice, 60):
        yield draw_case(text, random_cursor(dice))


# ---- Sizes, pairs, copies and labels ---------------------------------------------------

# The sizes around each half near 0 and near the highest size, by what they are charged.
CHARGES = {0: range(6), 1: range(6, 15), 2: range(15, 26), 3: range(26, 35), 4: range(35, 46),
           6550: range(65495, 65506), 6551: range(65506, 65515), 6552: range(65515, 65526),
           6553: range(65526, 65535), 6554: range(65535, 65536)}


def draw_sizes():
    """Each of these sizes stored, transferred by a read and by a write, and kept as a copy."""
    for charge, sizes in CHARGES.items():
        for size in sizes:
            for edge, rate in ((reads(1, 0), 3 + 11), (writes(1, 0), 13 + 2)):
                amounts = Amounts(2 * charge + 7 * charge, rate * charge, 17)
                text = (cloud(0, 1, 2, 3, 5) + cloud(0, 7, 11, 13, 17) + datum(0, size, 2)
                        + service(units=1) + edge + pin(0, 0) + pin(1, 1) + STOP)
                row = Row(sum(amounts), placed(0, 1), amounts)
                yield draw_case(text, None, row_line(row))


def half_text(dice, most):
    """A workflow as those of `flow_text`, whose sizes are at a half or next to one."""
    made = random_flows(dice, most)
    for d in made.data():
        half = 10 * dice.choice((0, 0, 1, 1, 2, 3, 4, 6552, dice.below(6553))) + 5
        made.blocks[d] = made.blocks[d]._replace(size=half + dice.choice((-1, 0, 0, 0, 1)))
    return b"".join(commands_of(dice, made))


def draw_halves(dice):
    for number in range(40):
        text = half_text(dice, dice.choice((8, 24, 24, 64, 64, 200)))
        yield from from_the_start(number, text)
        yield from draw_at_random(dice, text, 5)


def draw_apart(dice):
    """Where pairs take rows away: from the start, from rows that are left and that went."""
    for text in (*pipes_apart(), *guarded_apart(), *crowded_apart(), EIGHT_PAIRS + STOP,
                 b"".join(APART_COMMANDS), LONGEST_APART):
        if len(rows(text)) <= dice.choice((8, 8, 30)):
            yield from chain(text, rows(text))
        else:
            yield draw_case(text, None)
            yield from draw_at_random(dice, text, 4)
    for row in rows(M):
        at = row.cursor()
        for cursor in (*same_cost(at), *cost_off(at)):
            yield draw_case(M_APART, cursor)
    for number in range(40):
        text = apart_text(dice, dice.choice((8, 24, 24, 64, 64, 200, 600)))
        yield from from_the_start(number, text)
        yield from draw_at_random(dice, text, 5)


def draw_copies(dice):
    """Where copies count: all draws of what is known, and draws near the other ends of options."""
    for known in COPIES:
        yield from chain(known.text, known.found())
    for known in crossings():
        row, = known.found()
        yield draw_case(known.text, None, row_line(row))
        yield draw_case(known.text, row.cursor(), "finished")
        for placement in candidates(read(known.text)):
            yield draw_case(known.text, row_at(read(known.text), placement).cursor(), "finished")
            yield draw_case(known.text, (row.cost - 1, placement), row_line(row))
    for number in range(40):
        text = brief_text(dice, dice.choice((8, 24, 24, 64, 64, 200)))
        yield from from_the_start(number, text)
        yield from draw_at_random(dice, text, 5)


def draw_labels(dice):
    """Whole lists of descriptions with marks, by hand and by those without; and random ones."""
    for text, number, place in REFUSED_BY_MARKS:
        yield draw_case(text, None, f"refused {number} {place}")
    for known in LABELLED:
        yield from chain(known.text, known.found())
    for text, plain in listed_alike():
        yield from chain(text, rows(plain))
    for number in range(28):
        text = text_of_marks(dice, random_flows(dice, dice.choice((8, 24, 24, 64, 64, 200))))
        yield from from_the_start(number, text)
        yield from draw_at_random(dice, text, 3)
    for _ in range(20):
        yield draw_case(spoilt_text(dice, random_flows(dice, 30)), random_cursor(dice))


def draw_cases(dice):
    yield from draw_refused()
    yield from draw_by_hand()
    yield from draw_around()
    yield from draw_large()
    yield from draw_merges(dice)
    yield from draw_random(dice)
    yield from draw_apart(dice)
    yield from draw_sizes()
    yield from draw_halves(dice)
    yield from draw_copies(dice)
