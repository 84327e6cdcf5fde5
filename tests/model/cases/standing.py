"""The stored cases of Standing (letter W): may a position have a cloud, and if not, why?

The reasons are numbers: 0 it may; 1 no such cloud is declared; 2 the cloud's label does not cover
the block's; 3 the block is pinned to another cloud; 4 there is no block at this position, and the
byte is not 0.

Parts: reasons written down by hand; random descriptions; labels with marks.
"""

from model.cases.chance import commands_of, damage_bytes, damage_commands, random_workflow, spoil
from model.cases.descriptions import (EIGHT_CLOUDS, GUARDED, M, MIXED_COMMANDS, M_APART,
                                      REFUSED_BY_READ, meeting)
from model.cases.label_calls import FOUR_BY_FOUR
from model.cases.labels import REFUSED_BY_MARKS, carried, spoilt_text, text_of_marks, ways
from model.cases.making import STOP, cloud, datum, pin, reads, service, standing_case, writes
from model.cases.masks import levelled_workflow
from model.definitions.description import MOST_BLOCKS, MOST_CLOUDS


# ---- Reasons written down by hand ------------------------------------------------------

HIGHEST_BYTE = 255
# Every cloud that there can be, the first number that no cloud has, and the highest byte.
CLOUDS = (*range(MOST_CLOUDS), MOST_CLOUDS, HIGHEST_BYTE)
# The same for positions.
POSITIONS = (*range(MOST_BLOCKS), MOST_BLOCKS, HIGHEST_BYTE)


def given(text, position, clouds, reasons):
    """Cases of one position with each of these clouds, and a digit for the reason of each."""
    for to, reason in zip(clouds, reasons, strict=True):
        yield standing_case(text, position, to, f"standing {reason}")


def standing_of_the_interview():
    """Datum 0 of M needs cloud 1, its other four blocks may use both clouds."""
    for position in POSITIONS:
        reasons = "201" if position == 0 else "001" if position < 5 else "044"
        yield from given(M, position, (0, 1, 2), reasons)
    for position, reason in ((0, "1"), (4, "1"), (5, "4"), (MOST_BLOCKS, "4"), (HIGHEST_BYTE, "4")):
        yield from given(M, position, (9, HIGHEST_BYTE), reason * 2)
    yield from given(M_APART, 0, (0, 1), "20")
    yield from given(M_APART, 4, (0, 1), "00")


def standing_of_eight_clouds():
    """A datum and a service that are good enough for the clouds from 3 on, or up to 4."""
    text = EIGHT_CLOUDS + datum(3) + service(3, 3)
    for position in (0, 1):
        yield from given(text + STOP, position, CLOUDS, "2220000011")
    # Pinned to a cloud that would do, and to one that would not.
    pinned = text + pin(0, 5) + pin(1, 1) + STOP
    yield from given(pinned, 0, CLOUDS, "2223303311")
    yield from given(pinned, 1, CLOUDS, "2223333311")
    falling = b"".join(cloud(7 - k) for k in range(8)) + service(3, 15) + datum(3) + STOP
    for position in (0, 1):
        yield from given(falling, position, CLOUDS, "0000022211")


def standing_of_pins():
    """One block pinned to each of eight clouds, and sixteen blocks pinned to two in turn."""
    for to in range(MOST_CLOUDS):
        text = cloud() * MOST_CLOUDS + datum() + pin(0, to) + STOP
        yield from given(text, 0, (to, (to + 3) % MOST_CLOUDS), "03")
    pins = b"".join(pin(block, block % 2) for block in range(MOST_BLOCKS))
    text = cloud() * 2 + (service() + datum()) * 8 + pins + STOP
    for position in range(MOST_BLOCKS):
        yield from given(text, position, (0, 1, 2), "031" if position % 2 == 0 else "301")
    for position in (MOST_BLOCKS, MOST_BLOCKS + 1, HIGHEST_BYTE):
        yield from given(text, position, (0, 1, HIGHEST_BYTE), "044")


def standing_of_every_size():
    """The last block and the first position after it; the last cloud and the first number after."""
    for count in (1, 2, 3, 8, 15, 16):
        text = cloud() + datum() * count + STOP
        yield from given(text, count - 1, (0, 1), "01")
        yield from given(text, count, (0, 1), "04")
    for count in range(1, MOST_CLOUDS + 1):
        text = cloud() * count + service() + STOP
        yield from given(text, 0, (count - 1, count), "01")


def standing_by_order():
    """Inputs that fail two tests at once: the first one is named."""
    text = cloud(0) + cloud(1) * 2 + datum(1) + service(1, 1) + pin(0, 1) + pin(1, 2) + STOP
    for position, reasons in ((0, "203111"), (1, "230111"), (2, "044444")):
        yield from given(text, position, (0, 1, 2, 3, MOST_CLOUDS, HIGHEST_BYTE), reasons)
    # Pinned to a cloud that does not cover it, and covered by none: there are no candidates.
    yield from given(cloud(0) + cloud(1) + datum(1) + pin(0, 0) + STOP, 0, (0, 1, 2), "231")
    yield from given(cloud(0) * 2 + service(1, 1) + STOP, 0, (0, 1, 2), "221")


def standing_of_mixed():
    """Pins and levels of several blocks; a service's location counts, and not its clearance."""
    mixed = b"".join(MIXED_COMMANDS)
    for position, reasons in enumerate(("0321", "0021", "0021", "3031", "3301", "0444")):
        yield from given(mixed, position, range(4), reasons)
    for clearance in (1, 2, 15):
        text = cloud(0) + cloud(1) + cloud(2) + service(1, clearance) + STOP
        yield from given(text, 0, range(4), "2001")


def standing_beside_edges():
    """Edges and pairs decide nothing, even if no placement with this cloud is secure."""
    high = cloud(0) + cloud(1) + datum(1) + service(0, 1)
    for edge in (reads, writes):
        for position, reasons in ((0, "20"), (1, "00")):
            yield from given(high + edge(1, 0) + STOP, position, (0, 1), reasons)
    for position, reasons in enumerate(("200", "200", "000", "000")):
        yield from given(GUARDED, position, range(3), reasons)
    yield from given(meeting(reads(2, 0) + writes(2, 1)), 2, range(4), "0001")


def standing_refused():
    for text, number, place in REFUSED_BY_READ:
        for position, to in ((0, 0), (HIGHEST_BYTE, HIGHEST_BYTE)):
            yield standing_case(text, position, to, f"refused {number} {place}")


# ---- Random descriptions ---------------------------------------------------------------

def random_position(dice, made):
    """Most likely that of a block."""
    block = dice.below(len(made.blocks))
    return dice.choice((block, block, block, block, len(made.blocks), dice.below(MOST_BLOCKS),
                        MOST_BLOCKS, dice.below(256)))


def random_cloud_number(dice, made):
    """Most likely that of a cloud."""
    each = dice.below(len(made.clouds))
    return dice.choice((each, each, each, each, 0, len(made.clouds), dice.below(9),
                        dice.below(256)))


def standing_at_random(dice, made, text, times):
    for _ in range(times):
        yield standing_case(text, random_position(dice, made), random_cloud_number(dice, made))


def standing_random(dice):
    for _ in range(20):
        made = levelled_workflow(dice)
        yield from standing_at_random(dice, made, b"".join(commands_of(dice, made)), 4)
    for _ in range(25):
        made = levelled_workflow(dice)
        spoil(dice, made)
        yield from standing_at_random(dice, made, b"".join(commands_of(dice, made)), 1)
    for _ in range(10):
        made = levelled_workflow(dice)
        commands = commands_of(dice, made)
        yield from standing_at_random(dice, made, damage_bytes(dice, b"".join(commands)), 1)
        yield from standing_at_random(dice, made, damage_commands(dice, commands), 1)


def standing_cases(dice):
    for part in (standing_of_the_interview, standing_of_eight_clouds, standing_of_pins,
                 standing_of_every_size, standing_by_order, standing_of_mixed,
                 standing_beside_edges, standing_refused):
        yield from part()
    yield from standing_random(dice)


# ---- Labels with marks -----------------------------------------------------------------

def label_standings(dice):
    for text, number, place in REFUSED_BY_MARKS:
        yield standing_case(text, 0, 0, f"refused {number} {place}")
    for upper, lower, holds in ways():
        for position in (0, 1):
            yield from given(carried(upper, lower), position, (1,), "0" if holds else "2")
    for position, reasons in enumerate(("0000", "2020", "2200", "2220", "0000", "0000")):
        yield from given(FOUR_BY_FOUR, position, range(4), reasons)
    for _ in range(15):
        made = levelled_workflow(dice)
        yield from standing_at_random(dice, made, text_of_marks(dice, made), 2)
    for _ in range(15):
        made = random_workflow(dice)
        yield from standing_at_random(dice, made, spoilt_text(dice, made), 1)
