"""The stored cases of Masks (letter M).

Parts: masks written down by hand; random descriptions.
"""

from model.cases.answers import masks_line
from model.cases.chance import (add_random_edges, commands_of, damage_bytes, damage_commands,
                                highest_level, random_block, random_cloud, spoil)
from model.cases.descriptions import (APART_COMMANDS, EIGHT_CLOUDS, EIGHT_PAIRS, GUARDED, LONGEST,
                                      LONGEST_APART, M, MIXED_COMMANDS, MIXED_EDGES, M_APART,
                                      REFUSED_BY_READ, SECOND, STEPS, THIRTY_TWO_EDGES, counted,
                                      meeting)
from model.cases.making import STOP, cloud, datum, masks_case, pin, reads, service, writes
from model.definitions.description import (HIGHEST_LEVEL, MOST_BLOCKS, MOST_CANDIDATES, MOST_CLOUDS,
                                           Description)
from model.definitions.rules import allowed, count_candidates


# ---- Masks written down by hand --------------------------------------------------------

def given(text, *known):
    """A case with the byte of each block, and zeros after the last."""
    return masks_case(text, masks_line(bytes(known).ljust(MOST_BLOCKS, b"\0")))


def refused_masks(text, number, place):
    return masks_case(text, f"refused {number} {place}")


ONE_EACH = (0x01, 0x02, 0x04, 0x08, 0x10, 0x20, 0x40, 0x80)
# The last of eight clouds, by how many they are.
LAST = (0x00, 0x80, 0xC0, 0xE0, 0xF0, 0xF8, 0xFC, 0xFE, 0xFF)
# All of so many clouds.
ALL_OF = (0x00, 0x01, 0x03, 0x07, 0x0F, 0x1F, 0x3F, 0x7F, 0xFF)


def masks_of_the_examples():
    for text in (M, M_APART):
        yield given(text, 0x02, 0x03, 0x03, 0x03, 0x03)
    yield given(SECOND, 0x03, 0x02, 0x02, 0x02, 0x03, 0x02, 0x03, 0x03, 0x02, 0x02)
    yield given(STEPS + STOP, 0x06, 0x07, 0x04, 0x07)
    yield given(GUARDED, 0x06, 0x06, 0x07, 0x07)
    yield given(b"".join(MIXED_COMMANDS), 0x01, 0x03, 0x03, 0x02, 0x04)
    yield given(b"".join(APART_COMMANDS), 0x02, 0x07, 0x07, 0x07)
    for text in (LONGEST, LONGEST_APART):                  # block b is pinned to cloud b % 8
        yield given(text, *ONE_EACH, *ONE_EACH)


def masks_of_every_size():
    """One cloud to eight, before the blocks and after them; one block to sixteen."""
    for count in range(1, 9):
        known = ALL_OF[count]
        yield given(cloud() * count + datum() + service() + STOP, known, known)
        yield given(service(0, 15) + datum() + cloud(15) * count + STOP, known, known)
        yield given(datum(15) + cloud(15) * count + service(15, 15) + STOP, known, known)
    for count in range(1, 17):
        known = ((0x03, 0x02) * 8)[:count]
        for block in (datum, lambda height: service(height, 15)):
            blocks = b"".join(block(b % 2) for b in range(count))
            yield given(cloud(0) + cloud(1) + blocks + STOP, *known)


# The levels of eight clouds, and the clouds at level 0 or higher, 1 or higher, and so on.
LEVELS = [((0, 1, 2, 3, 4, 5, 6, 7), (0xFF, 0xFE, 0xFC, 0xF8, 0xF0, 0xE0, 0xC0, 0x80, 0x00)),
          ((7, 6, 5, 4, 3, 2, 1, 0), (0xFF, 0x7F, 0x3F, 0x1F, 0x0F, 0x07, 0x03, 0x01, 0x00)),
          ((3, 0, 2, 1, 3, 1, 2, 0), (0xFF, 0x7D, 0x55, 0x11, 0x00)),
          ((0, 2, 1, 3, 1, 2, 0, 3), (0xFF, 0xBE, 0xAA, 0x88, 0x00)),
          ((2, 1, 0, 0, 0, 0, 1, 2), (0xFF, 0xC3, 0x81, 0x00)),
          ((0, 1, 2, 3, 3, 2, 1, 0), (0xFF, 0x7E, 0x3C, 0x18, 0x00))]


def masks_of_levels():
    """Data of each level, and services of each location; their clearance counts for nothing."""
    for levels, known in LEVELS:
        clouds = b"".join(cloud(height) for height in levels)
        heights = range(len(known))
        data = b"".join(datum(height) for height in heights)
        services = b"".join(service(height, 15) for height in heights)
        yield given(clouds + data + STOP, *known)
        yield given(services + clouds + STOP, *known)
        if len(known) < 9:                                 # without the one that is too high
            yield given(data[:-6] + clouds + STOP, *known[:-1])
    yield given(cloud(14) + cloud(15) + datum(15) + service(14, 15) + datum(14) + STOP,
                0x02, 0x03, 0x03)
    for clearance in (1, 2, 15):
        yield given(cloud(0) + cloud(1) + cloud(2) + service(0, clearance) + service(1, clearance)
                    + STOP, 0x07, 0x06)
    # What is not declared may not be used, although a level of 0 would do for it.
    for count in range(1, 8):
        yield given(cloud(0) * count + service(0, 0) + datum(0) + datum(1) + STOP,
                    ALL_OF[count], ALL_OF[count], 0x00)


def masks_of_every_byte():
    """Every set of eight clouds, for a service and for a datum."""
    for chosen in range(256):
        clouds = b"".join(cloud(chosen >> k & 1) for k in range(8))
        yield given(clouds + service(1, 1) + datum(1) + STOP, chosen, chosen)


def masks_of_pins():
    """The lowest of the clouds that would do, the highest, those between, and those too low."""
    for to in range(8):
        known = ONE_EACH[to] if to >= 3 else 0x00
        blocks = EIGHT_CLOUDS + datum(3) + service(3, 3)
        yield given(blocks + pin(0, to) + STOP, known, 0xF8)
        yield given(blocks + pin(1, to) + STOP, 0xF8, known)
    for count in range(1, 9):
        yield given(cloud() * count + datum() * 2 + service() + pin(0, 0) + pin(1, count - 1)
                    + STOP, 0x01, ONE_EACH[count - 1], ALL_OF[count])
    gap = cloud(1) + cloud(0) + cloud(1) + cloud(1) + datum(1) + service(1, 2)
    yield given(gap + STOP, 0x0D, 0x0D)
    for to, known in enumerate((0x01, 0x00, 0x04, 0x08)):
        yield given(gap + pin(0, to) + STOP, known, 0x0D)
        yield given(gap + pin(1, to) + pin(0, 3) + STOP, 0x08, known)
    # Clouds that are declared after the pin.
    yield given(datum() + cloud() + pin(0, 0) + cloud() * 7 + service() + STOP, 0x01, 0xFF)
    yield given(cloud(0) + datum(1) + pin(0, 0) + cloud(1) + datum(1) + STOP, 0x00, 0x02)
    yield given(cloud(0) + cloud(0) + service(0, 0) + pin(0, 1) + datum(1) + cloud(1) + STOP,
                0x02, 0x04)
    for order in (range(16), range(15, -1, -1)):           # pins in the order of blocks, and not
        pins = b"".join(pin(b, 7 - b % 8) for b in order)
        yield given(cloud() * 8 + datum() * 8 + service() * 8 + pins + STOP,
                    *reversed(ONE_EACH), *reversed(ONE_EACH))


def masks_of_nowhere():
    """One block that may stand nowhere, in each position: by its level, and by its pin."""
    for at in range(16):
        known = [0x01] * 16
        known[at] = 0x00
        blocks = b"".join(datum(1 if b == at else 0) for b in range(16))
        yield given(cloud(0) + blocks + STOP, *known)
        known = [0x02] * 16
        known[at] = 0x00
        yield given(cloud(0) + cloud(1) + service(1, 1) * 16 + pin(at, 0) + STOP, *known)
    yield given(cloud() + datum(1) + STOP)
    yield given(cloud(14) * 8 + service(15, 15) * 16 + STOP)
    yield given(cloud(3) * 8 + service() * 15 + service(15, 15) + STOP, *[0xFF] * 15)


def two_of_eight(high, last=datum(1)):
    """Sixteen blocks at level 1, but maybe for the last; of eight clouds two are as high."""
    clouds = b"".join(cloud(1 if k in high else 0) for k in range(8))
    return clouds + (service(1, 1) + datum(1)) * 7 + service(1, 1) + last


def masks_of_many():
    """As many candidates as are allowed, fewer, and more: number 12."""
    for choices in ([2] * 16, [4] * 8, [8] * 5 + [2], [2] + [8] * 5, [4] * 8 + [1] * 8,
                    [1] * 4 + [2] * 10 + [8] * 2, [7] * 4 + [3] * 3, [3] * 10, [1] * 16,
                    [0], [0] * 16, [0] + [8] * 15, [8] * 15 + [0], [8] * 7 + [0] + [8] * 8):
        yield given(counted(choices), *(LAST[choice] for choice in choices))
    for choices in ([5] + [3] * 8 + [2], [3] * 8 + [2, 5], [7] + [5] * 5 + [3], [3] * 11,
                    [2] * 15 + [3], [3] + [2] * 15, [8] * 5 + [3], [8] * 6, [8] * 16):
        yield refused_masks(counted(choices), 12, 0)
    yield given(counted([3] * 11, pin(4, 7)), *[0xE0] * 4, 0x80, *[0xE0] * 6)
    yield refused_masks(counted([3] * 12, pin(11, 7)), 12, 0)
    for high, known in (((0, 7), 0x81), ((3, 4), 0x18), ((0, 1), 0x03)):
        yield given(two_of_eight(high) + STOP, *[known] * 16)
        yield given(two_of_eight(high) + b"".join(pin(b, high[1]) for b in range(15)) + STOP,
                    *[ONE_EACH[high[1]]] * 15, known)
        free = two_of_eight(high, last=datum(0))
        yield refused_masks(free + STOP, 12, 0)
        yield given(free + b"".join(pin(b, high[0]) for b in range(12)) + STOP,
                    *[ONE_EACH[high[0]]] * 12, known, known, known, 0xFF)
    yield given(cloud() * 2 + service() * 16 + STOP, *[0x03] * 16)
    yield given(cloud() * 3 + service() * 10 + STOP, *[0x07] * 10)
    yield refused_masks(cloud() * 3 + service() * 11 + STOP, 12, 0)


def masks_beside_edges():
    """Edges and pairs decide nothing, not even if every candidate breaks a rule."""
    for text in (THIRTY_TWO_EDGES, MIXED_EDGES):
        yield given(text + STOP, *[0x03] * 16)
    yield given(EIGHT_PAIRS + STOP, *[0x03] * 6)
    yield given(meeting(reads(2, 0) + writes(3, 1)), *[0x07] * 4)
    high = cloud(0) + cloud(1) + datum(1) + service(0, 1)
    for edges in (reads(1, 0), writes(1, 0), writes(1, 0) + reads(1, 0)):
        yield given(high + edges + STOP, 0x02, 0x03)
        yield given(high + edges + pin(1, 0) + STOP, 0x02, 0x01)


def masks_by_hand():
    for text, number, place in REFUSED_BY_READ:
        yield refused_masks(text, number, place)
    for part in (masks_of_the_examples, masks_of_every_size, masks_of_levels, masks_of_every_byte,
                 masks_of_pins, masks_of_nowhere, masks_of_many, masks_beside_edges):
        yield from part()


# ---- Random descriptions ---------------------------------------------------------------

QUICK = 300                     # candidates, so that their lists are short


def levelled_workflow(dice):
    """Mixed levels and pins, rarely such that a block may stand nowhere."""
    made = Description()
    top = dice.choice((1, 1, 2, 3, 7, HIGHEST_LEVEL))
    made.clouds = [random_cloud(dice, top) for _ in range(dice.between(1, MOST_CLOUDS))]
    above = HIGHEST_LEVEL if dice.one_in(5) else highest_level(made)
    made.blocks = [random_block(dice, above) for _ in range(dice.between(1, MOST_BLOCKS))]
    if dice.one_in(2):
        add_random_edges(dice, made)
    if dice.one_in(5):
        made.pins[dice.below(len(made.blocks))] = dice.below(len(made.clouds))
    while count_candidates(made) > QUICK:
        block = dice.below(len(made.blocks))
        made.pins[block] = dice.choice(allowed(made, block))
    return made


def masks_random(dice):
    for _ in range(150):
        yield masks_case(b"".join(commands_of(dice, levelled_workflow(dice))))
    for _ in range(60):
        made = levelled_workflow(dice)
        spoil(dice, made)
        if not QUICK < count_candidates(made) <= MOST_CANDIDATES:
            yield masks_case(b"".join(commands_of(dice, made)))
    for _ in range(30):
        commands = commands_of(dice, levelled_workflow(dice))
        yield masks_case(damage_bytes(dice, b"".join(commands)))
        yield masks_case(damage_commands(dice, commands))


def mask_cases(dice):
    yield from masks_by_hand()
    yield from masks_random(dice)
