"""The stored cases of Read, Judge and Masks in which labels have marks."""

from model.cases.chance import (add_random_pairs, assorted_candidates, bend, commands_of,
                                damage_bytes, damage_commands, random_placement, random_workflow)
from model.cases.descriptions import EIGHT_CLOUDS, M, PAIR, SIXTEEN_BLOCKS, STEPS
from model.cases.labels import (BARRED_BY_MARKS, BESIDE, BOTH, MARKS, REFUSED_BY_MARKS, add_marks,
                                carried, cleared, is_covered, marked, moving, reading, spoilt_text,
                                text_of_marks, ways, writing)
from model.cases.making import (STOP, accepted, cloud, datum, judge_case, masks_case, pin, placed,
                                read_case, reads, refused, refused_at_each, service, writes)
from model.cases.masks import given, levelled_workflow, refused_masks
from model.definitions.description import EMBARGO, HIGHEST_LABEL, MOST_BLOCKS, SOURCE


# ---- Read ------------------------------------------------------------------------------

def accepted_or_refused(text, holds, number, place, counts):
    return accepted(text, *counts) if holds else refused(text, number, place)


def read_ways():
    for upper, lower, holds in ways():
        yield accepted_or_refused(cleared(upper, lower), holds, 9, 2, (1, 3, 0))
        yield accepted_or_refused(reading(upper, lower), holds, 10, 1, (1, 3, 2))
        yield accepted_or_refused(writing(upper, lower), holds, 11, 1, (1, 3, 2))
    for text, number, place in REFUSED_BY_MARKS:
        yield refused(text, number, place)


def read_every_label():
    """Each of the 64 labels: of a cloud, of a datum, as a location, as a clearance."""
    for first in range(0, HIGHEST_LABEL + 1, 8):
        clouds = b"".join(map(cloud, range(first, first + 8)))
        yield accepted(clouds + datum() + STOP, 8, 1, 0)
    for first in range(0, HIGHEST_LABEL + 1, MOST_BLOCKS):
        labels = range(first, first + MOST_BLOCKS)
        for block in (datum, lambda label: service(label, HIGHEST_LABEL),
                      lambda label: service(0, label), lambda label: service(label, label)):
            blocks = b"".join(map(block, labels))
            yield accepted(cloud(HIGHEST_LABEL) + blocks + STOP, 1, 16, 0)
    for label in (HIGHEST_LABEL - 1, HIGHEST_LABEL):
        yield accepted(cloud(label) + datum(label) + service(label, label) + reads(1, 0)
                       + writes(1, 0) + STOP, 1, 2, 2)


ABOVE = (64, 79, 80, 96, 127, 128, 143, 191, 192, 255)


def read_above():
    """Bytes that are no label, in each of the four places; after 1 and 4, before all else."""
    for label in ABOVE:
        yield from refused_at_each(5, PAIR, cloud(label), datum(label), service(label, 63),
                                   service(0, label))
        yield refused(EIGHT_CLOUDS + cloud(label) + STOP, 4, 80)
        yield refused(SIXTEEN_BLOCKS + datum(label) + STOP, 4, 124)
        yield refused(SIXTEEN_BLOCKS + service(0, label) + STOP, 4, 124)
    for above in (64, 128, 192):
        for text, place in (
                (PAIR + datum(above), 23), (PAIR + datum(above) + b"\x09", 23),
                (PAIR + service(above, above) + STOP + M, 23),
                (EIGHT_CLOUDS + datum(above) + cloud() + STOP, 80),
                (PAIR + cloud(above) + reads(0, 1) + STOP, 23),
                (PAIR + cloud(above) + pin(0, 0) + pin(0, 0) + STOP, 23),
                (cloud(above) + STOP, 0), (datum(above) + STOP, 0),
                (cloud() + service(above + 1, 0) + STOP, 10),
                (cloud() + service(above | EMBARGO, 0) + STOP, 10),
                (cloud(63) + datum(above | SOURCE) + service(0, 15) + reads(1, 0) + STOP, 10),
                (cloud(63) + datum(above) + service(EMBARGO, 63) + writes(1, 0) + STOP, 10),
                (cloud() * 3 + datum() * 10 + datum(above) + STOP, 90)):
            yield refused(text, 5, place)


def read_crowded():
    """Marks that leave as many candidates as are allowed; and too many without one of them."""
    for mark in MARKS[1:]:
        few = cloud(15) + cloud(mark) * 2
        yield accepted(few + datum(mark) * 16 + STOP, 3, 16, 0)
        yield refused(few + datum(mark) * 15 + datum(0) + STOP, 12, 0)
        yield accepted(few + datum(mark | 1) + datum(0) * 15 + STOP, 3, 16, 0)
        yield refused(few + service(mark, 63) * 15 + service(0, 63) + STOP, 12, 0)


def label_reads(dice):
    yield from read_ways()
    yield from read_every_label()
    yield from read_above()
    yield from read_crowded()
    for _ in range(40):
        yield read_case(text_of_marks(dice, random_workflow(dice)))
    for _ in range(70):
        yield read_case(spoilt_text(dice, random_workflow(dice)))
    for _ in range(20):
        commands = commands_of(dice, add_marks(dice, random_workflow(dice)))
        yield read_case(damage_bytes(dice, b"".join(commands)))
        yield read_case(damage_commands(dice, commands))


# ---- Judge -----------------------------------------------------------------------------

def judge_ways():
    for upper, lower, holds in ways():
        text = carried(upper, lower)
        yield judge_case(text, placed(1, 0), "secure" if holds else "refused 13 0")
        yield judge_case(text, placed(0, 1), "secure" if holds else "refused 13 1")
        for edge, number in ((reads, 14), (writes, 15)):
            text = moving(edge, upper, lower)
            yield judge_case(text, BESIDE, "secure" if holds else f"refused {number} 1")
    for each in BARRED_BY_MARKS:
        yield judge_case(each.text, each.placement, f"refused {each.number} {each.place}")


# Clouds 0 to 3 without a mark, with one, with the other, with both; data 0 to 3 the same way;
# service 4 reads all of them, and 5 writes them.
FOUR_BY_FOUR = (b"".join(map(cloud, MARKS)) + b"".join(map(datum, MARKS)) + service(0, BOTH) * 2
                + b"".join(reads(4, d) for d in range(4))
                + b"".join(writes(5, d) for d in range(4)) + STOP)


def judge_four_by_four():
    """Each datum on cloud 3; services on clouds where some copies, or all, may not be."""
    for reader, writer, expected in (
            (3, 3, "secure"), (0, 3, "refused 14 1"), (1, 3, "refused 14 2"),
            (2, 3, "refused 14 1"), (3, 0, "refused 15 5"), (3, 1, "refused 15 6"),
            (3, 2, "refused 15 5"), (1, 2, "refused 14 2"), (2, 1, "refused 14 1")):
        yield judge_case(FOUR_BY_FOUR, placed(3, 3, 3, 3, reader, writer), expected)
    # If a datum stands with its service, no copy is made.
    for clouds, expected in (
            ((0, 1, 2, 3, 3, 3), "secure"), ((0, 1, 2, 3, 1, 3), "refused 14 2"),
            ((1, 1, 3, 3, 1, 3), "refused 14 2"), ((2, 3, 2, 3, 3, 2), "refused 15 5"),
            ((0, 0, 2, 3, 3, 3), "refused 13 1"), ((0, 2, 2, 3, 3, 3), "refused 13 1"),
            ((0, 1, 1, 3, 3, 3), "refused 13 2"), ((0, 1, 2, 2, 3, 3), "refused 13 3"),
            ((3, 3, 3, 1, 0, 0), "refused 13 3"), ((3, 1, 2, 3, 3, 3), "secure")):
        yield judge_case(FOUR_BY_FOUR, placed(*clouds), expected)


def label_judgements(dice):
    for text, number, place in REFUSED_BY_MARKS:
        yield judge_case(text, placed(), f"refused {number} {place}")
    yield from judge_ways()
    yield from judge_four_by_four()
    for _ in range(40):
        made = add_marks(dice, random_workflow(dice))
        add_random_pairs(dice, made)
        text = b"".join(commands_of(dice, made))
        found = assorted_candidates(dice, made, 2)
        for placement in found:
            yield judge_case(text, placement)
        yield judge_case(text, bend(dice, made, dice.choice(found)))
    for _ in range(40):
        made = random_workflow(dice)
        yield judge_case(spoilt_text(dice, made), random_placement(dice, made))


# ---- Masks -----------------------------------------------------------------------------

# Eight clouds of two levels, with all four combinations of marks; which of them cover these
# labels in turn; and the same from the last cloud to the first.
TWO_LEVELS = [*MARKS, *(1 | mark for mark in MARKS)]
FORWARD = (0xFF, 0xAA, 0xCC, 0x88, 0xF0, 0xA0, 0xC0, 0x80)
BACKWARD = (0xFF, 0x55, 0x33, 0x11, 0x0F, 0x05, 0x03, 0x01)


def masks_of_marks():
    forward = b"".join(map(cloud, TWO_LEVELS))
    backward = b"".join(map(cloud, reversed(TWO_LEVELS)))
    data = b"".join(map(datum, TWO_LEVELS))
    for clouds, found in ((forward, FORWARD), (backward, BACKWARD)):
        yield given(clouds + data + STOP, *found)
        for clearance in (1 | BOTH, HIGHEST_LABEL):
            services = b"".join(service(label, clearance) for label in TWO_LEVELS)
            yield given(services + clouds + STOP, *found)
        yield given(clouds + data + service(2 | EMBARGO, 63) + STOP, *found, 0x00)
    # A pin to each cloud, of a datum that four of them cover.
    for to in range(8):
        bit = FORWARD[1] & 1 << to
        yield given(forward + datum(EMBARGO) + datum() + pin(0, to) + STOP, bit, 0xFF)


def masks_of_few_clouds():
    """Clouds that are not declared cover nothing, and a clearance counts for nothing."""
    for found in ((1, 0, 0, 0), (3, 2, 0, 0), (7, 2, 4, 0), (15, 10, 12, 8)):
        count = found[0].bit_count()                       # all of so many clouds
        clouds = b"".join(map(cloud, MARKS[:count]))
        yield given(clouds + b"".join(map(datum, MARKS)) + STOP, *found)
        for clearance in (BOTH, HIGHEST_LABEL):
            services = b"".join(service(label, clearance) for label in MARKS)
            yield given(services + clouds + STOP, *found)
    # A higher level is no mark, and a mark is no level.
    yield given(cloud(15) + cloud(EMBARGO) + cloud(SOURCE) + cloud(1 | EMBARGO) + datum(1 | EMBARGO)
                + datum(1 | SOURCE) + datum(EMBARGO) + datum(SOURCE) + datum(1) + STOP,
                0x08, 0x00, 0x0A, 0x04, 0x09)
    for mark in MARKS[1:]:
        # The same marks on every label change nothing.
        yield given(marked(M, mark), 0x02, 0x03, 0x03, 0x03, 0x03)
        yield given(marked(STEPS + STOP, mark), 0x06, 0x07, 0x04, 0x07)
        # As many candidates as are allowed, because of marks; and without one of them too many.
        clouds = cloud(mark) + cloud(15) * 6 + cloud(mark)
        yield given(clouds + datum(mark) * 16 + STOP, *[0x81] * 16)
        yield refused_masks(clouds + datum(mark) * 15 + datum() + STOP, 12, 0)


def every_pair(block):
    """Each label of a cloud with each label of a block, fifteen of them at a time.

    A block that may stand nowhere comes first: the others would have too many candidates.
    """
    nowhere = datum(HIGHEST_LABEL) + pin(0, 0)
    for first in range(8):                                 # eight clouds of two levels
        labels = range(first, HIGHEST_LABEL + 1, 8)
        clouds = b"".join(map(cloud, labels))
        for begin in range(0, HIGHEST_LABEL + 1, MOST_BLOCKS - 1):
            below = range(begin, min(begin + MOST_BLOCKS - 1, HIGHEST_LABEL + 1))
            found = [sum(1 << k for k, upper in enumerate(labels) if is_covered(upper, lower))
                     for lower in below]
            blocks = b"".join(map(block, below))
            yield given(clouds + nowhere + blocks + STOP, 0x00, *found)


def label_masks(dice):
    for text, number, place in REFUSED_BY_MARKS:
        yield refused_masks(text, number, place)
    yield from masks_of_marks()
    yield from masks_of_few_clouds()
    yield from every_pair(datum)
    yield from every_pair(lambda label: service(label, HIGHEST_LABEL))
    for _ in range(50):
        yield masks_case(text_of_marks(dice, levelled_workflow(dice)))
    for _ in range(20):
        yield masks_case(spoilt_text(dice, levelled_workflow(dice)))
