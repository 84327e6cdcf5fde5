"""Labels with marks: what the cases of all letters are made of.

A label is a level from 0 to 15, with the embargo mark or without, with the source mark or
without.  One covers another whose level is no higher and that has no mark which it lacks; so of
two labels it may be that neither covers the other.

Parts: which labels cover which, by hand; the labels of a text; random descriptions.
"""

import functools
import itertools

from model.cases.chance import commands_of
from model.cases.descriptions import Barred
from model.cases.making import STOP, cloud, datum, placed, reads, service, writes
from model.definitions.description import (CLOUD, DATUM, EMBARGO, HIGHEST_LABEL, SERVICE, SOURCE,
                                           Datum, Description, Refused, commands_in, fault)
from model.definitions.rules import keeps_rule_3, keeps_rule_4, label_of, level


# ---- Which labels cover which, by hand -------------------------------------------------

BOTH = EMBARGO | SOURCE
MARKS = (0, EMBARGO, SOURCE, BOTH)


def marks(label):
    return label & BOTH


# The marks that a label with these marks has enough for.
ENOUGH_FOR = {0: (0,), EMBARGO: (0, EMBARGO), SOURCE: (0, SOURCE), BOTH: MARKS}


LEVELS = 16                     # labels that differ by a multiple of it differ in their marks


def is_covered(upper, lower):
    high_enough = upper % LEVELS >= lower % LEVELS
    return high_enough and lower - lower % LEVELS in ENOUGH_FOR[upper - upper % LEVELS]


def ways():
    """Two labels in every way that they can lie to each other, and whether one covers the other.

    The level of the one is too low, just high enough, and the highest.
    """
    for upper, high_enough in ((7, False), (8, True), (15, True)):
        for has, needs in itertools.product(MARKS, repeat=2):
            yield upper | has, 8 | needs, high_enough and needs in ENOUGH_FOR[has]


# What is missing if the level is the same, or even higher: one mark, the other, one of two.
MISSING = [(8, 8 | EMBARGO), (8, 8 | SOURCE), (8 | EMBARGO, 8 | BOTH), (8 | SOURCE, 8 | BOTH),
           (15, EMBARGO), (15 | SOURCE, EMBARGO), (15, SOURCE), (15 | EMBARGO, BOTH)]


def cleared(clearance, location):
    """Rule 2: a service with these labels, as block 2."""
    return (cloud(HIGHEST_LABEL) + datum(location) + service(0, 0)
            + service(location, clearance) + STOP)


def reading(clearance, label):
    """Rule 3: edge 1 reads a datum of this label."""
    return (cloud(HIGHEST_LABEL) + datum(0) + datum(label) + service(0, clearance)
            + reads(2, 0) + reads(2, 1) + STOP)


def writing(label, location):
    """Rule 4: edge 1 writes a datum of this label."""
    return (cloud(HIGHEST_LABEL) + datum(HIGHEST_LABEL) + datum(label)
            + service(location, HIGHEST_LABEL) + writes(2, 0) + writes(2, 1) + STOP)


def carried(of_cloud, of_block):
    """Rule 7: a datum and a service of one label; cloud 0 covers everything."""
    return (cloud(HIGHEST_LABEL) + cloud(of_cloud) + datum(of_block)
            + service(of_block, HIGHEST_LABEL) + STOP)


def moving(edge, of_cloud, label):
    """Rules 16 and 17: edge 1 leaves a copy of a datum with service 2, if that is on cloud 1."""
    return (cloud(HIGHEST_LABEL) + cloud(of_cloud) + datum(0) + datum(label)
            + service(0, HIGHEST_LABEL) + edge(2, 0) + edge(2, 1) + STOP)


BESIDE = placed(0, 0, 1)                                   # of `moving`: the service on cloud 1

# The labels that a description compares, the number of its refusal, and the place.
WORKFLOWS = ((cleared, 9, 2), (reading, 10, 1), (writing, 11, 1))

# Descriptions that are refused for a mark alone.
REFUSED_BY_MARKS = [(make(*labels), number, place)
                    for make, number, place in WORKFLOWS for labels in MISSING]

# Placements that are refused for a mark alone.
BARRED_BY_MARKS = [each for one, other in MISSING for each in (
    Barred(carried(one, other), placed(1, 0), 13, 0),
    Barred(carried(one, other), placed(0, 1), 13, 1),
    Barred(moving(reads, one, other), BESIDE, 14, 1),
    Barred(moving(writes, one, other), BESIDE, 15, 1))]


# ---- The labels of a text --------------------------------------------------------------

FIELDS = {CLOUD: ("a cloud",), DATUM: ("a datum",), SERVICE: ("a location", "a clearance")}
FIELD_NAMES = tuple(itertools.chain.from_iterable(FIELDS.values()))


def labels_met(text):
    """What labels stand for and where, up to the command at which decoding stops."""
    described = Description()
    try:
        for at, command, operands in commands_in(text):
            for number, field in enumerate(FIELDS.get(command, ()), start=1):
                yield field, at + number
            if fault(described, command, operands) is not None:
                return
            described.add(command, operands)
    except Refused:
        return


@functools.cache
def highest_label(text):
    """The highest byte among the labels that decoding meets; from 16 on it has a mark."""
    return max((text[at] for _, at in labels_met(text)), default=0)


def relabelled(text, change, fields=FIELD_NAMES):
    """The text with the labels of these fields changed."""
    changed = bytearray(text)
    for field, at in labels_met(text):
        if field in fields:
            changed[at] = change(text[at])
    return bytes(changed)


def marked(text, more):
    """The text with these marks on every label."""
    return relabelled(text, lambda label: label | more)


# ---- Random descriptions ---------------------------------------------------------------

MIXES = ((EMBARGO,), (SOURCE,), (BOTH,), (0, EMBARGO), (0, SOURCE), (0, BOTH), (EMBARGO, SOURCE),
         (EMBARGO, BOTH), (SOURCE, BOTH), MARKS, MARKS, MARKS)


def add_marks(dice, made):
    """Marks on clouds and blocks; each block may still stand somewhere, if it could before.

    Edges that would break a rule are left out.
    """
    mix = dice.choice(MIXES)
    made.clouds = [each._replace(label=each.label | dice.choice(mix)) for each in made.clouds]
    made.blocks = [marked_block(dice, made, b) for b in range(len(made.blocks))]
    made.edges = [edge for edge in made.edges
                  if keeps_rule_3(made, edge) and keeps_rule_4(made, edge)]
    return made


def marked_block(dice, made, b):
    """The block with some of the marks of a cloud that it may use; most clearances have both."""
    block = made.blocks[b]
    homes = [each.label for k, each in enumerate(made.clouds)
             if level(each.label) >= level(label_of(block)) and made.pins.get(b, k) == k]
    some = dice.choice(MARKS) & marks(dice.choice(homes or [0]))
    if isinstance(block, Datum):
        return block._replace(label=block.label | some)
    if dice.one_in(2):
        some = 0
    clearance = block.clearance | some | dice.choice((BOTH, BOTH, BOTH, *MARKS))
    return block._replace(location=block.location | some, clearance=clearance)


def other_label(dice, label):
    """A label with a mark more or less, or any."""
    return dice.choice((label ^ EMBARGO, label ^ EMBARGO, label ^ SOURCE, label ^ SOURCE,
                        dice.below(HIGHEST_LABEL + 1)))


def text_of_marks(dice, made):
    return b"".join(commands_of(dice, add_marks(dice, made)))


def spoilt_text(dice, made):
    """A workflow with marks of which one label is another, so that something may be wrong."""
    commands = commands_of(dice, add_marks(dice, made))
    text = b"".join(commands)
    changed = dice.choice([at for _, at in labels_met(text)])
    return text[:changed] + bytes([other_label(dice, text[changed])]) + text[changed + 1:]
