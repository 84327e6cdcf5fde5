"""Random descriptions, placements and lengths of buffers.

Parts: the dice; sound descriptions; damage; placements and lengths.
"""

import itertools
import random
from collections import Counter

from model.cases.making import STOP, apart, encode, pin, placed
from model.definitions.description import (CLOUD, DATUM, HIGHEST_LABEL, HIGHEST_LEVEL,
                                           MOST_CANDIDATES, MOST_PAIRS, PIN, READS, SERVICE, WIDTHS,
                                           WRITES, Cloud, Datum, Description, Edge, Service,
                                           one_too_many, said_before)
from model.definitions.placements import verdict
from model.definitions.rules import (allowed, count_candidates, covers, keeps_rule_3, keeps_rule_4,
                                     level)


# ---- The dice --------------------------------------------------------------------------

class Dice:
    """Chance from Random.random alone, whose sequence Python promises to keep."""

    def __init__(self, seed):
        self.random = random.Random(seed).random

    def below(self, limit):
        return int(self.random() * limit)

    def between(self, low, high):
        return low + self.below(high - low + 1)

    def choice(self, items):
        return items[self.below(len(items))]

    def one_in(self, times):
        return self.below(times) == 0

    def bytes(self, count):
        return bytes(self.below(256) for _ in range(count))

    def shuffled(self, items):
        left = list(items)
        return [left.pop(self.below(len(left))) for _ in items]


def dice_of(letter):
    """Each letter has dice of its own: one more leaves the cases of the others as they are."""
    return Dice(f"cases {letter}")


# ---- Sound descriptions ----------------------------------------------------------------

def random_workflow(dice):
    """A workflow that keeps every rule, with a fair spread of levels, pins and edges."""
    made = Description()
    top = dice.choice((0, 1, 1, 2, 2, 3, 5, 15))
    made.clouds = [random_cloud(dice, top) for _ in range(dice.choice((1, 2, 2, 3, 3, 4, 5, 8)))]
    highest = highest_level(made)
    made.blocks = [random_block(dice, highest)
                   for _ in range(dice.choice((1, 2, 3, 4, 5, 6, 7, 8, 9, 10, 12, 16)))]
    add_random_edges(dice, made)
    add_random_pins(dice, made)
    return made


def highest_level(made):
    return max(level(each.label) for each in made.clouds)


def random_level(dice):
    return dice.below(HIGHEST_LEVEL + 1)


def random_number(dice, most):
    return dice.choice((0, 1, 2, 9, 10, 11, most, dice.below(100), dice.below(most + 1)))


def random_cloud(dice, top):
    return Cloud(dice.between(0, top), *(random_number(dice, 0xFFFF) for _ in range(4)))


def random_block(dice, highest):
    if dice.one_in(2):
        return Datum(dice.between(0, highest), random_number(dice, 0xFFFF),
                     random_number(dice, 0xFFFF))
    location = min(dice.between(0, highest), dice.between(0, highest))
    clearance = dice.choice((HIGHEST_LEVEL, dice.between(location, HIGHEST_LEVEL),
                             max(location, highest)))
    return Service(location, clearance, random_number(dice, 0xFFFFFFFF))


def add_random_edges(dice, made):
    if not made.services() or not made.data():
        return
    mix = dice.choice(((READS, READS, WRITES), (READS, WRITES, WRITES), (WRITES,)))
    for _ in range(dice.choice((3, 8, 16, 32, 80, 300))):
        names = dice.choice(made.services()), dice.choice(made.data())
        edge = Edge(dice.choice(mix), *names)
        if (not one_too_many(made, edge.command)
                and not said_before(made, edge.command, names)
                and keeps_rule_3(made, edge) and keeps_rule_4(made, edge)):
            made.edges.append(edge)


def add_random_pins(dice, made):
    often = dice.choice((2, 6, 100))
    for block in range(len(made.blocks)):
        if dice.one_in(often):
            made.pins[block] = dice.choice(allowed(made, block))
    while count_candidates(made) > MOST_CANDIDATES:
        block = dice.below(len(made.blocks))
        made.pins[block] = dice.choice(allowed(made, block))


def add_random_pairs(dice, made):
    """Pairs of data, named in either order; rarely of two that a service has to do with both."""
    def services_of(datum):
        return {edge.service for edge in made.edges if edge.datum == datum}

    pairs = [pair for pair in itertools.combinations(made.data(), 2)
             if dice.one_in(5) or services_of(pair[0]).isdisjoint(services_of(pair[1]))]
    most = dice.choice((1, 1, 1, 2, 2, 3, MOST_PAIRS))
    made.apart = [tuple(dice.shuffled(pair)) for pair in dice.shuffled(pairs)[:most]]


def apart_workflow(dice):
    """A random workflow with a pair at least."""
    made = random_workflow(dice)
    while not made.apart:
        made = random_workflow(dice)
        add_random_pairs(dice, made)
    return made


def commands_of(dice, made):
    """The commands in a random order in which every name is declared before its use."""
    queues = [
        [(0, 0, encode(CLOUD, *each)) for each in made.clouds],
        [(0, 0, encode(DATUM if isinstance(each, Datum) else SERVICE, *each))
         for each in made.blocks],
        [(0, max(edge.service, edge.datum) + 1, encode(*edge)) for edge in made.edges],
        [(to + 1, block + 1, pin(block, to)) for block, to in made.pins.items()],
        [(0, max(pair) + 1, apart(*pair)) for pair in made.apart],
    ]
    commands = []
    declared = [0] * len(queues)                           # how many left each queue
    while any(queues):
        ready = [q for q in range(len(queues)) if queues[q] and queues[q][0][0] <= declared[0]
                 and queues[q][0][1] <= declared[1]]
        q = dice.choice(ready)
        commands.append(queues[q].pop(0)[2])
        declared[q] += 1
    return commands + [STOP]


def random_text(dice):
    return b"".join(commands_of(dice, random_workflow(dice)))


# ---- Damage ----------------------------------------------------------------------------

def spoil(dice, made):
    """Something may now be wrong with the workflow; its names stay sound."""
    block = dice.below(len(made.blocks))
    kind = dice.below(4)
    if kind == 0:
        made.pins.clear()
    elif kind == 1:
        made.pins[block] = dice.below(len(made.clouds))
    elif isinstance(made.blocks[block], Datum):
        made.blocks[block] = made.blocks[block]._replace(label=random_level(dice))
    else:
        made.blocks[block] = Service(random_level(dice), random_level(dice), dice.below(1000))


def damage_bytes(dice, text):
    at = dice.below(len(text))
    kind = dice.below(6)
    if kind == 0:
        return text[:at] + bytes([text[at] ^ (1 << dice.below(8))]) + text[at + 1:]
    if kind == 1:
        return text[:at] + dice.bytes(1) + text[at + 1:]
    if kind == 2:
        return text[:at] + text[at + 1:]
    if kind == 3:                                          # 09 is no command
        return text[:at] + bytes([dice.choice((*range(7), 9))]) + text[at:]
    if kind == 4:
        return text[:at]
    return text + dice.bytes(dice.between(1, 9))


def damage_commands(dice, commands, added=None):
    """Repeat, drop, exchange or add whole commands, so that the framing stays sound.

    What is added is any command, or the one that is given.
    """
    changed = list(commands)
    at, other = dice.below(len(changed)), dice.below(len(changed))
    kind = dice.below(4)
    if kind == 0:
        changed.insert(other, changed[at])
    elif kind == 1:
        del changed[at]
    elif kind == 2:
        changed[at], changed[other] = changed[other], changed[at]
    else:
        changed.insert(at, random_command(dice) if added is None else added)
    return b"".join(changed)


def random_command(dice):
    command = dice.choice((CLOUD, DATUM, SERVICE, READS, WRITES, PIN, READS, WRITES, PIN))
    return encode(command, *(dice.below(18) if width == 1 else dice.below(100)
                             for width in WIDTHS[command]))


# ---- Placements and lengths of buffers -------------------------------------------------

def labels_covered(label):
    return sum(covers(label, other) for other in range(HIGHEST_LABEL + 1))


def random_candidate(dice, made):
    """Half of the time near the cloud that covers most, where most placements are secure."""
    choices = [allowed(made, b) for b in range(len(made.blocks))]
    clouds = [dice.choice(choice) for choice in choices]
    if dice.one_in(2):
        for b, choice in enumerate(choices):
            if not dice.one_in(4):
                clouds[b] = max(choice, key=lambda k: labels_covered(made.clouds[k].label))
    return placed(*clouds)


def assorted_candidates(dice, made, most):
    """Different candidates, at most so many of each verdict."""
    kept = []
    count = Counter()
    for _ in range(80):
        placement = random_candidate(dice, made)
        number = verdict(made, placement)
        if placement not in kept and count[number] < most:
            kept.append(placement)
            count[number] += 1
    return kept


def bend(dice, made, placement):
    """The placement with one position changed for the worse, most likely."""
    bent = bytearray(placement)
    position = dice.below(dice.choice((16, len(made.blocks))))
    bent[position] = dice.choice((dice.below(256), len(made.clouds), 8, 255,
                                  dice.below(len(made.clouds)), dice.below(len(made.clouds))))
    return bytes(bent)


def random_placement(dice, made):
    if dice.one_in(4):
        return dice.bytes(16)
    return placed(*(dice.below(len(made.clouds)) for _ in made.blocks))


def rooms(dice, needed):
    """Lengths of a buffer around what is needed."""
    around = [needed, needed + dice.choice((1, 1, 2, 3, 4, 20)), dice.choice((0, 1, 3, 4))]
    if needed > 0:
        around += [needed - 1, dice.below(needed)]
    return sorted(set(around))
