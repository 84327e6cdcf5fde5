"""Random descriptions in which options merge and costs are equal, for Census and Draw."""

from model.cases.chance import (add_random_pairs, commands_of, damage_commands, highest_level,
                                random_workflow, spoil)
from model.cases.copies import shorten
from model.definitions.description import (HIGHEST_LEVEL, MOST_CANDIDATES, READS, WRITES, Cloud,
                                           Datum, Description, Edge, Service)
from model.definitions.rules import allowed, count_candidates, keeps_rule_3, keeps_rule_4

RATES = ((0,), (1,), (0, 1), (1, 2), (1, 2, 3), (0, 10, 11), (0, 1, 65535), (65534, 65535))
READERS = (1, 1, 1, 1, 1, 1, 0, 2, 2, 3)                   # how many a datum has


def random_flows(dice, most):
    """A workflow in which most data have one reader, and prices are few, so that costs tie."""
    made = Description()
    rates, top = dice.choice(RATES), dice.choice((0, 0, 0, 1, 1, 2))
    made.clouds = [Cloud(dice.between(0, top), *(dice.choice(rates) for _ in range(4)))
                   for _ in range(dice.choice((2, 2, 2, 3, 3, 4, 8)))]
    highest = highest_level(made)
    made.blocks = dice.shuffled([random_flow_service(dice, highest)
                                 for _ in range(dice.between(1, 4))]
                                + [random_flow_datum(dice, highest)
                                   for _ in range(dice.between(1, 4))])
    made.edges = random_flow_edges(dice, made)
    pin_until(dice, made, most)
    return made


def random_flow_service(dice, highest):
    location = dice.choice((0, 0, 0, dice.between(0, highest)))
    return Service(location, HIGHEST_LEVEL, dice.choice((0, 0, 1, 1, 2, 50, 0xFFFFFFFF)))


def random_flow_datum(dice, highest):
    return Datum(dice.choice((0, highest, dice.between(0, highest))),
                 dice.choice((0, 1, 9, 10, 10, 10, 11, 20, 65535)),
                 dice.choice((0, 0, 1, 1, 2, 65535)))


def random_flow_edges(dice, made):
    edges = []
    for d in made.data():
        readers = dice.shuffled(made.services())[:dice.choice(READERS)]
        edges += [Edge(READS, reader, d) for reader in readers]
        if not dice.one_in(6):
            edges.append(Edge(WRITES, dice.choice(made.services()), d))
    return [edge for edge in dice.shuffled(edges)
            if keeps_rule_3(made, edge) and keeps_rule_4(made, edge)]


def pin_until(dice, made, most):
    """Some pins, rarely to a cloud that the block may not use; more if candidates are many."""
    often = dice.choice((3, 8, 100))
    for block in range(len(made.blocks)):
        if dice.one_in(often):
            made.pins[block] = dice.choice(allowed(made, block))
    if dice.one_in(30):
        made.pins[dice.below(len(made.blocks))] = dice.below(len(made.clouds))
    while count_candidates(made) > most:
        block = dice.below(len(made.blocks))
        made.pins[block] = dice.choice(allowed(made, block))


def apart_flows(dice, most):
    """Such a workflow with a pair at least."""
    made = random_flows(dice, most)
    while not made.apart:
        made = random_flows(dice, most)
        add_random_pairs(dice, made)
    return made


def apart_text(dice, most):
    return b"".join(commands_of(dice, apart_flows(dice, most)))


def flow_text(dice, most):
    return b"".join(commands_of(dice, random_flows(dice, most)))


def brief_text(dice, most):
    """A workflow as those of `flow_text`, in which copies count as much as data."""
    return b"".join(commands_of(dice, shorten(dice, random_flows(dice, most))))


QUICK = 1000                    # candidates; random descriptions with more are passed over


def workflow_texts(dice, times):
    for _ in range(times):
        made = random_workflow(dice)
        if count_candidates(made) <= QUICK:
            yield b"".join(commands_of(dice, made))


def spoilt_texts(dice, times):
    """Descriptions of which many are refused, each for a reason of its own."""
    for _ in range(times):
        made = random_flows(dice, 30)
        yield damage_commands(dice, commands_of(dice, made))
        spoil(dice, made)
        if not QUICK < count_candidates(made) <= MOST_CANDIDATES:
            yield b"".join(commands_of(dice, made))
