"""The rules of a workflow: labels, the clouds that each block may use, and refusals 9 to 12.

Parts: labels; rules 2, 3, 4 and 7 and the pins; the masks; standing.
"""

import math

from model.definitions.description import (EMBARGO, LEVEL_BITS, MOST_BLOCKS, MOST_CANDIDATES,
                                           MOST_CLOUDS, READS, SOURCE, WRITES, Datum, Refused)


# ---- Labels ----------------------------------------------------------------------------

def level(label):
    return label & LEVEL_BITS


def has_embargo(label):
    return label & EMBARGO != 0


def has_source(label):
    return label & SOURCE != 0


def covers(upper, lower):
    """The one comparison of labels: as high a level at least, and every mark.

    Of two labels it may be that neither covers the other.
    """
    return (level(upper) >= level(lower)
            and (has_embargo(upper) or not has_embargo(lower))
            and (has_source(upper) or not has_source(lower)))


def label_of(block):
    """What a cloud must cover to carry the block."""
    return block.label if isinstance(block, Datum) else block.location


# ---- Rules 2, 3, 4 and 7, and the pins -------------------------------------------------

def keeps_rule_2(service):
    return covers(service.clearance, service.location)


def keeps_rule_3(described, edge):
    service, datum = described.blocks[edge.service], described.blocks[edge.datum]
    return edge.command != READS or covers(service.clearance, datum.label)


def keeps_rule_4(described, edge):
    service, datum = described.blocks[edge.service], described.blocks[edge.datum]
    return edge.command != WRITES or covers(datum.label, service.location)


def may_stand(described, block, cloud):
    """Rule 7 and the pin of one block; the cloud may be any number."""
    return (cloud < len(described.clouds)
            and covers(described.clouds[cloud].label, label_of(described.blocks[block]))
            and described.pins.get(block, cloud) == cloud)


def allowed(described, block):
    return [k for k in range(len(described.clouds)) if may_stand(described, block, k)]


def count_candidates(described):
    """Blocks choose freely of each other, so their choices multiply."""
    return math.prod(len(allowed(described, b)) for b in range(len(described.blocks)))


def check_workflow(described):
    """Refuses with 9 to 12, each number over the whole description before the next."""
    for b in described.services():
        if not keeps_rule_2(described.blocks[b]):
            raise Refused(9, b)
    for e, edge in enumerate(described.edges):
        if not keeps_rule_3(described, edge):
            raise Refused(10, e)
    for e, edge in enumerate(described.edges):
        if not keeps_rule_4(described, edge):
            raise Refused(11, e)
    if count_candidates(described) > MOST_CANDIDATES:
        raise Refused(12, 0)


# ---- The masks: the clouds that each block may use, in sixteen bytes -------------------

def is_permitted(described, b, k):
    """What bit k of byte b says, for any two numbers.

    The rule in its own words, and not `may_stand`: so the bytes can be compared with the
    candidates.
    """
    if b >= len(described.blocks) or k >= len(described.clouds):
        return False
    good_enough = covers(described.clouds[k].label, label_of(described.blocks[b]))
    return good_enough and (b not in described.pins or described.pins[b] == k)


def masks_of(described):
    return bytes(sum(2 ** k for k in range(MOST_CLOUDS) if is_permitted(described, b, k))
                 for b in range(MOST_BLOCKS))


# ---- Standing: may a position have a cloud, and if not, why ------------------------------

MAY, NO_SUCH_CLOUD, NOT_COVERED, PINNED_ELSEWHERE, NO_BLOCK = range(5)


def standing_of(described, position, cloud):
    """The first of the tests of number 13 that fails, for any two numbers.

    Each test by itself, and not `may_stand`: so the reasons can be compared with what Judge says.
    """
    if position >= len(described.blocks):
        return MAY if cloud == 0 else NO_BLOCK
    if cloud >= len(described.clouds):
        return NO_SUCH_CLOUD
    if not covers(described.clouds[cloud].label, label_of(described.blocks[position])):
        return NOT_COVERED
    pinned = position in described.pins
    return PINNED_ELSEWHERE if pinned and described.pins[position] != cloud else MAY
