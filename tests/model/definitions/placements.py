"""Placements, each sixteen bytes: the candidates, refusals 13, 14, 15 and 17, and the transfers."""

import itertools

from model.definitions.description import READS, WRITES, Refused
from model.definitions.rules import allowed, covers, may_stand


def candidates(described):
    """Every candidate, as sixteen bytes."""
    choices = [allowed(described, b) for b in range(len(described.blocks))]
    for clouds in itertools.product(*choices):
        yield bytes(clouds).ljust(16, b"\0")


def bad_position(described, placement):
    """The lowest position that keeps the placement from being a candidate, or None."""
    for position, cloud in enumerate(placement):
        if position < len(described.blocks):
            good = may_stand(described, position, cloud)
        else:
            good = cloud == 0
        if not good:
            return position
    return None


def ends(edge, placement):
    """The clouds between which the edge moves its datum: from, to."""
    service, datum = placement[edge.service], placement[edge.datum]
    return (datum, service) if edge.command == READS else (service, datum)


def first_broken(described, placement, command):
    """The first edge of this command whose copy would lie where its datum may not, or None.

    With READS this is rule 16, with WRITES rule 17: either way the copy
    lies with the service, and the datum's label is what counts.
    """
    for e, edge in enumerate(described.edges):
        if edge.command == command:
            source, destination = ends(edge, placement)
            held_by = described.clouds[placement[edge.service]].label
            needed = described.blocks[edge.datum].label
            if source != destination and not covers(held_by, needed):
                return e
    return None


def holders(described, placement, datum):
    """The clouds that hold the datum: its own, and those where a transfer leaves a copy."""
    clouds = {placement[datum]}
    for edge in described.edges:
        source, destination = ends(edge, placement)
        if edge.datum == datum and source != destination:
            clouds.add(placement[edge.service])
    return clouds


def first_meeting(described, placement):
    """The first pair whose data some cloud holds both of, or None."""
    for number, (one, other) in enumerate(described.apart):
        if holders(described, placement, one) & holders(described, placement, other):
            return number
    return None


def is_secure(described, candidate):
    return (first_broken(described, candidate, READS) is None
            and first_broken(described, candidate, WRITES) is None
            and first_meeting(described, candidate) is None)


def check_placement(described, placement):
    """Refuses with 13, 14, 15 or 17; a placement that passes is secure."""
    position = bad_position(described, placement)
    if position is not None:
        raise Refused(13, position)
    for number, command in ((14, READS), (15, WRITES)):
        edge = first_broken(described, placement, command)
        if edge is not None:
            raise Refused(number, edge)
    pair = first_meeting(described, placement)
    if pair is not None:
        raise Refused(17, pair)


def verdict(made, placement):
    try:
        check_placement(made, placement)
    except Refused as refusal:
        return refusal.number
    return None


def moves(described, placement):
    """The transfers as (edge, datum, source, destination), in edge order."""
    found = []
    for e, edge in enumerate(described.edges):
        source, destination = ends(edge, placement)
        if source != destination:
            found.append((e, edge.datum, source, destination))
    return found
