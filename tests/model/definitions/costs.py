"""What a placement costs: the amounts for storage, transfers and computing."""

import functools
from fractions import Fraction
from typing import NamedTuple

from model.definitions.description import Datum
from model.definitions.placements import moves


@functools.cache
def gigabytes(size):
    """Tenths of a gigabyte, charged by the whole one: Python, too, rounds a half to even."""
    return round(Fraction(size, 10))


class Amounts(NamedTuple):
    """The parts of a placement's cost, which is their sum."""
    storage: int
    transfer: int
    cpu: int


def amounts_of(described, placement):
    """Data are stored for their longevity, and the copy of each transfer for one month."""
    storage = transfer = cpu = 0
    for b, block in enumerate(described.blocks):
        cloud = described.clouds[placement[b]]
        if isinstance(block, Datum):
            storage += cloud.storage_rate * gigabytes(block.size) * block.longevity
        else:
            cpu += cloud.cpu_rate * block.cpu_units
    for e, datum, source, destination in moves(described, placement):
        moved = gigabytes(described.blocks[datum].size)
        rate = described.clouds[source].out_rate + described.clouds[destination].in_rate
        transfer += rate * moved
        # Read or written, the copy lies with the service.
        holder = described.clouds[placement[described.edges[e].service]]
        storage += holder.storage_rate * moved
    return Amounts(storage, transfer, cpu)
