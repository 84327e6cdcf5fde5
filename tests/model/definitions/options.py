"""Which placements are one option, and the rows: the first placement of each option, in order."""

from typing import NamedTuple

from model.definitions.costs import Amounts, amounts_of
from model.definitions.placements import candidates, is_secure


def stem_and_branches(placement, datum, writer, readers):
    home = placement[datum]
    stem = (home,)
    if writer is not None and placement[writer] != home:
        stem = (placement[writer], home)
    branches = tuple((placement[reader],) if placement[reader] != home else ()
                     for reader in readers)
    if len(branches) == 1:
        # A lone branch continues the stem and is not compared by itself.
        return stem + branches[0], ()
    return stem, branches


def option_of(described):
    """A function of secure placements: equal exactly for those that are the same option."""
    services = described.services()
    links = [(d, described.writer(d), described.readers(d)) for d in described.data()]

    def option(placement):
        return (tuple(placement[s] for s in services),
                tuple(stem_and_branches(placement, *link) for link in links))
    return option


class Row(NamedTuple):
    cost: int
    placement: bytes
    amounts: Amounts

    def cursor(self):
        """What rows are ordered by, and where a draw goes on: amounts play no part in it."""
        return self.cost, self.placement

    def shown(self, blocks):
        """The row with the clouds of so many blocks, as the programs print it."""
        words = (self.cost, digits(self.placement[:blocks]), *self.amounts)
        return " ".join(map(str, words))


def row_at(described, placement):
    amounts = amounts_of(described, placement)
    return Row(sum(amounts), placement, amounts)


def rows_of(described):
    """The rows in the order in which they are drawn."""
    option = option_of(described)
    groups = {}
    for placement in candidates(described):
        if is_secure(described, placement):
            row = row_at(described, placement)
            groups.setdefault(option(placement), []).append(row)
    return sorted((min(group, key=Row.cursor) for group in groups.values()), key=Row.cursor)


def digits(placement):
    return "".join(str(cloud) for cloud in placement)
