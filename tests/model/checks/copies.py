"""Copies: what they cost by the answer of Transfers, and what the stored descriptions must show."""

import itertools

from model.cases.descriptions import known_row
from model.common import require
from model.definitions.calls import census, read, rows, transfers
from model.definitions.costs import gigabytes
from model.definitions.description import MOST_CANDIDATES, READS, WRITES, Datum
from model.definitions.options import option_of, row_at
from model.definitions.placements import candidates, is_secure
from model.definitions.rules import allowed, count_candidates

LOOKED_AT = 200                 # of the rows of a description, so many


def transfers_of(text, placement):
    """The answer of Transfers: of each transfer the edge, the datum, from and to."""
    buffer = bytearray(4 * len(read(text).edges))
    for at in range(transfers(text, placement, buffer)):
        yield tuple(buffer[4 * at:4 * at + 4])


def copies_of(text, placement):
    """What each copy is charged: its command, its datum, the cloud where it lies, the charge.

    By the answer of Transfers alone: a read leaves its copy where it goes, a write where it
    comes from.
    """
    described = read(text)
    for edge, moved, source, destination in transfers_of(text, placement):
        command = described.edges[edge].command
        lies_on = destination if command == READS else source
        rate = described.clouds[lies_on].storage_rate
        yield command, moved, lies_on, rate * gigabytes(described.blocks[moved].size)


def price_of_copies(text, placement):
    return sum(charge for *_, charge in copies_of(text, placement))


def price_of_data(text, placement):
    """What data are charged for the months that they are kept, without their copies."""
    described = read(text)
    return sum(described.clouds[placement[b]].storage_rate * gigabytes(block.size)
               * block.longevity
               for b, block in enumerate(described.blocks) if isinstance(block, Datum))


def storage_misfit(text, line):
    """How the storage of a drawn row contradicts its transfers, or None."""
    row = known_row(*line.split()[1:])
    due = price_of_data(text, row.placement) + price_of_copies(text, row.placement)
    return None if row.amounts.storage == due else f"its storage should be {due}"


def beside_rows(text):
    """Each row with the other placements of its option, if there are any."""
    described, counts = read(text), census(text)
    if counts.secure == counts.options or count_candidates(described) == MOST_CANDIDATES:
        return []                                          # nothing merges, or too much to list
    option = option_of(described)
    others = {option(row.placement): (row, []) for row in rows(text)}
    for placement in candidates(described):
        if is_secure(described, placement):
            row, beside = others[option(placement)]
            if placement != row.placement:
                beside.append(row_at(described, placement))
    return [(row, beside) for row, beside in others.values() if beside]


def ways_of_copies(text):
    """How copies settle which placement stands for an option."""
    ways = set()
    for row, beside in beside_rows(text):
        price = {each: price_of_copies(text, each.placement) for each in (row, *beside)}
        free = min((row, *beside), key=lambda each: (each.cost - price[each], each.placement))
        if free != row:
            ways.add("row of less cost by its copies" if row.cost < free.cost
                     else "row of equal cost by its copies")
        for other in beside:
            if row.cost == other.cost and price[row] != price[other]:
                ways.add("equal cost and other copies")
            if row.cost < other.cost and price[row] > price[other]:
                ways.add("row of less cost and dearer copies")
    return ways


def kinds_of_copies(text, found):
    """What the copies of some rows show."""
    kinds = set()
    for row in found:
        priced = [copy for copy in copies_of(text, row.placement) if copy[-1] > 0]
        if {command for command, *_ in priced} == {READS, WRITES}:
            kinds.add("copies of reads and of writes")
        for (_, one, here, _), (_, other, there, _) in itertools.combinations(priced, 2):
            if one == other:
                kinds.add("two copies of a datum on one cloud" if here == there
                          else "copies of a datum on two clouds")
    return kinds


KEPT = ("not kept", "kept 1 month", "kept longer")
DEARER = ("first cloud dearer", "second cloud dearer", "equal rates")


def shape_between(described, d, low, high):
    """Which of the two clouds is the dearer for a datum at one end of its way, and how long."""
    one, other = described.clouds[low].storage_rate, described.clouds[high].storage_rate
    order = DEARER[0 if one > other else 1 if one < other else 2]
    return f"{KEPT[min(described.blocks[d].longevity, 2)]}, {order}"


def shapes_of_row(described, placement, others):
    """What a row and the other ones show of each datum between its writer and its readers."""
    for d in described.data():
        writer, readers = described.writer(d), described.readers(d)
        if writer is None or not readers or gigabytes(described.blocks[d].size) == 0:
            continue
        home, start = placement[d], placement[writer]
        ends = {start, *(placement[reader] for reader in readers)}
        if len(readers) > 1:
            moved = {placement[:d] + bytes([end]) + placement[d + 1:] for end in ends - {start}}
            if home == start and moved & others:
                yield "two readers, a row for either end"
        elif ends == {home}:
            yield "writer and reader on one cloud"
        elif len(ends) == 2 and home in ends and d in described.pins:
            yield "pinned to one of two ends"
        elif len(ends) == 2 and home in ends and ends <= set(allowed(described, d)):
            yield shape_between(described, d, *sorted(ends))


def shapes_of(described, found):
    placements = {row.placement for row in found}
    return {shape for placement in placements
            for shape in shapes_of_row(described, placement, placements)}


COPY_TRAITS = ("row of less cost by its copies", "row of equal cost by its copies",
               "equal cost and other copies", "row of less cost and dearer copies",
               "rows in another order by copies", "storage of copies alone",
               "copies of reads and of writes", "two copies of a datum on one cloud",
               "copies of a datum on two clouds", "writer and reader on one cloud",
               "pinned to one of two ends", "two readers, a row for either end",
               *(f"{kept_for}, {order}" for kept_for in KEPT for order in DEARER))


def copy_traits(text):
    """What a description may show of copies; the stored ones must show all of it between them."""
    described, found = read(text), rows(text)[:LOOKED_AT]
    shown = ways_of_copies(text) | kinds_of_copies(text, found) | shapes_of(described, found)

    def without_copies(row):
        return row.cost - price_of_copies(text, row.placement), row.placement

    if sorted(found, key=without_copies) != found:
        shown.add("rows in another order by copies")
    if (not any(described.blocks[d].longevity for d in described.data())
            and any(row.amounts.storage > 0 for row in found)):
        shown.add("storage of copies alone")
    return {trait: trait in shown for trait in COPY_TRAITS}


def check_copies(cases, lines):
    """The storage of every row that is drawn, compared with the transfers that leave its copies."""
    for case, line in zip(cases, lines):
        if case.letter() == "D" and line.startswith("row "):
            fault = storage_misfit(case.text(), line)
            require(fault is None, f"{line}: {fault}: {case.text().hex()}")
