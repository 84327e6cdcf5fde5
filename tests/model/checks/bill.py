"""Bill: the answers compared with Judge, Transfers and the rows, and what they must show."""

from collections import Counter

from model.checks.copies import copies_of, price_of_copies, price_of_data, transfers_of
from model.common import refusal_of, require
from model.definitions.calls import census, judge, read, rows
from model.definitions.costs import Amounts, gigabytes
from model.definitions.description import (MOST_BLOCKS, MOST_CLOUDS, MOST_EDGES, READS, WRITES,
                                           Service)
from model.definitions.options import option_of
from model.definitions.placements import candidates, is_secure
from model.definitions.rules import count_candidates

QUICK = 1000                    # candidates; the rows of descriptions with more are not listed
WHOLE = 20                      # descriptions of which every secure placement is asked for
WHOLE_MERGED = 10               # such descriptions in which placements are one option

KINDS = {"a row", "no row, dearer", "no row, at equal cost", "data alone", "copies alone",
         "transfers alone", "cpu alone", "data and copies", "three amounts, each another",
         "nothing to pay", "a copy of a read", "a copy of a write", "copies of both",
         "two copies on one cloud", "a transfer that is free", "a copy that is free",
         "a size at a half", "no edge", "no transfer", "32 transfers", "eight clouds",
         "sixteen blocks", "pins", "pairs", "a cost above 2^51", "storage above 2^48"}


def bill_in(line):
    """The cost and the amounts that a line shows."""
    cost, *amounts = map(int, line.split()[1:])
    return cost, Amounts(*amounts)


# ---- Each answer by itself -------------------------------------------------------------

def amounts_due(text, placement):
    """The three amounts, by the answer of Transfers."""
    described = read(text)
    transfer = sum(gigabytes(described.blocks[moved].size)
                   * (described.clouds[source].out_rate + described.clouds[destination].in_rate)
                   for _, moved, source, destination in transfers_of(text, placement))
    cpu = sum(described.clouds[placement[b]].cpu_rate * block.cpu_units
              for b, block in enumerate(described.blocks) if isinstance(block, Service))
    storage = price_of_data(text, placement) + price_of_copies(text, placement)
    return Amounts(storage, transfer, cpu)


def row_of_option(text, placement):
    """The row that a secure placement is listed under; None if there are too many to list."""
    described = read(text)
    if count_candidates(described) > QUICK:
        return None
    option = option_of(described)
    return next(row for row in rows(text) if option(row.placement) == option(placement))


def misfit(case, line):
    """How an answer of Bill contradicts Judge, Transfers or the rows, or None."""
    text, placement = case.text(), case.placement()
    refusal = refusal_of(judge, text, placement)
    if refusal is not None:
        due = "refused {} {}".format(*refusal)
        return None if line == due else f"Judge says {due}"
    cost, amounts = bill_in(line)
    if cost != sum(amounts):
        return "the amounts do not add up"
    if amounts != amounts_due(text, placement):
        return f"it should be {amounts_due(text, placement)}"
    row = row_of_option(text, placement)
    if row is None:
        return None
    if row.placement == placement:
        return None if row.amounts == amounts else "its row has other amounts"
    return None if row.cursor() < (cost, placement) else "its row is not earlier"


# ---- What the answers must show between them -------------------------------------------

def kinds_beside_row(text, placement, cost):
    row = row_of_option(text, placement)
    if row is None:
        return set()
    if row.placement == placement:
        return {"a row"}
    return {"no row, dearer" if cost > row.cost else "no row, at equal cost"}


def kinds_of_copies(text, placement):
    """What the copies and transfers of a placement show."""
    described, copies = read(text), list(copies_of(text, placement))
    charged = [copy for copy in copies if copy[-1] > 0]
    commands = {command for command, *_ in charged}
    lie_on = [cloud for _, _, cloud, _ in charged]
    sizes = [described.blocks[moved].size for _, moved, _, _ in copies]
    return {kind for kind, holds in (
        ("a copy of a read", commands == {READS}), ("a copy of a write", commands == {WRITES}),
        ("copies of both", commands == {READS, WRITES}),
        ("two copies on one cloud", len(lie_on) > len(set(lie_on))),
        ("a copy that is free", len(charged) < len(copies)),
        ("a size at a half", any(size % 10 == 5 for size in sizes)),
        ("no transfer", described.edges and not copies),
        ("32 transfers", len(copies) == MOST_EDGES)) if holds}


def kinds_of(text, placement, line):
    """What one bill shows of its description and its placement."""
    described, (cost, amounts) = read(text), bill_in(line)
    data, copies = price_of_data(text, placement), price_of_copies(text, placement)
    moved = any(transfers_of(text, placement))
    shown = {kind for kind, holds in (
        ("data alone", cost == data > 0), ("copies alone", cost == copies > 0),
        ("transfers alone", cost == amounts.transfer > 0), ("cpu alone", cost == amounts.cpu > 0),
        ("data and copies", data > 0 and copies > 0 and cost == data + copies),
        ("three amounts, each another", len({0, *amounts}) == 4), ("nothing to pay", cost == 0),
        ("a transfer that is free", moved and amounts.transfer == 0),
        ("no edge", not described.edges), ("eight clouds", len(described.clouds) == MOST_CLOUDS),
        ("sixteen blocks", len(described.blocks) == MOST_BLOCKS), ("pins", described.pins),
        ("pairs", described.apart), ("a cost above 2^51", cost > 2 ** 51),
        ("storage above 2^48", amounts.storage > 2 ** 48)) if holds}
    return shown | kinds_of_copies(text, placement) | kinds_beside_row(text, placement, cost)


def asked_whole(billed):
    """The descriptions of which every secure placement has a bill among these."""
    asked = {}
    for text, placement, _ in billed:
        asked.setdefault(text, set()).add(placement)
    for text, placements in asked.items():
        described = read(text)
        if count_candidates(described) <= QUICK and all(
                placement in placements for placement in candidates(described)
                if is_secure(described, placement)):
            yield text


def check_bills(cases, lines):
    """The answers of Bill: each by itself, and what they show between them."""
    own = [(case, line) for case, line in zip(cases, lines) if case.letter() == "A"]
    for case, line in own:
        fault = misfit(case, line)
        require(fault is None, f"{line}: {fault}: {case.content.hex()}")
    billed = [(case.text(), case.placement(), line) for case, line in own
              if line.startswith("bill ")]
    seen = Counter(kind for each in billed for kind in kinds_of(*each))
    missing = sorted(KINDS - set(seen))
    require(not missing, f"no answer of Bill shows {missing}")
    whole = list(asked_whole(billed))
    merged = [text for text in whole if census(text).secure > census(text).options]
    require(len(whole) >= WHOLE and len(merged) >= WHOLE_MERGED,
            f"only {len(whole)} descriptions have all their bills, {len(merged)} of them merge")
    print(f"{len(billed)} bills compared with their transfers and rows; all bills of {len(whole)} "
          f"descriptions, in {len(merged)} of which options merge; "
          + ", ".join(f"{kind}: {times}" for kind, times in sorted(seen.items())))
