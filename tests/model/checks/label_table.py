"""The table of labels: as the program labeltable prints it, and as Masks answers."""

from model.cases.answers import bytes_in
from model.common import ROOT, check_same, require, stored_bytes
from model.definitions.calls import read
from model.definitions.description import HIGHEST_LABEL, Datum
from model.definitions.rules import covers, label_of


def pairs_in_masks(answered):
    """Of the blocks without a pin: is it a datum, each cloud's label and its own, and the bit."""
    for text, line in answered:
        described, found = read(text), bytes_in(line)
        for b, block in enumerate(described.blocks):
            if b not in described.pins:
                for k, each in enumerate(described.clouds):
                    yield (isinstance(block, Datum), each.label, label_of(block),
                           found[b] >> k & 1 == 1)


def label_table():
    """What the program labeltable prints: row by row, which labels each one covers."""
    labels = range(HIGHEST_LABEL + 1)
    return "".join("".join("1" if covers(upper, lower) else "0" for lower in labels) + "\n"
                   for upper in labels)


def check_table(answered):
    """Every two labels, as Masks answers and as the stored table has them."""
    path = ROOT / "crates" / "labeltable" / "stdout"
    check_same(path, stored_bytes(path), label_table().encode("ascii"))
    table = label_table().splitlines()
    met = set()
    for is_datum, upper, lower, is_covered in pairs_in_masks(answered):
        met.add((is_datum, upper, lower))
        require(is_covered == (table[upper][lower] == "1"), f"masks: {upper} beside {lower}")
    require(len(met) == 2 * len(table) ** 2, f"masks: only {len(met)} pairs of labels")
    print(f"{len(met)} pairs of labels, of data and of services, as in the table")
