"""Masks: the answers compared with the candidates, and what they must show."""

import math
from collections import Counter

from model.cases.answers import bytes_in
from model.checks.label_table import check_table
from model.common import require
from model.definitions.calls import read
from model.definitions.description import MOST_BLOCKS, MOST_CANDIDATES, MOST_CLOUDS, Datum, decode
from model.definitions.placements import candidates
from model.definitions.rules import covers, label_of, masks_of

KINDS = {*(f"bit {k} set" for k in range(8)), *(f"bit {k} unset" for k in range(8)),
         *(f"{count} clouds" for count in range(1, 9)),
         *(f"{count} blocks" for count in range(1, 17)),
         "nowhere by its label", "nowhere by its pin", "all of eight", "bits 0 and 7 alone",
         "even bits alone", "odd bits alone", "an undeclared cloud for label 0",
         "a pinned datum", "a pinned service", "pinned to the lowest", "pinned to the highest",
         "pinned between", "a cloud that does not cover the clearance", "no candidates",
         "one candidate", "16 blocks of 2 clouds", "65,536 candidates"}


def bits_in(found):
    """Blocks choose freely of each other, so their bits multiply."""
    return math.prod(byte.bit_count() for byte in found)


def kinds_of_bits(clouds, byte):
    """What the byte of a block shows by itself, if so many clouds are declared."""
    kinds = {f"bit {k} {'set' if byte >> k & 1 else 'unset'}" for k in range(clouds)}
    for kind, bits in (("all of eight", 0xFF), ("bits 0 and 7 alone", 0x81),
                       ("even bits alone", 0x55), ("odd bits alone", 0xAA)):
        if byte == bits:
            kinds.add(kind)
    return kinds


def kinds_of_pin(described, b, byte):
    """What a block's pin shows, compared with the clouds that would do without it."""
    if b not in described.pins:
        return set()
    would_do = [k for k, each in enumerate(described.clouds)
                if covers(each.label, label_of(described.blocks[b]))]
    if byte == 0:
        return {"nowhere by its pin"} if would_do else set()
    kinds = {"a pinned datum" if isinstance(described.blocks[b], Datum) else "a pinned service"}
    to = would_do.index(described.pins[b])
    if len(would_do) > 1:
        last = len(would_do) - 1
        kinds.add({0: "pinned to the lowest", last: "pinned to the highest"}
                  .get(to, "pinned between"))
    return kinds


def kinds_of_block(described, b, byte):
    clouds, block = described.clouds, described.blocks[b]
    kinds = kinds_of_bits(len(clouds), byte) | kinds_of_pin(described, b, byte)
    free = b not in described.pins
    if free and byte == 0:
        kinds.add("nowhere by its label")
    if free and label_of(block) == 0 and len(clouds) < MOST_CLOUDS:
        kinds.add("an undeclared cloud for label 0")
    used = [each.label for k, each in enumerate(clouds) if byte >> k & 1]
    if not isinstance(block, Datum) and not all(covers(label, block.clearance) for label in used):
        kinds.add("a cloud that does not cover the clearance")
    return kinds


def kinds_of(text, line):
    """What one answer of Masks shows of its description."""
    described, found = read(text), bytes_in(line)
    blocks = len(described.blocks)
    kinds = {f"{len(described.clouds)} clouds", f"{blocks} blocks"}
    for b in range(blocks):
        kinds |= kinds_of_block(described, b, found[b])
    count = bits_in(found[:blocks])
    kinds |= {kind for kind, number in (("no candidates", 0), ("one candidate", 1),
                                        ("65,536 candidates", MOST_CANDIDATES)) if count == number}
    if [byte.bit_count() for byte in found] == [2] * MOST_BLOCKS and len(described.clouds) == 8:
        kinds.add("16 blocks of 2 clouds")
    return kinds


def missing_masks(answered):
    """What the accepted cases should show between them and none does."""
    seen = Counter(kind for text, line in answered for kind in kinds_of(text, line))
    return sorted(KINDS - set(seen)), seen


def misfit(text, line):
    """How an answer of Masks contradicts the candidates, listed one by one, or None."""
    if line == "refused 12 0":
        described = decode(text)
        few = bits_in(masks_of(described)[:len(described.blocks)]) <= MOST_CANDIDATES
        return "its bits make few candidates" if few else None
    if line.startswith("refused"):
        return None
    described, found = read(text), bytes_in(line)
    blocks, listed = len(described.blocks), list(candidates(described))
    if any(found[blocks:]):
        return "a bit after the last block"
    if bits_in(found[:blocks]) != len(listed):
        return "its bits make another number of candidates"
    used = bytes(sum(1 << k for k in {placement[b] for placement in listed})
                 for b in range(blocks))
    return "candidates use other clouds" if listed and used != found[:blocks] else None


def check_masks(cases, lines):
    """The answers of Masks: each compared with the candidates, and what they show between them."""
    own = [(case.text(), line) for case, line in zip(cases, lines) if case.letter() == "M"]
    for text, line in own:
        fault = misfit(text, line)
        require(fault is None, f"{line}: {fault}: {text.hex()}")
    answered = [(text, line) for text, line in own if line.startswith("masks ")]
    missing, seen = missing_masks(answered)
    require(not missing, f"no answer of Masks shows {missing}")
    print(f"{len(answered)} masks compared with their candidates; "
          + ", ".join(f"{kind}: {times}" for kind, times in sorted(seen.items())))
    check_table(answered)
