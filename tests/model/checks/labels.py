"""Labels with marks: what the stored cases of each letter must show."""

import itertools
from collections import Counter

from model.cases.labels import (BOTH, FIELD_NAMES, MARKS, highest_label, labels_met, marks,
                                relabelled)
from model.common import require
from model.definitions.calls import read
from model.definitions.description import (EMBARGO, HIGHEST_LABEL, HIGHEST_LEVEL, READS, SOURCE,
                                           Refused, decode)
from model.definitions.placements import ends
from model.definitions.rules import MAY, NOT_COVERED, covers, label_of, level

NAMES = {EMBARGO: "the embargo mark", SOURCE: "the source mark", BOTH: "both marks"}
BY_A_MARK = {"for want of the embargo mark", "for want of the source mark",
             "for want of one of two marks"}
SHAPES = BY_A_MARK | {"for want of both marks", "for want of a mark, at a higher level",
                      "for want of level", "for want of level, with a mark more",
                      "neither covers the other"}
COVERING = (9, 10, 11, 13, 14, 15)                         # numbers for what is not covered
CLOUD_TRAITS = ("clouds of which neither covers the other",
                "clouds with all combinations of marks", "the same marks on every label")


def refusals(numbers, ways_of_it):
    return {f"refused with {number} {shape}" for number in numbers for shape in ways_of_it}


def rules_kept(*rules):
    return {f"rule {rule} kept with {name}" for rule in rules for name in NAMES.values()}


BOUNDS = {*(f"{label} for {field}, refused with 5" for label in (64, 79, 128, 255)
            for field in FIELD_NAMES), *(f"63 for {field}" for field in FIELD_NAMES),
          "4 before 5", *(f"5 before {number}" for number in (1, 2, 3, 4, *range(6, 13)))}

# What the cases of each letter must show between them.
KINDS = {"R": refusals((9, 10, 11), SHAPES) | rules_kept(2, 3, 4) | BOUNDS,
         "J": refusals((9, 10, 11), BY_A_MARK) | refusals((13, 14, 15), SHAPES)
         | rules_kept(7, 16, 17),
         **dict.fromkeys("TPBA", refusals(COVERING, BY_A_MARK) | rules_kept(7, 16, 17)),
         **dict.fromkeys("CD", refusals((9, 10, 11), BY_A_MARK)),
         "M": refusals((9, 10, 11), BY_A_MARK) | {*CLOUD_TRAITS},
         "W": refusals((9, 10, 11), BY_A_MARK) | {f"reason 2 {shape}" for shape in SHAPES}
         | rules_kept(7)}


def shapes(upper, lower):
    """In which ways a label does not cover another."""
    wanting, too_low = marks(lower) & ~upper, level(upper) < level(lower)
    found = set() if covers(lower, upper) else {"neither covers the other"}
    if wanting and not too_low:
        one_of_two = marks(lower) == BOTH != wanting
        found.add("for want of " + ("one of two marks" if one_of_two else NAMES[wanting]))
        if level(upper) > level(lower):
            found.add("for want of a mark, at a higher level")
    if too_low and not wanting:
        found.add("for want of level")
        if marks(upper) != marks(lower):
            found.add("for want of level, with a mark more")
    return found


def compared(case, number, place):
    """The label that should cover another, and the other, of which a refusal speaks; or None."""
    described = decode(case.text())
    if number == 9:
        return described.blocks[place].clearance, described.blocks[place].location
    if number == 13:
        stands_on = case.placement()[place]
        if place >= len(described.blocks) or stands_on >= len(described.clouds):
            return None
        return described.clouds[stands_on].label, label_of(described.blocks[place])
    edge = described.edges[place]
    by, what = described.blocks[edge.service], described.blocks[edge.datum]
    if number == 10:
        return by.clearance, what.label
    if number == 11:
        return what.label, by.location
    return described.clouds[case.placement()[edge.service]].label, what.label


def kinds_of_refusal(case, number, place):
    """How the two labels differ that a refusal is about, if it is about two."""
    pair = compared(case, number, place)
    if pair is None or covers(*pair):                      # no such cloud or block, or a pin
        return set()
    return refusals([number], shapes(*pair))


def kinds_of_bytes(text, number, place):
    """What a byte above 63 shows, in the command at this place."""
    above = {at: field for field, at in labels_met(text) if at > place and text[at] > HIGHEST_LABEL}
    if number == 4:
        return {"4 before 5"} if above else set()
    kinds = set()
    if len(above) == 1:
        (at, field), = above.items()
        kinds.add(f"{text[at]} for {field}, refused with 5")
    later = number_of(relabelled(text, lambda label: label & HIGHEST_LABEL))
    return kinds if later is None else kinds | {f"5 before {later}"}


def number_of(text):
    """What Read refuses the text with, or None."""
    try:
        read(text)
    except Refused as refusal:
        return refusal.number
    return None


def kept_by_workflow(described):
    """The rules of an accepted description, each with a label that is covered there."""
    for b in described.services():
        yield 2, described.blocks[b].location
    for edge in described.edges:
        if edge.command == READS:
            yield 3, described.blocks[edge.datum].label
        else:
            yield 4, described.blocks[edge.service].location


def kept_by_placement(described, placement):
    """The rules of a secure placement, in the same way."""
    for block in described.blocks:
        yield 7, label_of(block)
    for edge in described.edges:
        here, there = ends(edge, placement)
        if here != there:
            yield 16 if edge.command == READS else 17, described.blocks[edge.datum].label


def kinds_kept(kept):
    return {f"rule {rule} kept with {NAMES[marks(label)]}" for rule, label in kept if marks(label)}


def kinds_of_reason(case, reason):
    """How the labels of a cloud and a block differ that Standing answers this for."""
    described, (position, to) = read(case.text()), case.operands()
    if position >= len(described.blocks):
        return set()
    label = label_of(described.blocks[position])
    if reason == NOT_COVERED:
        return {f"reason 2 {shape}" for shape in shapes(described.clouds[to].label, label)}
    return kinds_kept([(7, label)]) if reason == MAY else set()


def kinds_of(case, line):
    """What a case and its answer show of marks."""
    text, (word, *words) = case.text(), line.split()
    if highest_label(text) <= HIGHEST_LEVEL:
        return set()
    if word == "refused":
        number, place = map(int, words[:2])
        if number in (4, 5):
            return kinds_of_bytes(text, number, place)
        return kinds_of_refusal(case, number, place) if number in COVERING else set()
    if word == "accepted":
        found = {f"63 for {field}" for field, at in labels_met(text) if text[at] == HIGHEST_LABEL}
        return found | kinds_kept(kept_by_workflow(read(text)))
    if word == "masks":
        return traits_of_clouds(text)
    if word == "standing":
        return kinds_of_reason(case, int(words[0]))
    if word in ("secure", "transfers", "picture", "bytes", "bill"):
        return kinds_kept(kept_by_placement(read(text), case.placement()))
    return set()


def missing_labels(letter, answered):
    """What the cases of a letter should show between them and none does."""
    seen = Counter(kind for case, line in answered for kind in kinds_of(case, line))
    return sorted(KINDS[letter] - set(seen)), seen


def traits_of_clouds(text):
    labels = [each.label for each in read(text).clouds]
    every = {marks(text[at]) for _, at in labels_met(text)}
    shown = (any(not covers(one, other) and not covers(other, one)
                 for one, other in itertools.combinations(labels, 2)),
             {marks(label) for label in labels} == {*MARKS}, len(every) == 1)
    return {trait for trait, holds in zip(CLOUD_TRAITS, shown, strict=True) if holds}


def check_labels(letter, answered):
    """What the cases of a letter show of labels and their marks."""
    missing, seen = missing_labels(letter, answered)
    require(not missing, f"no case of {letter} shows {missing}")
    least = min(seen[kind] for kind in KINDS[letter])
    print(f"{letter}: {sum(highest_label(case.text()) > HIGHEST_LEVEL for case, _ in answered)} "
          f"cases with a label above 15; {len(KINDS[letter])} kinds, the rarest {least} times")
