"""Picture and Picture size: what is looked for in the stored answers."""

import re
from collections import Counter
from typing import NamedTuple

from model.cases.answers import FILLER, MOST_ROOM
from model.cases.known_pictures import MOST_BYTES
from model.common import require

LINES = {kind: re.compile(pattern) for kind, pattern in (
    ("moved read", r"  d(\d+)_(\d) -> x(\d+) -> d\1_(?!\2)(\d)_e\3 -> s\d+_\4;"),
    ("read in place", r"  d\d+_(\d) -> s\d+_\1;"),
    ("moved write", r"  s\d+_(\d) -> d(\d+)_\1_e(\d+) -> x\3 -> d\2_(?!\1)\d;"),
    ("write in place", r"  s\d+_(\d) -> d\d+_\1;"),
    ("lone datum", r"  d\d+_\d;"),
    ("lone service", r"  s\d+_\d;"))}
MOST_IN_A_LINE = 38             # bytes, with the newline

KINDS = {*LINES, "two-digit edge", "two-digit block", "both in one line", "no edge", "32 edges",
         "edge 31 moved", "datum 15", "service 15", "cloud 7", "the longest line",
         "the longest picture", "exact buffer", "one short", "empty buffer", "long buffer",
         *(f"{number} with an empty buffer" for number in range(1, 18))}


class Shown(NamedTuple):
    """An answer of Picture: the number of a refusal or 0, bytes or a place, and the buffer."""
    number: int
    needed: int
    buffer: bytes


def shown(line):
    word, *words = line.split()
    number, needed, *held = ["0", *words] if word == "picture" else words
    return Shown(int(number), int(needed), bytes.fromhex("".join(held)))


def drawn_lines(answer):
    """The lines between the first and the last; fails if the answer is no picture."""
    drawn = answer.buffer[:answer.needed].decode("ascii")
    first, *lines, last, nothing = drawn.split("\n")
    if (first, last, nothing) != ("digraph p {", "}", ""):
        raise ValueError(f"not the first or last line of a picture: {drawn!r}")
    return lines


def kind_of_line(line):
    kinds = [kind for kind, pattern in LINES.items() if pattern.fullmatch(line)]
    if len(kinds) != 1:
        raise ValueError(f"not a line of a picture: {line!r}")
    return kinds[0]


def kinds_in(lines):
    """What the lines of a picture show between them."""
    kinds = {kind_of_line(line) for line in lines}
    edges = [line for line in lines if "->" in line]
    wide_edges = {line for line in edges if re.search(r"x\d\d", line)}
    wide_blocks = {line for line in lines if re.search(r"[ds]\d\d_", line)}
    drawn = "\n".join(lines)
    for kind, holds in (("two-digit edge", wide_edges), ("two-digit block", wide_blocks),
                        ("both in one line", wide_edges & wide_blocks), ("no edge", not edges),
                        ("32 edges", len(edges) == 32), ("edge 31 moved", "x31 " in drawn),
                        ("datum 15", "d15_" in drawn), ("service 15", "s15_" in drawn),
                        ("cloud 7", re.search(r"[ds]\d+_7", drawn)),
                        ("the longest line", MOST_IN_A_LINE - 1 in map(len, lines))):
        if holds:
            kinds.add(kind)
    return kinds


def kinds_of(line):
    """What one answer of Picture shows, by its text alone."""
    answer = shown(line)
    room = len(answer.buffer)
    kinds = set() if room else {f"{answer.number} with an empty buffer"}
    if answer.number == 0:
        kinds |= kinds_in(drawn_lines(answer))
    for kind, number, length in (("exact buffer", 0, answer.needed), ("long buffer", 0, MOST_ROOM),
                                 ("one short", 16, answer.needed - 1), ("empty buffer", 16, 0)):
        if (answer.number, room) == (number, length):
            kinds.add(kind)
    if answer.number == 0 and answer.needed == MOST_BYTES:
        kinds.add("the longest picture")
    return kinds


def fault_in(line):
    """What is wrong with an answer of Picture, whatever it was asked, or None."""
    try:
        return misdrawn(shown(line))
    except ValueError as fault:
        return str(fault)


def misdrawn(answer):
    kept = answer.buffer[answer.needed:] if answer.number == 0 else answer.buffer
    if not set(kept) <= {FILLER}:
        return "a byte was written that is not the picture's"
    if answer.number != 0:
        return None
    lines = drawn_lines(answer)
    for line in lines:
        kind_of_line(line)
    edges = [line for line in lines if "->" in line]
    if edges != lines[:len(edges)]:
        return "an edge after a block"
    for e, edge in enumerate(edges):
        if any(int(name) != e for name in re.findall(r"[xe](\d+)", edge)):
            return "an edge with the number of another"
    blocks = [int(re.search(r"\d+", line)[0]) for line in lines[len(edges):]]
    drawn = {int(name) for edge in edges for name in re.findall(r"[ds](\d+)_", edge)}
    if sorted(drawn.union(blocks)) != list(range(len(drawn) + len(blocks))):
        return "a block that is missing, or is there twice"
    return None if blocks == sorted(blocks) else "blocks out of order"


def missing_kinds(lines):
    """What the answers of Picture should show between them and none does."""
    seen = Counter(kind for line in lines for kind in kinds_of(line))
    return sorted(KINDS - set(seen)), seen


def size_by_picture(line):
    """What the call for the size must say if Picture answers this."""
    answer = shown(line)
    if answer.number in (0, 16):
        return f"bytes {answer.needed}"
    return f"refused {answer.number} {answer.needed}"


def compare_sizes(cases, lines):
    """How many cases of the size meet one of Picture, and those of them that it contradicts."""
    answers = {(case.text(), case.placement()): line
               for case, line in zip(cases, lines) if case.letter() == "B"}
    met, contradicted = set(), []
    for case, line in zip(cases, lines):
        asked = case.text(), case.placement()
        if case.letter() == "P" and asked in answers:
            met.add(asked)
            if answers[asked] != size_by_picture(line):
                contradicted.append(case)
    return len(met), contradicted


def check_pictures(cases, lines):
    """The answers of Picture: each by itself, and what they show between them."""
    own = [line for case, line in zip(cases, lines) if case.letter() == "P"]
    for line in own:
        fault = fault_in(line)
        require(fault is None, f"{fault}: {line}")
    missing, seen = missing_kinds(own)
    require(not missing, f"no answer of Picture shows {missing}")
    print(f"{len(own)} pictures asked for; "
          + ", ".join(f"{kind}: {times}" for kind, times in sorted(seen.items())))


SIZES_MET = 150                 # cases of the size whose placement Picture is asked for, too


def check_picture_sizes(cases, lines):
    """The forecast is what is written, and what a short buffer is refused with."""
    met, contradicted = compare_sizes(cases, lines)
    require(not contradicted, f"another size: {[case.content.hex() for case in contradicted]}")
    require(met >= SIZES_MET, f"only {met} sizes are of placements that have a case of Picture")
    print(f"{met} sizes compared with their pictures")
