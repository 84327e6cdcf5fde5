"""The stored cases of Transfers, Picture and Picture size in which labels have marks."""

from typing import NamedTuple

from model.cases.chance import (assorted_candidates, commands_of, random_placement, random_workflow,
                                rooms)
from model.cases.descriptions import M, Barred
from model.cases.known_pictures import known_picture
from model.cases.label_lists import M_SOURCE, TWO_SIDES, cleared_pipe
from model.cases.labels import (BARRED_BY_MARKS, BOTH, MARKS, REFUSED_BY_MARKS, add_marks, carried,
                                moving, relabelled, spoilt_text)
from model.cases.making import (STOP, given_transfers, placed, reads, refused_transfers, size_case,
                                transfers_case, writes)
from model.cases.picture import (given_picture, picture_assorted, pinned_workflow, refused_picture,
                                 some_rooms)
from model.definitions.description import EMBARGO, SOURCE
from model.definitions.placements import moves


class Moved(NamedTuple):
    """A secure placement with its transfers and the lines of its picture."""
    text: bytes
    clouds: str                 # a digit for each block
    entries: list               # each the edge, the datum, from, to
    lines: str

    def placement(self):
        return placed(*map(int, self.clouds))


TWO_SIDED = TWO_SIDES + cleared_pipe(EMBARGO) + STOP
MARKED_M = relabelled(M, {0: 0, 1: SOURCE}.get)

MOVED = [
    Moved(TWO_SIDED, "000", [], "s0_0 -> d1_0;\nd1_0 -> s2_0;"),
    Moved(TWO_SIDED, "222", [], "s0_2 -> d1_2;\nd1_2 -> s2_2;"),
    Moved(TWO_SIDED, "002", [(1, 1, 0, 2)], "s0_0 -> d1_0;\nd1_0 -> x1 -> d1_2_e1 -> s2_2;"),
    Moved(TWO_SIDED, "022", [(0, 1, 0, 2)], "s0_0 -> d1_0_e0 -> x0 -> d1_2;\nd1_2 -> s2_2;"),
    Moved(TWO_SIDED, "202", [(0, 1, 2, 0), (1, 1, 0, 2)],
          "s0_2 -> d1_2_e0 -> x0 -> d1_0;\nd1_0 -> x1 -> d1_2_e1 -> s2_2;"),
    Moved(M_SOURCE, "11000", [(1, 2, 1, 0)],
          "d0_1 -> s1_1;\ns1_1 -> d2_1_e1 -> x1 -> d2_0;\nd2_0 -> s3_0;\ns3_0 -> d4_0;"),
    Moved(MARKED_M, "11010", [(1, 2, 1, 0), (2, 2, 0, 1), (3, 4, 1, 0)],
          "d0_1 -> s1_1;\ns1_1 -> d2_1_e1 -> x1 -> d2_0;\nd2_0 -> x2 -> d2_1_e2 -> s3_1;\n"
          "s3_1 -> d4_1_e3 -> x3 -> d4_0;"),
    *(Moved(moving(reads, 8 | mark, 8 | mark), "001", [(0, 0, 0, 1), (1, 1, 0, 1)],
            "d0_0 -> x0 -> d0_1_e0 -> s2_1;\nd1_0 -> x1 -> d1_1_e1 -> s2_1;")
      for mark in MARKS[1:]),
    *(Moved(moving(writes, 8 | BOTH, mark), "001", [(0, 0, 1, 0), (1, 1, 1, 0)],
            "s2_1 -> d0_1_e0 -> x0 -> d0_0;\ns2_1 -> d1_1_e1 -> x1 -> d1_0;")
      for mark in MARKS[1:]),
    Moved(carried(BOTH, BOTH), "10", [], "d0_1;\ns1_0;"),
]

BARRED = [*(Barred(text, placed(), number, place) for text, number, place in REFUSED_BY_MARKS),
          *BARRED_BY_MARKS, Barred(TWO_SIDED, placed(0, 1, 0), 13, 1),
          Barred(TWO_SIDED, placed(0, 0, 1), 14, 1), Barred(TWO_SIDED, placed(1, 0, 0), 15, 0),
          Barred(TWO_SIDED, placed(1, 2, 1), 14, 1), Barred(M_SOURCE, placed(1, 1, 1, 1, 0), 15, 3),
          Barred(M_SOURCE, placed(1, 1, 1, 1, 1), 13, 4), Barred(MARKED_M, placed(1), 14, 0)]


def label_transfers(dice):
    for turn, each in enumerate(BARRED):
        yield refused_transfers(each.text, each.placement, turn % 5, each.number, each.place)
    for each in MOVED:
        needed = 4 * len(each.entries)
        for room in (needed, max(needed - 1, 0), 12):
            yield given_transfers(each.text, each.placement(), room, each.entries)
    for _ in range(25):
        made = add_marks(dice, random_workflow(dice))
        text = b"".join(commands_of(dice, made))
        for placement in assorted_candidates(dice, made, 1):
            needed = 4 * len(moves(made, placement))
            for room in rooms(dice, needed)[:dice.between(1, 2)]:
                yield transfers_case(text, placement, room)
    for _ in range(20):
        made = random_workflow(dice)
        yield transfers_case(spoilt_text(dice, made), random_placement(dice, made), dice.below(12))


def label_pictures(dice):
    for turn, each in enumerate(BARRED):
        yield refused_picture(each, 3 * (turn % 5))
    for turn, each in enumerate(MOVED):
        drawn = known_picture(each.text, each.clouds, each.lines)
        for room in some_rooms(turn, len(drawn.picture())):
            yield given_picture(drawn, room)
    for _ in range(15):
        made = pinned_workflow(dice, lambda dice: add_marks(dice, random_workflow(dice)))
        yield from picture_assorted(dice, made, most=1)


def label_sizes(dice):
    for each in BARRED:
        yield size_case(each.text, each.placement, f"refused {each.number} {each.place}")
    for each in MOVED:
        size = len(known_picture(each.text, each.clouds, each.lines).picture())
        yield size_case(each.text, each.placement(), f"bytes {size}")
    for _ in range(15):
        made = pinned_workflow(dice, lambda dice: add_marks(dice, random_workflow(dice)))
        text = b"".join(commands_of(dice, made))
        for placement in assorted_candidates(dice, made, 1):
            yield size_case(text, placement)
