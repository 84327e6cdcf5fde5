"""All stored cases in their order, and their answers."""

import itertools

from model.cases.answers import answer_all
from model.cases.bill import bill_cases, label_bills
from model.cases.census import census_cases, census_labels
from model.cases.chance import dice_of
from model.cases.draw import draw_cases, draw_labels
from model.cases.judge import judge_cases
from model.cases.label_calls import label_judgements, label_masks, label_reads
from model.cases.label_moves import label_pictures, label_sizes, label_transfers
from model.cases.masks import mask_cases
from model.cases.picture import picture_cases, size_cases
from model.cases.read import read_cases
from model.cases.standing import label_standings, standing_cases
from model.cases.transfers import transfers_cases
from model.common import require, text_of

# In the order in which they are stored.  Each group has dice of its own, so a letter, or a
# part of one, that is added here at the end leaves what stands before it as it is.
GROUPS = {"R": (read_cases, label_reads), "J": (judge_cases, label_judgements),
          "T": (transfers_cases, label_transfers), "C": (census_cases, census_labels),
          "D": (draw_cases, draw_labels), "P": (picture_cases, label_pictures),
          "B": (size_cases, label_sizes), "M": (mask_cases, label_masks),
          "A": (bill_cases, label_bills), "W": (standing_cases, label_standings)}


def stored_cases(letters):
    seen = set()                                           # the same bytes twice teach nothing,
    for letter, parts in GROUPS.items():                   # but for draws that are repeated
        if letter in letters:
            dice = dice_of(letter)
            for case in itertools.chain.from_iterable(part(dice) for part in parts):
                if case.again or case.content not in seen:
                    yield case
                seen.add(case.content)


def answered_cases(letters):
    """The stored cases and their lines, after a look at the answers known by hand."""
    cases = list(stored_cases(letters))
    lines = answer_all(contents_of(cases), letters)
    require(len(lines) == len(cases), "the cases do not divide as they were made")
    for case, line in zip(cases, lines):
        require(case.expected in (None, line),
                f"by hand {case.expected!r}, by the rules {line!r}: {case.content.hex()}")
    return cases, lines


def contents_of(cases):
    return b"".join(case.content for case in cases)


def generate(letters, directory):
    cases, lines = answered_cases(letters)
    directory.mkdir(parents=True, exist_ok=True)
    (directory / "stdin").write_bytes(contents_of(cases))
    (directory / "stdout").write_bytes(text_of(lines))
