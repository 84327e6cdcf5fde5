"""Census and Draw: do their answers fit together, and do the descriptions show what they must?"""

import itertools
from collections import Counter

from model.cases.making import placed
from model.checks.copies import copy_traits
from model.checks.label_lists import label_traits
from model.common import refusal_of, require
from model.definitions.calls import census, draw, read, rows
from model.definitions.description import (MOST_BLOCKS, MOST_CANDIDATES, MOST_CLOUDS, MOST_EDGES,
                                           MOST_PAIRS, Datum)
from model.definitions.options import option_of, row_at
from model.definitions.placements import candidates, is_secure, verdict
from model.definitions.rules import count_candidates


def draws(text, count):
    """So many draws: the first from the start, each later one from the last row answered."""
    cursor = None
    answers = []
    for _ in range(count):
        row = draw(text, cursor)
        answers.append(row)
        if row is not None:
            cursor = row.cursor()
    return answers


def check_agreement(text):
    """What Judge, Census and Draw say of one accepted description fits together."""
    described, counts, found = read(text), census(text), rows(text)
    verdicts = Counter(verdict(described, placement) for placement in candidates(described))
    require(counts.candidates == count_candidates(described) == verdicts.total(),
            f"candidates: {text.hex()}")
    require((counts.breaking_16, counts.breaking_17_only, counts.apart_only, counts.secure)
            == (verdicts[14], verdicts[15], verdicts[17], verdicts[None]),
            f"census and judge: {text.hex()}")
    require(counts.candidates == sum(counts[1:5]), f"the census does not add up: {text.hex()}")
    require(counts.options == len(found), f"options and rows: {text.hex()}")
    require(all(one.cursor() < other.cursor() for one, other in itertools.pairwise(found)),
            f"the rows do not rise: {text.hex()}")
    require(draws(text, len(found) + 3) == found + [None] * 3, f"chain of draws: {text.hex()}")


def check_rows_come_first(text):
    """No secure placement precedes the row of its option.

    Returns how rows differ from the other placements of their options: whether
    they cost less, whether their bytes are earlier.
    """
    described = read(text)
    if count_candidates(described) == MOST_CANDIDATES:     # this would take too long
        return set()
    option = option_of(described)
    row_of = {option(row.placement): row for row in rows(text)}
    ways = set()
    for placement in candidates(described):
        if is_secure(described, placement):
            own = row_at(described, placement)
            row = row_of[option(placement)]
            require(row.cursor() <= own.cursor(), f"no row is earlier: {text.hex()}")
            if row.placement != placement:
                ways.add((row.cost < own.cost, row.placement < placement))
    return ways


def traits(text):
    """What a description may show; the stored ones must show all of it between them."""
    described, counts, found = read(text), census(text), rows(text)
    costs, ways = {row.cost for row in found}, check_rows_come_first(text)
    return {
        "merged options": counts.secure > counts.options,
        "row of equal cost and earlier bytes": (False, True) in ways,
        "row of less cost and earlier bytes": (True, True) in ways,
        "row of less cost and later bytes": (True, False) in ways,
        "equal costs of two options": len(costs) < len(found),
        "equal costs of other amounts": len(costs) < len({row.amounts for row in found}),
        "a free row of zeros": [row.cursor() for row in found[:1]] == [(0, placed())],
        "costs above 2^51": any(row.cost > 2 ** 51 for row in found),
        "storage above 2^48": any(row.amounts.storage > 2 ** 48 for row in found),
        "transfer above 2^34": any(row.amounts.transfer > 2 ** 34 for row in found),
        "three amounts, each another": any(len({0, *row.amounts}) == 4 for row in found),
        "storage alone": any(row.cost == row.amounts.storage > 0 for row in found),
        "transfer alone": any(row.cost == row.amounts.transfer > 0 for row in found),
        "cpu alone": any(row.cost == row.amounts.cpu > 0 for row in found),
        "writes broken alone": counts.breaking_17_only > 0,
        "pairs broken alone": counts.apart_only > 0,
        "pairs broken by some and kept by some": counts.apart_only > 0 and counts.secure > 0,
        "candidates of all four kinds": 0 not in counts[1:5],
        "merged options with pairs": bool(described.apart) and counts.secure > counts.options,
        "eight pairs": len(described.apart) == MOST_PAIRS,
        "candidates but none secure": counts.candidates > 0 and counts.secure == 0,
        "no candidates": counts.candidates == 0,
        "all candidates allowed": counts.candidates == MOST_CANDIDATES,
        "eight clouds": len(described.clouds) == MOST_CLOUDS,
        "sixteen blocks": len(described.blocks) == MOST_BLOCKS,
        "thirty-two edges": len(described.edges) == MOST_EDGES,
        **copy_traits(text),
        **label_traits(text),
    }


def check_options(cases):
    """Every accepted description of Census and Draw, and what they show between them."""
    texts = dict.fromkeys(case.text() for case in cases if case.letter() in "CD")
    accepted_texts = [text for text in texts if refusal_of(read, text) is None]
    shown = Counter()
    for text in accepted_texts:
        check_agreement(text)
        shown.update({trait: int(holds) for trait, holds in traits(text).items()})
    missing = [trait for trait, times in shown.items() if times == 0]
    require(not missing, f"no description of Census or Draw shows {missing}")
    if shown:
        print(f"{len(accepted_texts)} descriptions for Census and Draw; "
              + ", ".join(f"{trait}: {times}" for trait, times in shown.items()))


def check_sizes(cases, lines):
    """A row is stored for every size up to 40, and for as many before the highest."""
    drawn = {block.size for case, line in zip(cases, lines) if line.startswith("row ")
             for block in read(case.text()).blocks if isinstance(block, Datum)}
    missing = sorted({*range(41), *range(65495, 65536)} - drawn)
    require(not missing, f"no row has a datum of size {missing}")
