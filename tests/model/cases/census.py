"""The stored cases of Census (letter C)."""

import itertools
import math

from model.cases.chance import apart_workflow, commands_of
from model.cases.copies import COPIES, crossings
from model.cases.descriptions import (APART_COMMANDS, EIGHT_PAIRS, LONGEST, LONGEST_APART, M,
                                      MIXED_COMMANDS, REFUSED_BY_READ, STEPS, pipe, stores)
from model.cases.flows import (QUICK, apart_flows, apart_text, brief_text, flow_text, random_flows,
                               spoilt_texts, workflow_texts)
from model.cases.known_lists import KNOWN
from model.cases.label_lists import LABELLED, listed_alike
from model.cases.labels import REFUSED_BY_MARKS, spoilt_text, text_of_marks
from model.cases.making import STOP, apart, census_case, cloud, datum, pin
from model.cases.merging import (FIRST_AND_LAST, HEAVY, LARGE_APART, LARGE_FREE, LARGE_PIPE,
                                 LARGE_SPLIT, crowded, crowded_apart, forks, guarded_apart, pipes,
                                 pipes_apart, pipes_with_levels, pipes_with_prices, two_pipes)
from model.definitions.calls import census
from model.definitions.rules import count_candidates


def census_line(counts):
    return "census " + " ".join(map(str, counts))


def census_by_hand():
    for text, number, place in REFUSED_BY_READ:
        yield census_case(text, f"refused {number} {place}")
    for known in KNOWN:
        yield census_case(known.text, census_line(known.counts))
    yield census_case(LARGE_FREE, census_line((65536, 0, 0, 0, 65536, 65536)))
    # A pipe on k clouds: of k k k placements, k (k - 1) pairs are the same option.
    for clouds, options in ((1, 1), (2, 6), (3, 21), (4, 52), (8, 456)):
        text = stores(*range(clouds)) + pipe() + STOP
        yield census_case(text, census_line((clouds ** 3, 0, 0, 0, clouds ** 3, options)))
    for text in (LARGE_PIPE, LARGE_SPLIT, HEAVY, FIRST_AND_LAST, LONGEST, STEPS + STOP,
                 b"".join(MIXED_COMMANDS), *crowded(), *pipes(), *pipes_with_prices(),
                 *pipes_with_levels(), *two_pipes(), *forks()):
        yield census_case(text)
    for block in range(5):                                 # M with one block pinned
        for to in (0, 1):
            yield census_case(M[:-1] + pin(block, to) + STOP)


def census_apart():
    yield census_case(LARGE_APART, census_line((65536, 0, 0, 65280, 256, 256)))
    yield census_case(LONGEST_APART, census_line((1, 0, 0, 1, 0, 0)))
    # Of k data on k clouds, each apart from each: k factorial placements are left.
    for count in (2, 3, 4):
        pairs = b"".join(apart(*pair) for pair in itertools.combinations(range(count), 2))
        every, kept = count ** count, math.factorial(count)
        yield census_case(cloud() * count + datum() * count + pairs + STOP,
                          census_line((every, 0, 0, every - kept, kept, kept)))
    # A pipe on three clouds and a datum apart from the pipe's: 24 placements, 18 options.
    yield census_case(stores(1, 2, 3) + pipe() + datum() + apart(1, 3) + STOP,
                      census_line((81, 0, 0, 57, 24, 18)))
    for text in (EIGHT_PAIRS + STOP, b"".join(APART_COMMANDS), *pipes_apart(), *guarded_apart(),
                 *crowded_apart()):
        yield census_case(text)
    for one, other in itertools.combinations((0, 2, 4), 2):
        for block in range(5):                             # M with a pair and a pin
            for to in (0, 1):
                yield census_case(M[:-1] + pin(block, to) + apart(one, other) + STOP)


def census_apart_random(dice):
    for most in (8, 30, 100, 300, 900):
        for _ in range(30):
            yield census_case(apart_text(dice, most))
    for _ in range(60):
        made = apart_workflow(dice)
        if count_candidates(made) <= QUICK:
            yield census_case(b"".join(commands_of(dice, made)))


def census_random(dice):
    for most in (8, 30, 100, 300, 900):
        for _ in range(65):
            yield census_case(flow_text(dice, most))
    for text in (*workflow_texts(dice, 300), *spoilt_texts(dice, 60)):
        yield census_case(text)


def census_copies(dice):
    for known in (*COPIES, *crossings()):
        yield census_case(known.text, census_line(known.counts))
    for most in (8, 30, 100, 300):
        for _ in range(10):
            yield census_case(brief_text(dice, most))


def census_labels(dice):
    for text, number, place in REFUSED_BY_MARKS:
        yield census_case(text, f"refused {number} {place}")
    for known in LABELLED:
        yield census_case(known.text, census_line(known.counts))
    for text, plain in listed_alike():
        yield census_case(text, census_line(census(plain)))
    for most in (8, 30, 100, 300):
        for _ in range(20):
            yield census_case(text_of_marks(dice, random_flows(dice, most)))
        for _ in range(5):
            yield census_case(text_of_marks(dice, apart_flows(dice, most)))
            yield census_case(spoilt_text(dice, random_flows(dice, most)))


def census_cases(dice):
    yield from census_by_hand()
    yield from census_apart()
    yield from census_random(dice)
    yield from census_apart_random(dice)
    yield from census_copies(dice)
