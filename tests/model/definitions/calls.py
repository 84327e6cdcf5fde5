"""The calls, each by its definition, and the lines of the program that lists the rows."""

import bisect
import functools
import itertools
from typing import NamedTuple

from model.definitions.costs import amounts_of
from model.definitions.description import READS, WRITES, Refused, decode
from model.definitions.options import Row, option_of, rows_of
from model.definitions.picture import picture_of
from model.definitions.placements import (candidates, check_placement, first_broken, first_meeting,
                                          moves)
from model.definitions.rules import check_workflow, masks_of, standing_of

KEPT = 2048                     # answers remembered: one description serves many cases


@functools.lru_cache(maxsize=KEPT)
def read(text):
    described = decode(text)
    check_workflow(described)
    return described


def masks(text):
    return masks_of(read(text))


def judge(text, placement):
    check_placement(read(text), placement)


def standing(text, position, cloud):
    return standing_of(read(text), position, cloud)


def bill(text, placement):
    """The amounts of any secure placement."""
    judge(text, placement)
    return amounts_of(read(text), placement)


class Census(NamedTuple):
    candidates: int
    breaking_16: int
    breaking_17_only: int
    apart_only: int
    secure: int
    options: int


@functools.lru_cache(maxsize=KEPT)
def census(text):
    described = read(text)
    option = option_of(described)
    every = breaking_16 = breaking_17_only = apart_only = secure = 0
    options = set()
    for placement in candidates(described):
        every += 1
        if first_broken(described, placement, READS) is not None:
            breaking_16 += 1
        elif first_broken(described, placement, WRITES) is not None:
            breaking_17_only += 1
        elif first_meeting(described, placement) is not None:
            apart_only += 1
        else:
            secure += 1
            options.add(option(placement))
    return Census(every, breaking_16, breaking_17_only, apart_only, secure, len(options))


@functools.lru_cache(maxsize=KEPT)
def rows(text):
    return rows_of(read(text))


def draw(text, cursor):
    """The first row later than the cursor, or None; the cursor None is the start."""
    found = rows(text)
    passed = 0 if cursor is None else bisect.bisect_right(found, cursor, key=Row.cursor)
    return found[passed] if passed < len(found) else None


def transfers(text, placement, buffer):
    """Fills the buffer from its beginning and returns the number of transfers."""
    described = read(text)
    check_placement(described, placement)
    found = moves(described, placement)
    needed = 4 * len(found)
    if len(buffer) < needed:
        raise Refused(16, needed)
    buffer[:needed] = bytes(itertools.chain.from_iterable(found))
    return len(found)


def picture(text, placement, buffer):
    """Fills the buffer from its beginning and returns the number of bytes."""
    needed = picture_size(text, placement)
    if len(buffer) < needed:
        raise Refused(16, needed)
    buffer[:needed] = picture_of(read(text), placement).encode("ascii")
    return needed


def picture_size(text, placement):
    judge(text, placement)
    return len(picture_of(read(text), placement))


def listing(text):
    """The lines of the program that lists a description's rows."""
    try:
        found = rows(text)
    except Refused as refusal:
        return [str(refusal)]
    blocks = len(read(text).blocks)
    return [row.shown(blocks) for row in found] + [f"options {len(found)}"]
