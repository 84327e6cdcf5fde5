"""Standing: the answers compared with Judge and Masks, and what they must show."""

from collections import Counter

from model.common import refusal_of, require
from model.definitions.calls import masks, read, standing
from model.definitions.description import MOST_BLOCKS, MOST_CLOUDS, Datum
from model.definitions.rules import (MAY, NO_BLOCK, NO_SUCH_CLOUD, NOT_COVERED, PINNED_ELSEWHERE,
                                     count_candidates, covers, label_of)

HIGHEST_BYTE = 255

KINDS = {*(f"position {position}" for position in (*range(MOST_BLOCKS), MOST_BLOCKS, HIGHEST_BYTE)),
         *(f"cloud {cloud}" for cloud in (*range(MOST_CLOUDS), MOST_CLOUDS, HIGHEST_BYTE)),
         *(f"block {block} may use a cloud" for block in range(MOST_BLOCKS)),
         *(f"cloud {cloud} may be used" for cloud in range(MOST_CLOUDS)),
         *(f"reason {reason} for a {kind}" for reason in range(4) for kind in ("datum", "service")),
         "reason 1 and pinned elsewhere", "reason 2 and pinned elsewhere",
         "reason 2 and pinned to it", "reason 0 and pinned to it",
         "a cloud below 8 that is not declared",
         "a cloud that does not cover the clearance", "byte 0 after the last block",
         "reason 4 for a declared cloud", "reason 4 for no cloud", "just after the last block",
         "sixteen blocks and position 16", "no candidates"}


# ---- The law: which position Judge names -----------------------------------------------

WITH_PLACEMENT = "JTPBA"


def position_due(text, placement):
    """The lowest position that may not have its cloud by Standing, or None."""
    return next((position for position, cloud in enumerate(placement)
                 if standing(text, position, cloud) != MAY), None)


def check_reasons(cases, lines):
    """13 is given at the lowest position for which Standing has a reason, and only then.

    Looked at for every stored case that has a placement, those of Judge among them.
    """
    seen = Counter()
    for case, line in zip(cases, lines):
        if case.letter() not in WITH_PLACEMENT or refusal_of(read, case.text()) is not None:
            continue
        position = position_due(case.text(), case.placement())
        says_13 = line.startswith("refused 13 ")
        named = int(line.split()[2]) if says_13 else None
        require(named == position, f"{line}, and by Standing {position}: {case.content.hex()}")
        if says_13:
            seen[standing(case.text(), position, case.placement()[position])] += 1
        else:
            seen[MAY] += 1
    missing = sorted({MAY, NO_SUCH_CLOUD, NOT_COVERED, PINNED_ELSEWHERE, NO_BLOCK} - set(seen))
    require(not missing, f"no placement is refused with 13 for reason {missing}")
    print(f"{seen.total()} placements compared with Standing; "
          + ", ".join(f"reason {reason}: {times}" for reason, times in sorted(seen.items())))


# ---- Each answer by itself -------------------------------------------------------------

def reasons_against(described, position, cloud):
    """All tests that fail, by their reasons, in whatever order they are made."""
    if position >= len(described.blocks):
        return set() if cloud == 0 else {NO_BLOCK}
    against = set()
    if cloud >= len(described.clouds):
        against.add(NO_SUCH_CLOUD)
    elif not covers(described.clouds[cloud].label, label_of(described.blocks[position])):
        against.add(NOT_COVERED)
    if described.pins.get(position, cloud) != cloud:
        against.add(PINNED_ELSEWHERE)
    return against


def misfit(case, line):
    """How an answer of Standing contradicts Read, the single tests or Masks, or None."""
    text, (position, cloud) = case.text(), case.operands()
    refusal = refusal_of(read, text)
    if refusal is not None:
        due = "refused {} {}".format(*refusal)
        return None if line == due else f"Read says {due}"
    described, reason = read(text), int(line.split()[1])
    due = min(reasons_against(described, position, cloud), default=MAY)
    if reason != due:
        return f"it should be {due}"
    if position < len(described.blocks):
        permitted = cloud < MOST_CLOUDS and masks(text)[position] >> cloud & 1 == 1
        return None if (reason == MAY) == permitted else "Masks says otherwise"
    return None


# ---- What the answers must show between them -------------------------------------------

def kinds_of_block(described, position, cloud, reason):
    """What an answer about a block shows."""
    block, pinned_to = described.blocks[position], described.pins.get(position)
    declared = cloud < len(described.clouds)
    kinds = {f"reason {reason} for a {'datum' if isinstance(block, Datum) else 'service'}"}
    if reason == MAY:
        kinds |= {f"block {position} may use a cloud", f"cloud {cloud} may be used"}
        if not isinstance(block, Datum) and not covers(described.clouds[cloud].label,
                                                       block.clearance):
            kinds.add("a cloud that does not cover the clearance")
    return kinds | {kind for kind, holds in (
        ("reason 1 and pinned elsewhere", reason == NO_SUCH_CLOUD and pinned_to is not None),
        ("reason 2 and pinned to it", reason == NOT_COVERED and pinned_to == cloud),
        ("reason 2 and pinned elsewhere",
         reason == NOT_COVERED and pinned_to not in (None, cloud)),
        ("reason 0 and pinned to it", reason == MAY and pinned_to == cloud),
        ("a cloud below 8 that is not declared", not declared and cloud < MOST_CLOUDS),
        ("no candidates", count_candidates(described) == 0)) if holds}


def kinds_after_blocks(described, position, cloud, reason):
    """What an answer about a position without a block shows."""
    blocks, declared = len(described.blocks), cloud < len(described.clouds)
    return {kind for kind, holds in (
        ("byte 0 after the last block", reason == MAY),
        ("reason 4 for a declared cloud", reason == NO_BLOCK and declared),
        ("reason 4 for no cloud", reason == NO_BLOCK and not declared),
        ("just after the last block", position == blocks),
        ("sixteen blocks and position 16", position == blocks == MOST_BLOCKS)) if holds}


def kinds_of(case, line):
    described, (position, cloud) = read(case.text()), case.operands()
    of_position = kinds_of_block if position < len(described.blocks) else kinds_after_blocks
    return ({f"position {position}", f"cloud {cloud}"}
            | of_position(described, position, cloud, int(line.split()[1])))


def check_standings(cases, lines):
    """The answers of Standing: each by itself, and what they show between them."""
    own = [(case, line) for case, line in zip(cases, lines) if case.letter() == "W"]
    for case, line in own:
        fault = misfit(case, line)
        require(fault is None, f"{line}: {fault}: {case.content.hex()}")
    answered = [(case, line) for case, line in own if line.startswith("standing ")]
    seen = Counter(kind for each in answered for kind in kinds_of(*each))
    missing = sorted(KINDS - set(seen))
    require(not missing, f"no answer of Standing shows {missing}")
    print(f"{len(answered)} reasons compared with the single tests and Masks; "
          + ", ".join(f"{kind}: {seen[kind]}" for kind in sorted(KINDS)))
