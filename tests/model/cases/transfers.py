"""The stored cases of Transfers (letter T)."""

from model.cases.chance import (apart_workflow, assorted_candidates, bend, commands_of,
                                damage_bytes, random_placement, random_workflow, rooms, spoil)
from model.cases.copies import COPY_TRANSFERS
from model.cases.descriptions import (EIGHT_TWOS, GUARDED, LONGEST_APART, M, MIXED_EDGES, M_APART,
                                      REFUSED_BY_READ, STEPS, THIRTY_TWO_EDGES, TWO_BY_TWO, meeting,
                                      together)
from model.cases.making import (STOP, cloud, datum, given_transfers, placed, reads,
                                refused_transfers, service, transfers_case, writes)
from model.definitions.calls import read
from model.definitions.placements import moves, verdict


def transfers_by_hand():
    for text, number, place in REFUSED_BY_READ:
        for room in (0, 1, 12):
            yield refused_transfers(text, placed(1, 1), room, number, place)
    text = STEPS + STOP
    for placement, number, place in (
            (placed(1, 1, 2, 2), 15, 1), (placed(1, 0, 2, 2), 14, 0), (placed(1, 1, 2, 1), 14, 2),
            (placed(0, 2, 2, 2), 13, 0), (placed(1, 9, 2, 2), 13, 1),
            (placed(1, 2, 2, 2, 0, 0, 0, 1), 13, 7), (bytes([255] * 16), 13, 0),
            (placed(1, 0, 2, 0, 5), 13, 4)):
        for room in (0, 1, 4, 20):
            yield refused_transfers(text, placement, room, number, place)
    for room in (0, 1, 2, 3, 4, 5, 8, 9):
        yield given_transfers(text, placed(2, 2, 2, 2), room, [])
        yield given_transfers(text, placed(1, 2, 2, 2), room, [(0, 0, 1, 2)])
    chain = (cloud() * 3 + datum() + service() + datum() + service() + datum()
             + reads(1, 0) + writes(1, 2) + reads(3, 2) + writes(3, 4) + STOP)
    known = [(0, 0, 2, 1), (1, 2, 1, 0), (2, 2, 0, 2), (3, 4, 2, 1)]
    for room in (*range(0, 20), 100, 1023, 1024):
        yield given_transfers(chain, placed(2, 1, 0, 2, 1), room, known)
    both = cloud() * 2 + datum() + service() + writes(1, 0) + reads(1, 0) + STOP
    for room in (0, 4, 7, 8, 9):
        yield given_transfers(both, placed(0, 1), room, [(0, 0, 1, 0), (1, 0, 0, 1)])
        yield given_transfers(both, placed(1, 1), room, [])
    yield from transfers_to_the_full()


def transfers_to_the_full():
    split = bytes([0] * 8 + [1] * 8)                       # data here, services there
    read_all = [(e, e % 8, 0, 1) for e in range(32)]
    mixed = [(e, e % 8, 0, 1) for e in range(24)] + [(24 + d, d, 1, 0) for d in range(8)]
    for room in (0, 1, 64, 124, 127, 128, 129, 132, 256, 1024):
        yield given_transfers(THIRTY_TWO_EDGES + STOP, split, room, read_all)
        yield given_transfers(MIXED_EDGES + STOP, split, room, mixed)
    for room in (0, 1, 128, 1024):
        yield given_transfers(THIRTY_TWO_EDGES + STOP, placed(), room, [])
    # One datum apart from everything else: only its edges are listed.
    for alone in range(8):
        placement = bytes(1 if b == alone else 0 for b in range(16))
        entries = [(8 * s + alone, alone, 1, 0) for s in range(3)] + [(24 + alone, alone, 0, 1)]
        for room in (15, 16, 17):
            yield given_transfers(MIXED_EDGES + STOP, placement, room, entries)


def transfers_apart():
    """Number 17 comes before 16, however little room there is; what is kept apart still moves."""
    text = meeting(reads(2, 0) + writes(3, 1))
    for room in (0, 1, 3, 4, 5, 7, 8, 9, 12):
        yield refused_transfers(text, placed(0, 0, 0, 0), room, 17, 0)
        yield refused_transfers(text, placed(0, 1, 1, 1), room, 17, 0)
        yield refused_transfers(text, placed(0, 1, 2, 2), room, 17, 0)
        yield refused_transfers(M_APART, placed(1, 1, 1, 1, 1), room, 17, 0)
        yield refused_transfers(M_APART, placed(1, 1, 1, 0, 1), room, 17, 0)
        yield given_transfers(text, placed(0, 1, 0, 1), room, [])
        yield given_transfers(text, placed(0, 1, 2, 1), room, [(0, 0, 0, 2)])
        yield given_transfers(text, placed(0, 1, 0, 2), room, [(1, 1, 2, 1)])
        yield given_transfers(M_APART, placed(1, 1, 0, 0, 0), room, [(1, 2, 1, 0)])
    for room in (0, 3, 4, 20):
        for placement, number, place in (
                (placed(1, 1, 0, 1), 14, 0), (placed(1, 1, 1, 0), 15, 1),
                (placed(0, 1, 1, 1), 13, 0), (placed(1, 1, 1, 1, 1), 13, 4),
                (placed(1, 1, 1, 1), 17, 0), (placed(1, 2, 2, 1), 17, 0)):
            yield refused_transfers(GUARDED, placement, room, number, place)
        yield refused_transfers(LONGEST_APART, placed(*(b % 8 for b in range(16))), room, 17, 0)
    forward = TWO_BY_TWO + b"".join(EIGHT_TWOS) + STOP
    for pair in range(8):
        yield refused_transfers(forward, together([pair]), pair, 17, pair)
        yield refused_transfers(forward, together(range(pair, 8)), pair, 17, pair)
    yield given_transfers(forward, together([]), 3, [])


def transfers_random(dice):
    for number in range(32):
        placement = placed(*(number >> bit & 1 for bit in range(4, -1, -1)))
        yield transfers_case(M, placement, dice.choice((0, 4, 8, 12, 16, 17)))
    for _ in range(75):
        made = random_workflow(dice)
        text = b"".join(commands_of(dice, made))
        found = assorted_candidates(dice, made, 4)
        secure = [each for each in found if verdict(made, each) is None]
        secure.sort(key=lambda each: len(moves(made, each)), reverse=True)
        for placement in secure[:dice.between(1, 2)]:
            for room in rooms(dice, 4 * len(moves(made, placement))):
                yield transfers_case(text, placement, room)
        for placement in [each for each in found if each not in secure][:2]:
            yield transfers_case(text, placement, dice.between(0, 12))
        yield transfers_case(text, bend(dice, made, dice.choice(found)), dice.between(0, 40))
    for _ in range(60):
        made = random_workflow(dice)
        spoil(dice, made)
        text = b"".join(commands_of(dice, made))
        yield transfers_case(text, random_placement(dice, made), dice.between(0, 12))
    for _ in range(30):
        made = random_workflow(dice)
        text = damage_bytes(dice, b"".join(commands_of(dice, made)))
        yield transfers_case(text, random_placement(dice, made), dice.between(0, 12))
    # Everything at level 0, so that any placement is secure and many edges cross.
    for text in (THIRTY_TWO_EDGES + STOP, MIXED_EDGES + STOP):
        for _ in range(15):
            placement = bytes(dice.below(2) for _ in range(16))
            needed = 4 * len(moves(read(text), placement))
            for room in (needed - 1, needed, needed + 1):
                yield transfers_case(text, placement, max(room, 0))


def transfers_apart_random(dice):
    for _ in range(45):
        made = apart_workflow(dice)
        text = b"".join(commands_of(dice, made))
        found = assorted_candidates(dice, made, 2)
        for placement in found:
            needed = 4 * len(moves(made, placement))
            for room in rooms(dice, needed)[:dice.between(1, 3)]:
                yield transfers_case(text, placement, room)


def transfers_copies():
    for text, placement, entries in COPY_TRANSFERS:
        for room in (4 * len(entries), 12):
            yield given_transfers(text, placement, room, entries)


def transfers_cases(dice):
    yield from transfers_by_hand()
    yield from transfers_apart()
    yield from transfers_random(dice)
    yield from transfers_apart_random(dice)
    yield from transfers_copies()
