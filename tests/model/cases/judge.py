"""The stored cases of Judge (letter J)."""

import itertools

from model.cases.chance import (apart_workflow, assorted_candidates, bend, commands_of,
                                damage_bytes, random_placement, random_workflow, spoil)
from model.cases.descriptions import (ALL_READ, EIGHT_TWOS, GUARDED, LONGEST, LONGEST_APART, M,
                                      MIXED_EDGES, M_APART, REFUSED_BY_READ, SIXTEEN_BLOCKS,
                                      SOME_WRITE, STEPS, THIRTY_TWO_EDGES, TWO_BY_TWO, meeting,
                                      together)
from model.cases.making import (STOP, apart, cloud, datum, judge_case, pin, placed, reads, service,
                                writes)


def judge_by_hand():
    for text, number, place in REFUSED_BY_READ:
        for placement in (placed(), placed(1, 1, 1, 1, 1), bytes([255] * 16)):
            yield judge_case(text, placement, f"refused {number} {place}")
    for placement, expected in (
            (placed(1, 2, 2, 2), "secure"), (placed(2, 2, 2, 2), "secure"),
            (placed(1, 1, 2, 2), "refused 15 1"),
            (placed(2, 1, 2, 2), "refused 15 1"),
            (placed(1, 0, 2, 2), "refused 14 0"),          # and rule 17 at edge 1
            (placed(2, 0, 2, 2), "refused 14 0"),
            (placed(1, 2, 2, 1), "refused 14 2"), (placed(1, 2, 2, 0), "refused 14 2"),
            (placed(1, 1, 2, 1), "refused 14 2"),          # though edge 1 breaks rule 17
            (placed(1, 0, 2, 0), "refused 14 0"),
            (placed(0, 2, 2, 2), "refused 13 0"), (placed(3, 2, 2, 2), "refused 13 0"),
            (placed(1, 3, 2, 2), "refused 13 1"), (placed(1, 8, 2, 2), "refused 13 1"),
            (placed(1, 255, 2, 2), "refused 13 1"),
            (placed(1, 2, 1, 2), "refused 13 2"), (placed(1, 2, 0, 2), "refused 13 2"),
            (placed(1, 0, 1, 0), "refused 13 2"),          # 13 before what edge 0 breaks
            (placed(1, 0, 2, 4), "refused 13 3"), (placed(1, 1, 2, 3), "refused 13 3"),
            (placed(0, 0, 0, 0), "refused 13 0"), (placed(0, 255, 1, 3), "refused 13 0")):
        yield judge_case(STEPS + STOP, placement, expected)
    for position in range(4, 16):
        for value in (1, 255):
            for beginning in ((1, 2, 2, 2), (1, 0, 2, 0)):     # the second breaks 16 and 17
                placement = bytearray(placed(*beginning))
                placement[position] = value
                yield judge_case(STEPS + STOP, bytes(placement), f"refused 13 {position}")
    yield judge_case(STEPS + STOP, placed(1, 2, 2, 2, 0, 0, 7, 0, 0, 1), "refused 13 6")
    yield from judge_pins()
    yield from judge_shapes()
    yield from judge_apart()


def judge_pins():
    for pins, placement, expected in (
            (pin(1, 2), placed(1, 2, 2, 2), "secure"),
            (pin(1, 2), placed(1, 1, 2, 2), "refused 13 1"),
            (pin(1, 2), placed(1, 0, 2, 2), "refused 13 1"),
            (pin(1, 1), placed(1, 1, 2, 2), "refused 15 1"),
            (pin(1, 1), placed(1, 2, 2, 2), "refused 13 1"),
            (pin(0, 2), placed(1, 2, 2, 2), "refused 13 0"),
            (pin(0, 2), placed(2, 2, 2, 2), "secure"),
            (pin(3, 0), placed(1, 2, 2, 2), "refused 13 3"),
            (pin(3, 0), placed(1, 2, 2, 0), "refused 14 2"),
            (pin(0, 0), placed(0, 2, 2, 2), "refused 13 0"),   # pinned below its level
            (pin(0, 0), placed(1, 2, 2, 2), "refused 13 0"),
            (pin(2, 1), placed(1, 2, 2, 2), "refused 13 2"),
            (pin(2, 1) + pin(3, 0), placed(1, 2, 1, 2), "refused 13 2"),
            (pin(0, 1) + pin(1, 2) + pin(2, 2) + pin(3, 2), placed(1, 2, 2, 2), "secure"),
            (pin(3, 2) + pin(2, 2) + pin(1, 2) + pin(0, 1), placed(2, 1, 0, 0), "refused 13 0")):
        yield judge_case(STEPS + pins + STOP, placement, expected)
    exact = placed(*(block % 8 for block in range(16)))
    yield judge_case(LONGEST, exact, "secure")             # data at level 0 lie low enough
    for position in range(16):
        for value in ((position + 1) % 8, 8, 255):
            placement = bytearray(exact)
            placement[position] = value
            yield judge_case(LONGEST, bytes(placement), f"refused 13 {position}")


def judge_shapes():
    for number in range(32):                               # every placement on M's two clouds
        yield judge_case(M, placed(*(number >> bit & 1 for bit in range(4, -1, -1))))
    yield judge_case(M, placed(1, 0, 0, 0, 0), "refused 14 0")
    single = cloud(3) + datum(3) + STOP
    yield judge_case(single, placed(), "secure")
    for position in range(16):
        placement = bytes([0] * position + [1] * (16 - position))
        yield judge_case(single, placement, f"refused 13 {position}")
    nowhere = cloud(0) + datum(0) + datum(1) + STOP        # no candidates at all
    for placement, place in ((placed(), 1), (placed(0, 1), 1), (placed(1), 0), (placed(0, 255), 1)):
        yield judge_case(nowhere, placement, f"refused 13 {place}")
    for text in (SIXTEEN_BLOCKS, THIRTY_TWO_EDGES, MIXED_EDGES):
        yield judge_case(text + STOP, placed(), "secure")
        yield judge_case(text + STOP, bytes([1] * 16), "secure")
        yield judge_case(text + STOP, bytes([0, 1] * 8), "secure")
        yield judge_case(text + STOP, bytes([1] * 15 + [2]), "refused 13 15")
    # One service reads and writes the same datum: rule 16 is named, whichever edge is first.
    both = cloud(0) + cloud(2) + datum(2) + service(0, 2)
    for edges, read_edge in ((reads(1, 0) + writes(1, 0), 0), (writes(1, 0) + reads(1, 0), 1)):
        yield judge_case(both + edges + STOP, placed(1, 0), f"refused 14 {read_edge}")
        yield judge_case(both + edges + STOP, placed(1, 1), "secure")
    # The datum's level counts for rules 16 and 17, not the service's location or clearance.
    for edge, number in ((reads, 14), (writes, 15)):
        text = cloud(1) + cloud(2) + datum(2) + service(1, 15) + edge(1, 0) + STOP
        yield judge_case(text, placed(1, 0), f"refused {number} 0")
        text = cloud(2) + cloud(2) + datum(2) + service(0, 15) + edge(1, 0) + STOP
        yield judge_case(text, placed(1, 0), "secure")
    yield from judge_late_edges()
    yield from judge_every_edge()


def judge_every_edge():
    """Thirty-two edges, of which each in its turn is the only one broken."""
    def case(edges, high, low, number, place):
        # One datum lies at level 1, and one service stands on the cloud at level 0.
        data = b"".join(datum(1 if d == high else 0) for d in range(8))
        text = cloud(1) + cloud(0) + data + service(0, 1) * 8 + edges + STOP
        placement = bytes(1 if block == low else 0 for block in range(16))
        return judge_case(text, placement, f"refused {number} {place}")

    for edge in range(32):
        yield case(ALL_READ, edge % 8, 8 + edge // 8, 14, edge)
    for written in range(8):
        yield case(SOME_WRITE, written, 11 + written // 2, 15, 24 + written)


def judge_late_edges():
    """Many services on a low cloud: the edge that is named moves with the datum's level."""
    for high in range(8):
        data = b"".join(datum(1 if d == high else 0) for d in range(8))
        text = cloud(1) + cloud(0) + data + service(0, 1) * 8
        for edge, number in ((reads, 14), (writes, 15)):
            edges = b"".join(edge(8 + d, d) for d in range(8))
            placement = bytes([0] * 8 + [1] * 8)
            yield judge_case(text + edges + STOP, placement, f"refused {number} {high}")
        edges = b"".join(writes(8 + d, d) + reads(15 - d, d) for d in range(8))
        yield judge_case(text + edges + STOP, placement, f"refused 14 {2 * high + 1}")


def judge_apart():
    """Number 17: where two data meet, which pair is named, and what comes before it."""
    for pairs in (apart(0, 1), apart(1, 0)):
        # Side by side; services without edges stand anywhere.
        for placement, expected in ((placed(0, 0, 1, 2), "refused 17 0"),
                                    (placed(2, 2, 0, 1), "refused 17 0"),
                                    (placed(0, 1, 0, 1), "secure"),
                                    (placed(0, 1, 1, 0), "secure"),
                                    (placed(2, 0, 1, 1), "secure")):
            yield judge_case(meeting(b"", pairs), placement, expected)
        for one, other in itertools.product((reads, writes), repeat=2):
            yield from judge_copies(one, other, pairs)
    # A service that has to do with both is where both are.
    for one, other in itertools.product((reads, writes), repeat=2):
        for clouds in itertools.product(range(3), repeat=3):
            yield judge_case(meeting(one(2, 0) + other(2, 1)), placed(*clouds), "refused 17 0")
    for clouds in itertools.product((0, 1), repeat=5):
        yield judge_case(M_APART, placed(*clouds), judged_by_hand(*clouds))
    yield from judge_apart_places()
    yield from judge_apart_before_and_after()


def judged_by_hand(rushes, first, between, second, film):
    """M with datum 0 apart from 4, its blocks on clouds 0 and 1 as they are named here."""
    if rushes == 0:
        return "refused 13 0"
    if first == 0:
        return "refused 14 0"
    return "secure" if second == film == 0 else "refused 17 0"


def judge_copies(one, other, pairs):
    """Service 2 reads or writes datum 0, 3 reads or writes 1: a copy lies where they stand."""
    for edges in (one(2, 0), one(2, 0) + other(3, 1), other(3, 1) + one(2, 0)):
        text = meeting(edges, pairs)
        for placement, expected in (
                (placed(0, 1, 0, 1), "secure"),            # no copies
                (placed(0, 1, 2, 1), "secure"),            # one, on a cloud of its own
                (placed(0, 1, 1, 1), "refused 17 0"),      # a copy of 0 beside 1
                (placed(1, 0, 0, 0), "refused 17 0"),
                (placed(0, 0, 2, 1), "refused 17 0"),      # copies elsewhere are no excuse
                (placed(2, 2, 2, 2), "refused 17 0")):
            yield judge_case(text, placement, expected)
    text = meeting(one(2, 0) + other(3, 1), pairs)
    for placement, expected in (
            (placed(0, 1, 0, 2), "secure"),
            (placed(0, 1, 2, 2), "refused 17 0"),          # two copies and neither datum
            (placed(0, 1, 0, 0), "refused 17 0"),          # a copy of 1 beside 0
            (placed(0, 1, 1, 0), "refused 17 0")):
        yield judge_case(text, placement, expected)


def judge_apart_places():
    """The first broken pair is named, by its place among the commands 07 alone."""
    forward = TWO_BY_TWO + b"".join(EIGHT_TWOS) + STOP
    backward = TWO_BY_TWO + b"".join(reversed(EIGHT_TWOS)) + STOP
    yield judge_case(forward, together([]), "secure")
    yield judge_case(forward, placed(), "refused 17 0")
    for pair in range(8):
        yield judge_case(forward, together([pair]), f"refused 17 {pair}")
        yield judge_case(backward, together([pair]), f"refused 17 {7 - pair}")
        for more in range(pair + 1, 8):
            yield judge_case(forward, together([pair, more]), f"refused 17 {pair}")
            yield judge_case(backward, together([pair, more]), f"refused 17 {7 - more}")
    # Two pairs with a datum in common, between other commands.
    text = (datum() * 2 + apart(1, 0) + cloud() * 2 + datum() + service() + pin(3, 1)
            + apart(1, 2) + writes(3, 0) + cloud() + STOP)
    for placement, expected in (
            (placed(1, 0, 2, 1), "secure"),
            (placed(1, 0, 0, 1), "refused 17 1"), (placed(2, 0, 0, 1), "refused 17 1"),
            (placed(2, 2, 0, 1), "refused 17 0"), (placed(2, 2, 2, 1), "refused 17 0"),
            (placed(2, 1, 0, 1), "refused 17 0"),          # by a copy of 0
            (placed(2, 1, 1, 1), "refused 17 0"), (placed(2, 2, 2, 0), "refused 13 3")):
        yield judge_case(text, placement, expected)


def judge_apart_before_and_after():
    """13, 14 and 15 come before 17, each as a whole."""
    for placement, expected in (
            (placed(1, 2, 1, 2), "secure"), (placed(2, 1, 2, 1), "secure"),
            (placed(1, 1, 1, 1), "refused 17 0"), (placed(1, 1, 2, 2), "refused 17 0"),
            (placed(1, 2, 2, 2), "refused 17 0"),          # by the copy of the read
            (placed(1, 2, 1, 1), "refused 17 0"),          # by that of the write
            (placed(1, 2, 2, 1), "refused 17 0"),
            (placed(1, 1, 0, 1), "refused 14 0"), (placed(1, 1, 1, 0), "refused 15 1"),
            (placed(1, 1, 0, 0), "refused 14 0"), (placed(1, 2, 0, 2), "refused 14 0"),
            (placed(1, 2, 1, 0), "refused 15 1"), (placed(1, 2, 2, 0), "refused 15 1"),
            (placed(1, 2, 0, 0), "refused 14 0"),          # both copies on cloud 0
            (placed(0, 0, 1, 1), "refused 13 0"), (placed(1, 0, 0, 0), "refused 13 1"),
            (placed(1, 1, 3, 1), "refused 13 2"), (placed(1, 1, 1, 1, 1), "refused 13 4"),
            (placed(1, 1, 1, 0, 0, 0, 0, 0, 0, 0, 0, 0, 0, 0, 0, 2), "refused 13 15")):
        yield judge_case(GUARDED, placement, expected)
    # Pinned together, and pinned apart.
    for pins, placement, expected in (
            (pin(0, 1) + pin(1, 1), placed(1, 1), "refused 17 0"),
            (pin(0, 1) + pin(1, 1), placed(1, 2), "refused 13 1"),
            (pin(0, 1) + pin(1, 2), placed(1, 2), "secure"),
            (pin(0, 1) + pin(1, 2), placed(1, 2, 2), "refused 17 0"),
            (pin(0, 1) + pin(1, 2), placed(1, 1), "refused 13 1"),
            (pin(2, 2), placed(0, 1, 2), "secure"), (pin(2, 2), placed(0, 2, 2), "refused 17 0"),
            (pin(2, 2), placed(0, 0, 1), "refused 13 2")):
        yield judge_case(meeting(reads(2, 0) + pins), placement, expected)
    yield judge_case(LONGEST_APART, placed(*(block % 8 for block in range(16))), "refused 17 0")


def judge_assorted(dice, made, text, most, bent):
    """Candidates of every verdict, and so many that are bent."""
    found = assorted_candidates(dice, made, most)
    for placement in found:
        yield judge_case(text, placement)
    for _ in range(bent):
        yield judge_case(text, bend(dice, made, dice.choice(found)))


def judge_random(dice):
    for _ in range(110):
        made = random_workflow(dice)
        text = b"".join(commands_of(dice, made))
        yield from judge_assorted(dice, made, text, most=2, bent=2)
        yield judge_case(text, random_placement(dice, made))
    for _ in range(60):
        made = random_workflow(dice)
        spoil(dice, made)
        yield judge_case(b"".join(commands_of(dice, made)), random_placement(dice, made))
    for _ in range(30):
        made = random_workflow(dice)
        text = damage_bytes(dice, b"".join(commands_of(dice, made)))
        yield judge_case(text, random_placement(dice, made))


def judge_apart_random(dice):
    for _ in range(70):
        made = apart_workflow(dice)
        text = b"".join(commands_of(dice, made))
        yield from judge_assorted(dice, made, text, most=3, bent=1)


def judge_cases(dice):
    yield from judge_by_hand()
    yield from judge_random(dice)
    yield from judge_apart_random(dice)
