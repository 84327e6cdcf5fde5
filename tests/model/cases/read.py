"""The stored cases of Read (letter R) about everything but pairs."""

import itertools
import math

from model.cases.chance import (commands_of, damage_bytes, damage_commands, random_text,
                                random_workflow, spoil)
from model.cases.descriptions import (APART_COMMANDS, EIGHT_CLOUDS, EIGHT_PAIRS, FILES, LONGEST,
                                      LONGEST_APART, M, MIXED_COMMANDS, MIXED_EDGES, M_COMMANDS,
                                      PAIR, REFUSED_BY_READ, SIXTEEN_BLOCKS, SIXTEEN_PINS,
                                      THIRTY_TWO_EDGES, TRIO, counted, ruled)
from model.cases.making import (STOP, accepted, apart, cloud, datum, pin, read_case, reads, refused,
                                refused_at_each, service, writes)
from model.cases.read_pairs import read_apart, read_apart_random
from model.definitions.description import MOST_CANDIDATES

ONE_OF_EACH = [cloud(1, 2, 3, 4, 5), datum(1, 2, 3), service(1, 1, 2), reads(1, 0),
               writes(1, 0), pin(0, 0), apart(0, 1)]


def cut_at_each_length(commands):
    """A sound description cut short: the command in which it ends, or its end, is named."""
    text = b"".join(commands)
    starts = [len(b"".join(commands[:i])) for i in range(len(commands))]
    for length in range(len(text)):
        yield refused(text[:length], 1, max(start for start in starts if start <= length))


def read_cut_short():
    for before in (b"", PAIR, service(5, 1)):
        for command in ONE_OF_EACH:
            for length in range(1, len(command)):
                yield refused(before + command[:length], 1, len(before))
    for text in (PAIR, TRIO, EIGHT_CLOUDS, SIXTEEN_BLOCKS, THIRTY_TWO_EDGES, LONGEST[:-1],
                 EIGHT_PAIRS, LONGEST_APART[:-1]):
        yield refused(text, 1, len(text))
    yield from cut_at_each_length(M_COMMANDS)
    yield from cut_at_each_length(MIXED_COMMANDS)
    yield from cut_at_each_length(APART_COMMANDS)


def read_cut_short_and_at_fault():
    """A command that ends too early is that, however bad its other bytes are."""
    for before, command in (
            (EIGHT_CLOUDS, cloud()), (EIGHT_CLOUDS, cloud(64)), (PAIR, cloud(255)),
            (SIXTEEN_BLOCKS, datum()), (SIXTEEN_BLOCKS, service(64, 64)),
            (PAIR, datum(64)), (PAIR, service(64, 0)), (PAIR, service(0, 255)),
            (THIRTY_TWO_EDGES, reads(15, 7)), (THIRTY_TWO_EDGES, writes(255, 255)),
            (PAIR, reads(0, 1)), (PAIR, writes(9, 9)), (PAIR, pin(7, 7)), (PAIR, pin(0, 9)),
            (PAIR + reads(1, 0), reads(1, 0)), (PAIR + writes(1, 0), writes(1, 0)),
            (PAIR + pin(1, 0), pin(1, 0)), (EIGHT_PAIRS, apart(3, 4)), (EIGHT_PAIRS, apart(5, 9)),
            (FILES, apart(0, 4)), (FILES, apart(6, 0)), (FILES, apart(2, 2)),
            (FILES + apart(0, 1), apart(0, 1)), (FILES + apart(0, 1), apart(1, 0))):
        for length in range(1, len(command)):
            yield refused(before + command[:length], 1, len(before))


def read_unknown():
    for code in (*range(8, 17), 0x20, 0x40, 0x7F, 0x80, 0xA5, 0xFE, 0xFF):
        for before in (b"", PAIR, M[:-1]):
            yield refused(before + bytes([code]), 2, len(before))
        yield refused(PAIR + bytes([code]) + STOP, 2, len(PAIR))
    for before in (EIGHT_CLOUDS, SIXTEEN_BLOCKS, THIRTY_TWO_EDGES, LONGEST[:-1], M[:52],
                   EIGHT_PAIRS, LONGEST_APART[:-1]):
        yield refused(before + b"\x09", 2, len(before))
        yield refused(before + b"\xff" + M, 2, len(before))


def read_past_the_end():
    for tail in (b"\0", b"\1", b"\7", b"\x09", b"\xff", b"\0\0", M, cloud(), apart(0, 4),
                 STOP * 40, b"\xff" * 300):
        yield refused(M + tail, 3, len(M))
        yield refused(STOP + tail, 3, 1)
    unsound = [cloud() + STOP, datum() + STOP]             # 3 is looked for before 8 to 12
    unsound += [text for text, number, _ in REFUSED_BY_READ if number >= 8]
    for text in unsound + [LONGEST, LONGEST_APART]:
        yield refused(text + b"\0", 3, len(text))
        yield refused(text + M, 3, len(text))
    for length in (1000, 3000, 7000, 10000):
        yield refused(M + bytes(i % 251 for i in range(length)), 3, len(M))
    yield refused(M + M * 20, 3, len(M))
    yield refused(b"\x09" + b"\0" * 2000, 2, 0)
    yield refused(EIGHT_CLOUDS + cloud() * 150, 4, len(EIGHT_CLOUDS))
    yield refused(PAIR + pin(0, 0) * 500, 7, len(PAIR) + 3)
    yield refused(FILES + apart(0, 1) * 500, 7, len(FILES) + 3)
    yield refused(EIGHT_PAIRS + apart(2, 4) * 500, 4, len(EIGHT_PAIRS))
    yield refused(M.ljust(65535, b"\0"), 3, len(M))        # the longest a case can hold


def read_limits():
    yield accepted(EIGHT_CLOUDS + datum() + STOP, 8, 1, 0)
    yield accepted(service() + EIGHT_CLOUDS + STOP, 8, 1, 0)
    yield accepted(SIXTEEN_BLOCKS + STOP, 2, 16, 0)
    yield accepted(SIXTEEN_BLOCKS + SIXTEEN_PINS + STOP, 2, 16, 0)
    yield accepted(THIRTY_TWO_EDGES + STOP, 2, 16, 32)
    yield accepted(THIRTY_TWO_EDGES + SIXTEEN_PINS + STOP, 2, 16, 32)
    yield accepted(MIXED_EDGES + STOP, 2, 16, 32)
    yield accepted(LONGEST, 8, 16, 32)
    yield accepted(cloud() + datum() * 16 + STOP, 1, 16, 0)
    yield accepted(cloud() + service() * 16 + STOP, 1, 16, 0)
    yield accepted(THIRTY_TWO_EDGES[:-3] + STOP, 2, 16, 31)
    for before in (EIGHT_CLOUDS, EIGHT_CLOUDS + datum(), LONGEST[:-1]):
        yield from refused_at_each(4, before, cloud(), cloud(15), cloud(64), cloud(255))
    for before in (SIXTEEN_BLOCKS, LONGEST[:-1], datum() * 16, service() * 16):
        yield from refused_at_each(4, before, datum(), service(), datum(64), datum(255),
                                   service(64, 0), service(0, 64), service(2, 1))
    for before in (THIRTY_TWO_EDGES, MIXED_EDGES):
        yield from refused_at_each(
            4, before, reads(15, 7), writes(15, 7),        # these two names are sound
            reads(8, 0), writes(11, 0),                    # said before
            reads(0, 8), reads(16, 0), writes(15, 16), writes(255, 255))


def read_labels():
    for label in (0, 1, 14, 15):
        yield accepted(cloud(label) + datum(label) + STOP, 1, 1, 0)
        yield accepted(cloud(label) + service(label, label) + STOP, 1, 1, 0)
        yield accepted(cloud(15) + service(label, 15) + STOP, 1, 1, 0)
    for label in (64, 65, 79, 80, 127, 128, 255):
        for before in (b"", PAIR, M[:-1]):
            yield from refused_at_each(5, before, cloud(label), datum(label), service(label, 0),
                                       service(0, label), service(label, label))
    for before in (EIGHT_CLOUDS, EIGHT_CLOUDS + datum() * 15):
        yield from refused_at_each(5, before, datum(64), service(15, 64), service(64, 15))


def read_names():
    yield from refused_at_each(6, b"", reads(0, 0), writes(0, 0), pin(0, 0))
    for edge in (reads, writes):
        yield from refused_at_each(
            6, PAIR, edge(0, 1), edge(0, 0), edge(1, 1),   # wrong kinds
            edge(2, 0), edge(1, 2), edge(15, 0), edge(1, 15), edge(16, 0), edge(1, 16),
            edge(255, 0), edge(1, 255), edge(255, 255), edge(0, 255), edge(255, 1))
        # Declared, but only later.
        yield refused(cloud() + service() + edge(0, 1) + datum() + STOP, 6, 17)
        yield refused(cloud() + datum() + edge(1, 0) + service() + STOP, 6, 16)
        yield refused(cloud() + edge(1, 0) + datum() + service() + STOP, 6, 10)
        yield from refused_at_each(6, SIXTEEN_BLOCKS, edge(7, 8), edge(16, 0), edge(8, 8))
        yield from refused_at_each(6, cloud() * 5, edge(1, 0), edge(0, 0))
        yield accepted(SIXTEEN_BLOCKS + edge(15, 0) + edge(8, 7) + STOP, 2, 16, 2)
    yield from refused_at_each(6, PAIR, pin(2, 0), pin(0, 1), pin(1, 1), pin(2, 1), pin(16, 0),
                               pin(0, 8), pin(255, 0), pin(0, 255), pin(255, 255))
    yield refused(datum() + pin(0, 0) + cloud() + STOP, 6, 6)
    yield refused(cloud() + pin(0, 0) + datum() + STOP, 6, 10)
    yield refused(cloud() + datum() + pin(0, 1) + cloud() + STOP, 6, 16)
    yield refused(cloud() + datum() + pin(1, 0) + service() + STOP, 6, 16)
    yield refused(EIGHT_CLOUDS + datum() + pin(1, 7) + STOP, 6, 86)
    yield refused(EIGHT_CLOUDS + datum() + pin(0, 8) + STOP, 6, 86)
    yield accepted(EIGHT_CLOUDS + datum() + pin(0, 7) + STOP, 8, 1, 0)


def read_repeats():
    yield accepted(PAIR + reads(1, 0) + writes(1, 0) + STOP, 1, 2, 2)
    yield accepted(PAIR + writes(1, 0) + reads(1, 0) + STOP, 1, 2, 2)
    yield accepted(TRIO + reads(1, 0) + reads(2, 0) + writes(2, 0) + STOP, 1, 3, 3)
    yield accepted(TRIO + pin(0, 0) + pin(2, 0) + pin(1, 0) + STOP, 1, 3, 0)
    for between in (b"", service(0, 0), cloud(3), reads(2, 0), pin(1, 0), datum(4)):
        yield from refused_at_each(7, TRIO + reads(1, 0) + between, reads(1, 0))
        yield from refused_at_each(7, TRIO + writes(1, 0) + between, writes(1, 0), writes(2, 0))
    for block in (0, 1):
        yield from refused_at_each(7, PAIR + cloud(2) + pin(block, 0), pin(block, 0),
                                   pin(block, 1))
        yield from refused_at_each(7, PAIR + cloud(2) + pin(block, 1) + pin(1 - block, 0),
                                   pin(block, 0), pin(block, 1), pin(1 - block, 1))
    # A wrong name is looked for before a repetition.
    yield from refused_at_each(6, TRIO + writes(1, 0), writes(0, 0), writes(3, 0), writes(255, 0))
    yield from refused_at_each(6, TRIO + pin(0, 0), pin(0, 1), pin(0, 8), pin(0, 255))


def read_nothing_there():
    for text in (b"", cloud(), cloud(15), EIGHT_CLOUDS, datum(), service(), datum() * 16,
                 service() * 16, service(2, 1), datum() + service() + reads(1, 0),
                 datum() + service() + writes(1, 0),
                 datum(3) + service(2, 2) + reads(1, 0) + writes(1, 0)):
        yield refused(text + STOP, 8, len(text) + 1)


def read_rules():
    for broken in ({0}, {3}, {5}, {1, 4}, {0, 5}, {2, 3, 4}, set(range(6))):
        services = b"".join(service(2, 1 if s in broken else 2) for s in range(6))
        yield refused(cloud(2) + services + STOP, 9, min(broken))
        yield refused(cloud(2) + datum() + services + STOP, 9, min(broken) + 1)
        yield refused(datum() * 10 + services + cloud() + STOP, 9, min(broken) + 10)
    for location, clearance in ((1, 0), (15, 0), (15, 14), (8, 7)):
        yield refused(cloud() + service(location, clearance) + STOP, 9, 0)
        yield refused(cloud() * 8 + datum() * 15 + service(location, clearance) + STOP, 9, 15)
    keep = [reads(4, 0), reads(4, 1), reads(4, 2), writes(4, 1), writes(4, 2), writes(4, 3)]
    yield accepted(ruled(*keep) + STOP, 1, 5, 6)
    for count in range(7):                                 # how many sound edges come first
        first = keep[:count]
        yield refused(ruled(*first, reads(4, 3)) + STOP, 10, count)
        yield refused(ruled(*first, writes(4, 0)) + STOP, 11, count)
        yield refused(ruled(*first, writes(4, 0), reads(4, 3)) + STOP, 10, count + 1)
        yield refused(ruled(*first, reads(4, 3), writes(4, 0)) + STOP, 10, count)
        yield refused(ruled(*first, reads(4, 3), service(1, 0)) + STOP, 9, 5)
        yield refused(ruled(*first, writes(4, 0), service(2, 1)) + STOP, 9, 5)
    twice = [service(1, 2), datum(3), datum(0)]            # blocks 5, 6 and 7
    yield refused(ruled(*twice, reads(5, 6), reads(4, 3)) + STOP, 10, 0)
    yield refused(ruled(*twice, reads(5, 0), reads(5, 6), reads(4, 3)) + STOP, 10, 1)
    yield refused(ruled(*twice, writes(5, 7), writes(4, 0)) + STOP, 11, 0)
    yield refused(ruled(*twice, writes(5, 6), writes(5, 7), writes(4, 0)) + STOP, 11, 1)
    # Too many candidates is looked for last.
    crowd = cloud(15) * 7 + datum() * 11
    yield refused(crowd + STOP, 12, 0)
    yield refused(crowd + service(1, 0) + STOP, 9, 11)
    yield refused(crowd + datum(3) + service(1, 2) + reads(12, 11) + STOP, 10, 0)
    yield refused(crowd + service(1, 2) + writes(11, 0) + STOP, 11, 0)
    yield refused(crowd + service(1, 2) + reads(11, 0) + STOP, 12, 0)


def read_candidate_counts():
    # Exactly as many as are allowed, or the nearest number below.
    for choices in ([2] * 16, [4] * 8, [8] * 5 + [2], [2] + [8] * 5, [8, 8, 4, 4, 4, 4, 4],
                    [4] * 8 + [1] * 8, [1] * 4 + [2] * 10 + [8] * 2,
                    [7] * 4 + [3] * 3, [3] * 10, [6] * 6, [5] * 6, [1] * 16, [8]):
        yield read_counted(choices)
    # The nearest number above, and others.
    for choices in ([5] + [3] * 8 + [2], [3] * 8 + [2, 5], [7] + [5] * 5 + [3], [3] * 11,
                    [2] * 15 + [3], [3] + [2] * 15, [8] * 5 + [3], [8] * 6, [4] * 8 + [2],
                    [8] * 16, [7] * 16, [2] * 15 + [4], [6] * 7, [5] * 7):
        yield read_counted(choices)
    # A block with nowhere to stand leaves no candidates, at whatever position.
    for choices in ([0], [0] * 16, [0] + [8] * 15, [8] * 15 + [0], [8] * 7 + [0] + [8] * 8):
        yield read_counted(choices)
    # A pinned block has one choice, or none if its cloud is too low.
    yield accepted(counted([3] * 11, pin(4, 7)), 8, 11, 0)
    yield refused(counted([3] * 12, pin(11, 7)), 12, 0)
    yield accepted(counted([3] * 12, pin(0, 7), pin(11, 6)), 8, 12, 0)
    yield accepted(counted([8] * 16, *(pin(b, b % 8) for b in range(11))), 8, 16, 0)
    yield refused(counted([8] * 16, *(pin(b, b % 8) for b in range(10))), 12, 0)
    yield accepted(counted([8] * 15 + [3], pin(15, 0)), 8, 16, 0)
    yield accepted(counted([3] + [8] * 15, pin(0, 4)), 8, 16, 0)
    yield accepted(counted([8] * 5 + [2, 8], pin(6, 3)), 8, 7, 0)
    yield refused(counted([8] * 5 + [2, 8], pin(5, 7)), 12, 0)
    yield accepted(counted([2] * 15 + [3], pin(15, 7)), 8, 16, 0)
    yield refused(counted([3] * 8 + [2, 5, 8], pin(10, 0)), 12, 0)
    yield accepted(cloud() * 2 + service() * 16 + STOP, 2, 16, 0)
    yield accepted(cloud() * 3 + service() * 10 + STOP, 3, 10, 0)
    yield refused(cloud() * 3 + service() * 11 + STOP, 12, 0)
    # Only the location of a service counts for where it may stand.
    yield accepted(cloud(0) * 3 + service(1, 15) + service(0, 15) * 15 + STOP, 3, 16, 0)
    yield refused(cloud(0) * 3 + service(0, 15) * 11 + STOP, 12, 0)
    yield accepted(cloud() + datum(1) + STOP, 1, 1, 0)


def read_counted(choices):
    text = counted(choices)
    if math.prod(choices) > MOST_CANDIDATES:
        return refused(text, 12, 0)
    return accepted(text, 8, len(choices), 0)


def read_first_fault_decides():
    faults = [(2, b"\x09"), (5, cloud(64)), (5, service(0, 64)), (6, reads(0, 0)),
              (6, pin(0, 7)), (7, reads(1, 0)), (7, pin(1, 0)), (6, apart(0, 1)),
              (7, apart(0, 0))]
    before = PAIR + reads(1, 0) + pin(1, 0)
    for (number, command), (_, later) in itertools.permutations(faults, 2):
        yield refused(before + command + later + STOP, number, len(before))
    for number, command in faults:
        yield refused(before + command, number, len(before))           # no 00 after it
        yield refused(before + command + cloud()[:4], number, len(before))
        yield refused(before + service(9, 1) + command + STOP + M, number, len(before) + 7)


def read_shapes():
    """Shapes that must be accepted: cycles, services that write nothing or do nothing."""
    yield accepted(PAIR + reads(1, 0) + STOP, 1, 2, 1)
    yield accepted(PAIR + STOP, 1, 2, 0)
    cycle = cloud() + datum() + service() + datum() + service()
    yield accepted(cycle + reads(1, 0) + writes(1, 2) + reads(3, 2) + writes(3, 0) + STOP, 1, 4, 4)
    yield accepted(M, 2, 5, 4)
    yield accepted(b"".join(MIXED_COMMANDS), 3, 5, 6)


def read_random(dice):
    for mask in (0x01, 0x80, 0xFF):
        for at in range(len(M)):
            yield read_case(M[:at] + bytes([M[at] ^ mask]) + M[at + 1:])
    for at in range(0, len(M), 2):
        yield read_case(M[:at] + M[at + 1:])
        yield read_case(M[:at] + dice.bytes(1) + M[at:])
    for _ in range(180):
        yield read_case(random_text(dice))
    for _ in range(120):
        made = random_workflow(dice)
        for _ in range(dice.between(1, 3)):
            spoil(dice, made)
        yield read_case(b"".join(commands_of(dice, made)))
    for _ in range(100):
        yield read_case(damage_bytes(dice, random_text(dice)))
    for _ in range(140):
        yield read_case(damage_commands(dice, commands_of(dice, random_workflow(dice))))
    for _ in range(40):
        yield read_case(dice.bytes(dice.below(30)))
    commands = commands_of(dice, random_workflow(dice))
    while not 70 < len(b"".join(commands)) < 130:
        commands = commands_of(dice, random_workflow(dice))
    yield from cut_at_each_length(commands)


def read_cases(dice):
    for part in (read_cut_short, read_cut_short_and_at_fault, read_unknown, read_past_the_end,
                 read_limits, read_labels, read_names, read_repeats, read_nothing_there, read_rules,
                 read_candidate_counts, read_first_fault_decides, read_shapes, read_apart):
        yield from part()
    yield from read_random(dice)
    yield from read_apart_random(dice)
