"""The stored cases of Read (letter R) about pairs, command 07."""

from model.cases.chance import apart_workflow, commands_of, damage_bytes, damage_commands
from model.cases.descriptions import (APART_COMMANDS, EIGHT_APART, EIGHT_PAIRS, FILES, FIVE_DATA,
                                      LONGEST_APART, M_APART, PAIR, PAIRS_OF_FIVE, SIXTEEN_BLOCKS,
                                      ruled)
from model.cases.making import (STOP, accepted, apart, cloud, datum, pin, read_case, reads, refused,
                                refused_at_each, service, writes)


def read_apart():
    """Command 07: what it accepts, and its faults in their order."""
    for count in range(9):                                 # pairs are not among Read's counts
        pairs = b"".join(apart(*pair) for pair in PAIRS_OF_FIVE[-count:] if count)
        yield accepted(FIVE_DATA + pairs + STOP, 2, 6, 0)
        yield accepted(FIVE_DATA + pairs + writes(5, 4) + STOP, 2, 6, 1)
    yield accepted(EIGHT_PAIRS + STOP, 2, 6, 0)
    yield accepted(LONGEST_APART, 8, 16, 32)
    yield accepted(b"".join(APART_COMMANDS), 3, 4, 2)
    yield accepted(M_APART, 2, 5, 4)
    yield accepted(datum() * 2 + apart(1, 0) + cloud() + STOP, 1, 2, 0)
    yield accepted(cloud() * 2 + datum() * 16 + apart(15, 14) + apart(0, 15) + STOP, 2, 16, 0)
    yield accepted(FILES + reads(4, 0) + writes(4, 1) + apart(0, 1) + STOP, 1, 6, 2)
    yield from read_apart_names()
    yield from read_apart_repeats()
    # A ninth is that, whatever it names: a sound pair, one repeated, and what would be 6 or 7.
    for before in (EIGHT_PAIRS, LONGEST_APART[:-1]):
        yield from refused_at_each(
            4, before, apart(2, 4), apart(4, 3), apart(0, 1), apart(1, 0), apart(3, 3),
            apart(5, 0), apart(0, 5), apart(6, 6), apart(16, 0), apart(0, 255), apart(255, 255))
    # It comes before what is looked for in the whole description, and leaves the candidates be.
    yield refused(datum() * 2 + apart(0, 1) + STOP, 8, 16)
    yield refused(PAIR + datum() + service(2, 1) + apart(0, 2) + STOP, 9, 3)
    yield refused(PAIR + datum() + service(2, 1) + apart(0, 3) + STOP, 6, 36)
    yield refused(ruled(apart(0, 1), reads(4, 0), apart(1, 2), reads(4, 3)) + STOP, 10, 1)
    yield refused(cloud() * 3 + datum() * 11 + apart(0, 1) + STOP, 12, 0)
    yield refused(cloud() * 3 + datum() * 11 + apart(0, 1) + apart(1, 0) + STOP, 7, 99)
    yield accepted(cloud() * 3 + datum() * 10 + apart(0, 1) + STOP, 3, 10, 0)


def read_apart_names():
    yield from refused_at_each(
        6, FILES, apart(0, 4), apart(4, 0), apart(4, 5),   # services
        apart(6, 0), apart(0, 6), apart(6, 7), apart(15, 0), apart(0, 15), apart(16, 1),
        apart(1, 16), apart(255, 0), apart(0, 255), apart(4, 6), apart(6, 4),
        apart(4, 4), apart(6, 6), apart(255, 255))         # 6 before 7
    yield from refused_at_each(6, FILES + apart(0, 1), apart(0, 5), apart(5, 1), apart(1, 9))
    yield from refused_at_each(6, b"", apart(0, 1), apart(0, 0))
    yield from refused_at_each(6, cloud() * 5, apart(0, 1), apart(3, 4))
    yield from refused_at_each(6, cloud() + service() * 3, apart(0, 1), apart(2, 2))
    yield from refused_at_each(6, SIXTEEN_BLOCKS, apart(7, 8), apart(8, 7), apart(16, 0))
    # Declared, but only later.
    yield refused(cloud() + datum() + apart(0, 1) + datum() + STOP, 6, 16)
    yield refused(cloud() + datum() + apart(1, 0) + datum() + STOP, 6, 16)
    yield refused(cloud() + apart(0, 1) + datum() * 2 + STOP, 6, 10)


def read_apart_repeats():
    yield from refused_at_each(7, FILES, *(apart(name, name) for name in range(4)))
    for between in (b"", datum(), cloud(3), service(), reads(4, 0), writes(4, 1), pin(1, 0),
                    apart(2, 3), apart(0, 2) + apart(3, 1)):
        yield from refused_at_each(7, FILES + apart(0, 1) + between, apart(0, 1), apart(1, 0),
                                   apart(1, 1))
    # Any of those before it, in either order.
    before = FIVE_DATA + EIGHT_APART[:-3]
    for one, other in PAIRS_OF_FIVE[:7]:
        yield from refused_at_each(7, before, apart(one, other), apart(other, one))
    yield accepted(before + apart(4, 2) + STOP, 2, 6, 0)


def read_apart_random(dice):
    for mask in (0x01, 0x80, 0xFF):
        for at in range(len(M_APART) - 5, len(M_APART)):
            yield read_case(M_APART[:at] + bytes([M_APART[at] ^ mask]) + M_APART[at + 1:])
    for _ in range(60):
        yield read_case(b"".join(commands_of(dice, apart_workflow(dice))))
    for _ in range(60):
        yield read_case(damage_bytes(dice, b"".join(commands_of(dice, apart_workflow(dice)))))
    for _ in range(120):
        added = apart(dice.below(8), dice.below(8))
        commands = commands_of(dice, apart_workflow(dice))
        yield read_case(damage_commands(dice, commands, added))
