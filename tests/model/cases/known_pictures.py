"""Pictures written down by hand, and placements that have none, for Picture and Picture size."""

from typing import NamedTuple

from model.cases.descriptions import (ALL_READ, EIGHT_TWOS, GUARDED, LONGEST, LONGEST_APART, M,
                                      MIXED_COMMANDS, MIXED_EDGES, M_APART, REFUSED_BY_READ, SECOND,
                                      SIXTEEN_BLOCKS, STEPS, THIRTY_TWO_EDGES, TWO_BY_TWO, Barred,
                                      meeting, together)
from model.cases.making import STOP, cloud, datum, pin, placed, reads, service, writes


# ---- Pictures written down by hand -----------------------------------------------------

INTERVIEW_PICTURE = b"""\
digraph p {
  d0_1 -> s1_1;
  s1_1 -> d2_1_e1 -> x1 -> d2_0;
  d2_0 -> s3_0;
  s3_0 -> d4_0;
}
"""


class KnownPicture(NamedTuple):
    """A secure placement, and the lines of its picture between the first and the last."""
    text: bytes
    placement: bytes
    lines: list

    def picture(self):
        between = "".join(f"  {line}\n" for line in self.lines)
        return f"digraph p {{\n{between}}}\n".encode("ascii")


def known_picture(text, clouds, lines):
    """With a digit for each block, and the lines below each other."""
    stripped = [line.strip() for line in lines.split("\n")]
    return KnownPicture(text, placed(*map(int, clouds)), stripped)


def of_the_interview():
    """All that is secure on M; two of these are left if its first and last file are apart."""
    found = [known_picture(M, clouds, "d0_1 -> s1_1;\n" + lines) for clouds, lines in (
        ("11000", """s1_1 -> d2_1_e1 -> x1 -> d2_0;
                     d2_0 -> s3_0;
                     s3_0 -> d4_0;"""),
        ("11001", """s1_1 -> d2_1_e1 -> x1 -> d2_0;
                     d2_0 -> s3_0;
                     s3_0 -> d4_0_e3 -> x3 -> d4_1;"""),
        ("11010", """s1_1 -> d2_1_e1 -> x1 -> d2_0;
                     d2_0 -> x2 -> d2_1_e2 -> s3_1;
                     s3_1 -> d4_1_e3 -> x3 -> d4_0;"""),
        ("11011", """s1_1 -> d2_1_e1 -> x1 -> d2_0;
                     d2_0 -> x2 -> d2_1_e2 -> s3_1;
                     s3_1 -> d4_1;"""),
        ("11100", """s1_1 -> d2_1;
                     d2_1 -> x2 -> d2_0_e2 -> s3_0;
                     s3_0 -> d4_0;"""),
        ("11101", """s1_1 -> d2_1;
                     d2_1 -> x2 -> d2_0_e2 -> s3_0;
                     s3_0 -> d4_0_e3 -> x3 -> d4_1;"""),
        ("11110", """s1_1 -> d2_1;
                     d2_1 -> s3_1;
                     s3_1 -> d4_1_e3 -> x3 -> d4_0;"""),
        ("11111", """s1_1 -> d2_1;
                     d2_1 -> s3_1;
                     s3_1 -> d4_1;"""))]
    yield from found
    for each in (found[0], found[4]):
        yield each._replace(text=M_APART)


def of_the_second():
    """The three rows of the second example."""
    begin = """s0_1 -> d1_1;
               d1_1 -> s2_1;
               s2_1 -> d3_1;
               d3_1 -> s4_1;
               s4_1 -> d5_1;
               d5_1 -> s8_1;
               """
    yield known_picture(SECOND, "1111110011", begin + """s6_0 -> d7_0;
                                                         d7_0 -> x7 -> d7_1_e7 -> s8_1;
                                                         s8_1 -> d9_1;""")
    yield known_picture(SECOND, "1111111011", begin + """s6_1 -> d7_1_e6 -> x6 -> d7_0;
                                                         d7_0 -> x7 -> d7_1_e7 -> s8_1;
                                                         s8_1 -> d9_1;""")
    yield known_picture(SECOND, "1111111111", begin + """s6_1 -> d7_1;
                                                         d7_1 -> s8_1;
                                                         s8_1 -> d9_1;""")


def of_one_edge():
    """A datum and a service, declared in either order, on one of eight clouds or on two."""
    for home, away in ((0, 7), (4, 3)):
        for blocks, d, s in ((datum() + service(), 0, 1), (service() + datum(), 1, 0)):
            text = cloud() * 8 + blocks
            moved = placed(home, away) if d == 0 else placed(away, home)
            for edge, placement, line in (
                    (reads, placed(home, home), f"d{d}_{home} -> s{s}_{home};"),
                    (reads, moved, f"d{d}_{home} -> x0 -> d{d}_{away}_e0 -> s{s}_{away};"),
                    (writes, placed(home, home), f"s{s}_{home} -> d{d}_{home};"),
                    (writes, moved, f"s{s}_{away} -> d{d}_{away}_e0 -> x0 -> d{d}_{home};")):
                yield KnownPicture(text + edge(s, d) + STOP, placement, [line])


def of_several_edges():
    """One datum that three services have to do with, and four blocks in a circle."""
    shared = (cloud() * 3 + datum() + service() * 3 + reads(1, 0) + writes(2, 0) + reads(2, 0)
              + reads(3, 0) + STOP)
    yield known_picture(shared, "0120", """d0_0 -> x0 -> d0_1_e0 -> s1_1;
                                           s2_2 -> d0_2_e1 -> x1 -> d0_0;
                                           d0_0 -> x2 -> d0_2_e2 -> s2_2;
                                           d0_0 -> s3_0;""")
    yield known_picture(shared, "2221", """d0_2 -> s1_2;
                                           s2_2 -> d0_2;
                                           d0_2 -> s2_2;
                                           d0_2 -> x3 -> d0_1_e3 -> s3_1;""")
    circle = (cloud() * 2 + datum() + service() + datum() + service() + writes(3, 0) + reads(3, 2)
              + writes(1, 2) + reads(1, 0) + STOP)
    yield known_picture(circle, "0110", """s3_0 -> d0_0;
                                           d2_1 -> x1 -> d2_0_e1 -> s3_0;
                                           s1_1 -> d2_1;
                                           d0_0 -> x3 -> d0_1_e3 -> s1_1;""")
    yield known_picture(circle, "1001", """s3_1 -> d0_1;
                                           d2_0 -> x1 -> d2_1_e1 -> s3_1;
                                           s1_0 -> d2_0;
                                           d0_1 -> x3 -> d0_0_e3 -> s1_0;""")


def of_levels_and_pins():
    yield known_picture(STEPS + STOP, "1222", """d0_1 -> x0 -> d0_2_e0 -> s1_2;
                                                 s1_2 -> d2_2;
                                                 d2_2 -> s3_2;""")
    yield known_picture(STEPS + pin(1, 2) + pin(0, 2) + STOP, "2222", """d0_2 -> s1_2;
                                                                         s1_2 -> d2_2;
                                                                         d2_2 -> s3_2;""")
    mixed = b"".join(MIXED_COMMANDS)
    yield known_picture(mixed, "00012", """d0_0 -> s1_0;
                                           s1_0 -> d2_0;
                                           d2_0 -> x2 -> d2_1_e2 -> s3_1;
                                           s1_0 -> d0_0;
                                           d2_0 -> s1_0;
                                           s3_1 -> d4_1_e5 -> x5 -> d4_2;""")
    yield known_picture(mixed, "01012", """d0_0 -> x0 -> d0_1_e0 -> s1_1;
                                           s1_1 -> d2_1_e1 -> x1 -> d2_0;
                                           d2_0 -> x2 -> d2_1_e2 -> s3_1;
                                           s1_1 -> d0_1_e3 -> x3 -> d0_0;
                                           d2_0 -> x4 -> d2_1_e4 -> s1_1;
                                           s3_1 -> d4_1_e5 -> x5 -> d4_2;""")


def of_pairs():
    """Data that are kept apart are drawn as any others."""
    text = meeting(reads(2, 0) + writes(3, 1))
    yield known_picture(text, "0101", """d0_0 -> s2_0;
                                         s3_1 -> d1_1;""")
    yield known_picture(text, "0121", """d0_0 -> x0 -> d0_2_e0 -> s2_2;
                                         s3_1 -> d1_1;""")
    yield known_picture(text, "0102", """d0_0 -> s2_0;
                                         s3_2 -> d1_2_e1 -> x1 -> d1_1;""")
    yield known_picture(meeting(writes(3, 0)), "2102", """s3_2 -> d0_2;
                                                          d1_1;
                                                          s2_0;""")
    yield known_picture(GUARDED, "2121", """d0_2 -> s2_2;
                                            s3_1 -> d1_1;""")
    forward = TWO_BY_TWO + b"".join(EIGHT_TWOS) + STOP
    yield KnownPicture(forward, together([]), [f"d{b}_{b % 2};" for b in range(16)])


def of_lone_blocks():
    """Blocks without an edge: by themselves, and between blocks that have one."""
    yield known_picture(cloud() + datum() + STOP, "0", "d0_0;")
    yield known_picture(cloud() * 8 + service() + STOP, "7", "s0_7;")
    yield known_picture(cloud() * 3 + service() + datum() + STOP, "12", "s0_1;\nd1_2;")
    yield known_picture(cloud() * 3 + datum() + service() + STOP, "20", "d0_2;\ns1_0;")
    mixed = (cloud() * 2 + datum() + service() * 2 + datum() + service() + datum() * 2
             + reads(1, 3) + writes(4, 6) + STOP)
    yield known_picture(mixed, "0110111", """d3_0 -> x0 -> d3_1_e0 -> s1_1;
                                             s4_1 -> d6_1;
                                             d0_0;
                                             s2_1;
                                             d5_1;""")
    yield known_picture(mixed, "1000001", """d3_0 -> s1_0;
                                             s4_0 -> d6_0_e1 -> x1 -> d6_1;
                                             d0_1;
                                             s2_0;
                                             d5_0;""")
    for placement in (placed(), together([0, 3]), bytes([0] * 15 + [1]), bytes([1] * 16)):
        yield KnownPicture(cloud() * 2 + datum() * 16 + STOP, placement,
                           [f"d{b}_{k};" for b, k in enumerate(placement)])
        yield KnownPicture(cloud() * 2 + service() * 16 + STOP, placement,
                           [f"s{b}_{k};" for b, k in enumerate(placement)])
        yield KnownPicture(SIXTEEN_BLOCKS + STOP, placement,
                           [f"{'d' if b < 8 else 's'}{b}_{k};" for b, k in enumerate(placement)])


def pins(blocks, to):
    return b"".join(pin(block, to) for block in blocks)


def of_the_last_block():
    """One edge, to which the last block belongs; blocks 1 to 13 are without any, on cloud 1."""
    begin = cloud() * 2 + datum() * 15 + service() + pins(range(1, 14), 1)
    between = [f"d{b}_1;" for b in range(1, 14)]
    last = begin + reads(15, 14) + STOP
    first = begin + writes(15, 0) + STOP
    yield KnownPicture(last, placed(0, *[1] * 13, 0, 1),
                       ["d14_0 -> x0 -> d14_1_e0 -> s15_1;", "d0_0;", *between])
    yield KnownPicture(last, placed(*[1] * 16), ["d14_1 -> s15_1;", "d0_1;", *between])
    yield KnownPicture(first, placed(0, *[1] * 13, 0, 1),
                       ["s15_1 -> d0_1_e0 -> x0 -> d0_0;", *between, "d14_0;"])
    yield KnownPicture(first, placed(*[1] * 16), ["s15_1 -> d0_1;", *between, "d14_1;"])
    begin = cloud() * 2 + service() * 15 + datum() + pins(range(1, 14), 1)
    between = [f"s{b}_1;" for b in range(1, 14)]
    yield KnownPicture(begin + reads(0, 15) + STOP, placed(0, *[1] * 15),
                       ["d15_1 -> x0 -> d15_0_e0 -> s0_0;", *between, "s14_1;"])
    yield KnownPicture(begin + writes(14, 15) + STOP, placed(0, *[1] * 13, 0, 1),
                       ["s14_0 -> d15_0_e0 -> x0 -> d15_1;", "s0_0;", *between])


def of_nine_and_ten():
    """Where blocks and edges get a second digit: data 0 to 8 and 10, services 9 and 11."""
    text = (cloud() * 2 + datum() * 9 + service() + datum() + service() + pins(range(9), 0)
            + b"".join(reads(9, d) for d in range(9)) + reads(9, 10) + writes(11, 10)
            + reads(11, 0) + STOP)
    yield KnownPicture(text, placed(*[0] * 9, 1, 0, 1), [
        *(f"d{d}_0 -> x{d} -> d{d}_1_e{d} -> s9_1;" for d in range(9)),
        "d10_0 -> x9 -> d10_1_e9 -> s9_1;",
        "s11_1 -> d10_1_e10 -> x10 -> d10_0;",
        "d0_0 -> x11 -> d0_1_e11 -> s11_1;"])
    yield KnownPicture(text, placed(), [
        *(f"d{d}_0 -> s9_0;" for d in range(9)),
        "d10_0 -> s9_0;",
        "s11_0 -> d10_0;",
        "d0_0 -> s11_0;"])
    yield KnownPicture(text, placed(*[0] * 9, 0, 1, 1), [
        *(f"d{d}_0 -> s9_0;" for d in range(9)),
        "d10_1 -> x9 -> d10_0_e9 -> s9_0;",
        "s11_1 -> d10_1;",
        "d0_0 -> x11 -> d0_1_e11 -> s11_1;"])
    # Ten edges, and eleven.
    for count in (10, 11):
        short = (cloud() * 2 + datum() * 11 + service() + pins(range(11), 1)
                 + b"".join(reads(11, d) for d in range(count)) + STOP)
        lone = ["d10_1;"] if count == 10 else []
        moved = [f"d{d}_1 -> x{d} -> d{d}_0_e{d} -> s11_0;" for d in range(count)]
        yield KnownPicture(short, placed(*[1] * 11, 0), moved + lone)


def across(e, d, s):
    """The line of a read, the data on cloud 0 and the services on 1."""
    return f"d{d}_0 -> x{e} -> d{d}_1_e{e} -> s{s}_1;"


def of_thirty_two_edges():
    split = bytes([0] * 8 + [1] * 8)                       # data here, services there
    yield KnownPicture(THIRTY_TWO_EDGES + STOP, split,
                       [across(e, e % 8, 8 + e // 8) for e in range(32)]
                       + [f"s{b}_1;" for b in range(12, 16)])
    yield KnownPicture(THIRTY_TWO_EDGES + STOP, placed(),
                       [f"d{e % 8}_0 -> s{8 + e // 8}_0;" for e in range(32)]
                       + [f"s{b}_0;" for b in range(12, 16)])
    yield KnownPicture(MIXED_EDGES + STOP, split,
                       [across(e, e % 8, 8 + e // 8) for e in range(24)]
                       + [f"s{11 + d // 2}_1 -> d{d}_1_e{24 + d} -> x{24 + d} -> d{d}_0;"
                          for d in range(8)] + ["s15_1;"])
    yield KnownPicture(MIXED_EDGES + STOP, bytes([1] * 16),
                       [f"d{e % 8}_1 -> s{8 + e // 8}_1;" for e in range(24)]
                       + [f"s{11 + d // 2}_1 -> d{d}_1;" for d in range(8)] + ["s15_1;"])
    for alone in (0, 5, 7):                                # one datum there, all else here
        placement = bytes(1 if b == alone else 0 for b in range(16))
        lines = [f"d{e % 8}_0 -> s{8 + e // 8}_0;" for e in range(24)]
        lines += [f"s{11 + d // 2}_0 -> d{d}_0;" for d in range(8)]
        for e in (alone, 8 + alone, 16 + alone):
            lines[e] = f"d{alone}_1 -> x{e} -> d{alone}_0_e{e} -> s{8 + e // 8}_0;"
        e = 24 + alone
        lines[e] = f"s{11 + alone // 2}_0 -> d{alone}_0_e{e} -> x{e} -> d{alone}_1;"
        yield KnownPicture(MIXED_EDGES + STOP, placement, lines + ["s15_0;"])
    # The last edge is the only one of the last block.
    text = SIXTEEN_BLOCKS + pins(range(8), 0) + pins(range(8, 16), 1) + ALL_READ[:-3]
    yield KnownPicture(text + writes(15, 7) + STOP, split,
                       [across(e, e % 8, 8 + e // 8) for e in range(31)]
                       + ["s15_1 -> d7_1_e31 -> x31 -> d7_0;", "s12_1;", "s13_1;", "s14_1;"])


def of_eight_clouds():
    """Block b on cloud b % 8, so that some of thirty-two reads are in place and some are not."""
    lines = []
    for e in range(32):
        d, s, k = e % 3, 3 + e // 3, (3 + e // 3) % 8
        moved = f"d{d}_{d} -> x{e} -> d{d}_{k}_e{e} -> s{s}_{k};"
        lines.append(moved if k != d else f"d{d}_{d} -> s{s}_{d};")
    yield KnownPicture(LONGEST, placed(*(b % 8 for b in range(16))), lines + ["s14_6;", "s15_7;"])


def of_the_most_bytes():
    """No picture is longer: thirty-two moved edges, of which the last twelve have 38 bytes each.

    Services 0 to 4, 14 and 15 read each of the data 10 to 13; 5 to 9 are without an edge.
    """
    readers = (0, 1, 2, 3, 4, 14, 15)
    text = (cloud() * 2 + service() * 5 + (datum() + service()) * 2 + datum() * 5 + service() * 2
            + pins(range(10), 1)
            + b"".join(reads(s, d) for s in readers for d in range(10, 14))
            + writes(15, 10) + writes(14, 11) + writes(15, 12) + writes(14, 13) + STOP)
    lines = [across(4 * r + d - 10, d, s) for r, s in enumerate(readers) for d in range(10, 14)]
    lines += ["s15_1 -> d10_1_e28 -> x28 -> d10_0;", "s14_1 -> d11_1_e29 -> x29 -> d11_0;",
              "s15_1 -> d12_1_e30 -> x30 -> d12_0;", "s14_1 -> d13_1_e31 -> x31 -> d13_0;",
              "d5_1;", "s6_1;", "d7_1;", "s8_1;", "d9_1;"]
    yield KnownPicture(text, placed(*[1] * 10, *[0] * 4, 1, 1), lines)
    text = text[:-1] + pins(range(10, 16), 1) + STOP
    lines = [f"d{d}_1 -> s{s}_1;" for s in readers for d in range(10, 14)]
    lines += ["s15_1 -> d10_1;", "s14_1 -> d11_1;", "s15_1 -> d12_1;", "s14_1 -> d13_1;",
              "d5_1;", "s6_1;", "d7_1;", "s8_1;", "d9_1;"]
    yield KnownPicture(text, bytes([1] * 16), lines)


MOST_BYTES = 1230               # of a picture: see `of_the_most_bytes`
ENOUGH = 1374                   # what the library says is always enough


def known_pictures():
    for part in (of_the_interview, of_the_second, of_one_edge, of_several_edges,
                 of_levels_and_pins, of_pairs, of_lone_blocks, of_the_last_block,
                 of_nine_and_ten, of_thirty_two_edges, of_eight_clouds, of_the_most_bytes):
        yield from part()


# ---- Placements without a picture, by hand ---------------------------------------------

def barred():
    for text, number, place in REFUSED_BY_READ:
        yield Barred(text, placed(1, 1), number, place)
    for placement, number, place in (
            (placed(1, 1, 2, 2), 15, 1), (placed(2, 1, 2, 2), 15, 1), (placed(1, 0, 2, 2), 14, 0),
            (placed(1, 1, 2, 1), 14, 2), (placed(0, 2, 2, 2), 13, 0), (placed(1, 9, 2, 2), 13, 1),
            (placed(1, 2, 2, 2, 0, 0, 0, 1), 13, 7), (placed(1, 0, 2, 0, 5), 13, 4),
            (bytes([255] * 16), 13, 0), (bytes([1, 2, 2, 2] + [0] * 11 + [1]), 13, 15)):
        yield Barred(STEPS + STOP, placement, number, place)
    for pinned, placement, place in ((pin(1, 2), placed(1, 1, 2, 2), 1),
                                     (pin(0, 2), placed(1, 2, 2, 2), 0),
                                     (pin(3, 2), placed(1, 2, 2, 1), 3)):
        yield Barred(STEPS + pinned + STOP, placement, 13, place)
    yield Barred(M, placed(1, 0, 0, 0, 0), 14, 0)
    yield Barred(M, placed(0, 1, 1, 1, 1), 13, 0)
    yield Barred(LONGEST, placed(), 13, 1)
    yield from barred_by_pairs()


def barred_by_pairs():
    """Pairs that are broken, and what is looked for before them."""
    yield Barred(M_APART, placed(1, 1, 1, 1, 1), 17, 0)
    yield Barred(M_APART, placed(1, 1, 0, 0, 1), 17, 0)
    text = meeting(reads(2, 0) + writes(3, 1))
    for clouds in ((0, 0, 0, 0), (0, 1, 1, 1), (0, 1, 2, 2), (0, 1, 0, 0)):
        yield Barred(text, placed(*clouds), 17, 0)
    for placement, number, place in (
            (placed(1, 1, 0, 1), 14, 0), (placed(1, 1, 1, 0), 15, 1), (placed(0, 1, 1, 1), 13, 0),
            (placed(1, 1, 1, 1, 1), 13, 4), (placed(1, 1, 1, 1), 17, 0),
            (placed(1, 2, 2, 1), 17, 0)):
        yield Barred(GUARDED, placement, number, place)
    yield Barred(LONGEST_APART, placed(*(b % 8 for b in range(16))), 17, 0)
    forward = TWO_BY_TWO + b"".join(EIGHT_TWOS) + STOP
    for pair in (0, 3, 7):
        yield Barred(forward, together([pair]), 17, pair)
        yield Barred(forward, together(range(pair, 8)), 17, pair)
