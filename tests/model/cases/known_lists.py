"""Descriptions with their census and their rows, written down by hand, for Census and Draw."""

from model.cases.descriptions import (ACROSS, ALL_READ, EIGHT_CLOUDS, GUARDED, M, SECOND, Known,
                                      fork, meeting, pipe, stores)
from model.cases.making import STOP, apart, cloud, datum, pin, reads, service, writes

FORK = fork(datum(0, 10, 1))
ONE_WAY = cloud(0, 1, 0, 3) + cloud(0, 2, 4, 0)            # 0 to 1 costs 7, 1 to 0 nothing
GRID = EIGHT_CLOUDS + datum() * 2                          # 64 rows that cost nothing
# Six services whose cpu units are powers of two: every cost from 0 to 63, once.
POWERS = cloud() + cloud(cpu=1) + b"".join(service(units=1 << bit) for bit in range(6))
HIGH_DATUM = cloud(0) + cloud(1) + datum(1) + service(0, 1)
PRICED = cloud(0, 2, 3, 5, 7) + cloud(0, 11, 13, 17, 19) + datum(0, 15, 3) + service(units=5)
DEAREST = cloud(0, 65535, 65535, 65535, 65535)


KNOWN = [Known(begin + STOP, counts, found) for begin, counts, found in (
    (M[:-1], (16, 8, 0, 0, 8, 6),
     "2820 11111 1320 0 1500, 2850 11110 1330 20 1500, 2970 11000 1370 100 1500, "
     "3000 11001 1380 120 1500, 3120 11011 1420 200 1500, 3150 11010 1430 220 1500"),
    (SECOND[:-1], (16, 8, 4, 0, 4, 3),
     "6350 1111110011 3950 50 2350, 6700 1111111011 4000 100 2600, "
     "6800 1111111111 4200 0 2600"),
    # A month at home costs as much as a month as a copy, so that both homes of an option cost the
    # same and the earlier bytes stand for it; kept for no month, the home whose copy is cheaper.
    (stores(1, 2) + pipe(), (8, 0, 0, 0, 8, 6), "1 000, 2 111, 3 001, 3 100, 4 010, 5 101"),
    (stores(2, 1) + pipe(), (8, 0, 0, 0, 8, 6), "1 111, 2 000, 3 001, 3 100, 4 101, 5 010"),
    (stores(1, 1) + pipe(), (8, 0, 0, 0, 8, 6), "1 000, 1 111, 2 001, 2 100, 3 010, 3 101"),
    (stores(1, 2) + pipe(datum(0, 10, 0)), (8, 0, 0, 0, 8, 6),
     "0 000, 0 111, 1 011, 1 110, 2 010, 4 101"),
    (stores(2, 1) + pipe(datum(0, 0, 9)), (8, 0, 0, 0, 8, 6),
     "0 000, 0 001, 0 010, 0 100, 0 101, 0 111"),
    (stores(0, 0) + pipe(datum(0, 10, 9)), (8, 0, 0, 0, 8, 6),
     "0 000, 0 001, 0 010, 0 100, 0 101, 0 111"),
    (stores(1, 2) + pipe() + ACROSS, (2, 0, 0, 0, 2, 1), "3 001"),
    (stores(2, 1) + pipe() + ACROSS, (2, 0, 0, 0, 2, 1), "3 001"),
    (stores(1, 1) + pipe() + ACROSS, (2, 0, 0, 0, 2, 1), "2 001"),
    # On a third cloud the datum has two copies, which is an option of its own.
    (stores(1, 1, 1) + pipe() + pin(0, 2) + pin(2, 1), (3, 0, 0, 0, 3, 2), "2 211, 3 201"),
    (stores(1, 2, 1) + pipe() + pin(0, 2) + pin(2, 1), (3, 0, 0, 0, 3, 2), "3 211, 4 201"),
    (stores(3, 1, 1) + pipe() + pin(0, 1) + pin(2, 2), (3, 0, 0, 0, 3, 2), "2 112, 5 102"),
    # A home that a pin forbids stands for nothing.
    (stores(1, 2) + pipe() + pin(1, 1), (4, 0, 0, 0, 4, 4), "2 111, 3 011, 3 110, 4 010"),
    (stores(1, 2) + pipe() + ACROSS + pin(1, 1), (1, 0, 0, 0, 1, 1), "3 011"),
    (stores(2, 1) + pipe() + ACROSS + pin(1, 0), (1, 0, 0, 0, 1, 1), "3 001"),
    # Two readers: each has a copy of its own, so nothing merges.
    (ONE_WAY + FORK + pin(2, 1) + pin(3, 1), (2, 0, 0, 0, 2, 2), "10 0111 3 7 0, 19 0011 5 14 0"),
    (ONE_WAY + FORK + pin(2, 0) + pin(3, 1), (2, 0, 0, 0, 2, 2), "10 0001 3 7 0, 11 0101 4 7 0"),
    (stores(1, 1, 1) + FORK + pin(2, 1) + pin(3, 2), (3, 0, 0, 0, 3, 3), "3 0012, 3 0112, 3 0212"),
    # Where the writer is the reader, or one of the two is missing, nothing merges either.
    (stores(1, 1) + service() + datum(0, 10, 1) + writes(0, 1) + reads(0, 1), (4, 0, 0, 0, 4, 4),
     "1 00, 1 11, 3 01, 3 10"),
    (stores(1, 1) + service() + datum(0, 10, 1) + writes(0, 1), (4, 0, 0, 0, 4, 4),
     "1 00, 1 11, 2 01, 2 10"),
    (stores(1, 1) + service() + datum(0, 10, 1) + reads(0, 1), (4, 0, 0, 0, 4, 4),
     "1 00, 1 11, 2 01, 2 10"),
    # Levels: what lies too low for a copy; both rules broken counts under 16.
    (cloud(0, 1) + cloud(1, 2) + pipe(datum(1, 10, 1)), (4, 2, 1, 0, 1, 1), "2 111"),
    (HIGH_DATUM + writes(1, 0), (2, 0, 1, 0, 1, 1), "0 11"),
    (HIGH_DATUM + reads(1, 0), (2, 1, 0, 0, 1, 1), "0 11"),
    (HIGH_DATUM + writes(1, 0) + reads(1, 0), (2, 1, 0, 0, 1, 1), "0 11"),
    (HIGH_DATUM + datum(1) + reads(1, 0) + writes(1, 2), (2, 1, 0, 0, 1, 1), "0 111"),
    # Nothing to list: candidates that are all insecure, or no candidates.
    (HIGH_DATUM + reads(1, 0) + pin(1, 0), (1, 1, 0, 0, 0, 0), ""),
    (HIGH_DATUM + writes(1, 0) + pin(1, 0), (1, 0, 1, 0, 0, 0), ""),
    (cloud(0) + datum(1), (0, 0, 0, 0, 0, 0), ""),
    (HIGH_DATUM + pin(0, 0), (0, 0, 0, 0, 0, 0), ""),
    (cloud(14) * 8 + service() * 15 + service(15, 15), (0, 0, 0, 0, 0, 0), ""),
    # The least and the most.
    (cloud() + datum(), (1, 0, 0, 0, 1, 1), "0 0"),
    (cloud(0, 1) + datum(0, 11, 1), (1, 0, 0, 0, 1, 1), "1 0"),
    (cloud(cpu=65535) + service(units=0xFFFFFFFF) * 16, (1, 0, 0, 0, 1, 1),
     "4503530906845200 0000000000000000 0 0 4503530906845200"),
    (GRID, (64, 0, 0, 0, 64, 64), ", ".join(f"0 {a}{b}" for a in range(8) for b in range(8))),
    (POWERS, (64, 0, 0, 0, 64, 64),
     ", ".join(f"{n} {format(n, '06b')[::-1]} 0 0 {n}" for n in range(64))),
    # Every rate is different, so that an amount shows which rates it is made of.
    (PRICED, (4, 0, 0, 0, 4, 4), "47 00 12 0 35, 101 10 66 0 35, 107 01 12 0 95, 161 11 66 0 95"),
    (PRICED + reads(1, 0), (4, 0, 0, 0, 4, 4),
     "47 00 12 0 35, 145 10 70 40 35, 161 11 66 0 95, 165 01 34 36 95"),
    (PRICED + writes(1, 0), (4, 0, 0, 0, 4, 4),
     "47 00 12 0 35, 141 10 70 36 35, 161 11 66 0 95, 169 01 34 40 95"),
    (PRICED + writes(1, 0) + reads(1, 0), (4, 0, 0, 0, 4, 4),
     "47 00 12 0 35, 161 11 66 0 95, 185 10 74 76 35, 227 01 56 76 95"),
    # Rows of one cost with other amounts, and transfers that are all there is to pay.
    (cloud(0, 1, cpu=2) + cloud(0, 2, cpu=1) + datum(0, 10, 1) + service(units=1),
     (4, 0, 0, 0, 4, 4), "2 01 1 0 1, 3 00 1 0 2, 3 11 2 0 1, 4 10 2 0 2"),
    (cloud(0, 0, 1, 2) + cloud(0, 0, 3, 4) + datum(0, 10, 9) + service() + reads(1, 0),
     (4, 0, 0, 0, 4, 4), "0 00, 0 11, 5 01 0 5 0, 5 10 0 5 0"),
    # A half is charged as the even neighbour: as nothing, so that the earlier bytes stand for an
    # option; as 2 from either side, so that costs tie.
    (stores(2, 1) + pipe(datum(0, 5, 9)), (8, 0, 0, 0, 8, 6),
     "0 000, 0 001, 0 010, 0 100, 0 101, 0 111"),
    (stores(2, 1) + pipe(datum(0, 6, 9)), (8, 0, 0, 0, 8, 6),
     "9 111, 11 011, 11 110, 13 010, 18 000, 20 101"),
    (stores(1, 2) + datum(0, 15, 1) + datum(0, 25, 1), (4, 0, 0, 0, 4, 4),
     "4 00, 6 01, 6 10, 8 11"),
    (stores(1, 2) + datum(0, 26, 1) + datum(0, 35, 1), (4, 0, 0, 0, 4, 4),
     "7 00, 10 10, 11 01, 14 11"),
    # The highest amounts: of storage, and of transfers together with the other two.
    (cloud(0, 65535) + datum(0, 65535, 65535) * 16, (1, 0, 0, 0, 1, 1),
     "450373705898400 0000000000000000"),
    (DEAREST * 2 + datum(0, 65535, 65535) * 8 + service(units=0xFFFFFFFF) * 8 + ALL_READ
     + b"".join(pin(block, block // 8) for block in range(16)), (1, 0, 0, 0, 1, 1),
     "2476993539945240 0000000011111111 225200597473680 27489048960 2251765453422600"),
    # Two files apart: M's first and last, and two that one service has to do with; in the second
    # example two of which one is always copied to the cloud of the other.
    (M[:-1] + apart(0, 4), (16, 8, 0, 6, 2, 1), "2970 11000 1370 100 1500"),
    (M[:-1] + apart(4, 0), (16, 8, 0, 6, 2, 1), "2970 11000 1370 100 1500"),
    (M[:-1] + apart(0, 2), (16, 8, 0, 8, 0, 0), ""),
    (M[:-1] + apart(4, 2), (16, 8, 0, 8, 0, 0), ""),
    (SECOND[:-1] + apart(1, 7), (16, 8, 4, 4, 0, 0), ""),
    # Side by side: two data, two twos, and three on two clouds and on three.
    (stores(1, 2) + datum(0, 10, 1) * 2 + apart(0, 1), (4, 0, 0, 2, 2, 2), "3 01, 3 10"),
    (stores(1, 2) + datum(0, 10, 1) * 4 + apart(0, 1) + apart(3, 2), (16, 0, 0, 12, 4, 4),
     "6 0101, 6 0110, 6 1001, 6 1010"),
    (stores(1, 2) + datum() * 3 + apart(0, 1) + apart(1, 2) + apart(2, 0), (8, 0, 0, 8, 0, 0), ""),
    (stores(1, 2, 4) + datum(0, 10, 1) * 3 + apart(0, 1) + apart(1, 2) + apart(2, 0),
     (27, 0, 0, 21, 6, 6), "7 012, 7 021, 7 102, 7 120, 7 201, 7 210"),
    (stores(1, 2) + datum(0, 10, 1) * 2 + apart(0, 1) + pin(0, 1), (2, 0, 0, 1, 1, 1), "3 10"),
    (stores(1, 2) + datum(0, 10, 1) * 2 + pin(0, 1) + pin(1, 1) + apart(0, 1),
     (1, 0, 0, 1, 0, 0), ""),
    # By a copy, of a read or of a write; and by two copies.
    (stores(1, 2, 4) + datum(0, 10, 1) * 2 + service() + reads(2, 0) + apart(0, 1),
     (27, 0, 0, 15, 12, 12), "3 010, 3 101, 5 020, 5 202, 6 121, 6 212, "
                             "7 012, 7 021, 7 102, 7 120, 7 201, 7 210"),
    (stores(1, 2, 4) + datum(0, 10, 1) * 2 + service() + apart(1, 0) + writes(2, 0),
     (27, 0, 0, 15, 12, 12), "3 010, 3 101, 5 020, 5 202, 6 121, 6 212, "
                             "7 012, 7 021, 7 102, 7 120, 7 201, 7 210"),
    (meeting(reads(2, 0) + writes(3, 1) + pin(0, 0) + pin(1, 1))[:-1], (9, 0, 0, 6, 3, 3),
     "0 0101, 0 0102, 0 0121"),
    # All four kinds of candidates.
    (GUARDED[:-1], (36, 12, 8, 14, 2, 2), "0 1212, 0 2121"),
    # A pipe, and a datum that may not meet its own: an option is kept or broken as a whole.
    (stores(1, 2) + pipe() + datum() + apart(1, 3), (16, 0, 0, 14, 2, 2), "1 0001, 2 1110"),
    (stores(1, 2, 4) + pipe() + datum(0, 10, 1) + ACROSS + apart(1, 3), (9, 0, 0, 7, 2, 1),
     "7 0012"),
    (stores(2, 1, 4) + pipe() + datum(0, 10, 1) + ACROSS + apart(3, 1), (9, 0, 0, 7, 2, 1),
     "7 0012"),
)]
