"""Descriptions with marks and their rows, written down by hand, for Census and Draw."""

import itertools

from model.cases.descriptions import GUARDED, M, M_APART, SECOND, STEPS, Known, pipe
from model.cases.labels import BOTH, MARKS, highest_label, marked, relabelled
from model.cases.making import STOP, apart, cloud, datum, pin, reads, service, writes
from model.definitions.description import EMBARGO, HIGHEST_LABEL, SOURCE


def marked_stores(*labelled):
    """Clouds that charge for storage alone, each with its label and its rate."""
    return b"".join(itertools.starmap(cloud, labelled))


def cleared_pipe(label, months=1):
    """A pipe of one gigabyte whose services may read everything and stand anywhere."""
    return pipe(datum(label, 10, months), clearance=HIGHEST_LABEL)


def gigabyte(label):
    return datum(label, 10, 1)


NOWHERE, ONE_OF_FOUR, ALL_OF_EIGHT = (0,) * 6, (4, 2, 1, 0, 1, 1), (8, 0, 0, 0, 8, 6)
# Three clouds of which the last covers the two others, and these not each other.
TWO_SIDES = marked_stores((EMBARGO, 1), (SOURCE, 2), (BOTH, 4))
FOUR_SIDES = marked_stores((0, 1), (EMBARGO, 2), (SOURCE, 4), (BOTH, 8))
# M with its last file, and cloud 0, marked.
M_SOURCE = M[:1] + bytes([SOURCE]) + M[2:47] + bytes([SOURCE]) + M[48:]


def one_mark(mark):
    """Descriptions in which only clouds with this mark, or these, will do."""
    high = datum(mark) + service(0, mark)
    yield from (
        (cloud(0) + cloud(mark) + high + writes(1, 0), (2, 0, 1, 0, 1, 1), "0 11"),
        (cloud(0) + cloud(mark) + high + reads(1, 0), (2, 1, 0, 0, 1, 1), "0 11"),
        (cloud(15) + cloud(mark) + high + writes(1, 0) + reads(1, 0), (2, 1, 0, 0, 1, 1), "0 11"),
        (cloud(15) + cloud(mark) + high + reads(1, 0) + pin(1, 0), (1, 1, 0, 0, 0, 0), ""),
        (cloud(15) + cloud(mark) + high + writes(1, 0) + pin(1, 0), (1, 0, 1, 0, 0, 0), ""),
        (marked_stores((mark, 1), (0, 2)) + gigabyte(mark), (1, 0, 0, 0, 1, 1), "1 0"),
        (marked_stores((15, 1), (mark, 2)) + gigabyte(mark), (1, 0, 0, 0, 1, 1), "2 1"),
        (cloud(15) + datum(mark), NOWHERE, ""),
        (cloud(mark) + cloud(1) + datum(mark | 1), NOWHERE, ""),
        (cloud(mark) + cloud(15) + datum(mark) + pin(0, 1), NOWHERE, ""),
        (marked_stores((mark, 1), (15, 3)) + cleared_pipe(mark), ONE_OF_FOUR, "1 000"),
        (marked_stores((mark, 1), (mark, 3)) + cleared_pipe(mark), ALL_OF_EIGHT,
         "1 000, 3 111, 4 001, 4 100, 5 010, 7 101"),
        (cloud(0, cpu=1) + cloud(mark, cpu=2) + cloud(mark, cpu=4) + service(mark, mark, 1)
         + service(0, 0, 1), (6, 0, 0, 0, 6, 6),
         "3 10 0 0 3, 4 11 0 0 4, 5 20 0 0 5, 6 12 0 0 6, 6 21 0 0 6, 8 22 0 0 8"),
    )


def several_marks():
    """Clouds of which neither covers the other, and those that cover both."""
    yield from (
        (cloud(EMBARGO) + cloud(SOURCE) + datum(BOTH), NOWHERE, ""),
        (cloud(15 | EMBARGO) + cloud(15 | SOURCE) + service(BOTH, 63), NOWHERE, ""),
        (TWO_SIDES + gigabyte(BOTH), (1, 0, 0, 0, 1, 1), "4 2"),
        (TWO_SIDES + gigabyte(EMBARGO) + gigabyte(SOURCE) + gigabyte(0), (12, 0, 0, 0, 12, 12),
         "4 010, 5 011, 6 020, 7 012, 7 021, 7 210, 8 211, 9 022, 9 220, 10 212, 10 221, 12 222"),
        (marked_stores((1, 1), (EMBARGO, 2), (1 | EMBARGO, 4)) + gigabyte(1) + gigabyte(EMBARGO)
         + gigabyte(1 | EMBARGO), (4, 0, 0, 0, 4, 4), "7 012, 9 022, 10 212, 12 222"),
        (TWO_SIDES + gigabyte(EMBARGO) + gigabyte(SOURCE) + apart(0, 1), (4, 0, 0, 1, 3, 3),
         "3 01, 5 02, 6 21"),
        (marked_stores((EMBARGO, 1), (SOURCE, 3)) + cleared_pipe(EMBARGO), ONE_OF_FOUR, "1 000"),
        (marked_stores((EMBARGO, 1), (SOURCE, 3)) + cleared_pipe(SOURCE), ONE_OF_FOUR, "3 111"),
        (marked_stores((EMBARGO, 1), (BOTH, 3)) + cleared_pipe(EMBARGO), ALL_OF_EIGHT,
         "1 000, 3 111, 4 001, 4 100, 5 010, 7 101"),
        (marked_stores((EMBARGO, 1), (BOTH, 3)) + cleared_pipe(BOTH), ONE_OF_FOUR, "3 111"),
        # Nobody that reads or writes the datum may be on cloud 1.
        (TWO_SIDES + cleared_pipe(EMBARGO), (18, 6, 4, 0, 8, 6),
         "1 000, 4 222, 5 002, 5 200, 6 020, 9 202"),
        (TWO_SIDES + cleared_pipe(EMBARGO, 0), (18, 6, 4, 0, 8, 6),
         "0 000, 0 222, 1 022, 1 220, 2 020, 8 202"),
        (TWO_SIDES + cleared_pipe(SOURCE), (18, 6, 4, 0, 8, 6),
         "2 111, 4 222, 6 112, 6 211, 8 121, 10 212"),
        (FOUR_SIDES + gigabyte(EMBARGO) + gigabyte(SOURCE), (4, 0, 0, 0, 4, 4),
         "6 12, 10 13, 12 32, 16 33"),
        # No copy may be on cloud 0 or 2.
        (FOUR_SIDES + gigabyte(EMBARGO) + service(0, 63) + reads(1, 0), (8, 4, 0, 0, 4, 4),
         "2 11, 8 33, 10 13, 10 31"),
        (FOUR_SIDES + gigabyte(EMBARGO) + service(0, 63) + writes(1, 0), (8, 0, 4, 0, 4, 4),
         "2 11, 8 33, 10 13, 10 31"),
        (M_SOURCE[:-1], (8, 4, 2, 0, 2, 1), "2970 11000 1370 100 1500"),
        (cloud(63) * 2 + datum(63) + service(63, 63) + reads(1, 0), (4, 0, 0, 0, 4, 4),
         "0 00, 0 01, 0 10, 0 11"),
    )


LABELLED = [Known(begin + STOP, counts, found) for begin, counts, found in (
    *one_mark(EMBARGO), *one_mark(SOURCE), *one_mark(BOTH), *several_marks())]


# Two pipes from cloud to cloud; the datum of the second may not be on cloud 0.
TWO_PIPES = (marked_stores((0, 1), (1, 3), (1, 2)) + pipe(clearance=1) + pin(0, 0) + pin(2, 1)
             + datum(1, 10, 2) + service(0, 1) * 2 + writes(5, 3) + reads(4, 3) + STOP)


def listed_alike():
    """Texts with marks, each with one without that must have the same rows.

    All labels get the same marks; or a mark takes the place of level 1, and both that of 2.
    """
    plain = (M, SECOND, M_APART, GUARDED, STEPS + STOP, TWO_PIPES)
    for text, more in itertools.product(plain, MARKS[1:]):
        yield marked(text, more), text
        if more != BOTH or highest_label(text) == 1:
            yield relabelled(text, {0: 0, 1: more, 2: BOTH}.get), text
