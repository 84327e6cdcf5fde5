"""What is known by hand of the examples, the stored files of these, and what is no case."""

import re

from model.cases.answers import LETTERS, answer_all, untouched
from model.cases.descriptions import M, M_APART, SECOND
from model.cases.known_pictures import INTERVIEW_PICTURE
from model.cases.making import (STOP, bill_case, cloud, cursor_bytes, datum, draw_case, judge_case,
                                masks_case, picture_case, placed, read_case, size_case,
                                standing_case, transfers_case, with_length)
from model.common import ROOT, refusal_of, require, stored_bytes, text_of
from model.definitions.calls import (census, draw, judge, listing, masks, picture, picture_size,
                                     read, rows)
from model.definitions.costs import gigabytes
from model.definitions.description import decode
from model.definitions.options import digits, option_of
from model.definitions.picture import picture_of
from model.definitions.rules import count_candidates


def check_interview():
    """The eleven cases of the interview table."""
    def place(digits_of_blocks):
        return placed(*(int(digit) for digit in digits_of_blocks))

    require(listing(M) == ["2820 11111 1320 0 1500", "2850 11110 1330 20 1500",
                           "2970 11000 1370 100 1500", "3000 11001 1380 120 1500",
                           "3120 11011 1420 200 1500", "3150 11010 1430 220 1500",
                           "options 6"], "interview 1: the rows of M")
    require(census(M) == (16, 8, 0, 0, 8, 6), "interview 2: the census of M")
    option = option_of(read(M))
    require(option(place("11000")) == option(place("11100")),
            "interview 3: 11000 and 11100 are one option")
    require(refusal_of(judge, M, place("10000")) == (14, 0), "interview 4: 10000")
    require(refusal_of(read, b"") == (1, 0), "interview 5: empty input")
    require(refusal_of(read, STOP) == (8, 1), "interview 6: 00 alone")
    nowhere = cloud(0) + datum(1) + STOP
    require(census(nowhere).candidates == 0 and draw(nowhere, None) is None,
            "interview 7: no candidates, finished first")
    require([gigabytes(size) for size in (0, 1, 10, 11)] == [0, 0, 1, 1], "interview 8: sizes")
    for number, clouds, blocks, count in ((9, 2, 16, 65536), (10, 3, 10, 59049)):
        text = cloud() * clouds + datum() * blocks + STOP
        require(count_candidates(read(text)) == count, f"interview {number}: candidates")
    text = cloud() * 3 + datum() * 11 + STOP
    require(count_candidates(decode(text)) == 177147 and refusal_of(read, text) == (12, 0),
            "interview 11: too many candidates")


def check_apart():
    """M with its first and last file apart."""
    require(listing(M_APART) == ["2970 11000 1370 100 1500", "options 1"], "apart: the rows")
    require(census(M_APART) == (16, 8, 0, 6, 2, 1), "apart: the census")
    require(refusal_of(judge, M_APART, placed(1, 1, 1, 1, 1)) == (17, 0), "apart: 11111")


def check_second():
    """The second example, whose first two rows have copies on cloud 1: one, and two."""
    require(listing(SECOND) == ["6350 1111110011 3950 50 2350", "6700 1111111011 4000 100 2600",
                                "6800 1111111111 4200 0 2600", "options 3"], "second: the rows")


def check_halves():
    """The sizes of the request for rounding to the nearest."""
    require([gigabytes(size) for size in (4, 5, 6, 15, 25, 35)] == [0, 0, 1, 2, 2, 4], "halves")


def check_picture():
    """The picture of the interview's row 11000, in a buffer with one byte more."""
    buffer = bytearray(untouched(len(INTERVIEW_PICTURE) + 1))
    require(picture(M, placed(1, 1), buffer) == picture_size(M, placed(1, 1)) == 95,
            "picture: the bytes of 11000")
    require(buffer == INTERVIEW_PICTURE + untouched(1), "picture: 11000")


def check_interview_masks():
    """Of M's five blocks the first may use cloud 1 alone, and each other one both."""
    for text in (M, M_APART):
        require(answer_all(masks_case(text).content, "M") == ["masks 0203030303" + 22 * "0"],
                "masks of the interview")


def check_interview_bills():
    """Two placements of M that are rows, one that costs as much as its row, and one refused."""
    for clouds, line in (((1, 1, 1, 1, 1), "bill 2820 1320 0 1500"),
                         ((1, 1, 0, 0, 0), "bill 2970 1370 100 1500"),
                         ((1, 1, 1, 0, 0), "bill 2970 1370 100 1500"),
                         ((1, 0, 0, 0, 0), "refused 14 0")):
        case = bill_case(M, placed(*clouds))
        require(answer_all(case.content, "A") == [line], f"bill of the interview: {clouds}")


def check_interview_standings():
    """Datum 0 of M may use cloud 1 alone, and positions from 5 on have no block."""
    for position, to, reason in ((0, 0, 2), (0, 1, 0), (0, 2, 1), (5, 0, 0), (5, 1, 4),
                                 (255, 9, 4)):
        lines = answer_all(standing_case(M, position, to).content, "W")
        require(lines == [f"standing {reason}"], f"standing of the interview: {position}, {to}")


def check_bad_cases():
    """What is no case ends the answers."""
    whole = read_case(M).content
    for content, lines in ((b"", []), (whole, ["accepted 2 5 4"]),
                           (whole + b"X" + whole, ["accepted 2 5 4", "bad case"]),
                           (b"C" + whole[1:], ["bad case"]),
                           (draw_case(M, None).content, ["bad case"]),
                           (transfers_case(M, placed(), 5).content[:-1], ["bad case"]),
                           (judge_case(M, placed()).content[:-1], ["bad case"])):
        require(answer_all(content, "RJT") == lines, f"bad case: {content.hex()}")
    for case in (read_case(M), draw_case(M, None), picture_case(M, placed(), 5),
                 size_case(M, placed()), masks_case(M), bill_case(M, placed()),
                 standing_case(M, 0, 0)):
        for length in range(1, len(case.content)):
            cut = case.content[:length]
            require(answer_all(cut, LETTERS) == ["bad case"], f"{case.letter()} cut at {length}")
    for make in (transfers_case, picture_case):            # a buffer that is too long to lend
        for text in (M, STOP):
            for room, is_case in ((2048, True), (2049, False), (65535, False)):
                lines = answer_all(make(text, placed(), room).content, LETTERS)
                require((lines != ["bad case"]) == is_case, f"a buffer of {room} bytes")
    for text in (M, STOP):                                 # a cursor is the start or a row
        for flag in (2, 128, 255):
            content = with_length(b"D", text) + cursor_bytes(flag, 0, placed())
            require(answer_all(content, LETTERS) == ["bad case"], f"cursor with flag {flag}")


def check_examples():
    """The stored examples: their bytes and how these are shown, rows, clouds, a picture."""
    examples = ROOT / "examples"
    for name, text in (("interview", M), ("second", SECOND), ("apart", M_APART)):
        require(stored_bytes(examples / f"{name}.bin") == text, f"examples/{name}.bin differs")
        require(shown_bytes(examples / f"{name}.txt") == text,
                f"examples/{name}.txt does not show the bytes of {name}.bin")
        require(stored_bytes(examples / f"{name}.expected") == text_of(listing(text)),
                f"examples/{name}.expected is not the list of {name}.bin")
        require(stored_bytes(examples / f"{name}.clouds") == text_of(choices(text)),
                f"examples/{name}.clouds has not the clouds of {name}.bin")
    for name, text, placement in (("interview", M, placed(1, 1)),
                                  ("second", SECOND, rows(SECOND)[0].placement),
                                  ("apart", M_APART, rows(M_APART)[0].placement)):
        drawn = picture_of(read(text), placement).encode("ascii")
        require(stored_bytes(examples / f"{name}.dot") == drawn,
                f"examples/{name}.dot is not the picture of {digits(placement)}")


def choices(text):
    """A line for each block: its number, and the clouds that it may use, a dot for each other."""
    clouds, blocks = len(read(text).clouds), len(read(text).blocks)
    return [f"{b} " + "".join(str(k) if byte >> k & 1 else "." for k in range(clouds))
            for b, byte in enumerate(masks(text)[:blocks])]


def shown_bytes(path):
    """The bytes in a listing, each line of which begins with their offset."""
    shown = b""
    for line in stored_bytes(path).decode("ascii").splitlines():
        found = re.match(r" *(\d+)  ([0-9A-F]{2}(?: [0-9A-F]+)*)(?:  |$)", line)
        if found:
            require(int(found[1]) == len(shown), f"{path}: offset {found[1]}")
            shown += bytes.fromhex(found[2])
    return shown
