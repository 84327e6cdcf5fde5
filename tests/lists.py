#!/usr/bin/env python3
"""Compares four ways to a list, on every description among the stored cases.

The program listoptions lists in one walk; drawoptions by a chain of draws; callcases
draws from a cursor that it is given; the brute-force model knows none of them.  Both
listoptions and drawoptions must print what the model says.  From the start and from each
row a draw of callcases must answer the next row of the list, and after the last row
`finished`.  Each program is the one in out/ of its crate.

    lists.py

A long list is not drawn whole, since each draw walks over all candidates.  If there are more
than MOST_DRAWS rows, drawoptions is not asked, and draws of callcases begin at that many of
them, from the first to the last.  The brute-force model lists descriptions of up to QUICK
candidates.  Of longer lists it judges and charges the rows that are drawn; of all other rows
the amounts must make up the cost.
"""

import re
import subprocess
import sys

from model.cases.answers import row_line
from model.cases.descriptions import known_row
from model.cases.making import cases_in, cursor_bytes, with_length
from model.common import ROOT, require, stored_bytes
from model.definitions.calls import listing, read
from model.definitions.description import Refused
from model.definitions.options import row_at
from model.definitions.placements import verdict
from model.definitions.rules import count_candidates

CRATES = ROOT / "crates"
NUMBER = r"(0|[1-9][0-9]*)"
ROW = re.compile(rf"{NUMBER} ([0-7]+) {NUMBER} {NUMBER} {NUMBER}")
MOST_DRAWS = 100
QUICK = 300


def stored_texts():
    """Each description once: of the cases, and the examples."""
    stored = stored_bytes(ROOT / "crates" / "callcases" / "stdin")
    texts = dict.fromkeys(case.text() for case in cases_in(stored))
    for name in ("interview", "second", "apart"):
        texts[stored_bytes(ROOT / "examples" / f"{name}.bin")] = None
    return list(texts)


def printed(program, content):
    done = subprocess.run([CRATES / program / "out" / program], input=content, capture_output=True, check=True)
    require(not done.stderr, f"{program}: {done.stderr.decode(errors='replace')}")
    return done.stdout.decode("ascii").splitlines()


def is_row(line, blocks):
    """The line is that of a row of so many blocks, and its amounts make up its cost."""
    shown = ROW.fullmatch(line)
    if shown is None:
        return False
    price, clouds, *amounts = shown.groups()
    return len(clouds) == blocks and int(price) == sum(map(int, amounts))


def row_in(text, line):
    """The row that a line shows: a secure placement, with what the model charges for it."""
    described, row = read(text), known_row(*line.split())
    secure = verdict(described, row.placement) is None
    require(secure and row == row_at(described, row.placement), f"{text.hex()}: no row: {line}")
    return row


def check_lines(text, lines):
    """What was printed is what the brute-force model says, as far as it is asked.

    Returns the lines of the rows, or None if the description is refused.
    """
    try:
        described = read(text)
    except Refused as refusal:
        require(lines == [str(refusal)], f"{text.hex()}: {lines}, and not {refusal}")
        return None
    if count_candidates(described) <= QUICK:
        require(lines == listing(text), f"{text.hex()}: another list")
    require(lines[-1] == f"options {len(lines) - 1}", f"{text.hex()}: {lines[-1]}")
    for line in lines[:-1]:
        require(is_row(line, len(described.blocks)), f"{text.hex()}: no row: {line}")
    return lines[:-1]


def draws(text, found):
    """Cases of draws, each with its answer: from the start, and from rows along the list."""
    step = max(1, len(found) // MOST_DRAWS)
    for at in sorted({*range(0, len(found), step), len(found)}):
        cursor = cursor_bytes(0, 0, bytes(16))
        if at > 0:
            cursor = cursor_bytes(1, *row_in(text, found[at - 1]).cursor())
        row = row_in(text, found[at]) if at < len(found) else None
        yield with_length(b"D", text) + cursor, row_line(row)


def main():
    texts = stored_texts()
    cases, expected, lists, chains = [], [], 0, 0
    for text in texts:
        lines = printed("listoptions", text)
        found = check_lines(text, lines)
        if len(lines) <= MOST_DRAWS + 1:
            chains += 1
            require(printed("drawoptions", text) == lines, f"{text.hex()}: another chain of draws")
        if found is not None:
            lists += 1
            for case, answer in draws(text, found):
                cases.append(case)
                expected.append(answer)
    answers = printed("callcases", b"".join(cases))
    require(len(answers) == len(expected), "callcases: not one line for each case")
    for case, answer, due in zip(cases, answers, expected):
        require(answer == due, f"{case.hex()}: {answer}, and not {due}")
    print(f"{len(texts)} descriptions, {lists} lists, {chains} times the same by a chain of draws,"
          f" {len(cases)} draws along them: the same")


if __name__ == "__main__":
    sys.exit(main())
