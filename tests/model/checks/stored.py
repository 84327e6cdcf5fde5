"""The check of the stored cases as a whole, and that of cases from before labels had marks."""

from collections import Counter

from model.cases.answers import LETTERS, answer_all
from model.cases.labels import highest_label
from model.cases.making import cases_in
from model.cases.stored import answered_cases, contents_of
from model.checks.bill import check_bills
from model.checks.copies import check_copies
from model.checks.examples import (check_apart, check_bad_cases, check_examples, check_halves,
                                   check_interview, check_interview_bills, check_interview_masks,
                                   check_interview_standings, check_picture, check_second)
from model.checks.labels import check_labels
from model.checks.masks import check_masks
from model.checks.options import check_options, check_sizes
from model.checks.picture import check_picture_sizes, check_pictures
from model.checks.standing import check_reasons, check_standings
from model.common import check_same, require, stored_bytes, text_of
from model.definitions.description import HIGHEST_LEVEL

NUMBERS_DUE = {"R": range(1, 13), "J": (*range(1, 16), 17), "T": range(1, 18),
               "C": range(1, 13), "D": range(1, 13), "P": range(1, 18),
               "B": (*range(1, 16), 17), "M": range(1, 13), "A": (*range(1, 16), 17),
               "W": range(1, 13)}


def kind_of(line):
    """What a line is counted as: its first word, and the number of a refusal."""
    words = line.split()
    return (words[0], int(words[1])) if words[0] == "refused" else (words[0], 0)


def summary(letter, lines):
    count = Counter(kind_of(line) for line in lines)
    parts = [f"{word} {number}: {count[word, number]}" if number else f"{word}: {count[word, 0]}"
             for word, number in sorted(count)]
    return f"{letter}: {len(lines)} cases; " + ", ".join(parts)


def check_numbers(letter, lines):
    seen = {number for _, number in map(kind_of, lines)}
    missing = sorted(set(NUMBERS_DUE[letter]) - seen)
    require(not missing, f"no case of {letter} is refused with {missing}")


# What is looked for in the answers if all of these letters are checked.
CHECKS = (("D", check_sizes), ("D", check_copies), ("P", check_pictures),
          ("PB", check_picture_sizes), ("M", check_masks), ("A", check_bills),
          ("W", check_standings), ("J", check_reasons))


def check_known():
    """What is known by hand, before any stored case is looked at."""
    for part in (check_interview, check_apart, check_second, check_halves, check_picture,
                 check_interview_masks, check_interview_bills, check_interview_standings,
                 check_bad_cases, check_examples):
        part()


def check(letters, directory):
    check_known()
    cases, lines = answered_cases(letters)
    for name, made in (("stdin", contents_of(cases)), ("stdout", text_of(lines))):
        check_same(directory / name, stored_bytes(directory / name), made)
    check_options(cases)
    for needed, part in CHECKS:
        if set(needed) <= set(letters):
            part(cases, lines)
    for letter in letters:
        answered = [(case, line) for case, line in zip(cases, lines) if case.letter() == letter]
        own = [line for _, line in answered]
        check_numbers(letter, own)
        print(summary(letter, own))
        check_labels(letter, answered)


def kept(directory):
    """Cases stored before labels had marks: without a label above 15 they answer as before."""
    cases = list(cases_in(stored_bytes(directory / "stdin")))
    stored = stored_bytes(directory / "stdout").decode("ascii").splitlines()
    require(len(stored) == len(cases), f"{directory}: not one line for each case")
    without = changed = 0
    for case, before, today in zip(cases, stored, answer_all(contents_of(cases), LETTERS)):
        if highest_label(case.text()) <= HIGHEST_LEVEL:
            require(before == today, f"{before}, and today {today}: {case.content.hex()}")
            without += 1
        else:
            changed += before != today
    require(without > 0, f"{directory}: no case without a label above {HIGHEST_LEVEL}")
    print(f"{len(cases)} cases, {without} without a label above {HIGHEST_LEVEL}: all the same; "
          f"of the {len(cases) - without} others {changed} changed")
