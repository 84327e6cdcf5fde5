#!/usr/bin/env python3
"""The brute-force model (the package `model` beside this file) as a command.

    bruteforce.py answer [--letters RJTCDPBMAW]        cases in, one line for each out
    bruteforce.py list                                 a description in, its rows out
    bruteforce.py generate [--letters RJTCDPBMAW] DIR  write DIR/stdin and DIR/stdout
    bruteforce.py check [--letters RJTCDPBMAW] DIR     are they what would be written today?
    bruteforce.py kept DIR                             do those from before answer as they did?
"""

import argparse
import sys
from pathlib import Path

from model.cases.answers import LETTERS, answer_all
from model.cases.stored import GROUPS, generate
from model.checks.stored import check, kept
from model.common import text_of
from model.definitions.calls import listing


def letters_from(known):
    def parse(argument):
        if not set(argument) <= set(known):
            raise argparse.ArgumentTypeError(f"letters are some of {known}")
        return argument
    return parse


def arguments():
    parser = argparse.ArgumentParser(description="Brute-force reference for placements.")
    commands = parser.add_subparsers(dest="command", required=True)
    answering = commands.add_parser("answer", help="answer the cases on standard input")
    answering.add_argument("--letters", type=letters_from(LETTERS), default=LETTERS)
    commands.add_parser("list", help="list the rows of the description on standard input")
    stored = "".join(GROUPS)
    for name, words in (("generate", "write DIR/stdin and DIR/stdout"),
                        ("check", "compare them with what would be written today")):
        command = commands.add_parser(name, help=words)
        command.add_argument("--letters", type=letters_from(stored), default=stored)
        command.add_argument("directory", metavar="DIR", type=Path)
    command = commands.add_parser("kept", help="answer older cases that have no marks, as then")
    command.add_argument("directory", metavar="DIR", type=Path)
    return parser.parse_args()


def main():
    given = arguments()
    if given.command == "answer":
        sys.stdout.buffer.write(text_of(answer_all(sys.stdin.buffer.read(), given.letters)))
    elif given.command == "list":
        sys.stdout.buffer.write(text_of(listing(sys.stdin.buffer.read())))
    elif given.command == "generate":
        generate(given.letters, given.directory)
    elif given.command == "kept":
        kept(given.directory)
    else:
        check(given.letters, given.directory)


if __name__ == "__main__":
    main()
