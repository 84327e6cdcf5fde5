"""What all parts need: the folder of the project, stored files, and how a check fails."""

import itertools
import sys
from pathlib import Path

from model.definitions.description import Refused

ROOT = Path(__file__).resolve().parents[2]


def require(holds, complaint):
    if not holds:
        sys.exit(f"bruteforce: {complaint}")


def refusal_of(call, *arguments):
    try:
        call(*arguments)
    except Refused as refusal:
        return refusal.number, refusal.place
    return None


def text_of(lines):
    return "".join(line + "\n" for line in lines).encode("ascii")


def stored_bytes(path):
    require(path.is_file(), f"there is no {path}")
    return path.read_bytes()


def check_same(path, stored, made):
    if stored == made:
        return
    pairs = itertools.zip_longest(stored, made)
    at = next(i for i, (one, other) in enumerate(pairs) if one != other)
    line = made[:at].count(b"\n") + 1
    where = f"line {line}" if path.name == "stdout" else f"byte {at}"
    require(False, f"{path} is not what would be written today, first at {where}")
