#!/usr/bin/env python3
"""The programs on standard input of which the first bytes come and the next read fails.

    failing_reads.py [FOLDER]        the programs are in FOLDER, or else each in out/ of its crate

The bytes lie at the end of a mapping after which nothing is mapped, and the program
reads them through /proc/self/mem: there the kernel gives what is mapped, and then EIO.
They are those of an example up to every place where it can be cut, the ends of a
description and of a case among them.  What is read so is no answer: the program must say
so in one line on standard error, write nothing else and end without a signal.
"""

import ctypes
import errno
import mmap
import os
import subprocess
import sys
from pathlib import Path

ROOT = Path(__file__).resolve().parent.parent
EXAMPLES = ROOT / "examples"
INPUTS = {"listoptions": "interview.bin", "drawoptions": "interview.bin",
          "callcases": "interview.cases"}
SECONDS = 20
# A mapping that Python makes later goes to the upper end of a gap, so a wide one keeps its lower end.
GAP_PAGES = 256
NO_MEMORY = ctypes.c_void_p(-1).value


def require(holds, why):
    if not holds:
        sys.exit(f"failing reads: {why}")


def end_of_memory(size):
    """The address after new memory for so many bytes or more, where nothing is mapped.

    It is never given back, so it is made by the C library and is no object of Python's.
    """
    library = ctypes.CDLL(None, use_errno=True)
    library.mmap.restype = ctypes.c_void_p
    where = (ctypes.c_void_p, ctypes.c_size_t)
    library.mmap.argtypes = where + 3 * (ctypes.c_int,) + (ctypes.c_long,)
    library.munmap.argtypes = where
    room, gap = (size // mmap.PAGESIZE + 1) * mmap.PAGESIZE, GAP_PAGES * mmap.PAGESIZE
    access, kind = mmap.PROT_READ | mmap.PROT_WRITE, mmap.MAP_PRIVATE | mmap.MAP_ANONYMOUS
    start = library.mmap(None, room + gap, access, kind, -1, 0)
    require(start != NO_MEMORY, f"mmap: {os.strerror(ctypes.get_errno())}")
    require(library.munmap(start + room, gap) == 0, f"munmap: {os.strerror(ctypes.get_errno())}")
    return start + room


def require_failing(source, start, front):
    """The input is as it should be: the bytes come, and then a read fails."""
    os.lseek(source, start, os.SEEK_SET)
    came = os.read(source, len(front) + 1) if front else b""
    require(came == front, "other bytes come")
    try:
        os.read(source, 1)
    except OSError as error:
        require(error.errno == errno.EIO, f"a read fails otherwise: {error}")
    else:
        require(False, "no read fails")
    os.lseek(source, start, os.SEEK_SET)


def built(program):
    if len(sys.argv) > 1:
        return Path(sys.argv[1]).resolve() / program
    return ROOT / "crates" / program / "out" / program


def check(program, source, title):
    done = subprocess.run([program], stdin=source, capture_output=True, timeout=SECONDS)
    error = f"{program.name}: standard input: {os.strerror(errno.EIO)}\n".encode("ascii")
    require(done.returncode >= 0, f"{title}: ended by signal {-done.returncode}")
    require(not done.stdout, f"{title}: wrote {done.stdout[:100]}")
    require(done.stderr == error, f"{title}: the error line is {done.stderr[:100]}")


def main():
    runs = 0
    source = os.open("/proc/self/mem", os.O_RDONLY)
    for program, name in INPUTS.items():
        content = (EXAMPLES / name).read_bytes()
        end = end_of_memory(len(content))
        for cut in range(len(content) + 1):
            start = end - cut
            ctypes.memmove(start, content[:cut], cut)
            require_failing(source, start, content[:cut])
            check(built(program), source, f"{program} after {cut} bytes of {name}")
            runs += 1
    print(f"failing reads: {runs} runs ended with an error line and no answer")


if __name__ == "__main__":
    main()
