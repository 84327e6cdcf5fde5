#!/bin/sh
# The programs where input or output is not as it should be: nothing there, closed, full, a folder, a read that fails, ten megabytes of random
# bytes; and where there is little stack.
# Each must end by itself (20 seconds are for a machine that is busy) and without a crash, with the answer or the error line that is written down here.
#
#   tests/surroundings.sh [FOLDER]        the programs are in FOLDER, or else each in out/ of its crate
set -eu
cd "$(dirname "$0")/.."
folder=${1:-}
work=target/surroundings
seconds=20
count=0

# built PROGRAM: where it is.
built() {
    if [ -n "$folder" ]; then
        echo "$folder/$1"
    else
        echo "crates/$1/out/$1"
    fi
}

for program in listoptions drawoptions labeltable callcases; do
    test -x "$(built "$program")" || { echo "surroundings: there is no $(built "$program"); cd crates/$program && rt run" >&2; exit 1; }
done
mkdir -p "$work"

# Runs a program with the standard input and output that the caller gives it; what it says on standard error is kept.
run() {
    status=0
    timeout "$seconds" "$(built "$1")" 2>"$work/err" || status=$?
}

# The same with so many kilobytes of stack.
run_with_stack() {
    status=0
    (ulimit -s "$1" && exec timeout "$seconds" "$(built "$2")") 2>"$work/err" || status=$?
}

fail() {
    echo "surroundings: $1" >&2
    exit 1
}

# settle TITLE ANSWER ERROR: the run ended by itself, the file of answers holds ANSWER and nothing else, and standard error is one
# line that begins with ERROR and goes on; or is empty, where ERROR is.
settle() {
    test "$status" -lt 124 || fail "$1: status $status (124 is out of time, from 128 on a crash)"
    printf '%s' "$2" | cmp -s - "$work/out" || fail "$1: another answer, in $work/out"
    if [ -z "$3" ]; then
        test ! -s "$work/err" || fail "$1: something on standard error, in $work/err"
    else
        test "$(wc -l <"$work/err")" -eq 1 || fail "$1: not one error line, in $work/err"
        grep -q "^$3." "$work/err" || fail "$1: another error line, in $work/err"
    fi
    count=$((count + 1))
}

# Ten megabytes of random bytes: alone, behind a whole description, behind whole cases, and cut into cases.
python3 - "$work" <<'PYTHON'
import itertools, random, sys
from pathlib import Path
work, examples = Path(sys.argv[1]), Path("examples")
noise = random.Random(20_010_911).randbytes(10_000_000)
most = 65_535
parts = [noise[at:at + most] for at in range(0, len(noise), most)]
(work / "noise").write_bytes(noise)
(work / "behind").write_bytes((examples / "interview.bin").read_bytes() + noise)
(work / "behind-cases").write_bytes((examples / "interview.cases").read_bytes() + noise)
turns = zip(itertools.cycle((b"R", b"M")), parts)
(work / "cases").write_bytes(b"".join(letter + len(part).to_bytes(2, "big") + part for letter, part in turns))

# As many rows as there can be: sixteen data of the highest storage cost on two clouds, of which the second has a rate of one more.
clouds = bytes.fromhex("01 00 FFFE 0000 0000 0000  01 00 FFFF 0000 0000 0000")
(work / "largest").write_bytes(clouds + bytes.fromhex("02 00 FFFF FFFF") * 16 + b"\0")
rows = sorted((digits.count("1"), digits) for digits in (f"{number:016b}" for number in range(65_536)))
costs = [6554 * 65_535 * (16 * 65_534 + dearer) for dearer in range(17)]
lines = [f"{costs[dearer]} {digits} {costs[dearer]} 0 0\n" for dearer, digits in rows]
(work / "largest-list").write_text("".join(lines) + "options 65536\n")
PYTHON
: >"$work/empty"

# A description that has no bytes is refused.
refused='refused 1 0
'
run listoptions </dev/null >"$work/out"
settle 'listoptions at the end of input' "$refused" ''
run listoptions <"$work/empty" >"$work/out"
settle 'listoptions on an empty file' "$refused" ''
# What cannot be read is not taken for an empty description.
run listoptions <&- >"$work/out"
settle 'listoptions on closed input' '' 'listoptions: standard input: '
run listoptions <"$work" >"$work/out"
settle 'listoptions on a folder' '' 'listoptions: standard input: '
# Of this shell's memory nothing is mapped at address 0, where the first read begins.
run listoptions </proc/self/mem >"$work/out"
settle 'listoptions on memory that is not there' '' 'listoptions: standard input: '

run drawoptions <"$work/empty" >"$work/out"
settle 'drawoptions on an empty file' "$refused" ''
run drawoptions <&- >"$work/out"
settle 'drawoptions on closed input' '' 'drawoptions: standard input: '

# Input without any case gives no line.
run callcases </dev/null >"$work/out"
settle 'callcases at the end of input' '' ''
run callcases <"$work/empty" >"$work/out"
settle 'callcases on an empty file' '' ''
run callcases <&- >"$work/out"
settle 'callcases on closed input' '' 'callcases: standard input: '
run callcases <"$work" >"$work/out"
settle 'callcases on a folder' '' 'callcases: standard input: '
run callcases </proc/self/mem >"$work/out"
settle 'callcases on memory that is not there' '' 'callcases: standard input: '

# The first bytes come, and the next read fails.
python3 tests/failing_reads.py ${folder:+"$folder"}

# What cannot be written is said on standard error, once.
: >"$work/out"
run listoptions <examples/interview.bin >&-
settle 'listoptions to closed output' '' 'listoptions: standard output: '
run listoptions <examples/interview.bin >/dev/full
settle 'listoptions to a full device' '' 'listoptions: standard output: '
run listoptions <"$work/empty" >&-
settle 'listoptions, refusing, to closed output' '' 'listoptions: standard output: '
run listoptions <"$work/empty" >/dev/full
settle 'listoptions, refusing, to a full device' '' 'listoptions: standard output: '
run listoptions <&- >&-
settle 'listoptions with all closed' '' 'listoptions: standard '

run drawoptions <examples/interview.bin >/dev/full
settle 'drawoptions to a full device' '' 'drawoptions: standard output: '

run callcases <examples/interview.cases >&-
settle 'callcases to closed output' '' 'callcases: standard output: '
run callcases <examples/interview.cases >/dev/full
settle 'callcases to a full device' '' 'callcases: standard output: '
run callcases <&- >&-
settle 'callcases with all closed' '' 'callcases: standard '

run labeltable </dev/null >&-
settle 'labeltable to closed output' '' 'labeltable: standard output: '
run labeltable </dev/null >/dev/full
settle 'labeltable to a full device' '' 'labeltable: standard output: '

# It looks at no input.
table=$(cat crates/labeltable/stdout)
run labeltable <&- >"$work/out"
settle 'labeltable on closed input' "$table
" ''

# The first bytes settle the answer: of the random ones, the first is no command and no letter.
run listoptions <"$work/noise" >"$work/out"
settle 'listoptions on random bytes' 'refused 2 0
' ''
run listoptions <"$work/behind" >"$work/out"
settle 'listoptions on random bytes behind a description' 'refused 3 65
' ''
run callcases <"$work/noise" >"$work/out"
settle 'callcases on random bytes' 'bad case
' ''
run callcases <"$work/behind-cases" >"$work/out"
answers=$(cat examples/interview.answers)
settle 'callcases on random bytes behind cases' "$answers
bad case
" ''
run callcases <"$work/cases" >"$work/out"
answers=$(python3 tests/bruteforce.py answer <"$work/cases")
settle 'callcases on random descriptions' "$answers
" ''

# The other programs need less stack than the longest list.
answers=$(cat examples/interview.answers)
run_with_stack 4096 callcases <examples/interview.cases >"$work/out"
settle 'callcases with 4096 kilobytes of stack' "$answers
" ''
list=$(cat examples/interview.expected)
run_with_stack 4096 drawoptions <examples/interview.bin >"$work/out"
settle 'drawoptions with 4096 kilobytes of stack' "$list
" ''
run_with_stack 4096 labeltable </dev/null >"$work/out"
settle 'labeltable with 4096 kilobytes of stack' "$table
" ''

# The longest list is printed whole where the stack is small, and where it is as usual.
list=$(cat "$work/largest-list")
for kilobytes in 4096 8192; do
    run_with_stack "$kilobytes" listoptions <"$work/largest" >"$work/out"
    settle "listoptions with $kilobytes kilobytes of stack" "$list
" ''
done

echo "surroundings: $count runs ended as written down"
