#!/bin/sh
# Pictures, as an example program prints them: the stored ones, refusals, arguments that it does not take. Graphviz, if it is there, must
# draw the picture of every row of the examples.
#
#   tests/pictures.sh [PROGRAM]        the program is PROGRAM, or else target/list, which tests/library.sh builds
set -eu
cd "$(dirname "$0")/.."
list=${1:-target/list}
work=target/pictures
usage='list: the only argument is -c or a placement: 1 to 16 digits from 0 to 7, the cloud of each block'

test -x "$list" || { echo "pictures: there is no $list; tests/library.sh, or tests/library_rust.sh" >&2; exit 1; }
mkdir -p "$work"

fail() {
    echo "pictures: $1" >&2
    exit 1
}

# pictured NAME PLACEMENT: the picture of that placement of examples/NAME.bin is examples/NAME.dot.
pictured() {
    "$list" "$2" <"examples/$1.bin" | cmp - "examples/$1.dot"
}

# refused NAME PLACEMENT NUMBER PLACE
refused() {
    test "$("$list" "$2" <"examples/$1.bin")" = "refused $3 $4" || fail "$1 at $2 is not refused with $3, $4"
}

# bad ARGUMENT..: the program says what it takes, and nothing else.
bad() {
    status=0
    "$list" "$@" <examples/interview.bin >"$work/out" 2>"$work/err" || status=$?
    test "$status" -eq 1 || fail "status $status with $*"
    test ! -s "$work/out" || fail "something on standard output with $*, in $work/out"
    test "$(cat "$work/err")" = "$usage" || fail "another message with $*, in $work/err"
}

# drawn NAME PLACEMENT: Graphviz draws that picture without a word, with an edge for each arrow of the text.
drawn() {
    "$list" "$2" <"examples/$1.bin" >"$work/picture"
    dot -Tsvg "$work/picture" >"$work/drawing" 2>"$work/err" || fail "Graphviz does not take $1 at $2: see $work/err"
    test ! -s "$work/err" || fail "Graphviz complains of $1 at $2: see $work/err"
    arrows=$(grep -o -e '->' "$work/picture" | wc -l)
    test "$(grep -c 'class="edge"' "$work/drawing")" -eq "$arrows" || fail "$1 at $2 is not drawn with $arrows edges"
}

pictured interview 11000
pictured second 1111110011
pictured apart 11000
# Zeros fill what is short.
pictured interview 11
pictured interview 1100000000000000

refused interview 01111 13 0
refused interview 17 13 1
refused interview 111111 13 5
refused interview 10000 14 0
refused second 0111110011 15 0
refused apart 11111 17 0
test "$("$list" 11000 </dev/null)" = 'refused 1 0' || fail 'an empty description is not refused'

bad ''
bad 11008
bad 9
bad 1100x
bad ' 11000'
bad -1
bad -x
bad -c 11000
bad "$(printf '\377')"
bad 11000000000000000
bad 11000 11000

if ! command -v dot >/dev/null; then
    echo "pictures: ok from $list; Graphviz (dot) is not there, so its check is left out"
    exit
fi
rows=0
options=0
for name in interview second apart; do
    for placement in $(awk '$1 != "options" { print $2 }' "examples/$name.expected"); do
        drawn "$name" "$placement"
        rows=$((rows + 1))
    done
    options=$((options + $(awk '$1 == "options" { print $2 }' "examples/$name.expected")))
done
test "$rows" -eq "$options" || fail "only $rows rows of $options were drawn"
echo "pictures: ok from $list; Graphviz draws all $rows rows"
