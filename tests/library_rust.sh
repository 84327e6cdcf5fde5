#!/bin/sh
# The library and its Rust wrapper: the reference against the stored cases, the wrapper's tests and examples, the example programs, and a
# short comparison of the library with the reference.
#
#   tests/library_rust.sh
#
# The library is target/staticlib/libpanel.a; the environment variable PANEL_LIB_DIR names another folder.
set -eu
cd "$(dirname "$0")/.."

fail() {
    echo "library_rust: $1" >&2
    exit 1
}

folder=${PANEL_LIB_DIR:-target/staticlib}
test -f "$folder/libpanel.a" || fail "there is no $folder/libpanel.a; ./archive.sh"
PANEL_LIB_DIR=$(cd "$folder" && pwd)
export PANEL_LIB_DIR

# build COMMAND FOLDER [MORE]: what cargo makes stays below target/, and nothing is fetched.
build() {
    command=$1
    folder=$2
    shift 2
    cargo "$command" --quiet --offline --manifest-path "$folder/Cargo.toml" --target-dir target/rust "$@"
}

# A relative path would name another folder when the linker runs: the build must refuse it and say why.
if said=$(PANEL_LIB_DIR=target/staticlib build check bindings/rust 2>&1); then
    fail 'the build takes a relative PANEL_LIB_DIR'
fi
case $said in
*'PANEL_LIB_DIR must be an absolute path, and target/staticlib is relative'*) ;;
*) fail "the build does not say that PANEL_LIB_DIR must be absolute: $said" ;;
esac

build test tests/reference --release
build test bindings/rust
build build bindings/rust --examples
list=target/rust/debug/examples/list
for name in interview second apart; do
    "$list" <"examples/$name.bin" | cmp - "examples/$name.expected"
    "$list" -c <"examples/$name.bin" | cmp - "examples/$name.clouds"
done
test "$(printf '\000' | "$list")" = 'refused 8 1'
test "$(printf '\000' | "$list" -c)" = 'refused 8 1'
tests/pictures.sh "$list"

# The program that builds the interview by names has its options with its names; the costs are those of the stored list.
by_names=target/rust/debug/examples/build
"$by_names" | cmp - bindings/rust/examples/build.expected
"$by_names" | sed '/^refused/d; s/ .*//' >target/rust/costs
sed '/^options/d; s/ .*//' examples/interview.expected | cmp - target/rust/costs

# Rust and C have the same sentences, for the seventeen refusals and for the five answers of Standing.
messages=target/rust/debug/examples/messages
cat >target/rust/messages.c <<'C'
#include <stdio.h>
#include "panel.h"
int main(int arguments, char **argument)
{
    (void)argument;
    for (unsigned number = 1; arguments == 1 && number <= 17; number++)
        puts(panel_message(number));
    for (unsigned reason = 0; arguments == 2 && reason <= 4; reason++)
        puts(panel_reason_message(reason));
    return 0;
}
C
cc -Iinclude -o target/rust/messages target/rust/messages.c "$PANEL_LIB_DIR/libpanel.a"
"$messages" >target/rust/messages.txt
target/rust/messages | cmp - target/rust/messages.txt
test "$(sort -u target/rust/messages.txt | wc -l)" -eq 17
"$messages" -s >target/rust/messages.txt
target/rust/messages -s | cmp - target/rust/messages.txt
test "$(sort -u target/rust/messages.txt | wc -l)" -eq 5

build test tests/differential --release
build build tests/differential --release
target/rust/release/differential 1000000 1
