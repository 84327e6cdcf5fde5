#!/bin/sh
# The library from C and C++: the example programs against their stored output, the functions that the header has itself, the version, and
# what install.sh installs, used through pkg-config and through CMake if they are there. Every warning is an error.
set -eu
cd "$(dirname "$0")/.."

archive=target/staticlib/libpanel.a
[ -f "$archive" ] || ./archive.sh

list=target/list
work=target/library
rm -rf "$work"
mkdir -p "$work/cmake"

fail() {
    echo "library: $1" >&2
    exit 1
}

for compiler in cc c++; do
    command -v "$compiler" >/dev/null || fail "there is no $compiler"
done

# compile_c STANDARD SOURCE PROGRAM [OPTION..] and compile_cpp STANDARD SOURCE PROGRAM [OPTION..]
warnings='-Wall -Wextra -Wpedantic -Wconversion -Wsign-conversion -Wshadow -Werror'
compile_c() {
    standard=$1 source=$2 program=$3
    shift 3
    cc "-std=$standard" $warnings -O2 "$@" -Iinclude -o "$program" "$source" "$archive"
}
compile_cpp() {
    standard=$1 source=$2 program=$3
    shift 3
    c++ "-std=$standard" $warnings -Wold-style-cast -O2 "$@" -Iinclude -pthread -o "$program" -x c++ "$source" -x none "$archive"
}

# lists PROGRAM: it prints the stored lists, the stored clouds to choose from, and refusals.
printf 'refused 1 0\n' >"$work/refused"
lists() {
    for name in interview second apart; do
        "$1" <"examples/$name.bin" | cmp - "examples/$name.expected"
        "$1" -c <"examples/$name.bin" | cmp - "examples/$name.clouds"
    done
    "$1" </dev/null | cmp - "$work/refused"
    "$1" -c </dev/null | cmp - "$work/refused"
}

for standard in c99 c11; do
    compile_c "$standard" examples/list.c "$list"
    lists "$list"
done

compile_cpp c++17 examples/panel.cpp "$work/panel"
"$work/panel" | cmp - examples/panel.expected
# A text that is not taken is an error.
if "$work/panel" >/dev/full 2>/dev/null; then
    fail 'the C++ example does not notice that standard output is full'
fi

# What the archive needs from outside, as docs/LIMITS.md says it: a user without a C library has to bring no more.
needed=$(nm -u "$archive" | awk '$1 == "U" { print $2 }' | sort -u | tr '\n' ' ')
[ "$needed" = 'memcpy memset ' ] || fail "the archive needs from outside: $needed"

# The header's own functions, from both languages. If a length is 0, each call answers the same for a null pointer and for another one. The
# sanitizer ends the program if the archive is handed a null pointer.
cat >"$work/header.c" <<'C'
#include <stdio.h>
#include <string.h>
#include "panel.h"

static int failures = 0;

#define CHECK(condition) check(condition, #condition, __LINE__)
static void check(bool holds, const char *condition, int line)
{
    if (!holds) {
        fprintf(stderr, "header.c:%d: %s\n", line, condition);
        failures++;
    }
}

static void check_names(void)
{
    const unsigned refusals[] = {
        PANEL_CUT_SHORT, PANEL_UNKNOWN_COMMAND, PANEL_AFTER_END, PANEL_TOO_MANY, PANEL_LABEL_TOO_HIGH, PANEL_NOT_DECLARED, PANEL_REPEATED,
        PANEL_NOTHING_DECLARED, PANEL_LOCATION_NOT_CLEARED, PANEL_READ_UP, PANEL_WRITE_DOWN, PANEL_TOO_MANY_CANDIDATES,
        PANEL_NO_CANDIDATE, PANEL_READ_EXPOSES, PANEL_WRITE_EXPOSES, PANEL_SHORT_BUFFER, PANEL_PAIR_MEETS,
    };
    const unsigned reasons[] = {PANEL_ALLOWED, PANEL_NO_SUCH_CLOUD, PANEL_NOT_COVERED, PANEL_NOT_PERMITTED, PANEL_NO_BLOCK};
    for (unsigned at = 0; at < 17; at++)
        CHECK(refusals[at] == at + 1);
    for (unsigned at = 0; at < 5; at++)
        CHECK(reasons[at] == at);
}

static void check_words(void)
{
    for (unsigned number = 0; number <= 17; number++)
        for (unsigned other = 0; other < number; other++)
            CHECK(strcmp(panel_message(number), panel_message(other)) != 0);
    for (unsigned reason = 0; reason <= 4; reason++)
        for (unsigned other = 0; other < reason; other++)
            CHECK(strcmp(panel_reason_message(reason), panel_reason_message(other)) != 0);
    CHECK(strcmp(panel_message(0), "not refused") == 0);
    CHECK(strcmp(panel_message(PANEL_TOO_MANY_CANDIDATES),
                 "there are more than 65,536 candidates; pin more blocks, or leave out clouds") == 0);
    CHECK(strncmp(panel_message(PANEL_SHORT_BUFFER), "the lent memory is too short", 28) == 0);
    CHECK(strncmp(panel_message(PANEL_PAIR_MEETS), "some cloud holds both data of a pair", 36) == 0);
    CHECK(strcmp(panel_message(18), "no such number is known") == 0);
    CHECK(strcmp(panel_message(255), "no such number is known") == 0);
    CHECK(strcmp(panel_reason_message(PANEL_NOT_PERMITTED),
                 "the block is pinned to another cloud; choose that one, or remove the pin") == 0);
    CHECK(strcmp(panel_reason_message(5), "no such reason is known") == 0);
    CHECK(strcmp(panel_reason_message(UINT64_MAX), "no such reason is known") == 0);
}

static void check_status(void)
{
    uint64_t largest_place = UINT64_MAX >> 8;
    CHECK(PANEL_NUMBER(0) == 0 && PANEL_PLACE(0) == 0);
    CHECK(PANEL_NUMBER(327680 * UINT64_C(256) + 16) == PANEL_SHORT_BUFFER && PANEL_PLACE(327680 * UINT64_C(256) + 16) == 327680);
    CHECK(PANEL_NUMBER(UINT64_MAX) == 255 && PANEL_PLACE(UINT64_MAX) == largest_place);
}

/* The clouds of a row are digits to the base 8, so octal numbers show them. */
static void check_row(uint64_t digits, uint64_t blocks, const char *clouds)
{
    const uint64_t row[PANEL_ROW] = {600, digits, 100, 200, 300};
    uint8_t placement[PANEL_BLOCKS];
    uint64_t amounts[PANEL_AMOUNTS];
    memset(placement, 9, sizeof placement);
    panel_unpack_row(row, blocks, placement, amounts);
    for (size_t position = 0; position < PANEL_BLOCKS; position++)
        CHECK(placement[position] == clouds[position] - '0');
    CHECK(amounts[0] == 600 && amounts[1] == 100 && amounts[2] == 200 && amounts[3] == 300);
}

static void check_empty_description(const uint8_t *none)
{
    uint64_t words[6], count[1], extent[2];
    uint8_t bytes[PANEL_BLOCKS] = {0}, buffer[PANEL_BLOCKS];
    CHECK(panel_read(none, 0, words) == PANEL_CUT_SHORT);
    CHECK(panel_masks(none, 0, buffer) == PANEL_CUT_SHORT);
    CHECK(panel_standing(none, 0, 0, 0, count) == PANEL_CUT_SHORT);
    CHECK(panel_judge(none, 0, bytes) == PANEL_CUT_SHORT);
    CHECK(panel_bill(none, 0, bytes, words) == PANEL_CUT_SHORT);
    CHECK(panel_transfers(none, 0, bytes, buffer, sizeof buffer, count) == PANEL_CUT_SHORT);
    CHECK(panel_picture(none, 0, bytes, buffer, sizeof buffer, count) == PANEL_CUT_SHORT);
    CHECK(panel_picture_size(none, 0, bytes, count) == PANEL_CUT_SHORT);
    CHECK(panel_census(none, 0, words) == PANEL_CUT_SHORT);
    CHECK(panel_draw(none, 0, true, 0, bytes, words, buffer) == PANEL_CUT_SHORT);
    CHECK(panel_list(none, 0, NULL, 0, NULL, 0, extent) == PANEL_CUT_SHORT);
}

/* One cloud and one datum, and one placement of it: a row, no transfer, and a picture of 22 bytes. */
static void check_empty_buffers(uint8_t *no_bytes, uint64_t *no_words)
{
    static const uint8_t description[] = {1, 0, 0, 2, 0, 0, 0, 0, 0, 0, 2, 0, 0, 30, 0, 4, 0};
    const uint8_t placement[PANEL_BLOCKS] = {0};
    uint64_t count[1] = {7}, extent[2], amounts[PANEL_AMOUNTS], reason[1], rows[PANEL_ROW], scratch[2];
    CHECK(panel_transfers(description, sizeof description, placement, no_bytes, 0, count) == 0 && count[0] == 0);
    CHECK(panel_picture(description, sizeof description, placement, no_bytes, 0, count) == 22 * 256 + PANEL_SHORT_BUFFER);
    CHECK(panel_list(description, sizeof description, no_words, 0, no_words, 0, extent) == 5 * 256 + PANEL_SHORT_BUFFER);
    CHECK(panel_list(description, sizeof description, rows, PANEL_ROW, no_words, 0, extent) == 5 * 256 + PANEL_SHORT_BUFFER);
    CHECK(panel_list(description, sizeof description, rows, PANEL_ROW, scratch, 2, extent) == 0 && extent[0] == 1 && extent[1] == 1);
    CHECK(panel_bill(description, sizeof description, placement, amounts) == 0 && amounts[0] == 24 && amounts[1] == 24);
    CHECK(panel_standing(description, sizeof description, 0, 1, reason) == 0 && reason[0] == PANEL_NO_SUCH_CLOUD);
    CHECK(panel_standing(description, sizeof description, 16, 1, reason) == 0 && reason[0] == PANEL_NO_BLOCK);
}

int main(void)
{
    uint8_t byte = 0;
    uint64_t word = 0;
    check_names();
    check_words();
    check_status();
    check_row(07, 1, "7000000000000000");
    check_row(012345, 5, "1234500000000000");
    check_row(01234567, 8, "0123456700000000");
    check_row(07654321001234567, 16, "7654321001234567");
    check_empty_description(NULL);
    check_empty_description(&byte);
    check_empty_buffers(NULL, NULL);
    check_empty_buffers(&byte, &word);
    return failures != 0;
}
C
sanitizer='-fsanitize=nonnull-attribute -fsanitize-undefined-trap-on-error'
for standard in c99 c11; do
    compile_c "$standard" "$work/header.c" "$work/header" $sanitizer
    "$work/header" || fail "the header's functions in $standard"
done
for standard in c++11 c++17; do
    compile_cpp "$standard" "$work/header.c" "$work/header" $sanitizer
    "$work/header" || fail "the header's functions in $standard"
done

# One version: the header's, as a text and by its parts, the wrapper's, and the newest of the list of changes.
defined() {
    sed -n "s/^#define $1 \"*\([^\"]*\)\"*\$/\1/p" include/panel.h
}
version=$(defined PANEL_VERSION)
parts=$(defined PANEL_VERSION_MAJOR).$(defined PANEL_VERSION_MINOR).$(defined PANEL_VERSION_PATCH)
test "$version" = "$parts" || fail "PANEL_VERSION is $version, and its parts are $parts"
wrapper=$(sed -n 's/^version = "\(.*\)"$/\1/p' bindings/rust/Cargo.toml)
test "$version" = "$wrapper" || fail "the header has version $version, bindings/rust has $wrapper"
newest=$(sed -n 's/^## \([0-9.]*\).*/\1/p' CHANGELOG.md | head -n 1)
test "$version" = "$newest" || fail "the header has version $version, CHANGELOG.md begins with $newest"

# Installed below a prefix, and below another folder as a package would be.
installed=$PWD/$work/installed
./install.sh --prefix "$installed" >/dev/null
(cd "$work" && DESTDIR=$PWD/staged ../../install.sh --prefix=/opt/panel >/dev/null)
for file in include/panel.h lib/libpanel.a lib/pkgconfig/panel.pc lib/cmake/panel/panel-config.cmake \
    lib/cmake/panel/panel-config-version.cmake; do
    test -s "$installed/$file" || fail "install.sh does not install $file"
    test -s "$work/staged/opt/panel/$file" || fail "install.sh does not install $file below DESTDIR"
done
grep -qx 'prefix=/opt/panel' "$work/staged/opt/panel/lib/pkgconfig/panel.pc" || fail 'DESTDIR is a part of the prefix'
if ./install.sh --prefix 2>/dev/null || ./install.sh --prefix= 2>/dev/null || ./install.sh elsewhere 2>/dev/null; then
    fail 'install.sh takes what it does not know'
fi

left_out=
if command -v pkg-config >/dev/null; then
    PKG_CONFIG_PATH=$installed/lib/pkgconfig
    export PKG_CONFIG_PATH
    test "$(pkg-config --modversion panel)" = "$version" || fail 'pkg-config tells another version'
    cc $(pkg-config --cflags panel) -o "$work/list" examples/list.c $(pkg-config --libs panel)
    lists "$work/list"
else
    left_out="$left_out; pkg-config is not there, so its check is left out"
fi

if command -v cmake >/dev/null; then
    cat >"$work/cmake/CMakeLists.txt" <<CMAKE
cmake_minimum_required(VERSION 3.13)
project(list C)
find_package(panel 99.0 CONFIG QUIET)
if(panel_FOUND)
    message(FATAL_ERROR "version 99.0 is found")
endif()
find_package(panel $version CONFIG REQUIRED)
add_executable(list "$PWD/examples/list.c")
target_link_libraries(list PRIVATE panel::panel)
CMAKE
    cmake -S "$work/cmake" -B "$work/cmake/build" -DCMAKE_PREFIX_PATH="$installed" >"$work/cmake/out" || fail "CMake: see $work/cmake/out"
    cmake --build "$work/cmake/build" >>"$work/cmake/out" || fail "CMake: see $work/cmake/out"
    lists "$work/cmake/build/list"
else
    left_out="$left_out; CMake is not there, so its check is left out"
fi

echo "library: ok$left_out"
