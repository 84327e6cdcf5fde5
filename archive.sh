#!/bin/sh
# Builds the library for C, C++ and Rust, target/staticlib/libpanel.a: what `rt lib` makes of the crate panel_c, under the library's own name.
set -eu
cd "$(dirname "$0")"

(cd crates/panel_c && rt lib)
mkdir -p target/staticlib
cp crates/panel_c/out/libpanel_c.a target/staticlib/libpanel.a
