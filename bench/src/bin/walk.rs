//! Answers Draw and Census by the engine's own algorithm.

use std::io;

use bench::cases::{answer_all, write_drawn};
use bench::tables::{Tables, Task};

fn main() -> io::Result<()> {
    answer_all(|letter, described, cursor, out| {
        let tables = Tables::of(described);
        if letter == b'D' {
            let task = Task::draw(cursor, described.blocks.len());
            return write_drawn(described, tables.best(&tables.see(&task)), out);
        }
        let seen = tables.see(&Task::count());
        let [broken_16, broken_17] = [seen.breaking_16, seen.breaking_17_only];
        let [apart, secure, rows] = [seen.apart_only, seen.secure, seen.rows];
        let candidates = broken_16 + broken_17 + apart + secure;
        writeln!(
            out,
            "census {candidates} {broken_16} {broken_17} {apart} {secure} {rows}"
        )
    })
}
