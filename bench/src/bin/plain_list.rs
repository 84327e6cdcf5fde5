//! Prints what `listoptions` prints (docs/FORMAT.md, section 7), by brute force.

use std::io::{self, BufWriter, Read, Write};

use bench::cases::write_row;
use reference::description::read;
use reference::options::sorted_options;

fn main() -> io::Result<()> {
    let mut text = Vec::new();
    io::stdin().read_to_end(&mut text)?;
    let mut out = BufWriter::new(io::stdout().lock());
    match read(&text) {
        Ok(described) => {
            let options = sorted_options(&described);
            for &priced in &options {
                write_row(&described.row(priced), described.blocks.len(), &mut out)?;
            }
            writeln!(out, "options {}", options.len())?;
        }
        Err(refusal) => writeln!(out, "{refusal}")?,
    }
    out.flush()
}
