//! Answers Draw by brute force: every candidate is built, tested and charged.
//!
//!     brute plain      the cheapest secure candidate past the cursor, whatever its option
//!     brute options    the row past the cursor, all candidates grouped by option

use std::{env, io};

use bench::cases::{answer_all, write_drawn};
use reference::description::Description;
use reference::options::cheapest_by_option;
use reference::rules::Priced;

fn cheapest_past(described: &Description, cursor: Option<Priced>) -> Option<Priced> {
    described
        .candidates()
        .filter(|placement| described.is_secure(placement))
        .map(|placement| Priced {
            cost: described.cost(&placement),
            placement,
        })
        .filter(|priced| cursor.is_none_or(|cursor| cursor < *priced))
        .min()
}

fn row_past(described: &Description, cursor: Option<Priced>) -> Option<Priced> {
    cheapest_by_option(described)
        .into_values()
        .filter(|priced| cursor.is_none_or(|cursor| cursor < *priced))
        .min()
}

fn main() -> io::Result<()> {
    let draw = match env::args().nth(1).as_deref() {
        Some("plain") => cheapest_past,
        Some("options") => row_past,
        _ => return Err(io::Error::other("brute plain, or brute options")),
    };
    answer_all(|_, described, cursor, out| write_drawn(described, draw(described, cursor), out))
}
