//! What the tables have in common.

use reference::description::Description;

pub fn header(columns: &[&str]) {
    println!("| {} |", columns.join(" | "));
    println!("|{}", "---|".repeat(columns.len()));
}

pub fn name_of(described: &Description) -> String {
    let blocks = described.blocks.len();
    let clouds = clouds_of(described);
    let edges = described.edges.len();
    let name = format!("{blocks} blocks on {clouds}, {edges} edges");
    match described.apart.len() {
        0 => name,
        1 => format!("{name}, 1 pair"),
        pairs => format!("{name}, {pairs} pairs"),
    }
}

/// How many clouds there are; and which of them blocks may use, where these are not all.
fn clouds_of(described: &Description) -> String {
    let count = described.clouds.len();
    let masks = described.masks();
    let is_used = |cloud: &usize| masks.iter().any(|mask| (mask >> cloud) & 1 == 1);
    let used: Vec<String> = (0..count).filter(is_used).map(|k| k.to_string()).collect();
    if used.len() == count {
        return format!("{count} clouds");
    }
    format!("clouds {} of {count}", used.join(" and "))
}
