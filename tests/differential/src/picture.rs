//! What a picture shows, as its text has it.

use panel::calls::PICTURE;

/// Bytes of a line in which all numbers of blocks and edges have two digits, with its newline.
const LONGEST_LINE: usize = 38;

/// What a picture is counted as.
pub fn kind_of(text: &str) -> &'static str {
    match (text.contains("-> x"), text.contains("->")) {
        (true, _) => "moved",
        (false, true) => "in place",
        (false, false) => "no edges",
    }
}

/// What pictures should show now and then.
pub fn seen_in(text: &str) -> Vec<(&'static str, bool)> {
    let lines: Vec<&str> = text.split_inclusive('\n').collect();
    let alone = |letter| lines.iter().any(|line| is_alone(line, letter));
    let edges = lines.iter().filter(|line| line.contains("->")).count();
    let longest = lines.iter().map(|line| line.len()).max();
    vec![
        ("picture of 32 edges", edges == 32),
        ("line of 38 bytes", longest == Some(LONGEST_LINE)),
        ("datum without edge", alone('d')),
        ("service without edge", alone('s')),
    ]
}

fn is_alone(line: &str, letter: char) -> bool {
    let block = line.strip_prefix("  ").filter(|_| !line.contains("->"));
    block.is_some_and(|block| block.starts_with(letter))
}

/// How long a buffer was, beside what a picture needs.
pub fn room_seen(room: usize, needed: usize) -> Vec<(&'static str, bool)> {
    vec![
        ("room for a picture exact", room == needed),
        ("room one short", room + 1 == needed),
        ("room none", room == 0),
        ("room for all pictures", room == PICTURE),
    ]
}

#[cfg(test)]
mod tests {
    use super::*;

    fn names(text: &str) -> Vec<&'static str> {
        let shown = seen_in(text).into_iter().filter(|(_, holds)| *holds);
        shown.map(|(name, _)| name).collect()
    }

    #[test]
    fn pictures_are_told_apart_by_their_text() {
        let moved = "digraph p {\n  s1_0 -> d0_0_e0 -> x0 -> d0_1;\n}\n";
        let in_place = "digraph p {\n  s1_0 -> d0_0;\n  s2_0;\n}\n";
        let without = "digraph p {\n  d0_0;\n}\n";
        assert_eq!(
            [moved, in_place, without].map(kind_of),
            ["moved", "in place", "no edges"]
        );
        assert_eq!(names(moved), Vec::<&str>::new());
        assert_eq!(names(in_place), ["service without edge"]);
        assert_eq!(names(without), ["datum without edge"]);
    }

    #[test]
    fn long_pictures_are_seen() {
        let line = "  d10_0 -> x31 -> d10_1_e31 -> s15_1;\n";
        assert_eq!(line.len(), LONGEST_LINE);
        let picture = |edges| format!("digraph p {{\n{}}}\n", line.repeat(edges));
        assert_eq!(names(&picture(31)), ["line of 38 bytes"]);
        assert_eq!(
            names(&picture(32)),
            ["picture of 32 edges", "line of 38 bytes"]
        );
    }
}
