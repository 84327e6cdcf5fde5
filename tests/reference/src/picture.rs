//! The picture of a placement (docs/FORMAT.md, section 5): a text for Graphviz, in which every edge
//! is a path of nodes and every block without an edge a path of its own.

use std::fmt;

use crate::calls::refuse_unless;
use crate::description::{Description, Edge, Refusal, Way};
use crate::rules::Placement;

const FIRST_LINE: &str = "digraph p {\n";
const LAST_LINE: &str = "}\n";
const ARROW: &str = " -> ";
/// Two spaces before a path, a semicolon and the newline after it.
const AROUND_PATH: usize = 4;

/// What the arrows of a path lead from and to.
#[derive(Clone, Copy)]
enum Node {
    /// Number and cloud, as for a service.
    Datum(usize, usize),
    Service(usize, usize),
    /// The edge.
    Transfer(usize),
    /// Datum, cloud and edge.
    Copy(usize, usize, usize),
}

impl fmt::Display for Node {
    fn fmt(&self, f: &mut fmt::Formatter) -> fmt::Result {
        match self {
            Node::Datum(number, cloud) => write!(f, "d{number}_{cloud}"),
            Node::Service(number, cloud) => write!(f, "s{number}_{cloud}"),
            Node::Transfer(edge) => write!(f, "x{edge}"),
            Node::Copy(datum, cloud, edge) => write!(f, "d{datum}_{cloud}_e{edge}"),
        }
    }
}

impl Node {
    /// How many bytes it is written with: its letters, lines and digits.
    fn width(&self) -> usize {
        match *self {
            Node::Datum(number, cloud) => 2 + digits(number) + digits(cloud),
            Node::Service(number, cloud) => 2 + digits(number) + digits(cloud),
            Node::Transfer(edge) => 1 + digits(edge),
            Node::Copy(datum, cloud, edge) => 4 + digits(datum) + digits(cloud) + digits(edge),
        }
    }
}

fn digits(number: usize) -> usize {
    number.checked_ilog10().map_or(1, |tens| tens as usize + 1)
}

/// From the datum to its reader, by a transfer and a copy if they stand on two clouds. A write goes
/// the same way backwards.
fn path(number: usize, edge: &Edge, placement: &Placement) -> Vec<Node> {
    let [away, home] = edge.ends(placement);
    let mut nodes = vec![Node::Datum(edge.datum, home)];
    if away != home {
        nodes.push(Node::Transfer(number));
        nodes.push(Node::Copy(edge.datum, away, number));
    }
    nodes.push(Node::Service(edge.service, away));
    if edge.way == Way::Writes {
        nodes.reverse();
    }
    nodes
}

impl Description {
    /// Refuses as Judge does, and then with 16 if a buffer has too little room.
    pub fn picture(&self, placement: &Placement, room: usize) -> Result<String, Refusal> {
        self.judge(placement)?;
        let mut text = String::from(FIRST_LINE);
        for path in self.paths(placement) {
            let nodes: Vec<String> = path.iter().map(Node::to_string).collect();
            text += &format!("  {};\n", nodes.join(ARROW));
        }
        text += LAST_LINE;
        refuse_unless(text.len() <= room, text.len())?;
        Ok(text)
    }

    /// How many bytes the picture has, reckoned without writing it. Refuses as Judge does.
    pub fn picture_size(&self, placement: &Placement) -> Result<usize, Refusal> {
        self.judge(placement)?;
        let line = |path: Vec<Node>| {
            let nodes: usize = path.iter().map(Node::width).sum();
            AROUND_PATH + nodes + ARROW.len() * (path.len() - 1)
        };
        let lines: usize = self.paths(placement).map(line).sum();
        Ok(FIRST_LINE.len() + lines + LAST_LINE.len())
    }

    /// Those of the edges, then one for each block that has none.
    fn paths(&self, placement: &Placement) -> impl Iterator<Item = Vec<Node>> {
        let edges = self.edges.iter().enumerate();
        let alone = (0..self.blocks.len()).filter(|&block| !self.has_edge(block));
        edges
            .map(|(number, edge)| path(number, edge, placement))
            .chain(alone.map(|block| vec![self.node(block, placement)]))
    }

    fn has_edge(&self, block: usize) -> bool {
        let mut edges = self.edges.iter();
        edges.any(|edge| edge.service == block || edge.datum == block)
    }

    fn node(&self, number: usize, placement: &Placement) -> Node {
        let cloud = usize::from(placement[number]);
        if self.blocks[number].is_datum() {
            Node::Datum(number, cloud)
        } else {
            Node::Service(number, cloud)
        }
    }
}

#[cfg(test)]
mod tests {
    use super::*;
    use crate::description::read;

    const INTERVIEW: &[u8] = include_bytes!("../../../examples/interview.bin");
    const SECOND: &[u8] = include_bytes!("../../../examples/second.bin");
    const ENOUGH: usize = 1374;

    const CLOUD: [u8; 10] = [1, 0, 0, 0, 0, 0, 0, 0, 0, 0];
    const DATUM: [u8; 6] = [2, 0, 0, 0, 0, 0];
    const SERVICE: [u8; 7] = [3, 0, 0, 0, 0, 0, 0];

    /// Two clouds, then data where the letters say `d` and services where they say `s`, then edges.
    fn described(blocks: &str, edges: &[[u8; 3]]) -> Description {
        let mut text = [CLOUD; 2].concat();
        for block in blocks.chars() {
            let command: &[u8] = if block == 'd' { &DATUM } else { &SERVICE };
            text.extend(command);
        }
        text.extend(edges.as_flattened());
        text.push(0);
        read(&text).expect("the description is accepted")
    }

    /// The first blocks on these clouds, the others on cloud 0.
    fn placed(clouds: &[u8]) -> Placement {
        let mut placement = [0; 16];
        placement[..clouds.len()].copy_from_slice(clouds);
        placement
    }

    /// The picture, after a look at its size.
    fn drawn(described: &Description, clouds: &[u8]) -> String {
        let placement = placed(clouds);
        let text = described.picture(&placement, ENOUGH).expect("it is secure");
        assert_eq!(described.picture_size(&placement), Ok(text.len()));
        text
    }

    #[test]
    fn a_row_of_the_interview_is_drawn_byte_by_byte() {
        let interview = read(INTERVIEW).expect("the description is accepted");
        let bytes = b"digraph p {\n  d0_1 -> s1_1;\n  s1_1 -> d2_1_e1 -> x1 -> d2_0;\n  \
                      d2_0 -> s3_0;\n  s3_0 -> d4_0;\n}\n";
        assert_eq!(bytes.len(), 95);
        assert_eq!(drawn(&interview, &[1, 1]).as_bytes(), bytes);
    }

    #[test]
    fn reads_and_writes_are_in_place_or_moved() {
        let edges = [[4, 1, 0], [5, 1, 2], [4, 3, 2], [5, 3, 0]];
        let circle = described("dsds", &edges);
        assert_eq!(
            drawn(&circle, &[0, 1, 0, 0]),
            "digraph p {\n  d0_0 -> x0 -> d0_1_e0 -> s1_1;\n  s1_1 -> d2_1_e1 -> x1 -> d2_0;\n  \
             d2_0 -> s3_0;\n  s3_0 -> d0_0;\n}\n"
        );
        assert_eq!(
            drawn(&circle, &[1, 1, 1, 0]),
            "digraph p {\n  d0_1 -> s1_1;\n  s1_1 -> d2_1;\n  d2_1 -> x2 -> d2_0_e2 -> s3_0;\n  \
             s3_0 -> d0_0_e3 -> x3 -> d0_1;\n}\n"
        );
    }

    #[test]
    fn blocks_without_an_edge_come_last_in_their_order() {
        let apart = described("sdsdds", &[[5, 2, 3]]);
        assert_eq!(
            drawn(&apart, &[1, 0, 1, 1, 0, 1]),
            "digraph p {\n  s2_1 -> d3_1;\n  s0_1;\n  d1_0;\n  d4_0;\n  s5_1;\n}\n"
        );
        assert_eq!(
            drawn(&described("d", &[]), &[1]),
            "digraph p {\n  d0_1;\n}\n"
        );
        assert_eq!(
            drawn(&described("s", &[]), &[]),
            "digraph p {\n  s0_0;\n}\n"
        );
    }

    /// Data 10 to 13 are read by services 0 to 4, 14 and 15 and written by 15: no picture is longer.
    #[test]
    fn numbers_of_two_digits_make_the_longest_lines() {
        let readers = [0, 1, 2, 3, 4, 14, 15];
        let reads = readers.map(|service| [10, 11, 12, 13].map(|datum| [4, service, datum]));
        let writes = [10, 11, 12, 13].map(|datum| [5, 15, datum]);
        let edges = [reads.as_flattened(), &writes].concat();
        let most = described("sssssddsssddddss", &edges);
        let text = drawn(&most, &[0, 0, 0, 0, 0, 0, 0, 0, 0, 0, 1, 1, 1, 1]);
        assert_eq!(text.len(), 1230);
        let lines: Vec<&str> = text.split_inclusive('\n').collect();
        assert_eq!(lines[10], "  d11_1 -> x9 -> d11_0_e9 -> s2_0;\n");
        assert_eq!(lines[11], "  d12_1 -> x10 -> d12_0_e10 -> s2_0;\n");
        assert_eq!(lines[21], "  d10_1 -> x20 -> d10_0_e20 -> s14_0;\n");
        assert_eq!(lines[32], "  s15_0 -> d13_0_e31 -> x31 -> d13_1;\n");
        assert_eq!(lines.iter().map(|line| line.len()).max(), Some(38));
        let last = lines[33..].concat();
        assert_eq!(last, "  d5_0;\n  d6_0;\n  s7_0;\n  s8_0;\n  s9_0;\n}\n");
    }

    #[test]
    fn the_size_is_that_of_every_picture() {
        for text in [INTERVIEW, SECOND] {
            let described = read(text).expect("the description is accepted");
            let mut secure = 0;
            for placement in described.candidates() {
                let size = described.picture_size(&placement);
                let text = described.picture(&placement, ENOUGH);
                assert_eq!(size, text.map(|text| text.len()));
                secure += u32::from(size.is_ok());
            }
            assert!(secure >= 4);
        }
    }

    #[test]
    fn a_placement_is_judged_before_the_room_is_looked_at() {
        let interview = read(INTERVIEW).expect("the description is accepted");
        let refusal = |number, place| Refusal { number, place };
        for room in [0, 94] {
            let short = interview.picture(&placed(&[1, 1]), room);
            assert_eq!(short, Err(refusal(16, 95)));
        }
        assert!(interview.picture(&placed(&[1, 1]), 95).is_ok());
        for (clouds, due) in [([1, 0], refusal(14, 0)), ([2, 1], refusal(13, 0))] {
            let placement = placed(&clouds);
            assert_eq!(interview.picture(&placement, 0), Err(due));
            assert_eq!(interview.picture_size(&placement), Err(due));
        }
    }
}
