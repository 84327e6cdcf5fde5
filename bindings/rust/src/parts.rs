//! The parts of a description: clouds, data, services, edges, pins and pairs.
//!
//! [`Description::parts`](crate::Description::parts) has those of a description that was accepted,
//! and a [`Builder`](crate::builder::Builder) takes them to make one. Clouds and blocks have their
//! numbers by the order in which they are declared, from 0; data and services are counted together.
//!
//! ```
//! use panel::Description;
//! use panel::parts::{Block, Datum};
//!
//! let interview = Description::read(include_bytes!("../../../examples/interview.bin"))?;
//! let parts = interview.parts();
//! let first = Datum { label: 1, size: 100, longevity: 12 };
//! assert_eq!(parts.blocks().next(), Some(Block::Datum(first)));
//! # Ok::<(), panel::Refusal>(())
//! ```

use std::fmt;
use std::iter;

/// How many clouds a description may declare.
pub const CLOUDS: usize = 8;

/// How many data and services a description may declare together.
pub const BLOCKS: usize = 16;

/// How many reads and writes a description may declare together.
pub const EDGES: usize = 32;

/// How many pairs a description may declare.
pub const PAIRS: usize = 8;

/// The first byte of each command.
const END: u8 = 0;
const CLOUD: u8 = 1;
const DATUM: u8 = 2;
const SERVICE: u8 = 3;
const READS: u8 = 4;
const WRITES: u8 = 5;
const PIN: u8 = 6;
const PAIR: u8 = 7;

/// A site that keeps data and runs services. Prices may have any unit, the same for all of them.
#[derive(Debug, Clone, Copy, PartialEq, Eq, Hash, Default)]
pub struct Cloud {
    /// The byte of its [`Label`](crate::Label).
    pub label: u8,
    /// The price of one gigabyte for one month.
    pub storage: u16,
    /// The price of one gigabyte that enters.
    pub inward: u16,
    /// The price of one gigabyte that leaves.
    pub outward: u16,
    /// The price of one cpu unit.
    pub cpu: u16,
}

/// A block that is kept, and moved from cloud to cloud.
#[derive(Debug, Clone, Copy, PartialEq, Eq, Hash, Default)]
pub struct Datum {
    /// The byte of its [`Label`](crate::Label).
    pub label: u8,
    /// Its size in tenths of a gigabyte.
    pub size: u16,
    /// How many months it is stored.
    pub longevity: u16,
}

/// A block that runs, and reads and writes data.
#[derive(Debug, Clone, Copy, PartialEq, Eq, Hash, Default)]
pub struct Service {
    /// The byte of a [`Label`](crate::Label): the lowest for a cloud that may run it, and for a
    /// datum that it may write.
    pub location: u8,
    /// The byte of a [`Label`](crate::Label): the highest for a datum that it may read.
    pub clearance: u8,
    /// Its work in cpu units.
    pub units: u32,
}

/// A datum or a service.
#[derive(Debug, Clone, Copy, PartialEq, Eq, Hash)]
pub enum Block {
    /// A datum.
    Datum(Datum),
    /// A service.
    Service(Service),
}

/// What a service does with a datum. Shown, it is the word `reads` or `writes`.
#[derive(Debug, Clone, Copy, PartialEq, Eq, Hash)]
pub enum Way {
    /// The service reads the datum.
    Reads,
    /// The service writes the datum.
    Writes,
}

impl fmt::Display for Way {
    fn fmt(&self, f: &mut fmt::Formatter<'_>) -> fmt::Result {
        f.write_str(match self {
            Way::Reads => "reads",
            Way::Writes => "writes",
        })
    }
}

/// A service that reads or writes a datum.
#[derive(Debug, Clone, Copy, PartialEq, Eq, Hash)]
pub struct Edge {
    /// Whether it reads or writes.
    pub way: Way,
    /// The service, by its number as a block.
    pub service: u8,
    /// The datum, by its number as a block.
    pub datum: u8,
}

/// A block that may stand on one cloud alone.
#[derive(Debug, Clone, Copy, PartialEq, Eq, Hash)]
pub struct Pin {
    /// The block's number.
    pub block: u8,
    /// The cloud's number.
    pub cloud: u8,
}

/// Two data that no cloud may hold together.
#[derive(Debug, Clone, Copy, PartialEq, Eq, Hash)]
pub struct Pair {
    /// The datum that is named first, by its number as a block.
    pub one: u8,
    /// The datum that is named second.
    pub other: u8,
}

/// What one command declares.
#[derive(Debug, Clone, Copy, PartialEq, Eq, Hash)]
pub enum Part {
    /// Command 01.
    Cloud(Cloud),
    /// Command 02 or 03.
    Block(Block),
    /// Command 04 or 05.
    Edge(Edge),
    /// Command 06.
    Pin(Pin),
    /// Command 07.
    Pair(Pair),
}

impl Part {
    /// Adds the bytes of its command.
    fn put(self, bytes: &mut Vec<u8>) {
        match self {
            Part::Cloud(cloud) => {
                bytes.extend([CLOUD, cloud.label]);
                for rate in [cloud.storage, cloud.inward, cloud.outward, cloud.cpu] {
                    bytes.extend(rate.to_be_bytes());
                }
            }
            Part::Block(Block::Datum(datum)) => {
                bytes.extend([DATUM, datum.label]);
                bytes.extend(datum.size.to_be_bytes());
                bytes.extend(datum.longevity.to_be_bytes());
            }
            Part::Block(Block::Service(service)) => {
                bytes.extend([SERVICE, service.location, service.clearance]);
                bytes.extend(service.units.to_be_bytes());
            }
            Part::Edge(edge) => {
                let command = match edge.way {
                    Way::Reads => READS,
                    Way::Writes => WRITES,
                };
                bytes.extend([command, edge.service, edge.datum]);
            }
            Part::Pin(pin) => bytes.extend([PIN, pin.block, pin.cloud]),
            Part::Pair(pair) => bytes.extend([PAIR, pair.one, pair.other]),
        }
    }

    /// The part that the bytes begin with, and the bytes after it; nothing if they begin with no
    /// whole command, or with the end.
    fn take(bytes: &[u8]) -> Option<(Self, &[u8])> {
        match *bytes {
            [CLOUD, label, ref rest @ ..] => {
                let (rates, rest) = rest.split_first_chunk::<8>()?;
                Some((Part::Cloud(cloud(label, *rates)), rest))
            }
            [DATUM, label, ref rest @ ..] => {
                let (numbers, rest) = rest.split_first_chunk::<4>()?;
                Some((Part::Block(Block::Datum(datum(label, *numbers))), rest))
            }
            [SERVICE, location, clearance, ref rest @ ..] => {
                let (units, rest) = rest.split_first_chunk::<4>()?;
                let service = Service {
                    location,
                    clearance,
                    units: u32::from_be_bytes(*units),
                };
                Some((Part::Block(Block::Service(service)), rest))
            }
            [command, one, other, ref rest @ ..] => Some((naming(command, one, other)?, rest)),
            _ => None,
        }
    }
}

/// From its label, and its rates in their order.
fn cloud(label: u8, [s1, s0, i1, i0, o1, o0, c1, c0]: [u8; 8]) -> Cloud {
    Cloud {
        label,
        storage: u16::from_be_bytes([s1, s0]),
        inward: u16::from_be_bytes([i1, i0]),
        outward: u16::from_be_bytes([o1, o0]),
        cpu: u16::from_be_bytes([c1, c0]),
    }
}

/// From its label, and its size and longevity.
fn datum(label: u8, [s1, s0, l1, l0]: [u8; 4]) -> Datum {
    Datum {
        label,
        size: u16::from_be_bytes([s1, s0]),
        longevity: u16::from_be_bytes([l1, l0]),
    }
}

/// The part that a command of two names declares.
fn naming(command: u8, one: u8, other: u8) -> Option<Part> {
    let edge = |way| Edge {
        way,
        service: one,
        datum: other,
    };
    match command {
        READS => Some(Part::Edge(edge(Way::Reads))),
        WRITES => Some(Part::Edge(edge(Way::Writes))),
        PIN => Some(Part::Pin(Pin {
            block: one,
            cloud: other,
        })),
        PAIR => Some(Part::Pair(Pair { one, other })),
        _ => None,
    }
}

/// The parts of a description in the order of its commands.
#[derive(Debug, Clone, PartialEq, Eq, Hash, Default)]
pub struct Parts(Vec<Part>);

impl Parts {
    /// Of bytes that were accepted: commands, and then the end.
    pub(crate) fn of_accepted(bytes: &[u8]) -> Self {
        let mut rest = bytes;
        let next = || {
            let (part, after) = Part::take(rest)?;
            rest = after;
            Some(part)
        };
        Parts(iter::from_fn(next).collect())
    }

    pub(crate) fn push(&mut self, part: Part) {
        self.0.push(part);
    }

    /// The bytes of a description with these parts.
    pub(crate) fn to_bytes(&self) -> Vec<u8> {
        let mut bytes = Vec::new();
        for part in &self.0 {
            part.put(&mut bytes);
        }
        bytes.push(END);
        bytes
    }

    /// All parts, in the order of the commands.
    #[must_use]
    pub fn in_order(&self) -> &[Part] {
        &self.0
    }

    /// The clouds, by their numbers.
    pub fn clouds(&self) -> impl Iterator<Item = Cloud> {
        self.0.iter().filter_map(|part| match *part {
            Part::Cloud(cloud) => Some(cloud),
            _ => None,
        })
    }

    /// The data and services, by their numbers.
    pub fn blocks(&self) -> impl Iterator<Item = Block> {
        self.0.iter().filter_map(|part| match *part {
            Part::Block(block) => Some(block),
            _ => None,
        })
    }

    /// The reads and writes, by their numbers.
    pub fn edges(&self) -> impl Iterator<Item = Edge> {
        self.0.iter().filter_map(|part| match *part {
            Part::Edge(edge) => Some(edge),
            _ => None,
        })
    }

    /// The pins, in the order of the commands.
    pub fn pins(&self) -> impl Iterator<Item = Pin> {
        self.0.iter().filter_map(|part| match *part {
            Part::Pin(pin) => Some(pin),
            _ => None,
        })
    }

    /// The pairs, by their numbers.
    pub fn pairs(&self) -> impl Iterator<Item = Pair> {
        self.0.iter().filter_map(|part| match *part {
            Part::Pair(pair) => Some(pair),
            _ => None,
        })
    }
}

#[cfg(test)]
mod tests {
    use super::*;

    /// One of each, with all bytes different.
    const BYTES: [u8; 36] = [
        1, 20, 21, 22, 23, 24, 25, 26, 27, 28, 2, 30, 31, 32, 33, 34, 3, 40, 41, 42, 43, 44, 45, 4,
        50, 51, 5, 52, 53, 6, 60, 61, 7, 70, 71, 0,
    ];

    fn parts() -> Vec<Part> {
        let edge = |way, service, datum| {
            Part::Edge(Edge {
                way,
                service,
                datum,
            })
        };
        vec![
            Part::Cloud(Cloud {
                label: 20,
                storage: 21 * 256 + 22,
                inward: 23 * 256 + 24,
                outward: 25 * 256 + 26,
                cpu: 27 * 256 + 28,
            }),
            Part::Block(Block::Datum(Datum {
                label: 30,
                size: 31 * 256 + 32,
                longevity: 33 * 256 + 34,
            })),
            Part::Block(Block::Service(Service {
                location: 40,
                clearance: 41,
                units: 0x2A2B_2C2D,
            })),
            edge(Way::Reads, 50, 51),
            edge(Way::Writes, 52, 53),
            Part::Pin(Pin {
                block: 60,
                cloud: 61,
            }),
            Part::Pair(Pair { one: 70, other: 71 }),
        ]
    }

    #[test]
    fn each_part_has_its_bytes() {
        assert_eq!(Parts(parts()).to_bytes(), BYTES);
        assert_eq!(Parts::of_accepted(&BYTES).in_order(), parts());
    }

    #[test]
    fn parts_are_told_apart() {
        let parts = Parts(parts());
        assert_eq!(parts.clouds().next().map(|cloud| cloud.label), Some(20));
        assert_eq!(parts.blocks().count(), 2);
        let ways: Vec<String> = parts.edges().map(|edge| edge.way.to_string()).collect();
        assert_eq!(ways, ["reads", "writes"]);
        assert_eq!(parts.pins().next().map(|pin| pin.cloud), Some(61));
        assert_eq!(parts.pairs().next().map(|pair| pair.other), Some(71));
    }

    #[test]
    fn no_part_is_taken_from_a_command_that_is_cut() {
        let mut rest = &BYTES[..];
        while let Some((part, after)) = Part::take(rest) {
            let width = rest.len() - after.len();
            for cut in 0..width {
                assert_eq!(Part::take(&rest[..cut]), None, "{part:?}");
            }
            assert_eq!(Part::take(&rest[..width]), Some((part, &[][..])));
            rest = after;
        }
        assert_eq!(rest, [0]);
    }
}
