//! The bytes of a description and what they declare (docs/FORMAT.md, sections 1 and 6), with the
//! gigabytes that a datum is charged for (section 3).

use std::fmt;

use crate::label::Label;

#[derive(Clone, Copy)]
pub struct Cloud {
    pub label: Label,
    pub storage: u64,
    pub inward: u64,
    pub outward: u64,
    pub cpu: u64,
}

#[derive(Clone, Copy)]
pub enum Kind {
    Datum { gigabytes: u64, longevity: u64 },
    Service { clearance: Label, units: u64 },
}

#[derive(Clone, Copy)]
pub struct Block {
    /// The label of a datum, the location of a service.
    pub label: Label,
    pub kind: Kind,
    pub pin: Option<u8>,
}

#[derive(Clone, Copy, PartialEq)]
pub enum Way {
    Reads,
    Writes,
}

#[derive(Clone, Copy, PartialEq)]
pub struct Edge {
    pub way: Way,
    pub service: usize,
    pub datum: usize,
}

#[derive(Clone, Default)]
pub struct Description {
    pub clouds: Vec<Cloud>,
    pub blocks: Vec<Block>,
    pub edges: Vec<Edge>,
    /// Pairs of data that no cloud may hold both of.
    pub apart: Vec<[usize; 2]>,
}

#[derive(Clone, Copy, Debug, PartialEq, Eq)]
pub struct Refusal {
    pub number: u8,
    pub place: usize,
}

impl fmt::Display for Refusal {
    fn fmt(&self, f: &mut fmt::Formatter) -> fmt::Result {
        write!(f, "refused {} {}", self.number, self.place)
    }
}

impl Block {
    pub fn is_datum(&self) -> bool {
        matches!(self.kind, Kind::Datum { .. })
    }
}

/// What Read accepts: the description that the bytes spell, or its first refusal.
pub fn read(text: &[u8]) -> Result<Description, Refusal> {
    let described = decode(text)?;
    described.check()?;
    Ok(described)
}

/// What the bytes spell, whether or not it keeps the rules: numbers 1 to 8.
pub fn decode(text: &[u8]) -> Result<Description, Refusal> {
    let mut described = Description::default();
    let mut at = 0;
    loop {
        let refused = move |number| Refusal { number, place: at };
        match text.get(at) {
            None => return Err(refused(1)),
            Some(0) => break,
            Some(_) => at += described.add(&text[at..]).map_err(refused)?,
        }
    }
    let end = at + 1;
    if end < text.len() {
        return Err(Refusal {
            number: 3,
            place: end,
        });
    }
    if described.clouds.is_empty() || described.blocks.is_empty() {
        return Err(Refusal {
            number: 8,
            place: end,
        });
    }
    Ok(described)
}

/// Numbers have their most significant byte first.
fn number(bytes: &[u8]) -> u64 {
    bytes.iter().fold(0, |n, &byte| n * 256 + u64::from(byte))
}

/// Whole gigabytes for a size in tenths: the nearest number, and of two that are as near the even.
fn charged(size: u64) -> u64 {
    let whole = size / 10;
    match size % 10 {
        0..5 => whole,
        5 => whole + whole % 2,
        _ => whole + 1,
    }
}

/// The number of a fault, if there is one.
fn refuse_if(fault: bool, number: u8) -> Result<(), u8> {
    if fault { Err(number) } else { Ok(()) }
}

impl Description {
    /// Adds the command that the text begins with, which is not 00; answers its width.
    fn add(&mut self, text: &[u8]) -> Result<usize, u8> {
        let width = match text[0] {
            1 => 10,
            2 => 6,
            3 => 7,
            4..=7 => 3,
            _ => return Err(2),
        };
        let operands = text.get(1..width).ok_or(1)?;
        match text[0] {
            1 => self.add_cloud(operands)?,
            2 => self.add_datum(operands)?,
            3 => self.add_service(operands)?,
            4 => self.add_edge(Way::Reads, operands)?,
            5 => self.add_edge(Way::Writes, operands)?,
            6 => self.add_pin(operands)?,
            _ => self.add_apart(operands)?,
        }
        Ok(width)
    }

    fn add_cloud(&mut self, operands: &[u8]) -> Result<(), u8> {
        refuse_if(self.clouds.len() == 8, 4)?;
        let label = Label::of(operands[0]).ok_or(5)?;
        self.clouds.push(Cloud {
            label,
            storage: number(&operands[1..3]),
            inward: number(&operands[3..5]),
            outward: number(&operands[5..7]),
            cpu: number(&operands[7..9]),
        });
        Ok(())
    }

    fn add_datum(&mut self, operands: &[u8]) -> Result<(), u8> {
        refuse_if(self.blocks.len() == 16, 4)?;
        let label = Label::of(operands[0]).ok_or(5)?;
        let kind = Kind::Datum {
            gigabytes: charged(number(&operands[1..3])),
            longevity: number(&operands[3..5]),
        };
        self.add_block(label, kind);
        Ok(())
    }

    fn add_service(&mut self, operands: &[u8]) -> Result<(), u8> {
        refuse_if(self.blocks.len() == 16, 4)?;
        let location = Label::of(operands[0]).ok_or(5)?;
        let kind = Kind::Service {
            clearance: Label::of(operands[1]).ok_or(5)?,
            units: number(&operands[2..6]),
        };
        self.add_block(location, kind);
        Ok(())
    }

    fn add_block(&mut self, label: Label, kind: Kind) {
        let pin = None;
        self.blocks.push(Block { label, kind, pin });
    }

    fn add_edge(&mut self, way: Way, operands: &[u8]) -> Result<(), u8> {
        refuse_if(self.edges.len() == 32, 4)?;
        let [service, datum] = [operands[0] as usize, operands[1] as usize];
        let names = |b: usize, datum| self.blocks.get(b).is_some_and(|b| b.is_datum() == datum);
        refuse_if(!names(service, false) || !names(datum, true), 6)?;
        let edge = Edge {
            way,
            service,
            datum,
        };
        let has_writer = |e: &Edge| e.way == Way::Writes && e.datum == datum;
        let clashes = |e: &Edge| *e == edge || (way == Way::Writes && has_writer(e));
        refuse_if(self.edges.iter().any(clashes), 7)?;
        self.edges.push(edge);
        Ok(())
    }

    fn add_pin(&mut self, operands: &[u8]) -> Result<(), u8> {
        let cloud = operands[1];
        let clouds = self.clouds.len();
        let block = self.blocks.get_mut(operands[0] as usize).ok_or(6)?;
        refuse_if(cloud as usize >= clouds, 6)?;
        refuse_if(block.pin.is_some(), 7)?;
        block.pin = Some(cloud);
        Ok(())
    }

    fn add_apart(&mut self, operands: &[u8]) -> Result<(), u8> {
        refuse_if(self.apart.len() == 8, 4)?;
        let [one, other] = [operands[0] as usize, operands[1] as usize];
        let is_datum = |b: usize| self.blocks.get(b).is_some_and(Block::is_datum);
        refuse_if(!is_datum(one) || !is_datum(other), 6)?;
        let is_there = |pair: &[usize; 2]| *pair == [one, other] || *pair == [other, one];
        refuse_if(one == other || self.apart.iter().any(is_there), 7)?;
        self.apart.push([one, other]);
        Ok(())
    }
}
