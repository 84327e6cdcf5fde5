//! The bytes of a description and what they declare (docs/FORMAT.md, sections 1, 2 and 6).

use std::ops::Deref;

use panel::Refusal;

/// The highest byte that is a label, and the bits of its level and of its two marks.
const HIGHEST: u8 = 63;
const LEVEL: u8 = 0x0F;
const MARKS: u8 = 0x30;

/// A level and two marks.
#[derive(Clone, Copy)]
pub struct Label(u8);

impl Label {
    /// Refuses with 5 what is no label.
    fn of(byte: u8) -> Result<Self, u8> {
        refuse_if(byte > HIGHEST, 5)?;
        Ok(Label(byte))
    }

    /// Its level is as high at least, and it has every mark of the other.
    pub fn covers(self, other: Label) -> bool {
        let missing = other.0 & !self.0 & MARKS;
        self.0 & LEVEL >= other.0 & LEVEL && missing == 0
    }
}

#[derive(Clone, Copy)]
pub struct Cloud {
    pub label: Label,
    pub storage: u16,
    pub inward: u16,
    pub outward: u16,
    pub cpu: u16,
}

#[derive(Clone, Copy)]
pub enum Kind {
    Datum { gigabytes: u16, longevity: u16 },
    Service { clearance: Label, units: u32 },
}

#[derive(Clone, Copy)]
pub struct Block {
    /// The label of a datum, the location of a service.
    pub label: Label,
    pub kind: Kind,
    pub pin: Option<u8>,
}

#[derive(Clone, Copy, PartialEq)]
pub enum Way {
    Reads,
    Writes,
}

#[derive(Clone, Copy, PartialEq)]
pub struct Edge {
    pub way: Way,
    pub service: u8,
    pub datum: u8,
}

/// A list of at most N things. It is on the stack, so that a call allocates nothing for it.
#[derive(Clone, Copy)]
pub struct Few<T, const N: usize> {
    things: [T; N],
    count: usize,
}

impl<T: Copy, const N: usize> Few<T, N> {
    /// The filler stands where no thing is yet, and is not looked at.
    pub fn none(filler: T) -> Self {
        Few {
            things: [filler; N],
            count: 0,
        }
    }

    pub fn push(&mut self, thing: T) {
        self.things[self.count] = thing;
        self.count += 1;
    }

    pub fn extend(&mut self, things: &[T]) {
        self.things[self.count..][..things.len()].copy_from_slice(things);
        self.count += things.len();
    }

    fn refuse_if_full(&self) -> Result<(), u8> {
        refuse_if(self.count == N, 4)
    }
}

impl<T, const N: usize> Deref for Few<T, N> {
    type Target = [T];

    fn deref(&self) -> &[T] {
        &self.things[..self.count]
    }
}

pub struct Description {
    pub clouds: Few<Cloud, 8>,
    pub blocks: Few<Block, 16>,
    pub edges: Few<Edge, 32>,
    /// Pairs of data that no cloud may hold both of.
    pub apart: Few<[u8; 2], 8>,
}

/// What Read accepts: the description that the bytes spell, or its first refusal.
pub fn read(text: &[u8]) -> Result<Description, Refusal> {
    let mut described = Description::nothing();
    described.decode(text)?;
    described.check()?;
    Ok(described)
}

/// The number of a fault, if there is one.
fn refuse_if(fault: bool, number: u8) -> Result<(), u8> {
    if fault { Err(number) } else { Ok(()) }
}

/// Whole gigabytes for a size in tenths: up past a half, and at the half from an odd number.
fn charged(size: u16) -> u16 {
    let whole = size / 10;
    whole + u16::from(size % 10 + whole % 2 > 5)
}

impl Description {
    fn nothing() -> Self {
        let kind = Kind::Datum {
            gigabytes: 0,
            longevity: 0,
        };
        Description {
            clouds: Few::none(Cloud {
                label: Label(0),
                storage: 0,
                inward: 0,
                outward: 0,
                cpu: 0,
            }),
            blocks: Few::none(Block {
                label: Label(0),
                kind,
                pin: None,
            }),
            edges: Few::none(Edge {
                way: Way::Reads,
                service: 0,
                datum: 0,
            }),
            apart: Few::none([0; 2]),
        }
    }

    fn decode(&mut self, text: &[u8]) -> Result<(), Refusal> {
        let mut at = 0;
        while text.get(at) != Some(&0) {
            let place = at as u64;
            let added = self.add(&text[at..]);
            at += added.map_err(|number| Refusal { number, place })?;
        }
        let end = at + 1;
        refuse_at(3, (end < text.len()).then_some(end))?;
        let empty = self.clouds.is_empty() || self.blocks.is_empty();
        refuse_at(8, empty.then_some(end))
    }

    /// Adds the command that the text begins with, which is not 00; answers its width.
    fn add(&mut self, text: &[u8]) -> Result<usize, u8> {
        match *text {
            [1, label, s, t, i, j, o, p, c, d, ..] => {
                let rates = [[s, t], [i, j], [o, p], [c, d]];
                self.add_cloud(label, rates.map(u16::from_be_bytes))?;
                Ok(10)
            }
            [2, label, s, t, l, m, ..] => {
                let [size, longevity] = [[s, t], [l, m]].map(u16::from_be_bytes);
                self.add_datum(label, size, longevity)?;
                Ok(6)
            }
            [3, location, clearance, a, b, c, d, ..] => {
                let units = u32::from_be_bytes([a, b, c, d]);
                self.add_service(location, clearance, units)?;
                Ok(7)
            }
            [4, service, datum, ..] => self.add_edge(Way::Reads, service, datum),
            [5, service, datum, ..] => self.add_edge(Way::Writes, service, datum),
            [6, block, cloud, ..] => self.add_pin(block, cloud),
            [7, one, other, ..] => self.add_apart(one, other),
            [] | [1..=7, ..] => Err(1),
            _ => Err(2),
        }
    }

    fn add_cloud(&mut self, label: u8, rates: [u16; 4]) -> Result<(), u8> {
        self.clouds.refuse_if_full()?;
        let label = Label::of(label)?;
        let [storage, inward, outward, cpu] = rates;
        self.clouds.push(Cloud {
            label,
            storage,
            inward,
            outward,
            cpu,
        });
        Ok(())
    }

    fn add_datum(&mut self, label: u8, size: u16, longevity: u16) -> Result<(), u8> {
        self.blocks.refuse_if_full()?;
        self.blocks.push(Block {
            label: Label::of(label)?,
            kind: Kind::Datum {
                gigabytes: charged(size),
                longevity,
            },
            pin: None,
        });
        Ok(())
    }

    fn add_service(&mut self, location: u8, clearance: u8, units: u32) -> Result<(), u8> {
        self.blocks.refuse_if_full()?;
        let clearance = Label::of(clearance)?;
        self.blocks.push(Block {
            label: Label::of(location)?,
            kind: Kind::Service { clearance, units },
            pin: None,
        });
        Ok(())
    }

    fn add_edge(&mut self, way: Way, service: u8, datum: u8) -> Result<usize, u8> {
        self.edges.refuse_if_full()?;
        let kind = |block: u8| self.blocks.get(usize::from(block)).map(|b| b.kind);
        let names = (kind(service), kind(datum));
        let fit = matches!(
            names,
            (Some(Kind::Service { .. }), Some(Kind::Datum { .. }))
        );
        refuse_if(!fit, 6)?;
        let clashes = |e: &Edge| {
            e.datum == datum && e.way == way && (way == Way::Writes || e.service == service)
        };
        refuse_if(self.edges.iter().any(clashes), 7)?;
        self.edges.push(Edge {
            way,
            service,
            datum,
        });
        Ok(3)
    }

    fn add_pin(&mut self, block: u8, cloud: u8) -> Result<usize, u8> {
        let block = usize::from(block);
        let named = block < self.blocks.len() && usize::from(cloud) < self.clouds.len();
        refuse_if(!named, 6)?;
        let pin = &mut self.blocks.things[block].pin;
        refuse_if(pin.is_some(), 7)?;
        *pin = Some(cloud);
        Ok(3)
    }

    fn add_apart(&mut self, one: u8, other: u8) -> Result<usize, u8> {
        self.apart.refuse_if_full()?;
        let is_datum = |block: u8| {
            let block = self.blocks.get(usize::from(block));
            block.is_some_and(|b| matches!(b.kind, Kind::Datum { .. }))
        };
        refuse_if(!is_datum(one) || !is_datum(other), 6)?;
        let is_there = |pair: &[u8; 2]| *pair == [one, other] || *pair == [other, one];
        refuse_if(one == other || self.apart.iter().any(is_there), 7)?;
        self.apart.push([one, other]);
        Ok(3)
    }

    /// Rules 2, 3 and 4 and the limit on candidates: numbers 9 to 12.
    fn check(&self) -> Result<(), Refusal> {
        refuse_at(9, self.blocks.iter().position(breaks_rule_2))?;
        refuse_at(10, self.edges.iter().position(|e| self.breaks_rule_3(e)))?;
        refuse_at(11, self.edges.iter().position(|e| self.breaks_rule_4(e)))?;
        refuse_at(12, (self.candidate_count() > 65_536).then_some(0))
    }

    fn breaks_rule_3(&self, edge: &Edge) -> bool {
        let service = &self.blocks[usize::from(edge.service)];
        let datum = &self.blocks[usize::from(edge.datum)];
        let not_cleared = matches!(
            service.kind,
            Kind::Service { clearance, .. } if !clearance.covers(datum.label)
        );
        edge.way == Way::Reads && not_cleared
    }

    fn breaks_rule_4(&self, edge: &Edge) -> bool {
        let [service, datum] = [edge.service, edge.datum].map(usize::from);
        edge.way == Way::Writes && !self.blocks[datum].label.covers(self.blocks[service].label)
    }

    /// Rule 7 and the pin.
    pub fn may_stand(&self, block: &Block, cloud: u8) -> bool {
        self.clouds[usize::from(cloud)].label.covers(block.label)
            && block.pin.is_none_or(|pin| pin == cloud)
    }

    /// The clouds that a block may stand on, the lowest first.
    fn choices(&self, block: &Block) -> impl Iterator<Item = u8> {
        (0..self.clouds.len() as u8).filter(|&cloud| self.may_stand(block, cloud))
    }

    /// A bit for each cloud that the block may stand on.
    pub fn masks(&self) -> [u8; 16] {
        let mut masks = [0; 16];
        for (mask, block) in masks.iter_mut().zip(self.blocks.iter()) {
            *mask = self.choices(block).fold(0, |mask, cloud| mask | 1 << cloud);
        }
        masks
    }

    fn candidate_count(&self) -> u64 {
        let counts = self.blocks.iter().map(|b| self.choices(b).count() as u64);
        counts.product()
    }
}

fn breaks_rule_2(block: &Block) -> bool {
    matches!(block.kind, Kind::Service { clearance, .. } if !clearance.covers(block.label))
}

/// Refuses with the number, if there is a place.
pub fn refuse_at(number: u8, place: Option<usize>) -> Result<(), Refusal> {
    match place {
        Some(place) => Err(Refusal {
            number,
            place: place as u64,
        }),
        None => Ok(()),
    }
}
