//! A description in the making, command by command.

use std::ops::Range;

use reference::label::{EMBARGO, Label, SOURCE};
use reference::random::Random;

const END: u8 = 0;
const CLOUD: u8 = 1;
const DATUM: u8 = 2;
pub const SERVICE: u8 = 3;
pub const READS: u8 = 4;
pub const WRITES: u8 = 5;
const PIN: u8 = 6;
pub const APART: u8 = 7;

const BOTH: u8 = EMBARGO | SOURCE;
const HIGHEST_LEVEL: u8 = 15;

/// The marks that the labels of a description have, each of them one of the same few: no mark at all
/// on a good part of the descriptions.
const MARKS: [&[u8]; 12] = [
    &[0],
    &[0],
    &[0],
    &[0],
    &[EMBARGO],
    &[SOURCE],
    &[BOTH],
    &[0, EMBARGO],
    &[0, SOURCE],
    &[EMBARGO, SOURCE],
    &[0, EMBARGO, SOURCE, BOTH],
    &[0, EMBARGO, SOURCE, BOTH],
];

pub fn some_marks(random: &mut Random) -> &'static [u8] {
    random.pick(&MARKS)
}

/// A clearance for all data with such marks.
pub fn cleared_for(marks: &[u8]) -> u8 {
    marks.iter().fold(HIGHEST_LEVEL, |all, mark| all | mark)
}

/// How many of each thing are to be declared, and of what kind.
pub struct Plan {
    pub clouds: usize,
    pub blocks: usize,
    pub edges: usize,
    pub pins: usize,
    pub pairs: usize,
    /// Pins are added until there are no more candidates than this.
    pub candidates: u64,
    /// The highest level that is used.
    pub highest: u8,
    /// What the labels have of marks.
    pub marks: &'static [u8],
    /// Of so many services and edges one may break rules 2, 3 and 4.
    pub lawless: usize,
    pub shuffled: bool,
}

#[derive(Clone, Copy)]
enum Prices {
    Free,
    /// So low that many costs are equal.
    Low,
    Extreme,
    Any,
}

#[derive(Clone, Copy)]
struct Block {
    is_datum: bool,
    label: u8,
    clearance: u8,
    pin: Option<usize>,
}

pub struct Text<'a> {
    bytes: Vec<u8>,
    random: &'a mut Random,
    prices: Prices,
    clouds: Vec<u8>,
    blocks: Vec<Block>,
    edges: Vec<[u8; 3]>,
    pairs: Vec<[u8; 2]>,
}

impl<'a> Text<'a> {
    pub fn new(random: &'a mut Random) -> Self {
        let prices = [Prices::Free, Prices::Low, Prices::Low, Prices::Any];
        let prices = match random.below(8) {
            0 => Prices::Extreme,
            _ => random.pick(&prices),
        };
        Text {
            bytes: Vec::new(),
            random,
            prices,
            clouds: Vec::new(),
            blocks: Vec::new(),
            edges: Vec::new(),
            pairs: Vec::new(),
        }
    }

    /// The bytes of a whole description by the plan.
    pub fn by(mut self, plan: &Plan) -> Vec<u8> {
        let block = [DATUM, DATUM, SERVICE];
        let mut steps = vec![CLOUD; plan.clouds];
        steps.extend((0..plan.blocks).map(|_| self.random.pick(&block)));
        steps.extend((0..plan.edges).map(|_| self.random.pick(&[READS, READS, WRITES])));
        steps.extend(vec![PIN; plan.pins]);
        steps.extend(vec![APART; plan.pairs]);
        if plan.shuffled {
            self.random.shuffle(&mut steps);
        }
        for step in steps {
            self.step(step, plan);
        }
        self.tame(plan.candidates);
        self.end()
    }

    /// Declares one thing more, if there is one that may be declared.
    fn step(&mut self, step: u8, plan: &Plan) {
        let lawless = self.random.one_in(plan.lawless);
        let level = self.random.below(usize::from(plan.highest) + 1) as u8;
        match step {
            CLOUD => {
                let level = self.cloud_level(level, plan.highest);
                let marks = self.random.pick(plan.marks);
                self.cloud(level | marks);
            }
            DATUM => {
                let marks = self.block_marks(plan.marks);
                self.datum(level | marks);
            }
            SERVICE => {
                let location = level | self.location_marks(plan.marks);
                let above = self.random.below(usize::from(plan.highest - level) + 1) as u8;
                let clearance = self.clearance(location, level + above, plan.marks, lawless);
                self.service(location, clearance);
            }
            PIN => self.pin_any(),
            APART => self.pair_any(),
            way => self.edge(way, lawless),
        }
    }

    /// Mostly high enough for some block, or there would seldom be a candidate.
    fn cloud_level(&mut self, level: u8, highest: u8) -> u8 {
        match self.random.below(3) {
            0 => level,
            1 => highest,
            _ => level.max(self.random.below(usize::from(highest) + 1) as u8),
        }
    }

    /// Mostly marks that some cloud has, or there would seldom be a candidate.
    pub fn block_marks(&mut self, marks: &[u8]) -> u8 {
        let marks = self.random.pick(marks);
        if self.clouds.is_empty() || self.random.one_in(8) {
            return marks;
        }
        marks & self.random.pick(&self.clouds)
    }

    /// If labels differ in their marks, a location often has none, so that services may write.
    fn location_marks(&mut self, marks: &[u8]) -> u8 {
        if marks.len() > 1 && self.random.one_in(2) {
            return 0;
        }
        self.block_marks(marks)
    }

    /// A clearance of this level, mostly with all marks that labels have; a lawless one without any,
    /// or without a level.
    fn clearance(&mut self, location: u8, level: u8, marks: &[u8], lawless: bool) -> u8 {
        if lawless {
            return self.random.pick(&[0, level]);
        }
        let all = cleared_for(marks);
        let more = self.random.pick(&[all, all, all, location]);
        level | more & BOTH
    }

    fn number(&mut self) -> [u8; 2] {
        let number = match self.prices {
            Prices::Free => 0,
            Prices::Low => self.random.below(4) as u16,
            Prices::Extreme => self.random.pick(&[0, 65_535, 65_535]),
            Prices::Any => self.random.word() as u16,
        };
        number.to_be_bytes()
    }

    /// Low sizes, in tenths, are charged as 0 to 4 gigabytes; of the others many are at a half.
    fn size(&mut self) -> [u8; 2] {
        match self.prices {
            Prices::Low => (self.random.below(46) as u16).to_be_bytes(),
            Prices::Any if self.random.one_in(2) => {
                (self.random.below(6_554) as u16 * 10 + 5).to_be_bytes()
            }
            _ => self.number(),
        }
    }

    pub fn cloud(&mut self, label: u8) {
        self.clouds.push(label);
        self.bytes.extend([CLOUD, label]);
        for _ in 0..4 {
            let rate = self.number();
            self.bytes.extend(rate);
        }
    }

    pub fn datum(&mut self, label: u8) {
        let [size, longevity] = [self.size(), self.number()];
        self.datum_of(label, size, longevity);
    }

    /// A datum that is kept so briefly that the price of a copy may decide where it stands.
    pub fn brief_datum(&mut self, label: u8) {
        let size = self.size();
        let longevity = self.random.pick(&[0u16, 0, 1, 1, 2]).to_be_bytes();
        self.datum_of(label, size, longevity);
    }

    fn datum_of(&mut self, label: u8, size: [u8; 2], longevity: [u8; 2]) {
        self.block(true, label, 0);
        self.bytes.extend([DATUM, label]);
        self.bytes.extend([size, longevity].concat());
    }

    pub fn service(&mut self, location: u8, clearance: u8) {
        self.block(false, location, clearance);
        self.bytes.extend([SERVICE, location, clearance]);
        for _ in 0..2 {
            let number = self.number();
            self.bytes.extend(number);
        }
    }

    fn block(&mut self, is_datum: bool, label: u8, clearance: u8) {
        self.blocks.push(Block {
            is_datum,
            label,
            clearance,
            pin: None,
        });
    }

    /// The number of some datum or service.
    fn some_block(&mut self, is_datum: bool) -> Option<usize> {
        let numbers = 0..self.blocks.len();
        let fitting: Vec<usize> = numbers
            .filter(|&b| self.blocks[b].is_datum == is_datum)
            .collect();
        (!fitting.is_empty()).then(|| self.random.pick(&fitting))
    }

    /// An edge that is not there yet; after some tries there is none.
    pub fn edge(&mut self, way: u8, lawless: bool) {
        for _ in 0..8 {
            let (Some(service), Some(datum)) = (self.some_block(false), self.some_block(true))
            else {
                return;
            };
            if self.link([way, service as u8, datum as u8], lawless) {
                return;
            }
        }
    }

    /// Adds the edge unless it may not be there, and says whether it did.
    pub fn link(&mut self, edge: [u8; 3], lawless: bool) -> bool {
        let takes = self.takes(edge) && (lawless || self.is_lawful(edge));
        if takes {
            self.edges.push(edge);
            self.bytes.extend(edge);
        }
        takes
    }

    fn takes(&self, edge: [u8; 3]) -> bool {
        let [way, _, datum] = edge;
        let clashes =
            |e: &[u8; 3]| *e == edge || (way == WRITES && e[0] == WRITES && e[2] == datum);
        !self.edges.iter().any(clashes)
    }

    /// Rules 3 and 4.
    fn is_lawful(&self, [way, service, datum]: [u8; 3]) -> bool {
        let service = self.blocks[usize::from(service)];
        let datum = self.blocks[usize::from(datum)];
        match way {
            READS => covers(service.clearance, datum.label),
            _ => covers(datum.label, service.label),
        }
    }

    /// A pair of data that is not there yet; after some tries there is none. Seldom one that no
    /// placement keeps, since a service has to do with both.
    pub fn pair_any(&mut self) {
        let hopeless = self.random.one_in(6);
        for _ in 0..8 {
            let (Some(one), Some(other)) = (self.some_block(true), self.some_block(true)) else {
                return;
            };
            let pair = [one as u8, other as u8];
            if self.takes_pair(pair) && (hopeless || !self.share_a_service(pair)) {
                self.pair(pair);
                return;
            }
        }
    }

    pub fn pair(&mut self, [one, other]: [u8; 2]) {
        self.pairs.push([one, other]);
        self.bytes.extend([APART, one, other]);
    }

    fn takes_pair(&self, [one, other]: [u8; 2]) -> bool {
        let is_there = |pair: &[u8; 2]| *pair == [one, other] || *pair == [other, one];
        one != other && !self.pairs.iter().any(is_there)
    }

    fn share_a_service(&self, [one, other]: [u8; 2]) -> bool {
        let names = |service, datum| self.edges.iter().any(|e| e[1..] == [service, datum]);
        let mut services = self.edges.iter().map(|e| e[1]);
        services.any(|service| names(service, one) && names(service, other))
    }

    fn pin_any(&mut self) {
        let open: Vec<usize> = self.unpinned().collect();
        if !open.is_empty() && !self.clouds.is_empty() {
            let block = self.random.pick(&open);
            let cloud = self.random.below(self.clouds.len());
            self.pin(block, cloud);
        }
    }

    fn unpinned(&self) -> impl Iterator<Item = usize> {
        (0..self.blocks.len()).filter(|&block| self.blocks[block].pin.is_none())
    }

    fn pin(&mut self, block: usize, cloud: usize) {
        self.blocks[block].pin = Some(cloud);
        self.bytes.extend([PIN, block as u8, cloud as u8]);
    }

    /// The clouds that a block may stand on.
    fn choices(&self, block: usize) -> Vec<usize> {
        let Block { label, pin, .. } = self.blocks[block];
        let may_stand = |&cloud: &usize| {
            covers(self.clouds[cloud], label) && pin.is_none_or(|pin| pin == cloud)
        };
        (0..self.clouds.len()).filter(may_stand).collect()
    }

    fn candidates(&self) -> u64 {
        let blocks = 0..self.blocks.len();
        blocks
            .map(|block| self.choices(block).len() as u64)
            .product()
    }

    /// Pins blocks to clouds that they may stand on, until there are few candidates.
    pub fn tame(&mut self, most: u64) {
        let mut open: Vec<usize> = self.unpinned().collect();
        self.random.shuffle(&mut open);
        for block in open {
            if self.candidates() <= most {
                return;
            }
            let choices = self.choices(block);
            if choices.len() > 1 {
                let cloud = self.random.pick(&choices);
                self.pin(block, cloud);
            }
        }
    }

    pub fn end(mut self) -> Vec<u8> {
        self.bytes.push(END);
        self.bytes
    }
}

fn covers(upper: u8, lower: u8) -> bool {
    let [upper, lower] = [upper, lower].map(|byte| Label::of(byte).expect("no byte above 63"));
    upper.covers(lower)
}

/// Some datum's size is halfway between two whole numbers of gigabytes.
pub fn has_half(text: &[u8]) -> bool {
    let is_half = |command: &[u8]| match *command {
        [DATUM, _, high, low, ..] => u16::from_be_bytes([high, low]) % 10 == 5,
        _ => false,
    };
    commands(text).into_iter().any(|at| is_half(&text[at]))
}

/// Where the commands of a text are, as far as there are any.
pub fn commands(text: &[u8]) -> Vec<Range<usize>> {
    let mut found = Vec::new();
    let mut at = 0;
    while let Some(&command) = text.get(at) {
        let width = match command {
            CLOUD => 10,
            DATUM => 6,
            SERVICE => 7,
            READS | WRITES | PIN | APART => 3,
            _ => break,
        };
        let end = (at + width).min(text.len());
        found.push(at..end);
        at = end;
    }
    found
}
