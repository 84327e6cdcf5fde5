//! The descriptions that are measured. They come from a fixed seed, so every run has the same.

use reference::description::{Description, read};
use reference::random::Random;

const END: u8 = 0;
const SEED: u64 = 20_010_911;

/// From 1 to `most`, as two bytes.
fn number(random: &mut Random, most: usize) -> [u8; 2] {
    (random.below(most) as u16 + 1).to_be_bytes()
}

/// A description in the making.
struct Text {
    bytes: Vec<u8>,
    random: Random,
}

impl Text {
    fn new() -> Self {
        Text {
            bytes: Vec::new(),
            random: Random::new(SEED),
        }
    }

    fn cloud(&mut self, level: u8) {
        self.bytes.extend([1, level]);
        for most in [100, 50, 50, 100] {
            self.bytes.extend(number(&mut self.random, most));
        }
    }

    fn datum(&mut self, level: u8) {
        self.bytes.extend([2, level]);
        self.bytes.extend(number(&mut self.random, 2000));
        self.bytes.extend(number(&mut self.random, 60));
    }

    /// A service that may read every datum.
    fn service(&mut self, location: u8) {
        self.bytes.extend([3, location, 15, 0, 0]);
        self.bytes.extend(number(&mut self.random, 10_000));
    }

    /// Services of this location at the even numbers, data of this level at the odd ones.
    fn blocks(&mut self, count: usize, location: u8, level: u8) {
        for b in 0..count {
            if b % 2 == 0 {
                self.service(location);
            } else {
                self.datum(level);
            }
        }
    }

    fn reads(&mut self, service: usize, datum: usize) {
        self.bytes.extend([4, service as u8, datum as u8]);
    }

    fn writes(&mut self, service: usize, datum: usize) {
        self.bytes.extend([5, service as u8, datum as u8]);
    }

    fn apart(&mut self, one: usize, other: usize) {
        self.bytes.extend([7, one as u8, other as u8]);
    }

    /// Some service writes each datum but the first; the other edges read, each another pair.
    fn edges(&mut self, blocks: usize, count: usize) {
        let (services, data) = (blocks.div_ceil(2), blocks / 2);
        for datum in 1..data {
            let service = self.random.below(services);
            self.writes(2 * service, 2 * datum + 1);
        }
        let mut pairs: Vec<_> = (0..services * data).collect();
        for _ in data.saturating_sub(1)..count {
            if pairs.is_empty() {
                break;
            }
            let pair = pairs.swap_remove(self.random.below(pairs.len()));
            self.reads(2 * (pair % services), 2 * (pair / services) + 1);
        }
    }

    fn end(mut self) -> Vec<u8> {
        self.bytes.push(END);
        self.bytes
    }
}

/// What is measured, as the reference reads it.
pub fn accepted(text: &[u8]) -> Description {
    read(text).expect("what is measured is accepted")
}

/// Edges in proportion to the blocks, 20 for 16.
pub fn edges_for(blocks: usize) -> usize {
    blocks * 5 / 4
}

/// Every block may use every cloud, so every candidate is secure.
pub fn open(blocks: usize, clouds: u8, edges: usize) -> Vec<u8> {
    let mut text = Text::new();
    for _ in 0..clouds {
        text.cloud(0);
    }
    text.blocks(blocks, 0, 0);
    text.edges(blocks, edges);
    text.end()
}

/// Every block may use two of eight clouds, those that are high enough for it; these are high enough
/// for all data, so every candidate is secure.
pub fn narrow(blocks: usize, high: [u8; 2], edges: usize) -> Vec<u8> {
    let mut text = Text::new();
    for cloud in 0..8 {
        text.cloud(u8::from(high.contains(&cloud)));
    }
    text.blocks(blocks, 1, 1);
    text.edges(blocks, edges);
    text.end()
}

/// The same with every block pinned to cloud 0, where all may stand: one candidate.
pub fn pinned(text: &[u8], blocks: usize) -> Vec<u8> {
    with_pins(text, (0..blocks as u8).map(|block| [block, 0]))
}

/// A block and its cloud for each pin.
fn with_pins(text: &[u8], pins: impl Iterator<Item = [u8; 2]>) -> Vec<u8> {
    let mut bytes = text[..text.len() - 1].to_vec();
    for [block, cloud] in pins {
        bytes.extend([6, block, cloud]);
    }
    bytes.push(END);
    bytes
}

/// Data that half of the eight clouds are too low for: most candidates break rule 16.
pub fn guarded(blocks: usize, edges: usize) -> Vec<u8> {
    let mut text = Text::new();
    for level in 0..8 {
        text.cloud(level);
    }
    text.blocks(blocks, 0, 4);
    text.edges(blocks, edges);
    text.end()
}

/// As many clouds, blocks and edges as there may be. Every third block is free, which makes 4,096
/// candidates; the others are on clouds that are high enough for all data, so that there are rows.
pub fn largest() -> Vec<u8> {
    let fixed = (0..16).filter(|block| block % 3 != 1);
    with_pins(&guarded(16, 32), fixed.map(|block| [block, 4 + block % 4]))
}

/// Data alone on two clouds: every placement is an option of its own.
pub fn data(blocks: usize) -> Vec<u8> {
    let mut text = Text::new();
    for _ in 0..2 {
        text.cloud(0);
    }
    for _ in 0..blocks {
        text.datum(0);
    }
    text.end()
}

/// Service, datum, service, datum on two clouds, each datum written by the service before it and
/// read by the one behind it: many placements are one option.
pub fn chain(blocks: usize) -> Vec<u8> {
    let mut text = Text::new();
    for _ in 0..2 {
        text.cloud(0);
    }
    text.blocks(blocks, 0, 0);
    for datum in (1..blocks).step_by(2) {
        text.writes(datum - 1, datum);
        if datum + 1 < blocks {
            text.reads(datum + 1, datum);
        }
    }
    text.end()
}

/// Such a chain on four clouds, but nothing reads its first datum. That one is apart from all
/// others, and the second from the last: eight pairs. The first two blocks are on cloud 0, those
/// behind them on cloud 1, and the last so many are free. Of eight free blocks one placement in
/// twenty keeps the pairs; cheaper ones break them, so that a draw has many of them to test.
pub fn apart(free: usize) -> Vec<u8> {
    let mut text = Text::new();
    for _ in 0..4 {
        text.cloud(0);
    }
    text.blocks(16, 0, 0);
    text.writes(0, 1);
    for datum in (3..16).step_by(2) {
        text.writes(datum - 1, datum);
        if datum + 1 < 16 {
            text.reads(datum + 1, datum);
        }
        text.apart(1, datum);
    }
    text.apart(3, 15);
    let fixed = 0..16 - free as u8;
    with_pins(&text.end(), fixed.map(|block| [block, u8::from(block > 1)]))
}
