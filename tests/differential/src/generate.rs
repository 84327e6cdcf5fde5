//! Descriptions of every kind: sound, at a boundary, damaged, and bytes at random.

use reference::label::{EMBARGO, HIGHEST, SOURCE};
use reference::random::Random;

use crate::text::{APART, Plan, READS, SERVICE, Text, WRITES, cleared_for, commands, some_marks};

#[derive(Clone, Copy, PartialEq, Eq, PartialOrd, Ord, Debug)]
pub enum Kind {
    Sound,
    Boundary,
    Damaged,
    Garbage,
}

/// Some description, mostly a small one: these are where calls are quick.
pub fn description(random: &mut Random) -> (Kind, Vec<u8>) {
    match random.below(100) {
        0..32 => (Kind::Sound, sound(random)),
        32..48 => (Kind::Sound, pipe(random)),
        48..62 => (Kind::Boundary, boundary(random)),
        62..94 => (Kind::Damaged, damaged(random)),
        _ => (Kind::Garbage, garbage(random)),
    }
}

fn sound(random: &mut Random) -> Vec<u8> {
    let plan = Plan {
        clouds: random.pick(&[1, 2, 2, 2, 3, 3, 4]),
        blocks: random.pick(&[1, 2, 3, 3, 4, 4, 5, 5, 6, 7, 9, 12]),
        edges: random.below(12),
        pins: random.pick(&[0, 0, 0, 1, 2]),
        pairs: random.pick(&[0, 0, 1, 1, 2]),
        candidates: random.pick(&[8, 16, 32, 64, 64, 256]),
        highest: random.pick(&[0, 1, 1, 2, 3, 15]),
        marks: some_marks(random),
        lawless: 40,
        shuffled: random.one_in(4),
    };
    Text::new(random).by(&plan)
}

/// Data that are each written by one service and read by another, so that options merge, in half of
/// the texts kept briefly; with a reader more here and there, where they do not.
fn pipe(random: &mut Random) -> Vec<u8> {
    let [clouds, length] = random.pick(&[[2, 3], [2, 5], [2, 6], [3, 3], [3, 4], [4, 3]]);
    let levels: [usize; 2] = random.pick(&[[1, 1], [1, 1], [2, 1], [2, 2], [3, 2]]);
    let mut level = |from: usize| random.below(levels[from]) as u8;
    let clouds: Vec<u8> = (0..clouds).map(|_| level(0)).collect();
    let blocks: Vec<u8> = (0..length).map(|_| level(1)).collect();
    let marks = some_marks(random);
    let clouds = clouds.into_iter().map(|level| level | random.pick(marks));
    let clouds: Vec<u8> = clouds.collect();
    let more_readers = random.pick(&[0, 0, 1]);
    let kept_apart = random.pick(&[false, false, true]);
    let brief = random.one_in(2);
    let mut text = Text::new(random);
    for label in clouds {
        text.cloud(label);
    }
    let blocks = blocks
        .into_iter()
        .map(|level| level | text.block_marks(marks));
    let blocks: Vec<u8> = blocks.collect();
    services_and_data(&mut text, &blocks, cleared_for(marks), brief);
    for _ in 0..more_readers {
        text.edge(READS, true);
    }
    if kept_apart {
        // A datum by itself, and one of the pipe's that it may not meet.
        text.datum(0);
        text.pair([length as u8, 1]);
    }
    text.tame(81);
    text.end()
}

/// Service, datum, service, datum: each datum written by the service before it and read by the one
/// after it.
fn services_and_data(text: &mut Text, labels: &[u8], clearance: u8, brief: bool) {
    for (block, &label) in labels.iter().enumerate() {
        match (block % 2, brief) {
            (0, _) => text.service(0, clearance),
            (_, false) => text.datum(label),
            (_, true) => text.brief_datum(label),
        }
    }
    let length = labels.len() as u8;
    for datum in (1..length).step_by(2) {
        text.link([WRITES, datum - 1, datum], true);
        if datum + 1 < length {
            text.link([READS, datum + 1, datum], true);
        }
    }
}

fn boundary(random: &mut Random) -> Vec<u8> {
    match random.below(12) {
        0 => without_some(random),
        1 => many_clouds(random),
        2 => many_blocks(random),
        3 => many_edges(random),
        4 => high_labels(random),
        5 => other_marks(random),
        6 => many_pairs(random),
        7 => odd_pairs(random),
        8 => mixed_labels(random),
        9 => two_of_eight(random),
        _ => many_candidates(random),
    }
}

fn calm_plan(random: &mut Random, clouds: usize, blocks: usize) -> Plan {
    Plan {
        clouds,
        blocks,
        edges: 4,
        pins: 0,
        pairs: 0,
        candidates: 64,
        highest: 2,
        marks: some_marks(random),
        lawless: 1000,
        shuffled: false,
    }
}

/// No cloud, or no block, or neither.
fn without_some(random: &mut Random) -> Vec<u8> {
    let [clouds, blocks] = random.pick(&[[0, 0], [0, 2], [1, 0], [8, 0]]);
    let plan = calm_plan(random, clouds, blocks);
    Text::new(random).by(&plan)
}

/// Eight clouds, or one too many.
fn many_clouds(random: &mut Random) -> Vec<u8> {
    let [clouds, blocks] = [random.pick(&[8, 8, 9]), 1 + random.below(3)];
    let plan = calm_plan(random, clouds, blocks);
    Text::new(random).by(&plan)
}

/// Sixteen blocks, or one too many.
fn many_blocks(random: &mut Random) -> Vec<u8> {
    let [clouds, blocks] = [1 + random.below(3), random.pick(&[16, 16, 17])];
    let plan = calm_plan(random, clouds, blocks);
    Text::new(random).by(&plan)
}

/// Thirty-two edges, or one too many; all services may read and write all data.
fn many_edges(random: &mut Random) -> Vec<u8> {
    let edges = random.pick(&[31, 32, 32, 33]);
    let marks = some_marks(random);
    let clouds = [0, 1].map(|level| level | random.pick(marks));
    let mut text = Text::new(random);
    for label in clouds {
        text.cloud(label);
    }
    for _ in 0..8 {
        text.service(0, cleared_for(marks));
        let label = text.block_marks(marks);
        text.datum(label);
    }
    for _ in 0..edges {
        text.edge(READS, true);
    }
    text.tame(64);
    text.end()
}

/// Eight pairs, or one too many, of enough data.
fn many_pairs(random: &mut Random) -> Vec<u8> {
    let [clouds, blocks] = [random.pick(&[2, 3, 4, 8]), 10 + random.below(6)];
    let plan = Plan {
        edges: random.below(3),
        pairs: random.pick(&[8, 8, 9]),
        highest: random.pick(&[0, 0, 1]),
        ..calm_plan(random, clouds, blocks)
    };
    Text::new(random).by(&plan)
}

/// A pair more that names a datum twice, a service, what is not declared, or a pair that is there.
fn odd_pairs(random: &mut Random) -> Vec<u8> {
    let blocks = 6 + random.below(6);
    let plan = Plan {
        pairs: random.pick(&[1, 2, 7, 8]),
        ..calm_plan(random, 2, blocks)
    };
    let mut text = Text::new(random).by(&plan);
    let pairs: Vec<[u8; 2]> = commands(&text)
        .into_iter()
        .filter(|command| text[command.start] == APART)
        .map(|command| [text[command.start + 1], text[command.start + 2]])
        .collect();
    let [one, other] = match pairs.as_slice() {
        [] => [0, 0],
        pairs => random.pick(pairs),
    };
    let names = match random.below(6) {
        0 => [one, one],
        1 => [one, other],
        2 => [other, one],
        3 => [one, random.below(20) as u8],
        4 => [random.below(20) as u8, other],
        _ => [random.byte(), random.byte()],
    };
    let end = text.len() - 1;
    insert(&mut text, end, &[APART, names[0], names[1]]);
    text
}

/// Where some label, location or clearance of the text is, if it has one.
fn some_label(random: &mut Random, text: &[u8]) -> Option<usize> {
    let labelled = commands(text).into_iter().filter(|c| text[c.start] <= 3);
    let starts: Vec<usize> = labelled.map(|command| command.start).collect();
    if starts.is_empty() {
        return None;
    }
    let start = random.pick(&starts);
    let operands = if text[start] == SERVICE { 2 } else { 1 };
    Some(start + 1 + random.below(operands))
}

/// One label, location or clearance is the highest that there is, or above it.
fn high_labels(random: &mut Random) -> Vec<u8> {
    let mut text = sound(random);
    if let Some(at) = some_label(random, &text) {
        let above = [HIGHEST + 1, HIGHEST + 2, 79, 127, 128, 255];
        text[at] = match random.below(4) {
            0 => HIGHEST,
            _ => random.pick(&above),
        };
    }
    text
}

/// One label, location or clearance has a mark more or less.
fn other_marks(random: &mut Random) -> Vec<u8> {
    let mut text = sound(random);
    if let Some(at) = some_label(random, &text) {
        text[at] ^= random.pick(&[EMBARGO, SOURCE]);
    }
    text
}

/// How many clouds each block may use: products at and around the limit of 65,536.
const FACTORS: [&[u8]; 10] = [
    &[2; 16],                        // 65,536
    &[4; 8],                         // 65,536
    &[8, 8, 8, 8, 8, 2],             // 65,536
    &[8, 1, 8, 4, 8, 2, 4, 4],       // 65,536
    &[3, 3, 3, 7, 7, 7, 7],          // 64,827
    &[3; 10],                        // 59,049
    &[3, 3, 3, 3, 3, 3, 3, 3, 2, 5], // 65,610
    &[5, 5, 5, 5, 5, 3, 7],          // 65,625
    &[7, 7, 7, 2, 2, 2, 2, 2, 2, 3], // 65,856
    &[8; 16],                        // 2^48
];

/// Eight clouds of levels 0 to 7, so that a block of level v may use 8 - v of them; all have the same
/// marks, and blocks have these or none.
fn many_candidates(random: &mut Random) -> Vec<u8> {
    let mut factors = random.pick(&FACTORS).to_vec();
    random.shuffle(&mut factors);
    let fits_nowhere = random.one_in(10);
    let pairs = random.pick(&[0, 0, 1, 2]);
    let marks = random.pick(&[0, 0, EMBARGO, SOURCE, EMBARGO | SOURCE]);
    let mut text = Text::new(random);
    for level in 0..8 {
        text.cloud(level | marks);
    }
    for (block, factor) in factors.into_iter().enumerate() {
        let label = (8 - factor) | text.block_marks(&[0, marks]);
        if block % 3 == 0 {
            text.service(label, cleared_for(&[marks]));
        } else {
            text.datum(label);
        }
    }
    if fits_nowhere {
        text.datum(8);
    }
    for way in [READS, WRITES, READS, WRITES, READS, READS] {
        text.edge(way, false);
    }
    for _ in 0..pairs {
        text.pair_any();
    }
    text.end()
}

/// Five clouds or more, so that those that a block may use lie apart, and up to sixteen blocks.
fn mixed_labels(random: &mut Random) -> Vec<u8> {
    let [clouds, blocks] = [5 + random.below(4), 1 + random.below(16)];
    let plan = Plan {
        pins: random.below(4),
        candidates: random.pick(&[64, 256]),
        highest: random.pick(&[1, 1, 2, 3, 15]),
        ..calm_plan(random, clouds, blocks)
    };
    Text::new(random).by(&plan)
}

/// A label, and one that does not cover it: by its level, by a mark, by one of two.
const COVERED_AND_NOT: [[u8; 2]; 6] = [
    [1, 0],
    [1, EMBARGO | SOURCE],
    [EMBARGO, 15],
    [SOURCE, 15 | EMBARGO],
    [1 | EMBARGO, EMBARGO],
    [EMBARGO | SOURCE, 15 | SOURCE],
];

/// Sixteen blocks that two of eight clouds cover: 65,536 candidates, or too many with one block that
/// may stand anywhere.
fn two_of_eight(random: &mut Random) -> Vec<u8> {
    let [label, not] = random.pick(&COVERED_AND_NOT);
    let mut clouds = [label, label, not, not, not, not, not, not];
    random.shuffle(&mut clouds);
    let last = if random.one_in(4) { 0 } else { label };
    let mut text = Text::new(random);
    for label in clouds {
        text.cloud(label);
    }
    for _ in 0..7 {
        text.service(label, cleared_for(&[label]));
        text.datum(label);
    }
    text.service(label, cleared_for(&[label]));
    text.datum(last);
    for way in [READS, WRITES, READS, WRITES] {
        text.edge(way, false);
    }
    text.end()
}

fn damaged(random: &mut Random) -> Vec<u8> {
    let mut text = match random.below(8) {
        0 => boundary(random),
        _ => sound(random),
    };
    for _ in 0..random.pick(&[1, 1, 1, 2, 3]) {
        damage(random, &mut text);
    }
    text
}

fn damage(random: &mut Random, text: &mut Vec<u8>) {
    let at = random.below(text.len() + 1);
    match random.below(10) {
        0 => text.truncate(at),
        1 => flip(random, text, at),
        2 | 3 => overwrite(random, text, at),
        4 => insert(text, at, &some_bytes(random, 4)),
        5 => insert_command(random, text),
        6 => drop(text.drain(at..(at + 1 + random.below(6)).min(text.len()))),
        7 | 8 => repeat_command(random, text),
        _ => text.extend(some_bytes(random, 12)),
    }
}

fn flip(random: &mut Random, text: &mut [u8], at: usize) {
    if let Some(byte) = text.get_mut(at) {
        *byte ^= 1 << random.below(8);
    }
}

fn overwrite(random: &mut Random, text: &mut [u8], at: usize) {
    if let Some(byte) = text.get_mut(at) {
        *byte = telling_byte(random);
    }
}

fn insert(text: &mut Vec<u8>, at: usize, bytes: &[u8]) {
    text.splice(at..at, bytes.iter().copied());
}

/// The start of some command, or of what comes after the last.
fn some_start(random: &mut Random, text: &[u8]) -> usize {
    let commands = commands(text);
    let starts: Vec<usize> = commands.iter().map(|command| command.start).collect();
    let last = commands.last().map_or(0, |command| command.end);
    random.pick(&[&starts[..], &[last]].concat())
}

fn insert_command(random: &mut Random, text: &mut Vec<u8>) {
    // Of these 08 is no command.
    let command = random.below(9) as u8;
    let width = [1, 10, 6, 7, 3, 3, 3, 3, 2][usize::from(command)];
    let mut bytes = vec![command];
    bytes.extend((1..width).map(|_| random.below(4) as u8));
    insert(text, some_start(random, text), &bytes);
}

/// A command once more, further down or further up.
fn repeat_command(random: &mut Random, text: &mut Vec<u8>) {
    let commands = commands(text);
    if !commands.is_empty() {
        let command = commands[random.below(commands.len())].clone();
        let bytes = text[command].to_vec();
        insert(text, some_start(random, text), &bytes);
    }
}

/// A byte that may mean something where it stands, or any.
fn telling_byte(random: &mut Random) -> u8 {
    match random.below(3) {
        0 => random.byte(),
        1 => random.pick(&[7, 8, 9, 15, 16, 17, 31, 32, 48, 63, 64, 255]),
        _ => random.below(8) as u8,
    }
}

fn some_bytes(random: &mut Random, most: usize) -> Vec<u8> {
    let length = 1 + random.below(most);
    (0..length).map(|_| telling_byte(random)).collect()
}

fn garbage(random: &mut Random) -> Vec<u8> {
    let length = match random.below(40) {
        0 => random.below(70_000),
        1..8 => random.below(3),
        _ => random.below(60),
    };
    let highest = random.pick(&[2, 8, 8, 16, 64, 256]);
    (0..length).map(|_| random.below(highest) as u8).collect()
}

#[cfg(test)]
mod tests {
    use super::*;
    use crate::copies::Turned;
    use crate::labels;
    use crate::mask::has_gap;
    use reference::description::{decode, read};
    use std::collections::BTreeMap;

    /// What the reference says of so many texts: how many clouds, blocks, edges, candidates and
    /// pairs, or the number of the refusal.
    fn seen(make: fn(&mut Random) -> Vec<u8>, times: usize) -> Vec<Result<[u64; 5], u8>> {
        let mut random = Random::new(1);
        let mut look = || {
            let described = read(&make(&mut random)).map_err(|refusal| refusal.number)?;
            let [clouds, blocks] = [described.clouds.len(), described.blocks.len()];
            let [edges, pairs] = [described.edges.len(), described.apart.len()];
            let [clouds, blocks, edges, pairs] =
                [clouds, blocks, edges, pairs].map(|count| count as u64);
            Ok([clouds, blocks, edges, described.candidate_count(), pairs])
        };
        (0..times).map(|_| look()).collect()
    }

    #[test]
    fn one_seed_gives_one_input() {
        let texts = || {
            let mut random = Random::new(7);
            Vec::from_iter((0..50).map(|_| description(&mut random)))
        };
        assert_eq!(texts(), texts());
    }

    #[test]
    fn sound_texts_break_no_more_than_the_rules() {
        let seen = seen(sound, 2000);
        let accepted = seen.iter().filter(|seen| seen.is_ok()).count();
        assert!(accepted > 1600, "{accepted}");
        let refused = |seen: &Result<_, u8>| matches!(seen, Err(1..=8 | 12));
        assert!(!seen.iter().any(refused));
    }

    #[test]
    fn pipes_are_accepted() {
        assert!(seen(pipe, 500).iter().all(Result::is_ok));
    }

    /// In a good part of the pipes the price of copies decides which placement is the row, by cost
    /// and by bytes.
    #[test]
    fn copies_decide_in_pipes() {
        let mut random = Random::new(1);
        let (mut by_cost, mut by_bytes) = (0, 0);
        for _ in 0..1000 {
            let described = read(&pipe(&mut random)).expect("pipes are accepted");
            let turned = Turned::of(&described, &described.rows());
            by_cost += u32::from(turned.rows > turned.tied);
            by_bytes += u32::from(turned.tied > 0);
        }
        assert!(by_cost > 50, "{by_cost}");
        assert!(by_bytes > 50, "{by_bytes}");
    }

    #[test]
    fn boundaries_are_met_and_passed() {
        let clouds = seen(many_clouds, 100);
        assert!(clouds.contains(&Err(4)));
        assert!(clouds.iter().flatten().all(|counts| counts[0] == 8));
        let blocks = seen(many_blocks, 100);
        assert!(blocks.contains(&Err(4)));
        assert!(blocks.iter().flatten().all(|counts| counts[1] == 16));
        let edges = seen(many_edges, 100);
        assert!(edges.contains(&Err(4)));
        assert!(edges.iter().flatten().any(|counts| counts[2] == 32));
        let pairs = seen(many_pairs, 100);
        assert!(pairs.contains(&Err(4)));
        assert!(pairs.iter().flatten().any(|counts| counts[4] == 8));
        let labels = seen(high_labels, 300);
        assert!(labels.contains(&Err(5)));
        assert!(labels.iter().any(Result::is_ok));
        assert_eq!(seen(without_some, 20), [Err(8); 20]);
    }

    /// Of the sound texts a good part has no marks, one kind of them, and both.
    #[test]
    fn sound_texts_have_marks_or_none() {
        let mut random = Random::new(1);
        let mut shown: BTreeMap<&str, u32> = BTreeMap::new();
        for _ in 0..1000 {
            if let Ok(described) = read(&sound(&mut random)) {
                for (name, holds) in labels::seen_in(&described) {
                    *shown.entry(name).or_default() += u32::from(holds);
                }
            }
        }
        assert!(shown.values().all(|&times| times > 60), "{shown:?}");
    }

    /// A mark more or less is what many of these descriptions are refused for, by each of the rules.
    #[test]
    fn other_marks_break_the_rules() {
        let mut random = Random::new(1);
        let mut shown: BTreeMap<&str, u32> = BTreeMap::new();
        for _ in 0..3000 {
            let text = other_marks(&mut random);
            if let (Err(refusal), Ok(described)) = (read(&text), decode(&text)) {
                let name = labels::for_a_mark(&described, refusal, &[0; 16]);
                *shown.entry(name.unwrap_or("another")).or_default() += 1;
            }
        }
        for name in ["9 for a mark", "10 for a mark", "11 for a mark"] {
            assert!(
                shown.get(name).is_some_and(|&times| times > 30),
                "{shown:?}"
            );
        }
    }

    #[test]
    fn odd_pairs_meet_every_number_of_their_command() {
        let seen = seen(odd_pairs, 500);
        for number in [4, 6, 7] {
            let times = seen.iter().filter(|seen| **seen == Err(number)).count();
            assert!(times > 10, "{number}: {times}");
        }
    }

    /// Of the candidates that keep rules 16 and 17 a good part breaks a pair and a good part keeps
    /// all of them, so that number 17 and rows with pairs are both met.
    #[test]
    fn pairs_are_broken_and_kept() {
        let mut random = Random::new(1);
        let (mut with_pairs, mut both) = (0, 0);
        for _ in 0..1000 {
            let Ok(described) = read(&sound(&mut random)) else {
                continue;
            };
            with_pairs += u32::from(!described.apart.is_empty());
            let census = described.census(&[]);
            both += u32::from(census.apart_only > 0 && census.secure > 0);
        }
        assert!(with_pairs > 300, "{with_pairs}");
        assert!(both > 100, "{both}");
    }

    #[test]
    fn candidates_are_at_the_limit_and_beyond() {
        let seen = seen(many_candidates, 300);
        for exactly in [0, 59_049, 64_827, 65_536] {
            assert!(seen.iter().flatten().any(|counts| counts[3] == exactly));
        }
        assert!(seen.contains(&Err(12)));
    }

    #[test]
    fn clouds_lie_apart() {
        let mut random = Random::new(1);
        let mut masks = || read(&mixed_labels(&mut random)).map(|described| described.masks());
        let seen: Vec<[u8; 16]> = (0..500).filter_map(|_| masks().ok()).collect();
        let apart = seen.as_flattened().iter().filter(|&&mask| has_gap(mask));
        assert!(apart.count() > 500);
        assert!(seen.as_flattened().contains(&0xFF));
    }

    #[test]
    fn two_clouds_of_eight_make_as_many_candidates_as_there_may_be() {
        let seen = seen(two_of_eight, 100);
        assert!(seen.contains(&Err(12)));
        let counts: Vec<_> = seen.iter().flatten().collect();
        assert!(counts.len() > 50);
        assert!(counts.iter().all(|counts| counts[3] == 65_536));
    }

    #[test]
    fn damage_meets_every_number_of_a_command() {
        let seen = seen(damaged, 3000);
        for number in [1, 2, 3, 4, 5, 6, 7] {
            assert!(seen.contains(&Err(number)), "{number}");
        }
    }
}
