//! Placements, positions, cursors and rooms that a description is asked about.

use reference::description::Description;
use reference::random::Random;
use reference::rules::{Placement, Priced, Row};

/// A placement: of a row, a candidate, nearly one, or bytes at random.
pub fn placement(random: &mut Random, described: Option<&Description>, rows: &[Row]) -> Placement {
    let Some(described) = described else {
        return loose_placement(random);
    };
    if !rows.is_empty() && random.one_in(4) {
        return random.pick(rows).placement;
    }
    match random.below(8) {
        0 => loose_placement(random),
        1 => {
            let mut placement = candidate(random, described);
            let position = random.below(16);
            placement[position] = random.pick(&[0, 1, 2, 7, 8, 255]);
            placement
        }
        _ => candidate(random, described),
    }
}

/// A position and a cloud for it: mostly of a block and declared, or just past the last one, or so
/// high that a part of its bits would name a block.
pub fn position_and_cloud(random: &mut Random, described: Option<&Description>) -> (usize, u8) {
    let (clouds, blocks) = described.map_or((2, 5), |d| (d.clouds.len(), d.blocks.len()));
    let block = random.below(blocks);
    let position = match random.below(10) {
        0 => blocks,
        1 => random.below(20),
        2 => random.pick(&[1 << 8, 1 << 16, 1 << 32, 1 << 63]) | block,
        3 => random.pick(&[16, 255, usize::MAX]),
        _ => block,
    };
    let cloud = match random.below(6) {
        0 => 0,
        1 => clouds as u8,
        2 => random.pick(&[7, 8, 128, 255]),
        _ => random.below(clouds) as u8,
    };
    (position, cloud)
}

fn loose_placement(random: &mut Random) -> Placement {
    let highest = random.pick(&[2, 3, 9, 256]);
    let blocks = random.pick(&[1, 3, 5, 16]);
    let mut placement = [0; 16];
    placement[..blocks].fill_with(|| random.below(highest) as u8);
    placement
}

/// Each block on a cloud that it may use, if there is one.
fn candidate(random: &mut Random, described: &Description) -> Placement {
    let mut placement = [0; 16];
    for (cloud, block) in placement.iter_mut().zip(&described.blocks) {
        let clouds = 0..described.clouds.len();
        let open: Vec<usize> = clouds.filter(|&c| described.may_stand(block, c)).collect();
        if !open.is_empty() {
            *cloud = random.pick(&open) as u8;
        }
    }
    placement
}

/// A cursor: the start, a row, close to one, or anything. The start is `None`.
pub fn cursor(random: &mut Random, rows: &[Row]) -> Option<Priced> {
    let mut past = match rows {
        [] => Priced {
            cost: random.below(100) as u64,
            placement: loose_placement(random),
        },
        _ => random.pick(rows).priced(),
    };
    match random.below(12) {
        0 | 1 => return None,
        2 => past.cost = past.cost.saturating_sub(1),
        3 => past.cost += 1,
        4 => past.placement = loose_placement(random),
        5 => {
            let position = random.below(16);
            past.placement[position] = random.pick(&[0, 1, 7, 8, 255]);
        }
        6 => {
            let any = random.word();
            past.cost = random.pick(&[0, 1 << 53, u64::MAX, any]);
        }
        7 => {
            past.cost = 0;
            past.placement = [0; 16];
        }
        8 => past = rows.last().map_or(past, Row::priced),
        _ => {}
    }
    Some(past)
}

/// A length to lend: just what is needed, one less, nothing, more, less, or rarely so much that it
/// is always enough.
pub fn room(random: &mut Random, needed: usize, enough: usize) -> usize {
    if random.one_in(enough) {
        return enough;
    }
    match random.below(8) {
        0..3 => needed,
        3 => needed.saturating_sub(1),
        4 => 0,
        5 => random.below(needed + 1),
        6 => needed + 1,
        _ => needed + random.below(20),
    }
}

/// Two lengths to lend: just what is needed of both, one less of either, the one in place of the
/// other, or each by itself.
pub fn rooms(random: &mut Random, needed: [usize; 2], enough: [usize; 2]) -> [usize; 2] {
    let [rows, scratch] = needed;
    match random.below(12) {
        0..5 => needed,
        5 => [rows.saturating_sub(1), scratch],
        6 => [rows, scratch.saturating_sub(1)],
        7 => [scratch, rows],
        _ => [0, 1].map(|part| room(random, needed[part], enough[part])),
    }
}
