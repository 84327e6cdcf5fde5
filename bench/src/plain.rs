//! The nine calls as one writes them in Rust: from the bytes, with all refusals, by enumeration.
//! `calls.rs` measures the engine against them.
//!
//! Unlike `tests/reference` they keep on the stack what has a highest number: on a small description
//! an allocation takes longer than a candidate.

mod candidates;
mod description;
mod picture;

use panel::calls::{PICTURE, ROW};
use panel::{Placement, Refusal};

use candidates::{Clouds, Conflicts, Sameness, packed, unpacked};
use description::{Description, Few, Way, refuse_at};
use picture::Length;

pub fn read(description: &[u8], counts: &mut [u64; 3]) -> Result<(), Refusal> {
    let described = description::read(description)?;
    let [clouds, blocks] = [described.clouds.len(), described.blocks.len()];
    *counts = [clouds, blocks, described.edges.len()].map(|count| count as u64);
    Ok(())
}

pub fn masks(description: &[u8], masks: &mut [u8; 16]) -> Result<(), Refusal> {
    *masks = description::read(description)?.masks();
    Ok(())
}

pub fn judge(description: &[u8], placement: &Placement) -> Result<(), Refusal> {
    description::read(description)?.judge(&placement.0)
}

pub fn transfers(
    description: &[u8],
    placement: &Placement,
    buffer: &mut [u8],
    count: &mut u64,
) -> Result<(), Refusal> {
    let described = description::read(description)?;
    described.judge(&placement.0)?;
    let mut moved = Few::<[u8; 4], 32>::none([0; 4]);
    for (number, edge) in (0..).zip(described.edges.iter()) {
        let [leaves, enters] = edge.course(&placement.0);
        if leaves != enters {
            moved.push([number, edge.datum, leaves, enters]);
        }
    }
    let bytes = moved.as_flattened();
    fit(bytes.len(), buffer.len())?;
    buffer[..bytes.len()].copy_from_slice(bytes);
    *count = moved.len() as u64;
    Ok(())
}

pub fn picture(
    description: &[u8],
    placement: &Placement,
    buffer: &mut [u8],
    count: &mut u64,
) -> Result<(), Refusal> {
    let described = description::read(description)?;
    described.judge(&placement.0)?;
    let mut text = Few::<u8, PICTURE>::none(0);
    described.put_picture(&placement.0, &mut text);
    fit(text.len(), buffer.len())?;
    buffer[..text.len()].copy_from_slice(&text);
    *count = text.len() as u64;
    Ok(())
}

pub fn picture_size(
    description: &[u8],
    placement: &Placement,
    count: &mut u64,
) -> Result<(), Refusal> {
    let described = description::read(description)?;
    described.judge(&placement.0)?;
    let mut length = Length(0);
    described.put_picture(&placement.0, &mut length);
    *count = length.0 as u64;
    Ok(())
}

pub fn census(description: &[u8], figures: &mut [u64; 6]) -> Result<(), Refusal> {
    let described = description::read(description)?;
    let (sameness, conflicts) = (Sameness::of(&described), Conflicts::of(&described));
    let (mut breaking_16, mut breaking_17_only, mut apart_only) = (0, 0, 0);
    let mut keys = Vec::new();
    for placement in described.candidates() {
        if described.first_breaking(Way::Reads, &placement).is_some() {
            breaking_16 += 1;
        } else if described.first_breaking(Way::Writes, &placement).is_some() {
            breaking_17_only += 1;
        } else if !conflicts.are_kept(&placement) {
            apart_only += 1;
        } else {
            keys.push(sameness.key(&placement));
        }
    }
    let secure = keys.len() as u64;
    keys.sort_unstable();
    keys.dedup();
    let candidates = breaking_16 + breaking_17_only + apart_only + secure;
    let options = keys.len() as u64;
    *figures = [
        candidates,
        breaking_16,
        breaking_17_only,
        apart_only,
        secure,
        options,
    ];
    Ok(())
}

/// From the start. The cheapest secure placement is the first row, so no options are told apart.
pub fn draw(description: &[u8], answer: &mut [u64; 5], row: &mut [u8; 16]) -> Result<(), Refusal> {
    let described = description::read(description)?;
    let conflicts = Conflicts::of(&described);
    let mut cheapest: Option<(u64, Clouds)> = None;
    for placement in described.candidates() {
        let Some(cost) = described.cost(&placement) else {
            continue;
        };
        // They come in the order of their bytes: at equal cost the earlier one stays.
        let is_cheaper = cheapest.is_none_or(|(least, _)| cost < least);
        if is_cheaper && conflicts.are_kept(&placement) {
            cheapest = Some((cost, placement));
        }
    }
    (*answer, *row) = match cheapest {
        Some((cost, placement)) => {
            let [storage, transfer, cpu] = described.amounts(&placement);
            ([1, cost, storage, transfer, cpu], placement)
        }
        None => ([0; 5], [0; 16]),
    };
    Ok(())
}

pub fn list(description: &[u8], rows: &mut [u64], extent: &mut [u64; 2]) -> Result<(), Refusal> {
    let described = description::read(description)?;
    let blocks = described.blocks.len();
    let (sameness, conflicts) = (Sameness::of(&described), Conflicts::of(&described));
    let mut placements = Vec::new();
    for placement in described.candidates() {
        if let Some(cost) = described.cost(&placement)
            && conflicts.are_kept(&placement)
        {
            let packed = packed(&placement[..blocks]);
            placements.push((sameness.key(&placement), cost, packed));
        }
    }
    // The first of each option is its cheapest.
    placements.sort_unstable();
    placements.dedup_by_key(|(key, _, _)| *key);
    placements.sort_unstable_by_key(|(_, cost, packed)| (*cost, *packed));
    let (rows, _) = rows.as_chunks_mut::<ROW>();
    fit(ROW * placements.len(), ROW * rows.len())?;
    for (words, (_, cost, packed)) in rows.iter_mut().zip(&placements) {
        let [storage, transfer, cpu] = described.amounts(&unpacked(*packed, blocks));
        *words = [*cost, *packed, storage, transfer, cpu];
    }
    *extent = [placements.len(), blocks].map(|count| count as u64);
    Ok(())
}

impl Description {
    /// Refuses with 13, 14, 15 or 17, each tested as a whole before the next.
    fn judge(&self, placement: &Clouds) -> Result<(), Refusal> {
        refuse_at(13, (0..16).find(|&at| !self.fits(placement[at], at)))?;
        refuse_at(14, self.first_breaking(Way::Reads, placement))?;
        refuse_at(15, self.first_breaking(Way::Writes, placement))?;
        refuse_at(17, self.first_meeting(placement))
    }

    fn fits(&self, cloud: u8, at: usize) -> bool {
        match self.blocks.get(at) {
            Some(block) => usize::from(cloud) < self.clouds.len() && self.may_stand(block, cloud),
            None => cloud == 0,
        }
    }
}

/// Refuses with 16 where a buffer has too little room.
fn fit(needed: usize, room: usize) -> Result<(), Refusal> {
    refuse_at(16, (room < needed).then_some(needed))
}
