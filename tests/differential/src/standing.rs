//! What Standing answers, and what it has to do with Judge.

use panel::{Refusal, calls as engine};
use reference::calls::Standing;
use reference::rules::Placement;

/// The number of a placement that is no candidate.
const NO_CANDIDATE: u8 = 13;

/// What the answers are counted as, by their numbers; some of each must be seen.
pub const STANDINGS: [&str; 5] = [
    "allowed",
    "no such cloud",
    "not covered",
    "not permitted",
    "no block",
];

pub fn name_of(standing: Standing) -> &'static str {
    STANDINGS[standing as usize]
}

/// The lowest position of a placement that may not have its cloud, as the library has it; the
/// description is accepted.
pub fn lowest_misplaced(text: &[u8], placement: &Placement) -> Option<u64> {
    (0..placement.len()).find_map(|position| {
        let mut reason = 0;
        let answer = engine::standing(text, position, placement[position], &mut reason);
        // A refusal is no answer here, and so it differs from what Judge says.
        let misplaced = answer.is_err() || reason != 0;
        misplaced.then_some(position as u64)
    })
}

/// Where Judge found a cloud that a position may not have.
pub fn place_of_13(judged: Result<(), Refusal>) -> Option<u64> {
    let refusal = judged.err()?;
    (refusal.number == NO_CANDIDATE).then_some(refusal.place)
}

#[cfg(test)]
mod tests {
    use super::*;

    const INTERVIEW: &[u8] = include_bytes!("../../../examples/interview.bin");

    #[test]
    fn answers_are_named_by_their_numbers() {
        assert_eq!(name_of(Standing::Allowed), "allowed");
        assert_eq!(name_of(Standing::NoSuchCloud), "no such cloud");
        assert_eq!(name_of(Standing::NotCovered), "not covered");
        assert_eq!(name_of(Standing::NotPermitted), "not permitted");
        assert_eq!(name_of(Standing::NoBlock), "no block");
    }

    #[test]
    fn the_lowest_position_is_found() {
        let lowest = |clouds: [u8; 6]| {
            let mut placement = [0; 16];
            placement[..6].copy_from_slice(&clouds);
            lowest_misplaced(INTERVIEW, &placement)
        };
        assert_eq!(lowest([1, 1, 0, 0, 0, 0]), None);
        assert_eq!(lowest([1, 0, 0, 0, 0, 0]), None);
        assert_eq!(lowest([0, 1, 2, 0, 0, 1]), Some(0));
        assert_eq!(lowest([1, 1, 2, 0, 0, 1]), Some(2));
        assert_eq!(lowest([1, 1, 1, 1, 1, 1]), Some(5));
    }

    #[test]
    fn number_13_is_told_from_the_others() {
        let refused = |number| Err(Refusal { number, place: 4 });
        assert_eq!(place_of_13(refused(13)), Some(4));
        assert_eq!(place_of_13(refused(14)), None);
        assert_eq!(place_of_13(Ok(())), None);
    }
}
