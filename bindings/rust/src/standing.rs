//! Whether a position of a placement may have a cloud, and if not, why.

use std::fmt;

/// Whether a position of a placement may have a cloud, and if not, which test fails first.
///
/// These are the tests that lead to number 13, in their order; the library makes them. For a
/// position that has a block they are the first three, and past the last block the fourth alone.
#[derive(Debug, Clone, Copy, PartialEq, Eq, Hash)]
pub enum Standing {
    /// It may: the block may stand there, or there is no block and the byte is 0.
    Allowed,
    /// No such cloud is declared.
    NoSuchCloud,
    /// The cloud's label does not cover the block's: the label of a datum, the location of a
    /// service (rule 7).
    NotCovered,
    /// The block is pinned to another cloud.
    NotPermitted,
    /// There is no block at this position, and the byte is not 0.
    NoBlock,
}

/// Every answer; the number of an answer is its position.
const ANSWERS: [Standing; 5] = [
    Standing::Allowed,
    Standing::NoSuchCloud,
    Standing::NotCovered,
    Standing::NotPermitted,
    Standing::NoBlock,
];

impl Standing {
    /// From the library's answer, which is 0 to 4.
    pub(crate) fn of(reason: u64) -> Self {
        let answer = usize::try_from(reason).ok().and_then(|at| ANSWERS.get(at));
        *answer.unwrap_or_else(|| unreachable!("there is no reason {reason}"))
    }

    /// The number that the call answers, 0 to 4.
    #[must_use]
    pub fn number(self) -> u8 {
        let before = ANSWERS.iter().take_while(|answer| **answer != self);
        before.count() as u8
    }

    /// Every answer, in the order of their numbers.
    #[must_use]
    pub fn all() -> [Standing; 5] {
        ANSWERS
    }

    /// A sentence that says whether it may, or what is wrong and how to mend it: the same text as
    /// `panel_reason_message` of `include/panel.h`.
    #[must_use]
    pub fn message(self) -> &'static str {
        match self {
            Standing::Allowed => "the position may have this cloud",
            Standing::NoSuchCloud => "no such cloud is declared; choose one that is",
            Standing::NotCovered => {
                "the cloud's label does not cover the block's (rule 7); choose a cloud that has its \
                 level at least, and its marks"
            }
            Standing::NotPermitted => {
                "the block is pinned to another cloud; choose that one, or remove the pin"
            }
            Standing::NoBlock => "there is no block at this position; leave 0 there",
        }
    }

    /// Whether the position may have the cloud.
    #[must_use]
    pub fn is_allowed(self) -> bool {
        self == Standing::Allowed
    }
}

impl fmt::Display for Standing {
    fn fmt(&self, f: &mut fmt::Formatter<'_>) -> fmt::Result {
        f.write_str(self.message())
    }
}

/// Where a placement is wrong by itself, and which test fails there: see
/// [`Description::why_not`](crate::Description::why_not).
///
/// ```
/// use panel::{Misplaced, Standing};
///
/// let misplaced = Misplaced { position: 3, cloud: 8, standing: Standing::NoSuchCloud };
/// assert_eq!(
///     misplaced.to_string(),
///     "position 3, cloud 8: no such cloud is declared; choose one that is"
/// );
/// ```
#[derive(Debug, Clone, Copy, PartialEq, Eq, Hash)]
pub struct Misplaced {
    /// The lowest position that may not have its cloud; the place of number 13.
    pub position: usize,
    /// The cloud that the placement has there.
    pub cloud: u8,
    /// Which test fails; never [`Standing::Allowed`].
    pub standing: Standing,
}

impl fmt::Display for Misplaced {
    fn fmt(&self, f: &mut fmt::Formatter<'_>) -> fmt::Result {
        let Misplaced {
            position,
            cloud,
            standing,
        } = self;
        write!(f, "position {position}, cloud {cloud}: {standing}")
    }
}

#[cfg(test)]
mod tests {
    use super::*;
    use std::collections::HashSet;

    #[test]
    fn numbers_and_answers_go_both_ways() {
        for (number, answer) in (0..).zip(Standing::all()) {
            assert_eq!(answer.number(), number);
            assert_eq!(Standing::of(number.into()), answer);
            assert_eq!(answer.is_allowed(), number == 0);
        }
        assert_eq!(Standing::NoSuchCloud.number(), 1);
        assert_eq!(Standing::NotCovered.number(), 2);
        assert_eq!(Standing::NotPermitted.number(), 3);
        assert_eq!(Standing::NoBlock.number(), 4);
    }

    #[test]
    fn each_answer_has_a_sentence_of_its_own() {
        let sentences: HashSet<String> = ANSWERS.iter().map(Standing::to_string).collect();
        assert_eq!(sentences.len(), 5);
    }
}
