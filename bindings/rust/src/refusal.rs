//! Why a call was not answered.

use std::error::Error;
use std::fmt;

use crate::Reason;

/// Why a call was not answered: a number from 1 to 17, and the place it speaks of.
///
/// Shown, it is a sentence that says what is wrong, where, and what to mend. The
/// [`reason`](Refusal::reason) has a name for each number, to match on.
///
/// ```
/// use panel::{Description, Reason};
///
/// let refusal = Description::read(&[1, 64, 0, 0, 0, 0, 0, 0, 0, 0]).unwrap_err();
/// assert_eq!((refusal.number, refusal.place), (5, 0));
/// assert_eq!(refusal.reason(), Reason::LabelTooHigh);
/// assert_eq!(
///     refusal.to_string(),
///     "refused 5 0 (byte 0): a label, location or clearance is above 63; the highest is 63"
/// );
/// ```
#[derive(Debug, Clone, Copy, PartialEq, Eq, Hash)]
pub struct Refusal {
    /// What is wrong, as docs/FORMAT.md numbers it.
    pub number: u8,
    /// Where: a byte's offset for 1 to 7, the description's length for 8, a block for 9, an edge
    /// for 10, 11, 14 and 15, a position of the placement for 13, the length that is needed for 16:
    /// of the buffer, or of the rows; a pair, in the order of the commands 07, for 17.
    pub place: u64,
}

impl Refusal {
    /// What is wrong, by name.
    #[must_use]
    pub fn reason(&self) -> Reason {
        Reason::from(self.number)
    }
}

impl Error for Refusal {}

impl fmt::Display for Refusal {
    fn fmt(&self, f: &mut fmt::Formatter<'_>) -> fmt::Result {
        let Refusal { number, place } = *self;
        let reason = self.reason();
        write!(f, "refused {number} {place}")?;
        if let Some(subject) = reason.place() {
            write!(f, " ({subject} {place})")?;
        }
        write!(f, ": {reason}")
    }
}

#[cfg(test)]
mod tests {
    use super::*;

    fn sentence(number: u8, place: u64) -> String {
        Refusal { number, place }.to_string()
    }

    #[test]
    fn a_sentence_begins_as_the_programs_answer_and_names_the_place() {
        for reason in Reason::all() {
            let (number, message) = (reason.number(), reason.message());
            let text = sentence(number, 4711);
            assert!(text.starts_with(&format!("refused {number} 4711")));
            assert!(text.ends_with(&format!(": {message}")));
            // Too many candidates are no matter of one place.
            let named = text.matches("4711").count();
            assert_eq!(named, if number == 12 { 1 } else { 2 }, "{text}");
        }
    }

    #[test]
    fn some_sentences() {
        assert_eq!(
            sentence(2, 20),
            "refused 2 20 (byte 20): no such command is known; commands begin with 00 to 07"
        );
        assert_eq!(
            sentence(8, 1),
            "refused 8 1 (length 1): no cloud or no block is declared; declare at least one of each"
        );
        assert_eq!(
            sentence(9, 2),
            "refused 9 2 (block 2): the service has a clearance that does not cover its location \
             (rule 2); raise the clearance's level, or add the mark that it lacks"
        );
        assert_eq!(
            sentence(12, 0),
            "refused 12 0: there are more than 65,536 candidates; pin more blocks, or leave out \
             clouds"
        );
        assert!(sentence(13, 4).starts_with("refused 13 4 (position 4): "));
        assert!(sentence(14, 3).starts_with("refused 14 3 (edge 3): "));
        assert!(
            sentence(16, 4).starts_with("refused 16 4 (needed 4): the lent memory is too short")
        );
        assert!(sentence(17, 3).starts_with("refused 17 3 (pair 3): some cloud holds both data"));
        assert_eq!(sentence(18, 3), "refused 18 3: no such number is known");
    }

    #[test]
    fn it_is_an_error() {
        let error: Box<dyn Error> = Box::new(Refusal {
            number: 8,
            place: 1,
        });
        assert!(error.to_string().starts_with("refused 8 1 "));
    }
}
