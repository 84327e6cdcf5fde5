//! What is wrong, in a word and in a sentence.

use std::fmt;

/// What is wrong, as docs/FORMAT.md numbers it: one name for each number that a [`Refusal`] can
/// have.
///
/// ```
/// use panel::{Description, Reason};
///
/// let refusal = Description::read(&[]).unwrap_err();
/// assert_eq!(refusal.reason(), Reason::CutShort);
/// assert_eq!(refusal.reason().number(), 1);
/// ```
///
/// [`Refusal`]: crate::Refusal
#[derive(Debug, Clone, Copy, PartialEq, Eq, Hash)]
pub enum Reason {
    /// 1: the description stops within a command, or before the end command.
    CutShort,
    /// 2: there is no such command.
    UnknownCommand,
    /// 3: there is a byte after the end command.
    AfterEnd,
    /// 4: a cloud, block, edge or pair more than there may be.
    TooMany,
    /// 5: a label, location or clearance is above 63.
    LabelTooHigh,
    /// 6: a command names what is not declared before it, or what is of the wrong kind.
    NotDeclared,
    /// 7: an edge or a pair is there already, a datum has a writer or a block a pin already, or a
    /// datum is paired with itself.
    Repeated,
    /// 8: no cloud or no block is declared.
    NothingDeclared,
    /// 9: a service's clearance does not cover its location (rule 2).
    LocationNotCleared,
    /// 10: a service reads a datum that its clearance does not cover (rule 3).
    ReadUp,
    /// 11: a service writes a datum that does not cover its location (rule 4).
    WriteDown,
    /// 12: there are more than 65,536 candidates.
    TooManyCandidates,
    /// 13: the placement is no candidate. [`Description::why_not`] tells which test fails.
    ///
    /// [`Description::why_not`]: crate::Description::why_not
    NoCandidate,
    /// 14: a read copies a datum to a cloud that does not cover it (rule 16).
    ReadExposes,
    /// 15: a write leaves a copy of a datum on a cloud that does not cover it (rule 17).
    WriteExposes,
    /// 16: the lent memory is too short.
    ShortBuffer,
    /// 17: some cloud holds both data of a pair.
    PairMeets,
    /// A number that this version of the wrapper does not know.
    Unknown(u8),
}

/// Every known reason with its sentence; the number of a reason is its position, counted from 1.
const KNOWN: [(Reason, &str); 17] = [
    (
        Reason::CutShort,
        "the description stops within a command, or before the end command; complete the command, \
         or close the description with 00",
    ),
    (
        Reason::UnknownCommand,
        "no such command is known; commands begin with 00 to 07",
    ),
    (
        Reason::AfterEnd,
        "there is a byte after the end command; let 00 be the last byte",
    ),
    (
        Reason::TooMany,
        "one thing too many is declared; there may be 8 clouds, 16 blocks, 32 edges and 8 pairs",
    ),
    (
        Reason::LabelTooHigh,
        "a label, location or clearance is above 63; the highest is 63",
    ),
    (
        Reason::NotDeclared,
        "the command names what is not declared before it, or a datum for a service, or a service \
         for a datum; declare it further up, or name another",
    ),
    (
        Reason::Repeated,
        "the command repeats an edge or a pair, gives a datum a second writer or a block a second \
         pin, or pairs a datum with itself; remove it, or the one before it",
    ),
    (
        Reason::NothingDeclared,
        "no cloud or no block is declared; declare at least one of each",
    ),
    (
        Reason::LocationNotCleared,
        "the service has a clearance that does not cover its location (rule 2); raise the \
         clearance's level, or add the mark that it lacks",
    ),
    (
        Reason::ReadUp,
        "a service reads a datum whose label its clearance does not cover (rule 3); raise the \
         clearance's level, add the mark that it lacks, or remove the edge",
    ),
    (
        Reason::WriteDown,
        "a service writes a datum whose label does not cover its location (rule 4); raise the \
         datum's level, add the mark that it lacks, or remove the edge",
    ),
    (
        Reason::TooManyCandidates,
        "there are more than 65,536 candidates; pin more blocks, or leave out clouds",
    ),
    (
        Reason::NoCandidate,
        "the placement names no cloud that the block may stand on; choose one that is declared, \
         that covers the block's label (rule 7) and is its pin if it has one, and 0 if there is no \
         block",
    ),
    (
        Reason::ReadExposes,
        "a datum would be copied to its reader, on a cloud that does not cover the datum's label \
         (rule 16); place the reader on one that does, or both on one cloud",
    ),
    (
        Reason::WriteExposes,
        "a copy of a datum would stay with its writer, on a cloud that does not cover the datum's \
         label (rule 17); place the writer on one that does, or both on one cloud",
    ),
    (
        Reason::ShortBuffer,
        "the lent memory is too short; the place says how much is needed: bytes for transfers or a \
         picture; for a list words of rows, and two fifths of that of scratch",
    ),
    (
        Reason::PairMeets,
        "some cloud holds both data of a pair, or copies of them; place the two, and the services \
         that read or write them, on different clouds",
    ),
];

impl Reason {
    /// Every known reason, in the order of their numbers.
    #[must_use]
    pub fn all() -> [Reason; 17] {
        KNOWN.map(|(reason, _)| reason)
    }

    /// The number, 1 to 17 for every known reason.
    #[must_use]
    pub fn number(self) -> u8 {
        if let Reason::Unknown(number) = self {
            return number;
        }
        let before = KNOWN.iter().take_while(|(reason, _)| *reason != self);
        1 + before.count() as u8
    }

    /// A sentence that says what is wrong and how to mend it. It does not name the place; the
    /// [`Refusal`](crate::Refusal), shown, does. It is ASCII, and the same text as `panel_message`
    /// of `include/panel.h`.
    ///
    /// ```
    /// use panel::Reason;
    ///
    /// assert_eq!(
    ///     Reason::from(8).message(),
    ///     "no cloud or no block is declared; declare at least one of each"
    /// );
    /// ```
    #[must_use]
    pub fn message(self) -> &'static str {
        let known = KNOWN.into_iter().find(|(reason, _)| *reason == self);
        known.map_or("no such number is known", |(_, message)| message)
    }

    /// What the place of such a refusal is, if it is one.
    pub(crate) fn place(self) -> Option<&'static str> {
        match self.number() {
            1..=7 => Some("byte"),
            8 => Some("length"),
            9 => Some("block"),
            10 | 11 | 14 | 15 => Some("edge"),
            13 => Some("position"),
            16 => Some("needed"),
            17 => Some("pair"),
            _ => None,
        }
    }
}

impl From<u8> for Reason {
    /// The reason with this number.
    fn from(number: u8) -> Self {
        let known = (1..).zip(KNOWN).find(|(known, _)| *known == number);
        known.map_or(Reason::Unknown(number), |(_, (reason, _))| reason)
    }
}

impl fmt::Display for Reason {
    fn fmt(&self, f: &mut fmt::Formatter<'_>) -> fmt::Result {
        f.write_str(self.message())
    }
}

#[cfg(test)]
mod tests {
    use super::*;
    use std::collections::HashSet;

    #[test]
    fn numbers_and_reasons_go_both_ways() {
        for (number, reason) in (1..).zip(Reason::all()) {
            assert_eq!(reason.number(), number);
            assert_eq!(Reason::from(number), reason);
        }
        for number in [0, 18, 255] {
            assert_eq!(Reason::from(number), Reason::Unknown(number));
            assert_eq!(Reason::Unknown(number).number(), number);
        }
    }

    #[test]
    fn the_reasons_stand_at_their_numbers() {
        assert_eq!(Reason::CutShort.number(), 1);
        assert_eq!(Reason::UnknownCommand.number(), 2);
        assert_eq!(Reason::AfterEnd.number(), 3);
        assert_eq!(Reason::TooMany.number(), 4);
        assert_eq!(Reason::LabelTooHigh.number(), 5);
        assert_eq!(Reason::NotDeclared.number(), 6);
        assert_eq!(Reason::Repeated.number(), 7);
        assert_eq!(Reason::NothingDeclared.number(), 8);
        assert_eq!(Reason::LocationNotCleared.number(), 9);
        assert_eq!(Reason::ReadUp.number(), 10);
        assert_eq!(Reason::WriteDown.number(), 11);
        assert_eq!(Reason::TooManyCandidates.number(), 12);
        assert_eq!(Reason::NoCandidate.number(), 13);
        assert_eq!(Reason::ReadExposes.number(), 14);
        assert_eq!(Reason::WriteExposes.number(), 15);
        assert_eq!(Reason::ShortBuffer.number(), 16);
        assert_eq!(Reason::PairMeets.number(), 17);
    }

    #[test]
    fn each_reason_has_a_sentence_of_its_own() {
        let messages: HashSet<&str> = Reason::all().map(Reason::message).into();
        assert_eq!(messages.len(), 17);
        assert!(!messages.contains(Reason::Unknown(18).message()));
        for message in messages {
            assert!(message.is_ascii() && message.trim() == message);
            assert!(
                !message.contains('\n') && message.contains("; "),
                "{message}"
            );
        }
    }
}
