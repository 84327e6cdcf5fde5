//! Labels: a level and two marks in one byte.

use std::error::Error;
use std::fmt;

/// The bits of the level.
const LEVEL: u8 = 0x0F;

/// What clouds, data and services are compared by: a level from 0 to 15, and two marks, embargo and
/// source. A cloud and a datum have a label, a service has two, its location and its clearance.
///
/// In a description a label is one byte from 0 to [`Label::HIGHEST`]: bits 0 to 3 are the level, bit 4
/// is the embargo mark, bit 5 the source mark.
///
/// ```
/// use panel::Label;
///
/// let label = Label::try_from(3 | Label::EMBARGO | Label::SOURCE)?;
/// assert_eq!((label.level(), label.embargo(), label.source()), (3, true, true));
/// assert_eq!(label.to_string(), "level 3, embargo, source");
/// assert_eq!(u8::from(label), 51);
/// # Ok::<(), panel::NoLabel>(())
/// ```
///
/// Labels have no order from low to high. Of two it may be that neither covers the other:
///
/// ```
/// use panel::Label;
///
/// let high = Label::try_from(15)?;
/// let marked = Label::try_from(Label::EMBARGO)?;
/// assert!(!high.covers(marked) && !marked.covers(high));
/// # Ok::<(), panel::NoLabel>(())
/// ```
#[derive(Debug, Clone, Copy, PartialEq, Eq, Hash, Default)]
pub struct Label {
    level: u8,
    embargo: bool,
    source: bool,
}

impl Label {
    /// The highest byte that is a label: level 15 with both marks.
    pub const HIGHEST: u8 = LEVEL | Label::EMBARGO | Label::SOURCE;

    /// The bit of the embargo mark.
    pub const EMBARGO: u8 = 0x10;

    /// The bit of the source mark.
    pub const SOURCE: u8 = 0x20;

    /// The level, 0 to 15.
    #[must_use]
    pub fn level(self) -> u8 {
        self.level
    }

    /// Whether it has the embargo mark.
    #[must_use]
    pub fn embargo(self) -> bool {
        self.embargo
    }

    /// Whether it has the source mark.
    #[must_use]
    pub fn source(self) -> bool {
        self.source
    }

    /// Whether its level is as high as the other's at least, and it has every mark of the other. This
    /// is what the rules ask for: a clearance must cover the data that the service reads, a cloud the
    /// blocks that stand on it.
    #[must_use]
    pub fn covers(self, other: Label) -> bool {
        self.level >= other.level
            && (self.embargo || !other.embargo)
            && (self.source || !other.source)
    }
}

impl TryFrom<u8> for Label {
    type Error = NoLabel;

    /// From its byte in a description.
    fn try_from(byte: u8) -> Result<Self, NoLabel> {
        if byte > Label::HIGHEST {
            return Err(NoLabel { byte });
        }
        Ok(Label {
            level: byte & LEVEL,
            embargo: byte & Label::EMBARGO != 0,
            source: byte & Label::SOURCE != 0,
        })
    }
}

impl From<Label> for u8 {
    /// Its byte in a description.
    fn from(label: Label) -> u8 {
        let embargo = if label.embargo { Label::EMBARGO } else { 0 };
        let source = if label.source { Label::SOURCE } else { 0 };
        label.level | embargo | source
    }
}

impl fmt::Display for Label {
    fn fmt(&self, f: &mut fmt::Formatter<'_>) -> fmt::Result {
        write!(f, "level {}", self.level)?;
        for (has, name) in [(self.embargo, "embargo"), (self.source, "source")] {
            if has {
                write!(f, ", {name}")?;
            }
        }
        Ok(())
    }
}

/// A byte that is no label.
///
/// ```
/// use panel::{Label, NoLabel};
///
/// let error = Label::try_from(64).unwrap_err();
/// assert_eq!(error, NoLabel { byte: 64 });
/// assert_eq!(error.to_string(), "64 is no label; the highest is 63");
/// ```
#[derive(Debug, Clone, Copy, PartialEq, Eq, Hash)]
pub struct NoLabel {
    /// The byte, which is above [`Label::HIGHEST`].
    pub byte: u8,
}

impl Error for NoLabel {}

impl fmt::Display for NoLabel {
    fn fmt(&self, f: &mut fmt::Formatter<'_>) -> fmt::Result {
        let NoLabel { byte } = self;
        write!(f, "{byte} is no label; the highest is {}", Label::HIGHEST)
    }
}

#[cfg(test)]
mod tests {
    use super::*;

    fn label(byte: u8) -> Label {
        Label::try_from(byte).expect("the byte is a label")
    }

    #[test]
    fn each_label_comes_back_as_its_byte() {
        for byte in 0..=63 {
            assert_eq!(u8::from(label(byte)), byte);
        }
    }

    #[test]
    fn each_level_and_mark_has_its_place() {
        for level in 0..16 {
            for (marks, byte) in [
                ((false, false), level),
                ((true, false), level + 16),
                ((false, true), level + 32),
                ((true, true), level + 48),
            ] {
                assert_eq!(label(byte).level(), level);
                assert_eq!((label(byte).embargo(), label(byte).source()), marks);
            }
        }
    }

    #[test]
    fn bytes_above_63_are_no_labels() {
        for byte in 64..=255 {
            assert_eq!(Label::try_from(byte), Err(NoLabel { byte }));
        }
    }

    #[test]
    fn labels_are_shown_with_their_marks() {
        assert_eq!(Label::default().to_string(), "level 0");
        assert_eq!(label(3 + 16).to_string(), "level 3, embargo");
        assert_eq!(label(12 + 32).to_string(), "level 12, source");
        assert_eq!(label(63).to_string(), "level 15, embargo, source");
    }

    /// Row by row the labels that each one covers, as the program labeltable prints them.
    #[test]
    fn labels_cover_what_the_table_says() {
        let table = include_str!("../../../crates/labeltable/stdout");
        let digit = |upper: u8, lower: u8| u8::from(label(upper).covers(label(lower))).to_string();
        let row = |upper: u8| (0..64).map(|lower| digit(upper, lower)).collect::<String>() + "\n";
        assert_eq!((0..64).map(row).collect::<String>(), table);
    }

    #[test]
    fn it_is_an_error() {
        let error: Box<dyn Error> = Box::new(NoLabel { byte: 255 });
        assert_eq!(error.to_string(), "255 is no label; the highest is 63");
    }
}
