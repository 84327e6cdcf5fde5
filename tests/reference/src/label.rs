//! Labels and the one way in which they are compared (docs/FORMAT.md, sections 1 and 2).

/// The highest byte that spells a label.
pub const HIGHEST: u8 = 63;

/// The bits of the level and of the two marks.
const LEVEL: u8 = 0x0F;
pub const EMBARGO: u8 = 0x10;
pub const SOURCE: u8 = 0x20;

/// A level from 0 to 15, and two marks.
#[derive(Clone, Copy, Debug, PartialEq, Eq)]
pub struct Label {
    pub level: u8,
    pub embargo: bool,
    pub source: bool,
}

impl Label {
    /// The label that the byte spells, if it does not lie above the highest.
    pub fn of(byte: u8) -> Option<Label> {
        (byte <= HIGHEST).then_some(Label {
            level: byte & LEVEL,
            embargo: byte & EMBARGO != 0,
            source: byte & SOURCE != 0,
        })
    }

    /// Its level is as high at least, and it has every mark of the other. Of two labels it may be
    /// that neither covers the other.
    pub fn covers(self, other: Label) -> bool {
        self.level >= other.level && self.has_marks_of(other)
    }

    pub fn has_marks_of(self, other: Label) -> bool {
        (self.embargo || !other.embargo) && (self.source || !other.source)
    }
}

#[cfg(test)]
mod tests {
    use super::*;

    fn label(byte: u8) -> Label {
        Label::of(byte).expect("the byte spells a label")
    }

    #[test]
    fn bytes_up_to_63_spell_labels() {
        let all = |level, embargo, source| Label {
            level,
            embargo,
            source,
        };
        assert_eq!(label(0), all(0, false, false));
        assert_eq!(label(15), all(15, false, false));
        assert_eq!(label(16), all(0, true, false));
        assert_eq!(label(35), all(3, false, true));
        assert_eq!(label(63), all(15, true, true));
        assert!((64..=255).all(|byte| Label::of(byte).is_none()));
    }

    /// A level is a set of what it is at least, so that a label is a set and covers its subsets.
    #[test]
    fn labels_cover_what_they_hold() {
        let parts = |byte: u8| {
            let levels = (1u64 << (byte & 15)) - 1;
            levels | u64::from(byte >> 4) << 15
        };
        for upper in 0..=HIGHEST {
            for lower in 0..=HIGHEST {
                let holds = parts(lower) & !parts(upper) == 0;
                assert_eq!(label(upper).covers(label(lower)), holds, "{upper} {lower}");
            }
        }
    }

    #[test]
    fn neither_of_two_may_cover_the_other() {
        for [one, other] in [[16, 32], [15, 16], [3 | 16, 2 | 32], [1, 32]] {
            assert!(!label(one).covers(label(other)));
            assert!(!label(other).covers(label(one)));
        }
    }
}
