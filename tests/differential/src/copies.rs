//! Rows that stand for their options only because copies have a price.

use reference::description::Description;
use reference::options::{Sameness, cheapest_by};
use reference::rules::Row;

/// Options of which another placement would be the row if copies were stored free.
#[derive(Clone, Copy, Debug, Default, PartialEq, Eq)]
pub struct Turned {
    pub rows: u64,
    /// Of these, the rows that cost as much as the other placement, so that their bytes decide.
    pub tied: u64,
}

impl Turned {
    pub fn of(described: &Description, rows: &[Row]) -> Self {
        let free = cheapest_by(described, |placement| {
            described.cost(placement) - described.copies(placement)
        });
        let sameness = Sameness::of(described);
        let mut turned = Turned::default();
        for row in rows {
            let other = free[&sameness.key(&row.placement)].placement;
            if other != row.placement {
                turned.rows += 1;
                turned.tied += u64::from(row.cost == described.cost(&other));
            }
        }
        turned
    }
}

#[cfg(test)]
mod tests {
    use super::*;
    use reference::description::read;

    /// Two clouds with these storage rates, and a datum of a gigabyte between a writer and so many
    /// readers, kept for so many months.
    fn turned(rates: [u8; 2], months: u8, readers: usize) -> Turned {
        let mut text = Vec::new();
        for rate in rates {
            text.extend([1, 0, 0, rate, 0, 0, 0, 0, 0, 0]);
        }
        text.extend([2, 0, 0, 10, 0, months]);
        for _ in 0..=readers {
            text.extend([3, 0, 0, 0, 0, 0, 0]);
        }
        text.extend([5, 1, 0]);
        for reader in (2..).take(readers) {
            text.extend([4, reader, 0]);
        }
        text.push(0);
        let described = read(&text).expect("the description is accepted");
        Turned::of(&described, &described.rows())
    }

    /// There are two options that merge: from the first cloud to the second, and back.
    #[test]
    fn a_datum_that_is_not_kept_stands_where_its_copy_is_cheap() {
        assert_eq!(turned([1, 3], 0, 1), Turned { rows: 2, tied: 0 });
        // The lower cloud stands for the option either way.
        assert_eq!(turned([3, 1], 0, 1), Turned::default());
    }

    #[test]
    fn a_datum_that_is_kept_for_a_month_costs_the_same_at_either_end() {
        assert_eq!(turned([3, 1], 1, 1), Turned { rows: 2, tied: 2 });
        assert_eq!(turned([1, 3], 1, 1), Turned::default());
    }

    #[test]
    fn other_rows_stand_with_and_without_copies() {
        for rates in [[1, 3], [3, 1], [2, 2]] {
            assert_eq!(turned(rates, 2, 1), Turned::default());
            assert_eq!(turned(rates, 0, 2), Turned::default());
        }
        assert_eq!(turned([2, 2], 0, 1), Turned::default());
    }
}
