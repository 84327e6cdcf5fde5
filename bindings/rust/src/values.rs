//! What is put to the calls and what they answer.

use std::error::Error;
use std::fmt;

use crate::calls::ROW;

/// The cloud of each block: the byte at position b is the number of the cloud on which block b
/// stands. Positions that have no block hold 0.
///
/// Made from an array of up to sixteen clouds, which zeros fill up:
///
/// ```
/// use panel::Placement;
///
/// let placement = Placement::from([1, 1, 0, 0, 0]);
/// assert_eq!(placement.0, [1, 1, 0, 0, 0, 0, 0, 0, 0, 0, 0, 0, 0, 0, 0, 0]);
/// ```
///
/// A longer array does not compile:
///
/// ```compile_fail
/// let placement = panel::Placement::from([0; 17]);
/// ```
///
/// From a slice, whose length is known only when the program runs, it may fail:
///
/// ```
/// use panel::{NoPlacement, Placement};
///
/// let clouds = vec![1, 1, 0, 0, 0];
/// assert_eq!(Placement::try_from(&clouds[..]), Ok(Placement::from([1, 1])));
/// assert_eq!(Placement::try_from(&[0; 17][..]), Err(NoPlacement { length: 17 }));
/// ```
#[derive(Debug, Clone, Copy, PartialEq, Eq, PartialOrd, Ord, Hash, Default)]
pub struct Placement(
    /// The sixteen bytes.
    pub [u8; 16],
);

impl<const N: usize> From<[u8; N]> for Placement {
    fn from(clouds: [u8; N]) -> Self {
        const { assert!(N <= 16, "a placement has sixteen positions") };
        let mut bytes = [0; 16];
        bytes[..N].copy_from_slice(&clouds);
        Placement(bytes)
    }
}

impl TryFrom<&[u8]> for Placement {
    type Error = NoPlacement;

    /// From the clouds of the first blocks, up to sixteen; zeros fill up the other positions.
    fn try_from(clouds: &[u8]) -> Result<Self, NoPlacement> {
        let mut bytes = [0; 16];
        let length = clouds.len();
        let first = bytes.get_mut(..length).ok_or(NoPlacement { length })?;
        first.copy_from_slice(clouds);
        Ok(Placement(bytes))
    }
}

/// More clouds than a placement has positions.
///
/// ```
/// let error = panel::NoPlacement { length: 17 };
/// assert_eq!(error.to_string(), "17 clouds are no placement; it has sixteen positions");
/// ```
#[derive(Debug, Clone, Copy, PartialEq, Eq, Hash)]
pub struct NoPlacement {
    /// How many clouds there were, more than sixteen.
    pub length: usize,
}

impl Error for NoPlacement {}

impl fmt::Display for NoPlacement {
    fn fmt(&self, f: &mut fmt::Formatter<'_>) -> fmt::Result {
        let NoPlacement { length } = self;
        write!(
            f,
            "{length} clouds are no placement; it has sixteen positions"
        )
    }
}

/// What a secure placement costs, and the amounts that make up its cost: for storage, for transfers
/// and for cpu.
///
/// It is shown as the four numbers, the cost first, with single spaces in between.
///
/// ```
/// use panel::Description;
///
/// let interview = Description::read(include_bytes!("../../../examples/interview.bin"))?;
/// let bill = interview.bill(&[1, 1, 1, 0, 0].into())?;
/// assert_eq!((bill.cost(), bill.storage(), bill.transfer(), bill.cpu()), (2970, 1370, 100, 1500));
/// assert_eq!(bill.to_string(), "2970 1370 100 1500");
/// # Ok::<(), panel::Refusal>(())
/// ```
#[derive(Debug, Clone, Copy, PartialEq, Eq, Hash)]
pub struct Bill {
    cost: u64,
    storage: u64,
    transfer: u64,
    cpu: u64,
}

impl Bill {
    /// From the words of the call, in the order of the fields.
    pub(crate) fn new([cost, storage, transfer, cpu]: [u64; 4]) -> Self {
        Bill {
            cost,
            storage,
            transfer,
            cpu,
        }
    }

    /// What the placement costs: the sum of its storage, transfer and cpu; below 2^53.
    #[must_use]
    pub fn cost(&self) -> u64 {
        self.cost
    }

    /// What storage is charged: the data for their time, and each copy that a transfer leaves with
    /// its service for one month there.
    #[must_use]
    pub fn storage(&self) -> u64 {
        self.storage
    }

    /// What the transfers are charged, by the clouds that data leave and those that they enter.
    #[must_use]
    pub fn transfer(&self) -> u64 {
        self.transfer
    }

    /// What the services are charged for their cpu units.
    #[must_use]
    pub fn cpu(&self) -> u64 {
        self.cpu
    }
}

impl fmt::Display for Bill {
    fn fmt(&self, f: &mut fmt::Formatter<'_>) -> fmt::Result {
        let Bill {
            cost,
            storage,
            transfer,
            cpu,
        } = self;
        write!(f, "{cost} {storage} {transfer} {cpu}")
    }
}

/// An option: its cheapest placement, what that costs, and the amounts that make up its cost: for
/// storage, for transfers and for cpu.
///
/// Rows are ordered by cost, the lower first, and at equal cost by their bytes. A row is shown as
/// `listoptions` prints it: the cost, a digit for each block, and the three amounts, with single
/// spaces in between.
///
/// ```
/// use panel::Description;
///
/// let interview = Description::read(include_bytes!("../../../examples/interview.bin"))?;
/// let rows = interview.list();
/// assert!(rows.is_sorted());
/// assert_eq!(rows[1].cost(), 2850);
/// assert_eq!(rows[1].clouds(), [1, 1, 1, 1, 0]);
/// assert_eq!((rows[1].storage(), rows[1].transfer(), rows[1].cpu()), (1330, 20, 1500));
/// assert_eq!(rows[1].to_string(), "2850 11110 1330 20 1500");
/// # Ok::<(), panel::Refusal>(())
/// ```
#[derive(Debug, Clone, Copy, PartialEq, Eq, PartialOrd, Ord, Hash)]
pub struct Row {
    // The order of the fields is the order of rows. The amounts are last: among the rows of one
    // description they decide nothing.
    cost: u64,
    placement: Placement,
    blocks: usize,
    storage: u64,
    transfer: u64,
    cpu: u64,
}

impl Row {
    /// `blocks` is at most sixteen; the amounts are storage, transfer and cpu.
    pub(crate) fn new(cost: u64, placement: Placement, blocks: usize, amounts: [u64; 3]) -> Self {
        let [storage, transfer, cpu] = amounts;
        Row {
            cost,
            placement,
            blocks,
            storage,
            transfer,
            cpu,
        }
    }

    /// From the words of a list: the cost, the clouds as digits to the base 8, the amounts.
    pub(crate) fn unpack(words: [u64; ROW], blocks: usize) -> Self {
        let [cost, packed, amounts @ ..] = words;
        let mut clouds = [0; 16];
        let mut rest = packed;
        for cloud in clouds[..blocks].iter_mut().rev() {
            *cloud = (rest % 8) as u8;
            rest /= 8;
        }
        Row::new(cost, Placement(clouds), blocks, amounts)
    }

    /// The cost of its [`Bill`], by which rows are ordered.
    #[must_use]
    pub fn cost(&self) -> u64 {
        self.cost
    }

    /// The storage of its [`Bill`].
    #[must_use]
    pub fn storage(&self) -> u64 {
        self.storage
    }

    /// The transfer of its [`Bill`].
    #[must_use]
    pub fn transfer(&self) -> u64 {
        self.transfer
    }

    /// The cpu of its [`Bill`].
    #[must_use]
    pub fn cpu(&self) -> u64 {
        self.cpu
    }

    /// The cost and its amounts together, as [`Description::bill`] gives them for any secure
    /// placement.
    ///
    /// [`Description::bill`]: crate::Description::bill
    #[must_use]
    pub fn bill(&self) -> Bill {
        Bill::new([self.cost, self.storage, self.transfer, self.cpu])
    }

    /// The placement, to judge it or to ask for its transfers or its picture.
    #[must_use]
    pub fn placement(&self) -> &Placement {
        &self.placement
    }

    /// The cloud of each block, as many as the description has.
    #[must_use]
    pub fn clouds(&self) -> &[u8] {
        &self.placement.0[..self.blocks]
    }
}

impl fmt::Display for Row {
    fn fmt(&self, f: &mut fmt::Formatter<'_>) -> fmt::Result {
        write!(f, "{} ", self.cost)?;
        self.clouds().iter().try_for_each(|c| write!(f, "{c}"))?;
        write!(f, " {} {} {}", self.storage, self.transfer, self.cpu)
    }
}

/// Where a draw goes on from.
///
/// Cost 0 and sixteen zeros are not the start: a free row with everything on cloud 0 does not come
/// strictly after them and would be lost.
///
/// ```
/// use panel::{Cursor, Description, Placement};
///
/// // A cloud and a datum, all rates 0.
/// let free = Description::read(&[1, 0, 0, 0, 0, 0, 0, 0, 0, 0, 2, 0, 0, 0, 0, 0, 0])?;
/// assert!(free.draw(Cursor::Start).is_some());
/// let zeros = Cursor::Past { cost: 0, placement: Placement::default() };
/// assert!(free.draw(zeros).is_none());
/// # Ok::<(), panel::Refusal>(())
/// ```
#[derive(Debug, Clone, Copy, PartialEq, Eq, Hash, Default)]
pub enum Cursor {
    /// Before all rows.
    #[default]
    Start,
    /// Strictly past a cost and sixteen bytes, which may be any at all and need not be a row.
    Past {
        /// The cost that is compared first.
        cost: u64,
        /// The bytes that are compared at equal cost.
        placement: Placement,
    },
}

impl From<Row> for Cursor {
    /// Past the row.
    fn from(row: Row) -> Self {
        Cursor::Past {
            cost: row.cost,
            placement: row.placement,
        }
    }
}

/// A datum that is moved from one cloud to another because a service there reads it, or here wrote
/// it.
///
/// ```
/// use panel::{Description, Transfer};
///
/// let interview = Description::read(include_bytes!("../../../examples/interview.bin"))?;
/// let transfers = interview.transfers(&[1, 1, 0, 0, 0].into())?;
/// assert_eq!(transfers, [Transfer { edge: 1, datum: 2, from: 1, to: 0 }]);
/// # Ok::<(), panel::Refusal>(())
/// ```
#[derive(Debug, Clone, Copy, PartialEq, Eq, Hash)]
pub struct Transfer {
    /// The edge, in the order in which reads and writes are declared.
    pub edge: u8,
    /// The datum that is moved, by its number as a block.
    pub datum: u8,
    /// The cloud it leaves.
    pub from: u8,
    /// The cloud it enters.
    pub to: u8,
}

impl From<[u8; 4]> for Transfer {
    /// From its bytes, in the order of the fields.
    fn from([edge, datum, from, to]: [u8; 4]) -> Self {
        Transfer {
            edge,
            datum,
            from,
            to,
        }
    }
}

/// How many placements there are of each kind. `candidates` is the sum of the next four.
#[derive(Debug, Clone, Copy, PartialEq, Eq, Hash)]
pub struct Census {
    /// Placements with each block on a cloud that covers its label, and on its pin if it has one.
    pub candidates: u64,
    /// Candidates that break rule 16, whether or not they break rule 17.
    pub breaking16: u64,
    /// Candidates that break rule 17 and not rule 16.
    pub breaking17_only: u64,
    /// Candidates that break neither rule but a pair: some cloud holds two data that are apart.
    pub apart_only: u64,
    /// Candidates that break none of these.
    pub secure: u64,
    /// Options that the secure ones make: as many as there are rows.
    pub options: u64,
}

#[cfg(test)]
mod tests {
    use super::*;

    #[test]
    fn zeros_fill_a_placement() {
        assert_eq!(Placement::from([]), Placement::default());
        assert_eq!(Placement::from([7]).0[..2], [7, 0]);
        assert_eq!(Placement::from([5; 16]).0, [5; 16]);
    }

    #[test]
    fn a_slice_of_up_to_sixteen_clouds_is_a_placement() {
        for length in 0..=16 {
            let clouds = vec![7; length];
            let placement = Placement::try_from(&clouds[..]).expect("there is room");
            let (first, rest) = placement.0.split_at(length);
            assert_eq!(first, clouds);
            assert!(rest.iter().all(|&cloud| cloud == 0));
        }
        // Zeros too many are no better than other clouds too many.
        for length in [17, 18, 300] {
            let refused = Placement::try_from(&vec![0; length][..]);
            assert_eq!(refused, Err(NoPlacement { length }));
        }
        let error: Box<dyn Error> = Box::new(NoPlacement { length: 20 });
        assert!(error.to_string().starts_with("20 clouds "));
    }

    #[test]
    fn a_bill_keeps_the_order_of_its_words() {
        let bill = Bill::new([10, 1, 2, 7]);
        assert_eq!((bill.cost(), bill.storage()), (10, 1));
        assert_eq!((bill.transfer(), bill.cpu()), (2, 7));
        assert_eq!(bill.to_string(), "10 1 2 7");
        assert_eq!(Row::new(10, [1].into(), 1, [1, 2, 7]).bill(), bill);
    }

    #[test]
    fn a_packed_row_is_unpacked() {
        let row = Row::unpack([2850, 4680, 1330, 20, 1500], 5);
        assert_eq!(row.cost(), 2850);
        assert_eq!(row.clouds(), [1, 1, 1, 1, 0]);
        assert_eq!(row.placement(), &Placement::from([1, 1, 1, 1]));
        assert_eq!((row.storage(), row.transfer(), row.cpu()), (1330, 20, 1500));
        assert_eq!(Row::unpack([0, 0o7, 0, 0, 0], 2).clouds(), [0, 7]);
        let sixteen = Row::unpack([1, 0o1234_5670_0000_0007, 0, 0, 1], 16);
        assert_eq!(
            sixteen.clouds(),
            [1, 2, 3, 4, 5, 6, 7, 0, 0, 0, 0, 0, 0, 0, 0, 7]
        );
    }

    #[test]
    fn rows_are_ordered_by_cost_and_then_bytes() {
        let row = |cost, clouds: [u8; 2], amounts| Row::new(cost, clouds.into(), 2, amounts);
        assert!(row(1, [7, 7], [0, 0, 1]) < row(2, [0, 0], [0, 0, 2]));
        assert!(row(2, [0, 7], [2, 0, 0]) < row(2, [1, 0], [0, 0, 2]));
        assert_eq!(row(2, [1, 0], [0, 1, 1]), row(2, [1, 0], [0, 1, 1]));
    }

    #[test]
    fn a_row_shows_a_digit_for_each_block_and_three_amounts() {
        assert_eq!(Row::new(0, [0].into(), 1, [0; 3]).to_string(), "0 0 0 0 0");
        let widest = Row::new(1 << 52, [7; 16].into(), 16, [1 << 51, 2, (1 << 51) - 2]);
        assert_eq!(
            widest.to_string(),
            "4503599627370496 7777777777777777 2251799813685248 2 2251799813685246"
        );
    }

    #[test]
    fn a_cursor_is_the_start_unless_said() {
        assert_eq!(Cursor::default(), Cursor::Start);
        let past = Cursor::from(Row::new(3, [1].into(), 1, [1, 0, 2]));
        let placement = [1].into();
        assert_eq!(past, Cursor::Past { cost: 3, placement });
    }
}
