//! The eleven calls on bytes and lent memory, as the library has them.
//!
//! [`Description`](crate::Description) is more convenient. These functions are for callers who keep
//! the memory themselves: none allocates, and none keeps anything. Each one starts with what
//! [`read`] does, so any bytes will do for a description. After a refusal all lent memory is as it
//! was before the call.

use crate::ffi::{self, Status};
use crate::{Cursor, Placement, Refusal};

/// Bytes that hold the [`picture`] of any placement.
pub const PICTURE: usize = 1374;

/// Words of a row in a [`list`].
pub const ROW: usize = 5;

/// Words that hold the rows of any description.
pub const LIST: usize = ROW * 65_536;

/// Words of scratch that are enough for any description: two for each row.
pub const SCRATCH: usize = 2 * 65_536;

fn answered(status: Status) -> Result<(), Refusal> {
    if status == 0 {
        return Ok(());
    }
    Err(Refusal {
        number: (status & 255) as u8,
        place: status >> 8,
    })
}

/// Reads a description; `counts` are its clouds, blocks and edges.
///
/// ```
/// let mut counts = [0; 3];
/// panel::calls::read(include_bytes!("../../../examples/interview.bin"), &mut counts)?;
/// assert_eq!(counts, [2, 5, 4]);
/// # Ok::<(), panel::Refusal>(())
/// ```
///
/// # Errors
///
/// Refuses with 1 to 12.
pub fn read(description: &[u8], counts: &mut [u64; 3]) -> Result<(), Refusal> {
    answered(ffi::read(description, counts))
}

/// Says in `masks` which clouds each block may use, by rule 7 and its pin: bit k of byte b is set
/// exactly if block b may stand on cloud k. The byte of a block that may stand nowhere is 0, and
/// so are those past the last block.
///
/// ```
/// let mut masks = [9; 16];
/// panel::calls::masks(include_bytes!("../../../examples/interview.bin"), &mut masks)?;
/// assert_eq!(masks[..5], [0b10, 0b11, 0b11, 0b11, 0b11]);
/// assert_eq!(masks[5..], [0; 11]);
/// # Ok::<(), panel::Refusal>(())
/// ```
///
/// # Errors
///
/// Refuses with 1 to 12.
pub fn masks(description: &[u8], masks: &mut [u8; 16]) -> Result<(), Refusal> {
    answered(ffi::masks(description, masks))
}

/// Judges a placement: secure, or refused.
///
/// ```
/// let interview = include_bytes!("../../../examples/interview.bin");
/// assert!(panel::calls::judge(interview, &[1, 1, 0, 0, 0].into()).is_ok());
/// ```
///
/// # Errors
///
/// Refuses with 1 to 15, and with 17.
pub fn judge(description: &[u8], placement: &Placement) -> Result<(), Refusal> {
    answered(ffi::judge(description, &placement.0))
}

/// Puts the transfers of a secure placement at the front of the buffer, four bytes each: edge,
/// datum, the cloud it leaves, the cloud it enters. `count` is their number. What comes after them
/// in the buffer is as before. 128 bytes are always enough.
///
/// ```
/// let interview = include_bytes!("../../../examples/interview.bin");
/// let (mut buffer, mut count) = ([9; 6], 0);
/// panel::calls::transfers(interview, &[1, 1, 0, 0, 0].into(), &mut buffer, &mut count)?;
/// assert_eq!((count, buffer), (1, [1, 2, 1, 0, 9, 9]));
/// # Ok::<(), panel::Refusal>(())
/// ```
///
/// # Errors
///
/// Refuses with 1 to 15, with 17, and with 16 and the bytes needed if the buffer is shorter than
/// that.
pub fn transfers(
    description: &[u8],
    placement: &Placement,
    buffer: &mut [u8],
    count: &mut u64,
) -> Result<(), Refusal> {
    answered(ffi::transfers(description, &placement.0, buffer, count))
}

/// Puts the picture of a secure placement, a text in ASCII for Graphviz, at the front of the
/// buffer. `count` is its length in bytes. What comes after it in the buffer is as before.
/// [`PICTURE`] bytes are always enough.
///
/// ```
/// let interview = include_bytes!("../../../examples/interview.bin");
/// let (mut buffer, mut count) = ([9; panel::calls::PICTURE], 0);
/// panel::calls::picture(interview, &[1, 1, 0, 0, 0].into(), &mut buffer, &mut count)?;
/// assert_eq!(count, 95);
/// assert_eq!(buffer[..95], *include_bytes!("../../../examples/interview.dot"));
/// assert_eq!(buffer[95], 9);
/// # Ok::<(), panel::Refusal>(())
/// ```
///
/// # Errors
///
/// Refuses with 1 to 15, with 17, and with 16 and the bytes needed if the buffer is shorter than
/// that.
pub fn picture(
    description: &[u8],
    placement: &Placement,
    buffer: &mut [u8],
    count: &mut u64,
) -> Result<(), Refusal> {
    answered(ffi::picture(description, &placement.0, buffer, count))
}

/// Says in `count` how many bytes [`picture`] writes for a secure placement.
///
/// ```
/// let interview = include_bytes!("../../../examples/interview.bin");
/// let mut count = 0;
/// panel::calls::picture_size(interview, &[1, 1, 0, 0, 0].into(), &mut count)?;
/// assert_eq!(count, 95);
/// # Ok::<(), panel::Refusal>(())
/// ```
///
/// # Errors
///
/// Refuses with 1 to 15, and with 17.
pub fn picture_size(
    description: &[u8],
    placement: &Placement,
    count: &mut u64,
) -> Result<(), Refusal> {
    answered(ffi::picture_size(description, &placement.0, count))
}

/// Says in `amounts` what a secure placement costs, and what of that is for storage, for transfers
/// and for cpu. The last three add up to the first.
///
/// ```
/// let interview = include_bytes!("../../../examples/interview.bin");
/// let mut amounts = [0; 4];
/// panel::calls::bill(interview, &[1, 1, 1, 0, 0].into(), &mut amounts)?;
/// assert_eq!(amounts, [2970, 1370, 100, 1500]);
/// # Ok::<(), panel::Refusal>(())
/// ```
///
/// # Errors
///
/// Refuses with 1 to 15, and with 17.
pub fn bill(
    description: &[u8],
    placement: &Placement,
    amounts: &mut [u64; 4],
) -> Result<(), Refusal> {
    answered(ffi::bill(description, &placement.0, amounts))
}

/// Says in `reason` whether a position of a placement may have a cloud, and if not, which of the
/// tests that lead to number 13 fails first: 0 if it may, or a number from 1 to 4 that
/// [`Standing`](crate::Standing) has names for. Every position and every cloud can be asked about.
///
/// ```
/// let interview = include_bytes!("../../../examples/interview.bin");
/// let mut reason = 9;
/// panel::calls::standing(interview, 0, 1, &mut reason)?;
/// assert_eq!(reason, 0);
/// panel::calls::standing(interview, 0, 0, &mut reason)?;
/// assert_eq!(reason, 2);
/// # Ok::<(), panel::Refusal>(())
/// ```
///
/// # Errors
///
/// Refuses with 1 to 12.
pub fn standing(
    description: &[u8],
    position: usize,
    cloud: u8,
    reason: &mut u64,
) -> Result<(), Refusal> {
    answered(ffi::standing(description, position, cloud, reason))
}

/// Counts the candidates, those that break rule 16, those that break rule 17 and not 16, those that
/// break neither but a pair, the secure ones, and the options.
///
/// ```
/// let mut figures = [0; 6];
/// panel::calls::census(include_bytes!("../../../examples/apart.bin"), &mut figures)?;
/// assert_eq!(figures, [16, 8, 0, 6, 2, 1]);
/// # Ok::<(), panel::Refusal>(())
/// ```
///
/// # Errors
///
/// Refuses with 1 to 12.
pub fn census(description: &[u8], figures: &mut [u64; 6]) -> Result<(), Refusal> {
    answered(ffi::census(description, figures))
}

/// Draws the first row past a cursor. `answer` is 1 and the row's cost, storage, transfer and cpu,
/// with its clouds in `row`; or zeros, in `row` too, if no row is left.
///
/// ```
/// use panel::Cursor;
///
/// let interview = include_bytes!("../../../examples/interview.bin");
/// let (mut answer, mut row) = ([0; 5], [0; 16]);
/// panel::calls::draw(interview, Cursor::Start, &mut answer, &mut row)?;
/// assert_eq!(answer, [1, 2820, 1320, 0, 1500]);
/// assert_eq!(row[..5], [1, 1, 1, 1, 1]);
/// # Ok::<(), panel::Refusal>(())
/// ```
///
/// # Errors
///
/// Refuses with 1 to 12.
pub fn draw(
    description: &[u8],
    cursor: Cursor,
    answer: &mut [u64; 5],
    row: &mut [u8; 16],
) -> Result<(), Refusal> {
    let past = match &cursor {
        Cursor::Start => None,
        Cursor::Past { cost, placement } => Some((*cost, &placement.0)),
    };
    answered(ffi::draw(description, past, answer, row))
}

/// Lists all rows after one walk. A row takes [`ROW`] words of `rows`: its cost, the clouds of its
/// blocks as the digits of one number to the base 8, the first block's digit the highest, and its
/// storage, transfer and cpu. `scratch` is for sorting, two words for each row; that much of it is
/// zeros afterwards. `extent` is the number of rows and of blocks. [`LIST`] words of rows and
/// [`SCRATCH`] words of scratch are always enough.
///
/// ```
/// let interview = include_bytes!("../../../examples/interview.bin");
/// let (mut rows, mut scratch, mut extent) = ([0; 30], [0; 12], [0; 2]);
/// panel::calls::list(interview, &mut rows, &mut scratch, &mut extent)?;
/// assert_eq!(extent, [6, 5]);
/// assert_eq!(rows[..5], [2820, 0o11111, 1320, 0, 1500]);
/// assert_eq!(rows[5..10], [2850, 0o11110, 1330, 20, 1500]);
/// # Ok::<(), panel::Refusal>(())
/// ```
///
/// # Errors
///
/// Refuses with 1 to 12, and with 16 and the words of rows that are needed if there are fewer, or
/// if the scratch has less than two fifths of that.
pub fn list(
    description: &[u8],
    rows: &mut [u64],
    scratch: &mut [u64],
    extent: &mut [u64; 2],
) -> Result<(), Refusal> {
    answered(ffi::list(description, rows, scratch, extent))
}

#[cfg(test)]
mod tests {
    use super::*;

    #[test]
    fn a_status_is_taken_apart() {
        assert_eq!(answered(0), Ok(()));
        let refusal = answered(12).unwrap_err();
        assert_eq!((refusal.number, refusal.place), (12, 0));
        let refusal = answered(1 + (65_536 << 8)).unwrap_err();
        assert_eq!((refusal.number, refusal.place), (1, 65_536));
        let refusal = answered(u64::MAX).unwrap_err();
        assert_eq!((refusal.number, refusal.place), (255, u64::MAX >> 8));
    }
}
