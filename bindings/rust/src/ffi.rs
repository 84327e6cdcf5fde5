//! The functions of `libpanel.a`, each with a safe one around it. All `unsafe` of this crate is
//! here.
//!
//! What every use relies on: the library is proved to read and write within the lengths that it is
//! given, for every input, and to keep nothing after it returns. A Rust slice or array reference is
//! valid for its length and aligned for its elements, and a `&mut` one is lent to nobody else, so
//! no two pointers that are written through overlap. For an empty slice the pointer is not read.

/// A status as the library answers it: 0, or a refusal's number in the low 8 bits and its place in
/// the others.
pub type Status = u64;

mod library {
    use super::Status;

    unsafe extern "C" {
        pub fn panel_read(description: *const u8, length: usize, counts: *mut u64) -> Status;
        pub fn panel_masks(description: *const u8, length: usize, masks: *mut u8) -> Status;
        pub fn panel_judge(description: *const u8, length: usize, placement: *const u8) -> Status;
        pub fn panel_transfers(
            description: *const u8,
            length: usize,
            placement: *const u8,
            buffer: *mut u8,
            room: usize,
            count: *mut u64,
        ) -> Status;
        pub fn panel_picture(
            description: *const u8,
            length: usize,
            placement: *const u8,
            buffer: *mut u8,
            room: usize,
            count: *mut u64,
        ) -> Status;
        pub fn panel_picture_size(
            description: *const u8,
            length: usize,
            placement: *const u8,
            count: *mut u64,
        ) -> Status;
        pub fn panel_bill(
            description: *const u8,
            length: usize,
            placement: *const u8,
            amounts: *mut u64,
        ) -> Status;
        pub fn panel_standing(
            description: *const u8,
            length: usize,
            position: usize,
            cloud: u8,
            reason: *mut u64,
        ) -> Status;
        pub fn panel_census(description: *const u8, length: usize, figures: *mut u64) -> Status;
        pub fn panel_draw(
            description: *const u8,
            length: usize,
            start: bool,
            cost: u64,
            placement: *const u8,
            answer: *mut u64,
            row: *mut u8,
        ) -> Status;
        pub fn panel_list(
            description: *const u8,
            length: usize,
            rows: *mut u64,
            room: usize,
            scratch: *mut u64,
            scratch_room: usize,
            extent: *mut u64,
        ) -> Status;
    }
}

pub fn read(description: &[u8], counts: &mut [u64; 3]) -> Status {
    let (bytes, length) = (description.as_ptr(), description.len());
    // SAFETY: `bytes` is valid for `length` reads, `counts` for the three words that are written.
    unsafe { library::panel_read(bytes, length, counts.as_mut_ptr()) }
}

pub fn masks(description: &[u8], masks: &mut [u8; 16]) -> Status {
    let (bytes, length) = (description.as_ptr(), description.len());
    // SAFETY: `bytes` is valid for `length` reads, `masks` for the sixteen bytes that are written.
    unsafe { library::panel_masks(bytes, length, masks.as_mut_ptr()) }
}

pub fn judge(description: &[u8], placement: &[u8; 16]) -> Status {
    let (bytes, length) = (description.as_ptr(), description.len());
    // SAFETY: `bytes` is valid for `length` reads, `placement` for sixteen; nothing is written.
    unsafe { library::panel_judge(bytes, length, placement.as_ptr()) }
}

/// A call that writes what it says of a placement to a lent buffer, and how much that is.
type Writing =
    unsafe extern "C" fn(*const u8, usize, *const u8, *mut u8, usize, *mut u64) -> Status;

fn write(
    call: Writing,
    description: &[u8],
    placement: &[u8; 16],
    buffer: &mut [u8],
    count: &mut u64,
) -> Status {
    let (bytes, length) = (description.as_ptr(), description.len());
    let (lent, room) = (buffer.as_mut_ptr(), buffer.len());
    // SAFETY: `bytes` is valid for `length` reads, `placement` for sixteen; `lent` is valid for
    // `room` bytes of writes and `count` for one word, and the two do not overlap.
    unsafe { call(bytes, length, placement.as_ptr(), lent, room, count) }
}

pub fn transfers(
    description: &[u8],
    placement: &[u8; 16],
    buffer: &mut [u8],
    count: &mut u64,
) -> Status {
    write(
        library::panel_transfers,
        description,
        placement,
        buffer,
        count,
    )
}

pub fn picture(
    description: &[u8],
    placement: &[u8; 16],
    buffer: &mut [u8],
    count: &mut u64,
) -> Status {
    write(
        library::panel_picture,
        description,
        placement,
        buffer,
        count,
    )
}

pub fn picture_size(description: &[u8], placement: &[u8; 16], count: &mut u64) -> Status {
    let (bytes, length) = (description.as_ptr(), description.len());
    // SAFETY: `bytes` is valid for `length` reads, `placement` for sixteen, and `count` for the one
    // word that is written.
    unsafe { library::panel_picture_size(bytes, length, placement.as_ptr(), count) }
}

pub fn bill(description: &[u8], placement: &[u8; 16], amounts: &mut [u64; 4]) -> Status {
    let (bytes, length) = (description.as_ptr(), description.len());
    let (placement, amounts) = (placement.as_ptr(), amounts.as_mut_ptr());
    // SAFETY: `bytes` is valid for `length` reads, `placement` for sixteen, and `amounts` for the
    // four words that are written.
    unsafe { library::panel_bill(bytes, length, placement, amounts) }
}

pub fn standing(description: &[u8], position: usize, cloud: u8, reason: &mut u64) -> Status {
    let (bytes, length) = (description.as_ptr(), description.len());
    // SAFETY: `bytes` is valid for `length` reads, and `reason` for the one word that is written.
    unsafe { library::panel_standing(bytes, length, position, cloud, reason) }
}

pub fn census(description: &[u8], figures: &mut [u64; 6]) -> Status {
    let (bytes, length) = (description.as_ptr(), description.len());
    // SAFETY: `bytes` is valid for `length` reads, `figures` for the six words that are written.
    unsafe { library::panel_census(bytes, length, figures.as_mut_ptr()) }
}

/// From the start, or past a cost and sixteen bytes.
pub fn draw(
    description: &[u8],
    past: Option<(u64, &[u8; 16])>,
    answer: &mut [u64; 5],
    row: &mut [u8; 16],
) -> Status {
    let (bytes, length) = (description.as_ptr(), description.len());
    let (cost, placement) = past.unwrap_or((0, &[0; 16]));
    let (start, placement) = (past.is_none(), placement.as_ptr());
    let (answer, row) = (answer.as_mut_ptr(), row.as_mut_ptr());
    // SAFETY: `bytes` is valid for `length` reads, `placement` for sixteen; `answer` is valid for
    // five words of writes and `row` for sixteen bytes, and the two do not overlap.
    unsafe { library::panel_draw(bytes, length, start, cost, placement, answer, row) }
}

pub fn list(
    description: &[u8],
    rows: &mut [u64],
    scratch: &mut [u64],
    extent: &mut [u64; 2],
) -> Status {
    let (bytes, length) = (description.as_ptr(), description.len());
    let (lent, room) = (rows.as_mut_ptr(), rows.len());
    let (spare, spare_room) = (scratch.as_mut_ptr(), scratch.len());
    let extent = extent.as_mut_ptr();
    // SAFETY: `bytes` is valid for `length` reads; `lent` and `spare` are valid for `room` and
    // `spare_room` words of writes and `extent` for two, and no two of them overlap.
    unsafe { library::panel_list(bytes, length, lent, room, spare, spare_room, extent) }
}
