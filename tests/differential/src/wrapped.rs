//! The wrapper's own types beside the reference.

use reference::calls::Census;
use reference::description::{Description, Refusal};
use reference::rules::Row;

/// A draw walks over all candidates, so of long lists only so many rows are drawn.
const DRAWN: usize = 12;

/// The part of the wrapper that says something else than the reference, if there is one.
pub fn difference(
    text: &[u8],
    described: Result<&Description, Refusal>,
    rows: &[Row],
) -> Option<&'static str> {
    match (panel::Description::read(text), described) {
        (Ok(wrapped), Ok(described)) => first_difference(&wrapped, described, rows),
        (Err(one), Err(other)) => {
            let same = (one.number, one.place) == (other.number, other.place as u64);
            (!same).then_some("refusal")
        }
        _ => Some("acceptance"),
    }
}

fn first_difference(
    wrapped: &panel::Description,
    described: &Description,
    rows: &[Row],
) -> Option<&'static str> {
    let first = &rows[..rows.len().min(DRAWN)];
    let drawn: Vec<panel::Row> = wrapped.rows().take(DRAWN).collect();
    let same_moves = |row| same_transfers(wrapped, described, row);
    let same_text = |row| same_picture(wrapped, described, row);
    let same_price = |row| same_bill(wrapped, described, row);
    let same_length = |row: &panel::Row| row.clouds().len() == described.blocks.len();
    let parts = [
        ("counts", same_counts(wrapped, described)),
        ("masks", wrapped.masks() == described.masks()),
        (
            "census",
            wrapped.census() == counted(described.census(rows)),
        ),
        ("list", same_rows(&wrapped.list(), rows)),
        ("rows", same_rows(&drawn, first)),
        ("clouds", drawn.iter().all(same_length)),
        ("transfers", first.iter().all(same_moves)),
        ("pictures", first.iter().all(same_text)),
        ("bills", first.iter().all(same_price)),
        ("standings", same_standings(wrapped, described)),
        (
            "reasons",
            first.iter().all(|row| same_why(wrapped, described, row)),
        ),
    ];
    let (name, _) = parts.into_iter().find(|(_, same)| !same)?;
    Some(name)
}

fn same_counts(wrapped: &panel::Description, described: &Description) -> bool {
    wrapped.clouds() == described.clouds.len()
        && wrapped.blocks() == described.blocks.len()
        && wrapped.edges() == described.edges.len()
}

fn counted(census: Census) -> panel::Census {
    panel::Census {
        candidates: census.candidates,
        breaking16: census.breaking_16,
        breaking17_only: census.breaking_17_only,
        apart_only: census.apart_only,
        secure: census.secure,
        options: census.options,
    }
}

fn same_rows(found: &[panel::Row], due: &[Row]) -> bool {
    let found = found.iter().map(|row| Row {
        cost: row.cost(),
        placement: row.placement().0,
        storage: row.storage(),
        transfer: row.transfer(),
        cpu: row.cpu(),
    });
    found.eq(due.iter().copied())
}

fn same_transfers(wrapped: &panel::Description, described: &Description, row: &Row) -> bool {
    let found = wrapped.transfers(&row.placement.into());
    let due = described.transfers(&row.placement, usize::MAX);
    let due = due.map(|bytes| bytes.into_iter().map(panel::Transfer::from).collect());
    found.ok() == due.ok()
}

fn same_picture(wrapped: &panel::Description, described: &Description, row: &Row) -> bool {
    let found = wrapped.picture(&row.placement.into());
    found.ok() == described.picture(&row.placement, usize::MAX).ok()
}

fn same_bill(wrapped: &panel::Description, described: &Description, row: &Row) -> bool {
    let found = wrapped.bill(&row.placement.into());
    let words = found.map(|bill| [bill.cost(), bill.storage(), bill.transfer(), bill.cpu()]);
    words.ok() == described.bill(&row.placement).ok()
}

/// All positions and a few more, on all declared clouds and some others.
fn same_standings(wrapped: &panel::Description, described: &Description) -> bool {
    let mut positions = (0..18).chain([255, 256, usize::MAX]);
    positions.all(|position| {
        let mut clouds = (0..10).chain([128, 255]);
        clouds.all(|cloud| {
            let found = wrapped.standing(position, cloud).number();
            u64::from(found) == described.standing(position, cloud) as u64
        })
    })
}

/// The row with one byte changed, at each position: where it is refused with 13, and for which
/// test.
fn same_why(wrapped: &panel::Description, described: &Description, row: &Row) -> bool {
    (0..16).all(|position| {
        let mut placement = row.placement;
        placement[position] ^= 1;
        let found = wrapped.why_not(&placement.into());
        let found = found.map(|why| (why.position, why.cloud, u64::from(why.standing.number())));
        let refused = described.judge(&placement).err();
        let due = refused
            .filter(|refusal| refusal.number == 13)
            .map(|refusal| {
                let at = refusal.place;
                (
                    at,
                    placement[at],
                    described.standing(at, placement[at]) as u64,
                )
            });
        found == due
    })
}
