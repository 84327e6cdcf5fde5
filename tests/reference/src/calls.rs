//! The calls that an accepted description answers (docs/FORMAT.md, sections 5 and 6).

use crate::description::{Description, Edge, Refusal, Way};
use crate::options::sorted_options;
use crate::rules::{Placement, Priced, Row};

#[derive(Clone, Copy, Debug, PartialEq, Eq)]
pub struct Census {
    pub candidates: u64,
    pub breaking_16: u64,
    pub breaking_17_only: u64,
    pub apart_only: u64,
    pub secure: u64,
    pub options: u64,
}

/// Edge, datum, the cloud it leaves and the cloud it enters.
pub type Transfer = [u8; 4];

/// Whether a position may have a cloud, or the first test that fails; the numbers are those of the
/// call Standing.
#[derive(Clone, Copy, Debug, PartialEq, Eq)]
pub enum Standing {
    Allowed = 0,
    NoSuchCloud = 1,
    NotCovered = 2,
    NotPermitted = 3,
    NoBlock = 4,
}

/// The words of a row in a list, and the words of scratch that List sorts it with.
pub const ROW_WORDS: usize = 5;
pub const SCRATCH_WORDS: usize = 2;

impl Description {
    /// The clouds that each block may use: bit k of byte b is set if block b may stand on cloud k,
    /// and none after the last block.
    pub fn masks(&self) -> [u8; 16] {
        let mut masks = [0; 16];
        for (mask, block) in masks.iter_mut().zip(&self.blocks) {
            for cloud in 0..self.clouds.len() {
                *mask |= u8::from(self.may_stand(block, cloud)) << cloud;
            }
        }
        masks
    }

    /// Refuses with 13, 14, 15 or 17, each tested as a whole before the next.
    pub fn judge(&self, placement: &Placement) -> Result<(), Refusal> {
        let misplaced = (0..placement.len()).find(|&at| !self.fits(placement, at));
        if let Some(place) = misplaced {
            return Err(Refusal { number: 13, place });
        }
        for (number, way) in [(14, Way::Reads), (15, Way::Writes)] {
            if let Some(place) = self.first_breaking(way, placement) {
                return Err(Refusal { number, place });
            }
        }
        match self.first_meeting(placement) {
            Some(place) => Err(Refusal { number: 17, place }),
            None => Ok(()),
        }
    }

    fn fits(&self, placement: &Placement, at: usize) -> bool {
        let cloud = usize::from(placement[at]);
        match self.blocks.get(at) {
            Some(block) => cloud < self.clouds.len() && self.may_stand(block, cloud),
            None => cloud == 0,
        }
    }

    /// What the call Standing answers: for a position with a block whether the cloud is there,
    /// covers the block's label and is its pin if it has one; for any other whether the byte is 0.
    pub fn standing(&self, position: usize, cloud: u8) -> Standing {
        let Some(block) = self.blocks.get(position) else {
            return match cloud {
                0 => Standing::Allowed,
                _ => Standing::NoBlock,
            };
        };
        let Some(declared) = self.clouds.get(usize::from(cloud)) else {
            return Standing::NoSuchCloud;
        };
        if !declared.label.covers(block.label) {
            return Standing::NotCovered;
        }
        match block.pin {
            Some(pin) if pin != cloud => Standing::NotPermitted,
            _ => Standing::Allowed,
        }
    }

    /// Refuses as Judge does; else the cost, and its amounts for storage, transfer and cpu.
    pub fn bill(&self, placement: &Placement) -> Result<[u64; 4], Refusal> {
        self.judge(placement)?;
        let row = self.row(Priced {
            cost: self.cost(placement),
            placement: *placement,
        });
        Ok([row.cost, row.storage, row.transfer, row.cpu])
    }

    /// Rule 16 for reads, rule 17 for writes.
    fn first_breaking(&self, way: Way, placement: &Placement) -> Option<usize> {
        let breaks = |edge: &Edge| {
            let [service, datum] = edge.ends(placement);
            edge.way == way && self.exposes(edge, service, datum)
        };
        self.edges.iter().position(breaks)
    }

    /// Refuses as Judge does, and then with 16 if a buffer has too little room.
    pub fn transfers(&self, placement: &Placement, room: usize) -> Result<Vec<Transfer>, Refusal> {
        self.judge(placement)?;
        let transfers: Vec<Transfer> = (0..)
            .zip(&self.edges)
            .filter_map(|(number, edge)| transfer_at(number, edge, placement))
            .collect();
        let needed = 4 * transfers.len();
        refuse_unless(needed <= room, needed)?;
        Ok(transfers)
    }

    pub fn census(&self, rows: &[Row]) -> Census {
        let mut census = Census {
            candidates: 0,
            breaking_16: 0,
            breaking_17_only: 0,
            apart_only: 0,
            secure: 0,
            options: rows.len() as u64,
        };
        for placement in self.candidates() {
            census.candidates += 1;
            if self.first_breaking(Way::Reads, &placement).is_some() {
                census.breaking_16 += 1;
            } else if self.first_breaking(Way::Writes, &placement).is_some() {
                census.breaking_17_only += 1;
            } else if self.first_meeting(&placement).is_some() {
                census.apart_only += 1;
            } else {
                census.secure += 1;
            }
        }
        census
    }

    pub fn rows(&self) -> Vec<Row> {
        let options = sorted_options(self).into_iter();
        options.map(|priced| self.row(priced)).collect()
    }
}

fn transfer_at(number: u8, edge: &Edge, placement: &Placement) -> Option<Transfer> {
    let service = placement[edge.service];
    let datum = placement[edge.datum];
    let (leaves, enters) = match edge.way {
        Way::Reads => (datum, service),
        Way::Writes => (service, datum),
    };
    (leaves != enters).then_some([number, edge.datum as u8, leaves, enters])
}

/// What is lent must fit; the refusal says what is needed.
pub(crate) fn refuse_unless(fits: bool, needed: usize) -> Result<(), Refusal> {
    if fits {
        return Ok(());
    }
    Err(Refusal {
        number: 16,
        place: needed,
    })
}

/// The first of the sorted rows that is strictly later than the cursor; the start is `None`.
pub fn draw(rows: &[Row], cursor: Option<Priced>) -> Option<Row> {
    let later = |row: &&Row| cursor.is_none_or(|cursor| cursor < row.priced());
    rows.iter().find(later).copied()
}

/// The words that List leaves at the front of its rows: for each the cost, the packed placement,
/// and the amounts. Refuses with 16, and the words that the rows need, if they or the scratch are
/// lent too few.
pub fn list(
    rows: &[Row],
    blocks: usize,
    [room, scratch_room]: [usize; 2],
) -> Result<Vec<u64>, Refusal> {
    let count = rows.len();
    let fits = count <= room / ROW_WORDS && count <= scratch_room / SCRATCH_WORDS;
    refuse_unless(fits, ROW_WORDS * count)?;
    let words = |row: &Row| -> [u64; ROW_WORDS] {
        let packed = packed(&row.placement[..blocks]);
        [row.cost, packed, row.storage, row.transfer, row.cpu]
    };
    Ok(rows.iter().flat_map(words).collect())
}

/// The clouds as the digits of one number to the base 8, the first block's digit the highest.
fn packed(clouds: &[u8]) -> u64 {
    clouds.iter().fold(0, |n, &cloud| n * 8 + u64::from(cloud))
}

#[cfg(test)]
mod tests {
    use super::*;
    use crate::description::read;

    const INTERVIEW: &[u8] = include_bytes!("../../../examples/interview.bin");

    fn accepted(text: &[u8]) -> Description {
        read(text).expect("the description is accepted")
    }

    fn placement(clouds: &[u8]) -> Placement {
        let mut placement = [0; 16];
        placement[..clouds.len()].copy_from_slice(clouds);
        placement
    }

    /// By hand, with datum 2 on cloud 1 and service 3 on cloud 0: data 0 and 4 cost 10 x 12 x 10
    /// and 1 x 12 x 10 in storage; edge 2 moves 5 gigabytes for 5 x (10 + 10) and leaves a copy for
    /// 5 x 10.
    #[test]
    fn the_bills_of_the_interview() {
        let described = accepted(INTERVIEW);
        let bill = |clouds: &[u8]| described.bill(&placement(clouds));
        assert_eq!(bill(&[1, 1, 1, 0, 0]), Ok([2970, 1370, 100, 1500]));
        assert_eq!(bill(&[1, 1, 1, 1, 1]), Ok([2820, 1320, 0, 1500]));
        let refused = |number, place| Err(Refusal { number, place });
        assert_eq!(bill(&[1, 0, 0, 0, 0]), refused(14, 0));
        assert_eq!(bill(&[0, 1, 1, 1, 1]), refused(13, 0));
    }

    #[test]
    fn a_row_has_the_bill_of_its_placement() {
        let described = accepted(INTERVIEW);
        for row in described.rows() {
            let bill = [row.cost, row.storage, row.transfer, row.cpu];
            assert_eq!(described.bill(&row.placement), Ok(bill));
        }
    }

    #[test]
    fn the_standings_of_the_interview() {
        let described = accepted(INTERVIEW);
        let standing = |position, cloud| described.standing(position, cloud) as u64;
        assert_eq!(standing(0, 0), 2);
        assert_eq!(standing(0, 1), 0);
        assert_eq!(standing(0, 2), 1);
        assert_eq!(standing(5, 0), 0);
        assert_eq!(standing(5, 1), 4);
        assert_eq!(standing(255, 9), 4);
        assert_eq!(standing(usize::MAX, 0), 0);
    }

    /// Block 0 is pinned to cloud 0, which does not cover it: the label is looked at before the
    /// pin.
    #[test]
    fn the_tests_have_their_order() {
        let pinned = |block, cloud| {
            let pin = [6, block, cloud];
            accepted(&[&INTERVIEW[..64], &pin, &[0]].concat())
        };
        let described = pinned(0, 0);
        assert_eq!(described.standing(0, 0), Standing::NotCovered);
        assert_eq!(described.standing(0, 1), Standing::NotPermitted);
        assert_eq!(described.standing(0, 2), Standing::NoSuchCloud);
        let described = pinned(4, 0);
        assert_eq!(described.standing(4, 0), Standing::Allowed);
        assert_eq!(described.standing(4, 1), Standing::NotPermitted);
    }

    /// On all five-digit placements of clouds 0 to 2, with and without a pin.
    #[test]
    fn number_13_is_at_the_lowest_position_that_may_not_have_its_cloud() {
        let pinned = [&INTERVIEW[..64], &[6, 4, 0, 0]].concat();
        for text in [INTERVIEW, &pinned] {
            let described = accepted(text);
            for code in 0..3_usize.pow(6) {
                let digit = |at: u32| (code / 3_usize.pow(at) % 3) as u8;
                let placement = placement(&[0, 1, 2, 3, 4, 5].map(digit));
                let allowed =
                    |&at: &usize| described.standing(at, placement[at]) == Standing::Allowed;
                let lowest = (0..16).find(|at| !allowed(at));
                let refused = described.judge(&placement).err();
                let refused = refused.filter(|refusal| refusal.number == 13);
                assert_eq!(refused.map(|refusal| refusal.place), lowest);
            }
        }
    }
}
