//! An accepted description and what it answers.

use std::iter::FusedIterator;

use crate::calls;
use crate::parts::Parts;
use crate::{Bill, Census, Cursor, Misplaced, Placement, Reason, Refusal, Row, Standing, Transfer};

/// Bytes that always hold the transfers: four for each of 32 edges.
const TRANSFERS: usize = 128;

/// The most candidates that a description may have, so also the most rows.
const CANDIDATES: usize = 65_536;

/// A description that was accepted: a workflow, the clouds it could run on, its pins, and the pairs
/// of data that it keeps apart.
///
/// It has its bytes and nothing else: threads may share one, or have a clone each.
#[derive(Debug, Clone, PartialEq, Eq, Hash)]
pub struct Description {
    bytes: Box<[u8]>,
    clouds: usize,
    blocks: usize,
    edges: usize,
}

impl Description {
    /// Reads a description and keeps its bytes.
    ///
    /// ```
    /// use panel::Description;
    ///
    /// let bytes = include_bytes!("../../../examples/interview.bin");
    /// assert!(Description::read(bytes).is_ok());
    ///
    /// let refusal = Description::read(&bytes[..64]).unwrap_err();
    /// assert_eq!((refusal.number, refusal.place), (1, 64));
    /// ```
    ///
    /// # Errors
    ///
    /// Refuses with 1 to 12 what is no description.
    pub fn read(bytes: &[u8]) -> Result<Self, Refusal> {
        let mut counts = [0; 3];
        calls::read(bytes, &mut counts)?;
        let [clouds, blocks, edges] = counts.map(|count| count as usize);
        Ok(Description {
            bytes: bytes.into(),
            clouds,
            blocks,
            edges,
        })
    }

    /// The bytes that were read.
    #[must_use]
    pub fn bytes(&self) -> &[u8] {
        &self.bytes
    }

    /// How many clouds it declares, 1 to 8.
    #[must_use]
    pub fn clouds(&self) -> usize {
        self.clouds
    }

    /// How many data and services it declares together, 1 to 16.
    #[must_use]
    pub fn blocks(&self) -> usize {
        self.blocks
    }

    /// How many reads and writes it declares together, up to 32.
    #[must_use]
    pub fn edges(&self) -> usize {
        self.edges
    }

    /// What it declares, in the order of its commands: to show it, or to change it with a
    /// [`Builder`](crate::builder::Builder).
    ///
    /// ```
    /// use panel::Description;
    ///
    /// let interview = Description::read(include_bytes!("../../../examples/interview.bin"))?;
    /// let parts = interview.parts();
    /// assert_eq!(parts.clouds().map(|cloud| cloud.label).collect::<Vec<_>>(), [0, 1]);
    /// assert_eq!((parts.blocks().count(), parts.edges().count()), (5, 4));
    /// # Ok::<(), panel::Refusal>(())
    /// ```
    #[must_use]
    pub fn parts(&self) -> Parts {
        Parts::of_accepted(&self.bytes)
    }

    /// Which clouds each block may use by itself, by rule 7 and its pin: bit k of byte b is set
    /// exactly if block b may stand on cloud k. The byte of a block that may stand nowhere is 0,
    /// and so are those past the last block.
    ///
    /// A panel offers these clouds for the block and greys out the others. Whether the clouds
    /// chosen for all blocks go together is for [`judge`](Self::judge) to say.
    ///
    /// ```
    /// use panel::Description;
    ///
    /// let interview = Description::read(include_bytes!("../../../examples/interview.bin"))?;
    /// let masks = interview.masks();
    /// let may_use = |block: usize, cloud: usize| masks[block] >> cloud & 1 == 1;
    /// assert!(!may_use(0, 0) && may_use(0, 1));
    /// assert_eq!(masks[..5], [0b10, 0b11, 0b11, 0b11, 0b11]);
    /// assert_eq!(masks[5..], [0; 11]);
    /// # Ok::<(), panel::Refusal>(())
    /// ```
    #[must_use]
    pub fn masks(&self) -> [u8; 16] {
        let mut masks = [0; 16];
        accepted(calls::masks(&self.bytes, &mut masks));
        masks
    }

    /// Judges a placement: `Ok` if it is secure.
    ///
    /// ```
    /// use panel::Description;
    ///
    /// let interview = Description::read(include_bytes!("../../../examples/interview.bin"))?;
    /// assert!(interview.judge(&[1, 1, 0, 0, 0].into()).is_ok());
    ///
    /// let refusal = interview.judge(&[0, 1, 1, 1, 1].into()).unwrap_err();
    /// assert_eq!((refusal.number, refusal.place), (13, 0));
    /// # Ok::<(), panel::Refusal>(())
    /// ```
    ///
    /// # Errors
    ///
    /// Refuses with 13 what is no candidate, with 14 or 15 what breaks rule 16 or 17, and with 17
    /// what breaks a pair.
    pub fn judge(&self, placement: &Placement) -> Result<(), Refusal> {
        calls::judge(&self.bytes, placement)
    }

    /// What a secure placement costs, and what of that is for storage, for transfers and for cpu.
    /// The placement need not be a row.
    ///
    /// ```
    /// use panel::Description;
    ///
    /// let interview = Description::read(include_bytes!("../../../examples/interview.bin"))?;
    /// let bill = interview.bill(&[1, 1, 1, 0, 0].into())?;
    /// assert_eq!(bill.cost(), 2970);
    /// assert_eq!(bill.storage() + bill.transfer() + bill.cpu(), 2970);
    /// # Ok::<(), panel::Refusal>(())
    /// ```
    ///
    /// # Errors
    ///
    /// Refuses what [`judge`](Self::judge) refuses.
    pub fn bill(&self, placement: &Placement) -> Result<Bill, Refusal> {
        let mut amounts = [0; 4];
        calls::bill(&self.bytes, placement, &mut amounts)?;
        Ok(Bill::new(amounts))
    }

    /// Whether a position of a placement may have a cloud, and if not, which test fails first.
    /// Every position and every cloud can be asked about.
    ///
    /// ```
    /// use panel::{Description, Standing};
    ///
    /// let interview = Description::read(include_bytes!("../../../examples/interview.bin"))?;
    /// assert_eq!(interview.standing(0, 0), Standing::NotCovered);
    /// assert_eq!(interview.standing(0, 1), Standing::Allowed);
    /// assert_eq!(interview.standing(0, 2), Standing::NoSuchCloud);
    /// assert_eq!(interview.standing(5, 1), Standing::NoBlock);
    /// # Ok::<(), panel::Refusal>(())
    /// ```
    #[must_use]
    pub fn standing(&self, position: usize, cloud: u8) -> Standing {
        let mut reason = 0;
        accepted(calls::standing(&self.bytes, position, cloud, &mut reason));
        Standing::of(reason)
    }

    /// Why a placement is no candidate (number 13): the lowest position that may not have its
    /// cloud, and which test fails there. `None` if it is a candidate, whether or not it is secure;
    /// what [`judge`](Self::judge) refuses with 14, 15 or 17 is said by its refusal.
    ///
    /// ```
    /// use panel::{Description, Misplaced, Standing};
    ///
    /// let interview = Description::read(include_bytes!("../../../examples/interview.bin"))?;
    /// assert_eq!(
    ///     interview.why_not(&[0, 1, 1, 1, 1].into()),
    ///     Some(Misplaced { position: 0, cloud: 0, standing: Standing::NotCovered })
    /// );
    /// assert_eq!(interview.why_not(&[1, 1, 1, 1, 1].into()), None);
    /// # Ok::<(), panel::Refusal>(())
    /// ```
    #[must_use]
    pub fn why_not(&self, placement: &Placement) -> Option<Misplaced> {
        let refusal = self.judge(placement).err()?;
        if refusal.reason() != Reason::NoCandidate {
            return None;
        }
        let position = refusal.place as usize;
        let cloud = placement.0[position];
        let standing = self.standing(position, cloud);
        Some(Misplaced {
            position,
            cloud,
            standing,
        })
    }

    /// Counts the placements of each kind.
    ///
    /// ```
    /// use panel::Description;
    ///
    /// let interview = Description::read(include_bytes!("../../../examples/interview.bin"))?;
    /// let census = interview.census();
    /// assert_eq!((census.candidates, census.breaking16, census.secure), (16, 8, 8));
    /// assert_eq!(census.options, 6);
    ///
    /// // With its first and last file apart.
    /// let apart = Description::read(include_bytes!("../../../examples/apart.bin"))?;
    /// let census = apart.census();
    /// assert_eq!((census.apart_only, census.secure, census.options), (6, 2, 1));
    /// # Ok::<(), panel::Refusal>(())
    /// ```
    #[must_use]
    pub fn census(&self) -> Census {
        let mut figures = [0; 6];
        accepted(calls::census(&self.bytes, &mut figures));
        let [
            candidates,
            breaking16,
            breaking17_only,
            apart_only,
            secure,
            options,
        ] = figures;
        Census {
            candidates,
            breaking16,
            breaking17_only,
            apart_only,
            secure,
            options,
        }
    }

    /// The transfers of a secure placement, in edge order.
    ///
    /// ```
    /// use panel::Description;
    ///
    /// let interview = Description::read(include_bytes!("../../../examples/interview.bin"))?;
    /// assert!(interview.transfers(&[1, 1, 1, 1, 1].into())?.is_empty());
    /// # Ok::<(), panel::Refusal>(())
    /// ```
    ///
    /// # Errors
    ///
    /// Refuses what [`judge`](Self::judge) refuses.
    pub fn transfers(&self, placement: &Placement) -> Result<Vec<Transfer>, Refusal> {
        let (mut buffer, mut count) = ([0; TRANSFERS], 0);
        calls::transfers(&self.bytes, placement, &mut buffer, &mut count)?;
        let (transfers, _) = buffer.as_chunks::<4>();
        let transfers = transfers.iter().take(count as usize);
        Ok(transfers.copied().map(Transfer::from).collect())
    }

    /// The picture of a secure placement: a text that Graphviz draws, with a line for each edge and
    /// then one for each block without an edge.
    ///
    /// ```
    /// use panel::Description;
    ///
    /// let interview = Description::read(include_bytes!("../../../examples/interview.bin"))?;
    /// assert_eq!(
    ///     interview.picture(&[1, 1, 0, 0, 0].into())?,
    ///     "digraph p {
    ///   d0_1 -> s1_1;
    ///   s1_1 -> d2_1_e1 -> x1 -> d2_0;
    ///   d2_0 -> s3_0;
    ///   s3_0 -> d4_0;
    /// }
    /// "
    /// );
    /// # Ok::<(), panel::Refusal>(())
    /// ```
    ///
    /// # Errors
    ///
    /// Refuses what [`judge`](Self::judge) refuses.
    pub fn picture(&self, placement: &Placement) -> Result<String, Refusal> {
        let (mut buffer, mut count) = ([0; calls::PICTURE], 0);
        calls::picture(&self.bytes, placement, &mut buffer, &mut count)?;
        // The text is ASCII, so that each byte is a character.
        let text = buffer.iter().take(count as usize);
        Ok(text.copied().map(char::from).collect())
    }

    /// The first row that is strictly later than the cursor, or `None` if there is none.
    ///
    /// Each draw walks over all candidates; to have every row, [`list`](Self::list) walks once.
    ///
    /// ```
    /// use panel::{Cursor, Description};
    ///
    /// let interview = Description::read(include_bytes!("../../../examples/interview.bin"))?;
    /// let first = interview.draw(Cursor::Start).expect("there is a secure placement");
    /// assert_eq!(first.to_string(), "2820 11111 1320 0 1500");
    /// let second = interview.draw(first.into()).expect("there are two");
    /// assert_eq!(second.to_string(), "2850 11110 1330 20 1500");
    /// # Ok::<(), panel::Refusal>(())
    /// ```
    #[must_use]
    pub fn draw(&self, cursor: Cursor) -> Option<Row> {
        let (mut answer, mut clouds) = ([0; 5], [0; 16]);
        accepted(calls::draw(&self.bytes, cursor, &mut answer, &mut clouds));
        let [found, cost, amounts @ ..] = answer;
        (found == 1).then(|| Row::new(cost, Placement(clouds), self.blocks, amounts))
    }

    /// All rows in their order, each drawn when it is asked for.
    ///
    /// ```
    /// use panel::Description;
    ///
    /// let interview = Description::read(include_bytes!("../../../examples/interview.bin"))?;
    /// let cheap: Vec<_> = interview.rows().take_while(|row| row.cost() < 2900).collect();
    /// assert_eq!(cheap.len(), 2);
    /// # Ok::<(), panel::Refusal>(())
    /// ```
    #[must_use]
    pub fn rows(&self) -> Rows<'_> {
        Rows {
            description: self,
            cursor: Some(Cursor::Start),
        }
    }

    /// All rows in their order, after a single walk over the candidates.
    ///
    /// ```
    /// use panel::Description;
    ///
    /// let interview = Description::read(include_bytes!("../../../examples/interview.bin"))?;
    /// assert!(interview.list().into_iter().eq(interview.rows()));
    /// # Ok::<(), panel::Refusal>(())
    /// ```
    #[must_use]
    pub fn list(&self) -> Vec<Row> {
        let most = self.most_rows();
        let mut rows = vec![0; calls::ROW * most];
        // Two words sort a row, whatever else it has.
        let mut scratch = vec![0; 2 * most];
        let mut extent = [0; 2];
        accepted(calls::list(
            &self.bytes,
            &mut rows,
            &mut scratch,
            &mut extent,
        ));
        let (rows, _) = rows.as_chunks::<{ calls::ROW }>();
        let rows = rows.iter().take(extent[0] as usize);
        rows.map(|&words| Row::unpack(words, self.blocks)).collect()
    }

    /// A row is a placement of every block on some cloud, and there are no more than candidates.
    fn most_rows(&self) -> usize {
        let placements = self.clouds.saturating_pow(self.blocks as u32);
        placements.min(CANDIDATES)
    }
}

/// The answer about bytes that were accepted, with as much memory lent as is ever needed.
fn accepted(answer: Result<(), Refusal>) {
    if let Err(refusal) = answer {
        unreachable!("nothing can be refused here: {refusal}");
    }
}

/// The rows of a description in their order, drawn one by one: see [`Description::rows`].
#[derive(Debug, Clone)]
pub struct Rows<'a> {
    description: &'a Description,
    /// Past the row drawn last; nothing once a draw has found no more.
    cursor: Option<Cursor>,
}

impl Iterator for Rows<'_> {
    type Item = Row;

    fn next(&mut self) -> Option<Row> {
        let row = self.description.draw(self.cursor?);
        self.cursor = row.map(Cursor::from);
        row
    }
}

impl FusedIterator for Rows<'_> {}
