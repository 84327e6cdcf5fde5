//! Puts one input to the library and to the reference, and compares all that comes back.

use std::fmt::Debug;

use panel::{Cursor, Placement as Placed, calls as engine};
use reference::calls::{self as by_definition, Census, ROW_WORDS, SCRATCH_WORDS};
use reference::description::{Description, Refusal, decode, read};
use reference::random::Random;
use reference::rules::{Placement, Priced, Row};

use crate::built;
use crate::copies::Turned;
use crate::generate::Kind;
use crate::labels::{self, Marked, for_a_mark};
use crate::lent::{Checked, Lent};
use crate::mask;
use crate::operands::{cursor, placement, position_and_cloud, room, rooms};
use crate::picture::{kind_of, room_seen, seen_in};
use crate::standing;
use crate::tally::{Call, NO_ROW, TURNED, TURNED_AT_EQUAL_COST, Tally};
use crate::text::has_half;
use crate::wrapped;

/// Where library and reference part.
pub struct Difference(pub String);

type Agreed = Result<(), Difference>;

/// Of the descriptions with more candidates than QUICK, only the first of every so many is put to
/// the calls that walk over all of them.
const QUICK: u64 = 600;
const RARELY: u64 = 100;

/// One input of so many is put to the wrapper's types as well.
const WRAPPED: usize = 20;

/// What always holds the transfers, and the rows with the scratch to sort them.
const ENOUGH_BYTES: usize = 128;
const ENOUGH_WORDS: [usize; 2] = [327_680, 131_072];

/// The length around which buffers are lent if there is no picture.
const SOME_PICTURE: usize = 40;

/// A description, and what the reference makes of it.
pub struct Input<'a> {
    text: Lent<u8>,
    described: Result<Description, Refusal>,
    rows: Vec<Row>,
    random: &'a mut Random,
    tally: &'a mut Tally,
}

/// One call, and what both sides answered.
struct Case<'a> {
    call: Call,
    operands: &'a dyn Debug,
    library: Result<(), panel::Refusal>,
    reference: Result<&'static str, Refusal>,
}

impl<'a> Input<'a> {
    pub fn new(kind: Kind, text: &[u8], random: &'a mut Random, tally: &'a mut Tally) -> Self {
        tally.input(kind);
        Input {
            text: Lent::holding(random, text),
            described: read(text),
            rows: Vec::new(),
            random,
            tally,
        }
    }

    /// Makes all calls, those that are answered several times.
    pub fn compare(mut self) -> Agreed {
        let walks = self.prepare();
        let times = if self.described.is_ok() { 4 } else { 1 };
        self.read()?;
        self.masks()?;
        self.built()?;
        for _ in 0..times {
            self.judge()?;
            self.transfers()?;
            self.pictures()?;
            self.bill()?;
            self.standing()?;
        }
        if walks {
            self.census()?;
            for _ in 0..times {
                self.draw()?;
                self.list()?;
            }
        }
        if walks && self.random.one_in(WRAPPED) {
            self.wrapped()?;
        }
        Ok(())
    }

    /// The wrapper's types pass on what the calls answer.
    fn wrapped(&mut self) -> Agreed {
        let wrapped = wrapped::difference(self.text.get(), self.described(), &self.rows);
        if let Some(part) = wrapped {
            return Err(self.wrong(&format!("the wrapper's {part}")));
        }
        self.tally.shown("wrapper compared");
        Ok(())
    }

    /// The wrapper's builder takes exactly the commands that Read takes, makes the same bytes of
    /// them, and takes an accepted description apart.
    fn built(&mut self) -> Agreed {
        let built = built::difference(self.text.get(), self.described());
        if let Some(part) = built {
            return Err(self.wrong(&format!("the builder's {part}")));
        }
        self.tally.shown("builder compared");
        Ok(())
    }

    /// A difference that is no matter of one call.
    fn wrong(&self, subject: &str) -> Difference {
        let text = self.hexadecimal();
        Difference(format!("description {text}\ndifference  {subject}"))
    }

    /// Has the reference list the rows, unless that takes too long; says whether the calls that
    /// walk over all candidates are to be made.
    fn prepare(&mut self) -> bool {
        let Ok(described) = &self.described else {
            self.tally_refusal();
            return true;
        };
        let candidates = described.candidate_count();
        let walks = candidates <= QUICK || self.tally.one_more_large().is_multiple_of(RARELY);
        if walks {
            self.rows = described.rows();
        }
        let pays_half = self.rows.iter().any(pays_for_data) && has_half(self.text.get());
        let shown = [
            ("8 clouds", described.clouds.len() == 8),
            ("16 blocks", described.blocks.len() == 16),
            ("32 edges", described.edges.len() == 32),
            ("pairs", !described.apart.is_empty()),
            ("8 pairs", described.apart.len() == 8),
            ("65,536 candidates", candidates == 65_536),
            ("65,536 walked", candidates == 65_536 && walks),
            ("no candidates", candidates == 0),
            ("no rows", walks && candidates > 0 && self.rows.is_empty()),
            ("three amounts", self.rows.iter().any(has_three_amounts)),
            ("half charged", pays_half),
        ];
        let labels = labels::seen_in(described);
        self.show(&shown);
        self.show(&labels);
        walks
    }

    /// Counts the refusal of the description, if a mark alone is missing.
    fn tally_refusal(&mut self) {
        if let (Err(refusal), Ok(described)) = (&self.described, decode(self.text.get()))
            && let Some(name) = for_a_mark(&described, *refusal, &[0; 16])
        {
            self.tally.shown(name);
        }
    }

    /// Counts what holds of the description.
    fn show(&mut self, traits: &[(&'static str, bool)]) {
        for (name, _) in traits.iter().filter(|(_, holds)| *holds) {
            self.tally.shown(name);
        }
    }

    fn described(&self) -> Result<&Description, Refusal> {
        self.described.as_ref().map_err(|refusal| *refusal)
    }

    fn placement(&mut self) -> Placement {
        let described = self.described.as_ref().ok();
        placement(self.random, described, &self.rows)
    }

    fn read(&mut self) -> Agreed {
        let mut counts = Lent::<u64>::new(self.random, 3);
        let reference = self.described().map(|described| {
            let [clouds, blocks] = [described.clouds.len(), described.blocks.len()];
            counts.expect(&[clouds, blocks, described.edges.len()].map(|count| count as u64));
            "accepted"
        });
        let library = engine::read(self.text.get(), counts.lend_array());
        let case = Case {
            call: Call::Read,
            operands: &(),
            library,
            reference,
        };
        self.settle(&case, &[&counts])
    }

    fn masks(&mut self) -> Agreed {
        let mut masks = Lent::<u8>::new(self.random, 16);
        let mut shown = Vec::new();
        let reference = self.described().map(|described| {
            let due = described.masks();
            masks.expect(&due);
            shown = mask::seen_in(described, &due);
            mask::kind_of(described, &due)
        });
        self.show(&shown);
        let library = engine::masks(self.text.get(), masks.lend_array());
        let case = Case {
            call: Call::Masks,
            operands: &(),
            library,
            reference,
        };
        self.settle(&case, &[&masks])
    }

    fn judge(&mut self) -> Agreed {
        let placement = self.placement();
        let judged = self.described().and_then(|d| d.judge(&placement));
        if let (Ok(described), Err(refusal)) = (&self.described, judged)
            && let Some(name) = for_a_mark(described, refusal, &placement)
        {
            self.tally.shown(name);
        }
        let library = engine::judge(self.text.get(), &Placed(placement));
        let case = Case {
            call: Call::Judge,
            operands: &placement,
            library,
            reference: judged.map(|()| "secure"),
        };
        self.settle(&case, &[])?;
        self.thirteen(&placement, library)
    }

    /// The law of Judge and Standing, of the library alone: 13 is at the lowest position that may
    /// not have its cloud, and there is no 13 if there is no such position.
    fn thirteen(&mut self, placement: &Placement, judged: Result<(), panel::Refusal>) -> Agreed {
        if self.described.is_err() {
            return Ok(());
        }
        if standing::lowest_misplaced(self.text.get(), placement) != standing::place_of_13(judged) {
            let subject = format!("Judge and Standing part at {placement:?}");
            return Err(self.wrong(&subject));
        }
        self.tally.shown("13 as Standing has it");
        Ok(())
    }

    fn transfers(&mut self) -> Agreed {
        let placement = self.placement();
        let all = self.described();
        let all = all.and_then(|described| described.transfers(&placement, usize::MAX));
        let needed = all.map_or(8, |transfers| 4 * transfers.len());
        let room = room(self.random, needed, ENOUGH_BYTES);
        let mut buffer = Lent::<u8>::new(self.random, room);
        let mut count = Lent::<u64>::new(self.random, 1);
        let reference = self.described().and_then(|described| {
            let transfers = described.transfers(&placement, room)?;
            buffer.expect(&transfers.concat());
            count.expect(&[transfers.len() as u64]);
            Ok(if transfers.is_empty() { "none" } else { "some" })
        });
        let (place, [lent_count]) = (Placed(placement), count.lend_array());
        let library = engine::transfers(self.text.get(), &place, buffer.lend(), lent_count);
        let case = Case {
            call: Call::Transfers,
            operands: &(placement, room),
            library,
            reference,
        };
        self.settle(&case, &[&buffer, &count])
    }

    /// The picture of one placement, and its size.
    fn pictures(&mut self) -> Agreed {
        let placement = self.placement();
        self.picture(placement)?;
        self.picture_size(placement)
    }

    fn picture(&mut self, placement: Placement) -> Agreed {
        let size = self.described().and_then(|d| d.picture_size(&placement));
        let room = room(self.random, size.unwrap_or(SOME_PICTURE), engine::PICTURE);
        let mut buffer = Lent::<u8>::new(self.random, room);
        let mut count = Lent::<u64>::new(self.random, 1);
        let mut shown = size.map_or(Vec::new(), |needed| room_seen(room, needed));
        let reference = self.described().and_then(|described| {
            let text = described.picture(&placement, room)?;
            buffer.expect(text.as_bytes());
            count.expect(&[text.len() as u64]);
            shown.extend(seen_in(&text));
            Ok(kind_of(&text))
        });
        self.show(&shown);
        let (place, [lent_count]) = (Placed(placement), count.lend_array());
        let library = engine::picture(self.text.get(), &place, buffer.lend(), lent_count);
        let case = Case {
            call: Call::Picture,
            operands: &(placement, room),
            library,
            reference,
        };
        self.settle(&case, &[&buffer, &count])
    }

    fn picture_size(&mut self, placement: Placement) -> Agreed {
        let mut count = Lent::<u64>::new(self.random, 1);
        let reference = self.described().and_then(|described| {
            count.expect(&[described.picture_size(&placement)? as u64]);
            Ok("bytes")
        });
        let [lent_count] = count.lend_array();
        let case = Case {
            call: Call::PictureSize,
            operands: &placement,
            library: engine::picture_size(self.text.get(), &Placed(placement), lent_count),
            reference,
        };
        self.settle(&case, &[&count])
    }

    fn bill(&mut self) -> Agreed {
        let placement = self.placement();
        let mut amounts = Lent::<u64>::new(self.random, 4);
        let listed = self.listed(&placement);
        let reference = self.described().and_then(|described| {
            amounts.expect(&described.bill(&placement)?);
            Ok(listed)
        });
        let case = Case {
            call: Call::Bill,
            operands: &placement,
            library: engine::bill(self.text.get(), &Placed(placement), amounts.lend_array()),
            reference,
        };
        self.settle(&case, &[&amounts])
    }

    /// What the bill of a secure placement is counted as: of a row, of none, or of a description
    /// whose rows were not listed.
    fn listed(&self, placement: &Placement) -> &'static str {
        match self.rows.as_slice() {
            [] => "rows unknown",
            rows if rows.iter().any(|row| row.placement == *placement) => "a row",
            _ => NO_ROW,
        }
    }

    fn standing(&mut self) -> Agreed {
        let described = self.described.as_ref().ok();
        let (position, cloud) = position_and_cloud(self.random, described);
        let mut reason = Lent::<u64>::new(self.random, 1);
        let reference = self.described().map(|described| {
            let standing = described.standing(position, cloud);
            reason.expect(&[standing as u64]);
            standing::name_of(standing)
        });
        let [lent_reason] = reason.lend_array();
        let case = Case {
            call: Call::Standing,
            operands: &(position, cloud),
            library: engine::standing(self.text.get(), position, cloud, lent_reason),
            reference,
        };
        self.settle(&case, &[&reason])
    }

    fn census(&mut self) -> Agreed {
        let mut figures = Lent::<u64>::new(self.random, 6);
        let (mut shown, mut turned) = (Vec::new(), Turned::default());
        let mut marked = Marked::default();
        let reference = self.described().map(|described| {
            let c = described.census(&self.rows);
            shown = seen_in_census(described, &c);
            if c.options < c.secure {
                turned = Turned::of(described, &self.rows);
            }
            if labels::has_marks(described) {
                marked = Marked::of(described, &self.rows, QUICK);
            }
            figures.expect(&[
                c.candidates,
                c.breaking_16,
                c.breaking_17_only,
                c.apart_only,
                c.secure,
                c.options,
            ]);
            "counts"
        });
        self.show(&shown);
        self.tally.shown_times(TURNED, turned.rows);
        self.tally.shown_times(TURNED_AT_EQUAL_COST, turned.tied);
        self.tally.shown_times(labels::TAKEN, marked.taken);
        self.tally.shown_times(labels::NEEDING, marked.needing);
        let library = engine::census(self.text.get(), figures.lend_array());
        let case = Case {
            call: Call::Census,
            operands: &(),
            library,
            reference,
        };
        self.settle(&case, &[&figures])
    }

    fn draw(&mut self) -> Agreed {
        let cursor = cursor(self.random, &self.rows);
        let mut answer = Lent::<u64>::new(self.random, 5);
        let mut clouds = Lent::<u8>::new(self.random, 16);
        let reference = self.described().map(|_| {
            let row = by_definition::draw(&self.rows, cursor);
            let words = |row: Row| [1, row.cost, row.storage, row.transfer, row.cpu];
            answer.expect(&row.map_or([0; 5], words));
            clouds.expect(&row.map_or([0; 16], |row| row.placement));
            if row.is_some() { "row" } else { "finished" }
        });
        let past = cursor.map_or(Cursor::Start, |Priced { cost, placement }| Cursor::Past {
            cost,
            placement: Placed(placement),
        });
        let lent = (answer.lend_array(), clouds.lend_array());
        let case = Case {
            call: Call::Draw,
            operands: &past,
            library: engine::draw(self.text.get(), past, lent.0, lent.1),
            reference,
        };
        self.settle(&case, &[&answer, &clouds])
    }

    fn list(&mut self) -> Agreed {
        let needed = [ROW_WORDS, SCRATCH_WORDS].map(|words| words * self.rows.len());
        let rooms = rooms(self.random, needed, ENOUGH_WORDS);
        let [mut rows, mut scratch] = rooms.map(|room| Lent::<u64>::new(self.random, room));
        let mut extent = Lent::<u64>::new(self.random, 2);
        let reference = self.described().and_then(|described| {
            let blocks = described.blocks.len();
            let words = by_definition::list(&self.rows, blocks, rooms)?;
            rows.expect(&words);
            scratch.expect(&vec![0; needed[1]]);
            extent.expect(&[self.rows.len() as u64, blocks as u64]);
            Ok(if words.is_empty() { "empty" } else { "rows" })
        });
        let lent = (rows.lend(), scratch.lend(), extent.lend_array());
        let case = Case {
            call: Call::List,
            operands: &rooms,
            library: engine::list(self.text.get(), lent.0, lent.1, lent.2),
            reference,
        };
        self.settle(&case, &[&rows, &scratch, &extent])
    }

    /// Answers and memory are as they should be, and the description is as it was.
    fn settle(&mut self, case: &Case, memory: &[&dyn Checked]) -> Agreed {
        if !case.agrees() {
            return Err(self.difference(case, "other answers"));
        }
        for part in memory {
            if let Some(difference) = part.difference() {
                return Err(self.difference(case, &format!("other memory, {difference}")));
            }
        }
        if let Some(difference) = self.text.difference() {
            return Err(self.difference(case, &format!("the description, {difference}")));
        }
        match case.reference {
            Ok(answer) => self.tally.answered(case.call, answer),
            Err(refusal) => self.tally.refused(case.call, refusal.number),
        }
        Ok(())
    }

    fn hexadecimal(&self) -> String {
        let bytes = self.text.get().iter();
        bytes.map(|byte| format!("{byte:02x}")).collect()
    }

    fn difference(&self, case: &Case, subject: &str) -> Difference {
        let text = self.hexadecimal();
        let Case { call, operands, .. } = case;
        let (library, reference) = (&case.library, &case.reference);
        Difference(format!(
            "description {text}\ncall        {call:?} {operands:?}\nlibrary     {library:?}\n\
             reference   {reference:?}\ndifference  {subject}"
        ))
    }
}

fn seen_in_census(described: &Description, census: &Census) -> Vec<(&'static str, bool)> {
    let [merges, meet] = [census.options < census.secure, census.apart_only > 0];
    let has_pairs = !described.apart.is_empty();
    vec![
        ("merged options", merges),
        ("merged options with pairs", merges && has_pairs),
        ("pairs broken", meet),
        ("pairs broken and kept", meet && census.secure > 0),
    ]
}

fn has_three_amounts(row: &Row) -> bool {
    ![row.storage, row.transfer, row.cpu].contains(&0)
}

fn pays_for_data(row: &Row) -> bool {
    row.storage + row.transfer > 0
}

impl Case<'_> {
    fn agrees(&self) -> bool {
        match (self.library, self.reference) {
            (Ok(()), Ok(_)) => true,
            (Err(one), Err(other)) => (one.number, one.place) == (other.number, other.place as u64),
            _ => false,
        }
    }
}
