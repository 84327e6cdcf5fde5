//! What labels show: refusals for want of a mark, and options that a mark takes away or makes.

use reference::description::{Block, Cloud, Description, Kind, Refusal};
use reference::label::Label;
use reference::rules::{Placement, Row};

/// What a refusal is counted as if a mark alone is missing, while the level would do; some of each
/// must be seen.
pub const FOR_A_MARK: [(u8, &str); 6] = [
    (9, "9 for a mark"),
    (10, "10 for a mark"),
    (11, "11 for a mark"),
    (13, "13 for a mark"),
    (14, "14 for a mark"),
    (15, "15 for a mark"),
];

/// The name under which the refusal is counted, if a mark alone is missing. The placement counts from
/// 13 on.
pub fn for_a_mark(
    described: &Description,
    refusal: Refusal,
    placement: &Placement,
) -> Option<&'static str> {
    let [upper, lower] = compared(described, refusal, placement)?;
    let names = FOR_A_MARK
        .iter()
        .find(|(number, _)| *number == refusal.number);
    let alone = upper.level >= lower.level && !upper.has_marks_of(lower);
    names.filter(|_| alone).map(|(_, name)| *name)
}

/// The label that should cover another, and that one; none if the refusal speaks of something else.
fn compared(
    described: &Description,
    Refusal { number, place }: Refusal,
    placement: &Placement,
) -> Option<[Label; 2]> {
    let cloud = |at: usize| described.clouds.get(usize::from(placement[at]));
    if number == 9 {
        let block = &described.blocks[place];
        return Some([clearance(block)?, block.label]);
    }
    if number == 13 {
        let block = described.blocks.get(place)?;
        let at_its_pin = block.pin.is_none_or(|pin| pin == placement[place]);
        return at_its_pin.then_some([cloud(place)?.label, block.label]);
    }
    let edge = described.edges.get(place)?;
    let [service, datum] = [edge.service, edge.datum].map(|block| &described.blocks[block]);
    match number {
        10 => Some([clearance(service)?, datum.label]),
        11 => Some([datum.label, service.label]),
        14 | 15 => Some([cloud(edge.service)?.label, datum.label]),
        _ => None,
    }
}

fn clearance(block: &Block) -> Option<Label> {
    match block.kind {
        Kind::Service { clearance, .. } => Some(clearance),
        Kind::Datum { .. } => None,
    }
}

/// Options that there would be without marks, and options that there would not be if the clouds had
/// none; some of each must be seen.
pub const TAKEN: &str = "options that marks take away";
pub const NEEDING: &str = "options that need a cloud's marks";

#[derive(Clone, Copy, Debug, Default, PartialEq, Eq)]
pub struct Marked {
    pub taken: u64,
    pub needing: u64,
}

impl Marked {
    /// Of a description with these rows; none if without marks there would be more candidates.
    pub fn of(described: &Description, rows: &[Row], most: u64) -> Self {
        let mut bare = described.clone();
        bare.clouds.iter_mut().for_each(unmark_cloud);
        let mut plain = bare.clone();
        plain.blocks.iter_mut().for_each(unmark_block);
        if plain.candidate_count() > most {
            return Marked::default();
        }
        let [plain, bare] = [plain, bare].map(|description| description.rows().len());
        Marked {
            taken: (plain - rows.len()) as u64,
            needing: (rows.len() - bare) as u64,
        }
    }
}

fn unmark_cloud(cloud: &mut Cloud) {
    cloud.label = unmarked(cloud.label);
}

fn unmark_block(block: &mut Block) {
    block.label = unmarked(block.label);
}

fn unmarked(label: Label) -> Label {
    Label {
        embargo: false,
        source: false,
        ..label
    }
}

/// What the labels of a description have of marks, and whether two clouds are such that neither covers
/// the other.
pub fn seen_in(described: &Description) -> Vec<(&'static str, bool)> {
    let clouds = described.clouds.iter().map(|cloud| cloud.label);
    let clouds: Vec<Label> = clouds.collect();
    let labels = all_labels(described);
    let embargo = labels.iter().any(|label| label.embargo);
    let source = labels.iter().any(|label| label.source);
    let alike = |label: &Label| (label.embargo, label.source) == (embargo, source);
    let apart = |one: &Label, other: &Label| !one.covers(*other) && !other.covers(*one);
    vec![
        ("no marks", !embargo && !source),
        ("embargo marks alone", embargo && !source),
        ("source marks alone", source && !embargo),
        ("marks of both kinds", embargo && source),
        (
            "the same marks on all labels",
            (embargo || source) && labels.iter().all(alike),
        ),
        (
            "clouds that do not cover each other",
            clouds
                .iter()
                .any(|one| clouds.iter().any(|other| apart(one, other))),
        ),
    ]
}

fn all_labels(described: &Description) -> Vec<Label> {
    let clouds = described.clouds.iter().map(|cloud| cloud.label);
    let blocks = described.blocks.iter().map(|block| block.label);
    let clearances = described.blocks.iter().filter_map(clearance);
    clouds.chain(blocks).chain(clearances).collect()
}

pub fn has_marks(described: &Description) -> bool {
    let labels = all_labels(described);
    labels.iter().any(|label| label.embargo || label.source)
}

#[cfg(test)]
mod tests {
    use super::*;
    use reference::description::{decode, read};
    use reference::label::{EMBARGO, SOURCE};

    fn cloud(label: u8) -> Vec<u8> {
        vec![1, label, 0, 0, 0, 0, 0, 0, 0, 0]
    }

    fn datum(label: u8) -> Vec<u8> {
        vec![2, label, 0, 0, 0, 0]
    }

    fn service(location: u8, clearance: u8) -> Vec<u8> {
        vec![3, location, clearance, 0, 0, 0, 0]
    }

    fn text(commands: &[Vec<u8>]) -> Vec<u8> {
        [&commands.concat()[..], &[0]].concat()
    }

    /// The name of what Read refuses the text with.
    fn refused(commands: &[Vec<u8>]) -> Option<&'static str> {
        let text = text(commands);
        let refusal = read(&text).err().expect("the description is refused");
        for_a_mark(&decode(&text).expect("it is well spelt"), refusal, &[0; 16])
    }

    #[test]
    fn descriptions_are_refused_for_a_mark() {
        let nine = |location, clearance| refused(&[cloud(63), service(location, clearance)]);
        assert_eq!(nine(EMBARGO, 15), Some("9 for a mark"));
        assert_eq!(nine(EMBARGO | SOURCE, SOURCE), Some("9 for a mark"));
        assert_eq!(nine(EMBARGO | 1, 0), None);
        assert_eq!(nine(1, 0), None);
        let ten = |label, clearance| {
            let edge = vec![4, 1, 0];
            refused(&[cloud(63), datum(label), service(0, clearance), edge])
        };
        assert_eq!(ten(SOURCE, 15), Some("10 for a mark"));
        assert_eq!(ten(1, SOURCE), None);
        let eleven = |label, location| {
            let edge = vec![5, 1, 0];
            refused(&[cloud(63), datum(label), service(location, 63), edge])
        };
        assert_eq!(eleven(15, EMBARGO), Some("11 for a mark"));
        assert_eq!(eleven(EMBARGO, 1), None);
    }

    /// The name of what Judge refuses a placement with; a service does something with a datum.
    fn judged(clouds: [u8; 2], label: u8, way: u8, placed: [u8; 2]) -> Option<&'static str> {
        let [one, other] = clouds.map(cloud);
        let edge = vec![way, 1, 0];
        let described = read(&text(&[one, other, datum(label), service(0, 63), edge]));
        let described = described.expect("the description is accepted");
        let mut placement = [0; 16];
        placement[..2].copy_from_slice(&placed);
        let refusal = described.judge(&placement).expect_err("it is refused");
        for_a_mark(&described, refusal, &placement)
    }

    #[test]
    fn placements_are_refused_for_a_mark() {
        let clouds = [EMBARGO, 15];
        assert_eq!(judged(clouds, EMBARGO, 4, [1, 0]), Some("13 for a mark"));
        assert_eq!(judged(clouds, EMBARGO, 4, [0, 1]), Some("14 for a mark"));
        assert_eq!(judged(clouds, EMBARGO, 5, [0, 1]), Some("15 for a mark"));
        assert_eq!(judged([1, EMBARGO], 1, 4, [1, 0]), None);
        assert_eq!(judged([1, EMBARGO], 1, 4, [0, 1]), None);
        assert_eq!(judged([1, EMBARGO], 1, 5, [0, 1]), None);
        assert_eq!(judged(clouds, EMBARGO, 4, [2, 0]), None);
    }

    /// Options of a datum on these two clouds.
    fn options(clouds: [u8; 2], label: u8) -> Marked {
        let [one, other] = clouds.map(cloud);
        let described = read(&text(&[one, other, datum(label)])).expect("it is accepted");
        Marked::of(&described, &described.rows(), 2)
    }

    #[test]
    fn marks_make_options_and_take_them_away() {
        let marked = |taken, needing| Marked { taken, needing };
        assert_eq!(options([0, 0], 0), marked(0, 0));
        assert_eq!(options([EMBARGO, 15], EMBARGO), marked(1, 1));
        assert_eq!(options([15, SOURCE], EMBARGO), marked(2, 0));
        assert_eq!(options([SOURCE, EMBARGO | SOURCE], SOURCE), marked(0, 2));
        assert_eq!(options([SOURCE, 0], 1), marked(0, 0));
    }

    fn shown(commands: &[Vec<u8>]) -> Vec<&'static str> {
        let described = read(&text(commands)).expect("the description is accepted");
        let seen = seen_in(&described).into_iter();
        seen.filter(|(_, holds)| *holds)
            .map(|(name, _)| name)
            .collect()
    }

    #[test]
    fn marks_are_told_apart() {
        assert_eq!(shown(&[cloud(3), datum(1)]), ["no marks"]);
        assert_eq!(shown(&[cloud(EMBARGO), datum(0)]), ["embargo marks alone"]);
        assert_eq!(
            shown(&[cloud(SOURCE), service(SOURCE, SOURCE)]),
            ["source marks alone", "the same marks on all labels"]
        );
        assert_eq!(
            shown(&[cloud(SOURCE), cloud(EMBARGO), datum(0)]),
            ["marks of both kinds", "clouds that do not cover each other"]
        );
        assert_eq!(shown(&[cloud(0), service(0, 63)]), ["marks of both kinds"]);
    }
}
