//! The wrapper's builder beside the reference: it must take exactly the commands that Read takes,
//! and make the same bytes of them.

use panel::builder::{BuildError, Builder, Names};
use panel::parts::{self, Cloud, Datum, Service};
use reference::description::{Block, Description, Kind, Refusal, Way};
use reference::label::Label;

use crate::text::commands;

/// The numbers that a builder finds by itself: a thing too many, no label, a name that is not
/// there, something repeated; and that nothing is declared.
const BY_A_COMMAND: [u8; 4] = [4, 5, 6, 7];
const NOTHING_DECLARED: u8 = 8;

/// The numbers of what is well spelt and breaks a rule or the limit.
const BY_THE_RULES: [u8; 4] = [9, 10, 11, 12];

/// The part of the builder that says something else than the reference, if there is one.
pub fn difference(text: &[u8], described: Result<&Description, Refusal>) -> Option<&'static str> {
    let mut builder = Builder::new();
    let stopped = fill(&mut builder, text);
    let due = described.err();
    let by_a_command = due.filter(|refusal| BY_A_COMMAND.contains(&refusal.number));
    let found = stopped.map(|(place, error)| (number_of(&error), place));
    if found != by_a_command.map(|refusal| (Some(refusal.number), refusal.place)) {
        return Some("errors");
    }
    match due {
        None if !is_taken_apart(text, described.ok()?) => Some("parts"),
        Some(refusal) if refusal.number == NOTHING_DECLARED => {
            let error = builder.to_bytes().err();
            let same = error.and_then(|error| number_of(&error)) == Some(NOTHING_DECLARED);
            (!same).then_some("end")
        }
        Some(refusal) if !BY_THE_RULES.contains(&refusal.number) => None,
        _ => (builder.to_bytes().as_deref() != Ok(text)).then_some("bytes"),
    }
}

fn number_of(error: &BuildError) -> Option<u8> {
    error.reason().map(|reason| reason.number())
}

/// Puts the whole commands of the text to the builder; says where it stopped, and why.
fn fill(builder: &mut Builder, text: &[u8]) -> Option<(usize, BuildError)> {
    for command in commands(text) {
        let place = command.start;
        if let Some(Err(error)) = put(builder, &text[command]) {
            return Some((place, error));
        }
    }
    None
}

/// Puts one command to the builder, with names made of numbers; nothing if it is cut.
fn put(builder: &mut Builder, command: &[u8]) -> Option<Result<(), BuildError>> {
    let clouds = builder.parts().clouds().count().to_string();
    let blocks = builder.parts().blocks().count().to_string();
    let taken = match *command {
        [1, label, ref rates @ ..] => builder.cloud(clouds, cloud(label, rates)?),
        [2, label, ref numbers @ ..] => builder.datum(blocks, datum(label, numbers)?),
        [3, location, clearance, ref units @ ..] => {
            let units = u32::from_be_bytes(units.try_into().ok()?);
            let declared = Service {
                location,
                clearance,
                units,
            };
            builder.service(blocks, declared)
        }
        [command, one, other] => link(builder, command, &one.to_string(), &other.to_string())?,
        _ => return None,
    };
    Some(taken.map(|_| ()))
}

fn cloud(label: u8, rates: &[u8]) -> Option<Cloud> {
    let [storage, inward, outward, cpu] = numbers(rates)?;
    Some(Cloud {
        label,
        storage,
        inward,
        outward,
        cpu,
    })
}

fn datum(label: u8, operands: &[u8]) -> Option<Datum> {
    let [size, longevity] = numbers(operands)?;
    Some(Datum {
        label,
        size,
        longevity,
    })
}

/// So many numbers of two bytes each, if that is what the bytes are.
fn numbers<const N: usize>(bytes: &[u8]) -> Option<[u16; N]> {
    let (pairs, rest) = bytes.as_chunks::<2>();
    let numbers: Vec<u16> = pairs.iter().map(|&pair| u16::from_be_bytes(pair)).collect();
    numbers.try_into().ok().filter(|_| rest.is_empty())
}

/// Puts a command of two names to the builder.
fn link<'a>(
    builder: &'a mut Builder,
    command: u8,
    one: &str,
    other: &str,
) -> Option<Result<&'a mut Builder, BuildError>> {
    match command {
        4 => Some(builder.reads(one, other)),
        5 => Some(builder.writes(one, other)),
        6 => Some(builder.pin(one, other)),
        7 => Some(builder.apart(one, other)),
        _ => None,
    }
}

/// An accepted description has the parts that the reference has, and they make its bytes again.
fn is_taken_apart(text: &[u8], described: &Description) -> bool {
    let Ok(wrapped) = panel::Description::read(text) else {
        return false;
    };
    let parts = wrapped.parts();
    let names = Names::new(&parts, &[], &[]);
    let built = Builder::from_parts(&parts, &names).and_then(|builder| builder.build());
    let same_clouds = parts.clouds().map(reference_cloud).eq(described
        .clouds
        .iter()
        .map(|c| (Some(c.label), [c.storage, c.inward, c.outward, c.cpu])));
    let same_edges = parts.edges().map(reference_edge).eq(described
        .edges
        .iter()
        .map(|e| (e.way == Way::Reads, [e.service, e.datum])));
    let same_pairs = parts
        .pairs()
        .map(|pair| [pair.one, pair.other].map(usize::from))
        .eq(described.apart.iter().copied());
    let same_blocks = parts.blocks().count() == described.blocks.len()
        && parts.blocks().zip(&described.blocks).all(same_block);
    built == Ok((text.to_vec(), names))
        && same_clouds
        && same_blocks
        && same_edges
        && same_pairs
        && has_pins(&parts, described)
}

fn reference_cloud(cloud: Cloud) -> (Option<Label>, [u64; 4]) {
    let rates = [cloud.storage, cloud.inward, cloud.outward, cloud.cpu];
    (Label::of(cloud.label), rates.map(u64::from))
}

fn reference_edge(edge: parts::Edge) -> (bool, [usize; 2]) {
    let ends = [edge.service, edge.datum].map(usize::from);
    (edge.way == parts::Way::Reads, ends)
}

/// The size of a datum is not compared: the reference keeps what is charged for it, and the bytes
/// that are made again have it.
fn same_block((found, due): (parts::Block, &Block)) -> bool {
    match (found, due.kind) {
        (parts::Block::Datum(datum), Kind::Datum { longevity, .. }) => {
            Label::of(datum.label) == Some(due.label) && u64::from(datum.longevity) == longevity
        }
        (parts::Block::Service(service), Kind::Service { clearance, units }) => {
            Label::of(service.location) == Some(due.label)
                && Label::of(service.clearance) == Some(clearance)
                && u64::from(service.units) == units
        }
        _ => false,
    }
}

fn has_pins(parts: &parts::Parts, described: &Description) -> bool {
    let mut pins = vec![None; described.blocks.len()];
    for pin in parts.pins() {
        pins[usize::from(pin.block)] = Some(pin.cloud);
    }
    pins.into_iter()
        .eq(described.blocks.iter().map(|block| block.pin))
}

#[cfg(test)]
mod tests {
    use super::*;
    use reference::description::read;

    const INTERVIEW: &[u8] = include_bytes!("../../../examples/interview.bin");

    fn compared(text: &[u8]) -> Option<&'static str> {
        difference(text, read(text).as_ref().map_err(|refusal| *refusal))
    }

    /// The interview with commands before its end.
    fn with(commands: &[u8]) -> Vec<u8> {
        [&INTERVIEW[..64], commands, &[0]].concat()
    }

    #[test]
    fn builder_and_reference_agree() {
        let refused = [
            with(&[1, 64, 0, 0, 0, 0, 0, 0, 0, 0]),
            with(&[4, 0, 1]),
            with(&[4, 1, 0]),
            with(&[5, 3, 2]),
            with(&[6, 4, 0, 6, 4, 0]),
            with(&[6, 4, 2]),
            with(&[7, 0, 4, 7, 4, 0]),
            with(&[7, 4, 4]),
            with(&[9]),
            with(&[3, 1, 0, 0, 0, 0, 0]),
            vec![0],
            INTERVIEW[..63].to_vec(),
        ];
        assert_eq!(compared(INTERVIEW), None);
        for text in refused {
            assert!(read(&text).is_err());
            assert_eq!(compared(&text), None, "{text:?}");
        }
    }

    /// What the reference says of one text does not hold of another.
    #[test]
    fn a_difference_is_seen() {
        let of = |text: &[u8], due: &[u8]| {
            difference(text, read(due).as_ref().map_err(|refusal| *refusal))
        };
        assert_eq!(of(&with(&[4, 1, 0]), INTERVIEW), Some("errors"));
        assert_eq!(of(INTERVIEW, &with(&[4, 1, 0])), Some("errors"));
        assert_eq!(of(&with(&[6, 4, 0]), INTERVIEW), Some("parts"));
        assert_eq!(of(&with(&[7, 0, 4]), INTERVIEW), Some("parts"));
        assert_eq!(of(INTERVIEW, &[0]), Some("end"));
        let lawless = with(&[3, 1, 0, 0, 0, 0, 0]);
        assert_eq!(of(&[&lawless[..], &[0]].concat(), &lawless), Some("bytes"));
    }
}
