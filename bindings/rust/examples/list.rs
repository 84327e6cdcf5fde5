//! Lists the options of the description on standard input, exactly as `listoptions` does. With an
//! argument, the clouds of a placement as a row shows them (such as 11000), it prints the picture of
//! that placement instead; with the option -c, the clouds that a panel would let one choose for each
//! block.

use std::env;
use std::io::{self, Read, Write};
use std::process::ExitCode;

use panel::{Description, Placement, Refusal};

const USAGE: &str =
    "the only argument is -c or a placement: 1 to 16 digits from 0 to 7, the cloud of each block";

/// What the arguments ask for.
enum Asked {
    List,
    Choices,
    Picture(Placement),
}

/// A placement from the digits of its first blocks; the others get cloud 0. Only digits that a row
/// can show are taken: 8 and 9 are not, since no description has nine clouds.
fn read_placement(digits: &[u8]) -> Option<Placement> {
    if digits.is_empty() || !digits.iter().all(|digit| (b'0'..=b'7').contains(digit)) {
        return None;
    }
    let clouds: Vec<u8> = digits.iter().map(|digit| digit - b'0').collect();
    Placement::try_from(&clouds[..]).ok()
}

fn asked() -> io::Result<Asked> {
    let arguments: Vec<_> = env::args_os().skip(1).collect();
    let placement = match &arguments[..] {
        [] => return Ok(Asked::List),
        [option] if option == "-c" => return Ok(Asked::Choices),
        [digits] => read_placement(digits.as_encoded_bytes()),
        _ => None,
    };
    placement.map(Asked::Picture).ok_or(io::Error::other(USAGE))
}

fn list(description: &Description) -> String {
    let rows = description.list();
    let lines: String = rows.iter().map(|row| format!("{row}\n")).collect();
    format!("{lines}options {}\n", rows.len())
}

/// A line for each block: its number, and for each cloud its digit, or a dot if the panel would
/// grey it out.
fn choices(description: &Description) -> String {
    let digits = "01234567".chars().take(description.clouds()).enumerate();
    let line = |(block, mask): (usize, u8)| {
        let offered = |cloud: usize| mask >> cloud & 1 == 1;
        let shown = |(cloud, digit)| if offered(cloud) { digit } else { '.' };
        let clouds: String = digits.clone().map(shown).collect();
        format!("{block} {clouds}\n")
    };
    let masks = description.masks().into_iter().take(description.blocks());
    masks.enumerate().map(line).collect()
}

fn print() -> io::Result<()> {
    let asked = asked()?;
    let mut bytes = Vec::new();
    io::stdin().read_to_end(&mut bytes)?;
    let answer = Description::read(&bytes).and_then(|description| match asked {
        Asked::List => Ok(list(&description)),
        Asked::Choices => Ok(choices(&description)),
        Asked::Picture(placement) => description.picture(&placement),
    });
    let refused = |refusal: Refusal| format!("refused {} {}\n", refusal.number, refusal.place);
    let mut out = io::stdout().lock();
    out.write_all(answer.unwrap_or_else(refused).as_bytes())?;
    out.flush()
}

fn main() -> ExitCode {
    if let Err(error) = print() {
        eprintln!("list: {error}");
        return ExitCode::FAILURE;
    }
    ExitCode::SUCCESS
}
