//! The cases of `callcases` (docs/FORMAT.md, section 8), as far as they are measured: Draw, and
//! Read, Judge and Census.

use std::io::{self, BufWriter, Read, Write};

use reference::description::{Description, read};
use reference::options::sorted_options;
use reference::rules::{Placement, Priced, Row};

use crate::generate::accepted;

/// Answers the cases on standard input, each with one line on standard output. The callers'
/// function says what follows where the description is not refused; its letter is 'D' or 'C'.
pub fn answer_all(
    answer: impl Fn(u8, &Description, Option<Priced>, &mut dyn Write) -> io::Result<()>,
) -> io::Result<()> {
    let mut input = Vec::new();
    io::stdin().read_to_end(&mut input)?;
    let mut out = BufWriter::new(io::stdout().lock());
    let mut rest = &input[..];
    while let [letter, high, low, after @ ..] = rest {
        let length = usize::from(*high) * 256 + usize::from(*low);
        let (text, after) = part(after, length)?;
        let (operands, after) = part(after, operands_of(*letter))?;
        match read(text) {
            Ok(described) => answer(*letter, &described, cursor(operands), &mut out)?,
            Err(refusal) => writeln!(out, "{refusal}")?,
        }
        rest = after;
    }
    out.flush()
}

/// The bytes behind the description.
fn operands_of(letter: u8) -> usize {
    match letter {
        b'D' => 25,
        b'J' => 16,
        _ => 0,
    }
}

fn part(bytes: &[u8], length: usize) -> io::Result<(&[u8], &[u8])> {
    let cut = || io::Error::other("the input ends within a case");
    bytes.split_at_checked(length).ok_or_else(cut)
}

/// The cursor of a Draw; the start is `None`.
fn cursor(operands: &[u8]) -> Option<Priced> {
    let (flag, past) = operands.split_first()?;
    let (cost, placement) = past.split_first_chunk::<8>()?;
    (*flag == 1).then_some(Priced {
        cost: u64::from_be_bytes(*cost),
        placement: placement.try_into().ok()?,
    })
}

/// The line of a Draw, with the amounts of what was drawn.
pub fn write_drawn(
    described: &Description,
    drawn: Option<Priced>,
    out: &mut dyn Write,
) -> io::Result<()> {
    match drawn {
        Some(priced) => {
            write!(out, "row ")?;
            write_row(&described.row(priced), priced.placement.len(), out)
        }
        None => writeln!(out, "finished"),
    }
}

/// A row with the clouds of so many blocks, and the end of its line.
pub fn write_row(row: &Row, blocks: usize, out: &mut (impl Write + ?Sized)) -> io::Result<()> {
    let clouds = digits(&row.placement[..blocks]);
    let [storage, transfer, cpu] = [row.storage, row.transfer, row.cpu];
    writeln!(out, "{} {clouds} {storage} {transfer} {cpu}", row.cost)
}

fn digits(clouds: &[u8]) -> String {
    clouds
        .iter()
        .map(|&cloud| char::from(b'0' + cloud))
        .collect()
}

/// The bytes of a Draw.
pub fn draw_case(text: &[u8], cursor: Option<Priced>) -> Vec<u8> {
    let Priced { cost, placement } = cursor.unwrap_or(Priced {
        cost: 0,
        placement: [0; 16],
    });
    let mut case = case(b'D', text);
    case.push(u8::from(cursor.is_some()));
    case.extend(cost.to_be_bytes());
    case.extend(placement);
    case
}

/// Draws that see so many candidates together: from the start, from rows all along the list, from
/// the last row, and from past everything, over and over.
pub fn draws(text: &[u8], seen: u64) -> Vec<u8> {
    let described = accepted(text);
    let rows = sorted_options(&described);
    let end = Priced {
        cost: u64::MAX,
        placement: [255; 16],
    };
    let mut cursors = vec![None, Some(end)];
    cursors.extend((0..5).map(|part| Some(rows[part * rows.len() / 5])));
    cursors.push(rows.last().copied());
    let count = seen / described.candidate_count();
    let turns = cursors.iter().cycle().take(count as usize);
    turns.flat_map(|&cursor| draw_case(text, cursor)).collect()
}

pub fn census_case(text: &[u8]) -> Vec<u8> {
    case(b'C', text)
}

pub fn read_case(text: &[u8]) -> Vec<u8> {
    case(b'R', text)
}

pub fn judge_case(text: &[u8], placement: &Placement) -> Vec<u8> {
    let mut case = case(b'J', text);
    case.extend(placement);
    case
}

/// The same cases with descriptions that are refused at their first byte: as much to read, and
/// nothing else to do.
pub fn refused(mut cases: Vec<u8>) -> Vec<u8> {
    let mut at = 0;
    while let [letter, high, low, ..] = cases[at..] {
        let length = usize::from(high) * 256 + usize::from(low);
        cases[at + 3] = 255;
        at += 3 + length + operands_of(letter);
    }
    cases
}

fn case(letter: u8, text: &[u8]) -> Vec<u8> {
    let length = u16::try_from(text.len()).expect("a description is short");
    [&[letter], &length.to_be_bytes()[..], text].concat()
}
