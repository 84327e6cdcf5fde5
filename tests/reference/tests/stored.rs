//! The stored cases of `callcases` and the examples, whose answers come from
//! `tests/bruteforce.py`: two implementations that share nothing but the definitions.

use std::collections::HashMap;
use std::fmt::Write;

use reference::calls::{Census, draw, list};
use reference::description::{Description, Refusal, read};
use reference::rules::{Placement, Priced, Row};

const CASES: &[u8] = include_bytes!("../../../crates/callcases/stdin");
const LINES: &str = include_str!("../../../crates/callcases/stdout");

const INTERVIEW: &[u8] = include_bytes!("../../../examples/interview.bin");
const INTERVIEW_LIST: &str = include_str!("../../../examples/interview.expected");
const SECOND: &[u8] = include_bytes!("../../../examples/second.bin");
const SECOND_LIST: &str = include_str!("../../../examples/second.expected");
const APART: &[u8] = include_bytes!("../../../examples/apart.bin");
const APART_LIST: &str = include_str!("../../../examples/apart.expected");

/// A lent buffer is full of these at first.
const UNTOUCHED: u8 = 0xA5;

/// Takes so many bytes from the front.
fn take<'a>(rest: &mut &'a [u8], count: usize) -> &'a [u8] {
    rest.split_off(..count)
        .expect("a stored case ends within a part")
}

fn number(bytes: &[u8]) -> usize {
    bytes.iter().fold(0, |n, &byte| n * 256 + usize::from(byte))
}

fn placement(bytes: &[u8]) -> Placement {
    bytes.try_into().expect("sixteen bytes")
}

fn placement_and_room(operands: &[u8]) -> (Placement, usize) {
    let (place, room) = operands.split_at(16);
    (placement(place), number(room))
}

/// The rows of each description, which many cases share.
type Lists = HashMap<Vec<u8>, Vec<Row>>;

fn rows<'a>(lists: &'a mut Lists, text: &[u8], described: &Description) -> &'a [Row] {
    lists
        .entry(text.to_vec())
        .or_insert_with(|| described.rows())
}

fn answer(letter: u8, text: &[u8], operands: &[u8], lists: &mut Lists) -> Result<String, Refusal> {
    let described = read(text)?;
    Ok(match letter {
        b'R' => {
            let [clouds, blocks] = [described.clouds.len(), described.blocks.len()];
            format!("accepted {clouds} {blocks} {}", described.edges.len())
        }
        b'M' => masks_line(&described),
        b'J' => {
            described.judge(&placement(operands))?;
            "secure".into()
        }
        b'T' => {
            let (place, room) = placement_and_room(operands);
            let transfers = described.transfers(&place, room)?;
            let line = format!("transfers {}", transfers.len());
            with_buffer(line, &transfers.concat(), room)
        }
        b'P' => {
            let (place, room) = placement_and_room(operands);
            let text = described.picture(&place, room)?;
            with_buffer(format!("picture {}", text.len()), text.as_bytes(), room)
        }
        b'B' => format!("bytes {}", described.picture_size(&placement(operands))?),
        b'A' => billed(described.bill(&placement(operands))?),
        b'W' => {
            let standing = described.standing(operands[0].into(), operands[1]);
            format!("standing {}", standing as u64)
        }
        b'C' => counted(&described.census(rows(lists, text, &described))),
        _ => drawn(rows(lists, text, &described), operands),
    })
}

fn billed([cost, storage, transfer, cpu]: [u64; 4]) -> String {
    format!("bill {cost} {storage} {transfer} {cpu}")
}

fn counted(c: &Census) -> String {
    let [broken_16, broken_17] = [c.breaking_16, c.breaking_17_only];
    let [apart, secure, options] = [c.apart_only, c.secure, c.options];
    let candidates = c.candidates;
    format!("census {candidates} {broken_16} {broken_17} {apart} {secure} {options}")
}

fn masks_line(described: &Description) -> String {
    with_buffer("masks".into(), &described.masks(), 16)
}

fn drawn(rows: &[Row], operands: &[u8]) -> String {
    let cursor = (operands[0] == 1).then(|| Priced {
        cost: number(&operands[1..9]) as u64,
        placement: placement(&operands[9..]),
    });
    match draw(rows, cursor) {
        None => "finished".into(),
        Some(row) => format!("row {}", shown(&row, 16)),
    }
}

/// The row with the clouds of so many blocks, as the programs print it.
fn shown(row: &Row, blocks: usize) -> String {
    let clouds = row.placement[..blocks].iter();
    let digits: String = clouds.map(|cloud| cloud.to_string()).collect();
    let [storage, transfer, cpu] = [row.storage, row.transfer, row.cpu];
    format!("{} {digits} {storage} {transfer} {cpu}", row.cost)
}

/// The line, and after it the buffer as the call leaves it.
fn with_buffer(mut line: String, front: &[u8], room: usize) -> String {
    if room > 0 {
        line.push(' ');
    }
    for at in 0..room {
        let byte = front.get(at).unwrap_or(&UNTOUCHED);
        write!(line, "{byte:02x}").expect("a string takes everything");
    }
    line
}

#[test]
fn the_stored_cases_are_answered_alike() {
    let mut rest = CASES;
    let mut lists = Lists::new();
    let mut lines = LINES.lines();
    while !rest.is_empty() {
        let letter = take(&mut rest, 1)[0];
        let length = number(take(&mut rest, 2));
        let text = take(&mut rest, length);
        let width = match letter {
            b'R' | b'M' | b'C' => 0,
            b'W' => 2,
            b'J' | b'B' | b'A' => 16,
            b'T' | b'P' => 18,
            b'D' => 25,
            _ => panic!("letter {letter}"),
        };
        let operands = take(&mut rest, width);
        let line = answer(letter, text, operands, &mut lists).unwrap_or_else(|refusal| {
            let room = operands.get(16..).filter(|_| matches!(letter, b'T' | b'P'));
            with_buffer(refusal.to_string(), &[], room.map_or(0, number))
        });
        assert_eq!(Some(line.as_str()), lines.next(), "{letter} {text:02x?}");
    }
    assert_eq!(lines.next(), None);
    for row in lists.values().flatten() {
        assert_eq!(row.cost, row.storage + row.transfer + row.cpu, "{row:?}");
    }
}

#[test]
fn the_examples_are_listed_as_stored() {
    for (text, list) in [
        (INTERVIEW, INTERVIEW_LIST),
        (SECOND, SECOND_LIST),
        (APART, APART_LIST),
    ] {
        let described = read(text).expect("the description is accepted");
        let (rows, blocks) = (described.rows(), described.blocks.len());
        let lines: String = rows.iter().map(|row| shown(row, blocks) + "\n").collect();
        assert_eq!(format!("{lines}options {}\n", rows.len()), list);
    }
}

/// The lines of the two calls by hand, whether or not a stored case has these operands.
#[test]
fn bills_and_standings_have_their_lines() {
    let line = |letter, operands: &[u8]| {
        let answer = answer(letter, INTERVIEW, operands, &mut Lists::new());
        answer.unwrap_or_else(|refusal| refusal.to_string())
    };
    let placed = |clouds: &[u8]| [clouds, &[0; 11]].concat();
    assert_eq!(
        line(b'A', &placed(&[1, 1, 1, 0, 0])),
        "bill 2970 1370 100 1500"
    );
    assert_eq!(
        line(b'A', &placed(&[1, 1, 1, 1, 1])),
        "bill 2820 1320 0 1500"
    );
    assert_eq!(line(b'A', &placed(&[1, 0, 0, 0, 0])), "refused 14 0");
    assert_eq!(line(b'W', &[0, 0]), "standing 2");
    assert_eq!(line(b'W', &[255, 9]), "standing 4");
}

#[test]
fn the_masks_of_the_examples() {
    for (text, line) in [
        (INTERVIEW, "masks 02030303030000000000000000000000"),
        (SECOND, "masks 03020202030203030202000000000000"),
        (APART, "masks 02030303030000000000000000000000"),
    ] {
        let described = read(text).expect("the description is accepted");
        assert_eq!(masks_line(&described), line);
    }
}

#[test]
fn a_row_takes_five_words_and_two_of_scratch() {
    let rows = read(INTERVIEW).expect("the description is accepted").rows();
    let words = list(&rows, 5, [30, 12]).expect("six rows fit");
    assert_eq!(words.len(), 30);
    assert_eq!(words[5..10], [2850, 0o11110, 1330, 20, 1500]);
    let refusal = Refusal {
        number: 16,
        place: 30,
    };
    for rooms in [[29, 12], [30, 11], [12, 30], [0, 0]] {
        assert_eq!(list(&rows, 5, rooms), Err(refusal));
    }
}
