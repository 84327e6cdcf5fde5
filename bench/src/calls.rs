//! Each call of the library beside the same in plain Rust, timed within this process.

use std::hint::black_box;
use std::time::Instant;
use std::{fs, io};

use panel::{Cursor, Placement, Refusal, calls as engine};
use reference::description::read;

use crate::generate::{apart, largest};
use crate::markdown::{header, name_of};
use crate::plain;

/// Seconds that the calls of one batch take together at least: far more than to read the clock.
const BATCH: f64 = 0.000_1;
const ROUNDS: usize = 1000;

/// A description, and the placement to judge: that of its first row.
struct Subject {
    name: String,
    candidates: u64,
    text: Vec<u8>,
    placement: Placement,
}

/// The memory that calls write their answers to, enough for any.
#[derive(PartialEq)]
struct Lent {
    counts: [u64; 3],
    masks: [u8; 16],
    transfers: [u8; 128],
    picture: [u8; engine::PICTURE],
    count: u64,
    size: u64,
    figures: [u64; 6],
    answer: [u64; 5],
    row: [u8; 16],
    rows: Vec<u64>,
    /// The engine alone needs it, and leaves zeros as it found them.
    scratch: Vec<u64>,
    extent: [u64; 2],
}

type Ask = fn(&Subject, &mut Lent) -> Result<(), Refusal>;

/// A call as the engine answers it, and as plain Rust does.
struct Call {
    name: &'static str,
    /// The highest ratio that is aimed at.
    limit: u8,
    sides: [Ask; 2],
}

const fn call(name: &'static str, limit: u8, engine: Ask, plain: Ask) -> Call {
    let sides = [engine, plain];
    Call { name, limit, sides }
}

const CALLS: [Call; 9] = [
    call(
        "Read",
        1,
        |of, lent| engine::read(&of.text, &mut lent.counts),
        |of, lent| plain::read(&of.text, &mut lent.counts),
    ),
    call(
        "Masks",
        1,
        |of, lent| engine::masks(&of.text, &mut lent.masks),
        |of, lent| plain::masks(&of.text, &mut lent.masks),
    ),
    call(
        "Judge",
        1,
        |of, _| engine::judge(&of.text, &of.placement),
        |of, _| plain::judge(&of.text, &of.placement),
    ),
    call(
        "Transfers",
        1,
        |of, l| engine::transfers(&of.text, &of.placement, &mut l.transfers, &mut l.count),
        |of, l| plain::transfers(&of.text, &of.placement, &mut l.transfers, &mut l.count),
    ),
    call(
        "Picture",
        1,
        |of, l| engine::picture(&of.text, &of.placement, &mut l.picture, &mut l.count),
        |of, l| plain::picture(&of.text, &of.placement, &mut l.picture, &mut l.count),
    ),
    call(
        "Picture size",
        2,
        |of, lent| engine::picture_size(&of.text, &of.placement, &mut lent.size),
        |of, lent| plain::picture_size(&of.text, &of.placement, &mut lent.size),
    ),
    call(
        "Census",
        2,
        |of, lent| engine::census(&of.text, &mut lent.figures),
        |of, lent| plain::census(&of.text, &mut lent.figures),
    ),
    call(
        "Draw",
        2,
        |of, lent| engine::draw(&of.text, Cursor::Start, &mut lent.answer, &mut lent.row),
        |of, lent| plain::draw(&of.text, &mut lent.answer, &mut lent.row),
    ),
    call(
        "List",
        2,
        |of, lent| {
            engine::list(
                &of.text,
                &mut lent.rows,
                &mut lent.scratch,
                &mut lent.extent,
            )
        },
        |of, lent| plain::list(&of.text, &mut lent.rows, &mut lent.extent),
    ),
];

/// The seconds of each call, the engine's first.
type Times = [[f64; 2]; CALLS.len()];

/// Compares the answers, measures, and prints the tables.
pub fn call_ratios() -> io::Result<()> {
    let subjects = subjects()?;
    let mut lent = [Lent::new(), Lent::new()];
    for subject in &subjects {
        agree(subject, &mut lent)?;
        agree_on_refusals(subject)?;
    }
    let times = least_times(&subjects, &mut lent);
    println!("Calls: the engine's time divided by that of the same in plain Rust\n");
    let headings = CALLS.map(|call| format!("{} (at most {})", call.name, call.limit));
    print_table(&headings, &subjects, &times, |engine, plain| {
        format!("{:.2}", engine / plain)
    });
    println!("The same as nanoseconds, engine / Rust; times by themselves say little, since every");
    println!("machine has its own\n");
    let headings = CALLS.map(|call| call.name.to_owned());
    print_table(&headings, &subjects, &times, |engine, plain| {
        format!("{:.0} / {:.0}", engine * 1e9, plain * 1e9)
    });
    Ok(())
}

fn subjects() -> io::Result<[Subject; 5]> {
    let interview = fs::read("examples/interview.bin")?;
    let second = fs::read("examples/second.bin")?;
    let kept_apart = fs::read("examples/apart.bin")?;
    Ok([
        Subject::new("interview: ", interview)?,
        Subject::new("second: ", second)?,
        Subject::new("", largest())?,
        Subject::new("apart: ", kept_apart)?,
        Subject::new("", apart(6))?,
    ])
}

impl Subject {
    fn new(title: &str, text: Vec<u8>) -> io::Result<Self> {
        let described = read(&text).map_err(|refusal| io::Error::other(refusal.to_string()))?;
        let rows = described.rows();
        let first = rows.first().ok_or(io::Error::other("there is no row"))?;
        Ok(Subject {
            name: format!("{title}{}", name_of(&described)),
            candidates: described.candidate_count(),
            text,
            placement: Placement(first.placement),
        })
    }
}

impl Lent {
    fn new() -> Self {
        Lent {
            counts: [0; 3],
            masks: [0; 16],
            transfers: [0; 128],
            picture: [0; engine::PICTURE],
            count: 0,
            size: 0,
            figures: [0; 6],
            answer: [0; 5],
            row: [0; 16],
            rows: vec![0; engine::LIST],
            scratch: vec![0; engine::SCRATCH],
            extent: [0; 2],
        }
    }
}

/// Both sides answer every call, and leave the same in what they are lent.
fn agree(subject: &Subject, lent: &mut [Lent; 2]) -> io::Result<()> {
    for Call { name, sides, .. } in CALLS {
        let [engine, plain] = lent;
        let answers = [sides[0](subject, engine), sides[1](subject, plain)];
        if answers != [Ok(()); 2] || engine != plain {
            let subject = &subject.name;
            return Err(io::Error::other(format!("{name} differs on {subject}")));
        }
    }
    Ok(())
}

/// Both sides refuse the same where the description is cut or has another byte: a side that tests
/// less would be faster for it.
fn agree_on_refusals(subject: &Subject) -> io::Result<()> {
    let text = &subject.text;
    for at in 0..text.len() {
        let changed =
            [0, 4, 7, 9, 16, 255].map(|byte| [&text[..at], &[byte], &text[at + 1..]].concat());
        for spoilt in changed.iter().map(Vec::as_slice).chain([&text[..at]]) {
            let read = told(engine::read, spoilt, [0; 3]) == told(plain::read, spoilt, [0; 3]);
            let masks = told(engine::masks, spoilt, [0; 16]) == told(plain::masks, spoilt, [0; 16]);
            if !read || !masks {
                let calls = "Read or Masks differs";
                return Err(io::Error::other(format!("{calls} on {spoilt:02x?}")));
            }
        }
    }
    Ok(())
}

/// What a call answers, and what it leaves in what it is lent.
fn told<T>(
    call: impl Fn(&[u8], &mut T) -> Result<(), Refusal>,
    text: &[u8],
    mut lent: T,
) -> (Result<(), Refusal>, T) {
    let answer = call(text, &mut lent);
    (answer, lent)
}

/// For each subject the least times of all calls. Everything takes turns, so that whatever else the
/// machine does meets all alike.
fn least_times(subjects: &[Subject], lent: &mut [Lent; 2]) -> Vec<Times> {
    let mut times = vec![[[f64::INFINITY; 2]; CALLS.len()]; subjects.len()];
    for _ in 0..ROUNDS {
        for (subject, times) in subjects.iter().zip(&mut times) {
            for (call, times) in CALLS.iter().zip(times) {
                for (side, least) in times.iter_mut().enumerate() {
                    // In the first round nothing is known, and a batch is one call.
                    let calls = (BATCH / *least) as usize + 1;
                    let time = time_of(call.sides[side], subject, &mut lent[side], calls);
                    *least = least.min(time);
                }
            }
        }
    }
    times
}

/// Seconds for each of so many calls.
fn time_of(ask: Ask, subject: &Subject, lent: &mut Lent, calls: usize) -> f64 {
    let ask = black_box(ask);
    let start = Instant::now();
    for _ in 0..calls {
        let answered = ask(black_box(subject), black_box(&mut *lent));
        _ = black_box(answered);
    }
    start.elapsed().as_secs_f64() / calls as f64
}

fn print_table(
    headings: &[String; CALLS.len()],
    subjects: &[Subject],
    times: &[Times],
    cell: impl Fn(f64, f64) -> String,
) {
    let mut columns = vec!["Description", "Candidates"];
    columns.extend(headings.iter().map(String::as_str));
    header(&columns);
    for (subject, times) in subjects.iter().zip(times) {
        let cells = times.map(|[engine, plain]| cell(engine, plain));
        let (name, candidates) = (&subject.name, subject.candidates);
        println!("| {name} | {candidates} | {} |", cells.join(" | "));
    }
    println!();
}
