//! Compares the library with the reference on generated input, until something differs or enough
//! was tried.
//!
//!     differential CALLS SEED
//!     differential SECONDSs SEED
//!
//! So many calls, or so many seconds: `differential 100000 1`, `differential 60s 1`. One seed gives
//! the same input every time. It prints what was tried and how it was answered. It fails at the
//! first difference, which it prints with its input, and it fails if a number that a call can
//! refuse with was never seen, or an answer of Standing, or no bill of a placement that is no row,
//! or no row that the price of copies decides, or no refusal or option that a mark decides.

mod built;
mod compare;
mod copies;
mod generate;
mod labels;
mod lent;
mod mask;
mod operands;
mod picture;
mod standing;
mod tally;
mod text;
mod wrapped;

use std::env;
use std::process::ExitCode;
use std::time::{Duration, Instant};

use compare::{Difference, Input};
use reference::random::Random;
use tally::Tally;

const USAGE: &str = "differential CALLS|SECONDSs SEED, such as 100000 1 or 60s 1";

/// When to stop.
enum Limit {
    Calls(u64),
    Time(Duration),
}

impl Limit {
    fn parse(word: &str) -> Option<Self> {
        match word.strip_suffix('s') {
            Some(seconds) => Some(Limit::Time(Duration::from_secs(seconds.parse().ok()?))),
            None => Some(Limit::Calls(word.parse().ok()?)),
        }
    }

    fn is_reached(&self, calls: u64, start: Instant) -> bool {
        match *self {
            Limit::Calls(enough) => calls >= enough,
            Limit::Time(enough) => start.elapsed() >= enough,
        }
    }
}

fn arguments() -> Option<(Limit, u64)> {
    let words: Vec<String> = env::args().skip(1).collect();
    let [limit, seed] = &words[..] else {
        return None;
    };
    Some((Limit::parse(limit)?, seed.parse().ok()?))
}

fn run(limit: &Limit, seed: u64, tally: &mut Tally, start: Instant) -> Result<(), Difference> {
    let mut random = Random::new(seed);
    while !limit.is_reached(tally.calls, start) {
        let (kind, text) = generate::description(&mut random);
        Input::new(kind, &text, &mut random, tally).compare()?;
    }
    Ok(())
}

fn main() -> ExitCode {
    let Some((limit, seed)) = arguments() else {
        eprintln!("{USAGE}");
        return ExitCode::from(2);
    };
    let mut tally = Tally::default();
    let start = Instant::now();
    let outcome = run(&limit, seed, &mut tally, start);
    tally.print(seed, start.elapsed());
    if let Err(Difference(difference)) = outcome {
        println!("\nDIFFERENCE\n{difference}");
        return ExitCode::FAILURE;
    }
    let missing = tally.missing();
    if !missing.is_empty() {
        println!("\nnever seen: {}", missing.join(", "));
        return ExitCode::FAILURE;
    }
    println!("\nno difference");
    ExitCode::SUCCESS
}
