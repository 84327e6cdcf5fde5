//! Measures the engine against the same work in Rust and prints ratios, as tables in Markdown.
//!
//!     driver [draw|list|calls|all] [BITS]
//!     driver before FOLDER [BITS]
//!
//! It runs at the repository's root. The largest descriptions have 2^BITS candidates, 2^16 where
//! BITS is not given. Outputs that differ are a failure; a missed limit is not.

use std::io;
use std::path::Path;
use std::process::ExitCode;
use std::time::Instant;

use bench::before::speed_since;
use bench::calls::call_ratios;
use bench::cases::{census_case, draws};
use bench::generate::{accepted, apart, chain, data, edges_for, guarded, narrow, open, pinned};
use bench::markdown::{header, name_of};
use bench::measure::{CALLCASES, Program, agree, least, ratios, store};
use panel::calls::{LIST, SCRATCH, list};
use reference::options::sorted_options;

const LISTOPTIONS: Program = Program::new("crates/listoptions/out/listoptions", &[]);
const WALK: Program = Program::new("target/bench/release/walk", &[]);
const PLAIN: Program = Program::new("target/bench/release/brute", &["plain"]);
const OPTIONS: Program = Program::new("target/bench/release/brute", &["options"]);
const PLAIN_LIST: Program = Program::new("target/bench/release/plain_list", &[]);

/// Candidates that the draws of one measurement see together, so that it takes long enough.
const SEEN_FOR_RATIOS: u64 = 1 << 22;
const SEEN_FOR_GROWTH: u64 = 1 << 23;

fn main() -> ExitCode {
    match measure() {
        Ok(()) => ExitCode::SUCCESS,
        Err(error) => {
            eprintln!("bench: {error}");
            ExitCode::FAILURE
        }
    }
}

fn measure() -> io::Result<()> {
    let words: Vec<String> = std::env::args().skip(1).collect();
    let subject = words.first().map_or("all", |word| word);
    if subject == "before" {
        let folder = words.get(1).ok_or(io::Error::other("before FOLDER"))?;
        return speed_since(folder, bits_in(words.get(2))?);
    }
    let bits = bits_in(words.get(1))?;
    if ["draw", "all"].contains(&subject) {
        draw_ratios(bits)?;
        draw_growth(bits)?;
    }
    if ["list", "all"].contains(&subject) {
        list_ratios(bits)?;
        list_growth(bits);
    }
    if ["calls", "all"].contains(&subject) {
        call_ratios()?;
    }
    Ok(())
}

fn bits_in(word: Option<&String>) -> io::Result<usize> {
    let bits = word.map_or(Ok(16), |word| word.parse());
    let bits = bits.ok().filter(|bits| (6..=16).contains(bits));
    bits.ok_or(io::Error::other("BITS is from 6 to 16"))
}

fn first_line(output: &[u8]) -> &[u8] {
    output.split(|&byte| byte == b'\n').next().unwrap_or(output)
}

/// Where answers must be the same, they are.
fn check_draws(text: &[u8], cases: &Path) -> io::Result<()> {
    agree(&[&CALLCASES, &WALK, &OPTIONS], cases, |output| output)?;
    // Without options a draw may answer another placement, but not from the start.
    agree(&[&CALLCASES, &PLAIN], cases, first_line)?;
    let census = store("census", &census_case(text))?;
    agree(&[&CALLCASES, &WALK], &census, |output| output)
}

fn draw_ratios(bits: usize) -> io::Result<()> {
    println!("Draw: the engine's time divided by that of\n");
    header(&[
        "Description",
        "Candidates",
        "walk (at most 1.5)",
        "brute (below 1)",
        "brute with options (below 1)",
    ]);
    let on_8 = bits / 3;
    for text in [
        open(bits, 2, edges_for(bits)),
        open(on_8, 8, edges_for(on_8)),
        narrow(bits, [6, 7], edges_for(bits)),
        guarded(2 * (bits / 5), edges_for(bits / 2)),
        apart(bits / 2),
    ] {
        let described = accepted(&text);
        let cases = store("draws", &draws(&text, SEEN_FOR_RATIOS))?;
        check_draws(&text, &cases)?;
        let [walk] = ratios(&CALLCASES, [&WALK], &cases, 21)?;
        let [plain, options] = ratios(&CALLCASES, [&PLAIN, &OPTIONS], &cases, 5)?;
        let (name, candidates) = (name_of(&described), described.candidate_count());
        println!("| {name} | {candidates} | {walk:.2} | {plain:.3} | {options:.3} |");
    }
    println!();
    Ok(())
}

/// The sizes from 2^8 on, each four times the last, or the largest alone where that is smaller.
fn sizes(bits: usize) -> impl Iterator<Item = usize> {
    (bits.min(8)..=bits).step_by(2)
}

fn draw_growth(bits: usize) -> io::Result<()> {
    println!("Draw: time for each candidate, divided by that at the most candidates; \"walk\" is");
    println!("without the time of as many draws with every block pinned, so of one candidate\n");
    header(&[
        "Description",
        "Candidates",
        "engine",
        "engine's walk (flat)",
        "walk",
        "walk's walk",
    ]);
    let programs = [&CALLCASES, &WALK];
    let (mut subjects, mut inputs) = (Vec::new(), Vec::new());
    for blocks in sizes(bits) {
        let text = open(blocks, 2, edges_for(blocks));
        let described = accepted(&text);
        let cases = store(&format!("draws-{blocks}"), &draws(&text, SEEN_FOR_GROWTH))?;
        agree(&programs, &cases, |output| output)?;
        let turns = SEEN_FOR_GROWTH / described.candidate_count();
        let fixed = draws(&pinned(&text, blocks), turns);
        inputs.extend([cases, store(&format!("draws-{blocks}-pinned"), &fixed)?]);
        subjects.push(described);
    }
    // The candidates of each input are as many, so times compare as they are.
    let times = least(&programs, &inputs, 9)?;
    let shares = |times: &[Vec<f64>]| {
        let [whole, fixed] = [&times[0], &times[1]];
        [whole[0], whole[0] - fixed[0], whole[1], whole[1] - fixed[1]]
    };
    let shares: Vec<[f64; 4]> = times.chunks(2).map(shares).collect();
    let last = shares[shares.len() - 1];
    for (described, shares) in subjects.iter().zip(shares) {
        let (name, candidates) = (name_of(described), described.candidate_count());
        let ratios = shares.iter().zip(last).map(|(share, last)| share / last);
        let cells: Vec<String> = ratios.map(|ratio| format!("{ratio:.2}")).collect();
        println!("| {name} | {candidates} | {} |", cells.join(" | "));
    }
    println!();
    Ok(())
}

fn list_ratios(bits: usize) -> io::Result<()> {
    println!("List: the engine's time divided by that of\n");
    header(&[
        "Description",
        "Candidates",
        "Rows",
        "plain list (at most 0.5; with pairs below 1)",
    ]);
    let on_8 = bits / 3;
    for text in [
        data(bits),
        chain(bits),
        open(on_8, 8, edges_for(on_8)),
        apart(bits / 2),
    ] {
        let input = store("description", &text)?;
        agree(&[&LISTOPTIONS, &PLAIN_LIST], &input, |output| output)?;
        let [ratio] = ratios(&LISTOPTIONS, [&PLAIN_LIST], &input, 21)?;
        let described = accepted(&text);
        let (name, candidates) = (name_of(&described), described.candidate_count());
        let rows = sorted_options(&described).len();
        println!("| {name} | {candidates} | {rows} | {ratio:.2} |");
    }
    println!();
    Ok(())
}

/// The least time of one List call, in this process: at few rows a process takes far longer to
/// start than to list.
fn list_time(text: &[u8], rows: usize, lent: &mut [Vec<u64>; 2]) -> f64 {
    let [words, scratch] = lent;
    let calls = (1 << 17) / rows;
    let mut extent = [0; 2];
    let mut time = f64::INFINITY;
    for _ in 0..25 {
        let start = Instant::now();
        for _ in 0..calls {
            list(text, words, scratch, &mut extent).expect("what is generated is listed");
        }
        time = time.min(start.elapsed().as_secs_f64() / calls as f64);
    }
    assert_eq!(extent[0], rows as u64);
    time
}

fn list_growth(bits: usize) {
    println!(
        "List: time of one call for each row and binary digit of their number, divided by that"
    );
    println!("at the most rows\n");
    header(&["Rows", "engine (flat)"]);
    let mut lent = [vec![0; LIST], vec![0; SCRATCH]];
    let share = |blocks: usize| {
        list_time(&data(blocks), 1 << blocks, &mut lent) / (blocks << blocks) as f64
    };
    let shares: Vec<f64> = sizes(bits).map(share).collect();
    let last = shares[shares.len() - 1];
    for (blocks, share) in sizes(bits).zip(shares) {
        println!("| {} | {:.2} |", 1u64 << blocks, share / last);
    }
    println!();
}
