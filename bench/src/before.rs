//! The engine beside another build of it, such as one from before a change: both programs answer the
//! same files of cases, and take turns.

use std::path::PathBuf;
use std::{fs, io};

use reference::options::sorted_options;

use crate::cases::{census_case, draws, judge_case, read_case, refused};
use crate::generate::{accepted, edges_for, guarded, narrow, open};
use crate::markdown::{header, name_of};
use crate::measure::{CALLCASES, Program, agree, least, store};

/// Candidates that the draws of one file see together: so many times 2^BITS, and on the examples so
/// many. There a draw takes most of its time before it sees one.
const SEEN_OF_EACH: u64 = 64;
const SEEN_ON_EXAMPLES: u64 = 1 << 20;

/// How often the file without draws has each of its three calls.
const TURNS: usize = 30_000;

const ROUNDS: usize = 21;

/// A file of cases that are all of one description, and the same cases refused at once.
struct Subject {
    name: String,
    candidates: u64,
    inputs: [PathBuf; 2],
}

/// Compares `callcases` with the one in the folder, and prints how many times as fast it is.
pub fn speed_since(folder: &str, bits: usize) -> io::Result<()> {
    let path = format!("{folder}/callcases");
    let programs = [&Program::new(&path, &[]), &CALLCASES];
    let subjects = subjects(bits)?;
    let inputs: Vec<PathBuf> = subjects.iter().flat_map(|of| of.inputs.clone()).collect();
    for input in &inputs {
        agree(&programs, input, |output| output)?;
    }
    let times = least(&programs, &inputs, ROUNDS)?;
    println!("Before and now: how many times as fast as {path};");
    println!("\"the calls alone\" is without the time of the same cases refused at once\n");
    header(&[
        "Description",
        "Candidates",
        "times as fast",
        "the calls alone",
    ]);
    for (subject, times) in subjects.iter().zip(times.chunks(2)) {
        let (name, candidates) = (&subject.name, subject.candidates);
        let [whole, fixed] = [&times[0], &times[1]];
        let faster = whole[0] / whole[1];
        let alone = (whole[0] - fixed[0]) / (whole[1] - fixed[1]);
        println!("| {name} | {candidates} | {faster:.2} | {alone:.2} |");
    }
    println!();
    Ok(())
}

fn subjects(bits: usize) -> io::Result<Vec<Subject>> {
    let on_8 = bits / 3;
    let mut subjects = Vec::new();
    for text in [
        narrow(bits, [6, 7], edges_for(bits)),
        narrow(bits, [0, 7], edges_for(bits)),
        narrow(bits, [3, 4], edges_for(bits)),
        narrow(bits, [0, 1], edges_for(bits)),
        open(on_8, 8, edges_for(on_8)),
        open(bits, 2, edges_for(bits)),
        guarded(2 * (bits / 5), edges_for(bits / 2)),
    ] {
        let file = format!("before-{}", subjects.len());
        let cases = draws(&text, SEEN_OF_EACH << bits);
        subjects.push(Subject::new("", &text, &file, cases)?);
    }
    for (title, file) in [("interview: ", "interview"), ("second: ", "second")] {
        let text = fs::read(format!("examples/{file}.bin"))?;
        let cases = draws(&text, SEEN_ON_EXAMPLES);
        subjects.push(Subject::new(title, &text, file, cases)?);
    }
    let text = fs::read("examples/interview.bin")?;
    let title = "interview, Read, Judge and Census in turns: ";
    subjects.push(Subject::new(title, &text, "in-turns", in_turns(&text))?);
    Ok(subjects)
}

impl Subject {
    /// The cases are kept in files that begin with this name.
    fn new(title: &str, text: &[u8], file: &str, cases: Vec<u8>) -> io::Result<Self> {
        let described = accepted(text);
        let whole = store(file, &cases)?;
        let fixed = store(&format!("{file}-refused"), &refused(cases))?;
        Ok(Subject {
            name: format!("{title}{}", name_of(&described)),
            candidates: described.candidate_count(),
            inputs: [whole, fixed],
        })
    }
}

/// Read, Judge of the first row, and Census, over and over.
fn in_turns(text: &[u8]) -> Vec<u8> {
    let first = sorted_options(&accepted(text))[0].placement;
    let turn = [read_case(text), judge_case(text, &first), census_case(text)];
    turn.concat().repeat(TURNS)
}
