//! Runs programs on stored input: compares what they print, and takes their times.

use std::fs::{self, File};
use std::io;
use std::path::{Path, PathBuf};
use std::process::Command;
use std::time::Instant;

/// Where inputs and outputs are kept, from the repository's root.
const FOLDER: &str = "target/bench/data";

pub struct Program<'a> {
    path: &'a str,
    words: &'a [&'a str],
}

/// The engine's program for Draw and other calls, from the repository's root.
pub const CALLCASES: Program = Program::new("crates/callcases/out/callcases", &[]);

impl<'a> Program<'a> {
    pub const fn new(path: &'a str, words: &'a [&'a str]) -> Self {
        Program { path, words }
    }

    /// Runs the whole program, its output to a file, and answers how many seconds it took.
    fn run(&self, input: &Path, output: &Path) -> io::Result<f64> {
        let mut command = Command::new(self.path);
        command.args(self.words);
        command
            .stdin(File::open(input)?)
            .stdout(File::create(output)?);
        let start = Instant::now();
        let status = command.status()?;
        let seconds = start.elapsed().as_secs_f64();
        if !status.success() {
            return Err(io::Error::other(format!("{}: {status}", self.path)));
        }
        Ok(seconds)
    }

    pub fn output(&self, input: &Path) -> io::Result<Vec<u8>> {
        let output = Path::new(FOLDER).join("output");
        self.run(input, &output)?;
        fs::read(output)
    }
}

/// Keeps the bytes as input for programs, under a name.
pub fn store(name: &str, bytes: &[u8]) -> io::Result<PathBuf> {
    fs::create_dir_all(FOLDER)?;
    let path = Path::new(FOLDER).join(name);
    fs::write(&path, bytes)?;
    Ok(path)
}

/// All programs print the same: `part` says how much of it counts.
pub fn agree(programs: &[&Program], input: &Path, part: impl Fn(&[u8]) -> &[u8]) -> io::Result<()> {
    let (first, others) = programs.split_first().expect("there is a program");
    let expected = first.output(input)?;
    for other in others {
        let found = other.output(input)?;
        if part(&found) != part(&expected) {
            let [one, two] = [first.path, other.path];
            return Err(io::Error::other(format!("{one} and {two} differ")));
        }
    }
    Ok(())
}

/// For each input the least time of each program, in so many rounds. Programs and inputs take
/// turns, so that whatever else the machine does meets all of them alike.
pub fn least(
    programs: &[&Program],
    inputs: &[PathBuf],
    rounds: usize,
) -> io::Result<Vec<Vec<f64>>> {
    let output = Path::new(FOLDER).join("output");
    let mut times = vec![vec![f64::INFINITY; programs.len()]; inputs.len()];
    for _ in 0..rounds {
        for (times, input) in times.iter_mut().zip(inputs) {
            for (time, program) in times.iter_mut().zip(programs) {
                *time = time.min(program.run(input, &output)?);
            }
        }
    }
    Ok(times)
}

/// The least time of a program, divided by that of each other.
pub fn ratios<const N: usize>(
    program: &Program,
    others: [&Program; N],
    input: &Path,
    rounds: usize,
) -> io::Result<[f64; N]> {
    let programs = [&[program], &others[..]].concat();
    let times = &least(&programs, &[input.into()], rounds)?[0];
    Ok(std::array::from_fn(|other| times[0] / times[other + 1]))
}
