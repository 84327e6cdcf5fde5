//! Prints the sentence of every refusal, a line for each number from 1 to 17; with the option -s,
//! the sentences for what Standing answers, from 0 to 4. `panel_message` and `panel_reason_message`
//! of `include/panel.h` have the same text.

use std::env;
use std::process::ExitCode;

use panel::{Reason, Standing};

fn main() -> ExitCode {
    let arguments: Vec<_> = env::args_os().skip(1).collect();
    let messages = match &arguments[..] {
        [] => Reason::all().map(Reason::message).to_vec(),
        [option] if option == "-s" => Standing::all().map(Standing::message).to_vec(),
        _ => {
            eprintln!("messages: the only argument is -s");
            return ExitCode::FAILURE;
        }
    };
    for message in messages {
        println!("{message}");
    }
    ExitCode::SUCCESS
}
