//! `reference quote` and `reference calls`: read standard input, and print
//! what the program of that name has to print.

use std::env;
use std::io::{self, Read, Write};
use std::process::ExitCode;

use reference::calls::answer_script;
use reference::quote::quote;
use reference::select::Patience;

fn main() -> ExitCode {
    let arguments: Vec<String> = env::args().skip(1).collect();
    let answer: fn(&[u8]) -> Option<String> = match arguments.as_slice() {
        [program] if program == "quote" => quote_text,
        [program] if program == "calls" => calls_text,
        _ => {
            eprintln!("usage: reference quote|calls < FILE");
            return ExitCode::from(2);
        }
    };
    match answer_input(answer) {
        Ok(()) => ExitCode::SUCCESS,
        Err(error) => {
            eprintln!("reference: {error}");
            ExitCode::FAILURE
        }
    }
}

fn answer_input(answer: fn(&[u8]) -> Option<String>) -> io::Result<()> {
    let mut input = Vec::new();
    io::stdin().read_to_end(&mut input)?;
    let text = answer(&input).ok_or(io::Error::other("select did not end"))?;
    io::stdout().write_all(text.as_bytes())
}

fn quote_text(input: &[u8]) -> Option<String> {
    match quote(input, Patience::ENDLESS) {
        Ok(lines) => lines,
        Err(fault) => Some(format!("{fault}\n")),
    }
}

fn calls_text(input: &[u8]) -> Option<String> {
    answer_script(input, Patience::ENDLESS).map(|outcome| outcome.to_string())
}
