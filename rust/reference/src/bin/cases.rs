//! Reads a file of cases on standard input and prints each line, and behind
//! each case what the second implementation gives for it.

use reference::line::{Line, Memory};
use reference::wire::REFERENCE;
use std::io::{self, Read};
use std::process::ExitCode;

/// The whole output for a file of cases.
fn results(text: &str) -> Result<String, String> {
    let mut output = String::new();
    let mut memory = Memory::default();
    for text in text.lines() {
        output += text;
        output.push('\n');
        if let Some(line) = Line::parse(text)? {
            output += &line.report(&REFERENCE, &mut memory);
        }
    }
    Ok(output)
}

/// Standard input as text.
fn input() -> Result<String, String> {
    let mut text = String::new();
    let read = io::stdin().read_to_string(&mut text);
    read.map(|_| text).map_err(|error| error.to_string())
}

fn main() -> ExitCode {
    match input().and_then(|text| results(&text)) {
        Ok(output) => {
            print!("{output}");
            ExitCode::SUCCESS
        }
        Err(message) => {
            eprintln!("{message}");
            ExitCode::FAILURE
        }
    }
}
