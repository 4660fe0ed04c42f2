//! Holds the static library against the second implementation:
//! `compare CASES [SEED [COUNT]]`, where CASES is the file of cases and COUNT
//! the least number of calls to compare.

use reference::line::{Line, Memory};
use sides::acknowledged::ACKNOWLEDGED_SUITES;
use sides::arguments::{comparison, finish};
use sides::capture_suites::CAPTURE_SUITES;
use sides::chain_suites::CHAIN_SUITES;
use sides::check::Checker;
use sides::checksum_suites::CHECKSUM_SUITES;
use sides::library::LIBRARY;
use sides::lists::try_lists;
use sides::random::Random;
use sides::suites::{anything, SUITES};
use std::fs;
use std::process::ExitCode;

const COUNT: u64 = 2_000_000;

/// Compares every case of the file.
fn compare_file(check: &mut Checker, path: &str) -> Result<(), String> {
    let text = fs::read_to_string(path).map_err(|error| format!("{path}: {error}"))?;
    let mut memory = Memory::default();
    for text in text.lines() {
        let line = Line::parse(text)?;
        if let Some(case) = line.as_ref().and_then(|line| line.prepare(&mut memory)) {
            check.compare_on(memory.lent(), case)?;
        }
    }
    Ok(())
}

/// Compares the functions on all inputs.
fn compare_all(path: &str, seed: u64, count: u64) -> Result<(), String> {
    let mut check = Checker::new(seed);
    let mut random = Random::new(seed);
    compare_file(&mut check, path)?;
    println!("{} cases of the file", check.total());
    for suite in SUITES {
        suite(&mut check, &mut random)?;
    }
    while check.total() < count {
        anything(&mut check, &mut random)?;
    }
    let chains = CHAIN_SUITES.into_iter().chain(ACKNOWLEDGED_SUITES);
    for suite in chains.chain(CAPTURE_SUITES).chain(CHECKSUM_SUITES) {
        suite(&mut check, &mut random)?;
    }
    for (name, calls) in check.counts() {
        println!("{name:19} {calls:>9}");
    }
    println!("{} round trips came back", check.round_trips());
    println!(
        "{} captures cut in chunks were read as uncut",
        check.captures()
    );
    println!(
        "{} acknowledged commands did what their plain forms do, and told what they left",
        check.acknowledged()
    );
    check.wrong().demand()?;
    println!("{}", check.wrong().line());
    println!(
        "compared {} calls, {} of them deliveries, seed {seed}: no difference",
        check.total(),
        check.deliveries()
    );
    Ok(())
}

/// Tries demand 3 on the library.
fn demand_3(seed: u64) -> Result<(), String> {
    let tally = try_lists(&mut Random::new(seed.rotate_left(32)))?;
    println!(
        "demand 3: {} lists, {} lone-lamp lists, {} trades, {} telegrams of nobody, {} acknowledged commands with their answers in {} deliveries, seed {seed}: holds",
        tally.lists,
        tally.lone,
        tally.trades,
        tally.nobodys,
        tally.acknowledged,
        tally.deliveries
    );
    Ok(())
}

/// Compares everything and prints the counts.
fn run() -> Result<(), String> {
    let (path, seed, count) = comparison("usage: compare CASES [SEED [COUNT]]", COUNT)?;
    println!("{} against reference, seed {seed}", LIBRARY.name);
    compare_all(&path, seed, count)?;
    demand_3(seed)
}

fn main() -> ExitCode {
    finish(run())
}
