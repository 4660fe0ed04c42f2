//! Holds a program's replay against the second implementation:
//! `scripts PROGRAM [SEED [COUNT]]`. It calls `PROGRAM replay ..` for scripts at
//! the edges and for COUNT random ones, and compares standard output, standard
//! error and the exit status.

use reference::replay::{replay, Failure};
use sides::arguments::{comparison, finish};
use sides::programs::{Call, Printed, Refusals, Trial, Way};
use sides::random::Random;
use sides::scripts::{edges, script, Script};
use std::process::ExitCode;
use std::time::Instant;

const COUNT: u64 = 300;
/// The most lines that a script is given on purpose.
const LINES: u32 = 500;
/// The refusals that a line can meet with: nobody gives a replay a small room,
/// and 11 is the chain's.
const OF_LINES: [usize; 11] = [1, 2, 3, 4, 5, 6, 7, 8, 10, 12, 13];
/// Calls that are wrong use, or whose script cannot be read.
const WRONG: [&[&str]; 13] = [
    &[],
    &["-"],
    &["--lamps", "9"],
    &["--lamps", "-"],
    &["--lamps", "nine", "-"],
    &["--lamps", "-9", "-"],
    &["--lamps", "9", "--setup", "-"],
    &["--lamps", "9", "--setup", "1", "-"],
    &["--lamps", "9", "--setup", "1G", "-"],
    &["--lamps", "9", "--thresholds", "01", "02", "-"],
    &["--lamps", "9", "--loud", "-"],
    &["--lamps", "9", "-", "-"],
    &["--lamps", "9", "no-such-folder/no-such-script"],
];

const WAYS: [Way; 8] = [
    Way::Named,
    Way::Named,
    Way::Input,
    Way::Pipe(1000),
    Way::Pipe(4096),
    Way::Pipe(65_536),
    Way::Pipe(65_537),
    Way::Pipe(1 << 20),
];

/// What was compared.
#[derive(Default)]
struct Tally {
    lines: u64,
    bytes: usize,
    /// Scripts that a malformed line ended, and chains that were refused.
    malformed: u64,
    chains: u64,
    refusals: Refusals,
}

/// What the second implementation prints.
fn wanted(script: &Script, tally: &mut Tally) -> Printed {
    let mut output = Vec::new();
    let outcome = replay(&script.options, &script.text[..], &mut output);
    let lines = script.text.split_inclusive(|&byte| byte == b'\n').count() as u64;
    match &outcome {
        Ok(_) => tally.lines += lines,
        Err(Failure::Line(line)) => {
            tally.lines += line;
            tally.malformed += 1;
        }
        Err(_) => tally.chains += 1,
    }
    tally.bytes += output.len();
    tally.refusals.count(&output);
    Printed::of("replay", output, &outcome)
}

/// Compares one script.
fn compare(trial: &mut Trial, script: &Script, way: Way, tally: &mut Tally) -> Result<(), String> {
    let call = Call {
        subcommand: "replay",
        arguments: &script.arguments,
        input: &script.text,
        way,
    };
    trial.compare(&call, &wanted(script, tally))
}

/// Compares so many scripts and prints the counts.
fn run() -> Result<(), String> {
    let (program, seed, count) = comparison("usage: scripts PROGRAM [SEED [COUNT]]", COUNT)?;
    println!("{program} replay against reference, seed {seed}");
    let start = Instant::now();
    let mut trial = Trial::new(&program, "scripts")?;
    let mut random = Random::new(seed);
    let mut tally = Tally::default();
    for edge in edges(&mut random) {
        compare(&mut trial, &edge, random.pick(&WAYS), &mut tally)?;
    }
    for _ in 0..count {
        let lines = random.between(1, LINES) as usize;
        let script = script(lines, &mut random);
        compare(&mut trial, &script, random.pick(&WAYS), &mut tally)?;
    }
    let misused = trial.misuse("replay", &WRONG, &["--lamps", "9", "-"])?;
    let scripts = trial.close()?;
    if count >= COUNT {
        tally.refusals.demand(&OF_LINES)?;
    }
    println!("{}", tally.refusals.line());
    println!(
        "compared {scripts} scripts, {} lines, {} bytes of output in {:.1} s; {} ended by a malformed line, {} chains refused, {misused} calls of wrong use; seed {seed}: no difference",
        tally.lines,
        tally.bytes,
        start.elapsed().as_secs_f64(),
        tally.malformed,
        tally.chains
    );
    Ok(())
}

fn main() -> ExitCode {
    finish(run())
}
