//! Holds what a program makes of raw captures against the second implementation:
//! `captures PROGRAM [SEED [COUNT]]`. It calls `PROGRAM dump ..` and `PROGRAM
//! replay --raw ..` for captures at the edges and for COUNT random ones, and
//! compares standard output, standard error and the exit status.

use reference::capture::{read, Stand};
use reference::dump::{dump, Options};
use reference::replay::{self, replay, Ending, Note};
use reference::wire::{number, REFERENCE};
use sides::arguments::{comparison, finish};
use sides::programs::{Call, Printed, Refusals, Trial, Way};
use sides::random::Random;
use sides::raw::{board, edges};
use sides::scripts::options;
use std::process::ExitCode;
use std::time::Instant;

const COUNT: u64 = 150;
/// The most telegrams of most captures, and of the others.
const TELEGRAMS: [u32; 8] = [10, 100, 100, 500, 500, 500, 500, 30_000];
/// The refusals that a replay of a capture can print.
const OF_CAPTURES: [usize; 9] = [1, 2, 3, 4, 5, 6, 7, 8, 12];
/// Calls of dump that are wrong use, or whose capture cannot be read.
const WRONG: [&[&str]; 6] = [
    &[],
    &["--json"],
    &["-", "-"],
    &["--raw", "-"],
    &["--lamps", "9", "-"],
    &["no-such-folder/no-such-capture"],
];
/// The same of replay.
const WRONG_REPLAYS: [&[&str]; 3] = [
    &["--raw", "-"],
    &["--raw", "--lamps", "9"],
    &["--raw", "--lamps", "9", "no-such-folder/no-such-capture"],
];

const WAYS: [Way; 7] = [
    Way::Named,
    Way::Named,
    Way::Input,
    Way::Pipe(7),
    Way::Pipe(1000),
    Way::Pipe(4096),
    Way::Pipe(65_537),
];

/// What was compared.
#[derive(Default)]
struct Tally {
    captures: u64,
    telegrams: usize,
    /// Captures that stopped, and those that 5 stopped.
    stopped: u64,
    wrong: u64,
    /// Telegrams that are a command and an answer, and quiet replays that told of
    /// one.
    either: usize,
    noted: u64,
    bytes: usize,
    refusals: Refusals,
}

impl Tally {
    /// Counts a capture.
    fn count(&mut self, capture: &[u8]) {
        let reading = read(capture, 0, true);
        self.captures += 1;
        self.telegrams += reading.telegrams.len();
        if let Stand::Stopped(refusal) = reading.stand {
            self.stopped += 1;
            self.wrong += u64::from(refusal.checksums().is_some());
        }
        let telegrams = reading.telegrams.iter();
        self.either += telegrams.filter(|telegram| is_either(telegram)).count();
    }

    /// Demands that the captures tried enough.
    fn demand(&self) -> Result<(), String> {
        self.refusals.demand(&OF_CAPTURES)?;
        match self.either == 0 || self.noted == 0 {
            false => Ok(()),
            true => Err("no telegram was either: the captures try too little".to_string()),
        }
    }
}

/// Whether a telegram is accepted as a command and as an answer.
fn is_either(telegram: &[u8]) -> bool {
    let readings = [REFERENCE.dissect, REFERENCE.dissect_answer];
    readings
        .iter()
        .all(|dissect| number(dissect(telegram, &mut [0; 12])) == 0)
}

/// A comparison under way.
struct Comparison {
    trial: Trial,
    random: Random,
    tally: Tally,
}

impl Comparison {
    /// Compares the two forms of a listing and a replay.
    fn edge(&mut self, capture: &[u8]) -> Result<(), String> {
        self.tally.count(capture);
        for json in [false, true] {
            let quiet = self.random.below(4) == 0;
            self.list(capture, Options { json, quiet })?;
        }
        let (options, arguments) = self.options();
        self.replay(capture, &options, &arguments)
    }

    /// Compares a listing and a replay of a random capture.
    fn random(&mut self) -> Result<(), String> {
        let (options, arguments) = self.options();
        let most = self.random.pick(&TELEGRAMS);
        let count = self.random.between(1, most) as usize;
        let capture = board(&options, count, &mut self.random);
        self.tally.count(&capture);
        let json = self.random.below(2) == 0;
        let quiet = self.random.below(4) == 0;
        self.list(&capture, Options { json, quiet })?;
        self.replay(&capture, &options, &arguments)
    }

    /// Any options for the replay of a capture, and as they are written.
    fn options(&mut self) -> (replay::Options, Vec<String>) {
        let (mut options, mut arguments) = options(&mut self.random);
        options.raw = true;
        arguments.push("--raw".to_string());
        (options, arguments)
    }

    /// Compares a listing.
    fn list(&mut self, capture: &[u8], options: Options) -> Result<(), String> {
        let switches = [(options.json, "--json"), (options.quiet, "--quiet")];
        let given = switches.iter().filter(|(given, _)| *given);
        let arguments: Vec<String> = given.map(|(_, name)| name.to_string()).collect();
        let mut output = Vec::new();
        let outcome = dump(&options, capture, &mut output);
        let wanted = Printed::of("dump", output, &outcome);
        self.call("dump", &arguments, capture, &wanted)
    }

    /// Compares a replay.
    fn replay(
        &mut self,
        capture: &[u8],
        options: &replay::Options,
        arguments: &[String],
    ) -> Result<(), String> {
        let mut output = Vec::new();
        let outcome = replay(options, capture, &mut output);
        let noted = |ending: &Ending| ending.notes.contains(&Note::Either);
        self.tally.noted += u64::from(outcome.as_ref().is_ok_and(noted));
        let wanted = Printed::of("replay", output, &outcome);
        self.tally.refusals.count(&wanted.output);
        self.call("replay", arguments, capture, &wanted)
    }

    /// Compares a call.
    fn call(
        &mut self,
        subcommand: &'static str,
        arguments: &[String],
        input: &[u8],
        wanted: &Printed,
    ) -> Result<(), String> {
        self.tally.bytes += wanted.output.len();
        let call = Call {
            subcommand,
            arguments,
            input,
            way: self.random.pick(&WAYS),
        };
        self.trial.compare(&call, wanted)
    }
}

/// Compares so many captures and prints the counts.
fn run() -> Result<(), String> {
    let (program, seed, count) = comparison("usage: captures PROGRAM [SEED [COUNT]]", COUNT)?;
    println!("{program} dump and replay --raw against reference, seed {seed}");
    let start = Instant::now();
    let mut comparison = Comparison {
        trial: Trial::new(&program, "captures")?,
        random: Random::new(seed),
        tally: Tally::default(),
    };
    for edge in edges(&mut comparison.random) {
        comparison.edge(&edge)?;
    }
    for _ in 0..count {
        comparison.random()?;
    }
    let Comparison { trial, tally, .. } = comparison;
    let misused = trial.misuse("dump", &WRONG, &["-"])?
        + trial.misuse("replay", &WRONG_REPLAYS, &["--raw", "--lamps", "9", "-"])?;
    let calls = trial.close()?;
    if count >= COUNT {
        tally.demand()?;
    }
    println!("{}", tally.refusals.line());
    println!(
        "compared {calls} calls on {} captures, {} of them stopped, {} by 5 with both checksums, {} telegrams, {} bytes of output in {:.1} s; {misused} calls of wrong use; {} telegrams were either, {} quiet replays told of one; seed {seed}: no difference",
        tally.captures,
        tally.stopped,
        tally.wrong,
        tally.telegrams,
        tally.bytes,
        start.elapsed().as_secs_f64(),
        tally.either,
        tally.noted
    );
    Ok(())
}

fn main() -> ExitCode {
    finish(run())
}
