//! Times the library beside the second implementation on the same inputs, in
//! turns, and counts the instructions of both: `bench [TOOL]` prints a table, in
//! it the replay of the program TOOL beside that of the second implementation.
//! `bench once NAME SIDE [TURNS]` makes some turns of one workload on one side.

use reference::wire::Side;
use sides::callgrind;
use sides::incremental::INCREMENTAL;
use sides::library::LIBRARY;
use sides::random::Random;
use sides::scripts::ordinary;
use sides::workloads::{workloads, Workload};
use std::path::{Path, PathBuf};
use std::process::{Command, ExitCode, Stdio};
use std::time::Instant;
use std::{env, fs, io, process};

/// Measured turns of each side; the median is printed.
const TURNS: usize = 151;
/// Turns of a workload that is run alone.
const ONCE: usize = 10;
/// Lines of a script that is replayed, and measured runs of each program.
const LINES: usize = 100_000;
const RUNS: usize = 11;
/// The lamp counts of the replays.
const LAMPS: [u32; 2] = [9, 300];
/// The status of a replay in which a line was refused, and that of the tool's
/// program, which the script `osp` gives its status.
const STATUSES: [i32; 2] = [1, 0];

/// The library, and the second implementation with an incremental reader of
/// captures.
static SIDES: [&Side; 2] = [&LIBRARY, &INCREMENTAL];

/// A measure of the library or the tool, and of the second implementation.
struct Pair(f64, f64);

impl Pair {
    /// The medians of measures that are taken in turns.
    fn of<T>(
        turns: usize,
        sides: [&T; 2],
        measure: impl Fn(&T) -> Result<f64, String>,
    ) -> Result<Pair, String> {
        let (mut first, mut second) = (Vec::new(), Vec::new());
        for _ in 0..turns {
            first.push(measure(sides[0])?);
            second.push(measure(sides[1])?);
        }
        Ok(Pair(median(first), median(second)))
    }

    /// Both and their ratio as columns.
    fn columns(&self) -> String {
        let Pair(first, second) = self;
        format!(" {first:>13.1} {second:>13.1} {:>6.2}", first / second)
    }
}

/// The middle one of some measures.
fn median(mut measures: Vec<f64>) -> f64 {
    measures.sort_by(f64::total_cmp);
    measures[measures.len() / 2]
}

/// The table, with or without the counts of instructions.
struct Table {
    counted: bool,
}

impl Table {
    /// Prints what stands above the columns.
    fn head(&self) {
        let heads = |first, second| format!(" {first:>13} {second:>13} {:>6}", "ratio");
        let mut columns = heads("library ns", "reference ns");
        if self.counted {
            columns += &heads("library inst.", "ref. inst.");
        }
        println!("{:21}{columns}", "workload");
    }

    /// Prints a row: nanoseconds, which it gives too, and instructions where they
    /// are counted.
    fn row<T>(
        &self,
        name: &str,
        turns: usize,
        sides: [&T; 2],
        time: impl Fn(&T) -> Result<f64, String>,
        count: impl Fn(&T) -> Result<f64, String>,
    ) -> Result<Pair, String> {
        let times = Pair::of(turns, sides, time)?;
        let mut columns = times.columns();
        if self.counted {
            columns += &Pair::of(1, sides, count)?.columns();
        }
        println!("{name:21}{columns}");
        Ok(times)
    }
}

/// The instructions of a call: what a second turn adds, so that all that comes
/// before the first one is left out.
fn count(workload: &Workload, side: &Side) -> Result<f64, String> {
    let bench = env::current_exe().map_err(|error| error.to_string())?;
    let run = |turns| callgrind::instructions(&bench, &["once", workload.name, side.name, turns]);
    let turn = run("2")?.saturating_sub(run("1")?);
    Ok(turn as f64 / workload.calls() as f64)
}

/// A program that replays scripts, and what stands before its options.
struct Program {
    path: PathBuf,
    subcommand: Option<&'static str>,
}

/// A script that is replayed, in a file of its own.
struct Replay {
    lamps: u32,
    script: PathBuf,
}

impl Replay {
    /// Writes the script.
    fn new(lamps: u32) -> io::Result<Replay> {
        let file = format!("osp-bench-{}-{lamps}", process::id());
        let script = env::temp_dir().join(file);
        let text = ordinary(lamps, LINES, &mut Random::new(u64::from(lamps)));
        fs::write(&script, text)?;
        Ok(Replay { lamps, script })
    }

    /// What the program is called with.
    fn arguments(&self, program: &Program, quiet: bool) -> Vec<String> {
        let mut arguments: Vec<String> = program.subcommand.map(String::from).into_iter().collect();
        arguments.extend(["--lamps".to_string(), self.lamps.to_string()]);
        arguments.extend(quiet.then(|| "--quiet".to_string()));
        arguments.push(self.script.display().to_string());
        arguments
    }

    /// What the program prints.
    fn output(&self, program: &Program) -> Result<Vec<u8>, String> {
        let told = |error| format!("{}: {error}", program.path.display());
        let mut command = Command::new(&program.path);
        let output = command.args(self.arguments(program, false)).output();
        output.map(|output| output.stdout).map_err(told)
    }

    /// The nanoseconds of a line in a whole run of the program.
    fn time(&self, program: &Program, quiet: bool) -> Result<f64, String> {
        let told = |error| format!("{}: {error}", program.path.display());
        let mut command = Command::new(&program.path);
        command.args(self.arguments(program, quiet));
        command.stdin(Stdio::null()).stdout(Stdio::null());
        let start = Instant::now();
        let status = command.status().map_err(told)?;
        let time = start.elapsed().as_nanos() as f64;
        match status.code() {
            Some(code) if STATUSES.contains(&code) => Ok(time / LINES as f64),
            _ => Err(format!("{}: {status}", program.path.display())),
        }
    }

    /// The instructions of a line in a whole run of the program.
    fn count(&self, program: &Program, quiet: bool) -> Result<f64, String> {
        let arguments = self.arguments(program, quiet);
        let arguments: Vec<&str> = arguments.iter().map(String::as_str).collect();
        let total = callgrind::instructions(&program.path, &arguments)?;
        Ok(total as f64 / LINES as f64)
    }

    /// Prints the rows of this script.
    fn rows(&self, table: &Table, programs: [&Program; 2]) -> Result<(), String> {
        if self.output(programs[0])? != self.output(programs[1])? {
            return Err("the two programs print different texts".to_string());
        }
        for (form, quiet) in [("text", false), ("quiet", true)] {
            let name = format!("replay-{form}-{}", self.lamps);
            let time = |program: &Program| self.time(program, quiet);
            let count = |program: &Program| self.count(program, quiet);
            table.row(&name, RUNS, programs, time, count)?;
        }
        Ok(())
    }
}

/// Prints the rows of the replays.
fn replays(table: &Table, tool: &Path) -> Result<(), String> {
    let bench = env::current_exe().map_err(|error| error.to_string())?;
    let tool = Program {
        path: tool.to_path_buf(),
        subcommand: Some("replay"),
    };
    let reference = Program {
        path: bench.with_file_name("replay"),
        subcommand: None,
    };
    for lamps in LAMPS {
        let replay = Replay::new(lamps).map_err(|error| error.to_string())?;
        let outcome = replay.rows(table, [&tool, &reference]);
        fs::remove_file(&replay.script).map_err(|error| error.to_string())?;
        outcome?;
    }
    Ok(())
}

/// Prints the rows of the workloads. Gives the lines that say how many telegrams
/// of a capture are read in a second.
fn calls(table: &Table) -> Result<Vec<String>, String> {
    let mut rates = Vec::new();
    for workload in workloads() {
        if !SIDES.iter().all(|side| workload.is_read(side)) {
            return Err(format!("{}: the capture is not read whole", workload.name));
        }
        let time = |side: &Side| Ok(workload.measure(side));
        let count = |side: &Side| count(&workload, side);
        let Pair(library, reference) = table.row(workload.name, TURNS, SIDES, time, count)?;
        if workload.is_capture() {
            rates.push(format!(
                "{}: {:.1} million telegrams a second on one core, the reference {:.1}.",
                workload.name,
                1e3 / library,
                1e3 / reference
            ));
        }
    }
    Ok(rates)
}

/// Measures every workload, the two sides in turns, and prints the table.
fn table(tool: Option<&str>) -> Result<(), String> {
    let table = Table {
        counted: callgrind::is_there(),
    };
    table.head();
    let rates = calls(&table)?;
    let tool = tool.ok_or("no program was named".to_string());
    let tool = tool.and_then(|tool| match Path::new(tool) {
        path if path.is_file() => Ok(path),
        _ => Err(format!("{tool} is not built")),
    });
    if let Ok(tool) = tool {
        replays(&table, tool)?;
    }
    println!();
    println!("Medians of {TURNS} turns of each side, for a call; reader-..: for a telegram.");
    rates.iter().for_each(|rate| println!("{rate}"));
    match table.counted {
        true => println!("Instructions are counted by valgrind's callgrind."),
        false => println!("Instructions are left out: valgrind is not installed."),
    }
    match tool {
        Ok(_) => println!(
            "replay-..: the tool beside the reference's program, for a line of a script of {LINES}; \
             medians of {RUNS} whole runs of each."
        ),
        Err(reason) => println!("The rows of the tool's replay are left out: {reason}."),
    }
    Ok(())
}

/// Makes some turns of one workload on one side.
fn once(name: &str, side: &str, turns: usize) -> Result<(), String> {
    let side = SIDES
        .into_iter()
        .find(|known| known.name == side)
        .ok_or(format!("no such side: {side}"))?;
    let workload = workloads()
        .find(|workload| workload.name == name)
        .ok_or(format!("no such workload: {name}"))?;
    for _ in 0..turns {
        workload.turn(side);
    }
    let calls = turns * workload.calls();
    println!("{name} on {}: {calls} calls", side.name);
    Ok(())
}

fn main() -> ExitCode {
    let arguments: Vec<String> = env::args().skip(1).collect();
    let arguments: Vec<&str> = arguments.iter().map(String::as_str).collect();
    let outcome = match arguments[..] {
        ["once", name, side] => once(name, side, ONCE),
        ["once", name, side, turns] => match turns.parse() {
            Ok(turns) => once(name, side, turns),
            Err(_) => Err(format!("not a number: {turns}")),
        },
        [] => table(None),
        [tool] => table(Some(tool)),
        _ => Err("usage: bench [TOOL], bench once NAME library|reference [TURNS]".to_string()),
    };
    if let Err(message) = outcome {
        eprintln!("{message}");
        return ExitCode::FAILURE;
    }
    ExitCode::SUCCESS
}
