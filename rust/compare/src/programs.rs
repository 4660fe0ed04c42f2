//! A program that is called beside the second implementation, and the comparison
//! of what the two print.

use reference::replay::{errors, status, Ending, Failure};
use std::fs::{self, File};
use std::io::{self, Write};
use std::path::{Path, PathBuf};
use std::process::{Command, Output, Stdio};
use std::{env, process, thread};

/// The most bytes of a line that are shown.
const SHOWN: usize = 300;
/// One more than the largest refusal.
const REFUSALS: usize = 14;

/// How a program gets its input.
#[derive(Clone, Copy, Debug)]
pub enum Way {
    /// In a file that is named.
    Named,
    /// In a file at standard input.
    Input,
    /// Through a pipe, written in pieces of this size.
    Pipe(usize),
}

/// What a program prints, and how it ends.
pub struct Printed {
    pub output: Vec<u8>,
    pub errors: Vec<u8>,
    pub status: Option<i32>,
}

impl Printed {
    /// What a subcommand prints that printed this output and ended so.
    pub fn of(subcommand: &str, output: Vec<u8>, outcome: &Result<Ending, Failure>) -> Printed {
        Printed {
            output,
            errors: errors(subcommand, outcome).into_bytes(),
            status: Some(i32::from(status(outcome))),
        }
    }
}

impl From<Output> for Printed {
    fn from(output: Output) -> Printed {
        Printed {
            output: output.stdout,
            errors: output.stderr,
            status: output.status.code(),
        }
    }
}

/// A subcommand with its options, and the input that it gets behind them.
pub struct Call<'a> {
    pub subcommand: &'static str,
    pub arguments: &'a [String],
    pub input: &'a [u8],
    pub way: Way,
}

/// The program under comparison and where its inputs lie.
pub struct Trial {
    program: String,
    folder: PathBuf,
    calls: u64,
}

impl Trial {
    /// Makes a folder of that name for the inputs.
    pub fn new(program: &str, name: &str) -> Result<Trial, String> {
        let folder = env::temp_dir().join(format!("osp-{name}-{}", process::id()));
        fs::create_dir(&folder).map_err(|error| format!("{}: {error}", folder.display()))?;
        Ok(Trial {
            program: program.to_string(),
            folder,
            calls: 0,
        })
    }

    /// The program, to be called for a subcommand.
    fn command(&self, subcommand: &str) -> Command {
        let mut command = Command::new(&self.program);
        command.arg(subcommand);
        command
    }

    /// What the program prints for a call.
    fn run(&self, call: &Call, path: &Path) -> io::Result<Printed> {
        let mut command = self.command(call.subcommand);
        command.args(call.arguments);
        let output = match call.way {
            Way::Named => command.arg(path).stdin(Stdio::null()).output(),
            Way::Input => command.arg("-").stdin(File::open(path)?).output(),
            Way::Pipe(size) => through_pipe(command.arg("-"), call.input, size),
        };
        output.map(Printed::from)
    }

    /// Compares one call; the file with its input stays where they differ.
    pub fn compare(&mut self, call: &Call, wanted: &Printed) -> Result<(), String> {
        let path = self.folder.join(format!("input-{}", self.calls));
        self.calls += 1;
        let told = |error| format!("{}: {error}", path.display());
        fs::write(&path, call.input).map_err(told)?;
        let printed = self.run(call, &path);
        let printed = printed.map_err(|error| format!("{}: {error}", self.program))?;
        if let Some(difference) = difference(&printed, wanted) {
            let (options, path) = (call.arguments.join(" "), path.display());
            let (subcommand, way) = (call.subcommand, call.way);
            return Err(format!(
                "{subcommand} {options} {path} ({way:?})\n{difference}"
            ));
        }
        fs::remove_file(&path).map_err(told)
    }

    /// Removes the folder; gives how many calls were compared.
    pub fn close(self) -> Result<u64, String> {
        fs::remove_dir(&self.folder).map_err(|error| error.to_string())?;
        Ok(self.calls)
    }

    /// Calls the program wrongly, and once rightly with an output that fails:
    /// status 2, nothing printed and one line of complaint. Gives the number of
    /// calls.
    pub fn misuse(
        &self,
        subcommand: &str,
        wrong: &[&[&str]],
        right: &[&str],
    ) -> Result<usize, String> {
        for arguments in wrong {
            let mut command = self.command(subcommand);
            let output = command.args(*arguments).stdin(Stdio::null()).output();
            complains(output, "wrong use").map_err(|text| format!("{arguments:?}: {text}"))?;
        }
        let Ok(full) = File::options().write(true).open("/dev/full") else {
            return Ok(wrong.len());
        };
        let mut command = self.command(subcommand);
        command.args(right).stdout(full);
        let output = command.stdin(Stdio::null()).stderr(Stdio::piped()).spawn();
        let output = output.and_then(|child| child.wait_with_output());
        complains(output, "output that fails")?;
        Ok(wrong.len() + 1)
    }
}

/// Refusals that were printed, by their numbers.
#[derive(Default)]
pub struct Refusals([u64; REFUSALS]);

impl Refusals {
    /// Counts those in the output of a replay.
    pub fn count(&mut self, output: &[u8]) {
        for line in String::from_utf8_lossy(output).lines() {
            let behind = [": refused ", "\"number\":"].map(|mark| line.split_once(mark));
            let Some((_, text)) = behind.into_iter().flatten().next() else {
                continue;
            };
            let end = text.find(|letter: char| !letter.is_ascii_digit());
            let number = text[..end.unwrap_or(text.len())].parse::<usize>();
            if let Some(count) = number.ok().and_then(|number| self.0.get_mut(number)) {
                *count += 1;
            }
        }
    }

    /// Demands that something was refused with each of some numbers.
    pub fn demand(&self, numbers: &[usize]) -> Result<(), String> {
        match numbers.iter().find(|number| self.0[**number] == 0) {
            None => Ok(()),
            Some(number) => Err(format!(
                "nothing was refused with {number}: the inputs try too little"
            )),
        }
    }

    /// All but 0 in a line.
    pub fn line(&self) -> String {
        let refusals = self.0.iter().enumerate().skip(1);
        let counts: Vec<String> = refusals
            .map(|(number, count)| format!("{number}: {count}"))
            .collect();
        format!("refusals printed: {}", counts.join(", "))
    }
}

/// Gives a program its input through a pipe.
fn through_pipe(command: &mut Command, text: &[u8], size: usize) -> io::Result<Output> {
    let command = command.stdin(Stdio::piped()).stdout(Stdio::piped());
    let mut child = command.stderr(Stdio::piped()).spawn()?;
    let mut input = child.stdin.take();
    thread::scope(|scope| {
        scope.spawn(move || {
            let input = input.as_mut().expect("a pipe");
            // A program that ends early does not read the rest.
            let _ = text
                .chunks(size)
                .try_for_each(|piece| input.write_all(piece));
        });
        child.wait_with_output()
    })
}

/// Whether a call ended with status 2 and a line on standard error alone.
fn complains(output: io::Result<Output>, what: &str) -> Result<(), String> {
    let output = output.map_err(|error| error.to_string())?;
    let errors = String::from_utf8_lossy(&output.stderr);
    let one_line = errors.lines().count() == 1 && errors.ends_with('\n');
    let silent = output.stdout.is_empty();
    if output.status.code() == Some(2) && silent && one_line && errors.starts_with("osp: ") {
        return Ok(());
    }
    let status = output.status;
    Err(format!(
        "{what}: {status}, printed nothing: {silent}, standard error: {errors:?}"
    ))
}

/// Where two outputs differ, if they do.
fn difference(printed: &Printed, wanted: &Printed) -> Option<String> {
    let output = differing_line("standard output", &printed.output, &wanted.output);
    let errors = differing_line("standard error", &printed.errors, &wanted.errors);
    let status = (printed.status != wanted.status).then(|| {
        let (is, should) = (printed.status, wanted.status);
        format!("exit status {is:?}, reference {should:?}")
    });
    let all: Vec<String> = [output, errors, status].into_iter().flatten().collect();
    (!all.is_empty()).then(|| all.join("\n"))
}

/// The first line in which two texts differ.
fn differing_line(name: &str, printed: &[u8], wanted: &[u8]) -> Option<String> {
    if printed == wanted {
        return None;
    }
    let lines = |text| <[u8]>::split_inclusive(text, |&byte| byte == b'\n');
    let (mut is, mut should) = (lines(printed), lines(wanted));
    let mut number = 0;
    loop {
        number += 1;
        let (is, should) = (is.next(), should.next());
        if is != should {
            let (is, should) = (shown(is), shown(should));
            return Some(format!(
                "{name} differs in line {number}\n  program:   {is}\n  reference: {should}"
            ));
        }
    }
}

/// A line as it is shown, or that there is none.
fn shown(line: Option<&[u8]>) -> String {
    line.map_or("(no such line)".to_string(), |line| {
        let cut = &line[..line.len().min(SHOWN)];
        format!("{:?}", String::from_utf8_lossy(cut))
    })
}
