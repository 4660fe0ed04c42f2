//! How many instructions a program takes, counted by valgrind.

use std::fs;
use std::path::Path;
use std::process::{Command, Stdio};
use std::{env, process};

/// Whether valgrind is installed.
pub fn is_there() -> bool {
    let mut command = Command::new("valgrind");
    let command = command.arg("--version").stdout(Stdio::null());
    command.status().is_ok_and(|status| status.success())
}

/// The instructions of a whole run; its output is dropped.
pub fn instructions(program: &Path, arguments: &[&str]) -> Result<u64, String> {
    let counts = env::temp_dir().join(format!("osp-callgrind-{}", process::id()));
    let mut command = Command::new("valgrind");
    command.args(["--quiet", "--tool=callgrind"]);
    command.arg(format!("--callgrind-out-file={}", counts.display()));
    command.arg(program).args(arguments);
    command.stdin(Stdio::null()).stdout(Stdio::null());
    let run = command.status().map_err(|error| error.to_string());
    let text = run.and_then(|_| fs::read_to_string(&counts).map_err(|error| error.to_string()));
    let _ = fs::remove_file(&counts);
    total(&text?).ok_or(format!("no count of {} {arguments:?}", program.display()))
}

/// The sum in a file of counts.
fn total(text: &str) -> Option<u64> {
    let line = text
        .lines()
        .find_map(|line| line.strip_prefix("totals: "))?;
    line.trim().parse().ok()
}
