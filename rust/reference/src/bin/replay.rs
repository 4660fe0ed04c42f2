//! `replay --lamps N [--setup HH] [--thresholds HH HH HH] [--raw] [--quiet] [--json] FILE`:
//! the second implementation of `osp replay`, as docs/TOOL.md describes it.

use reference::replay::arguments::Call;
use reference::replay::program::{finish, open};
use reference::replay::{replay, Ending, Failure};
use std::process::ExitCode;
use std::{env, io};

/// Replays the script or the capture that is named.
fn run() -> Result<Ending, Failure> {
    let call = Call::of(env::args_os().skip(1)).map_err(Failure::Use)?;
    replay(&call.options, open(&call.script)?, io::stdout().lock())
}

fn main() -> ExitCode {
    finish("replay", &run())
}
