//! `dump [--json] [--quiet] FILE`: the second implementation of `osp dump`, as
//! docs/TOOL.md describes it.

use reference::dump::arguments::Call;
use reference::dump::dump;
use reference::replay::program::{finish, open};
use reference::replay::{Ending, Failure};
use std::process::ExitCode;
use std::{env, io};

/// Lists the capture that is named.
fn run() -> Result<Ending, Failure> {
    let call = Call::of(env::args_os().skip(1)).map_err(Failure::Use)?;
    dump(&call.options, open(&call.capture)?, io::stdout().lock())
}

fn main() -> ExitCode {
    finish("dump", &run())
}
