//! How the program is called.

use crate::dump::Options;
use std::ffi::OsString;

/// What to print, and the capture's file; `-` is standard input.
#[derive(Debug, PartialEq, Eq)]
pub struct Call {
    pub options: Options,
    pub capture: OsString,
}

impl Call {
    /// Reads the arguments behind the program's name, or says what is wrong
    /// with them.
    pub fn of(arguments: impl Iterator<Item = OsString>) -> Result<Call, String> {
        let mut capture = None;
        let (mut json, mut quiet) = (false, false);
        for argument in arguments {
            match argument.as_encoded_bytes() {
                b"--json" => json = true,
                b"--quiet" => quiet = true,
                [b'-', _, ..] => return Err(format!("no such option: {argument:?}")),
                _ if capture.is_none() => capture = Some(argument),
                _ => return Err(format!("more than one capture: {argument:?}")),
            }
        }
        Ok(Call {
            options: Options { json, quiet },
            capture: capture.ok_or("the capture is missing")?,
        })
    }
}

#[cfg(test)]
mod tests {
    use super::*;

    fn call(line: &str) -> Result<Call, String> {
        Call::of(line.split_whitespace().map(OsString::from))
    }

    #[test]
    fn options_stand_in_any_order() {
        for line in ["--json --quiet -", "- --quiet --json", "--quiet - --json"] {
            let Call { options, capture } = call(line).unwrap();
            assert!(options.json && options.quiet && capture == "-");
        }
        let Call { options, capture } = call("file").unwrap();
        assert!(!options.json && !options.quiet && capture == "file");
    }

    #[test]
    fn wrong_use_is_said() {
        for line in ["", "--json", "one two", "--lamps 9 one", "-q one"] {
            assert!(call(line).is_err(), "{line}");
        }
    }
}
