//! How the program is called.

use crate::chain::Defaults;
use crate::replay::script::{byte, number};
use crate::replay::Options;
use std::ffi::OsString;

/// The defaults of document 000.
const DEFAULTS: Defaults = Defaults {
    setup: 0x13,
    thresholds: [0x03, 0xE6, 0xF0],
};

/// What is to be done, and the file of the script or the capture; `-` is standard
/// input.
#[derive(Debug, PartialEq, Eq)]
pub struct Call {
    pub options: Options,
    pub script: OsString,
}

impl Call {
    /// Reads the arguments behind the program's name, or says what is wrong
    /// with them.
    pub fn of(mut arguments: impl Iterator<Item = OsString>) -> Result<Call, String> {
        let (mut lamps, mut script) = (None, None);
        let mut defaults = DEFAULTS;
        let (mut quiet, mut json, mut raw) = (false, false, false);
        while let Some(argument) = arguments.next() {
            match argument.as_encoded_bytes() {
                b"--lamps" => lamps = Some(value(&mut arguments, number, "a decimal number")?),
                b"--setup" => defaults.setup = hex(&mut arguments)?,
                b"--thresholds" => {
                    for threshold in &mut defaults.thresholds {
                        *threshold = hex(&mut arguments)?;
                    }
                }
                b"--quiet" => quiet = true,
                b"--json" => json = true,
                b"--raw" => raw = true,
                [b'-', _, ..] => return Err(format!("no such option: {argument:?}")),
                _ if script.is_none() => script = Some(argument),
                _ => return Err(format!("more than one script: {argument:?}")),
            }
        }
        Ok(Call {
            options: Options {
                lamps: lamps.ok_or("--lamps N is missing")?,
                defaults,
                quiet,
                json,
                raw,
            },
            script: script.ok_or("the script is missing")?,
        })
    }
}

/// The byte of an option.
fn hex(arguments: &mut impl Iterator<Item = OsString>) -> Result<u8, String> {
    value(arguments, byte, "two hex digits")
}

/// The value of an option.
fn value<T>(
    arguments: &mut impl Iterator<Item = OsString>,
    read: fn(&[u8]) -> Option<T>,
    wanted: &str,
) -> Result<T, String> {
    let given = arguments.next().unwrap_or_default();
    read(given.as_encoded_bytes()).ok_or(format!("expected {wanted}, not {given:?}"))
}

#[cfg(test)]
mod tests {
    use super::*;

    fn call(line: &str) -> Result<Call, String> {
        Call::of(line.split_whitespace().map(OsString::from))
    }

    fn switches(options: &Options) -> [bool; 3] {
        [options.quiet, options.json, options.raw]
    }

    #[test]
    fn options_stand_in_any_order() {
        let Call { options, script } = call("--lamps 9 script").unwrap();
        assert_eq!((options.lamps, options.defaults), (9, DEFAULTS));
        assert_eq!(switches(&options), [false, false, false]);
        assert_eq!(script, "script");
        let line = "- --json --thresholds 01 aB Ff --setup 2c --raw --quiet --lamps 99999999999";
        let Call { options, script } = call(line).unwrap();
        let defaults = Defaults {
            setup: 0x2C,
            thresholds: [0x01, 0xAB, 0xFF],
        };
        assert_eq!((options.lamps, options.defaults), (u32::MAX, defaults));
        assert_eq!(switches(&options), [true, true, true]);
        assert_eq!(script, "-");
    }

    #[test]
    fn wrong_use_is_said() {
        let lines = [
            "",
            "script",
            "--lamps 9",
            "--lamps script",
            "--lamps 9 one two",
            "--lamps -9 script",
            "--lamps 0x9 script",
            "--lamps 9 --setup script",
            "--lamps 9 --setup 1 script",
            "--lamps 9 --setup 123 script",
            "--lamps 9 --thresholds 01 02 script",
            "--lamps 9 --loud script",
            "--lamps 9 -q script",
            "--lamps 9 script --lamps",
        ];
        for line in lines {
            assert!(call(line).is_err(), "{line}");
        }
    }
}
