//! Random scripts for the replay, good and bad, in every way in which one may
//! be written.
//!
//! - [`writer`]: a script that is being written.
//! - [`options`]: the options of its replay.
//! - [`telegrams`]: its telegrams.
//! - [`edges`]: malformed and long lines, and scripts with one of them.

mod edges;
mod options;
mod telegrams;
mod writer;

use crate::material::*;
use crate::random::Random;
use edges::{LENGTHS, LONG_FORMS, MALFORMED};
use reference::replay::Options;
use telegrams::REFUSALS;
use writer::Writer;

pub use edges::edges;
pub use options::options;
pub(crate) use telegrams::refused;
pub(crate) use writer::made;

/// A script, and how a program is called for it.
pub struct Script {
    pub options: Options,
    /// The options as they are written.
    pub arguments: Vec<String>,
    pub text: Vec<u8>,
}

/// A random script of about so many lines. A malformed line, a line of a length
/// at the edge or lines across what is read at once are put into some.
pub fn script(lines: usize, random: &mut Random) -> Script {
    let mut writer = Writer::new(random);
    let malformed = (random.below(8) == 0).then(|| random.below(lines));
    let long = (random.below(16) == 0).then(|| random.below(lines));
    let across = (random.below(8) == 0).then(|| random.below(lines));
    if random.below(4) > 0 {
        writer.telegram(&fitting(1, random.between(2, 3), &[]), random);
        writer.telegram(&fitting(0, GOACTIVE, &[]), random);
    }
    for line in (0..lines).map(Some) {
        if malformed == line {
            writer.malformed(random.pick(&MALFORMED), random);
        }
        if long == line {
            writer.long(random.pick(&LONG_FORMS), random.pick(&LENGTHS));
        }
        if across == line {
            writer.straddle(random);
        }
        writer.line(random);
    }
    if random.below(3) == 0 {
        let end = writer.text.trim_ascii_end().len();
        writer.text.truncate(end);
    }
    writer.script()
}

/// A script of so many lines as a board's day has them: the lamps are set and
/// asked for their state, some sensors report, a few lines are refused.
pub fn ordinary(lamps: u32, lines: usize, random: &mut Random) -> String {
    let start = [fitting(1, INITBIDIR, &[]), fitting(0, GOACTIVE, &[])];
    let mut script = String::new();
    for line in 0..lines {
        let lamp = random.between(1, lamps);
        let telegram = match random.below(100) {
            _ if line < start.len() => start[line].clone(),
            0..=54 => fitting(lamp, SETPWM, &random.bytes(6)),
            55..=74 => fitting(lamp, READSTATUS, &[]),
            75..=87 => fitting(lamp, READTEMPST, &[]),
            88..=90 => fitting(0, GOACTIVE, &[]),
            91..=93 => refused(random.pick(&REFUSALS), random),
            _ => {
                let (place, faults) = (lamp - 1, random.between(0, 8));
                let report = format!("sensor {place} {:02X} {faults}\n", random.byte());
                script += &report;
                continue;
            }
        };
        let words: Vec<String> = telegram
            .iter()
            .map(|byte| digits(&[*byte], false))
            .collect();
        script += &words.join(" ");
        script.push('\n');
    }
    script
}

/// Bytes as hex digits.
fn digits(bytes: &[u8], lower: bool) -> String {
    let digits = bytes.iter().map(|byte| match lower {
        false => format!("{byte:02X}"),
        true => format!("{byte:02x}"),
    });
    digits.collect()
}
