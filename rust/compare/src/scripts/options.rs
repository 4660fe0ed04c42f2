//! Options for a replay, as numbers and as they are written.

use crate::random::Random;
use crate::scripts::digits;
use reference::chain::Defaults;
use reference::replay::Options;

/// Lamp counts that are tried.
pub(super) const COUNTS: [u32; 6] = [1, 2, 9, 31, 300, 1007];
/// Lamp counts that are refused, as they are written, and as they are taken.
const REFUSED_COUNTS: [(&str, u32); 3] = [("0", 0), ("1008", 1008), ("99999999999", u32::MAX)];

/// Any options, as numbers and as they are written.
pub fn options(random: &mut Random) -> (Options, Vec<String>) {
    let (count, lamps) = match random.below(25) {
        0 => {
            let (text, lamps) = random.pick(&REFUSED_COUNTS);
            (text.to_string(), lamps)
        }
        _ => {
            let lamps = random.pick(&COUNTS);
            (lamps.to_string(), lamps)
        }
    };
    let mut options = Options {
        lamps,
        defaults: Defaults {
            setup: 0x13,
            thresholds: [0x03, 0xE6, 0xF0],
        },
        quiet: random.below(4) == 0,
        json: random.below(3) == 0,
        raw: false,
    };
    let mut arguments = vec!["--lamps".to_string(), count];
    let lower = random.below(2) == 0;
    if random.below(2) == 0 {
        options.defaults.setup = random.byte();
        arguments.push("--setup".to_string());
        arguments.push(digits(&[options.defaults.setup], lower));
    }
    if random.below(2) == 0 {
        options.defaults.thresholds = [random.byte(), random.byte(), random.byte()];
        arguments.push("--thresholds".to_string());
        let thresholds = options.defaults.thresholds;
        arguments.extend(thresholds.map(|byte| digits(&[byte], lower)));
    }
    let switches = [(options.quiet, "--quiet"), (options.json, "--json")];
    let given = switches.into_iter().filter(|(given, _)| *given);
    arguments.extend(given.map(|(_, name)| name.to_string()));
    (options, arguments)
}
