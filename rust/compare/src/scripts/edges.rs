//! Malformed lines, lines of a length at the edge, and a short script for each.

use crate::random::Random;
use crate::scripts::options::COUNTS;
use crate::scripts::writer::Writer;
use crate::scripts::Script;

/// The most bytes of a line.
pub(super) const LONGEST_LINE: usize = 65_000;
/// Lengths around that of the longest line and of buffers.
pub(super) const LENGTHS: [usize; 8] = [
    LONGEST_LINE - 1,
    LONGEST_LINE,
    LONGEST_LINE + 1,
    65_535,
    65_536,
    65_537,
    131_072,
    200_000,
];
/// Long lines: their ends, and what stands between them again and again.
pub(super) const LONG_FORMS: [(&[u8], u8, &[u8]); 6] = [
    (b"#", b'x', b""),
    (b"A0 00 05 B1", b' ', b""),
    (b"", b'\t', b"A0 00 05 B1"),
    (b"A000", b'0', b""),
    (b"sensor ", b'0', b" 6B 1"),
    (b"sensor 0 00 ", b'0', b"5"),
];
/// Lines that are none of a script.
pub(super) const MALFORMED: [&[u8]; 32] = [
    b"A",
    b"A0 0",
    b"A 00 00 22",
    b"A00 000 22",
    b"A0 00 00 2#2",
    b"A0 00 00 2G",
    b"0xA0 0x00 0x00 0x22",
    b"A0,00,00,22",
    b"A0:00:00:22",
    b"A0-00-00-22",
    b"A0 00 00 22;",
    b"A0 00 00 22 // reset",
    b"reset",
    b"A0 00 sensor 0 00 0",
    b"sensor",
    b"sensor 0",
    b"sensor 0 00",
    b"sensor 0 00 # 0",
    b"sensor 0 00 0 0",
    b"sensor 0 0 0",
    b"sensor 0 000 0",
    b"sensor 0 0G 0",
    b"sensor -1 00 0",
    b"sensor 0 00 +1",
    b"sensor 0A 00 0",
    b"sensor 0 00 A",
    b"sensors 0 00 0",
    b"Sensor 0 00 0",
    b"sensor0 00 0",
    b"A0\x0B00 00 22",
    b"A0 00 00 22 \0",
    b"\xEF\xBB\xBFA0 00 00 22",
];

/// Every malformed line, and every form of a long line in every length, each
/// in a short script.
pub fn edges(random: &mut Random) -> Vec<Script> {
    let mut scripts = Vec::new();
    for line in MALFORMED {
        scripts.push(edge(random, |writer, random| {
            writer.malformed(line, random)
        }));
    }
    for form in LONG_FORMS {
        for length in LENGTHS {
            scripts.push(edge(random, |writer, _| writer.long(form, length)));
        }
    }
    scripts
}

/// A short script with something in its middle, for a chain that is not
/// refused.
fn edge(random: &mut Random, put: impl Fn(&mut Writer, &mut Random)) -> Script {
    let mut writer = Writer::new(random);
    while !COUNTS.contains(&writer.options.lamps) {
        writer = Writer::new(random);
    }
    for _ in 0..random.below(5) {
        writer.line(random);
    }
    put(&mut writer, random);
    writer.line(random);
    writer.script()
}
