//! A script that is being written, line by line.

use crate::chains::{any_faults, any_place, any_telegram, slot, MOST};
use crate::material::{good_answer, good_command};
use crate::random::Random;
use crate::scripts::edges::LONGEST_LINE;
use crate::scripts::options::options;
use crate::scripts::telegrams::{any_good, long_telegram, refused, REFUSALS};
use crate::scripts::{digits, Script};
use reference::replay::Options;
use reference::wire::REFERENCE;

/// What programs read at once.
const PIECE: usize = 65_536;

/// How a script is written.
struct Hand {
    line_end: &'static [u8],
    lower: bool,
    /// Whether each byte is a word of its own with a single space between.
    plain: bool,
}

/// A script that is being written, and the chain after it.
pub(super) struct Writer {
    pub(super) options: Options,
    arguments: Vec<String>,
    record: Vec<u8>,
    pub(super) text: Vec<u8>,
    hand: Hand,
}

impl Writer {
    /// A script for any chain, in any hand.
    pub(super) fn new(random: &mut Random) -> Writer {
        let (options, arguments) = options(random);
        Writer {
            options,
            arguments,
            record: made(&options),
            text: Vec::new(),
            hand: Hand {
                line_end: random.pick(&[&b"\n"[..], b"\n", b"\r\n"]),
                lower: random.below(3) == 0,
                plain: random.below(3) == 0,
            },
        }
    }

    /// The script as it was written.
    pub(super) fn script(self) -> Script {
        Script {
            options: self.options,
            arguments: self.arguments,
            text: self.text,
        }
    }

    /// A line of any kind but a malformed one.
    pub(super) fn line(&mut self, random: &mut Random) {
        let telegram = match random.below(100) {
            0..=13 => return self.sensor(random),
            14..=18 => return self.comment(random),
            19..=22 => return self.blank(random),
            23..=26 => long_telegram(random),
            27..=29 => good_answer(random),
            30..=39 => refused(random.pick(&REFUSALS), random),
            40..=49 => good_command(random),
            _ => any_telegram(&self.record, random),
        };
        // No bytes at all cannot be written as a telegram.
        if !telegram.is_empty() {
            self.telegram(&telegram, random);
        }
    }

    /// A telegram, which the chain gets.
    pub(super) fn telegram(&mut self, bytes: &[u8], random: &mut Random) {
        (REFERENCE.deliver)(&mut self.record, bytes, &mut [0; 12]);
        self.space(random);
        let mut left = bytes;
        while !left.is_empty() {
            let size = match self.hand.plain {
                true => 1,
                false => random.pick(&[1, 1, 1, 2, 3, 4, 16]).min(left.len()),
            };
            let (word, rest) = left.split_at(size);
            self.text.extend(self.word(word).as_bytes());
            if !rest.is_empty() {
                self.gap(random);
            }
            left = rest;
        }
        self.end(random);
    }

    /// A word of hex digits.
    fn word(&self, bytes: &[u8]) -> String {
        digits(bytes, self.hand.lower)
    }

    /// A sensor report, which the chain gets.
    fn sensor(&mut self, random: &mut Random) {
        let place = any_place(&self.record, random);
        let (temperature, faults) = (random.byte(), any_faults(random));
        (REFERENCE.sense)(&mut self.record, place, temperature, faults);
        let (place, faults) = (decimal(place, random), decimal(faults, random));
        let words = [
            "sensor".to_string(),
            place,
            self.word(&[temperature]),
            faults,
        ];
        self.space(random);
        for (at, word) in words.iter().enumerate() {
            if at > 0 {
                self.gap(random);
            }
            self.text.extend(word.as_bytes());
        }
        self.end(random);
    }

    /// A comment of text and of anything else.
    fn comment(&mut self, random: &mut Random) {
        self.space(random);
        self.remark(random);
        self.text.extend(self.hand.line_end);
    }

    /// A line without a word.
    fn blank(&mut self, random: &mut Random) {
        self.space(random);
        self.text.extend(self.hand.line_end);
    }

    /// A line that ends the run.
    pub(super) fn malformed(&mut self, line: &[u8], random: &mut Random) {
        self.space(random);
        self.text.extend(line);
        self.end(random);
    }

    /// A line of a length: its ends, and one byte between them again and again.
    pub(super) fn long(&mut self, (front, middle, back): (&[u8], u8, &[u8]), length: usize) {
        self.text.extend(front);
        let middles = length - front.len() - back.len();
        self.text.extend(std::iter::repeat_n(middle, middles));
        self.text.extend(back);
        self.text.push(b'\n');
    }

    /// A comment up to shortly before the end of a piece, and a line across it.
    pub(super) fn straddle(&mut self, random: &mut Random) {
        let before = random.below(40);
        let goal = (self.text.len() + before).next_multiple_of(PIECE) - before;
        while self.text.len() < goal {
            let length = (goal - self.text.len() - 1).min(LONGEST_LINE);
            self.long((b"", b'#', b""), length);
        }
        match random.below(3) {
            0 => self.sensor(random),
            _ => self.telegram(&any_good(&self.record, random), random),
        }
    }

    /// Nothing, or separators before the first word.
    fn space(&mut self, random: &mut Random) {
        if !self.hand.plain && random.below(6) == 0 {
            self.gap(random);
        }
    }

    /// What stands between two words.
    fn gap(&mut self, random: &mut Random) {
        let gap: &[u8] = match self.hand.plain {
            true => b" ",
            false => random.pick(&[b" ", b" ", b" ", b"\t", b"  ", b" \t ", b"\r"]),
        };
        self.text.extend(gap);
    }

    /// The end of a line, with or without a comment.
    fn end(&mut self, random: &mut Random) {
        self.space(random);
        if random.below(10) == 0 {
            self.remark(random);
        }
        self.text.extend(self.hand.line_end);
    }

    /// A comment without its line's end.
    fn remark(&mut self, random: &mut Random) {
        self.text.push(b'#');
        let size = random.below(20);
        let mut bytes = random.bytes(size);
        if random.below(3) > 0 {
            bytes.iter_mut().for_each(|byte| *byte = b' ' + *byte % 95);
        }
        bytes.retain(|&byte| byte != b'\n');
        self.text.extend(bytes);
    }
}

/// The chain that options make, or any where it is refused.
pub(crate) fn made(options: &Options) -> Vec<u8> {
    let count = match options.lamps as usize {
        count @ 1..=MOST => count,
        _ => 1,
    };
    let mut record = vec![0; slot(count)];
    let [t0, t1, t2] = options.defaults.thresholds;
    let setup = options.defaults.setup;
    (REFERENCE.make)(&mut record, count as u32, setup, t0, t1, t2);
    record
}

/// A number as it is written, sometimes with zeros before it or too large.
fn decimal(number: u32, random: &mut Random) -> String {
    match random.below(20) {
        0 => format!("{number:03}"),
        1 if number == u32::MAX => "4294967296".to_string(),
        2 if number == u32::MAX => "9".repeat(random.between(11, 50) as usize),
        _ => number.to_string(),
    }
}
