//! What a line of a script says.

use crate::chain::Place;
use crate::telegram::LONGEST;

/// The most bytes of a line, without the line feed.
pub const LONGEST_LINE: usize = 65_000;

/// The most bytes of a telegram that are kept; the number of a longer one
/// follows from the first three and that there are more than 12.
const KEPT: usize = 16;

/// No hex digit.
const NONE: u8 = 0xFF;

/// The value of each byte as a hex digit.
static DIGITS: [u8; 256] = {
    let mut values = [NONE; 256];
    let mut value = 0;
    while value < 16 {
        values[b"0123456789ABCDEF"[value] as usize] = value as u8;
        values[b"0123456789abcdef"[value] as usize] = value as u8;
        value += 1;
    }
    values
};

/// The byte of two hex digits.
#[inline]
fn pair(high: u8, low: u8) -> Option<u8> {
    let (high, low) = (DIGITS[usize::from(high)], DIGITS[usize::from(low)]);
    (high | low != NONE).then_some(high << 4 | low)
}

/// A byte of exactly two hex digits.
pub fn byte(word: &[u8]) -> Option<u8> {
    match *word {
        [high, low] => pair(high, low),
        _ => None,
    }
}

/// A decimal number; one that is too large is taken as the largest.
pub fn number(word: &[u8]) -> Option<u32> {
    let digit = |&byte: &u8| byte.is_ascii_digit();
    if word.is_empty() || !word.iter().all(digit) {
        return None;
    }
    let larger = |sum: u32, byte: &u8| {
        sum.saturating_mul(10)
            .saturating_add(u32::from(byte - b'0'))
    };
    Some(word.iter().fold(0, larger))
}

/// The bytes of a telegram, as far as they are kept, and how many there were.
pub struct Sent {
    bytes: [u8; KEPT],
    count: usize,
}

impl Sent {
    /// Some bytes, not more than are kept.
    pub fn of(given: &[u8]) -> Sent {
        let mut bytes = [0; KEPT];
        bytes[..given.len()].copy_from_slice(given);
        let count = given.len();
        Sent { bytes, count }
    }

    /// The bytes that are kept.
    #[inline]
    pub fn bytes(&self) -> &[u8] {
        &self.bytes[..self.count.min(KEPT)]
    }

    /// Whether there were more bytes than a telegram has.
    #[inline]
    pub fn is_long(&self) -> bool {
        self.count > LONGEST
    }
}

/// A sensor report.
pub struct Report {
    pub place: Place,
    pub temperature: u8,
    pub faults: u32,
}

/// What a line says.
pub enum Line {
    Nothing,
    Telegram(Sent),
    Sensor(Report),
}

impl Line {
    /// Takes the first line off a text; nothing if it says nothing known or is
    /// too long.
    #[inline]
    pub fn take(text: &mut &[u8]) -> Option<Line> {
        let (mut bytes, mut count) = ([0; KEPT], 0);
        let mut report = None;
        let mut left = *text;
        loop {
            if let [high, low, rest @ ..] = left {
                if let Some(byte) = pair(*high, *low) {
                    if let Some(room) = bytes.get_mut(count) {
                        *room = byte;
                    }
                    count += 1;
                    // Mostly a space follows: one round for both.
                    left = rest.strip_prefix(b" ").unwrap_or(rest);
                    continue;
                }
            }
            match left {
                [] | [b'\n', ..] => break,
                [b' ' | b'\t' | b'\r', rest @ ..] => left = rest,
                [b'#', ..] => (_, left) = split_line(left),
                [b's', ..] if count == 0 && report.is_none() => {
                    let line;
                    (line, left) = split_line(left);
                    report = Some(read_report(line)?);
                }
                _ => return None,
            }
        }
        if text.len() - left.len() > LONGEST_LINE {
            return None;
        }
        *text = left.strip_prefix(b"\n").unwrap_or(left);
        Some(match (report, count) {
            (Some(report), _) => Line::Sensor(report),
            (None, 0) => Line::Nothing,
            (None, _) => Line::Telegram(Sent { bytes, count }),
        })
    }
}

/// The rest of a line, and the text from its line feed on.
fn split_line(text: &[u8]) -> (&[u8], &[u8]) {
    let end = text.iter().position(|&byte| byte == b'\n');
    text.split_at(end.unwrap_or(text.len()))
}

/// Reads `sensor PLACE TEMP FAULTS`.
fn read_report(line: &[u8]) -> Option<Report> {
    let text = line.split(|&byte| byte == b'#').next()?;
    let words = text.split(|byte| matches!(byte, b' ' | b'\t' | b'\r'));
    let mut words = words.filter(|word| !word.is_empty());
    let mut next = || words.next();
    let (b"sensor", [place, temperature, faults]) = (next()?, [next()?, next()?, next()?]) else {
        return None;
    };
    if next().is_some() {
        return None;
    }
    Some(Report {
        place: Place(number(place)?),
        temperature: byte(temperature)?,
        faults: number(faults)?,
    })
}

#[cfg(test)]
mod tests {
    use super::*;

    /// What a line says that stands alone, and before a line feed.
    fn parse(line: &[u8]) -> Option<Line> {
        let text = [line, b"\nA0"].concat();
        let mut left = &text[..];
        let taken = Line::take(&mut left).is_some();
        assert_eq!(left == b"A0", taken);
        let mut left = line;
        let alone = Line::take(&mut left);
        assert_eq!(alone.is_some(), taken);
        alone
    }

    /// The bytes and the count of a telegram.
    fn telegram(line: &str) -> Option<(Vec<u8>, usize)> {
        match parse(line.as_bytes())? {
            Line::Telegram(sent) => Some((sent.bytes().to_vec(), sent.count)),
            _ => None,
        }
    }

    /// The numbers of a sensor report.
    fn sensor(line: &str) -> Option<(u32, u8, u32)> {
        match parse(line.as_bytes())? {
            Line::Sensor(report) => Some((report.place.0, report.temperature, report.faults)),
            _ => None,
        }
    }

    fn is_nothing(line: &str) -> bool {
        matches!(parse(line.as_bytes()), Some(Line::Nothing))
    }

    #[test]
    fn words_are_split_and_joined() {
        let wanted = Some((vec![0xA0, 0x00, 0x0D, 0xFE], 4));
        let lines = [
            "A0 00 0D FE",
            "a0000dfe",
            "\tA000\t 0dFE \r",
            "A0 00 0D FE# x",
            "A0000D FE #",
        ];
        for line in lines {
            assert_eq!(telegram(line), wanted, "{line}");
        }
    }

    #[test]
    fn empty_lines_and_comments_are_nothing() {
        for line in ["", " ", "\t\r", "#", "# sensor", " # A", "\r#\0\u{7f}"] {
            assert!(is_nothing(line), "{line}");
        }
        assert!(matches!(parse(b"#\xFF\0"), Some(Line::Nothing)));
    }

    #[test]
    fn the_first_sixteen_bytes_are_kept() {
        for count in [15, 16, 17, 40] {
            let (bytes, counted) = telegram(&"A7".repeat(count)).unwrap();
            assert_eq!((bytes, counted), (vec![0xA7; count.min(16)], count));
        }
    }

    #[test]
    fn reports_have_two_numbers_and_a_byte() {
        assert_eq!(sensor("sensor 8 6B 5"), Some((8, 0x6B, 5)));
        assert_eq!(sensor(" sensor\t008  6b\r05 # x"), Some((8, 0x6B, 5)));
        assert_eq!(
            sensor("sensor 4294967295 00 4294967296"),
            Some((u32::MAX, 0, u32::MAX))
        );
        let long = format!("sensor {} 00 0", "9".repeat(40));
        assert_eq!(sensor(&long), Some((u32::MAX, 0, 0)));
    }

    #[test]
    fn everything_else_is_malformed() {
        let lines = [
            "A",
            "A0 0",
            "A 00",
            "A00 0",
            "A0 0#",
            "G0",
            "0x00",
            "A0,00",
            "A0\u{b}00",
            "A0 sensor 8 6B 5",
            "s",
            "sensor",
            "sensors 8 6B 5",
            "Sensor 8 6B 5",
            "sensor8 6B 5",
            "sensor 8 6B",
            "sensor 8 6B #5",
            "sensor 8 6B 5 0",
            "sensor 8 6 5",
            "sensor 8 06B 5",
            "sensor 8 6G 5",
            "sensor -8 6B 5",
            "sensor 8 6B +5",
            "sensor 8A 6B 5",
            "sensor 8 6B 5A",
        ];
        for line in lines {
            assert!(parse(line.as_bytes()).is_none(), "{line}");
        }
        assert!(parse(b"A0 \xFF").is_none());
        assert!(parse(b"A0 \0").is_none());
    }

    #[test]
    fn long_lines_are_malformed() {
        let mut line = vec![b'#'; LONGEST_LINE];
        assert!(parse(&line).is_some());
        line.push(b'#');
        assert!(parse(&line).is_none());
    }
}
