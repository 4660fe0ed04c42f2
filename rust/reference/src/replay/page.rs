//! Output, gathered before it is written.

use std::borrow::Cow;
use std::fmt::Arguments;
use std::io::{self, Write};

/// What the page holds before it is written.
const FULL: usize = 64 * 1024;
/// More than nearly every line needs; a page with less room is written.
const MARGIN: usize = 1024;

/// Every byte as two capital hex digits.
static HEX: [[u8; 2]; 256] = {
    let digits = b"0123456789ABCDEF";
    let mut pairs = [[0; 2]; 256];
    let mut byte = 0;
    while byte < 256 {
        pairs[byte] = [digits[byte >> 4], digits[byte & 0xF]];
        byte += 1;
    }
    pairs
};

/// A byte as two capital hex digits.
#[inline]
pub fn hex(byte: u8) -> [u8; 2] {
    HEX[usize::from(byte)]
}

/// The page under the pen.
pub struct Page(Vec<u8>);

impl Default for Page {
    fn default() -> Page {
        Page(Vec::with_capacity(FULL))
    }
}

impl Page {
    /// Writes the page out if it is full, between two lines.
    #[inline]
    pub fn spill(&mut self, output: &mut impl Write) -> io::Result<()> {
        if self.0.len() > FULL - MARGIN {
            return self.write(output);
        }
        Ok(())
    }

    /// Writes the page out.
    pub fn write(&mut self, output: &mut impl Write) -> io::Result<()> {
        output.write_all(&self.0)?;
        self.0.clear();
        Ok(())
    }

    /// What one thing writes on a page of its own.
    pub fn of(write: impl FnOnce(&mut Page)) -> Page {
        let mut page = Page(Vec::new());
        write(&mut page);
        page
    }

    /// What is written on the page.
    pub fn written(&self) -> Cow<'_, str> {
        String::from_utf8_lossy(&self.0)
    }

    /// Bytes as they are.
    #[inline]
    pub fn raw(&mut self, bytes: &[u8]) {
        self.0.extend_from_slice(bytes);
    }

    /// Text.
    #[inline]
    pub fn text(&mut self, text: &str) {
        self.raw(text.as_bytes());
    }

    /// Formatted text.
    pub fn show(&mut self, text: Arguments) {
        self.text(&text.to_string());
    }

    /// Text, and spaces behind it up to a width.
    #[inline]
    pub fn left(&mut self, text: &str, width: usize) {
        let end = self.0.len() + width;
        self.text(text);
        self.pad(end);
    }

    /// Spaces up to a length of the page.
    #[inline]
    pub fn pad(&mut self, end: usize) {
        if self.0.len() < end {
            self.0.resize(end, b' ');
        }
    }

    /// How long the page is.
    pub fn len(&self) -> usize {
        self.0.len()
    }

    /// Bytes in hex, without spaces.
    pub fn hex(&mut self, bytes: &[u8]) {
        for &byte in bytes {
            self.raw(&hex(byte));
        }
    }

    /// Bytes in hex, with spaces between.
    pub fn spaced(&mut self, bytes: &[u8]) {
        let mut between = "";
        for &byte in bytes {
            self.text(between);
            self.raw(&hex(byte));
            between = " ";
        }
    }

    /// An address as three hex digits.
    #[inline]
    pub fn address(&mut self, address: u16) {
        let [high, low] = address.to_be_bytes();
        let [_, first] = hex(high);
        let [second, third] = hex(low);
        self.raw(&[first, second, third]);
    }

    /// A decimal number.
    pub fn decimal(&mut self, number: impl Into<u64>) {
        let (digits, start) = decimal(number.into());
        self.raw(&digits[start..]);
    }

    /// A decimal number of at most five digits, right in five columns.
    pub fn right(&mut self, number: u16) {
        let (digits, _) = decimal(u64::from(number));
        self.raw(&digits[DIGITS - 5..]);
    }
}

/// The most decimal digits of a number.
const DIGITS: usize = 20;

/// A decimal number, right in twenty columns, and where it starts there.
#[inline]
fn decimal(mut number: u64) -> ([u8; DIGITS], usize) {
    let mut digits = [b' '; DIGITS];
    let mut start = DIGITS;
    loop {
        start -= 1;
        digits[start] = b'0' + (number % 10) as u8;
        number /= 10;
        if number == 0 {
            return (digits, start);
        }
    }
}
