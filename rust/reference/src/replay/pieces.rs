//! Input cut into pieces of whole lines, in constant memory.

use crate::replay::script::LONGEST_LINE;
use std::io::{self, ErrorKind, Read};

/// Room for the longest line and still as much behind it.
const BUFFER: usize = 128 * 1024;

/// The pieces of some input, one after the other.
pub struct Pieces<R> {
    input: R,
    buffer: Box<[u8]>,
    /// What was read, and what of it was given out.
    read: usize,
    given: usize,
}

impl<R: Read> Pieces<R> {
    pub fn new(input: R) -> Pieces<R> {
        Pieces {
            input,
            buffer: vec![0; BUFFER].into_boxed_slice(),
            read: 0,
            given: 0,
        }
    }

    /// The next piece, which ends with a line feed or with the input; nothing at
    /// the end of the input. A line that is too long may be cut where this can
    /// already be seen.
    pub fn next(&mut self) -> io::Result<Option<&[u8]>> {
        self.buffer.copy_within(self.given..self.read, 0);
        self.read -= self.given;
        self.given = 0;
        while self.given == 0 {
            let unread = &mut self.buffer[self.read..];
            let size = match self.input.read(unread) {
                Err(error) if error.kind() == ErrorKind::Interrupted => continue,
                size => size?,
            };
            let last = unread[..size].iter().rposition(|&byte| byte == b'\n');
            self.given = last.map_or(0, |last| self.read + last + 1);
            self.read += size;
            if size == 0 || self.given == 0 && self.read > LONGEST_LINE {
                self.given = self.read;
                break;
            }
        }
        let piece = &self.buffer[..self.given];
        Ok(Some(piece).filter(|piece| !piece.is_empty()))
    }
}

#[cfg(test)]
mod tests {
    use super::*;

    /// Gives its bytes in pieces of one size.
    struct Drops<'a>(&'a [u8], usize);

    impl Read for Drops<'_> {
        fn read(&mut self, room: &mut [u8]) -> io::Result<usize> {
            let size = self.1.min(room.len());
            self.0.read(&mut room[..size])
        }
    }

    /// All the pieces of a text that is read so.
    fn cut(text: &[u8], size: usize) -> Vec<Vec<u8>> {
        let mut pieces = Pieces::new(Drops(text, size));
        let mut all = Vec::new();
        while let Some(piece) = pieces.next().unwrap() {
            all.push(piece.to_vec());
        }
        all
    }

    #[test]
    fn pieces_end_with_a_line_feed_or_the_input() {
        let texts = [&b""[..], b"\n", b"ab", b"ab\r\n\nc", b"ab\nc\n"];
        for text in texts {
            for size in [1, 2, 3, 100] {
                let pieces = cut(text, size);
                assert_eq!(pieces.concat(), text);
                let mut others = pieces.iter().rev().skip(1);
                assert!(others.all(|piece| piece.ends_with(b"\n")));
                assert!(pieces.iter().all(|piece| !piece.is_empty()));
            }
        }
    }

    #[test]
    fn lines_cross_what_is_read_at_once() {
        let lines: Vec<Vec<u8>> = (0..4000).map(|at| vec![b'x'; at % 301]).collect();
        let text = [lines.join(&b'\n'), vec![b'\n']].concat();
        for size in [1, 1000, 4096, 65_536, BUFFER, text.len()] {
            let pieces = cut(&text, size);
            assert!(pieces.iter().all(|piece| piece.ends_with(b"\n")));
            assert_eq!(pieces.concat(), text);
        }
    }

    #[test]
    fn long_lines_are_cut_when_they_are_too_long() {
        for size in [1, 8192, 65_536, BUFFER] {
            for length in [LONGEST_LINE, LONGEST_LINE + 1, BUFFER, 5 * BUFFER] {
                let text = [b"A0\n".to_vec(), vec![b'#'; length]].concat();
                let pieces = cut(&text, size);
                assert_eq!(pieces[0], b"A0\n");
                assert_eq!(pieces[1].len() > LONGEST_LINE, length > LONGEST_LINE);
                assert_eq!(pieces.concat(), text);
            }
        }
    }
}
