//! What is told of the telegram that ended a listing.

use crate::command::Name;
use crate::dump::Meaning;
use crate::replay::words;
use crate::telegram::{Header, FRAME};
use crate::Refusal;

/// A refused telegram.
pub struct Fault<'a> {
    pub refusal: Refusal,
    /// The bytes that decided it.
    pub bytes: &'a [u8],
}

impl Fault<'_> {
    /// Of a refusal and the bytes from the telegram's first one on.
    pub fn of(refusal: Refusal, left: &[u8]) -> Fault<'_> {
        let deciding = match refusal {
            Refusal::Preamble => 1,
            Refusal::SizeIndex => 3,
            Refusal::Checksum { .. } => announced(left),
            _ => left.len(),
        };
        let bytes = &left[..deciding.min(left.len())];
        Fault { refusal, bytes }
    }

    /// What was expected in the place of what came; 5 says so itself.
    pub fn expected(&self) -> Option<String> {
        let bytes = self.bytes;
        Some(match (self.refusal, bytes) {
            (Refusal::Preamble, [first, ..]) => {
                format!("a first byte A0 to AF, got {first:02X}")
            }
            (Refusal::SizeIndex, _) => "size index 0 to 4, 6 or 7, got 5".to_string(),
            (Refusal::Checksum { .. }, _) => return None,
            (Refusal::ByteCount, _) => {
                format!("{} bytes, got {}", announced(bytes), bytes.len())
            }
            _ => format!("{FRAME} bytes or more, got {}", bytes.len()),
        })
    }

    /// What its first three bytes claim.
    pub fn claims(&self) -> String {
        if self.refusal == Refusal::Preamble {
            return "claims nothing".to_string();
        }
        let Some(header) = Header::of(self.bytes) else {
            return "claims nothing yet".to_string();
        };
        let number = header.command();
        let name = Name::of_number(u32::from(number)).map_or("unknown", words::command);
        let address = header.address();
        let size = match header.size() {
            Ok(1) => ", 1 payload byte".to_string(),
            Ok(size) => format!(", {size} payload bytes"),
            Err(_) => String::new(),
        };
        format!("claims command {number:02X} ({name}), address {address:03X}{size}")
    }

    /// Where the checksum is its only fault: the right one, and what it says with
    /// that.
    pub fn mended(&self) -> Option<(u8, Meaning)> {
        let [computed, _] = self.refusal.checksums()?;
        let (_, body) = self.bytes.split_last()?;
        let mended = [body, &[computed]].concat();
        Some((computed, Meaning::of(&mended)))
    }
}

/// How long a telegram is by its first three bytes; 0 where these do not say.
fn announced(bytes: &[u8]) -> usize {
    let size = Header::of(bytes).and_then(|header| header.size().ok());
    size.map_or(0, |size| FRAME + size)
}
