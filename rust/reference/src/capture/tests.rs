//! The sentences of request 01, on whole runs and in chunks.
//!
//! - [`states`]: which memory is the state of a reader.
//! - [`checksums`]: request 03, what a reader keeps of a wrong checksum.

mod checksums;
mod states;

use super::reader::{end, next, position, LENGTH};
use super::*;
use crate::telegram::LONGEST;
use Refusal::{ByteCount, Preamble, Room, SizeIndex, TooShort};

/// A wrong checksum.
const WRONG: Refusal = Refusal::Checksum {
    computed: 0x22,
    received: 0x23,
};

/// Telegrams of every length: 4, 6, 12, 5, 7, 8 and 10 bytes.
const GOOD: [&[u8]; 7] = [
    &[0xA0, 0x00, 0x00, 0x22],
    &[0xA0, 0x25, 0x02, 0x6B, 0x50, 0x7F],
    &[
        0xA0, 0x07, 0xCF, 0x00, 0xFF, 0x00, 0x00, 0x11, 0x11, 0x00, 0x00, 0x49,
    ],
    &[0xA0, 0x04, 0xC0, 0x48, 0x37],
    &[0xA0, 0x01, 0xCB, 0x03, 0xE6, 0xF0, 0x98],
    &[0xA0, 0x06, 0x07, 0x00, 0x00, 0x00, 0x00, 0x4C],
    &[0xA0, 0x17, 0x4F, 0x03, 0xE8, 0x87, 0xD0, 0x00, 0x00, 0xB4],
];

/// Bytes that begin a telegram which is refused, with how many of them.
const BAD: [(&[u8], Refusal, usize); 5] = [
    (&[0xB0, 0x00, 0x00, 0x22], Preamble, 1),
    (&[0x00], Preamble, 1),
    (&[0xA0, 0x02, 0x80, 0x00], SizeIndex, 3),
    (&[0xAF, 0xFE, 0xFF], SizeIndex, 3),
    (&[0xA0, 0x00, 0x00, 0x23], WRONG, 4),
];

/// A state.
fn state(phase: u8, number: u8, position: u64, carried: &[u8]) -> [u8; LENGTH] {
    let mut bytes = [0; LENGTH];
    bytes[..2].copy_from_slice(&[phase, number]);
    bytes[2..10].copy_from_slice(&position.to_be_bytes());
    bytes[10..10 + carried.len()].copy_from_slice(carried);
    bytes
}

fn open(position: u64, carried: &[u8]) -> [u8; LENGTH] {
    state(0, carried.len() as u8, position, carried)
}

/// A stopped state, which keeps what the refusal carries.
fn stopped(refusal: Refusal, position: u64) -> [u8; LENGTH] {
    let carried = refusal.checksums().unwrap_or_default();
    state(2, refusal.number(), position, &carried)
}

/// All telegrams of a chunk, and what the reader says behind them.
fn read_chunk(
    reader: &mut [u8],
    chunk: &[u8],
    telegrams: &mut Vec<Vec<u8>>,
) -> Result<(), Refusal> {
    let (mut at, mut room) = (0, [0; LONGEST]);
    loop {
        match next(reader, chunk, &mut at, &mut room)? {
            0 => return Ok(()),
            count => telegrams.push(room[..count].to_vec()),
        }
    }
}

/// Reads a run in chunks and to its end: the telegrams, the last answer and the
/// state.
fn in_chunks(chunks: &[&[u8]], start: u64) -> (Vec<Vec<u8>>, Stand, [u8; LENGTH]) {
    let (mut reader, mut telegrams) = (open(start, &[]), Vec::new());
    let read = chunks
        .iter()
        .try_for_each(|chunk| read_chunk(&mut reader, chunk, &mut telegrams));
    let stand = match read.and_then(|()| end(&mut reader)) {
        Ok(_) => Stand::Ended,
        Err(refusal) => Stand::Stopped(refusal),
    };
    (telegrams, stand, reader)
}

/// Runs to be cut: all the good telegrams, and these with a bad one behind the
/// first two.
fn runs() -> Vec<Vec<u8>> {
    let bad = BAD.map(|(bytes, ..)| [&GOOD[..2].concat()[..], bytes, GOOD[2]].concat());
    let mut runs = vec![GOOD.concat(), GOOD[2].to_vec(), Vec::new()];
    runs.extend(bad);
    runs
}

#[test]
fn a_run_is_its_telegrams() {
    let run = GOOD.concat();
    let reading = read(&run, 0, true);
    assert_eq!(reading.telegrams, GOOD);
    assert_eq!((reading.stand, reading.position), (Stand::Ended, 52));
    assert!(reading.left.is_empty());
    assert_eq!(read(&run, 0, false).stand, Stand::Open);
}

#[test]
fn refusals_come_with_the_byte_that_decides() {
    for (bytes, refusal, deciding) in BAD {
        for size in 0..=bytes.len() {
            let run = [GOOD[0], &bytes[..size]].concat();
            let reading = read(&run, 0, false);
            let stand = match size < deciding {
                true => Stand::Open,
                false => Stand::Stopped(refusal),
            };
            assert_eq!((reading.stand, reading.position), (stand, 4));
            assert_eq!(
                (reading.telegrams, reading.left),
                (vec![GOOD[0]], &run[4..])
            );
        }
    }
}

#[test]
fn a_wrong_preamble_alone_is_2() {
    let mut reader = open(0, &[]);
    let (mut at, mut room) = (0, [0; LONGEST]);
    assert_eq!(
        next(&mut reader, &[0xB0], &mut at, &mut room),
        Err(Preamble)
    );
    assert_eq!((at, reader), (0, stopped(Preamble, 0)));
    assert_eq!(read(&[0xB0], 0, true).stand, Stand::Stopped(Preamble));
    assert_eq!(Telegram::parse(&[0xB0]), Err(TooShort));
}

#[test]
fn every_place_may_be_the_end() {
    for run in runs() {
        for size in 0..=run.len() {
            let reading = read(&run[..size], 0, true);
            let left = reading.left.len();
            match read(&run[..size], 0, false).stand {
                Stand::Open if left == 0 => assert_eq!(reading.stand, Stand::Ended),
                Stand::Open if left < 4 => assert_eq!(reading.stand, Stand::Stopped(TooShort)),
                Stand::Open => assert_eq!(reading.stand, Stand::Stopped(ByteCount)),
                stopped => assert_eq!(reading.stand, stopped),
            }
            assert_eq!(reading.telegrams.concat(), run[..size - left]);
            assert_eq!(reading.position, (size - left) as u64);
        }
    }
}

#[test]
fn every_cut_is_the_uncut_run() {
    for run in runs() {
        for start in [0, u64::MAX - 10] {
            let whole = read(&run, start, true);
            let bytewise: Vec<&[u8]> = run.chunks(1).collect();
            let mut cuts = vec![bytewise];
            for first in 0..=run.len() {
                for second in first..=run.len() {
                    cuts.push(vec![&run[..first], &run[first..second], &run[second..]]);
                }
            }
            for chunks in cuts {
                let (telegrams, stand, reader) = in_chunks(&chunks, start);
                assert_eq!(telegrams, whole.telegrams);
                assert_eq!(stand, whole.stand);
                assert_eq!(position(&reader), whole.position);
            }
        }
    }
}

#[test]
fn an_unfinished_telegram_is_carried() {
    for telegram in GOOD {
        for size in 0..telegram.len() {
            let (mut reader, mut at) = (open(7, &[]), 3);
            let chunk = [&[0xB0; 3][..], &telegram[..size]].concat();
            assert_eq!(next(&mut reader, &chunk, &mut at, &mut []), Ok(0));
            assert_eq!((reader, at), (open(7, &telegram[..size]), chunk.len()));
        }
    }
}

#[test]
fn positions_wrap() {
    let (mut reader, mut at) = (open(u64::MAX - 1, &[0xA0, 0x00]), 0);
    let mut room = [0x5A; LONGEST];
    let chunk = [0x00, 0x22, 0xB0];
    assert_eq!(next(&mut reader, &chunk, &mut at, &mut room), Ok(4));
    assert_eq!((reader, at), (open(2, &[]), 2));
    assert_eq!((&room[..4], &room[4..]), (GOOD[0], &[0x5A; 8][..]));
    assert_eq!(next(&mut reader, &chunk, &mut at, &mut room), Err(Preamble));
    assert_eq!((reader, at), (stopped(Preamble, 2), 2));
    assert_eq!(read(GOOD[0], u64::MAX, true).position, 3);
}

#[test]
fn answers_are_repeated() {
    let repeats = [
        (state(1, 0, 9, &[]), Ok(0)),
        (stopped(TooShort, 9), Err(TooShort)),
        (stopped(Preamble, 9), Err(Preamble)),
        (stopped(SizeIndex, 9), Err(SizeIndex)),
        (stopped(ByteCount, 9), Err(ByteCount)),
        (stopped(WRONG, u64::MAX), Err(WRONG)),
    ];
    for (before, answer) in repeats {
        let mut reader = before;
        for chunk in [&[][..], GOOD[0], &[0xB0], &[0xA0]] {
            let (mut at, mut room) = (0, [0x5A; LONGEST]);
            assert_eq!(next(&mut reader, chunk, &mut at, &mut room), answer);
            assert_eq!(end(&mut reader), answer);
            assert_eq!((reader, at, room), (before, 0, [0x5A; LONGEST]));
        }
    }
}

#[test]
fn the_end_tells_what_is_left_over() {
    for telegram in GOOD {
        for size in 0..telegram.len() {
            let mut reader = open(5, &telegram[..size]);
            let (answer, after) = match size {
                0 => (Ok(0), state(1, 0, 5, &[])),
                1..=3 => (Err(TooShort), stopped(TooShort, 5)),
                _ => (Err(ByteCount), stopped(ByteCount, 5)),
            };
            assert_eq!((end(&mut reader), reader), (answer, after));
        }
    }
}

#[test]
fn a_small_room_is_refused_last() {
    for telegram in GOOD {
        for carried in 0..telegram.len() {
            let before = open(0, &telegram[..carried]);
            let rest = &telegram[carried..];
            for size in 0..telegram.len() {
                let (mut reader, mut at, mut room) = (before, 0, vec![0x5A; size]);
                assert_eq!(next(&mut reader, rest, &mut at, &mut room), Err(Room));
                assert_eq!((reader, at, room), (before, 0, vec![0x5A; size]));
            }
            let (mut reader, mut at, mut room) = (before, 0, vec![0; telegram.len()]);
            assert_eq!(
                next(&mut reader, rest, &mut at, &mut room),
                Ok(telegram.len())
            );
            assert_eq!((at, &room[..]), (rest.len(), telegram));
        }
    }
    for (bytes, refusal, _) in BAD {
        let answer = next(&mut open(0, &[]), bytes, &mut 0, &mut []);
        assert_eq!(answer, Err(refusal));
    }
}

#[test]
fn an_index_behind_the_chunk_stays() {
    for carried in [&[][..], &[0xA0], &GOOD[2][..11]] {
        for index in [1, 2, 300, usize::MAX] {
            let (mut reader, mut at) = (open(0, carried), index);
            assert_eq!(next(&mut reader, &[0xB0], &mut at, &mut []), Ok(0));
            assert_eq!((reader, at), (open(0, carried), index));
        }
    }
}
