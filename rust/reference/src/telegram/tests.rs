//! The captures of the paper, the checksum and the ranges of the fields.

use super::*;
use std::collections::HashSet;

/// The captures of the paper that are good telegrams.
const GOOD: [&[u8]; 7] = [
    &[0xA0, 0x00, 0x00, 0x22],
    &[0xA0, 0x00, 0x01, 0x0D],
    &[0xA0, 0x00, 0x05, 0xB1],
    &[0xA0, 0x04, 0x02, 0xA9],
    &[0xA0, 0x15, 0x02, 0x6F, 0x50, 0x30],
    &[0xA0, 0x25, 0x02, 0x6B, 0x50, 0x7F],
    &[
        0xA0, 0x07, 0xCF, 0x00, 0xFF, 0x00, 0x00, 0x11, 0x11, 0x00, 0x00, 0x49,
    ],
];

/// Long division of the message, eight zero bits behind it, by the nine
/// coefficients of the polynomial.
fn long_division(bytes: &[u8]) -> u8 {
    let mut bits: Vec<u8> = Vec::new();
    for byte in bytes.iter().chain(&[0]) {
        bits.extend((0..8).rev().map(|bit| byte >> bit & 1));
    }
    for at in 0..8 * bytes.len() {
        if bits[at] == 1 {
            for (step, part) in [1, 0, 0, 1, 0, 1, 1, 1, 1].iter().enumerate() {
                bits[at + step] ^= part;
            }
        }
    }
    let rest = &bits[8 * bytes.len()..];
    rest.iter().fold(0, |sum, bit| sum << 1 | bit)
}

#[test]
fn checksum_is_the_remainder_of_long_division() {
    let mut bytes = Vec::new();
    assert_eq!(checksum(&bytes), 0);
    for step in 0..200u32 {
        bytes.push((step * 167 + 13) as u8);
        assert_eq!(checksum(&bytes), long_division(&bytes));
    }
}

#[test]
fn indices_and_sizes_go_both_ways() {
    for index in 0..8 {
        let back = size_of_index(index).and_then(index_of_size);
        assert_eq!(back, Some(index).filter(|&index| index != 5));
    }
    for size in 0..300 {
        let back = index_of_size(size).and_then(size_of_index);
        let listed = matches!(size, 0..=4 | 6 | 8);
        assert_eq!(back, listed.then_some(size));
    }
}

#[test]
fn captures_read_and_build_back() {
    for bytes in GOOD {
        let telegram = Telegram::parse(bytes).unwrap();
        let mut room = [0x5A; LONGEST + 1];
        assert_eq!(telegram.write(&mut room), Ok(bytes.len()));
        assert_eq!(&room[..bytes.len()], bytes);
        assert!(room[bytes.len()..].iter().all(|&byte| byte == 0x5A));
    }
}

#[test]
fn captures_have_the_papers_fields() {
    let answer = Telegram::parse(GOOD[4]).unwrap();
    assert_eq!((answer.address(), answer.command()), (5, 2));
    assert_eq!(answer.payload(), [0x6F, 0x50]);
    let long = Telegram::parse(GOOD[6]).unwrap();
    assert_eq!((long.address(), long.command()), (1, 0x4F));
    assert_eq!(long.payload().len(), 8);
}

/// 5 with the checksum worked out and the one received.
fn wrong(computed: u8, received: u8) -> Refusal {
    Refusal::Checksum { computed, received }
}

#[test]
fn bad_telegrams_give_the_papers_numbers() {
    let cases: [(&[u8], Refusal); 6] = [
        (&[0xA0, 0x00, 0x00, 0x23], wrong(0x22, 0x23)),
        (&[0xA0, 0x00, 0x00], Refusal::TooShort),
        (&[0xB0, 0x00, 0x00, 0x22], Refusal::Preamble),
        (&[0xA0, 0x02, 0x80, 0x00], Refusal::SizeIndex),
        (&[0xA0, 0x00, 0x00, 0x22, 0x00], Refusal::ByteCount),
        (&[], Refusal::TooShort),
    ];
    for (bytes, refusal) in cases {
        assert_eq!(Telegram::parse(bytes), Err(refusal));
    }
}

#[test]
fn a_wrong_checksum_tells_both() {
    for bytes in GOOD {
        let (&right, body) = bytes.split_last().unwrap();
        for received in 0..=255 {
            let telegram = [body, &[received]].concat();
            let read = Telegram::parse(&telegram).map(|_| ());
            let wanted = match received == right {
                true => Ok(()),
                false => Err(wrong(right, received)),
            };
            assert_eq!(read, wanted);
        }
    }
}

#[test]
fn every_two_checksums_that_differ_are_told() {
    let mut told = HashSet::new();
    for byte in 0..=255 {
        for received in 0..=255 {
            if let Err(refusal) = Telegram::parse(&[0xA0, 0x04, 0xCD, byte, received]) {
                told.insert(refusal.checksums().unwrap());
            }
        }
    }
    assert_eq!(told.len(), 256 * 255);
    assert!(told.iter().all(|[computed, received]| computed != received));
}

#[test]
fn header_bytes_follow_the_papers_sums() {
    for (address, command, size) in [(0, 0, 0), (1023, 127, 8), (675, 79, 6), (64, 1, 3)] {
        let payload = vec![0; size];
        let mut room = [0; LONGEST];
        let telegram = Telegram::new(address, command, &payload).unwrap();
        telegram.write(&mut room).unwrap();
        let index = if size == 8 { 7 } else { size as u32 };
        assert_eq!(u32::from(room[0]), 160 + address / 64);
        assert_eq!(u32::from(room[1]), address % 64 * 4 + index / 2);
        assert_eq!(u32::from(room[2]), index % 2 * 128 + command);
    }
}

#[test]
fn builder_keeps_to_its_ranges() {
    assert!(Telegram::new(1023, 127, &[]).is_ok());
    assert_eq!(Telegram::new(1024, 0, &[]), Err(Refusal::Range));
    assert_eq!(Telegram::new(0, 128, &[]), Err(Refusal::Range));
    for size in 0..=12 {
        let listed = matches!(size, 0..=4 | 6 | 8);
        let payload = vec![0; size];
        assert_eq!(Telegram::new(1, 1, &payload).is_ok(), listed);
    }
}

#[test]
fn short_room_is_refused_and_kept() {
    let telegram = Telegram::parse(GOOD[4]).unwrap();
    let mut room = [0x5A; 5];
    assert_eq!(telegram.write(&mut room), Err(Refusal::Room));
    assert_eq!(room, [0x5A; 5]);
}
