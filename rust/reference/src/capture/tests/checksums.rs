//! Request 03 in a reader: it stops with both checksums, keeps them and repeats them.

use super::states::is_taken;
use super::*;
use crate::telegram::checksum;

/// Every two checksums, equal ones too: the one worked out, and the one received.
fn pairs() -> impl Iterator<Item = [u8; 2]> {
    (0..=255).flat_map(|computed| (0..=255).map(move |received| [computed, received]))
}

/// A telegram that has this checksum and is received with another.
fn damaged([computed, received]: [u8; 2]) -> [u8; 5] {
    let head = [0xA0, 0x04, 0xCD];
    let byte = (0..=255).find(|&byte| checksum(&[&head[..], &[byte]].concat()) == computed);
    [head[0], head[1], head[2], byte.unwrap(), received]
}

#[test]
fn every_two_checksums_that_differ_stop_a_reader() {
    for pair in pairs().filter(|[computed, received]| computed != received) {
        let [computed, received] = pair;
        let refusal = Refusal::Checksum { computed, received };
        let bytes = damaged(pair);
        let (mut reader, mut at) = (open(7, &bytes[..3]), 0);
        assert_eq!(
            next(&mut reader, &bytes[3..], &mut at, &mut []),
            Err(refusal)
        );
        assert_eq!((reader, at), (state(2, 5, 7, &pair), 0));
        assert_eq!(next(&mut reader, GOOD[0], &mut at, &mut []), Err(refusal));
        assert_eq!(end(&mut reader), Err(refusal));
        assert_eq!(
            (reader, at, position(&reader)),
            (state(2, 5, 7, &pair), 0, 7)
        );
        assert_eq!(read(&bytes, 7, true).stand, Stand::Stopped(refusal));
    }
}

#[test]
fn two_equal_checksums_are_left_by_no_reading() {
    for pair in pairs() {
        let [computed, received] = pair;
        assert_eq!(is_taken(&state(2, 5, 3, &pair)), computed != received);
    }
}

#[test]
fn nothing_stands_behind_the_two_checksums() {
    let good = stopped(WRONG, 3);
    assert!(is_taken(&good));
    for at in 12..LENGTH {
        for byte in 1..=255 {
            let mut bad = good;
            bad[at] = byte;
            assert!(!is_taken(&bad));
        }
    }
}

#[test]
fn the_other_stops_keep_no_checksum() {
    for refusal in [TooShort, Preamble, SizeIndex, ByteCount] {
        for at in 10..LENGTH {
            let mut bad = stopped(refusal, 3);
            assert!(is_taken(&bad));
            bad[at] = 0x22;
            assert!(!is_taken(&bad));
        }
    }
    assert!(!is_taken(&state(1, 0, 3, &[0x22, 0x23])));
}
