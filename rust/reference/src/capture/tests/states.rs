//! Which memory is the state of a reader.

use super::*;

/// Whether all three calls take memory for a state.
pub(super) fn is_taken(memory: &[u8]) -> bool {
    let (mut read, mut ended) = (memory.to_vec(), memory.to_vec());
    let refused = next(&mut read, &[], &mut 0, &mut []) == Err(Refusal::Chain);
    assert_eq!(end(&mut ended) == Err(Refusal::Chain), refused);
    if refused {
        assert_eq!(
            (&read[..], &ended[..], position(memory)),
            (memory, memory, 0)
        );
    }
    !refused
}

#[test]
fn what_no_reading_leaves_is_refused() {
    for phase in 0..=255 {
        for number in 0..=255 {
            let taken = matches!((phase, number), (0 | 1, 0) | (2, 1..=4));
            assert_eq!(is_taken(&state(phase, number, 3, &[])), taken);
        }
    }
    for telegram in GOOD {
        for size in 1..telegram.len() {
            let good = open(0, &telegram[..size]);
            assert!(is_taken(&good));
            for at in 10 + size..LENGTH {
                let mut bad = good;
                bad[at] = 1;
                assert!(!is_taken(&bad));
            }
            for phase in [1, 2] {
                assert!(!is_taken(&state(phase, phase - 1, 0, &telegram[..size])));
            }
        }
        if telegram.len() < LONGEST {
            assert!(!is_taken(&open(0, telegram)));
        }
    }
    for (bytes, _, deciding) in BAD {
        for size in 1..=bytes.len() {
            assert_eq!(is_taken(&open(0, &bytes[..size])), size < deciding);
        }
    }
    assert!(!is_taken(&state(0, 12, 0, &GOOD[2][..11])));
}

#[test]
fn a_state_has_21_bytes() {
    for size in 0..LENGTH {
        assert!(!is_taken(&vec![0; size]));
    }
    let mut longer = [&open(0, &[])[..], &[0x5A; 5]].concat();
    assert!(is_taken(&longer));
    assert_eq!(next(&mut longer, &[0xA0], &mut 0, &mut []), Ok(0));
    assert_eq!(longer, [&open(0, &[0xA0])[..], &[0x5A; 5]].concat());
}
