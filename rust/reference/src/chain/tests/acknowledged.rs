//! The acknowledged commands.

use super::*;
use crate::wire::sense;

/// The seven, each with a payload.
const ACKNOWLEDGED: [(u32, &[u8]); 7] = [
    (0x24, &[]),
    (0x25, &[]),
    (0x26, &[]),
    (0x2D, &[0xA5, 0x5A]),
    (0x6B, &[0x91, 0x92, 0x93]),
    (0x6D, &[0x94]),
    (0x6F, &[0x81, 0x82, 0x03, 0x04, 0x85, 0x86]),
];

#[test]
fn goactive_answers_the_state_that_it_sets() {
    let mut record = made(1);
    order(&mut record, 1, 0x03, &[]).unwrap();
    assert_eq!(status(&record, 0), 0x50);
    let wanted = vec![0xA0, 0x05, 0x25, 0x00, 0x90, 0x1C];
    assert_eq!(give(&mut record, &[0xA0, 0x04, 0x25, 0x17]), Ok(wanted));
    assert_eq!(status(&record, 0), 0x90);
}

#[test]
fn the_effect_is_that_of_the_plain_form() {
    for (command, payload) in ACKNOWLEDGED {
        for status in 0..=255 {
            let mut record = full(0);
            record[slot(0) + 2] = status;
            let mut plain = record.clone();
            assert_eq!(order(&mut plain, 1, command & !0x20, payload), SILENT);
            let reply = order(&mut record, 1, command, payload);
            assert_eq!(record, plain, "{command:02X}");
            let after = record[slot(0) + 2];
            match status >> 6 {
                0 => assert_eq!(reply, SILENT),
                _ => assert_eq!(reply, answer(1, command, &[0x6B, after])),
            }
        }
    }
}

#[test]
fn no_flag_is_cleared() {
    for (command, payload) in ACKNOWLEDGED {
        let mut record = full(1);
        let state = match command {
            0x25 => 0x80,
            0x26 => 0xC0,
            _ => 0x40,
        };
        for _ in 0..2 {
            let reply = order(&mut record, 1, command, payload);
            assert_eq!(reply, answer(1, command, &[0x6B, state | 0x2F]));
        }
        let reply = order(&mut record, 1, 0x40, &[]);
        assert_eq!(reply, answer(1, 0x40, &[state | 0x2F]));
        let reply = order(&mut record, 1, command, payload);
        assert_eq!(reply, answer(1, command, &[0x6B, state]));
    }
}

#[test]
fn it_ends_at_the_first_lamp_with_the_address() {
    for (command, payload) in ACKNOWLEDGED {
        let mut record = numbered(3);
        record[slot(1) + 1] = 3;
        assert_eq!(sense(&mut record, 1, 0x33, 5), 0);
        let last = bytes(&record, 2);
        let reply = order(&mut record, 3, command, payload);
        assert_eq!(
            reply,
            answer(3, command, &[0x33, bytes(&record, 1)[2]]),
            "{command:02X}"
        );
        assert_eq!(bytes(&record, 2), last);
        record[slot(1) + 2] = 0x15;
        let before = record.clone();
        assert_eq!(order(&mut record, 3, command, payload), SILENT);
        assert_eq!(record, before);
    }
}

#[test]
fn nobody_does_not_answer() {
    for (command, payload) in ACKNOWLEDGED {
        let mut record = numbered(3);
        let before = record.clone();
        assert_eq!(order(&mut record, 4, command, payload), SILENT);
        assert_eq!(order(&mut record, 0x3EF, command, payload), SILENT);
        assert_eq!(record, before);
    }
}

#[test]
fn other_casts_and_sizes_are_refused() {
    for (command, payload) in ACKNOWLEDGED {
        let mut record = numbered(2);
        for address in [0, 0x3F0, 0x3FE, 0x3FF] {
            assert_eq!(order(&mut record, address, command, payload), Err(7));
            assert_eq!(order(&mut record, address, command, &[0; 8]), Err(7));
        }
        for size in [0, 1, 2, 3, 4, 6, 8] {
            let reply = order(&mut record, 1, command, &[0; 8][..size]);
            assert_eq!(reply.is_ok(), size == payload.len());
            assert!(reply.is_ok() || reply == Err(8));
        }
    }
}

#[test]
fn every_other_number_with_bit_5_is_unknown() {
    let known = ACKNOWLEDGED.map(|(command, _)| command);
    for command in (0..128).filter(|command| command & 0x20 != 0) {
        if !known.contains(&command) {
            for size in [0, 1, 2, 3, 4, 6, 8] {
                let reply = order(&mut numbered(1), 1, command, &[0; 8][..size]);
                assert_eq!(reply, Err(6), "{command:02X}");
            }
        }
    }
}
