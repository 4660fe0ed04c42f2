//! The other deliveries: which lamps they reach, what they do, and their refusals.

use super::*;

#[test]
fn unicast_ends_at_the_first_lamp_with_the_address() {
    let mut record = numbered(3);
    record[slot(1) + 1] = 3;
    order(&mut record, 3, 0x4D, &[0x77]).unwrap();
    assert_eq!(
        [0, 1, 2].map(|place| record[slot(place) + 7]),
        [0x81, 0x77, 0x81]
    );
    record[slot(1) + 2] = 0x10;
    let before = record.clone();
    assert_eq!(order(&mut record, 3, 0x4D, &[0x66]), SILENT);
    assert_eq!(order(&mut record, 3, 0x40, &[]), SILENT);
    assert_eq!(record, before);
    order(&mut record, 3, 0x00, &[]).unwrap();
    assert_eq!(order(&mut record, 3, 0x40, &[]), answer(3, 0x40, &[0x40]));
}

#[test]
fn unicast_to_nobody_is_done_without_an_answer() {
    let mut record = numbered(3);
    let before = record.clone();
    for (command, payload) in [(0x00, 0), (0x05, 0), (0x40, 0), (0x4F, 6), (0x0D, 2)] {
        assert_eq!(
            order(&mut record, 4, command, &[0x99; 6][..payload]),
            SILENT
        );
    }
    assert_eq!(record, before);
}

/// Every command that is no init, with a payload.
const COMMANDS: [(u32, &[u8]); 24] = [
    (0x00, &[]),
    (0x01, &[]),
    (0x04, &[]),
    (0x05, &[]),
    (0x06, &[]),
    (0x07, &[]),
    (0x0C, &[]),
    (0x0D, &[0xA5, 0x5A]),
    (0x24, &[]),
    (0x25, &[]),
    (0x26, &[]),
    (0x2D, &[0xA5, 0x5A]),
    (0x40, &[]),
    (0x42, &[]),
    (0x48, &[]),
    (0x4A, &[]),
    (0x4B, &[0x91, 0x92, 0x93]),
    (0x4C, &[]),
    (0x4D, &[0x94]),
    (0x4E, &[]),
    (0x4F, &[0x81, 0x82, 0x03, 0x04, 0x85, 0x86]),
    (0x6B, &[0x91, 0x92, 0x93]),
    (0x6D, &[0x94]),
    (0x6F, &[0x81, 0x82, 0x03, 0x04, 0x85, 0x86]),
];

#[test]
fn uninitialized_lamps_obey_only_reset_clrerror_and_init() {
    for (command, payload) in COMMANDS {
        let mut record = numbered(1);
        record[slot(0) + 2] = 0x2F;
        record[slot(0) + 8] = 0x40;
        let before = record.clone();
        for address in [1, 0, 0x3FE] {
            let reply = order(&mut record, address, command, payload);
            assert!(reply == SILENT || reply == Err(7));
        }
        let wanted = match command {
            0x00 => 0x10,
            0x01 => 0x00,
            _ => 0x2F,
        };
        assert_eq!(status(&record, 0), wanted);
        assert_eq!(record == before, command > 1);
    }
    let mut record = made(1);
    assert!(order(&mut record, 5, 2, &[]).is_ok());
}

#[test]
fn reads_answer_with_the_register() {
    for state in 1..=3 {
        let status = state << 6 | 0x2F;
        let answers: [(u32, &[u8]); 8] = [
            (0x07, &[0, 0, 0, 0]),
            (0x0C, &[0x80, 0x01]),
            (0x40, &[status]),
            (0x42, &[0x6B, status]),
            (0x48, &[0x6B]),
            (0x4A, &[0x41, 0x42, 0x43]),
            (0x4C, &[0x44]),
            (0x4E, &[0x51, 0x52, 0x53, 0x54, 0x55, 0x56]),
        ];
        for (command, bytes) in answers {
            let mut record = full(state);
            let mut wanted = record.clone();
            assert_eq!(
                order(&mut record, 1, command, &[]),
                answer(1, command, bytes)
            );
            if matches!(command, 0x40 | 0x42) {
                wanted[slot(0) + 2] = state << 6;
            }
            assert_eq!(record, wanted, "{command:02X}");
        }
    }
}

#[test]
fn sets_store_and_go_moves() {
    for state in 1..=3 {
        let stored: [(u32, &[u8], usize, &[u8]); 7] = [
            (0x04, &[], 2, &[0x6F]),
            (0x05, &[], 2, &[0xAF]),
            (0x06, &[], 2, &[0xEF]),
            (0x0D, &[0xFF, 0xFE], 8, &[0xFF, 0xFE]),
            (0x4B, &[1, 2, 3], 4, &[1, 2, 3]),
            (0x4D, &[4], 7, &[4]),
            (0x4F, &[5, 6, 7, 8, 0x89, 10], 10, &[5, 6, 7, 8, 0x89, 10]),
        ];
        for (command, payload, at, bytes) in stored {
            for address in [1, 0, 0x3F0] {
                let mut record = full(state);
                let mut wanted = record.clone();
                let start = slot(0) + at;
                wanted[start..start + bytes.len()].copy_from_slice(bytes);
                assert_eq!(order(&mut record, address, command, payload), SILENT);
                assert_eq!(record, wanted, "{command:02X} to {address:03X}");
            }
        }
    }
}

#[test]
fn reset_keeps_the_temperature_alone() {
    for state in 0..=3 {
        let mut record = full(state);
        assert_eq!(order(&mut record, 1, 0, &[]), SILENT);
        let wanted = [
            3, 0xFF, 0x10, 0x6B, 0x11, 0x22, 0x33, 0x81, 0, 0, 0, 0, 0, 0, 0, 0,
        ];
        assert_eq!(bytes(&record, 0), wanted);
        assert_eq!(order(&mut record, 1, 0x40, &[]), SILENT);
    }
}

#[test]
fn clrerror_clears_the_five_flags() {
    for status in 0..=255 {
        let mut record = full(0);
        record[slot(0) + 2] = status;
        order(&mut record, 0, 1, &[]).unwrap();
        assert_eq!(record[slot(0) + 2], status & 0xD0);
    }
}

#[test]
fn groups_take_their_members() {
    for group in 0..15 {
        let mut record = numbered(17);
        for place in 0..16 {
            let word = (1u16 << place).to_be_bytes();
            record[slot(place) + 8..slot(place) + 10].copy_from_slice(&word);
        }
        assert_eq!(order(&mut record, 0x3F0 + group, 5, &[]), SILENT);
        for place in 0..17 {
            let taken = place == group as usize;
            assert_eq!(status(&record, place), if taken { 0x80 } else { 0x40 });
        }
    }
}

/// The value of 5, with the checksum worked out and the one received.
fn wrong(computed: u8, received: u8) -> u32 {
    packed(Err(Refusal::Checksum { computed, received }))
}

#[test]
fn wrong_checksums_are_told_and_noted_by_place_0_alone() {
    for mut record in [made(3), numbered(3)] {
        let mut wanted = record.clone();
        wanted[slot(0) + 2] |= 8;
        for received in (0..=255).filter(|&received| received != 0x22) {
            let given = give(&mut record, &[0xA0, 0x00, 0x00, received]);
            assert_eq!(given, Err(wrong(0x22, received)));
            assert_eq!(record, wanted);
        }
    }
    let mut record = numbered(2);
    give(&mut record, &[0xA0, 0x00, 0x00, 0x23]).unwrap_err();
    assert_eq!(order(&mut record, 1, 0x40, &[]), answer(1, 0x40, &[0x48]));
    assert_eq!(order(&mut record, 1, 0x40, &[]), answer(1, 0x40, &[0x40]));
}

#[test]
fn deliveries_refuse_in_order() {
    let bad = [0xB0];
    let cases: [(&[u8], u32); 8] = [
        (&[0xA0, 0x00, 0x00], 1),
        (&[0xB0, 0x02, 0x80, 0x00], 2),
        (&[0xA0, 0x02, 0x80, 0x00], 3),
        (&[0xA0, 0x00, 0x00, 0x22, 0x00], 4),
        (&[0xA0, 0x00, 0x08, 0x00], wrong(0x75, 0x00)),
        (&telegram(0x3FF, 0x08, &[1]), 6),
        (&telegram(0x3FF, 0x00, &[1]), 7),
        (&telegram(0x3EF, 0x02, &[1]), 8),
    ];
    for (bytes, refusal) in cases {
        let mut record = made(2);
        assert_eq!(deliver(&mut record, bytes, &mut [FILL; 12]), refusal);
        assert_eq!(deliver(&mut record, bytes, &mut [FILL; 11]), 9);
        record[1] = 0;
        assert_eq!(deliver(&mut record, bytes, &mut [FILL; 11]), 9);
        assert_eq!(deliver(&mut record, bytes, &mut [FILL; 12]), 11);
    }
    assert_eq!(deliver(&mut [], &bad, &mut []), 9);
    assert_eq!(deliver(&mut [], &bad, &mut [FILL; 12]), 11);
}

#[test]
fn bytes_behind_the_record_stay() {
    for (command, payload) in COMMANDS {
        for address in [0, 1, 2, 0x3F1] {
            let mut record = numbered(2);
            let _ = order(&mut record, address, command, payload);
            assert_eq!(record[slot(2)..], [FILL; 3]);
        }
    }
}
