//! Making a record, opening it, reporting to it and reading a lamp out.

use super::*;
use crate::wire::{lamp, sense};

#[test]
fn lengths_follow_from_the_count() {
    assert_eq!([0, 1008, 0x1_0001, u32::MAX].map(record_len), [0; 4]);
    assert_eq!([1, 2, 1007].map(record_len), [22, 38, 16_118]);
}

#[test]
fn made_chains_have_fresh_lamps() {
    let record = made(2);
    assert_eq!(record[..6], [0, 2, 0x81, 0x11, 0x22, 0x33]);
    let fresh = [
        3, 0xFF, 0x10, 0, 0x11, 0x22, 0x33, 0x81, 0, 0, 0, 0, 0, 0, 0, 0,
    ];
    assert_eq!([bytes(&record, 0), bytes(&record, 1)], [fresh; 2]);
    assert_eq!(record[slot(2)..], [FILL; 3]);
}

#[test]
fn making_refuses_the_count_before_the_room() {
    for (length, count, wanted) in [
        (0, 0, 11),
        (40_000, 1008, 11),
        (40_000, 0x1_0001, 11),
        (21, 1, 9),
        (22, 1, 0),
        (16_117, 1007, 9),
        (16_118, 1007, 0),
    ] {
        let mut record = vec![FILL; length];
        assert_eq!(make(&mut record, count, 1, 2, 3, 4), wanted);
        assert_eq!(
            record.iter().all(|&byte| byte == FILL),
            wanted != 0,
            "{count}"
        );
    }
}

#[test]
fn sensor_reports_store_and_set() {
    for faults in 0..=7 {
        let mut record = made(2);
        record[slot(1) + 2] = 0x28;
        let mut wanted = record.clone();
        wanted[slot(1) + 2] = 0x28 | faults as u8;
        wanted[slot(1) + 3] = 0x99;
        assert_eq!(sense(&mut record, 1, 0x99, faults), 0);
        assert_eq!(record, wanted);
        wanted[slot(1) + 3] = 0x98;
        assert_eq!(sense(&mut record, 1, 0x98, 0), 0);
        assert_eq!(record, wanted);
    }
}

#[test]
fn sensor_reports_refuse_in_order() {
    let mut record = made(2);
    let before = record.clone();
    assert_eq!(sense(&mut record, 1, 1, 8), 10);
    assert_eq!(sense(&mut record, 1, 1, 256), 10);
    assert_eq!(sense(&mut record, 2, 1, 8), 13);
    assert_eq!(sense(&mut record, 0x1_0000, 1, 0), 13);
    assert_eq!(record, before);
    record[slot(0)] = 4;
    assert_eq!(sense(&mut record, 2, 1, 8), 11);
}

#[test]
fn lamps_are_read_out_field_by_field() {
    let record = full(2);
    let mut room = [FILL; 20];
    assert_eq!(lamp(&record, 0, &mut room), 18 * 256);
    let wanted = [
        0, 1, 2, 0, 0x2F, 0x6B, 0x41, 0x42, 0x43, 0x44, 0x80, 0x01, 0x51, 0x52, 0x53, 0x54, 0x55,
        0x56, FILL, FILL,
    ];
    assert_eq!(room, wanted);
    assert_eq!(lamp(&made(1), 0, &mut room), 18 * 256);
    assert_eq!(room[..5], [3, 0xFF, 0, 1, 0]);
}

#[test]
fn reading_out_refuses_in_order() {
    let mut record = made(2);
    assert_eq!(lamp(&record, 1, &mut [FILL; 18]), 18 * 256);
    assert_eq!(lamp(&record, 1, &mut [FILL; 17]), 9);
    assert_eq!(lamp(&record, 2, &mut []), 13);
    record[0] = 4;
    assert_eq!(lamp(&record, 2, &mut []), 11);
}

/// Whether memory is taken for a chain, by each function that opens one.
fn opens(record: &[u8]) -> bool {
    let mut copy = record.to_vec();
    let delivered = deliver(&mut copy, &[], &mut [FILL; 12]);
    let sensed = sense(&mut copy, u32::MAX, 0, 0);
    let read = lamp(&copy, u32::MAX, &mut []);
    assert_eq!(copy, record);
    let numbers = [delivered, sensed, read];
    assert!(numbers == [1, 13, 13] || numbers == [11; 3]);
    numbers[0] == 1
}

#[test]
fn only_valid_records_open() {
    let record = made(3);
    let length = slot(3);
    for end in 0..=record.len() {
        assert_eq!(opens(&record[..end]), end >= length);
    }
    for count in 0..=0xFFFF_u16 {
        let mut record = record.clone();
        record[..2].copy_from_slice(&count.to_be_bytes());
        assert_eq!(opens(&record), (1..=3).contains(&count));
    }
    for address in 0..=0xFFFF_u16 {
        let mut record = record.clone();
        let last = slot(2);
        record[last..last + 2].copy_from_slice(&address.to_be_bytes());
        let wanted = matches!(address, 1..=0x3EF | 0x3FF);
        assert_eq!(opens(&record), wanted);
    }
}

#[test]
fn counts_end_at_1007() {
    let mut record = vec![FILL; 20_000];
    assert_eq!(make(&mut record, 1007, 0, 0, 0, 0), 0);
    assert!(opens(&record));
    record[slot(1007)] = 3;
    record[slot(1007) + 1] = 0xFF;
    record[..2].copy_from_slice(&1008_u16.to_be_bytes());
    assert!(!opens(&record));
}
