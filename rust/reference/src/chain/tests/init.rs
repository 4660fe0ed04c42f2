//! The two inits.

use super::*;
use crate::wire::sense;

#[test]
fn nine_fresh_lamps_answer_the_papers_init() {
    let mut record = made(9);
    assert_eq!(sense(&mut record, 8, 0x6B, 0), 0);
    let wanted = vec![0xA0, 0x25, 0x02, 0x6B, 0x40, 0xD1];
    assert_eq!(give(&mut record, &[0xA0, 0x04, 0x02, 0xA9]), Ok(wanted));
    for place in 0..9 {
        assert_eq!(
            bytes(&record, place)[..3],
            [0, place as u8 + 1, 0x40],
            "{place}"
        );
    }
}

#[test]
fn inits_stop_before_3f0() {
    assert!(order(&mut made(1), 0x3EF, 2, &[]).is_ok());
    assert_eq!(order(&mut made(2), 0x3EF, 3, &[]), Err(12));
    assert!(order(&mut made(2), 0x3EE, 3, &[]).is_ok());
    assert!(order(&mut made(1007), 1, 2, &[]).is_ok());
    assert_eq!(order(&mut made(1007), 2, 2, &[]), Err(12));
}

#[test]
fn inits_change_only_address_state_and_direction() {
    let mut record = numbered(3);
    for place in 0..3 {
        let start = slot(place) + 2;
        let kept = [0xEF, 9, 8, 7, 6, 5, 4, 3, 2, 1, 0, 1, 2, 3];
        record[start..start + 14].copy_from_slice(&kept);
    }
    for (command, wanted) in [(2, 0x6F), (3, 0x7F)] {
        let reply = order(&mut record, 0x100, command, &[]);
        assert_eq!(reply, answer(0x102, command, &[9, wanted]));
        for place in 0..3 {
            let kept = [9, 8, 7, 6, 5, 4, 3, 2, 1, 0, 1, 2, 3];
            assert_eq!(bytes(&record, place)[..3], [1, place as u8, wanted]);
            assert_eq!(bytes(&record, place)[3..], kept);
        }
    }
}

#[test]
fn init_at_000_needs_every_lamp_numbered() {
    let mut record = made(3);
    assert_eq!(order(&mut record, 0, 2, &[]), Err(7));
    assert_eq!(order(&mut record, 0, 3, &[]), Err(7));
    order(&mut record, 7, 3, &[]).unwrap();
    let before = record.clone();
    assert_eq!(order(&mut record, 0, 3, &[]), answer(0, 3, &[0, 0x50]));
    assert_eq!(record, before);
    assert_eq!(order(&mut record, 0, 2, &[]), answer(0, 2, &[0, 0x58]));
    assert_eq!([0, 1, 2].map(|place| status(&record, place)), [0x58; 3]);
    order(&mut record, 8, 0, &[]).unwrap();
    assert_eq!(order(&mut record, 0, 2, &[]), Err(7));
}

#[test]
fn init_at_000_with_a_payload_is_given_8() {
    assert_eq!(order(&mut made(2), 0, 2, &[1, 2]), Err(8));
    assert_eq!(order(&mut numbered(2), 0, 2, &[1, 2]), Err(8));
}
