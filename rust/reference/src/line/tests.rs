//! What is printed behind lines, and which lines are refused.

use super::*;
use crate::wire::REFERENCE;

/// What is printed for some lines, one behind the other.
fn reports(lines: &[&str]) -> Vec<String> {
    let mut memory = Memory::default();
    let read = lines.iter().map(|line| Line::parse(line).unwrap().unwrap());
    read.map(|line| line.report(&REFERENCE, &mut memory))
        .collect()
}

fn report(line: &str) -> String {
    reports(&[line]).concat()
}

#[test]
fn lines_give_their_results() {
    assert_eq!(report("r 20 A0 00 00 22"), "  0 4 00 00 00 00\n");
    assert_eq!(report("r 20"), "  1\n");
    for letter in ["r", "d", "a"] {
        let line = format!("{letter} 20 A0 00 00 23");
        assert_eq!(report(&line), "  5 22 23\n");
    }
    assert_eq!(report("s A0 00 00"), "  22\n");
    assert_eq!(report("s"), "  00\n");
    let dissected = "  0 6 02 00 05 02 6F 50\n";
    assert_eq!(report("a20A015026F5030"), dissected);
    assert_eq!(report("d 20 A0 00 00 22"), "  0 5 00 00 00 00 00\n");
    let built = "  0 6 A0 25 02 6B 50 7F\n";
    assert_eq!(report("b 06 00000009 00000002 6B 50"), built);
    let built = "  0 6 A0 0D 0D 00 10 5B\n";
    assert_eq!(report("c 20 0000000D 00000001 00000003 0010"), built);
    let built = "  0 10 A0 13 4F 04 FF 00 00 08 FF C3\n";
    let line = "p 0A 00000001 00000004 00000000 000004FF 00000000 000008FF";
    assert_eq!(report(line), built);
    let line = "p 0A 00000001 00000004 00000000 000004FF 00000000 00008000";
    assert_eq!(report(line), "  10\n");
}

#[test]
fn chain_lines_share_their_memory() {
    let lines = [
        "m 00000018 00000001 81 11 22 33",
        "n 00000000 6B 00000002",
        "t 0C A0 04 02 A9",
        "l 12 00000000",
        "w 00000006 00",
        "w 00000006 04 00",
        "t 0C A0 04 02 A9",
        "k 00000001",
        "k 00000000",
    ];
    let record = |bytes: &[u8]| format!("  record {:02X}\n", checksum(bytes));
    let mut bytes = vec![
        0, 1, 0x81, 0x11, 0x22, 0x33, 3, 0xFF, 0x10, 0, 0x11, 0x22, 0x33, 0x81, 0, 0, 0, 0, 0, 0,
        0, 0, 0x5A, 0x5A,
    ];
    let printed = reports(&lines);
    assert_eq!(printed[0], "  0 0\n".to_string() + &record(&bytes));
    bytes[8..10].copy_from_slice(&[0x12, 0x6B]);
    assert_eq!(printed[1], "  0 0\n".to_string() + &record(&bytes));
    bytes[6..9].copy_from_slice(&[0, 1, 0x42]);
    let answer = format!("  0 6 A0 05 02 6B 42 {:02X}\n", {
        checksum(&[0xA0, 0x05, 0x02, 0x6B, 0x42])
    });
    assert_eq!(printed[2], answer + &record(&bytes));
    let fields = "  0 18 00 01 01 00 02 6B 11 22 33 81 00 00 00 00 00 00 00 00\n";
    assert_eq!(printed[3], fields);
    assert_eq!(printed[4], record(&bytes));
    bytes[6..8].copy_from_slice(&[4, 0]);
    assert_eq!(printed[5], record(&bytes));
    assert_eq!(printed[6], "  11\n".to_string() + &record(&bytes));
    assert_eq!(printed[7..], ["  00000016\n", "  00000000\n"]);
}

#[test]
fn writes_end_with_the_lent_bytes() {
    let lines = [
        "w 00000000 01 02",
        "m 00000002 00000001 00 00 00 00",
        "w 00000001 01 02",
        "w FFFFFFFF 01 02",
        "t 0C",
    ];
    let kept = format!("  record {:02X}\n", checksum(&[0x5A, 0x01]));
    let filled = format!("  9\n  record {:02X}\n", checksum(&[0x5A; 2]));
    let refused = format!("  11\n{kept}");
    let wanted = ["  record 00\n", &filled, &kept, &kept, &refused];
    assert_eq!(reports(&lines), wanted);
}

#[test]
fn a_changed_room_is_told() {
    fn careless(_: &[u8], room: &mut [u8]) -> u32 {
        room[0] = 0;
        0x22_05
    }
    let side = Side {
        read: careless,
        ..REFERENCE
    };
    let line = Line::parse("r 01 A0").unwrap().unwrap();
    let printed = line.report(&side, &mut Memory::default());
    assert_eq!(printed, "  5 22 00\n  room changed\n");
}

#[test]
fn comments_are_no_cases() {
    assert_eq!(Line::parse("# captures"), Ok(None));
    assert_eq!(Line::parse(""), Ok(None));
}

#[test]
fn bad_lines_are_refused() {
    for line in ["x 20", "r", "r 2", "r 20 a0", "r 20  A0", "r 21", "b 20 00"] {
        assert!(Line::parse(line).is_err(), "{line}");
    }
    let six = " 00000000".repeat(6);
    assert!(Line::parse(&format!("p 20{six}")).is_ok());
    assert!(Line::parse(&format!("p 20{six} 00")).is_err());
    assert!(Line::parse(&format!("p{six}")).is_err());
    assert!(Line::parse(&format!("s{}", " 00".repeat(40))).is_ok());
    assert!(Line::parse(&format!("s{}", " 00".repeat(41))).is_err());
}

#[test]
fn bad_chain_lines_are_refused() {
    let good = [
        "k 00000001",
        "m 00004000 00000001 00 00 00 00",
        "w 00000000",
        "t 20",
        "n 00000000 00 00000000",
        "l 20 00000000",
    ];
    for line in good {
        assert!(Line::parse(line).is_ok(), "{line}");
        assert!(Line::parse(&line[..line.len() - 3]).is_err(), "{line}");
    }
    for line in [good[0], good[1], good[4], good[5]] {
        assert!(Line::parse(&format!("{line} 00")).is_err(), "{line}");
    }
    assert!(Line::parse("m 00004001 00000001 00 00 00 00").is_err());
    assert!(Line::parse("t 21").is_err());
}

#[test]
fn reader_lines_share_the_memory() {
    let fresh = format!("o {} 5A", "00".repeat(21));
    let lines = [
        &fresh,
        "g 03 00000001 B0 A0 00 00 22",
        "g 04 00000001 B0 A0 00 00 22 A0",
        "g 04 00000005 B0 A0 00 00 22 A0",
        "q",
        "e",
        "e",
        "o 03",
        "q",
    ];
    let record = |bytes: &[u8]| format!("  record {:02X}\n", checksum(bytes));
    let mut bytes = vec![0; 21];
    bytes.push(0x5A);
    let printed = reports(&lines);
    assert_eq!(printed[0], record(&bytes));
    assert_eq!(
        printed[1],
        "  9\n  at 00000001\n".to_string() + &record(&bytes)
    );
    bytes[9] = 4;
    let given = "  0 4 A0 00 00 22\n  at 00000005\n".to_string();
    assert_eq!(printed[2], given + &record(&bytes));
    (bytes[1], bytes[10]) = (1, 0xA0);
    assert_eq!(
        printed[3],
        "  0 0\n  at 00000006\n".to_string() + &record(&bytes)
    );
    assert_eq!(printed[4], "  0000000000000004\n");
    (bytes[0], bytes[1], bytes[10]) = (2, 1, 0);
    assert_eq!(printed[5], "  1\n".to_string() + &record(&bytes));
    assert_eq!(printed[6], printed[5]);
    assert_eq!(printed[7], record(&[3]));
    assert_eq!(printed[8], "  0000000000000000\n");
}

#[test]
fn wrong_checksums_are_printed_by_deliveries_and_readers() {
    let lines = [
        "m 00000016 00000001 81 11 22 33",
        "t 0C A0 00 00 23",
        "o 000000000000000000000000000000000000000000",
        "g 0C 00000000 A0 00 00 23",
        "e",
    ];
    let printed = reports(&lines);
    assert!(printed[1].starts_with("  5 22 23\n  record "));
    let mut state = [0; 21];
    (state[0], state[1]) = (2, 5);
    (state[10], state[11]) = (0x22, 0x23);
    let record = format!("  record {:02X}\n", checksum(&state));
    assert_eq!(printed[3], format!("  5 22 23\n  at 00000000\n{record}"));
    assert_eq!(printed[4], format!("  5 22 23\n{record}"));
}

#[test]
fn bad_reader_lines_are_refused() {
    for line in ["o", "o 00", "g 20 FFFFFFFF", "g 00 00000000 A0", "e", "q"] {
        assert!(Line::parse(line).is_ok(), "{line}");
    }
    for line in ["g", "g 20", "g 20 000000", "g 21 00000000", "e 00", "q 00"] {
        assert!(Line::parse(line).is_err(), "{line}");
    }
}
