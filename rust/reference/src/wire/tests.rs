//! The layouts of the interface, and the order of its refusals.

use super::*;

const FILL: u8 = 0x5A;

/// The bytes that a call wrote, or the value with its refusal; the rest of the
/// room must have stayed.
fn outcome(size: usize, call: impl Fn(&mut [u8]) -> u32) -> Result<Vec<u8>, u32> {
    let mut room = vec![FILL; size];
    let value = call(&mut room);
    let count = count(value);
    assert!(room[count..].iter().all(|&byte| byte == FILL));
    room.truncate(count);
    match number(value) {
        0 => Ok(room),
        _ => Err(value),
    }
}

#[test]
fn results_have_the_layout_of_the_interface() {
    let bytes = [0xA0, 0x15, 0x02, 0x6F, 0x50, 0x30];
    let wanted = Ok(vec![0, 5, 2, 2, 0x6F, 0x50]);
    assert_eq!(outcome(9, |room| read(&bytes, room)), wanted);
    let wanted = Ok(vec![2, 0, 5, 2, 0x6F, 0x50]);
    assert_eq!(outcome(9, |room| dissect_answer(&bytes, room)), wanted);
    let bytes = [0xA0, 0x0D, 0x0D, 0x00, 0x10, 0x5B];
    let wanted = Ok(vec![0x0D, 1, 0, 3, 2, 0x00, 0x10]);
    assert_eq!(outcome(9, |room| dissect(&bytes, room)), wanted);
}

#[test]
fn only_0_and_5_have_something_above_their_number() {
    let others = [
        Refusal::TooShort,
        Refusal::Preamble,
        Refusal::SizeIndex,
        Refusal::ByteCount,
        Refusal::Unknown,
        Refusal::Cast,
        Refusal::PayloadSize,
        Refusal::Room,
        Refusal::Range,
        Refusal::Chain,
        Refusal::PastEnd,
        Refusal::Place,
    ];
    for (refusal, wanted) in others.into_iter().zip((1..=4).chain(6..)) {
        let value = packed(Err(refusal));
        assert_eq!((value, number(value), count(value)), (wanted, wanted, 0));
        assert_eq!((refusal.checksums(), checksums(value)), (None, None));
    }
    let value = packed(Ok(12));
    assert_eq!((value, number(value), count(value)), (0x0C00, 0, 12));
    assert_eq!(checksums(value), None);
    let (computed, received) = (0x22, 0x23);
    let value = packed(Err(Refusal::Checksum { computed, received }));
    assert_eq!((value, number(value), count(value)), (WRONG, 5, 0));
    assert_eq!(checksums(value), Some([0x22, 0x23]));
}

/// What is returned for A0 00 00 23: the number, the checksum worked out and the one
/// received, from the lowest byte on.
const WRONG: u32 = 0x23_22_05;

#[test]
fn every_function_that_reads_tells_both_checksums() {
    let bytes = [0xA0, 0x00, 0x00, 0x23];
    for size in [0, 12] {
        assert_eq!(outcome(size, |room| read(&bytes, room)), Err(WRONG));
        assert_eq!(outcome(size, |room| dissect(&bytes, room)), Err(WRONG));
        let answer = outcome(size, |room| dissect_answer(&bytes, room));
        assert_eq!(answer, Err(WRONG));
    }
    let mut record = vec![0; record_len(2) as usize];
    assert_eq!(make(&mut record, 2, 0x13, 3, 0xE6, 0xF0), 0);
    assert_eq!(deliver(&mut record, &bytes, &mut [FILL; 12]), WRONG);
    let mut state = [0; reader::LENGTH];
    for chunk in [&bytes[..], &[], &[0xA0, 0x00, 0x00, 0x22]] {
        let (mut at, mut room) = (0, [FILL; 12]);
        let value = reader_next(&mut state, chunk, &mut at, &mut room);
        assert_eq!((value, at, room), (WRONG, 0, [FILL; 12]));
        assert_eq!(reader_end(&mut state), WRONG);
    }
    assert_eq!(state[..2], [2, 5]);
    assert_eq!(state[2..], [&[0; 8][..], &[0x22, 0x23], &[0; 9]].concat());
}

#[test]
fn captures_build_back_from_their_fields() {
    let setmult = outcome(6, |room| build_command(0x0D, 1, 3, &[0x00, 0x10], room));
    assert_eq!(setmult, Ok(vec![0xA0, 0x0D, 0x0D, 0x00, 0x10, 0x5B]));
    let answer = outcome(6, |room| build(9, 2, &[0x6B, 0x50], room));
    assert_eq!(answer, Ok(vec![0xA0, 0x25, 0x02, 0x6B, 0x50, 0x7F]));
    let reset = outcome(4, |room| build_command(0, 0, 0, &[], room));
    assert_eq!(reset, Ok(vec![0xA0, 0x00, 0x00, 0x22]));
}

#[test]
fn rooms_are_used_to_the_last_byte() {
    let bytes = [0xA0, 0x0D, 0x0D, 0x00, 0x10, 0x5B];
    assert_eq!(outcome(6, |room| dissect(&bytes, room)), Err(9));
    assert!(outcome(7, |room| dissect(&bytes, room)).is_ok());
    assert_eq!(outcome(5, |room| read(&bytes, room)), Err(9));
    assert!(outcome(6, |room| read(&bytes, room)).is_ok());
    assert_eq!(outcome(3, |room| build(0, 0, &[], room)), Err(9));
}

#[test]
fn command_builder_refuses_in_order() {
    let refusal = |command, cast, value, payload: &[u8]| {
        outcome(0, |room| build_command(command, cast, value, payload, room)).unwrap_err()
    };
    assert_eq!(refusal(0x20, 9, 9, &[1]), 6);
    assert_eq!(refusal(0x40, 0, 9, &[1]), 8);
    assert_eq!(refusal(0x40, 0, 9, &[]), 10);
    assert_eq!(refusal(0x40, 0, 0, &[]), 7);
    assert_eq!(refusal(0x40, 1, 9, &[]), 9);
}

#[test]
fn acknowledged_commands_have_the_layouts() {
    let bytes = [0xA0, 0x0D, 0x2D, 0x00, 0x10, 0xB4];
    let built = outcome(6, |room| build_command(0x2D, 1, 3, &[0x00, 0x10], room));
    assert_eq!(built, Ok(bytes.to_vec()));
    let wanted = Ok(vec![0x2D, 1, 0, 3, 2, 0x00, 0x10]);
    assert_eq!(outcome(9, |room| dissect(&bytes, room)), wanted);
    let wanted = Ok(vec![0x2D, 0, 3, 2, 0x00, 0x10]);
    assert_eq!(outcome(9, |room| dissect_answer(&bytes, room)), wanted);
    let refusal = |cast, value, payload: &[u8]| {
        outcome(0, |room| build_command(0x6F, cast, value, payload, room)).unwrap_err()
    };
    assert_eq!(refusal(0, 9, &[1]), 8);
    assert_eq!(refusal(0, 9, &[0; 6]), 10);
    assert_eq!(refusal(1, 0x3F0, &[0; 6]), 10);
    assert_eq!(refusal(0, 0, &[0; 6]), 7);
    assert_eq!(refusal(2, 14, &[0; 6]), 7);
    assert_eq!(refusal(1, 9, &[0xFF; 6]), 9);
}

/// SETPWM from its fields in a room of this size.
fn pwm(size: usize, cast: (u32, u32), modes: u32, duties: [u32; 3]) -> Result<Vec<u8>, u32> {
    let [red, green, blue] = duties;
    outcome(size, |room| {
        build_pwm(cast.0, cast.1, modes, red, green, blue, room)
    })
}

#[test]
fn pwm_builder_builds_what_the_command_builder_does() {
    for cast in [(0, 0), (1, 1), (1, 0x3EF), (2, 0), (2, 14)] {
        for modes in 0..=7 {
            let duties = [0x7FFF, 0x0102, 0];
            let day = |bit| if modes & bit == 0 { 0 } else { 0x80 };
            let words = [0x7F | day(4), 0xFF, 0x01 | day(2), 0x02, day(1), 0];
            let built = pwm(10, cast, modes, duties).unwrap();
            let wanted = outcome(10, |room| build_command(0x4F, cast.0, cast.1, &words, room));
            assert_eq!(Ok(built), wanted);
        }
    }
    let built = pwm(10, (1, 4), 0, [0x04FF, 0, 0x08FF]);
    let wanted = vec![0xA0, 0x13, 0x4F, 0x04, 0xFF, 0x00, 0x00, 0x08, 0xFF, 0xC3];
    assert_eq!(built, Ok(wanted));
}

#[test]
fn pwm_builder_keeps_to_its_ranges() {
    for duty in [0x8000, 0xFFFF, 0x1_0000, u32::MAX] {
        assert_eq!(pwm(0, (1, 1), 0, [duty, 0, 0]), Err(10));
        assert_eq!(pwm(0, (1, 1), 0, [0, duty, 0]), Err(10));
        assert_eq!(pwm(0, (1, 1), 0, [0, 0, duty]), Err(10));
    }
    for modes in [8, 256, u32::MAX] {
        assert_eq!(pwm(0, (1, 1), modes, [0; 3]), Err(10));
    }
    for cast in [(0, 1), (1, 0), (1, 0x3F0), (2, 15), (3, 0), (u32::MAX, 1)] {
        assert_eq!(pwm(0, cast, 0, [0; 3]), Err(10));
    }
    for size in 0..10 {
        assert_eq!(pwm(size, (1, 1), 7, [0x7FFF; 3]), Err(9));
    }
    assert!(pwm(10, (1, 1), 7, [0x7FFF; 3]).is_ok());
    assert!(pwm(16, (1, 1), 7, [0x7FFF; 3]).is_ok());
}

/// Telegrams of every number and size, to every class of address.
fn telegrams() -> Vec<Vec<u8>> {
    let payload = [0x81, 0x02, 0x73, 0x04, 0xFF, 0xFF, 0x12, 0x80];
    let mut set = Vec::new();
    for command in 0..128 {
        for address in [0, 1, 5, 0x3EF, 0x3F0, 0x3FE, 0x3FF] {
            for size in [0, 1, 2, 3, 4, 6, 8] {
                let payload = &payload[..size];
                set.push(outcome(12, |room| build(address, command, payload, room)).unwrap());
            }
        }
    }
    set
}

#[test]
fn dissected_commands_have_the_bytes_of_their_fields() {
    for bytes in telegrams() {
        let order = Order::of_telegram(&Telegram::parse(&bytes).unwrap());
        let payload = order.map(|order| order.command().payload().bytes().to_vec());
        let fields = outcome(13, |room| dissect(&bytes, room));
        assert_eq!(
            fields.map(|fields| fields[5..].to_vec()),
            payload.map_err(|refusal| packed(Err(refusal)))
        );
        let back = order.map(|order| outcome(12, |room| packed(order.write(room))));
        assert!(back.is_err() || back == Ok(Ok(bytes)));
    }
}

#[test]
fn dissected_answers_have_the_bytes_of_their_fields() {
    for bytes in telegrams() {
        let reply = Reply::of_telegram(&Telegram::parse(&bytes).unwrap());
        let payload = reply.map(|reply| reply.answer().payload().bytes().to_vec());
        let fields = outcome(12, |room| dissect_answer(&bytes, room));
        assert_eq!(
            fields.map(|fields| fields[4..].to_vec()),
            payload.map_err(|refusal| packed(Err(refusal)))
        );
        let back = reply.map(|reply| outcome(12, |room| packed(reply.write(room))));
        assert!(back.is_err() || back == Ok(Ok(bytes)));
    }
}

#[test]
fn raw_builder_refuses_in_order() {
    assert_eq!(outcome(0, |room| build(1, 1, &[0; 7], room)), Err(10));
    assert_eq!(outcome(0, |room| build(1024, 1, &[], room)), Err(10));
    assert_eq!(outcome(0, |room| build(1023, 1, &[], room)), Err(9));
}
