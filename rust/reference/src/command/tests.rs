//! Commands in telegrams: their casts, sizes and payloads.

use super::*;

fn dissect(bytes: &[u8]) -> Result<Order, Refusal> {
    Order::of_telegram(&Telegram::parse(bytes)?)
}

#[test]
fn captures_are_the_papers_commands() {
    let first = Cast::One(Lamp::new(1).unwrap());
    let captures = [
        ([0xA0, 0x00, 0x00, 0x22], Command::Reset, Cast::Everyone),
        ([0xA0, 0x00, 0x01, 0x0D], Command::ClrError, Cast::Everyone),
        ([0xA0, 0x00, 0x05, 0xB1], Command::GoActive, Cast::Everyone),
        ([0xA0, 0x04, 0x02, 0xA9], Command::InitBidir, first),
    ];
    for (bytes, command, cast) in captures {
        let order = dissect(&bytes).unwrap();
        assert_eq!((order.command(), order.cast()), (command, cast));
        let mut room = [0; 4];
        assert_eq!(order.write(&mut room), Ok(4));
        assert_eq!(room, bytes);
    }
}

#[test]
fn eight_bytes_are_too_many_for_setpwm() {
    let bytes = [
        0xA0, 0x07, 0xCF, 0x00, 0xFF, 0x00, 0x00, 0x11, 0x11, 0x00, 0x00, 0x49,
    ];
    assert_eq!(dissect(&bytes), Err(Refusal::PayloadSize));
}

#[test]
fn setmult_of_the_training_names_its_groups() {
    let order = dissect(&[0xA0, 0x0D, 0x0D, 0x00, 0x10, 0x5B]).unwrap();
    assert_eq!(order.command(), Command::SetMult(1 << 4));
    assert_eq!(order.cast(), Cast::One(Lamp::new(3).unwrap()));
}

#[test]
fn addresses_split_into_casts() {
    assert_eq!(Cast::of_address(0), Some(Cast::Everyone));
    assert_eq!(Cast::of_address(0x3EF), Lamp::new(0x3EF).map(Cast::One));
    assert_eq!(Cast::of_address(0x3F0), Group::new(0).map(Cast::Members));
    assert_eq!(Cast::of_address(0x3FE), Group::new(14).map(Cast::Members));
    assert_eq!(Cast::of_address(0x3FF), None);
    for address in 0..0x3FF {
        let cast = Cast::of_address(address).unwrap();
        assert_eq!(cast.address(), u32::from(address));
    }
}

#[test]
fn fields_out_of_range_are_not_made() {
    assert_eq!((Lamp::new(0), Lamp::new(0x3F0)), (None, None));
    assert_eq!(Group::new(15), None);
    for duty in [0x8000, 0xFFFF, 0x1_0000, u32::MAX] {
        assert_eq!(Channel::new(true, duty), Err(Refusal::Range));
    }
    assert_eq!(Channel::new(true, 0x7FFF).unwrap().word(), 0xFFFF);
    assert_eq!(Pwm::new(8, [0; 3]), Err(Refusal::Range));
}

#[test]
fn sizes_are_those_of_the_fields() {
    for name in Name::ALL {
        for size in 0..=8 {
            let accepted = Command::of_payload(name, &[0; 8][..size]).is_ok();
            assert_eq!(accepted, size == name.payload_size());
        }
    }
}

#[test]
fn reads_and_inits_have_fewer_casts() {
    let group = Cast::Members(Group::new(3).unwrap());
    let refused = Order::new(Command::ReadPwm, Cast::Everyone);
    assert_eq!(refused, Err(Refusal::Cast));
    assert_eq!(Order::new(Command::InitLoop, group), Err(Refusal::Cast));
    assert!(Order::new(Command::InitLoop, Cast::Everyone).is_ok());
    assert!(Order::new(Command::GoSleep, group).is_ok());
}

#[test]
fn acknowledged_commands_go_to_one_lamp() {
    let group = Cast::Members(Group::new(3).unwrap());
    let one = Cast::One(Lamp::new(1).unwrap());
    for name in Name::ALL.into_iter().filter(|name| name.is_acknowledged()) {
        let command = Command::of_payload(name, &[0; 8][..name.payload_size()]).unwrap();
        assert_eq!(Order::new(command, Cast::Everyone), Err(Refusal::Cast));
        assert_eq!(Order::new(command, group), Err(Refusal::Cast));
        assert!(Order::new(command, one).is_ok());
    }
    let order = dissect(&[0xA0, 0x04, 0x25, 0x17]).unwrap();
    assert_eq!((order.command(), order.cast()), (Command::GoActiveSr, one));
}

#[test]
fn acknowledged_commands_carry_what_their_plain_forms_do() {
    for name in Name::ALL {
        let bytes = &[0x81, 0x02, 0x7F, 0xFF, 0x80, 0x00][..name.payload_size()];
        let plain = Command::of_payload(name.plain(), bytes).unwrap();
        let command = Command::of_payload(name, bytes).unwrap();
        assert_eq!(command.payload(), plain.payload());
        assert_eq!(command.name(), name);
    }
    let pwm = Pwm::new(4, [1, 2, 3]).unwrap();
    let bytes = [0x80, 0x01, 0x00, 0x02, 0x00, 0x03];
    assert_eq!(Command::SetPwmSr(pwm).payload(), Payload::of(&bytes));
    assert_eq!(Pwm::new(4, [1, 32_768, 3]), Err(Refusal::Range));
}

#[test]
fn payloads_come_back() {
    let payloads: [(Name, &[u8]); 10] = [
        (Name::Identify, &[]),
        (Name::SetSetup, &[0x33]),
        (Name::SetMult, &[0x80, 0x01]),
        (Name::SetOtTh, &[1, 2, 3]),
        (Name::SetPwm, &[0x81, 0x02, 0x03, 0x04, 0xFF, 0xFF]),
        (Name::GoDeepSleepSr, &[]),
        (Name::SetSetupSr, &[0x33]),
        (Name::SetMultSr, &[0x80, 0x01]),
        (Name::SetOtThSr, &[1, 2, 3]),
        (Name::SetPwmSr, &[0x81, 0x02, 0x03, 0x04, 0xFF, 0xFF]),
    ];
    for (name, bytes) in payloads {
        let command = Command::of_payload(name, bytes).unwrap();
        assert_eq!(command.name(), name);
        assert_eq!(command.payload().bytes(), bytes);
    }
}
