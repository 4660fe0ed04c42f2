//! Commands and answers in words.

use super::*;

/// The words of a telegram to nine lamps that were numbered from 1.
fn words(telegram: &str) -> String {
    let script = format!("A00402A9\n{telegram}\n");
    let (output, _) = lines(text(9), &script);
    output.lines().nth(2).unwrap()[40..].to_string()
}

/// Three PWM words.
const PWM: [u8; 6] = [0x03, 0xE8, 0x87, 0xD0, 0x00, 0x00];

/// Each command, to an address and with a payload, has these words.
fn are_said(commands: &[(u32, Name, &[u8], &str)]) {
    for &(address, name, payload, wanted) in commands {
        assert_eq!(words(&telegram(address, name, payload)), wanted);
    }
}

#[test]
fn commands_are_said_as_on_the_page() {
    let said = [
        (0, Name::Reset, &[][..], "reset to everyone"),
        (0x3F3, Name::GoActive, &[], "goactive to group 3"),
        (10, Name::ReadPwm, &[], "readpwm to lamp 00A"),
        (1, Name::InitBidir, &[], "initbidir from 001"),
        (0, Name::InitLoop, &[], "initloop at 000"),
        (
            3,
            Name::SetMult,
            &[0, 0x10],
            "setmult to lamp 003: mask 0010",
        ),
        (
            0,
            Name::SetOtTh,
            &[0x03, 0xE6, 0xF0],
            "setotth to everyone: thresholds 03 E6 F0",
        ),
        (1, Name::SetSetup, &[0x13], "setsetup to lamp 001: setup 13"),
        (
            1,
            Name::SetPwm,
            &PWM,
            "setpwm to lamp 001: red night 1000, green day 2000, blue night 0",
        ),
    ];
    are_said(&said);
}

#[test]
fn acknowledged_commands_have_sr_behind_their_names() {
    let said = [
        (1, Name::GoActiveSr, &[][..], "goactive_sr to lamp 001"),
        (
            3,
            Name::SetMultSr,
            &[0, 0x10],
            "setmult_sr to lamp 003: mask 0010",
        ),
        (
            1,
            Name::SetOtThSr,
            &[0x03, 0xE6, 0xF0],
            "setotth_sr to lamp 001: thresholds 03 E6 F0",
        ),
        (
            1,
            Name::SetSetupSr,
            &[0x13],
            "setsetup_sr to lamp 001: setup 13",
        ),
        (
            1,
            Name::SetPwmSr,
            &PWM,
            "setpwm_sr to lamp 001: red night 1000, green day 2000, blue night 0",
        ),
    ];
    are_said(&said);
}

#[test]
fn only_5_says_more_than_its_words() {
    let (computed, received) = (0, 0xFF);
    let said = [
        (
            Refusal::ByteCount,
            "refused 4: byte count is not 4 + payload size",
        ),
        (
            Refusal::Checksum { computed, received },
            "refused 5: checksum differs (worked out 00, received FF)",
        ),
        (Refusal::PastEnd, "refused 12: init runs past 3EF"),
    ];
    for (refusal, wanted) in said {
        assert_eq!(refusal.to_string(), wanted);
    }
    let wanted = r#"{"line":1,"tx":"A004CD36FF","number":5,"refusal":"checksum differs","computed":0,"received":255}"#;
    let (output, _) = lines(json(1), "A004CD36FF");
    assert_eq!(output.trim_end(), wanted);
}

#[test]
fn every_command_has_its_name() {
    for name in Name::ALL {
        let payload = vec![0; name.payload_size()];
        let said = words(&telegram(1, name, &payload));
        let mut word = format!("{:?}", name.plain()).to_lowercase();
        if name.is_acknowledged() {
            word += "_sr";
        }
        assert_eq!(said.split(' ').next(), Some(&word[..]));
    }
}

#[test]
fn answers_are_said_as_on_the_page() {
    let script = [
        telegram(1, Name::InitLoop, &[]),
        telegram(0, Name::GoActive, &[]),
        telegram(0, Name::SetMult, &[0x00, 0x10]),
        telegram(0, Name::SetPwm, &PWM),
        "A0000023\nsensor 0 6B 3".to_string(),
        telegram(1, Name::Identify, &[]),
        telegram(3, Name::ReadMult, &[]),
        telegram(1, Name::ReadStatus, &[]),
        telegram(1, Name::ReadTempSt, &[]),
        telegram(1, Name::ReadTemp, &[]),
        telegram(1, Name::ReadOtTh, &[]),
        telegram(1, Name::ReadSetup, &[]),
        telegram(1, Name::ReadPwm, &[]),
        telegram(1, Name::GoActiveSr, &[]),
        telegram(3, Name::SetMultSr, &[0x00, 0x08]),
        telegram(0, Name::InitBidir, &[]),
    ];
    let (output, refused) = lines(text(9), &script.join("\n"));
    assert_eq!(refused, 1);
    let said = output.lines().filter(|line| line.starts_with("rx A"));
    let said: Vec<&str> = said.map(|line| &line[40..]).collect();
    let wanted = [
        "009 answers initloop: temperature 00, status 50 (SLEEP, loop, no flags)",
        "001 answers identify: identity 00000000",
        "003 answers readmult: mask 0010",
        "001 answers readstatus: status 9B (ACTIVE, loop, CE OT UV)",
        "001 answers readtempst: temperature 6B, status 90 (ACTIVE, loop, no flags)",
        "001 answers readtemp: temperature 6B",
        "001 answers readotth: thresholds 03 E6 F0",
        "001 answers readsetup: setup 13",
        "001 answers readpwm: red night 1000, green day 2000, blue night 0",
        "001 answers goactive_sr: temperature 6B, status 90 (ACTIVE, loop, no flags)",
        "003 answers setmult_sr: temperature 00, status 90 (ACTIVE, loop, no flags)",
        "000 answers initbidir: temperature 00, status 98 (ACTIVE, loop, CE)",
    ];
    assert_eq!(said, wanted);
}
