//! The page's examples, and where its sentences end.

mod raw;
mod said;

use super::*;
use crate::command::Name;
use std::io;

const DEFAULTS: Defaults = Defaults {
    setup: 0x13,
    thresholds: [0x03, 0xE6, 0xF0],
};
const TABLE: &str = "place addr state         com   temp thresholds setup red         green       blue        flags               groups\n";

/// What is printed for a script, and how it ended.
fn print(options: Options, script: &[u8]) -> (String, Result<Ending, Failure>) {
    let mut output = Vec::new();
    let outcome = replay(&options, script, &mut output);
    (String::from_utf8(output).unwrap(), outcome)
}

fn text(lamps: u32) -> Options {
    Options {
        lamps,
        defaults: DEFAULTS,
        quiet: false,
        json: false,
        raw: false,
    }
}

fn json(lamps: u32) -> Options {
    Options {
        json: true,
        ..text(lamps)
    }
}

/// The lines before the lamps, and how many lines were refused.
fn lines(options: Options, script: &str) -> (String, u64) {
    let (output, outcome) = print(options, script.as_bytes());
    let end = match options.json {
        false => output.find("\nplace").unwrap(),
        true => output.find("{\"place\"").unwrap(),
    };
    (output[..end].to_string(), outcome.unwrap().refused)
}

/// The hex digits of a telegram.
fn telegram(address: u32, name: Name, payload: &[u8]) -> String {
    let mut room = [0; LONGEST];
    let telegram = Telegram::new(address, u32::from(name.number()), payload).unwrap();
    let size = telegram.write(&mut room).unwrap();
    let digits = room[..size].iter().map(|byte| format!("{byte:02X}"));
    digits.collect()
}

#[test]
fn telegrams_are_printed_as_on_the_page() {
    let script = "sensor 8 6B 0\nA0 04 02 A9\nA00005B1\nA0 00 00 23 # wrong\n";
    let wanted = "\
sensor 8 6B 0                           place 8: temperature 6B, sets no flag
tx A0 04 02 A9                          initbidir from 001
rx A0 25 02 6B 40 D1                    009 answers initbidir: temperature 6B, status 40 (SLEEP, bidir, no flags)
tx A0 00 05 B1                          goactive to everyone
rx none
tx A0 00 00 23                          line 4: refused 5: checksum differs (worked out 22, received 23)
";
    assert_eq!(lines(text(9), script), (wanted.to_string(), 1));
}

#[test]
fn reports_are_printed_as_on_the_page() {
    let script = " sensor\t8 6B\r5 \r\n# comment\nsensor 9 6B 0\nsensor 0 6b 08";
    let wanted = "\
sensor 8 6B 5                           place 8: temperature 6B, sets LOS UV
sensor 9 6B 0                           line 3: refused 13: no lamp at that place
sensor 0 6B 8                           line 4: refused 10: builder field, PWM duty or fault number out of range, or payload length not listed
";
    assert_eq!(lines(text(9), script), (wanted.to_string(), 2));
}

#[test]
fn long_telegrams_are_cut() {
    let script = "A0 02 80 04 05 06 07 08 09 0A 0B 0C\n\
                  A0 07 80 04 05 06 07 08 09 0A 0B 0C 0D\n\
                  A0 07 80 04 05 06 07 08 09 0A 0B 0C 0D 0E 0F 10 11 12\n";
    let wanted = "\
tx A0 02 80 04 05 06 07 08 09 0A 0B 0C  line 1: refused 3: size index 5
tx A0 07 80 04 05 06 07 08 09 0A 0B ..  line 2: refused 4: byte count is not 4 + payload size
tx A0 07 80 04 05 06 07 08 09 0A 0B ..  line 3: refused 4: byte count is not 4 + payload size
";
    assert_eq!(lines(text(1), script), (wanted.to_string(), 3));
    let (output, _) = lines(json(1), script);
    let wanted = r#"{"line":3,"tx":"A007800405060708090A0B0C0D0E0F10","number":4,"refusal":"byte count is not 4 + payload size"}"#;
    assert_eq!(output.lines().nth(2), Some(wanted));
}

#[test]
fn the_table_is_that_of_the_page() {
    let script = [
        "A00402A9".to_string(),
        telegram(1, Name::GoActive, &[]),
        telegram(1, Name::SetMult, &[0x80, 0x09]),
        telegram(1, Name::SetPwm, &[0x03, 0xE8, 0x87, 0xD0, 0x00, 0x00]),
        telegram(2, Name::Reset, &[]),
        "sensor 0 6B 0\nsensor 1 0A 7".to_string(),
    ];
    let rows = "    0 001  ACTIVE        bidir 6B   03 E6 F0   13    night  1000 day    2000 night     0 none                0 3 15
    1 3FF  UNINITIALIZED loop  0A   03 E6 F0   13    night     0 night     0 night     0 LOS OT UV           none
";
    let quiet = Options {
        quiet: true,
        ..text(2)
    };
    let script = script.join("\n");
    let (output, outcome) = print(quiet, script.as_bytes());
    assert_eq!(outcome.unwrap(), Ending::default());
    assert_eq!(output, format!("{TABLE}{rows}"));
    let (output, _) = print(text(2), script.as_bytes());
    assert!(output.ends_with(&format!("sets LOS OT UV\n\n{TABLE}{rows}")));
}

#[test]
fn json_is_that_of_the_page() {
    let script = "sensor 8 6B 0\nA00402A9\nA0000022\nA0000023\nsensor 8 6B 5\nsensor 9 6B 0";
    let wanted = r#"{"line":1,"place":8,"temperature":107,"faults":0,"number":0}
{"line":2,"tx":"A00402A9","number":0,"command":"initbidir","cast":"one","value":1,"payload":"","rx":"A025026B40D1","address":9,"answer":"6B40"}
{"line":3,"tx":"A0000022","number":0,"command":"reset","cast":"everyone","value":0,"payload":"","rx":null}
{"line":4,"tx":"A0000023","number":5,"refusal":"checksum differs","computed":34,"received":35}
{"line":5,"place":8,"temperature":107,"faults":5,"number":0}
{"line":6,"place":9,"temperature":107,"faults":0,"number":13,"refusal":"no lamp at that place"}
"#;
    assert_eq!(lines(json(9), script), (wanted.to_string(), 2));
}

#[test]
fn lamps_in_json_are_those_of_the_page() {
    let script = [
        "A00402A9".to_string(),
        telegram(1, Name::GoActive, &[]),
        telegram(1, Name::SetMult, &[0x00, 0x09]),
        telegram(1, Name::SetPwm, &[0x03, 0xE8, 0x87, 0xD0, 0x00, 0x00]),
        "A0000023\nsensor 0 6B 1".to_string(),
    ];
    let wanted = r#"{"place":0,"address":1,"state":"ACTIVE","com":0,"flags":["CE","UV"],"temperature":107,"thresholds":[3,230,240],"setup":19,"groups":[0,3],"pwm":[{"mode":"night","duty":1000},{"mode":"day","duty":2000},{"mode":"night","duty":0}]}
"#;
    let quiet = Options {
        quiet: true,
        ..json(1)
    };
    let (output, outcome) = print(quiet, script.join("\n").as_bytes());
    assert_eq!((&output[..], outcome.unwrap().refused), (wanted, 1));
    let (output, _) = print(json(1), script.join("\n").as_bytes());
    assert!(output.ends_with(&format!("}}\n{wanted}")));
}

#[test]
fn a_malformed_line_ends_the_run() {
    for options in [text(9), json(9)] {
        let (output, outcome) = print(options, b"A0000022\n# x\n\nA0 0\nA0000022\n");
        let failure = outcome.as_ref().unwrap_err().to_string();
        let wanted = "line 4: expected hex bytes, 'sensor PLACE TEMP FAULTS' or a comment";
        assert_eq!((status(&outcome), &failure[..]), (2, wanted));
        assert_eq!(output, lines(options, "A0000022").0);
    }
    let quiet = Options {
        quiet: true,
        ..text(9)
    };
    assert_eq!(print(quiet, b"A0000022\nx").0, "");
}

#[test]
fn a_refused_chain_prints_nothing() {
    for lamps in [0, 1008, u32::MAX] {
        let (output, outcome) = print(text(lamps), b"x");
        let failure = outcome.as_ref().unwrap_err().to_string();
        assert_eq!(
            failure,
            "refused 11: lamp count not 1 to 1007, or no valid chain"
        );
        assert_eq!((status(&outcome), &output[..]), (1, ""));
    }
}

#[test]
fn the_status_tells_of_refused_lines() {
    assert_eq!(status(&print(text(1), b"A0000022").1), 0);
    assert_eq!(status(&print(text(1), b"A0000023").1), 1);
    assert_eq!(status(&print(text(1), b"sensor 1 00 0").1), 1);
}

#[test]
fn pages_are_written_when_they_are_full() {
    /// Takes a page at a time.
    struct Pages(Vec<usize>);
    impl Write for Pages {
        fn write(&mut self, bytes: &[u8]) -> io::Result<usize> {
            self.0.push(bytes.len());
            Ok(bytes.len())
        }
        fn flush(&mut self) -> io::Result<()> {
            Ok(())
        }
    }
    let mut pages = Pages(Vec::new());
    let script = "A0000022\n".repeat(10_000);
    replay(&text(1), script.as_bytes(), &mut pages).unwrap();
    assert!(pages.0.len() > 5 && pages.0.iter().all(|&size| size <= 64 * 1024));
}

#[test]
fn output_that_fails_is_told() {
    let mut full = [0; 10];
    let outcome = replay(&text(1), &b"A0000022"[..], &mut full[..]);
    assert!(matches!(outcome, Err(Failure::Output(_))));
    assert_eq!(status(&outcome), 2);
}
