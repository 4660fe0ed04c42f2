//! The page's examples, and each row of its tables.

use super::*;
use crate::replay::status;

/// Bytes of hex digits.
fn bytes(text: &str) -> Vec<u8> {
    let digits: Vec<u8> = text.bytes().filter(|byte| *byte != b' ').collect();
    let pairs = digits
        .chunks(2)
        .map(|pair| std::str::from_utf8(pair).unwrap());
    pairs
        .map(|pair| u8::from_str_radix(pair, 16).unwrap())
        .collect()
}

/// What is printed for a capture, and the status.
fn print(json: bool, quiet: bool, capture: &str) -> (String, u8) {
    let mut output = Vec::new();
    let outcome = dump(&Options { json, quiet }, &bytes(capture)[..], &mut output);
    (String::from_utf8(output).unwrap(), status(&outcome))
}

/// The capture of the page, without the refused telegram.
const GOOD: &str = "A0000022 A00402A9 A025026B40D1 A007CF00FF00001111000049";
const REFUSED: &str = "A0174F75B02EE00000B5";
/// The same without its last bytes, which is refused at the end.
const CUT: &str = "A0174F75B02EE0";

#[test]
fn text_is_that_of_the_page() {
    let listed = "         0  A0 00 00 22                          reset to everyone
         4  A0 04 02 A9                          initbidir from 001
         8  A0 25 02 6B 40 D1                    009 answers initbidir: temperature 6B, status 40 (SLEEP, bidir, no flags)
        14  A0 07 CF 00 FF 00 00 11 11 00 00 49  neither: as a command refused 8, as an answer refused 6
";
    let refused = "        26  A0 17 4F 75 B0 2E E0 00 00 B5        refused 5: checksum differs (worked out 9F, received B5)
            claims command 4F (setpwm), address 005, 6 payload bytes
            with checksum 9F: setpwm to lamp 005: red night 30128, green night 12000, blue night 0
stopped at position 26: 4 telegrams before it (2 commands, 1 answer, 1 neither)
";
    let ended = "ended at position 26: 4 telegrams (2 commands, 1 answer, 1 neither)\n";
    assert_eq!(print(false, false, GOOD), (format!("{listed}{ended}"), 0));
    let capture = format!("{GOOD}{REFUSED}");
    assert_eq!(
        print(false, false, &capture),
        (format!("{listed}{refused}"), 1)
    );
}

#[test]
fn quiet_is_the_last_line() {
    let wanted = "ended at position 26: 4 telegrams\n";
    assert_eq!(print(false, true, GOOD), (wanted.to_string(), 0));
    let wanted = "stopped at position 26: 4 telegrams before it, refused 5: checksum differs (worked out 9F, received B5)\n";
    let capture = format!("{GOOD}{REFUSED}");
    assert_eq!(print(false, true, &capture), (wanted.to_string(), 1));
    let wanted = "{\"ended\":26,\"telegrams\":4,\"number\":0}\n";
    assert_eq!(print(true, true, GOOD), (wanted.to_string(), 0));
    let wanted =
        "{\"stopped\":26,\"telegrams\":4,\"number\":5,\"computed\":159,\"received\":181}\n";
    assert_eq!(print(true, true, &capture), (wanted.to_string(), 1));
    let wanted = "{\"stopped\":26,\"telegrams\":4,\"number\":4}\n";
    let capture = format!("{GOOD}{CUT}");
    assert_eq!(print(true, true, &capture), (wanted.to_string(), 1));
}

#[test]
fn json_is_that_of_the_page() {
    let listed = r#"{"position":0,"bytes":"A0000022","number":0,"command":"reset","cast":"everyone","value":0,"payload":""}
{"position":4,"bytes":"A00402A9","number":0,"command":"initbidir","cast":"one","value":1,"payload":""}
{"position":8,"bytes":"A025026B40D1","number":0,"answers":"initbidir","address":9,"answer":"6B40"}
{"position":14,"bytes":"A007CF00FF00001111000049","number":0,"as_command":8,"as_answer":6}
"#;
    let refused = r#"{"position":26,"bytes":"A0174F75B02EE00000B5","number":5,"refusal":"checksum differs","computed":159,"received":181}
{"stopped":26,"telegrams":4,"commands":2,"answers":1,"either":0,"neither":1,"number":5,"computed":159,"received":181}
"#;
    let cut = r#"{"position":26,"bytes":"A0174F75B02EE0","number":4,"refusal":"byte count is not 4 + payload size","expected":"10 bytes, got 7"}
{"stopped":26,"telegrams":4,"commands":2,"answers":1,"either":0,"neither":1,"number":4}
"#;
    let ended = r#"{"ended":26,"telegrams":4,"commands":2,"answers":1,"either":0,"neither":1,"number":0}
"#;
    assert_eq!(print(true, false, GOOD), (format!("{listed}{ended}"), 0));
    for (telegram, told) in [(REFUSED, refused), (CUT, cut)] {
        let capture = format!("{GOOD}{telegram}");
        let wanted = (format!("{listed}{told}"), 1);
        assert_eq!(print(true, false, &capture), wanted);
    }
}

/// What is told of a refused telegram: bytes and refusal, and each line below.
fn told(capture: &str) -> Vec<String> {
    let (output, status) = print(false, false, capture);
    assert_eq!(status, 1);
    let mut lines: Vec<String> = output.lines().map(|line| line[12..].to_string()).collect();
    let last = lines.pop().unwrap();
    assert!(last.ends_with("0 telegrams before it (0 commands, 0 answers, 0 neither)"));
    lines
}

#[test]
fn refusals_are_told_as_in_the_table() {
    let short = "refused 1: fewer than 4 bytes";
    let wanted = [
        format!("A0 17                                {short}"),
        "expected 4 bytes or more, got 2".to_string(),
        "claims nothing yet".to_string(),
    ];
    assert_eq!(told("A017"), wanted);
    let wanted = [
        format!("A0 17 4F                             {short}"),
        "expected 4 bytes or more, got 3".to_string(),
        "claims command 4F (setpwm), address 005, 6 payload bytes".to_string(),
    ];
    assert_eq!(told("A0174F"), wanted);
    let wanted = [
        "B0                                   refused 2: preamble is not 1010",
        "expected a first byte A0 to AF, got B0",
        "claims nothing",
    ];
    assert_eq!(told("B0174F75B0"), wanted);
    let wanted = [
        "A0 16 CF                             refused 3: size index 5",
        "expected size index 0 to 4, 6 or 7, got 5",
        "claims command 4F (setpwm), address 005",
    ];
    assert_eq!(told("A016CF75B0"), wanted);
    let wanted = [
        "A0 17 4F 75 B0 2E E0                 refused 4: byte count is not 4 + payload size",
        "expected 10 bytes, got 7",
        "claims command 4F (setpwm), address 005, 6 payload bytes",
    ];
    assert_eq!(told("A0174F75B02EE0"), wanted);
}

#[test]
fn a_wrong_checksum_is_mended() {
    let wanted = [
        "AF FC FF 00 00                       refused 5: checksum differs (worked out AF, received 00)",
        "claims command 7F (unknown), address 3FF, 1 payload byte",
        "with checksum AF: neither: as a command refused 6, as an answer refused 6",
    ];
    assert_eq!(told("AFFCFF0000"), wanted);
    let wanted = [
        "A0 04 C0 48 00                       refused 5: checksum differs (worked out 37, received 00)",
        "claims command 40 (readstatus), address 001, 1 payload byte",
        "with checksum 37: 001 answers readstatus: status 48 (SLEEP, bidir, CE)",
    ];
    assert_eq!(told("A004C04800A0"), wanted);
    assert_eq!(
        told("A0000000")[1],
        "claims command 00 (reset), address 000, 0 payload bytes"
    );
}

/// A telegram that is either.
const EITHER: &str = "A00D2D0010B4";
const SAID: &str = "setmult_sr to lamp 003: mask 0010, or 003 answers setmult_sr: temperature 00, status 10 (UNINITIALIZED, loop, no flags)";

#[test]
fn a_telegram_that_is_either_is_said_both_ways() {
    let capture = format!("{GOOD}{EITHER}");
    let (output, status) = print(false, false, &capture);
    let lines: Vec<&str> = output.lines().skip(4).collect();
    let listed = format!("        26  A0 0D 2D 00 10 B4                    {SAID}");
    let ended =
        "ended at position 32: 5 telegrams (2 commands, 1 answer, 1 either, 1 neither)".to_string();
    assert_eq!((lines, status), (vec![&listed[..], &ended], 0));
    let (output, _) = print(false, false, &format!("{EITHER}{EITHER}B0"));
    let stopped = "stopped at position 12: 2 telegrams before it (0 commands, 0 answers, 2 either, 0 neither)";
    assert_eq!(output.lines().last(), Some(stopped));
    let wanted = "ended at position 32: 5 telegrams\n";
    assert_eq!(print(false, true, &capture), (wanted.to_string(), 0));
}

#[test]
fn json_says_either_both_ways() {
    let (output, _) = print(true, false, &format!("{GOOD}{EITHER}"));
    let lines: Vec<&str> = output.lines().skip(4).collect();
    let wanted = [
        r#"{"position":26,"bytes":"A00D2D0010B4","number":0,"command":"setmult_sr","cast":"one","value":3,"payload":"0010","answers":"setmult_sr","address":3,"answer":"0010"}"#,
        r#"{"ended":32,"telegrams":5,"commands":2,"answers":1,"either":1,"neither":1,"number":0}"#,
    ];
    assert_eq!(lines, wanted);
}

#[test]
fn a_mended_telegram_may_be_either() {
    let wanted = [
        "A0 0D 2D 00 10 00                    refused 5: checksum differs (worked out B4, received 00)",
        "claims command 2D (setmult_sr), address 003, 2 payload bytes",
        &format!("with checksum B4: {SAID}"),
    ];
    assert_eq!(told("A00D2D001000"), wanted);
}

#[test]
fn only_setmult_sr_is_either() {
    let listed = [
        ("A0042517", "goactive_sr to lamp 001"),
        (
            "A0052500901C",
            "001 answers goactive_sr: temperature 00, status 90 (ACTIVE, loop, no flags)",
        ),
    ];
    for (telegram, wanted) in listed {
        let (output, _) = print(false, false, telegram);
        assert_eq!(&output.lines().next().unwrap()[49..], wanted);
    }
}

#[test]
fn one_and_none_are_told() {
    let wanted = "ended at position 0: 0 telegrams (0 commands, 0 answers, 0 neither)\n";
    assert_eq!(print(false, false, ""), (wanted.to_string(), 0));
    let (output, _) = print(false, false, "A0000022");
    let wanted = "ended at position 4: 1 telegram (1 command, 0 answers, 0 neither)";
    assert_eq!(output.lines().last(), Some(wanted));
    let wanted = "ended at position 4: 1 telegram\n";
    assert_eq!(print(false, true, "A0000022"), (wanted.to_string(), 0));
}
