//! Raw captures in place of scripts.

use super::*;

/// A capture that the chain refuses in part, and what stops it behind.
const CAPTURE: [&[u8]; 3] = [
    &[0xA0, 0x04, 0x02, 0xA9],
    &[
        0xA0, 0x07, 0xCF, 0x00, 0xFF, 0x00, 0x00, 0x11, 0x11, 0x00, 0x00, 0x49,
    ],
    &[0xA0, 0x00, 0x05, 0xB1],
];
const DAMAGED: &[u8] = &[0xA0, 0x00, 0x00, 0x23];
const STOPPED: &str =
    "capture stopped at position 20: refused 5: checksum differs (worked out 22, received 23)";

/// The capture, with the damaged telegram and a good one behind it or not.
fn capture(stops: bool) -> Vec<u8> {
    let whole = CAPTURE.concat();
    match stops {
        false => whole,
        true => [&whole[..], DAMAGED, CAPTURE[0]].concat(),
    }
}

fn raw(options: Options) -> Options {
    let raw = true;
    Options { raw, ..options }
}

/// The lamps that the capture leaves.
fn lamps(options: Options) -> String {
    let quiet = true;
    let script = "A00402A9\nA00005B1";
    print(Options { quiet, ..options }, script.as_bytes()).0
}

#[test]
fn telegrams_are_printed_as_on_the_page() {
    let wanted = "\
tx A0 04 02 A9                          initbidir from 001
rx A0 25 02 00 40 9E                    009 answers initbidir: temperature 00, status 40 (SLEEP, bidir, no flags)
tx A0 07 CF 00 FF 00 00 11 11 00 00 49  position 4: refused 8: payload size wrong for the command
tx A0 00 05 B1                          goactive to everyone
rx none
";
    let table = lamps(text(9));
    let (output, outcome) = print(raw(text(9)), &capture(false));
    assert_eq!((status(&outcome), outcome.unwrap().refused), (1, 1));
    assert_eq!(output, format!("{wanted}\n{table}"));
    let (output, outcome) = print(raw(text(9)), &capture(true));
    assert_eq!((status(&outcome), &errors("replay", &outcome)[..]), (1, ""));
    assert_eq!(outcome.unwrap().refused, 2);
    assert_eq!(output, format!("{wanted}{STOPPED}\n\n{table}"));
}

#[test]
fn json_has_positions() {
    let wanted = r#"{"position":0,"tx":"A00402A9","number":0,"command":"initbidir","cast":"one","value":1,"payload":"","rx":"A0250200409E","address":9,"answer":"0040"}
{"position":4,"tx":"A007CF00FF00001111000049","number":8,"refusal":"payload size wrong for the command"}
{"position":16,"tx":"A00005B1","number":0,"command":"goactive","cast":"everyone","value":0,"payload":"","rx":null}
"#;
    let stopped =
        r#"{"stopped":20,"number":5,"refusal":"checksum differs","computed":34,"received":35}"#;
    let lamps = lamps(json(9));
    let (output, outcome) = print(raw(json(9)), &capture(true));
    assert_eq!((status(&outcome), outcome.unwrap().refused), (1, 2));
    assert_eq!(output, format!("{wanted}{stopped}\n{lamps}"));
}

/// The same without a line of its telegrams.
fn quiet(options: Options) -> Options {
    let quiet = true;
    Options { quiet, ..options }
}

#[test]
fn a_quiet_replay_tells_the_stop_on_standard_error() {
    for options in [text(9), json(9)] {
        let (output, outcome) = print(quiet(raw(options)), &capture(true));
        let told = format!("osp: replay: {STOPPED}\n");
        assert_eq!((status(&outcome), errors("replay", &outcome)), (1, told));
        assert_eq!(output, lamps(options));
        let (output, outcome) = print(quiet(raw(options)), &capture(false));
        assert_eq!(errors("replay", &outcome), "");
        assert_eq!((output, outcome.unwrap().refused), (lamps(options), 1));
    }
}

/// A telegram of lamp 3 that is either, behind an init.
const EITHER: [&[u8]; 2] = [
    &[0xA0, 0x04, 0x03, 0x86],
    &[0xA0, 0x0D, 0x2D, 0x00, 0x10, 0xB4],
];
/// What is told of it where the output does not tell it.
const MAY_BE: &str = "osp: replay: a setmult_sr of the capture may be an answer of its lamp; it was done as a command\n";

#[test]
fn a_telegram_that_is_either_is_done_as_a_command() {
    let wanted = "\
tx A0 0D 2D 00 10 B4                    setmult_sr to lamp 003: mask 0010 (or an answer of 003; done as a command)
rx A0 0D 2D 00 50 52                    003 answers setmult_sr: temperature 00, status 50 (SLEEP, loop, no flags)
";
    let (output, outcome) = print(raw(text(9)), &EITHER.concat());
    let (behind, lamps) = output.split_once("\n\n").unwrap();
    assert!(format!("{behind}\n").ends_with(wanted));
    assert!(lamps
        .lines()
        .nth(3)
        .unwrap()
        .ends_with(" none                4"));
    assert_eq!((status(&outcome), &errors("replay", &outcome)[..]), (0, ""));
    let (output, _) = print(raw(json(9)), &EITHER.concat());
    let wanted = r#"{"position":4,"tx":"A00D2D0010B4","number":0,"command":"setmult_sr","cast":"one","value":3,"payload":"0010","either":true,"rx":"A00D2D005052","address":3,"answer":"0050"}"#;
    assert_eq!(output.lines().nth(1), Some(wanted));
}

#[test]
fn nobodys_telegram_may_be_either_too() {
    let (output, _) = print(raw(text(2)), &EITHER.concat());
    let wanted = "\
tx A0 0D 2D 00 10 B4                    setmult_sr to lamp 003: mask 0010 (or an answer of 003; done as a command)
rx none
";
    assert!(output
        .split_once("\n\n")
        .unwrap()
        .0
        .contains(wanted.trim_end()));
    let (output, _) = print(raw(json(2)), &EITHER.concat());
    let line = output.lines().nth(1).unwrap();
    assert!(line.ends_with(r#","payload":"0010","either":true,"rx":null}"#));
}

#[test]
fn a_quiet_replay_tells_once_that_a_telegram_may_be_an_answer() {
    let twice = [EITHER[0], EITHER[1], EITHER[1]].concat();
    for options in [text(9), json(9)] {
        let (_, outcome) = print(quiet(raw(options)), &twice);
        assert_eq!(status(&outcome), 0);
        assert_eq!(errors("replay", &outcome), MAY_BE);
        let (_, outcome) = print(quiet(raw(options)), &[&twice, DAMAGED].concat());
        let stopped = STOPPED.replace("20", "16");
        assert_eq!(status(&outcome), 1);
        assert_eq!(
            errors("replay", &outcome),
            format!("{MAY_BE}osp: replay: {stopped}\n")
        );
        let (_, outcome) = print(quiet(raw(options)), EITHER[0]);
        assert_eq!(errors("replay", &outcome), "");
    }
}

#[test]
fn a_script_is_the_hosts_alone() {
    let script = "A0040386\nA00D2D0010B4";
    for options in [text(9), json(9), quiet(text(9))] {
        let (output, outcome) = print(options, script.as_bytes());
        assert!(!output.contains("or an answer of") && !output.contains("either"));
        assert_eq!(errors("replay", &outcome), "");
    }
}

#[test]
fn every_refusal_stops_a_capture() {
    let stops: [(&[u8], u32); 5] = [
        (&[0xA0, 0x04, 0x02], 1),
        (&[0xB0], 2),
        (&[0xA0, 0x02, 0x80], 3),
        (&[0xA0, 0x05, 0x02, 0x6B], 4),
        (DAMAGED, 5),
    ];
    for (bytes, number) in stops {
        let (output, outcome) = print(raw(text(1)), &[CAPTURE[2], bytes].concat());
        let line = format!("capture stopped at position 4: refused {number}: ");
        assert!(output.lines().nth(2).unwrap().starts_with(&line));
        assert_eq!(outcome.unwrap().refused, 1);
    }
}

#[test]
fn a_capture_without_a_fault_is_done() {
    let (output, outcome) = print(raw(text(1)), &[]);
    assert_eq!(output, print(text(1), &[]).0);
    assert_eq!(status(&outcome), 0);
    assert_eq!(status(&print(raw(text(1)), CAPTURE[0]).1), 0);
}
