//! The names of things.

use crate::command::Name;
use crate::Refusal;

/// The states by their numbers.
pub const STATES: [&str; 4] = ["UNINITIALIZED", "SLEEP", "ACTIVE", "DEEPSLEEP"];
/// The directions by their numbers.
pub const COMS: [&str; 2] = ["bidir", "loop"];
/// The bits of the five flags.
pub const FLAGS: u8 = 0x2F;
/// The flags by their bits, in the order of the status byte.
const FLAG_NAMES: [(u8, &str); 5] = [
    (0x20, "OTPCRC"),
    (0x08, "CE"),
    (0x04, "LOS"),
    (0x02, "OT"),
    (0x01, "UV"),
];

/// The names of the flags that are set in a status byte.
pub fn flags(status: u8) -> impl Iterator<Item = &'static str> {
    let set = move |&(bit, name)| (status & bit != 0).then_some(name);
    FLAG_NAMES.iter().filter_map(set)
}

/// The numbers of the bits that are set in a group word.
pub fn groups(word: u16) -> impl Iterator<Item = u8> {
    (0..16).filter(move |group| word >> group & 1 == 1)
}

/// The name of a current mode.
pub fn mode(daytime: bool) -> &'static str {
    match daytime {
        false => "night",
        true => "day",
    }
}

/// The name of a command.
pub fn command(name: Name) -> &'static str {
    match name {
        Name::Reset => "reset",
        Name::ClrError => "clrerror",
        Name::InitBidir => "initbidir",
        Name::InitLoop => "initloop",
        Name::GoSleep => "gosleep",
        Name::GoActive => "goactive",
        Name::GoDeepSleep => "godeepsleep",
        Name::Identify => "identify",
        Name::ReadMult => "readmult",
        Name::SetMult => "setmult",
        Name::GoSleepSr => "gosleep_sr",
        Name::GoActiveSr => "goactive_sr",
        Name::GoDeepSleepSr => "godeepsleep_sr",
        Name::SetMultSr => "setmult_sr",
        Name::ReadStatus => "readstatus",
        Name::ReadTempSt => "readtempst",
        Name::ReadTemp => "readtemp",
        Name::ReadOtTh => "readotth",
        Name::SetOtTh => "setotth",
        Name::ReadSetup => "readsetup",
        Name::SetSetup => "setsetup",
        Name::ReadPwm => "readpwm",
        Name::SetPwm => "setpwm",
        Name::SetOtThSr => "setotth_sr",
        Name::SetSetupSr => "setsetup_sr",
        Name::SetPwmSr => "setpwm_sr",
    }
}

/// The words of a refusal, without its number and what it carries.
pub fn refusal(refusal: Refusal) -> &'static str {
    match refusal {
        Refusal::TooShort => "fewer than 4 bytes",
        Refusal::Preamble => "preamble is not 1010",
        Refusal::SizeIndex => "size index 5",
        Refusal::ByteCount => "byte count is not 4 + payload size",
        Refusal::Checksum { .. } => "checksum differs",
        Refusal::Unknown => "unknown command, or an answer to a command that has none",
        Refusal::Cast => "cast not allowed, or init at 000 while a lamp has no address",
        Refusal::PayloadSize => "payload size wrong for the command",
        Refusal::Room => "room too small",
        Refusal::Range => {
            "builder field, PWM duty or fault number out of range, or payload length not listed"
        }
        Refusal::Chain => "lamp count not 1 to 1007, or no valid chain",
        Refusal::PastEnd => "init runs past 3EF",
        Refusal::Place => "no lamp at that place",
    }
}
