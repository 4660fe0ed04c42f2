//! The commands by name: their numbers, sizes and casts.

use crate::command::Cast;

/// The bit of a command's number with which the host asks to be answered.
const STATUS_REQUEST: u8 = 1 << 5;

/// The commands by name; each value is the command's number. `Sr`, for status
/// request, marks the acknowledged form of a command.
#[derive(Clone, Copy, Debug, PartialEq, Eq)]
#[repr(u8)]
pub enum Name {
    Reset = 0x00,
    ClrError = 0x01,
    InitBidir = 0x02,
    InitLoop = 0x03,
    GoSleep = 0x04,
    GoActive = 0x05,
    GoDeepSleep = 0x06,
    Identify = 0x07,
    ReadMult = 0x0C,
    SetMult = 0x0D,
    GoSleepSr = 0x24,
    GoActiveSr = 0x25,
    GoDeepSleepSr = 0x26,
    SetMultSr = 0x2D,
    ReadStatus = 0x40,
    ReadTempSt = 0x42,
    ReadTemp = 0x48,
    ReadOtTh = 0x4A,
    SetOtTh = 0x4B,
    ReadSetup = 0x4C,
    SetSetup = 0x4D,
    ReadPwm = 0x4E,
    SetPwm = 0x4F,
    SetOtThSr = 0x6B,
    SetSetupSr = 0x6D,
    SetPwmSr = 0x6F,
}

impl Name {
    /// Every known command, by rising number.
    pub const ALL: [Name; 26] = [
        Name::Reset,
        Name::ClrError,
        Name::InitBidir,
        Name::InitLoop,
        Name::GoSleep,
        Name::GoActive,
        Name::GoDeepSleep,
        Name::Identify,
        Name::ReadMult,
        Name::SetMult,
        Name::GoSleepSr,
        Name::GoActiveSr,
        Name::GoDeepSleepSr,
        Name::SetMultSr,
        Name::ReadStatus,
        Name::ReadTempSt,
        Name::ReadTemp,
        Name::ReadOtTh,
        Name::SetOtTh,
        Name::ReadSetup,
        Name::SetSetup,
        Name::ReadPwm,
        Name::SetPwm,
        Name::SetOtThSr,
        Name::SetSetupSr,
        Name::SetPwmSr,
    ];

    /// The command with this number, if there is one. Always inlined: the
    /// compiler takes the match for longer than it becomes.
    #[inline(always)]
    pub fn of_number(number: u32) -> Option<Name> {
        Some(match number {
            0x00 => Name::Reset,
            0x01 => Name::ClrError,
            0x02 => Name::InitBidir,
            0x03 => Name::InitLoop,
            0x04 => Name::GoSleep,
            0x05 => Name::GoActive,
            0x06 => Name::GoDeepSleep,
            0x07 => Name::Identify,
            0x0C => Name::ReadMult,
            0x0D => Name::SetMult,
            0x24 => Name::GoSleepSr,
            0x25 => Name::GoActiveSr,
            0x26 => Name::GoDeepSleepSr,
            0x2D => Name::SetMultSr,
            0x40 => Name::ReadStatus,
            0x42 => Name::ReadTempSt,
            0x48 => Name::ReadTemp,
            0x4A => Name::ReadOtTh,
            0x4B => Name::SetOtTh,
            0x4C => Name::ReadSetup,
            0x4D => Name::SetSetup,
            0x4E => Name::ReadPwm,
            0x4F => Name::SetPwm,
            0x6B => Name::SetOtThSr,
            0x6D => Name::SetSetupSr,
            0x6F => Name::SetPwmSr,
            _ => return None,
        })
    }

    /// The command's number.
    pub fn number(self) -> u8 {
        self as u8
    }

    /// Whether this is the acknowledged form of a command.
    pub fn is_acknowledged(self) -> bool {
        self.number() & STATUS_REQUEST != 0
    }

    /// The form of the command that nobody acknowledges; itself for all others.
    pub fn plain(self) -> Name {
        match self {
            Name::GoSleepSr => Name::GoSleep,
            Name::GoActiveSr => Name::GoActive,
            Name::GoDeepSleepSr => Name::GoDeepSleep,
            Name::SetMultSr => Name::SetMult,
            Name::SetOtThSr => Name::SetOtTh,
            Name::SetSetupSr => Name::SetSetup,
            Name::SetPwmSr => Name::SetPwm,
            other => other,
        }
    }

    /// How many bytes the command carries.
    pub fn payload_size(self) -> usize {
        match self {
            Name::SetSetup | Name::SetSetupSr => 1,
            Name::SetMult | Name::SetMultSr => 2,
            Name::SetOtTh | Name::SetOtThSr => 3,
            Name::SetPwm | Name::SetPwmSr => 6,
            _ => 0,
        }
    }

    /// How many bytes an answer carries, if a lamp answers the command.
    pub fn answer_size(self) -> Option<usize> {
        match self {
            Name::ReadStatus | Name::ReadTemp | Name::ReadSetup => Some(1),
            Name::InitBidir | Name::InitLoop | Name::ReadMult | Name::ReadTempSt => Some(2),
            Name::ReadOtTh => Some(3),
            Name::Identify => Some(4),
            Name::ReadPwm => Some(6),
            Name::Reset | Name::ClrError | Name::SetMult => None,
            Name::GoSleep | Name::GoActive | Name::GoDeepSleep => None,
            Name::SetOtTh | Name::SetSetup | Name::SetPwm => None,
            Name::GoSleepSr | Name::GoActiveSr | Name::GoDeepSleepSr => Some(2),
            Name::SetMultSr | Name::SetOtThSr | Name::SetSetupSr | Name::SetPwmSr => Some(2),
        }
    }

    /// Whether a lamp answers the command.
    pub fn is_answered(self) -> bool {
        self.answer_size().is_some()
    }

    /// Whether the command numbers the lamps.
    pub fn is_init(self) -> bool {
        matches!(self, Name::InitBidir | Name::InitLoop)
    }

    /// Whether the command may go there. What is answered goes to one lamp
    /// only; an init names its first lamp, or address 000. Inlined like
    /// `of_number`.
    #[inline(always)]
    pub fn goes_to(self, cast: Cast) -> bool {
        match cast {
            Cast::One(_) => true,
            Cast::Everyone => self.is_init() || !self.is_answered(),
            Cast::Members(_) => !self.is_answered(),
        }
    }
}

#[cfg(test)]
mod tests {
    use super::*;

    #[test]
    fn twenty_six_numbers_are_known() {
        let known: Vec<Name> = (0..=300).filter_map(Name::of_number).collect();
        assert_eq!(known, Name::ALL);
        for name in Name::ALL {
            assert_eq!(Name::of_number(u32::from(name.number())), Some(name));
        }
    }

    #[test]
    fn seven_commands_have_an_acknowledged_form() {
        let acknowledged = Name::ALL.into_iter().filter(|name| name.is_acknowledged());
        let numbers: Vec<u8> = acknowledged.map(Name::number).collect();
        assert_eq!(numbers, [0x24, 0x25, 0x26, 0x2D, 0x6B, 0x6D, 0x6F]);
        for number in (0..128).filter(|number| number & 0x20 != 0) {
            let known = Name::of_number(number);
            assert_eq!(known.is_some(), numbers.contains(&(number as u8)));
        }
    }

    #[test]
    fn plain_forms_are_those_without_bit_5() {
        for name in Name::ALL {
            let plain = name.plain();
            assert_eq!(plain.number(), name.number() & !0x20);
            assert_eq!(plain == name, !name.is_acknowledged());
            assert_eq!(plain.payload_size(), name.payload_size());
            if name.is_acknowledged() {
                assert_eq!((plain.answer_size(), name.answer_size()), (None, Some(2)));
            }
        }
    }
}
