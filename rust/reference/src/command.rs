//! Named commands, where they go, and what they carry.
//!
//! - [`name`]: the commands by name.
//! - [`pwm`]: the words of the three colours.

mod name;
mod pwm;
#[cfg(test)]
mod tests;

use crate::telegram::{exact, Payload, Telegram};
use crate::Refusal;

pub use name::Name;
pub use pwm::{Channel, Pwm};

/// The last address of a single lamp.
pub(crate) const LAST_LAMP: u16 = 0x3EF;
/// The address of group 0; the groups follow one another.
const FIRST_GROUP: u32 = 0x3F0;
/// The last group.
const LAST_GROUP: u32 = 14;

/// The address of one lamp, hex 001 to 3EF.
#[derive(Clone, Copy, Debug, PartialEq, Eq)]
pub struct Lamp(u16);

impl Lamp {
    /// A lamp's address, if it is in range.
    pub fn new(address: u32) -> Option<Lamp> {
        (1..=u32::from(LAST_LAMP))
            .contains(&address)
            .then_some(Lamp(address as u16))
    }

    /// The address as a number.
    pub fn address(self) -> u16 {
        self.0
    }
}

/// The number of a group, 0 to 14.
#[derive(Clone, Copy, Debug, PartialEq, Eq)]
pub struct Group(u8);

impl Group {
    /// A group, if its number is in range.
    pub fn new(number: u32) -> Option<Group> {
        (number <= LAST_GROUP).then_some(Group(number as u8))
    }

    /// The group's number.
    pub fn number(self) -> u8 {
        self.0
    }
}

/// To whom a command goes.
#[derive(Clone, Copy, Debug, PartialEq, Eq)]
pub enum Cast {
    Everyone,
    One(Lamp),
    Members(Group),
}

impl Cast {
    /// The cast of a telegram's address; hex 3FF is nobody's.
    pub fn of_address(address: u16) -> Option<Cast> {
        let address = u32::from(address);
        if address == 0 {
            return Some(Cast::Everyone);
        }
        match address.checked_sub(FIRST_GROUP) {
            None => Lamp::new(address).map(Cast::One),
            Some(number) => Group::new(number).map(Cast::Members),
        }
    }

    /// The telegram's address for this cast.
    pub fn address(self) -> u32 {
        match self {
            Cast::Everyone => 0,
            Cast::One(lamp) => u32::from(lamp.0),
            Cast::Members(group) => FIRST_GROUP + u32::from(group.0),
        }
    }
}

/// A command with what it carries. The size of the payload follows from the
/// type of the value. An acknowledged command (`Sr`) carries what its plain form
/// does.
#[derive(Clone, Copy, Debug, PartialEq, Eq)]
pub enum Command {
    Reset,
    ClrError,
    InitBidir,
    InitLoop,
    GoSleep,
    GoActive,
    GoDeepSleep,
    Identify,
    ReadMult,
    /// The group word; bit g stands for group g, bit 15 for nothing.
    SetMult(u16),
    GoSleepSr,
    GoActiveSr,
    GoDeepSleepSr,
    SetMultSr(u16),
    ReadStatus,
    ReadTempSt,
    ReadTemp,
    ReadOtTh,
    /// The three thresholds.
    SetOtTh([u8; 3]),
    ReadSetup,
    /// The setup byte.
    SetSetup(u8),
    ReadPwm,
    /// The three colours.
    SetPwm(Pwm),
    SetOtThSr([u8; 3]),
    SetSetupSr(u8),
    SetPwmSr(Pwm),
}

impl Command {
    /// Reads a command's payload; refuses a wrong size with 8.
    pub fn of_payload(name: Name, payload: &[u8]) -> Result<Command, Refusal> {
        let bare = |command| exact(payload).map(|[]| command);
        let word = || exact(payload).map(u16::from_be_bytes);
        let byte = || exact(payload).map(|[byte]| byte);
        let pwm = || exact(payload).map(Pwm::of_bytes);
        match name {
            Name::Reset => bare(Command::Reset),
            Name::ClrError => bare(Command::ClrError),
            Name::InitBidir => bare(Command::InitBidir),
            Name::InitLoop => bare(Command::InitLoop),
            Name::GoSleep => bare(Command::GoSleep),
            Name::GoActive => bare(Command::GoActive),
            Name::GoDeepSleep => bare(Command::GoDeepSleep),
            Name::Identify => bare(Command::Identify),
            Name::ReadMult => bare(Command::ReadMult),
            Name::SetMult => word().map(Command::SetMult),
            Name::GoSleepSr => bare(Command::GoSleepSr),
            Name::GoActiveSr => bare(Command::GoActiveSr),
            Name::GoDeepSleepSr => bare(Command::GoDeepSleepSr),
            Name::SetMultSr => word().map(Command::SetMultSr),
            Name::ReadStatus => bare(Command::ReadStatus),
            Name::ReadTempSt => bare(Command::ReadTempSt),
            Name::ReadTemp => bare(Command::ReadTemp),
            Name::ReadOtTh => bare(Command::ReadOtTh),
            Name::SetOtTh => exact(payload).map(Command::SetOtTh),
            Name::ReadSetup => bare(Command::ReadSetup),
            Name::SetSetup => byte().map(Command::SetSetup),
            Name::ReadPwm => bare(Command::ReadPwm),
            Name::SetPwm => pwm().map(Command::SetPwm),
            Name::SetOtThSr => exact(payload).map(Command::SetOtThSr),
            Name::SetSetupSr => byte().map(Command::SetSetupSr),
            Name::SetPwmSr => pwm().map(Command::SetPwmSr),
        }
    }

    /// The command's name.
    pub fn name(&self) -> Name {
        match self {
            Command::Reset => Name::Reset,
            Command::ClrError => Name::ClrError,
            Command::InitBidir => Name::InitBidir,
            Command::InitLoop => Name::InitLoop,
            Command::GoSleep => Name::GoSleep,
            Command::GoActive => Name::GoActive,
            Command::GoDeepSleep => Name::GoDeepSleep,
            Command::Identify => Name::Identify,
            Command::ReadMult => Name::ReadMult,
            Command::SetMult(_) => Name::SetMult,
            Command::GoSleepSr => Name::GoSleepSr,
            Command::GoActiveSr => Name::GoActiveSr,
            Command::GoDeepSleepSr => Name::GoDeepSleepSr,
            Command::SetMultSr(_) => Name::SetMultSr,
            Command::ReadStatus => Name::ReadStatus,
            Command::ReadTempSt => Name::ReadTempSt,
            Command::ReadTemp => Name::ReadTemp,
            Command::ReadOtTh => Name::ReadOtTh,
            Command::SetOtTh(_) => Name::SetOtTh,
            Command::ReadSetup => Name::ReadSetup,
            Command::SetSetup(_) => Name::SetSetup,
            Command::ReadPwm => Name::ReadPwm,
            Command::SetPwm(_) => Name::SetPwm,
            Command::SetOtThSr(_) => Name::SetOtThSr,
            Command::SetSetupSr(_) => Name::SetSetupSr,
            Command::SetPwmSr(_) => Name::SetPwmSr,
        }
    }

    /// The payload as it travels.
    pub fn payload(&self) -> Payload {
        match self {
            Command::SetMult(groups) | Command::SetMultSr(groups) => {
                Payload::of(&groups.to_be_bytes())
            }
            Command::SetOtTh(thresholds) | Command::SetOtThSr(thresholds) => {
                Payload::of(thresholds)
            }
            Command::SetSetup(setup) | Command::SetSetupSr(setup) => Payload::of(&[*setup]),
            Command::SetPwm(pwm) | Command::SetPwmSr(pwm) => Payload::of(&pwm.bytes()),
            _ => Payload::of(&[]),
        }
    }
}

/// The command in a telegram and to whom it goes; refuses with 6 to 8, in this
/// order.
#[inline]
pub fn heading(telegram: &Telegram) -> Result<(Name, Cast), Refusal> {
    let name = Name::of_number(u32::from(telegram.command())).ok_or(Refusal::Unknown)?;
    let cast = Cast::of_address(telegram.address())
        .filter(|&cast| name.goes_to(cast))
        .ok_or(Refusal::Cast)?;
    if telegram.payload().len() != name.payload_size() {
        return Err(Refusal::PayloadSize);
    }
    Ok((name, cast))
}

/// A command and to whom it goes.
#[derive(Clone, Copy, Debug, PartialEq, Eq)]
pub struct Order {
    command: Command,
    cast: Cast,
}

impl Order {
    /// Joins the two; refuses a cast that is not the command's with 7.
    pub fn new(command: Command, cast: Cast) -> Result<Order, Refusal> {
        if !command.name().goes_to(cast) {
            return Err(Refusal::Cast);
        }
        Ok(Order { command, cast })
    }

    /// Names the command in a telegram; refuses with 6 to 8, in this order.
    pub fn of_telegram(telegram: &Telegram) -> Result<Order, Refusal> {
        let (name, cast) = heading(telegram)?;
        let command = Command::of_payload(name, telegram.payload())?;
        Ok(Order { command, cast })
    }

    /// Writes the order as a telegram; refuses a short room with 9.
    pub fn write(&self, room: &mut [u8]) -> Result<usize, Refusal> {
        let number = u32::from(self.command.name().number());
        let payload = self.command.payload();
        Telegram::new(self.cast.address(), number, payload.bytes())?.write(room)
    }

    /// The command.
    pub fn command(&self) -> Command {
        self.command
    }

    /// To whom it goes.
    pub fn cast(&self) -> Cast {
        self.cast
    }
}
