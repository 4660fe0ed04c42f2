//! What lamps answer.

use crate::command::{Lamp, Name, Pwm};
use crate::telegram::{exact, Payload, Telegram};
use crate::Refusal;

/// A temperature byte and, behind it, a status byte.
#[derive(Clone, Copy, Debug, PartialEq, Eq)]
pub struct Health {
    pub temperature: u8,
    pub status: u8,
}

impl Health {
    fn of_bytes([temperature, status]: [u8; 2]) -> Health {
        Health {
            temperature,
            status,
        }
    }
}

/// An answer with what it carries. The number of bytes follows from the type of
/// the value.
#[derive(Clone, Copy, Debug, PartialEq, Eq)]
pub enum Answer {
    InitBidir(Health),
    InitLoop(Health),
    Identify(u32),
    ReadMult(u16),
    GoSleepSr(Health),
    GoActiveSr(Health),
    GoDeepSleepSr(Health),
    SetMultSr(Health),
    ReadStatus(u8),
    ReadTempSt(Health),
    ReadTemp(u8),
    ReadOtTh([u8; 3]),
    ReadSetup(u8),
    ReadPwm(Pwm),
    SetOtThSr(Health),
    SetSetupSr(Health),
    SetPwmSr(Health),
}

impl Answer {
    /// Reads an answer's payload. A command without answers is refused with 6,
    /// a wrong size with 8.
    pub fn of_payload(name: Name, payload: &[u8]) -> Result<Answer, Refusal> {
        let health = || exact(payload).map(Health::of_bytes);
        let byte = || exact(payload).map(|[byte]| byte);
        match name {
            Name::InitBidir => health().map(Answer::InitBidir),
            Name::InitLoop => health().map(Answer::InitLoop),
            Name::Identify => exact(payload).map(|four| Answer::Identify(u32::from_be_bytes(four))),
            Name::ReadMult => exact(payload).map(|two| Answer::ReadMult(u16::from_be_bytes(two))),
            Name::GoSleepSr => health().map(Answer::GoSleepSr),
            Name::GoActiveSr => health().map(Answer::GoActiveSr),
            Name::GoDeepSleepSr => health().map(Answer::GoDeepSleepSr),
            Name::SetMultSr => health().map(Answer::SetMultSr),
            Name::ReadStatus => byte().map(Answer::ReadStatus),
            Name::ReadTempSt => health().map(Answer::ReadTempSt),
            Name::ReadTemp => byte().map(Answer::ReadTemp),
            Name::ReadOtTh => exact(payload).map(Answer::ReadOtTh),
            Name::ReadSetup => byte().map(Answer::ReadSetup),
            Name::ReadPwm => exact(payload).map(|six| Answer::ReadPwm(Pwm::of_bytes(six))),
            Name::SetOtThSr => health().map(Answer::SetOtThSr),
            Name::SetSetupSr => health().map(Answer::SetSetupSr),
            Name::SetPwmSr => health().map(Answer::SetPwmSr),
            _ => Err(Refusal::Unknown),
        }
    }

    /// The name of the command that is answered.
    pub fn name(&self) -> Name {
        match self {
            Answer::InitBidir(_) => Name::InitBidir,
            Answer::InitLoop(_) => Name::InitLoop,
            Answer::Identify(_) => Name::Identify,
            Answer::ReadMult(_) => Name::ReadMult,
            Answer::GoSleepSr(_) => Name::GoSleepSr,
            Answer::GoActiveSr(_) => Name::GoActiveSr,
            Answer::GoDeepSleepSr(_) => Name::GoDeepSleepSr,
            Answer::SetMultSr(_) => Name::SetMultSr,
            Answer::ReadStatus(_) => Name::ReadStatus,
            Answer::ReadTempSt(_) => Name::ReadTempSt,
            Answer::ReadTemp(_) => Name::ReadTemp,
            Answer::ReadOtTh(_) => Name::ReadOtTh,
            Answer::ReadSetup(_) => Name::ReadSetup,
            Answer::ReadPwm(_) => Name::ReadPwm,
            Answer::SetOtThSr(_) => Name::SetOtThSr,
            Answer::SetSetupSr(_) => Name::SetSetupSr,
            Answer::SetPwmSr(_) => Name::SetPwmSr,
        }
    }

    /// The payload as it travels.
    pub fn payload(&self) -> Payload {
        match self {
            Answer::InitBidir(health)
            | Answer::InitLoop(health)
            | Answer::ReadTempSt(health)
            | Answer::GoSleepSr(health)
            | Answer::GoActiveSr(health)
            | Answer::GoDeepSleepSr(health)
            | Answer::SetMultSr(health)
            | Answer::SetOtThSr(health)
            | Answer::SetSetupSr(health)
            | Answer::SetPwmSr(health) => Payload::of(&[health.temperature, health.status]),
            Answer::Identify(identity) => Payload::of(&identity.to_be_bytes()),
            Answer::ReadMult(groups) => Payload::of(&groups.to_be_bytes()),
            Answer::ReadStatus(byte) | Answer::ReadTemp(byte) | Answer::ReadSetup(byte) => {
                Payload::of(&[*byte])
            }
            Answer::ReadOtTh(thresholds) => Payload::of(thresholds),
            Answer::ReadPwm(pwm) => Payload::of(&pwm.bytes()),
        }
    }
}

/// The command that a telegram answers; refuses with 6 to 8, in this order.
#[inline]
pub fn heading(telegram: &Telegram) -> Result<Name, Refusal> {
    let name = Name::of_number(u32::from(telegram.command())).ok_or(Refusal::Unknown)?;
    let size = name.answer_size().ok_or(Refusal::Unknown)?;
    if !answers_from(name, telegram.address()) {
        return Err(Refusal::Cast);
    }
    if telegram.payload().len() != size {
        return Err(Refusal::PayloadSize);
    }
    Ok(name)
}

/// An answer and whose it is.
#[derive(Clone, Copy, Debug, PartialEq, Eq)]
pub struct Reply {
    answer: Answer,
    address: u16,
}

impl Reply {
    /// Joins the two; refuses an address that does not answer so with 7.
    pub fn new(answer: Answer, address: u16) -> Result<Reply, Refusal> {
        if !answers_from(answer.name(), address) {
            return Err(Refusal::Cast);
        }
        Ok(Reply { answer, address })
    }

    /// Names the answer in a telegram; refuses with 6 to 8, in this order.
    pub fn of_telegram(telegram: &Telegram) -> Result<Reply, Refusal> {
        let name = heading(telegram)?;
        let answer = Answer::of_payload(name, telegram.payload())?;
        let address = telegram.address();
        Ok(Reply { answer, address })
    }

    /// Writes the reply as a telegram; refuses a short room with 9.
    pub fn write(&self, room: &mut [u8]) -> Result<usize, Refusal> {
        let number = u32::from(self.answer.name().number());
        let payload = self.answer.payload();
        Telegram::new(u32::from(self.address), number, payload.bytes())?.write(room)
    }

    /// The answer.
    pub fn answer(&self) -> Answer {
        self.answer
    }

    /// The address that answered.
    pub fn address(&self) -> u16 {
        self.address
    }
}

/// Whether this address answers this command: a lamp's own, and 000 after an
/// init at 000.
fn answers_from(name: Name, address: u16) -> bool {
    let address = u32::from(address);
    Lamp::new(address).is_some() || address == 0 && name.is_init()
}

#[cfg(test)]
mod tests {
    use super::*;
    use crate::command::Order;

    fn dissect(bytes: &[u8]) -> Result<Reply, Refusal> {
        Reply::of_telegram(&Telegram::parse(bytes)?)
    }

    /// A telegram of these fields, dissected.
    fn dissect_fields(address: u32, command: u32, payload: &[u8]) -> Result<Reply, Refusal> {
        let mut room = [0; 12];
        let size = Telegram::new(address, command, payload)?.write(&mut room)?;
        dissect(&room[..size])
    }

    #[test]
    fn captures_are_answers_to_initbidir() {
        let captures = [
            ([0xA0, 0x15, 0x02, 0x6F, 0x50, 0x30], 5, 0x6F),
            ([0xA0, 0x25, 0x02, 0x6B, 0x50, 0x7F], 9, 0x6B),
        ];
        for (bytes, address, temperature) in captures {
            let health = Health {
                temperature,
                status: 0x50,
            };
            let reply = dissect(&bytes).unwrap();
            assert_eq!(reply.answer(), Answer::InitBidir(health));
            assert_eq!(reply.address(), address);
            let mut room = [0; 6];
            assert_eq!(reply.write(&mut room), Ok(6));
            assert_eq!(room, bytes);
        }
    }

    #[test]
    fn only_the_answered_commands_have_answers() {
        for name in Name::ALL {
            let sizes = [0, 1, 2, 3, 4, 6, 8].map(|size| Answer::of_payload(name, &[0; 8][..size]));
            let accepted = sizes.iter().filter(|answer| answer.is_ok()).count();
            assert_eq!(accepted, usize::from(name.is_answered()));
            let unknown = sizes.contains(&Err(Refusal::Unknown));
            assert_eq!(unknown, !name.is_answered());
        }
    }

    #[test]
    fn sizes_are_those_of_the_fields() {
        for name in Name::ALL {
            for size in 0..=8 {
                let accepted = Answer::of_payload(name, &[0; 8][..size]).is_ok();
                assert_eq!(accepted, name.answer_size() == Some(size));
            }
        }
    }

    #[test]
    fn refusals_come_in_order() {
        assert_eq!(dissect_fields(0x3FF, 0x00, &[]), Err(Refusal::Unknown));
        assert_eq!(dissect_fields(0x3FF, 0x40, &[]), Err(Refusal::Cast));
        assert_eq!(dissect_fields(1, 0x40, &[]), Err(Refusal::PayloadSize));
    }

    #[test]
    fn address_zero_answers_inits_only() {
        assert!(dissect_fields(0, 0x02, &[0, 0]).is_ok());
        assert!(dissect_fields(0, 0x03, &[0, 0]).is_ok());
        assert_eq!(dissect_fields(0, 0x42, &[0, 0]), Err(Refusal::Cast));
        assert_eq!(dissect_fields(0x3F0, 0x02, &[0, 0]), Err(Refusal::Cast));
        assert!(dissect_fields(0x3EF, 0x42, &[0, 0]).is_ok());
    }

    #[test]
    fn acknowledged_commands_are_answered_with_temperature_and_status() {
        let health = Health::of_bytes([0x6B, 0x90]);
        let answers = [
            (0x24, Answer::GoSleepSr(health)),
            (0x25, Answer::GoActiveSr(health)),
            (0x26, Answer::GoDeepSleepSr(health)),
            (0x2D, Answer::SetMultSr(health)),
            (0x6B, Answer::SetOtThSr(health)),
            (0x6D, Answer::SetSetupSr(health)),
            (0x6F, Answer::SetPwmSr(health)),
        ];
        for (number, answer) in answers {
            for address in [1, 0x3EF] {
                let reply = dissect_fields(address, number, &[0x6B, 0x90]).unwrap();
                assert_eq!(Ok(reply), Reply::new(answer, address as u16));
            }
            for address in [0, 0x3F0, 0x3FF] {
                let reply = dissect_fields(address, number, &[0x6B, 0x90]);
                assert_eq!(reply, Err(Refusal::Cast));
            }
            for size in [0, 1, 3, 4, 6, 8] {
                let reply = dissect_fields(1, number, &[0x6B; 8][..size]);
                assert_eq!(reply, Err(Refusal::PayloadSize));
            }
        }
    }

    #[test]
    fn only_setmult_sr_is_a_command_and_an_answer() {
        for number in 0..128 {
            for (address, size) in [0, 1, 0x3EF, 0x3F0, 0x3FF]
                .into_iter()
                .flat_map(|address| [0, 1, 2, 3, 4, 6, 8].map(|size| (address, size)))
            {
                let payload = &[0x12; 8][..size];
                let telegram = Telegram::new(address, number, payload).unwrap();
                let both = Order::of_telegram(&telegram).is_ok() && heading(&telegram).is_ok();
                let one_lamp = matches!(address, 1 | 0x3EF);
                assert_eq!(both, number == 0x2D && size == 2 && one_lamp);
            }
        }
    }
}
