//! The words of the three colours, which SETPWM carries and READPWM answers.

use crate::Refusal;

/// The bit of a colour's word that chooses the current.
const DAYTIME: u16 = 0x8000;
/// The longest duty.
const LAST_DUTY: u32 = 32_767;
/// All three colours in daytime mode.
const LAST_MODES: u32 = 7;

/// One colour's word: the current and how long the light is on.
#[derive(Clone, Copy, Debug, PartialEq, Eq)]
pub struct Channel {
    daytime: bool,
    duty: u16,
}

impl Channel {
    /// A colour's word; refuses a duty above 32,767 with 10.
    pub fn new(daytime: bool, duty: u32) -> Result<Channel, Refusal> {
        if duty > LAST_DUTY {
            return Err(Refusal::Range);
        }
        let duty = duty as u16;
        Ok(Channel { daytime, duty })
    }

    /// Takes a word apart: the top bit and the fifteen below.
    pub fn of_word(word: u16) -> Channel {
        Channel {
            daytime: word & DAYTIME != 0,
            duty: word & !DAYTIME,
        }
    }

    /// Whether the current is that of daytime.
    pub fn is_daytime(self) -> bool {
        self.daytime
    }

    /// How long the light is on, up to 32,767.
    pub fn duty(self) -> u16 {
        self.duty
    }

    /// The word as it travels.
    pub fn word(self) -> u16 {
        let mode = if self.daytime { DAYTIME } else { 0 };
        mode | self.duty
    }
}

/// The words of the three colours, in the order in which they travel.
#[derive(Clone, Copy, Debug, PartialEq, Eq)]
pub struct Pwm {
    pub red: Channel,
    pub green: Channel,
    pub blue: Channel,
}

impl Pwm {
    /// The words of three duties, red, green, blue. The modes are a sum of 4
    /// for red, 2 for green and 1 for blue in daytime mode. Refuses modes above
    /// 7 and a duty above 32,767 with 10.
    pub fn new(modes: u32, [red, green, blue]: [u32; 3]) -> Result<Pwm, Refusal> {
        if modes > LAST_MODES {
            return Err(Refusal::Range);
        }
        Ok(Pwm {
            red: Channel::new(modes & 4 != 0, red)?,
            green: Channel::new(modes & 2 != 0, green)?,
            blue: Channel::new(modes & 1 != 0, blue)?,
        })
    }

    /// Takes six bytes apart, high bytes first.
    pub fn of_bytes(bytes: [u8; 6]) -> Pwm {
        let [r1, r0, g1, g0, b1, b0] = bytes;
        Pwm {
            red: Channel::of_word(u16::from_be_bytes([r1, r0])),
            green: Channel::of_word(u16::from_be_bytes([g1, g0])),
            blue: Channel::of_word(u16::from_be_bytes([b1, b0])),
        }
    }

    /// The six bytes as they travel.
    pub fn bytes(self) -> [u8; 6] {
        let [r1, r0] = self.red.word().to_be_bytes();
        let [g1, g0] = self.green.word().to_be_bytes();
        let [b1, b0] = self.blue.word().to_be_bytes();
        [r1, r0, g1, g0, b1, b0]
    }
}

#[cfg(test)]
mod tests {
    use super::*;

    #[test]
    fn every_colour_has_its_mode_and_duty() {
        let bytes = |modes| Pwm::new(modes, [0x0102, 0x0304, 0x7FFF]).unwrap().bytes();
        assert_eq!(bytes(0), [0x01, 0x02, 0x03, 0x04, 0x7F, 0xFF]);
        assert_eq!(bytes(4), [0x81, 0x02, 0x03, 0x04, 0x7F, 0xFF]);
        assert_eq!(bytes(2), [0x01, 0x02, 0x83, 0x04, 0x7F, 0xFF]);
        assert_eq!(bytes(1), [0x01, 0x02, 0x03, 0x04, 0xFF, 0xFF]);
        assert_eq!(bytes(7), [0x81, 0x02, 0x83, 0x04, 0xFF, 0xFF]);
    }

    #[test]
    fn words_come_back() {
        for word in 0..=u16::MAX {
            assert_eq!(Channel::of_word(word).word(), word);
        }
    }
}
