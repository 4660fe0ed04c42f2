//! What a telegram does to the chain.

use crate::chain::lamp::{self, Direction, Slot, State};
use crate::chain::Chain;
use crate::command::{heading, Cast, Lamp, Name};
use crate::telegram::{exact, Telegram, LONGEST};
use crate::Refusal;
use std::slice;

/// Delivers a telegram and gives the count of answer bytes written: 9, 11, 1
/// to 8, then 7 for an init at 000, or 12. A refusal changes nothing, but 5
/// sets CE on the lamp at place 0.
pub fn deliver(memory: &mut [u8], bytes: &[u8], room: &mut [u8]) -> Result<usize, Refusal> {
    let room = room.first_chunk_mut().ok_or(Refusal::Room)?;
    let mut chain = Chain::open(memory)?;
    let telegram = chain.hear(bytes)?;
    chain.take(&telegram, room)
}

/// Writes an answer.
fn answer(address: u16, name: Name, bytes: &[u8], room: &mut [u8]) -> Result<usize, Refusal> {
    Telegram::new(u32::from(address), u32::from(name.number()), bytes)?.write(room)
}

impl Chain<'_> {
    /// Reads a telegram that comes from the host: 1 to 5. A wrong checksum sets
    /// CE on the lamp nearest the host.
    #[inline]
    pub fn hear<'a>(&mut self, bytes: &'a [u8]) -> Result<Telegram<'a>, Refusal> {
        Telegram::parse(bytes).inspect_err(|refusal| {
            if matches!(refusal, Refusal::Checksum { .. }) {
                lamp::set_error(&mut self.slots[0]);
            }
        })
    }

    /// Takes a telegram and gives the count of answer bytes written: 6 to 8,
    /// then 7 for an init at 000, or 12.
    #[inline]
    pub fn take(
        &mut self,
        telegram: &Telegram,
        room: &mut [u8; LONGEST],
    ) -> Result<usize, Refusal> {
        let (name, cast) = heading(telegram)?;
        match name {
            Name::InitBidir => self.init(name, cast, Direction::Bidirectional, room),
            Name::InitLoop => self.init(name, cast, Direction::Loop, room),
            _ if name.is_acknowledged() => self.acknowledge(name, cast, telegram.payload(), room),
            _ if name.is_answered() => self.read(name, cast, room),
            _ => self.obey(name, cast, telegram.payload()).map(|()| 0),
        }
    }

    /// Does what a command says that nobody answers. Always inlined, so that a lamp
    /// alone does not pay for the loops over many.
    #[inline(always)]
    fn obey(&mut self, name: Name, cast: Cast, payload: &[u8]) -> Result<(), Refusal> {
        match name {
            Name::Reset => {
                let fresh = lamp::fresh(self.defaults);
                self.each(cast, |slot| lamp::reset(slot, fresh));
            }
            Name::ClrError => self.each(cast, lamp::clear_flags),
            Name::GoSleep => self.each_initialized(cast, |slot| lamp::go(slot, State::Sleep)),
            Name::GoActive => self.each_initialized(cast, |slot| lamp::go(slot, State::Active)),
            Name::GoDeepSleep => {
                self.each_initialized(cast, |slot| lamp::go(slot, State::DeepSleep));
            }
            Name::SetMult => {
                let groups = exact(payload)?;
                self.each_initialized(cast, |slot| lamp::set_groups(slot, groups));
            }
            Name::SetOtTh => {
                let thresholds = exact(payload)?;
                self.each_initialized(cast, |slot| lamp::set_thresholds(slot, thresholds));
            }
            Name::SetSetup => {
                let [setup] = exact(payload)?;
                self.each_initialized(cast, |slot| lamp::set_setup(slot, setup));
            }
            Name::SetPwm => {
                let pwm = exact(payload)?;
                self.each_initialized(cast, |slot| lamp::set_pwm(slot, pwm));
            }
            // The others are answered: `acknowledge`, `read` and `init` do them.
            _ => {}
        }
        Ok(())
    }

    /// The first lamp with an address; the telegram ends there.
    fn first(&mut self, wanted: Lamp) -> Option<&mut Slot> {
        self.slots
            .iter_mut()
            .find(|slot| lamp::has_address(slot, wanted))
    }

    /// Lets each lamp act to which a cast goes. Every action gets loops of its
    /// own, so that none decides anew at each lamp what to do.
    #[inline]
    fn each(&mut self, cast: Cast, act: impl Fn(&mut Slot)) {
        match cast {
            Cast::One(lamp) => {
                if let Some(slot) = self.first(lamp) {
                    act(slot);
                }
            }
            Cast::Everyone => self.slots.iter_mut().for_each(act),
            Cast::Members(group) => {
                let members = self.slots.iter_mut();
                members
                    .filter(|slot| lamp::is_member(slot, group))
                    .for_each(act);
            }
        }
    }

    /// The same, passing by the lamps in UNINITIALIZED.
    #[inline]
    fn each_initialized(&mut self, cast: Cast, act: impl Fn(&mut Slot)) {
        self.each(cast, |slot| {
            if lamp::is_initialized(slot) {
                act(slot);
            }
        });
    }

    /// The lamp that answers a command for one; none if nobody has the address, or
    /// if the command passes that lamp by.
    fn answering(&mut self, lamp: Lamp) -> Option<&mut Slot> {
        self.first(lamp).filter(|slot| lamp::is_initialized(slot))
    }

    /// An acknowledged command, which goes to one lamp: the lamp does, as a chain of
    /// its own, what the plain form says, then answers temperature and status as they
    /// now are. No flag is cleared.
    fn acknowledge(
        &mut self,
        name: Name,
        cast: Cast,
        payload: &[u8],
        room: &mut [u8],
    ) -> Result<usize, Refusal> {
        let Cast::One(lamp) = cast else {
            return Err(Refusal::Cast);
        };
        let defaults = self.defaults;
        let Some(slot) = self.answering(lamp) else {
            return Ok(0);
        };
        let mut alone = *slot;
        let slots = slice::from_mut(&mut alone);
        Chain { defaults, slots }.obey(name.plain(), cast, payload)?;
        *slot = alone;
        answer(lamp.address(), name, &lamp::health(slot), room)
    }

    /// A read command, which goes to one lamp. The two that show the flags
    /// clear them when the answer is made.
    fn read(&mut self, name: Name, cast: Cast, room: &mut [u8]) -> Result<usize, Refusal> {
        let Cast::One(lamp) = cast else {
            return Err(Refusal::Cast);
        };
        let Some(slot) = self.answering(lamp) else {
            return Ok(0);
        };
        let health = lamp::health(slot);
        let bytes = lamp::register(slot, name).unwrap_or(&health);
        let count = answer(lamp.address(), name, bytes, room)?;
        if matches!(name, Name::ReadStatus | Name::ReadTempSt) {
            lamp::clear_flags(slot);
        }
        Ok(count)
    }

    /// An init from a first address, or at 000; the last lamp answers.
    fn init(
        &mut self,
        name: Name,
        cast: Cast,
        direction: Direction,
        room: &mut [u8],
    ) -> Result<usize, Refusal> {
        let address = match cast {
            Cast::One(first) => self.number(first, direction)?,
            _ => self.number_nobody(direction)?,
        };
        let health = lamp::health(&self.slots[self.slots.len() - 1]);
        answer(address, name, &health, room)
    }

    /// Numbers the lamps and gives the last one's address; refuses to run past
    /// 3EF with 12.
    fn number(&mut self, first: Lamp, direction: Direction) -> Result<u16, Refusal> {
        let first = first.address();
        let last = u32::from(first) + self.slots.len() as u32 - 1;
        let last = Lamp::new(last).ok_or(Refusal::PastEnd)?;
        for (slot, address) in self.slots.iter_mut().zip(first..) {
            lamp::number(slot, address, direction);
        }
        Ok(last.address())
    }

    /// Init at 000: refused with 7 while a lamp has no address. INITBIDIR sets
    /// CE on every lamp.
    fn number_nobody(&mut self, direction: Direction) -> Result<u16, Refusal> {
        if self.slots.iter().any(lamp::is_unnumbered) {
            return Err(Refusal::Cast);
        }
        if direction == Direction::Bidirectional {
            self.slots.iter_mut().for_each(lamp::set_error);
        }
        Ok(0)
    }
}
