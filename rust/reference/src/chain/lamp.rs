//! One lamp as it lies in its slot of the record. Every function works in
//! place on the slot's bytes.

use crate::chain::Defaults;
use crate::command::{Group, Lamp, Name, LAST_LAMP};
use std::ops::RangeInclusive;

/// The bytes of a slot.
pub const SLOT: usize = 16;
/// A lamp's bytes: address, status, temperature, thresholds, setup, group word
/// and PWM.
pub type Slot = [u8; SLOT];

/// The bytes of a lamp that is read out.
pub const READ_OUT: usize = 18;

/// The addresses of lamps, and that of a lamp which has none.
const LAMPS: RangeInclusive<u16> = 1..=LAST_LAMP;
const NO_ADDRESS: u16 = 0x3FF;

const STATUS: usize = 2;
const TEMPERATURE: usize = 3;
const SETUP: usize = 7;

/// The bits of the status byte.
const STATE_SHIFT: u8 = 6;
const COM: u8 = 0x10;
const CE: u8 = 0x08;
/// OTPCRC, CE, LOS, OT and UV.
const FLAGS: u8 = 0x2F;

/// The four states; each value is that of the status byte's top bits.
#[derive(Clone, Copy, Debug, PartialEq, Eq)]
#[repr(u8)]
pub enum State {
    Uninitialized = 0,
    Sleep = 1,
    Active = 2,
    DeepSleep = 3,
}

/// Which way answers travel; each value is that of the bit COM.
#[derive(Clone, Copy, Debug, PartialEq, Eq)]
#[repr(u8)]
pub enum Direction {
    Bidirectional = 0,
    Loop = COM,
}

/// A lamp as RESET leaves it, at temperature 0.
pub fn fresh(defaults: Defaults) -> Slot {
    let [high, low] = NO_ADDRESS.to_be_bytes();
    let [t0, t1, t2] = defaults.thresholds;
    let (status, setup) = (COM, defaults.setup);
    [
        high, low, status, 0, t0, t1, t2, setup, 0, 0, 0, 0, 0, 0, 0, 0,
    ]
}

/// The address.
#[inline]
pub fn address(slot: &Slot) -> u16 {
    u16::from_be_bytes([slot[0], slot[1]])
}

/// Whether the lamp has this address.
#[inline]
pub fn has_address(slot: &Slot, lamp: Lamp) -> bool {
    slot[..2] == lamp.address().to_be_bytes()
}

/// Whether the lamp has no address.
pub fn is_unnumbered(slot: &Slot) -> bool {
    address(slot) == NO_ADDRESS
}

/// Whether the address is one that a lamp can have: hex 001 to 3EF or 3FF.
#[inline]
pub fn is_valid(slot: &Slot) -> bool {
    let address = address(slot);
    LAMPS.contains(&address) | (address == NO_ADDRESS)
}

/// Whether the lamp obeys everything, and not only RESET, CLRERROR and init.
#[inline]
pub fn is_initialized(slot: &Slot) -> bool {
    slot[STATUS] >> STATE_SHIFT != State::Uninitialized as u8
}

/// Whether the lamp is a member of a group.
#[inline]
pub fn is_member(slot: &Slot, group: Group) -> bool {
    u16::from_be_bytes([slot[8], slot[9]]) >> group.number() & 1 == 1
}

/// Temperature and status, as they are answered.
pub fn health(slot: &Slot) -> [u8; 2] {
    [slot[TEMPERATURE], slot[STATUS]]
}

/// The bytes of the register that a command reads, without those of `health`;
/// nothing for a command that reads none.
pub fn register(slot: &Slot, name: Name) -> Option<&[u8]> {
    Some(match name {
        Name::Identify => &[0; 4],
        Name::ReadMult => &slot[8..10],
        Name::ReadStatus => &slot[STATUS..=STATUS],
        Name::ReadTemp => &slot[TEMPERATURE..=TEMPERATURE],
        Name::ReadOtTh => &slot[4..7],
        Name::ReadSetup => &slot[SETUP..=SETUP],
        Name::ReadPwm => &slot[10..],
        _ => return None,
    })
}

/// RESET: all as in a fresh lamp, the temperature kept.
pub fn reset(slot: &mut Slot, fresh: Slot) {
    let temperature = slot[TEMPERATURE];
    *slot = fresh;
    slot[TEMPERATURE] = temperature;
}

/// Clears the five flags.
pub fn clear_flags(slot: &mut Slot) {
    slot[STATUS] &= !FLAGS;
}

/// Sets the flag for a communication error.
pub fn set_error(slot: &mut Slot) {
    slot[STATUS] |= CE;
}

/// Sets the state.
pub fn go(slot: &mut Slot, state: State) {
    slot[STATUS] = slot[STATUS] & (COM | FLAGS) | (state as u8) << STATE_SHIFT;
}

/// Takes an address from an init: state SLEEP, the direction set, the flags as
/// they were.
#[inline]
pub fn number(slot: &mut Slot, address: u16, direction: Direction) {
    slot[..2].copy_from_slice(&address.to_be_bytes());
    let state = (State::Sleep as u8) << STATE_SHIFT;
    slot[STATUS] = slot[STATUS] & FLAGS | state | direction as u8;
}

/// Stores a temperature and sets the flags of a sum of 4 for LOS, 2 for OT and
/// 1 for UV, which are the lowest bits of the status byte in this order.
pub fn sense(slot: &mut Slot, temperature: u8, faults: u8) {
    slot[TEMPERATURE] = temperature;
    slot[STATUS] |= faults;
}

/// Stores the thresholds.
pub fn set_thresholds(slot: &mut Slot, thresholds: [u8; 3]) {
    slot[4..7].copy_from_slice(&thresholds);
}

/// Stores the setup byte.
pub fn set_setup(slot: &mut Slot, setup: u8) {
    slot[SETUP] = setup;
}

/// Stores the group word.
pub fn set_groups(slot: &mut Slot, groups: [u8; 2]) {
    slot[8..10].copy_from_slice(&groups);
}

/// Stores the PWM bytes.
pub fn set_pwm(slot: &mut Slot, pwm: [u8; 6]) {
    slot[10..].copy_from_slice(&pwm);
}

/// All fields in the order of the interface: the status byte is split into
/// state, COM and flags.
pub fn read_out(slot: &Slot, out: &mut [u8; READ_OUT]) {
    let status = slot[STATUS];
    let split = [status >> STATE_SHIFT, u8::from(status & COM != 0)];
    out[..2].copy_from_slice(&slot[..2]);
    out[2..4].copy_from_slice(&split);
    out[4] = status & FLAGS;
    out[5..].copy_from_slice(&slot[TEMPERATURE..]);
}
