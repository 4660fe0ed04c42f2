//! The modelled chain of lamps on lent bytes.
//!
//! - [`lamp`]: one lamp as it lies in its slot of the record.
//! - [`record`]: the record as a whole: making, opening, reading a lamp out.
//! - [`delivery`]: what a telegram does to the chain.

pub mod delivery;
pub mod lamp;
pub mod record;
#[cfg(test)]
mod tests;

pub use delivery::deliver;
pub use record::{length, make, read_out, sense, Chain, Defaults, Place};
