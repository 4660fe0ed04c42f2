//! A capture that is read in chunks, and held against the uncut one.

use crate::captures::*;
use crate::check::{hex, Checker};
use crate::material::*;
use crate::random::Random;
use crate::suites::Outcome;
use reference::capture::{read, Stand};
use reference::telegram::LONGEST;
use reference::wire::packed;

/// A capture that is read in chunks on both sides.
struct Trial<'a> {
    check: &'a mut Checker,
    random: &'a mut Random,
    /// The state, and any bytes behind it.
    state: Vec<u8>,
    telegrams: Vec<Vec<u8>>,
    /// What stopped the reading as it was given back, or 0.
    result: u64,
}

impl<'a> Trial<'a> {
    /// Starts at a position.
    fn new(check: &'a mut Checker, random: &'a mut Random, start: u64) -> Trial<'a> {
        let mut state = open(start, &[]);
        let behind = random.below(4);
        state.extend(random.bytes(behind));
        Trial {
            check,
            random,
            state,
            telegrams: Vec::new(),
            result: 0,
        }
    }

    /// Reads all telegrams of a chunk that lies behind some other bytes. Now and
    /// then the room is too small at first.
    fn chunk(&mut self, chunk: &[u8]) -> Outcome {
        let before = self.random.pick(&[0, 0, 0, 1, 5]);
        let chunk = [&self.random.bytes(before), chunk].concat();
        let mut at = before;
        loop {
            let room = match self.random.below(6) {
                0 => self.random.below(LONGEST),
                _ => LONGEST + self.random.below(3),
            };
            let case = advancing(&chunk, at, room);
            let agreed = self.check.compare_on(&mut self.state, &case)?;
            self.check.compare_on(&mut self.state, &locating())?;
            self.repeated(agreed.result)?;
            match agreed.number {
                9 => continue,
                0 if agreed.written.is_empty() => return Ok(()),
                0 => self.telegrams.push(agreed.written),
                _ => {
                    self.result = agreed.result;
                    return Ok(());
                }
            }
            at = agreed.at;
        }
    }

    /// Demands that a stopped reader gives the same again, and all of it.
    fn repeated(&self, result: u64) -> Outcome {
        match [0, result].contains(&self.result) {
            true => Ok(()),
            false => Err(format!("stopped by {:X}, then {result:X}", self.result)),
        }
    }

    /// Reads the chunks; some calls are made behind a stop.
    fn chunks(&mut self, chunks: &[&[u8]]) -> Outcome {
        for chunk in chunks {
            self.chunk(chunk)?;
            if self.result != 0 && self.random.below(2) == 0 {
                break;
            }
        }
        Ok(())
    }

    /// Ends the run, more than once.
    fn end(&mut self) -> Outcome {
        for _ in 0..=self.random.below(2) {
            let agreed = self.check.compare_on(&mut self.state, &ending())?;
            self.repeated(agreed.result)?;
            self.result = agreed.result;
            self.check.compare_on(&mut self.state, &locating())?;
        }
        if self.random.below(4) == 0 {
            let telegram = good(self.random);
            self.chunk(&telegram)?;
        }
        Ok(())
    }

    /// Demands that it was read as the uncut run is.
    fn demand(&mut self, run: &[u8], start: u64, ended: bool) -> Outcome {
        let position = self.check.compare_on(&mut self.state, &locating())?.result;
        let whole = read(run, start, ended);
        let result = match whole.stand {
            Stand::Stopped(refusal) => u64::from(packed(Err(refusal))),
            Stand::Open | Stand::Ended => 0,
        };
        if (result, whole.position) != (self.result, position) || whole.telegrams != self.telegrams
        {
            return Err(format!(
                "both sides read a cut run otherwise than the uncut one: {}",
                hex(run)
            ));
        }
        self.check.capture_read();
        Ok(())
    }
}

/// Reads a run in chunks, to its end or not, and demands that it was read as the
/// uncut one is.
pub(super) fn read_cut(
    check: &mut Checker,
    random: &mut Random,
    chunks: &[&[u8]],
    ended: bool,
    start: u64,
) -> Outcome {
    let mut trial = Trial::new(check, random, start);
    trial.chunks(chunks)?;
    if ended {
        trial.end()?;
    }
    trial.demand(&chunks.concat(), start, ended)
}
