//! The refusals with 5 that were compared, each with both checksums.

use super::{function, FUNCTIONS};
use reference::case::{Call, Case};
use reference::wire::{checksums, number};
use std::collections::HashSet;

/// The calls that may be refused with 5.
const CALLS: [Call; 6] = [
    Call::Read,
    Call::Dissect,
    Call::DissectAnswer,
    Call::Deliver,
    Call::Next { at: 0 },
    Call::End,
];
/// How many pairs of checksums there are that differ.
const PAIRS: usize = 256 * 255;
/// How the state of a reader begins that was stopped by 5.
const STOPPED: [u8; 2] = [2, 5];

/// The refusals with 5 on which both sides agreed.
#[derive(Default)]
pub struct Wrong {
    counts: [u64; FUNCTIONS.len()],
    /// The pairs of checksums that each function gave.
    pairs: HashSet<(usize, [u8; 2])>,
    /// Those that a stopped reader gave again.
    repeats: u64,
    /// Calls on states stopped by 5 that no reading leaves.
    refused: u64,
}

impl Wrong {
    /// Counts a call on which both sides agreed, by the value and the record before
    /// it.
    pub(super) fn count(&mut self, case: &Case, record: &[u8], value: u32) {
        let is_reader = matches!(case.call, Call::Next { .. } | Call::End);
        let is_stopped = is_reader && record.starts_with(&STOPPED);
        self.refused += u64::from(is_stopped && number(value) == 11);
        let Some(pair) = checksums(value).filter(|_| !case.call.is_plain()) else {
            return;
        };
        let function = function(&case.call);
        self.counts[function] += 1;
        self.pairs.insert((function, pair));
        self.repeats += u64::from(is_stopped);
    }

    /// How many pairs of checksums that differ a function gave.
    fn pairs_of(&self, function: usize) -> usize {
        let pairs = self.pairs.iter().filter(|(by, _)| *by == function);
        pairs.filter(|(_, [one, other])| one != other).count()
    }

    /// Demands that every function gave every pair that differs.
    pub fn demand(&self) -> Result<(), String> {
        for function in CALLS.map(|call| function(&call)) {
            let (name, pairs) = (FUNCTIONS[function], self.pairs_of(function));
            if pairs < PAIRS {
                return Err(format!(
                    "{name} gave {pairs} of {PAIRS} pairs of checksums: the inputs try too little"
                ));
            }
        }
        Ok(())
    }

    /// All of it in a line.
    pub fn line(&self) -> String {
        let functions = CALLS.map(|call| function(&call));
        let counts = functions.map(|function| {
            let (name, count) = (FUNCTIONS[function], self.counts[function]);
            format!("{name} {count}")
        });
        format!(
            "{} refusals with 5 gave both checksums, each function all {PAIRS} pairs that differ: {}; {} of them repeats of a stopped reader; {} calls on such a state that no reading leaves gave 11",
            self.counts.iter().sum::<u64>(),
            counts.join(", "),
            self.repeats,
            self.refused
        )
    }
}
