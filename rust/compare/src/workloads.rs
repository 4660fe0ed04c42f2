//! The calls that are timed. The workloads `last-...` are deliveries to the last
//! lamp of a chain, `all-...` to everyone, `group-...` to a group of all; their
//! names end with the number of lamps. `reader-...` are captures in chunks, of the
//! size at the end of the name; a call there is a telegram.

use crate::chains::{slot, MOST};
use crate::material::{destination, fitting, good, KNOWN};
use crate::material::{CLRERROR, GOACTIVE, GOACTIVE_SR, INITBIDIR, RESET, SETMULT, SETPWM};
use crate::material::{READSTATUS, READTEMPST};
use crate::random::Random;
use reference::capture::reader::LENGTH;
use reference::wire::{count, number, Side, REFERENCE};
use std::hint::black_box;
use std::iter;
use std::time::Instant;

/// What SETPWM carries, and the same as modes and duties.
const WORDS: [u8; 6] = [0x12, 0x34, 0x80, 0x00, 0xFF, 0xFF];
const MODES: u32 = 3;
const DUTIES: [u32; 3] = [0x1234, 0, 0x7FFF];
/// The address of a group that every lamp of a chain is in, and its group word.
const GROUP: u32 = 0x3F3;
const MEMBER: [u8; 2] = [0x00, 0x08];
/// The most bytes of a capture.
const CAPTURE: usize = 1 << 20;

/// What is called.
enum Job {
    Checksum(Vec<u8>),
    Read(Vec<u8>),
    Dissect(Vec<Vec<u8>>),
    Build,
    BuildCommand,
    BuildPwm,
    /// A telegram to a chain, whose record is lent anew at every turn.
    Deliver {
        record: Vec<u8>,
        bytes: Vec<u8>,
    },
    /// A capture of so many telegrams in chunks of a size.
    Capture {
        run: Vec<u8>,
        telegrams: usize,
        size: usize,
    },
}

/// A named job and how often it is repeated in one turn.
pub struct Workload {
    pub name: &'static str,
    job: Job,
    repeats: usize,
}

/// Repeats a call so that none can be left out.
fn repeat(times: usize, mut call: impl FnMut() -> u32) {
    for _ in 0..times {
        black_box(call());
    }
}

/// Reads a capture in chunks and hands each telegram over; gives the number that
/// stopped it, or that of its end.
fn read_capture(side: &Side, run: &[u8], size: usize, mut take: impl FnMut(&[u8])) -> u32 {
    let (mut state, mut room) = ([0; LENGTH], [0; 16]);
    for chunk in run.chunks(size) {
        let mut at = 0;
        while at < chunk.len() {
            let result = (side.reader_next)(&mut state, chunk, &mut at, &mut room);
            match (number(result), count(result)) {
                (0, 0) => break,
                (0, count) => take(&room[..count]),
                (number, _) => return number,
            }
        }
    }
    (side.reader_end)(&mut state)
}

impl Workload {
    /// One turn on one side.
    pub fn turn(&self, side: &Side) {
        let side = black_box(side);
        let mut room = [0; 16];
        let room = &mut room[..];
        let times = self.repeats;
        match &self.job {
            Job::Checksum(bytes) => {
                repeat(times, || u32::from((side.checksum)(black_box(bytes))));
            }
            Job::Read(bytes) => repeat(times, || (side.read)(black_box(bytes), black_box(room))),
            Job::Dissect(set) => repeat(times, || {
                set.iter().fold(0, |last, bytes| {
                    last ^ (side.dissect)(black_box(bytes), black_box(room))
                })
            }),
            Job::Build => repeat(times, || {
                (side.build)(black_box(5), SETPWM, black_box(&WORDS), black_box(room))
            }),
            Job::BuildCommand => repeat(times, || {
                (side.build_command)(SETPWM, 1, black_box(5), black_box(&WORDS), black_box(room))
            }),
            Job::BuildPwm => repeat(times, || {
                let (lamp, modes, [red, green, blue]) = black_box((5, MODES, DUTIES));
                (side.build_pwm)(1, lamp, modes, red, green, blue, black_box(room))
            }),
            Job::Deliver { record, bytes } => {
                let mut record = record.clone();
                let record = &mut record[..];
                repeat(times, || {
                    (side.deliver)(black_box(record), black_box(bytes), black_box(room))
                });
            }
            Job::Capture { run, size, .. } => repeat(times, || {
                read_capture(side, black_box(run), *size, |telegram| {
                    black_box(telegram);
                })
            }),
        }
    }

    /// Whether a side reads the capture whole, if there is one.
    pub fn is_read(&self, side: &Side) -> bool {
        let Job::Capture { run, size, .. } = &self.job else {
            return true;
        };
        let mut joined: Vec<u8> = Vec::new();
        let number = read_capture(side, run, *size, |telegram| joined.extend(telegram));
        number == 0 && joined == *run
    }

    /// Whether a call is a telegram of a capture.
    pub fn is_capture(&self) -> bool {
        matches!(self.job, Job::Capture { .. })
    }

    /// The calls made in one turn.
    pub fn calls(&self) -> usize {
        match &self.job {
            Job::Dissect(set) => set.len() * self.repeats,
            Job::Capture { telegrams, .. } => telegrams * self.repeats,
            _ => self.repeats,
        }
    }

    /// Nanoseconds per call in one turn.
    pub fn measure(&self, side: &Side) -> f64 {
        let start = Instant::now();
        self.turn(side);
        start.elapsed().as_nanos() as f64 / self.calls() as f64
    }
}

/// A telegram of every command in each of its casts.
fn mixed(random: &mut Random) -> Vec<Vec<u8>> {
    let mut set = Vec::new();
    for known in KNOWN {
        for (cast, value) in known.casts(random) {
            let payload = random.bytes(known.payload);
            set.push(fitting(destination(cast, value), known.number, &payload));
        }
    }
    set
}

/// A chain of so many lamps, numbered from 1, all in one group; the same bytes
/// for both sides.
fn chain(count: usize) -> Vec<u8> {
    let mut record = vec![0; slot(count)];
    let side = &REFERENCE;
    let made = (side.make)(&mut record, count as u32, 0x13, 0x03, 0xE6, 0xF0);
    assert_eq!(number(made), 0, "no chain");
    for telegram in [fitting(1, INITBIDIR, &[]), fitting(0, SETMULT, &MEMBER)] {
        let done = (side.deliver)(&mut record, &telegram, &mut [0; 12]);
        assert_eq!(number(done), 0, "no chain");
    }
    record
}

/// The deliveries: to the last lamp, which is the farthest from the host, to
/// everyone, to a group, and an init.
fn deliveries() -> [Workload; 18] {
    let of = |name, repeats, count, address, command, payload: &[u8]| Workload {
        name,
        job: Job::Deliver {
            record: chain(count),
            bytes: fitting(address, command, payload),
        },
        repeats,
    };
    [
        of("last-setpwm-9", 5_000, 9, 9, SETPWM, &WORDS),
        of("last-setpwm-300", 500, 300, 300, SETPWM, &WORDS),
        of("last-setpwm-1007", 200, MOST, 1007, SETPWM, &WORDS),
        of("last-readstatus-9", 5_000, 9, 9, READSTATUS, &[]),
        of("last-readstatus-300", 500, 300, 300, READSTATUS, &[]),
        of("last-readstatus-1007", 200, MOST, 1007, READSTATUS, &[]),
        of("last-readtempst-9", 5_000, 9, 9, READTEMPST, &[]),
        of("last-readtempst-300", 500, 300, 300, READTEMPST, &[]),
        of("last-readtempst-1007", 200, MOST, 1007, READTEMPST, &[]),
        of("last-goactive_sr-9", 5_000, 9, 9, GOACTIVE_SR, &[]),
        of("last-goactive_sr-300", 500, 300, 300, GOACTIVE_SR, &[]),
        of("last-goactive_sr-1007", 200, MOST, 1007, GOACTIVE_SR, &[]),
        of("all-goactive-1007", 200, MOST, 0, GOACTIVE, &[]),
        of("all-setpwm-1007", 200, MOST, 0, SETPWM, &WORDS),
        of("all-reset-1007", 200, MOST, 0, RESET, &[]),
        of("all-clrerror-1007", 200, MOST, 0, CLRERROR, &[]),
        of("group-setpwm-1007", 200, MOST, GROUP, SETPWM, &WORDS),
        of("init-1007", 200, MOST, 1, INITBIDIR, &[]),
    ]
}

/// The calls that need no chain.
fn plain_calls() -> [Workload; 8] {
    let mut random = Random::new(1);
    let setpwm = fitting(5, SETPWM, &WORDS);
    let longest = fitting(1, SETPWM, &random.bytes(8));
    let of = |name, repeats, job| Workload { name, job, repeats };
    [
        of("checksum-64k", 4, Job::Checksum(random.bytes(65_536))),
        of("checksum-11", 20_000, Job::Checksum(random.bytes(11))),
        of("read-12", 20_000, Job::Read(longest)),
        of("dissect-setpwm", 20_000, Job::Dissect(vec![setpwm])),
        of("dissect-mixed", 600, Job::Dissect(mixed(&mut random))),
        of("build-setpwm", 20_000, Job::Build),
        of("build-command-setpwm", 20_000, Job::BuildCommand),
        of("build-pwm", 20_000, Job::BuildPwm),
    ]
}

/// A capture in chunks of one byte, of some, and of many.
fn captures() -> [Workload; 3] {
    let mut random = Random::new(1);
    let (mut run, mut telegrams) = (Vec::new(), 0);
    loop {
        let telegram = good(&mut random);
        if run.len() + telegram.len() > CAPTURE {
            break;
        }
        run.extend(telegram);
        telegrams += 1;
    }
    [("reader-1", 1), ("reader-7", 7), ("reader-4096", 4096)].map(|(name, size)| Workload {
        name,
        job: Job::Capture {
            run: run.clone(),
            telegrams,
            size,
        },
        repeats: 1,
    })
}

/// All the workloads; the captures are made when it is their turn.
pub fn workloads() -> impl Iterator<Item = Workload> {
    let calls = plain_calls().into_iter().chain(deliveries());
    calls.chain(iter::once_with(captures).flatten())
}
