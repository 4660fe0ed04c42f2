//! A reader of captures with the library's interface, which takes each byte when
//! it comes and keeps nothing but the state: what the library is timed beside.
//! The second implementation itself works on the joined bytes.

use reference::capture::reader::LENGTH;
use reference::telegram::{has_preamble, verify, Header, FRAME, LONGEST};
use reference::wire::{packed, Side, REFERENCE};
use reference::Refusal;

/// The second implementation with this reader.
pub static INCREMENTAL: Side = Side {
    reader_next: |memory, chunk, at, room| packed(next(memory, chunk, at, room)),
    reader_end: |memory| packed(end(memory)),
    reader_position: position,
    ..REFERENCE
};

/// The most bytes that are carried.
const CARRIED: usize = LONGEST - 1;
/// Nothing carried.
const NONE: [u8; CARRIED] = [0; CARRIED];
/// The bytes that tell a telegram's length.
const HEADER: usize = FRAME - 1;

/// A state in memory.
type State = [u8; LENGTH];

/// A valid state that is not stopped.
enum Phase {
    Open {
        /// The count of carried bytes.
        count: usize,
        /// With how many it goes on: those of the header, then the telegram's.
        goal: usize,
    },
    Ended,
}

/// Tests a state; refuses with 11, or with what stopped the reader.
#[inline]
fn phase(state: &State) -> Result<Phase, Refusal> {
    let [phase, number, ..] = *state;
    let count = usize::from(number);
    match (phase, number) {
        (0, 0) if are_zeros(state, 0) => Ok(Phase::Open {
            count,
            goal: HEADER,
        }),
        (0, 1..=11) if are_zeros(state, count) => {
            let goal = goal(carried(state), count).ok_or(Refusal::Chain)?;
            Ok(Phase::Open { count, goal })
        }
        (1, 0) if are_zeros(state, 0) => Ok(Phase::Ended),
        (2, _) => Err(stopped(state)),
        _ => Err(Refusal::Chain),
    }
}

/// What stopped a reader, or 11. Of 5 two checksums are kept, which differ.
#[cold]
fn stopped(state: &State) -> Refusal {
    let [computed, received, ..] = *carried(state);
    match (state[1], are_zeros(state, 0)) {
        (1, true) => Refusal::TooShort,
        (2, true) => Refusal::Preamble,
        (3, true) => Refusal::SizeIndex,
        (4, true) => Refusal::ByteCount,
        (5, _) if are_zeros(state, 2) && computed != received => {
            Refusal::Checksum { computed, received }
        }
        _ => Refusal::Chain,
    }
}

/// The bytes of a state that may be carried.
#[inline]
fn carried(state: &State) -> &[u8; CARRIED] {
    let [_, _, _, _, _, _, _, _, _, _, carried @ ..] = state;
    carried
}

/// Whether the carried bytes from a count on are 0.
#[inline]
fn are_zeros(state: &State, count: usize) -> bool {
    let [_, _, _, _, _, last @ ..] = *state;
    let bits = 8 * (last.len() - CARRIED + count) as u32;
    u128::from_be_bytes(last).checked_shl(bits).unwrap_or(0) == 0
}

/// With how many bytes a telegram goes on of which one or more are there; nothing
/// if they begin none, or are a whole one.
#[inline]
fn goal(bytes: &[u8; CARRIED], count: usize) -> Option<usize> {
    let goal = match count < HEADER {
        true => HEADER,
        false => FRAME + Header::of(bytes)?.size().ok()?,
    };
    (has_preamble(bytes[0]) && count < goal).then_some(goal)
}

/// Tests the checksum of a whole telegram and copies it into the room.
#[inline]
fn give(telegram: &[u8], room: &mut [u8]) -> Result<(), Refusal> {
    verify(telegram)?;
    let out = room.get_mut(..telegram.len()).ok_or(Refusal::Room)?;
    out.copy_from_slice(telegram);
    Ok(())
}

/// The position in a state.
#[inline]
fn position_in(state: &State) -> u64 {
    let [_, _, p7, p6, p5, p4, p3, p2, p1, p0, ..] = *state;
    u64::from_be_bytes([p7, p6, p5, p4, p3, p2, p1, p0])
}

/// Moves the position on.
#[inline]
fn move_on(state: &mut State, count: usize) {
    let moved = position_in(state).wrapping_add(count as u64);
    state[2..10].copy_from_slice(&moved.to_be_bytes());
}

/// Puts in phase, count or number, and carried bytes.
#[inline]
fn put(state: &mut State, phase: u8, number: u8, carried: &[u8; CARRIED]) {
    (state[0], state[1]) = (phase, number);
    state[LENGTH - CARRIED..].copy_from_slice(carried);
}

/// Stops the reader, unless it is the room that is refused.
#[cold]
fn stop(state: &mut State, refusal: Refusal) -> Refusal {
    if refusal != Refusal::Room {
        let mut kept = NONE;
        [kept[0], kept[1]] = refusal.checksums().unwrap_or_default();
        put(state, 2, refusal.number(), &kept);
    }
    refusal
}

/// Gives the next telegram of a chunk.
#[inline]
fn next(
    memory: &mut [u8],
    chunk: &[u8],
    at: &mut usize,
    room: &mut [u8],
) -> Result<usize, Refusal> {
    let state = memory.first_chunk_mut().ok_or(Refusal::Chain)?;
    let Phase::Open { count, goal } = phase(state)? else {
        return Ok(0);
    };
    let rest = chunk.get(*at..).unwrap_or_default();
    let read = match whole(rest).filter(|_| count == 0) {
        Some(telegram) => pass(state, telegram, room),
        None => join(state, count, goal, rest, room),
    };
    let (taken, given) = read.map_err(|refusal| stop(state, refusal))?;
    *at += taken;
    Ok(given)
}

/// What lies whole at the front of some bytes, its checksum not tested.
#[inline]
fn whole(bytes: &[u8]) -> Option<&[u8]> {
    let size = Header::of(bytes)?.size().ok()?;
    let telegram = bytes.get(..FRAME + size)?;
    has_preamble(telegram[0]).then_some(telegram)
}

/// Gives a telegram as it lies in the chunk: the bytes taken and those given.
#[inline]
fn pass(state: &mut State, telegram: &[u8], room: &mut [u8]) -> Result<(usize, usize), Refusal> {
    give(telegram, room)?;
    move_on(state, telegram.len());
    Ok((telegram.len(), telegram.len()))
}

/// Takes bytes one by one behind the carried ones: those taken and those given.
#[inline]
fn join(
    state: &mut State,
    count: usize,
    mut goal: usize,
    rest: &[u8],
    room: &mut [u8],
) -> Result<(usize, usize), Refusal> {
    let mut joined = [0; LONGEST];
    joined[..CARRIED].copy_from_slice(carried(state));
    let (mut filled, mut bytes) = (count, rest.iter());
    while filled < goal {
        let Some(&byte) = bytes.next() else {
            let [carried @ .., _] = &joined;
            put(state, 0, filled as u8, carried);
            return Ok((filled - count, 0));
        };
        joined[filled] = byte;
        filled += 1;
        match (filled, Header::of(&joined)) {
            (1, _) if !has_preamble(byte) => return Err(Refusal::Preamble),
            (HEADER, Some(header)) => goal = FRAME + header.size()?,
            _ => {}
        }
    }
    give(&joined[..filled], room)?;
    put(state, 0, 0, &NONE);
    move_on(state, filled);
    Ok((filled - count, filled))
}

/// Ends the run.
fn end(memory: &mut [u8]) -> Result<usize, Refusal> {
    let state = memory.first_chunk_mut().ok_or(Refusal::Chain)?;
    match phase(state)? {
        Phase::Open { count: 0, .. } => put(state, 1, 0, &NONE),
        Phase::Open { count, .. } if count < FRAME => return Err(stop(state, Refusal::TooShort)),
        Phase::Open { .. } => return Err(stop(state, Refusal::ByteCount)),
        Phase::Ended => {}
    }
    Ok(0)
}

/// The position, of a stopped reader too.
fn position(memory: &[u8]) -> u64 {
    let Some(state) = memory.first_chunk() else {
        return 0;
    };
    match phase(state) {
        Err(Refusal::Chain) => 0,
        _ => position_in(state),
    }
}

// The stand-in for the library has this reader.
#[cfg(all(test, feature = "self-test"))]
mod tests {
    use crate::capture_suites::CAPTURE_SUITES;
    use crate::check::Checker;
    use crate::checksum_suites::CHECKSUM_SUITES;
    use crate::random::Random;

    #[test]
    fn it_reads_as_the_second_implementation_does() {
        let (mut check, mut random) = (Checker::new(1), Random::new(1));
        for suite in CAPTURE_SUITES.into_iter().chain(CHECKSUM_SUITES) {
            assert_eq!(suite(&mut check, &mut random), Ok(()));
        }
        assert_eq!(check.wrong().demand(), Ok(()));
    }
}
