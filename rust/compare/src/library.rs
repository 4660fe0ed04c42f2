//! The static library behind safe wrappers.

use reference::wire::Side;

mod raw {
    extern "C" {
        pub fn osp_checksum(s: *const u8, n: usize) -> u8;
        pub fn osp_read(s: *const u8, n: usize, out: *mut u8, room: usize) -> u32;
        pub fn osp_build(
            address: u32,
            command: u32,
            payload: *const u8,
            n: usize,
            out: *mut u8,
            room: usize,
        ) -> u32;
        pub fn osp_dissect(s: *const u8, n: usize, out: *mut u8, room: usize) -> u32;
        pub fn osp_dissect_answer(s: *const u8, n: usize, out: *mut u8, room: usize) -> u32;
        pub fn osp_build_command(
            command: u32,
            cast: u32,
            value: u32,
            payload: *const u8,
            n: usize,
            out: *mut u8,
            room: usize,
        ) -> u32;
        pub fn osp_build_pwm(
            cast: u32,
            value: u32,
            modes: u32,
            red: u32,
            green: u32,
            blue: u32,
            out: *mut u8,
            room: usize,
        ) -> u32;
        pub fn osp_record_len(count: u32) -> u32;
        pub fn osp_make(
            record: *mut u8,
            len: usize,
            count: u32,
            setup: u8,
            t0: u8,
            t1: u8,
            t2: u8,
        ) -> u32;
        pub fn osp_deliver(
            record: *mut u8,
            len: usize,
            s: *const u8,
            n: usize,
            out: *mut u8,
            room: usize,
        ) -> u32;
        pub fn osp_sense(
            record: *mut u8,
            len: usize,
            place: u32,
            temperature: u8,
            faults: u32,
        ) -> u32;
        pub fn osp_lamp(
            record: *const u8,
            len: usize,
            place: u32,
            out: *mut u8,
            room: usize,
        ) -> u32;
        pub fn osp_reader_next(
            reader: *mut u8,
            len: usize,
            chunk: *const u8,
            n: usize,
            at: *mut usize,
            out: *mut u8,
            room: usize,
        ) -> u32;
        pub fn osp_reader_end(reader: *mut u8, len: usize) -> u32;
        pub fn osp_reader_position(reader: *const u8, len: usize) -> u64;
    }
}

/// The library.
pub static LIBRARY: Side = Side {
    name: "library",
    checksum,
    read,
    build,
    dissect,
    dissect_answer,
    build_command,
    build_pwm,
    record_len,
    make,
    deliver,
    sense,
    lamp,
    reader_next,
    reader_end,
    reader_position,
};

// Safety of every call below: a slice is valid memory of its length, room,
// record, state and index are lent for writing, and the library keeps no pointer
// after it returns.

#[inline(never)]
fn checksum(bytes: &[u8]) -> u8 {
    unsafe { raw::osp_checksum(bytes.as_ptr(), bytes.len()) }
}

#[inline(never)]
fn read(bytes: &[u8], room: &mut [u8]) -> u32 {
    unsafe { raw::osp_read(bytes.as_ptr(), bytes.len(), room.as_mut_ptr(), room.len()) }
}

#[inline(never)]
fn build(address: u32, command: u32, payload: &[u8], room: &mut [u8]) -> u32 {
    let (bytes, out) = (payload.as_ptr(), room.as_mut_ptr());
    unsafe { raw::osp_build(address, command, bytes, payload.len(), out, room.len()) }
}

#[inline(never)]
fn dissect(bytes: &[u8], room: &mut [u8]) -> u32 {
    unsafe { raw::osp_dissect(bytes.as_ptr(), bytes.len(), room.as_mut_ptr(), room.len()) }
}

#[inline(never)]
fn dissect_answer(bytes: &[u8], room: &mut [u8]) -> u32 {
    unsafe { raw::osp_dissect_answer(bytes.as_ptr(), bytes.len(), room.as_mut_ptr(), room.len()) }
}

#[inline(never)]
fn build_command(command: u32, cast: u32, value: u32, payload: &[u8], room: &mut [u8]) -> u32 {
    let (bytes, size) = (payload.as_ptr(), payload.len());
    let (out, length) = (room.as_mut_ptr(), room.len());
    unsafe { raw::osp_build_command(command, cast, value, bytes, size, out, length) }
}

#[inline(never)]
fn build_pwm(
    cast: u32,
    value: u32,
    modes: u32,
    red: u32,
    green: u32,
    blue: u32,
    room: &mut [u8],
) -> u32 {
    let (out, length) = (room.as_mut_ptr(), room.len());
    unsafe { raw::osp_build_pwm(cast, value, modes, red, green, blue, out, length) }
}

#[inline(never)]
fn record_len(count: u32) -> u32 {
    unsafe { raw::osp_record_len(count) }
}

#[inline(never)]
fn make(record: &mut [u8], count: u32, setup: u8, t0: u8, t1: u8, t2: u8) -> u32 {
    let (chain, length) = (record.as_mut_ptr(), record.len());
    unsafe { raw::osp_make(chain, length, count, setup, t0, t1, t2) }
}

#[inline(never)]
fn deliver(record: &mut [u8], bytes: &[u8], room: &mut [u8]) -> u32 {
    let (chain, length) = (record.as_mut_ptr(), record.len());
    let (input, size) = (bytes.as_ptr(), bytes.len());
    unsafe { raw::osp_deliver(chain, length, input, size, room.as_mut_ptr(), room.len()) }
}

#[inline(never)]
fn sense(record: &mut [u8], place: u32, temperature: u8, faults: u32) -> u32 {
    let (chain, length) = (record.as_mut_ptr(), record.len());
    unsafe { raw::osp_sense(chain, length, place, temperature, faults) }
}

#[inline(never)]
fn lamp(record: &[u8], place: u32, room: &mut [u8]) -> u32 {
    let (chain, length) = (record.as_ptr(), record.len());
    unsafe { raw::osp_lamp(chain, length, place, room.as_mut_ptr(), room.len()) }
}

#[inline(never)]
fn reader_next(state: &mut [u8], chunk: &[u8], at: &mut usize, room: &mut [u8]) -> u32 {
    let (reader, length) = (state.as_mut_ptr(), state.len());
    let (input, size) = (chunk.as_ptr(), chunk.len());
    let (out, rest) = (room.as_mut_ptr(), room.len());
    unsafe { raw::osp_reader_next(reader, length, input, size, at, out, rest) }
}

#[inline(never)]
fn reader_end(state: &mut [u8]) -> u32 {
    unsafe { raw::osp_reader_end(state.as_mut_ptr(), state.len()) }
}

#[inline(never)]
fn reader_position(state: &[u8]) -> u64 {
    unsafe { raw::osp_reader_position(state.as_ptr(), state.len()) }
}
