//! A chain of nine lamps over the C interface: a sensor report, an init and its answer, SETPWM for one lamp and what
//! the lamp holds then, a telegram with a wrong checksum and the flag that it leaves. Then a capture that arrives in
//! chunks.
//!
//!     rustc --edition 2021 -L native=target/staticlib examples/rust/board.rs && ./board

use std::fmt;

/// The functions of include/osp.h that are called here.
#[rustfmt::skip]
mod c {
    #[link(name = "osp", kind = "static")]
    extern "C" {
        pub fn osp_record_len(count: u32) -> u32;
        pub fn osp_make(record: *mut u8, len: usize, count: u32, setup: u8, t0: u8, t1: u8, t2: u8) -> u32;
        pub fn osp_sense(record: *mut u8, len: usize, place: u32, temperature: u8, faults: u32) -> u32;
        pub fn osp_deliver(record: *mut u8, len: usize, s: *const u8, n: usize, out: *mut u8, room: usize) -> u32;
        pub fn osp_lamp(record: *const u8, len: usize, place: u32, out: *mut u8, room: usize) -> u32;
        pub fn osp_build_pwm(
            cast: u32, value: u32, modes: u32, red: u32, green: u32, blue: u32, out: *mut u8, room: usize,
        ) -> u32;
        pub fn osp_build_command(
            command: u32, cast: u32, value: u32, payload: *const u8, n: usize, out: *mut u8, room: usize,
        ) -> u32;
        pub fn osp_dissect_answer(s: *const u8, n: usize, out: *mut u8, room: usize) -> u32;
        pub fn osp_reader_next(
            reader: *mut u8, len: usize, chunk: *const u8, n: usize, at: *mut usize, out: *mut u8, room: usize,
        ) -> u32;
        pub fn osp_reader_end(reader: *mut u8, len: usize) -> u32;
        pub fn osp_reader_position(reader: *const u8, len: usize) -> u64;
    }
}

/// Three telegrams as a logger hands them over, cut inside the second and the third.
const CHUNKS: [&[u8]; 3] = [
    &[0xA0, 0x04, 0x02, 0xA9, 0xA0, 0x25],
    &[0x02, 0x6B, 0x40, 0xD1, 0xA0, 0x17, 0x4F],
    &[0x03, 0xE8, 0x87, 0xD0, 0x00, 0x00, 0xB4],
];

const READER_LEN: usize = 21;
const LAMPS: u32 = 9;
const ONE: u32 = 1;
const READSTATUS: u32 = 0x40;
const STATUS_CE: u8 = 0x08;

/// A refusal.
#[derive(Debug)]
enum Refusal {
    /// 5: the checksum worked out and the one received.
    Checksum { computed: u8, received: u8 },
    /// Any other, by the paper's number, 1 to 13.
    Other(u8),
}

impl fmt::Display for Refusal {
    fn fmt(&self, out: &mut fmt::Formatter) -> fmt::Result {
        match self {
            Refusal::Checksum { computed, received } => {
                write!(
                    out,
                    "refused 5: worked out {computed:02X}, received {received:02X}"
                )
            }
            Refusal::Other(number) => write!(out, "refused {number}"),
        }
    }
}

/// The bytes that a call wrote to the front of its room, or its refusal. The number is the lowest byte of what it
/// returns; above 0 stands the count, above 5 the two checksums.
fn written(result: u32, room: &[u8]) -> Result<Vec<u8>, Refusal> {
    let [number, computed, received, _] = result.to_le_bytes();
    match number {
        0 => Ok(room[..(result / 256) as usize].to_vec()),
        5 => Err(Refusal::Checksum { computed, received }),
        _ => Err(Refusal::Other(number)),
    }
}

/// A chain of lamps in memory of its own.
struct Chain {
    record: Vec<u8>,
}

impl Chain {
    /// Fresh lamps with a default setup byte and default thresholds.
    fn make(count: u32, setup: u8, thresholds: [u8; 3]) -> Result<Chain, Refusal> {
        let [t0, t1, t2] = thresholds;
        let mut record = vec![0; unsafe { c::osp_record_len(count) } as usize];
        let result =
            unsafe { c::osp_make(record.as_mut_ptr(), record.len(), count, setup, t0, t1, t2) };
        written(result, &[]).map(|_| Chain { record })
    }

    /// A sensor report; faults is a sum of 4 for LOS, 2 for OT and 1 for UV.
    fn sense(&mut self, place: u32, temperature: u8, faults: u32) -> Result<(), Refusal> {
        let result = unsafe {
            c::osp_sense(
                self.record.as_mut_ptr(),
                self.record.len(),
                place,
                temperature,
                faults,
            )
        };
        written(result, &[]).map(|_| ())
    }

    /// Delivers a telegram. Gives the answer's bytes, none for no answer.
    fn deliver(&mut self, telegram: &[u8]) -> Result<Vec<u8>, Refusal> {
        let mut room = [0; 12];
        let (record, len) = (self.record.as_mut_ptr(), self.record.len());
        let result = unsafe {
            c::osp_deliver(
                record,
                len,
                telegram.as_ptr(),
                telegram.len(),
                room.as_mut_ptr(),
                room.len(),
            )
        };
        written(result, &room)
    }

    /// Reads out the lamp at a place, 18 bytes.
    fn lamp(&self, place: u32) -> Result<Vec<u8>, Refusal> {
        let mut room = [0; 18];
        let (record, len) = (self.record.as_ptr(), self.record.len());
        let result = unsafe { c::osp_lamp(record, len, place, room.as_mut_ptr(), room.len()) };
        written(result, &room)
    }
}

/// A reader of a capture that arrives in chunks. All zeros is a fresh one.
struct Reader {
    state: [u8; READER_LEN],
}

impl Reader {
    /// The next telegram of a chunk, from an index on, which moves. No bytes when no further one is whole; the reader
    /// carries what it has of one to the next chunk.
    fn next(&mut self, chunk: &[u8], at: &mut usize) -> Result<Vec<u8>, Refusal> {
        let mut room = [0; 12];
        let (state, len) = (self.state.as_mut_ptr(), self.state.len());
        let (bytes, n) = (chunk.as_ptr(), chunk.len());
        let result =
            unsafe { c::osp_reader_next(state, len, bytes, n, at, room.as_mut_ptr(), room.len()) };
        written(result, &room)
    }

    /// Ends the capture. Bytes of an unfinished telegram are refused.
    fn end(&mut self) -> Result<(), Refusal> {
        let result = unsafe { c::osp_reader_end(self.state.as_mut_ptr(), self.state.len()) };
        written(result, &[]).map(|_| ())
    }

    /// How many bytes of the capture were telegrams so far.
    fn position(&self) -> u64 {
        unsafe { c::osp_reader_position(self.state.as_ptr(), self.state.len()) }
    }
}

/// SETPWM for one lamp. Each colour is its duty and whether it has day current.
fn build_pwm(address: u32, colours: [(bool, u32); 3]) -> Result<Vec<u8>, Refusal> {
    let [(red_day, red), (green_day, green), (blue_day, blue)] = colours;
    let modes = 4 * u32::from(red_day) + 2 * u32::from(green_day) + u32::from(blue_day);
    let mut room = [0; 12];
    let result = unsafe {
        c::osp_build_pwm(
            ONE,
            address,
            modes,
            red,
            green,
            blue,
            room.as_mut_ptr(),
            room.len(),
        )
    };
    written(result, &room)
}

/// A command for one lamp, from its number and its payload.
fn build_command(command: u32, address: u32, payload: &[u8]) -> Result<Vec<u8>, Refusal> {
    let mut room = [0; 12];
    let (bytes, n) = (payload.as_ptr(), payload.len());
    let result = unsafe {
        c::osp_build_command(
            command,
            ONE,
            address,
            bytes,
            n,
            room.as_mut_ptr(),
            room.len(),
        )
    };
    written(result, &room)
}

/// The bytes that an answer carries.
fn answer_bytes(answer: &[u8]) -> Result<Vec<u8>, Refusal> {
    let mut room = [0; 12];
    let result = unsafe {
        c::osp_dissect_answer(answer.as_ptr(), answer.len(), room.as_mut_ptr(), room.len())
    };
    written(result, &room).map(|parts| parts[4..].to_vec())
}

fn print_bytes(label: &str, bytes: &[u8]) {
    let words: Vec<String> = bytes.iter().map(|b| format!("{b:02X}")).collect();
    println!(
        "{label} {}",
        if words.is_empty() {
            "none".to_string()
        } else {
            words.join(" ")
        }
    );
}

/// Delivers a telegram and prints it, and its answer or the refusal. Gives the answer, none when refused.
fn deliver(chain: &mut Chain, telegram: &[u8]) -> Vec<u8> {
    print_bytes("tx", telegram);
    match chain.deliver(telegram) {
        Ok(answer) => {
            print_bytes("rx", &answer);
            answer
        }
        Err(refusal) => {
            println!("{refusal}");
            Vec::new()
        }
    }
}

/// A colour of a PWM field in words: the top bit is the mode, the other 15 are the duty.
fn colour(name: &str, word: &[u8]) -> String {
    let word = u16::from_be_bytes([word[0], word[1]]);
    format!(
        "{name} {} {}",
        if word >= 0x8000 { "day" } else { "night" },
        word % 0x8000
    )
}

/// Reads the chunks and prints each telegram with the position of its first byte in the capture.
fn read_capture() -> Result<(), Refusal> {
    let mut reader = Reader {
        state: [0; READER_LEN],
    };
    for chunk in CHUNKS {
        let mut at = 0;
        loop {
            let telegram = reader.next(chunk, &mut at)?;
            if telegram.is_empty() {
                break;
            }
            let position = reader.position().wrapping_sub(telegram.len() as u64);
            print_bytes(&format!("at {position}:"), &telegram);
        }
    }
    reader.end()?;
    println!("capture ended at {}", reader.position());
    Ok(())
}

fn main() -> Result<(), Refusal> {
    let mut chain = Chain::make(LAMPS, 0x13, [0x03, 0xE6, 0xF0])?;
    println!("{LAMPS} lamps in {} bytes", chain.record.len());

    // The lamp at place 8, the last one, has temperature 6B and no fault. It answers INITBIDIR from 1.
    chain.sense(8, 0x6B, 0)?;
    deliver(&mut chain, &[0xA0, 0x04, 0x02, 0xA9]);

    // Lamp 5, at place 4: red and blue with night current, green with day current.
    let telegram = build_pwm(5, [(false, 1000), (true, 2000), (false, 0)])?;
    deliver(&mut chain, &telegram);
    let lamp = chain.lamp(4)?;
    let address = u16::from_be_bytes([lamp[0], lamp[1]]);
    let (red, green, blue) = (
        colour("red", &lamp[12..]),
        colour("green", &lamp[14..]),
        colour("blue", &lamp[16..]),
    );
    println!("place 4: address {address:03X}, {red}, {green}, {blue}");

    // A wrong checksum is refused and changes nothing but CE on the lamp at place 0. That of RESET should be 22.
    deliver(&mut chain, &[0xA0, 0x00, 0x00, 0x23]);

    let telegram = build_command(READSTATUS, 1, &[])?;
    let answer = deliver(&mut chain, &telegram);
    let status = answer_bytes(&answer)?[0];
    println!(
        "lamp 1: status {status:02X}, CE is {}",
        if status & STATUS_CE != 0 {
            "set"
        } else {
            "not set"
        }
    );
    read_capture()
}
