//! Cases of the functions that take a telegram, and of those that build one.

use reference::case::{Call, Case};

/// A case of a function that takes a telegram.
pub fn reading(call: Call, bytes: &[u8], room: usize) -> Case {
    Case {
        call,
        bytes: bytes.to_vec(),
        room,
    }
}

/// A case of the raw builder.
pub fn building(address: u32, command: u32, payload: &[u8], room: usize) -> Case {
    reading(Call::Build { address, command }, payload, room)
}

/// A case of the command builder.
pub fn commanding(command: u32, cast: u32, value: u32, payload: &[u8], room: usize) -> Case {
    let call = Call::BuildCommand {
        command,
        cast,
        value,
    };
    reading(call, payload, room)
}

/// A case of the builder of SETPWM; the destination is cast and value.
pub fn lighting(destination: (u32, u32), modes: u32, duties: [u32; 3], room: usize) -> Case {
    let (cast, value) = destination;
    let call = Call::BuildPwm {
        cast,
        value,
        modes,
        duties,
    };
    reading(call, &[], room)
}
