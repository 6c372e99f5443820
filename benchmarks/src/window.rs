//! The peer in Rust: a 64-bit window, and 64 lives in an array, both brought up to date in place. The second program keeps plain sets,
//! which would be no measure of speed. Its functions are called where build.rs has linked them, its records are the caller's too.

pub const LIVES: usize = 64;
const WINDOW: u64 = 64;
const AH: u8 = 2;
const ESP: u8 = 3;

/// An accepted packet's number; a refused packet's is its refusal, and its rise is not written.
pub const ACCEPTED: u32 = 0;

#[repr(C)]
#[derive(Clone, Copy, Default)]
pub struct Window {
    highest: u64,
    seen: u64,
}

#[repr(C)]
#[derive(Clone, Copy)]
pub struct Life {
    pub spi: u32,
    pub destination: u32,
    pub protocol: u8,
    pub used: bool,
    pub window: Window,
}

#[no_mangle]
pub extern "C" fn rust_step(window: &mut Window, number: u32, integrity: bool, rise: &mut u64) -> u32 {
    let number = u64::from(number);
    if number == 0 || number + WINDOW <= window.highest {
        return 8197;
    }
    if number > window.highest {
        if !integrity {
            return 24;
        }
        let up = number - window.highest;
        window.seen = if up < WINDOW { window.seen << up | 1 } else { 1 };
        window.highest = number;
        *rise = up;
        return ACCEPTED;
    }
    let bit = 1 << (window.highest - number);
    if window.seen & bit != 0 {
        return 8194;
    }
    if !integrity {
        return 24;
    }
    window.seen |= bit;
    *rise = 0;
    ACCEPTED
}

/// # Safety
/// `start` and `length` are those of a packet.
#[no_mangle]
pub unsafe extern "C" fn rust_packet(
    lives: &mut [Life; LIVES],
    destination: u32,
    protocol: u8,
    integrity: bool,
    start: *const u8,
    length: usize,
    rise: &mut u64,
) -> u32 {
    // SAFETY: as said above.
    match spi_and_number(protocol, unsafe { std::slice::from_raw_parts(start, length) }) {
        Err(refusal) => refusal,
        Ok((spi, number)) => lives
            .iter_mut()
            .find(|life| life.spi == spi && life.destination == destination && life.protocol == protocol && life.used)
            .map_or(11, |life| rust_step(&mut life.window, number, integrity, rise)),
    }
}

fn spi_and_number(protocol: u8, packet: &[u8]) -> Result<(u32, u32), u32> {
    match (protocol, packet) {
        (AH, &[_, length, 0, 0, s0, s1, s2, s3, n0, n1, n2, n3, ..])
            if (12..=packet.len()).contains(&((usize::from(length) + 2) * 4)) =>
        {
            Ok((u32::from_be_bytes([s0, s1, s2, s3]), u32::from_be_bytes([n0, n1, n2, n3])))
        }
        (ESP, &[s0, s1, s2, s3, n0, n1, n2, n3, ..]) => {
            Ok((u32::from_be_bytes([s0, s1, s2, s3]), u32::from_be_bytes([n0, n1, n2, n3])))
        }
        (AH | ESP, _) => Err(16),
        _ => Err(10),
    }
}
