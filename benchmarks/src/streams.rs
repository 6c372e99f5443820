//! Packets for 64 lives, the same ones in each run.

use crate::window::LIVES;

const PACKETS: usize = 4096;
const AH: u8 = 2;
const ESP: u8 = 3;

#[derive(Clone, Copy)]
pub struct Key {
    pub destination: u32,
    pub protocol: u8,
    pub spi: u32,
}

pub struct Packet {
    pub destination: u32,
    pub protocol: u8,
    pub number: u32,
    pub integrity: bool,
    pub bytes: [u8; 32],
}

/// How the numbers of a life come in.
#[derive(Clone, Copy)]
pub enum Order {
    /// 1, 2, 3, .., all with integrity.
    InOrder,
    /// Of 100 packets some 12 late or repeated, 4 behind the window, 4 after a loss of up to 99, 4 of no integrity.
    Mixed,
}

/// Half of the lives are AH's, half ESP's, on 8 destinations; no two have the same SPI.
pub fn keys() -> [Key; LIVES] {
    std::array::from_fn(|i| Key {
        destination: 0x0a00_0001 + (i % 8) as u32,
        protocol: if i % 2 == 0 { AH } else { ESP },
        spi: 0x0001_0000 + 0x0101 * i as u32,
    })
}

/// Packets of the lives in no order, or of the one life alone.
pub fn packets(order: Order, lives: usize) -> Vec<Packet> {
    let keys = keys();
    let mut highest = [0; LIVES];
    let mut random = Random(0x9e37_79b9_7f4a_7c15);
    (0..PACKETS)
        .map(|_| {
            let life = random.below(lives as u32) as usize;
            let (number, integrity) = next(order, highest[life], &mut random);
            if integrity {
                highest[life] = number.max(highest[life]);
            }
            packet(keys[life], number, integrity)
        })
        .collect()
}

fn next(order: Order, highest: u32, random: &mut Random) -> (u32, bool) {
    let case = match order {
        Order::InOrder => 99,
        Order::Mixed => random.below(100),
    };
    match case {
        0..12 => (highest.saturating_sub(random.below(64)), true),
        12..16 => (highest.saturating_sub(64 + random.below(64)), true),
        16..20 => (highest + 1 + random.below(100), true),
        20..24 => (highest + 1, false),
        _ => (highest + 1, true),
    }
}

fn packet(key: Key, number: u32, integrity: bool) -> Packet {
    let mut bytes = [0; 32];
    let at = if key.protocol == AH { 4 } else { 0 };
    // AH's length field: 24 bytes, the integrity value with them.
    bytes[1] = if key.protocol == AH { 4 } else { 0 };
    bytes[at..at + 4].copy_from_slice(&key.spi.to_be_bytes());
    bytes[at + 4..at + 8].copy_from_slice(&number.to_be_bytes());
    Packet { destination: key.destination, protocol: key.protocol, number, integrity, bytes }
}

/// Xorshift: the same numbers each time.
struct Random(u64);

impl Random {
    fn below(&mut self, bound: u32) -> u32 {
        self.0 ^= self.0 << 13;
        self.0 ^= self.0 >> 7;
        self.0 ^= self.0 << 17;
        ((self.0 >> 32) % u64::from(bound)) as u32
    }
}
