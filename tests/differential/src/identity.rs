//! Bodies of identification payloads, made lawful.

use crate::message::MAIN_MODE;
use crate::random::Random;
use crate::tree::{self, Tree, DEEPEST};

pub const NAME: u8 = 9;
pub const ELEMENT: u8 = 10;

/// The types with an address, and how many bytes it has.
pub fn addresses(exchange: u8) -> &'static [(u8, usize)] {
    if exchange == MAIN_MODE {
        &[(1, 4), (5, 16)]
    } else {
        &[(1, 4), (4, 8), (5, 16), (6, 32), (7, 8), (8, 32)]
    }
}

/// The types with 1 to 255 bytes of text.
pub const TEXTS: [u8; 3] = [2, 3, 11];

pub fn body(kind: u8, protocol: u8, port: u16, data: &[u8]) -> Vec<u8> {
    [&[kind, protocol], port.to_be_bytes().as_slice(), data].concat()
}

/// A lawful body of any type.
pub fn random_body(random: &mut Random, exchange: u8) -> Vec<u8> {
    let (kind, size) = random.one_of(addresses(exchange));
    if exchange != MAIN_MODE {
        let (protocol, port) = [(0, 0), (6, 443), (random.byte(), random.number(16) as u16)][random.below(3)];
        return body(kind, protocol, port, &random.bytes(size));
    }
    match random.below(4) {
        0 => body(kind, 0, 0, &random.bytes(size)),
        1 => {
            let size = random.one_of(&[1, 9, 30, 255]);
            body(random.one_of(&TEXTS), 0, 0, &random.bytes(size))
        }
        2 => body(NAME, 0, 0, &random_name(random).encode()),
        _ => body(ELEMENT, 0, 0, &random_element(random).encode()),
    }
}

pub fn random_element(random: &mut Random) -> Tree {
    let depth = random.between(1, DEEPEST);
    tree::random_tree(random, depth, 2)
}

pub fn random_name(random: &mut Random) -> Tree {
    let depth = random.between(2, DEEPEST);
    Tree { tag: tree::NAME_TAG, ..tree::random_tree(random, depth, 2) }
}
