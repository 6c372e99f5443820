//! A line's words: bytes written in hex, decimal numbers, roles, yes or no.

use crate::quick::Role;
use std::str::{self, FromStr};

pub const LARGEST_ROOM: usize = 4_096;

/// Words are parted by single spaces: a space at either end or a second one makes an empty word, which suits nothing.
pub fn words(line: &[u8]) -> Vec<&[u8]> {
    line.split(|&byte| byte == b' ').collect()
}

/// Bytes in hex of either case, `-` for none of them; `None` if the word is neither.
pub fn bytes(word: &[u8]) -> Option<Vec<u8>> {
    if word == b"-" {
        return Some(Vec::new());
    }
    if word.is_empty() || word.len() % 2 == 1 {
        return None;
    }
    word.chunks(2).map(|pair| Some(digit(pair[0])? << 4 | digit(pair[1])?)).collect()
}

/// Bytes as a word of a line. Kept buffers are long, so it is written into one piece of memory.
pub fn word(bytes: &[u8]) -> String {
    const DIGITS: [char; 16] = ['0', '1', '2', '3', '4', '5', '6', '7', '8', '9', 'a', 'b', 'c', 'd', 'e', 'f'];
    if bytes.is_empty() {
        return "-".to_string();
    }
    let mut word = String::with_capacity(2 * bytes.len());
    for byte in bytes {
        word.push(DIGITS[usize::from(byte >> 4)]);
        word.push(DIGITS[usize::from(byte & 15)]);
    }
    word
}

/// Four bytes in hex.
pub fn u32_in_hex(word: &[u8]) -> Option<u32> {
    bytes(word)?.try_into().ok().map(u32::from_be_bytes)
}

/// A decimal number without leading zeros, up to the most that the type holds.
pub fn decimal<Number: FromStr>(word: &[u8]) -> Option<Number> {
    let lawful = word == b"0" || word.first() != Some(&b'0') && word.iter().all(u8::is_ascii_digit);
    str::from_utf8(word).ok().filter(|_| lawful)?.parse().ok()
}

/// The size of a lent buffer.
pub fn room(word: &[u8]) -> Option<usize> {
    decimal(word).filter(|&size| size <= LARGEST_ROOM)
}

pub fn cookie(word: &[u8]) -> Option<[u8; 8]> {
    bytes(word)?.try_into().ok()
}

pub fn role(word: &[u8]) -> Option<Role> {
    match word {
        b"i" => Some(Role::Initiator),
        b"r" => Some(Role::Responder),
        _ => None,
    }
}

pub fn yes_or_no(word: &[u8]) -> Option<bool> {
    match word {
        b"yes" => Some(true),
        b"no" => Some(false),
        _ => None,
    }
}

fn digit(byte: u8) -> Option<u8> {
    match byte {
        b'0'..=b'9' => Some(byte - b'0'),
        b'a'..=b'f' => Some(byte - b'a' + 10),
        b'A'..=b'F' => Some(byte - b'A' + 10),
        _ => None,
    }
}
