//! The words of a line, and bytes as a word; `None` where a word is none of its sort.

use std::str::{self, FromStr};
use tallowbrim::Role;

/// Bytes in hex of either case, `-` for none of them.
pub fn bytes(word: &[u8]) -> Option<Vec<u8>> {
    if word == b"-" {
        return Some(Vec::new());
    }
    if word.is_empty() || word.len() % 2 == 1 {
        return None;
    }
    let digit = |byte: u8| char::from(byte).to_digit(16);
    word.chunks(2).map(|pair| Some((digit(pair[0])? << 4 | digit(pair[1])?) as u8)).collect()
}

pub fn word(bytes: &[u8]) -> String {
    if bytes.is_empty() {
        return "-".to_string();
    }
    let digits = bytes.iter().flat_map(|byte| [byte >> 4, byte & 15]);
    digits.map(|digit| char::from(b"0123456789abcdef"[usize::from(digit)])).collect()
}

pub fn four_bytes(word: &[u8]) -> Option<u32> {
    bytes(word)?.try_into().ok().map(u32::from_be_bytes)
}

pub fn eight_bytes(word: &[u8]) -> Option<u64> {
    bytes(word)?.try_into().ok().map(u64::from_be_bytes)
}

/// A number without leading zeros, to the most that its type holds.
pub fn decimal<Number: FromStr>(word: &[u8]) -> Option<Number> {
    let lawful = word == b"0" || word.first() != Some(&b'0') && word.iter().all(u8::is_ascii_digit);
    str::from_utf8(word).ok().filter(|_| lawful)?.parse().ok()
}

/// The size of a lent buffer.
pub fn room(word: &[u8]) -> Option<usize> {
    decimal(word).filter(|&size| size <= 4_096)
}

pub fn role(word: &[u8]) -> Option<Role> {
    match word {
        b"i" => Some(Role::Initiator),
        b"r" => Some(Role::Responder),
        _ => None,
    }
}

pub fn yes_or_no(word: &[u8]) -> Option<bool> {
    match word {
        b"yes" => Some(true),
        b"no" => Some(false),
        _ => None,
    }
}
