//! Document 01, "Header and chain": the header, the payloads behind it, and the bodies that have a rule.
//!
//! Header: two cookies of 8 bytes, first payload's type, version, exchange, flags, message ID (4), length (4).
//! Payload: next payload's type, a reserved byte, length (2), which counts these four bytes, body.

use crate::refusal::{self, refuse_if, Refusal};
use crate::wire::{u16_at, u32_at};
use crate::{identity, offer};
use std::ops::RangeInclusive;

pub const MAIN_MODE: u8 = 2;
pub const INFORMATIONAL: u8 = 5;
pub const QUICK_MODE: u8 = 32;

pub const HEADER_SIZE: usize = 28;
const LONGEST_MESSAGE: usize = 8_192;
const MOST_PAYLOADS: usize = 32;
pub const PAYLOAD_HEADER_SIZE: usize = 4;
/// What a message with flag 1 is padded to.
pub const BLOCK_SIZE: usize = 16;

pub const SA: u8 = 1;
pub const IDENTIFICATION: u8 = 5;
const CERTIFICATE: u8 = 6;
pub const HASH: u8 = 8;
pub const NONCE: u8 = 10;

pub const HASH_SIZE: usize = 32;
pub const NONCE_SIZES: RangeInclusive<usize> = 8..=256;

/// "The reading gives exchange, count, and type, start and length of each payload."
pub struct Reading {
    pub exchange: u8,
    pub payloads: Vec<Payload>,
}

pub struct Payload {
    pub kind: u8,
    pub start: usize,
    pub length: usize,
}

impl Reading {
    /// Type, start and length of each payload, as lines have them.
    pub fn places(&self) -> String {
        let place = |Payload { kind, start, length }: &Payload| format!(" {kind}@{start}+{length}");
        self.payloads.iter().map(place).collect()
    }

    /// The body of the SA payload, if the message that was read has one.
    pub fn sa_body<'a>(&self, message: &'a [u8]) -> Option<&'a [u8]> {
        self.payloads.iter().find(|payload| payload.kind == SA).map(|sa| sa.body(message))
    }
}

impl Payload {
    /// Its body in the message that was read.
    pub fn body<'a>(&self, message: &'a [u8]) -> &'a [u8] {
        &message[self.start + PAYLOAD_HEADER_SIZE..self.start + self.length]
    }
}

pub fn read(message: &[u8]) -> Result<Reading, Refusal> {
    check_header(message)?;
    let exchange = message[18];
    let flag = message[19];
    let payloads = chain(exchange, message)?;
    let end = payloads.last().map_or(HEADER_SIZE, |last| last.start + last.length);
    check_rest(flag, &message[end..])?;
    Ok(Reading { exchange, payloads })
}

fn check_header(message: &[u8]) -> Result<(), Refusal> {
    let length = message.len();
    let in_bounds = (HEADER_SIZE..=LONGEST_MESSAGE).contains(&length);
    refuse_if(!in_bounds || u32_at(message, 24) as usize != length, refusal::LENGTHS)?;
    let (initiator, responder) = (&message[..8], &message[8..16]);
    let [first, version, exchange, flags] = [message[16], message[17], message[18], message[19]];
    let id = u32_at(message, 20);
    let past_a_block = (length - HEADER_SIZE) % BLOCK_SIZE;
    refuse_if(version >> 4 != 1, refusal::MAJOR_VERSION)?;
    refuse_if(version & 15 != 1, refusal::MINOR_VERSION)?;
    refuse_if(matches!(exchange, 1 | 3), refusal::EXCHANGE_1_OR_3)?;
    refuse_if(!matches!(exchange, MAIN_MODE | INFORMATIONAL | QUICK_MODE), refusal::EXCHANGE_TYPE)?;
    refuse_if(!matches!(flags, 0 | 1), refusal::FLAG)?;
    refuse_if(is_zero(initiator) || exchange == QUICK_MODE && is_zero(responder), refusal::COOKIE)?;
    refuse_if(exchange == MAIN_MODE && id != 0 || exchange == QUICK_MODE && id == 0, refusal::MESSAGE_ID)?;
    refuse_if(flags == 1 && past_a_block != 0, refusal::LENGTHS)?;
    refuse_if(first == 0, refusal::MALFORMED)
}

fn is_zero(bytes: &[u8]) -> bool {
    bytes.iter().all(|&byte| byte == 0)
}

fn chain(exchange: u8, message: &[u8]) -> Result<Vec<Payload>, Refusal> {
    let mut payloads: Vec<Payload> = Vec::new();
    let mut kind = message[16];
    let mut start = HEADER_SIZE;
    while kind != 0 {
        let left = &message[start..];
        refuse_if(payloads.len() == MOST_PAYLOADS, refusal::MALFORMED)?;
        refuse_if(!is_allowed(exchange, kind), refusal::PAYLOAD_TYPE)?;
        refuse_if(left.len() < PAYLOAD_HEADER_SIZE, refusal::MALFORMED)?;
        refuse_if(left[1] != 0, refusal::MALFORMED)?;
        let length = usize::from(u16_at(left, 2));
        refuse_if(length < PAYLOAD_HEADER_SIZE || length > left.len(), refusal::LENGTHS)?;
        // "A second SA payload is 15 unread."
        refuse_if(kind == SA && payloads.iter().any(|before| before.kind == SA), refusal::SA_SYNTAX)?;
        check_body(exchange, kind, &left[PAYLOAD_HEADER_SIZE..length])?;
        payloads.push(Payload { kind, start, length });
        kind = left[0];
        start += length;
    }
    Ok(payloads)
}

fn is_allowed(exchange: u8, kind: u8) -> bool {
    match kind {
        SA | IDENTIFICATION => exchange != INFORMATIONAL,
        4..=13 | 20 | 21 | 128 => true,
        _ => false,
    }
}

fn check_body(exchange: u8, kind: u8, body: &[u8]) -> Result<(), Refusal> {
    match kind {
        SA => offer::check(exchange, body),
        IDENTIFICATION => identity::check(exchange, body),
        HASH => refuse_if(body.len() != HASH_SIZE, refusal::MALFORMED),
        NONCE => refuse_if(!NONCE_SIZES.contains(&body.len()), refusal::MALFORMED),
        CERTIFICATE => {
            refuse_if(body.is_empty(), refusal::MALFORMED)?;
            refuse_if(!matches!(body[0], 4 | 5), refusal::CERTIFICATE_ENCODING)
        }
        _ => Ok(()),
    }
}

/// What is left behind the last payload.
fn check_rest(flag: u8, rest: &[u8]) -> Result<(), Refusal> {
    let most = if flag == 1 { BLOCK_SIZE - 1 } else { 0 };
    refuse_if(rest.len() > most, refusal::LENGTHS)?;
    refuse_if(!is_zero(rest), refusal::MALFORMED)
}
