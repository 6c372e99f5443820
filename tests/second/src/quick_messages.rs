//! Document 01, "Quick mode ends": the three messages, as an end writes them and as it reads them.
//!
//! Messages 1 and 2: hash, SA, nonce, and no or two identities. Message 3: hash.

use crate::message::{self, Reading, HASH, HASH_SIZE, HEADER_SIZE, IDENTIFICATION, NONCE, PAYLOAD_HEADER_SIZE};
use crate::message::{QUICK_MODE, SA};
use crate::offer::{self, AH, ESP};
use crate::policy::Line;
use crate::reply::Spis;
use crate::write::{self, Proposal};

/// Two bodies, or none.
pub type Identities<'a> = Option<[&'a [u8]; 2]>;

/// Where the hash bytes stand in every message of quick mode: the hash comes first.
const HASH_AT: usize = HEADER_SIZE + PAYLOAD_HEADER_SIZE;
const OFFERED_TRANSFORM: u8 = 1;

pub enum Shape<'a> {
    /// 8-1-10 or 8-1-10-5-5.
    Long(Parts<'a>),
    HashAlone,
}

pub struct Parts<'a> {
    pub sa: &'a [u8],
    pub nonce: &'a [u8],
    pub identities: Identities<'a>,
}

/// One of the three shapes, or `None`.
pub fn shape<'a>(message: &'a [u8], reading: &Reading) -> Option<Shape<'a>> {
    let types: Vec<u8> = reading.payloads.iter().map(|payload| payload.kind).collect();
    let bodies: Vec<&[u8]> = reading.payloads.iter().map(|payload| payload.body(message)).collect();
    match types[..] {
        [HASH] => Some(Shape::HashAlone),
        [HASH, SA, NONCE] => Some(Shape::Long(Parts { sa: bodies[1], nonce: bodies[2], identities: None })),
        [HASH, SA, NONCE, IDENTIFICATION, IDENTIFICATION] => {
            let identities = Some([bodies[3], bodies[4]]);
            Some(Shape::Long(Parts { sa: bodies[1], nonce: bodies[2], identities }))
        }
        _ => None,
    }
}

/// The parts of a message that "reads as exchange 32 in either longer shape".
pub fn long_parts(message: &[u8]) -> Option<Parts<'_>> {
    let reading = message::read(message).ok().filter(|reading| reading.exchange == QUICK_MODE)?;
    match shape(message, &reading)? {
        Shape::Long(parts) => Some(parts),
        Shape::HashAlone => None,
    }
}

/// Equal apart from the hash bytes; both messages begin with a hash.
pub fn are_equal(one: &[u8], other: &[u8]) -> bool {
    let without_hash = |message: &[u8]| [&message[..HASH_AT], &message[HASH_AT + HASH_SIZE..]].concat();
    without_hash(one) == without_hash(other)
}

/// Message 1 or 2, with zero bytes for the hash.
pub fn long_message(cookies: &[u8; 16], id: u32, parts: &Parts) -> Vec<u8> {
    let mut payloads = vec![(HASH, [0; HASH_SIZE].as_slice()), (SA, parts.sa), (NONCE, parts.nonce)];
    payloads.extend(parts.identities.iter().flatten().map(|&body| (IDENTIFICATION, body)));
    write::quick_message(cookies, id, &payloads)
}

pub fn message_3(cookies: &[u8; 16], id: u32) -> Vec<u8> {
    write::quick_message(cookies, id, &[(HASH, &[0; HASH_SIZE])])
}

/// "Offers one set per quick line, numbered from 1, AH before ESP, transform 1."
pub fn offer(lines: &[Line], own: Spis) -> Vec<u8> {
    let mut proposals = Vec::new();
    for (line, number) in lines.iter().zip(1..) {
        for (protocol, transform) in transforms(line) {
            let spi = own.of(protocol).expect("AH and ESP have SPIs").to_be_bytes().to_vec();
            proposals.push(Proposal { number, protocol, spi, transform });
        }
    }
    write::sa_body(&proposals)
}

/// "The suiting attributes with the line's seconds, sent fixed, in the order 4, 5 where there is one, 1, 2."
fn transforms(line: &Line) -> Vec<(u8, Vec<u8>)> {
    let fixed = |value: u32| u16::try_from(value).expect("a quick line's values are small");
    match *line {
        Line::Main { .. } => Vec::new(),
        Line::EspAlone { mode, seconds } => {
            let esp = [(4, fixed(mode)), (5, 20), (1, 1), (2, fixed(seconds))];
            vec![(ESP, write::transform(OFFERED_TRANSFORM, 129, &esp))]
        }
        Line::AhWithEsp { mode, seconds } => {
            let ah = [(4, fixed(mode)), (5, 20), (1, 1), (2, fixed(seconds))];
            let esp = [(4, fixed(mode)), (1, 1), (2, fixed(seconds))];
            vec![
                (AH, write::transform(OFFERED_TRANSFORM, 20, &ah)),
                (ESP, write::transform(OFFERED_TRANSFORM, 129, &esp)),
            ]
        }
    }
}

/// "One set, its number, protocols, order and each transform as offered": the proposals of the answer, if it is so.
pub fn taken_from_offer<'a>(offered: &[u8], answer: &'a [u8]) -> Option<Vec<offer::Proposal<'a>>> {
    let answer: Vec<_> = offer::proposals(answer).collect();
    let set = answer[0].number;
    let offered = offer::proposals(offered).filter(|proposal| proposal.number == set);
    let contents = |proposal: &offer::Proposal| {
        let transforms: Vec<Vec<u8>> = proposal.transforms().map(|transform| transform.bytes.to_vec()).collect();
        (proposal.number, proposal.protocol, transforms)
    };
    answer.iter().map(contents).eq(offered.map(|proposal| contents(&proposal))).then_some(answer)
}
