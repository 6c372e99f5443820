//! Key exchange messages as trees of payloads. They are made lawful; every field can then be set to anything.

use crate::identity;
use crate::layout::{Layout, Length};
use crate::offer::{self, Offer, Sizes};
use crate::random::Random;

pub const MAIN_MODE: u8 = 2;
pub const INFORMATIONAL: u8 = 5;
pub const QUICK_MODE: u8 = 32;
pub const EXCHANGES: [u8; 3] = [MAIN_MODE, INFORMATIONAL, QUICK_MODE];

pub const SA: u8 = 1;
pub const KEY: u8 = 4;
pub const IDENTITY: u8 = 5;
pub const CERTIFICATE: u8 = 6;
pub const CERTIFICATE_REQUEST: u8 = 7;
pub const HASH: u8 = 8;
pub const SIGNATURE: u8 = 9;
pub const NONCE: u8 = 10;
pub const NOTICE: u8 = 11;
pub const DELETION: u8 = 12;
pub const VENDOR: u8 = 13;
pub const NAT_D: u8 = 20;
pub const NAT_OA: u8 = 21;
pub const SYMMETRIC_KEY: u8 = 128;
/// Those whose bodies have no rule.
pub const OPAQUE: [u8; 9] =
    [KEY, CERTIFICATE_REQUEST, SIGNATURE, NOTICE, DELETION, VENDOR, NAT_D, NAT_OA, SYMMETRIC_KEY];

pub const HEADER_SIZE: usize = 28;
pub const PAYLOAD_HEADER_SIZE: usize = 4;
pub const LONGEST: usize = 8_192;
pub const MOST_PAYLOADS: usize = 32;
pub const BLOCK: usize = 16;

/// What is `None` is written as it should be.
#[derive(Clone)]
pub struct Message {
    pub initiator: u64,
    pub responder: u64,
    pub first: Option<u8>,
    pub version: u8,
    pub exchange: u8,
    pub flags: u8,
    pub id: u32,
    pub length: Length,
    pub payloads: Vec<Payload>,
    /// The type that the last payload announces behind itself.
    pub after_last: u8,
    pub rest: Rest,
}

/// What stands behind the last payload.
#[derive(Clone)]
pub enum Rest {
    /// With flag 1 the fewest zero bytes to 16, with flag 0 nothing.
    Fewest,
    /// So many zero bytes more.
    More(usize),
    /// The fewest, and the last of them, if there is one, not zero.
    Nonzero,
    Is(Vec<u8>),
}

#[derive(Clone)]
pub struct Payload {
    pub kind: u8,
    pub reserved: u8,
    pub length: Length,
    pub body: Body,
}

#[derive(Clone)]
pub enum Body {
    Bytes(Vec<u8>),
    Offer(Offer),
}

const PAYLOAD_LENGTH: &str = "payload's length";

impl Message {
    pub fn layout(&self) -> Layout {
        let mut layout = Layout::default();
        let types: Vec<_> = self.payloads.iter().map(|payload| payload.kind).chain([self.after_last]).collect();
        layout.number("initiator cookie", 8, self.initiator);
        layout.number("responder cookie", 8, self.responder);
        layout.number("first payload's type", 1, self.first.unwrap_or(types[0]).into());
        layout.number("version", 1, self.version.into());
        layout.number("exchange", 1, self.exchange.into());
        layout.number("flags", 1, self.flags.into());
        layout.number("message ID", 4, self.id.into());
        layout.open("message's length", 4, Some(24), self.length);
        for (payload, &next) in self.payloads.iter().zip(&types[1..]) {
            payload.write(&mut layout, next);
        }
        let rest = self.rest_behind(layout.bytes.len());
        layout.bytes(&rest);
        layout.close();
        layout
    }

    fn rest_behind(&self, size: usize) -> Vec<u8> {
        let mut fewest = if self.flags & 1 == 1 { padding(size) } else { Vec::new() };
        match &self.rest {
            Rest::Fewest => (),
            Rest::More(more) => fewest.resize(fewest.len() + more, 0),
            Rest::Nonzero => fewest.iter_mut().rev().take(1).for_each(|last| *last = 1),
            Rest::Is(bytes) => return bytes.clone(),
        }
        fewest
    }

    pub fn encode(&self) -> Vec<u8> {
        self.layout().bytes
    }

    /// The answer to it, as it is lawful.
    pub fn reading(&self) -> String {
        let mut answer = format!("read {} {}", self.exchange, self.payloads.len());
        let layout = self.layout();
        let places = layout.spans.iter().filter(|span| span.name == PAYLOAD_LENGTH);
        for (payload, place) in self.payloads.iter().zip(places) {
            answer += &format!(" {}@{}+{}", payload.kind, place.start, place.end - place.start);
        }
        answer
    }

    /// Where its SA payload stands among the payloads.
    pub fn offer_at(&self) -> Option<usize> {
        self.payloads.iter().position(|payload| matches!(payload.body, Body::Offer(_)))
    }

    pub fn offer(&mut self) -> Option<&mut Offer> {
        self.payloads.iter_mut().find_map(|payload| match &mut payload.body {
            Body::Offer(offer) => Some(offer),
            Body::Bytes(_) => None,
        })
    }

    /// So many zero bytes behind the last payload, and an opaque one at the front that brings all to a multiple of 16.
    pub fn leave(&mut self, rest: usize) {
        self.rest = Rest::Is(vec![0; rest]);
        let size = self.encode().len() + PAYLOAD_HEADER_SIZE;
        self.payloads.insert(0, opaque(VENDOR, padding(size)));
    }
}

/// The fewest zero bytes that bring a message of that size to a multiple of 16 behind its header.
pub fn padding(size: usize) -> Vec<u8> {
    vec![0; (size - HEADER_SIZE).next_multiple_of(BLOCK) - (size - HEADER_SIZE)]
}

impl Payload {
    pub fn offer(&self) -> Option<&Offer> {
        match &self.body {
            Body::Offer(offer) => Some(offer),
            Body::Bytes(_) => None,
        }
    }

    /// It by itself, with no payload behind it.
    pub fn encode_last(&self) -> Vec<u8> {
        let mut layout = Layout::default();
        self.write(&mut layout, 0);
        layout.bytes
    }

    fn write(&self, layout: &mut Layout, next: u8) {
        layout.number("payload's next", 1, next.into());
        layout.number("payload's reserved byte", 1, self.reserved.into());
        layout.open(PAYLOAD_LENGTH, 2, Some(2), self.length);
        match &self.body {
            Body::Offer(offer) => offer.write(layout),
            Body::Bytes(bytes) => {
                // An identity's type and protocol, a certificate's encoding.
                let fields = match self.kind {
                    IDENTITY => 2,
                    CERTIFICATE => 1,
                    _ => 0,
                };
                let (front, back) = bytes.split_at(fields.min(bytes.len()));
                front.iter().for_each(|&byte| layout.number("body's first bytes", 1, byte.into()));
                layout.bytes(back);
            }
        }
        layout.close();
    }
}

pub fn opaque(kind: u8, body: Vec<u8>) -> Payload {
    Payload { kind, reserved: 0, length: Length::Right, body: Body::Bytes(body) }
}

pub fn sa(offer: Offer) -> Payload {
    Payload { kind: SA, reserved: 0, length: Length::Right, body: Body::Offer(offer) }
}

/// A lawful payload of that type, of a size such as most have.
pub fn random_payload(random: &mut Random, exchange: u8, kind: u8, sizes: Sizes) -> Payload {
    match kind {
        SA => sa(offer::random_offer(random, exchange, sizes)),
        IDENTITY => opaque(kind, identity::random_body(random, exchange)),
        HASH => opaque(kind, random.bytes(32)),
        NONCE => {
            let size = random.one_of(&[8, 16, 32, 256]);
            opaque(kind, random.bytes(size))
        }
        CERTIFICATE => {
            let size = random.below(40);
            opaque(kind, [[random.one_of(&[4, 5])].as_slice(), &random.bytes(size)].concat())
        }
        _ => {
            let size = random.below(24);
            opaque(kind, random.bytes(size))
        }
    }
}

/// A lawful message with these types of payloads.
pub fn message_of(random: &mut Random, exchange: u8, flags: u8, types: &[u8], sizes: Sizes) -> Message {
    let payloads = types.iter().map(|&kind| random_payload(random, exchange, kind, sizes)).collect();
    Message {
        initiator: 1 + random.number(63),
        responder: 1 + random.number(63),
        first: None,
        version: 0x11,
        exchange,
        flags,
        id: lawful_id(random, exchange),
        length: Length::Right,
        payloads,
        after_last: 0,
        rest: Rest::Fewest,
    }
}

pub fn lawful_id(random: &mut Random, exchange: u8) -> u32 {
    match exchange {
        MAIN_MODE => 0,
        INFORMATIONAL => [0, 1, random.number(32) as u32][random.below(3)],
        _ => 1 + random.number(31) as u32,
    }
}

/// A type that may follow these in the exchange.
fn random_type(random: &mut Random, exchange: u8, before: &[u8]) -> u8 {
    const TYPES: [u8; 14] = [
        SA,
        KEY,
        IDENTITY,
        CERTIFICATE,
        CERTIFICATE_REQUEST,
        HASH,
        SIGNATURE,
        NONCE,
        NOTICE,
        DELETION,
        VENDOR,
        NAT_D,
        NAT_OA,
        SYMMETRIC_KEY,
    ];
    loop {
        let kind = random.one_of(&TYPES);
        let barred = exchange == INFORMATIONAL && matches!(kind, SA | IDENTITY);
        let second = kind == SA && before.contains(&SA);
        if !barred && !second {
            return kind;
        }
    }
}

/// A lawful message of so many payloads of any types.
pub fn random_message(random: &mut Random, exchange: u8, count: usize, sizes: Sizes) -> Message {
    let mut types = Vec::new();
    for _ in 0..count {
        types.push(random_type(random, exchange, &types));
    }
    let flags = random.below(2) as u8;
    message_of(random, exchange, flags, &types, sizes)
}

#[cfg(test)]
mod tests {
    use super::*;

    /// Document 01's example, "Policy book and choice".
    #[test]
    fn the_example_of_document_01_is_written_byte_for_byte() {
        let mut random = Random::new(1, "example");
        let mut message = message_of(&mut random, MAIN_MODE, 0, &[SA], offer::SMALL);
        let attributes = [(1, 0x81), (2, 0x14), (3, 0x0a), (20, 2), (11, 1), (12, 0xe10)];
        let offer = message.offer().unwrap();
        offer.proposals[0].number = 1;
        offer.proposals[0].transforms =
            vec![offer::transform(1, 1, attributes.map(|(kind, value)| offer::fixed(kind, value)).to_vec())];
        let bytes = message.encode();
        assert_eq!(message.reading(), "read 2 1 1@28+52");
        assert_eq!(
            crate::cases::word(&bytes[16..]),
            "01110200000000000000005000000034000000010000000100000028010100010000002001010000800100818002001\
             48003000a80140002800b0001800c0e10"
        );
    }

    #[test]
    fn any_rest_can_be_left_in_whole_blocks() {
        let mut random = Random::new(1, "rest");
        for rest in 0..20 {
            let mut message = random_message(&mut random, QUICK_MODE, 3, offer::SMALL);
            message.leave(rest);
            assert_eq!((message.encode().len() - HEADER_SIZE) % BLOCK, 0);
        }
    }
}
