//! Writing messages and payloads; their parts are laid out as in message.rs and offer.rs.

use crate::message::{BLOCK_SIZE, HEADER_SIZE, QUICK_MODE};
use crate::offer::{NONE_NEXT, PROPOSAL_NEXT, SENT_FIXED};

const DOI: u32 = 1;
const SITUATION: u32 = 1;

const VERSION: u8 = 0x11;
const FLAG: u8 = 1;
const LENGTH_AT: usize = 24;

/// A message of quick mode with these types and bodies, padded with "the fewest zero bytes to 16".
pub fn quick_message(cookies: &[u8; 16], id: u32, payloads: &[(u8, &[u8])]) -> Vec<u8> {
    let type_at = |place: usize| payloads.get(place).map_or(NONE_NEXT, |(kind, _)| *kind);
    let fields = [type_at(0), VERSION, QUICK_MODE, FLAG];
    let mut message = [cookies.as_slice(), &fields, &id.to_be_bytes(), &[0; 4]].concat();
    for (place, (_, body)) in payloads.iter().enumerate() {
        message.extend(payload(type_at(place + 1), body));
    }
    while (message.len() - HEADER_SIZE) % BLOCK_SIZE != 0 {
        message.push(0);
    }
    let length = message.len() as u32;
    message[LENGTH_AT..HEADER_SIZE].copy_from_slice(&length.to_be_bytes());
    message
}

/// A payload, with the type of the one that follows it.
pub fn payload(next: u8, body: &[u8]) -> Vec<u8> {
    [&[next, 0], length(4 + body.len()).as_slice(), body].concat()
}

/// A proposal with one transform.
pub struct Proposal {
    pub number: u8,
    pub protocol: u8,
    pub spi: Vec<u8>,
    pub transform: Vec<u8>,
}

/// The body of an SA payload.
pub fn sa_body(proposals: &[Proposal]) -> Vec<u8> {
    let mut body = [DOI.to_be_bytes(), SITUATION.to_be_bytes()].concat();
    for (proposal, after) in proposals.iter().zip(1..) {
        body.extend(proposal.bytes(if after < proposals.len() { PROPOSAL_NEXT } else { NONE_NEXT }));
    }
    body
}

impl Proposal {
    fn bytes(&self, next: u8) -> Vec<u8> {
        let [high, low] = length(8 + self.spi.len() + self.transform.len());
        let head = [next, 0, high, low, self.number, self.protocol, self.spi.len() as u8, 1];
        [&head, self.spi.as_slice(), &self.transform].concat()
    }
}

/// A proposal's only transform, with these attributes sent fixed.
pub fn transform(number: u8, id: u8, attributes: &[(u16, u16)]) -> Vec<u8> {
    let attributes = attributes.iter().flat_map(|&(kind, value)| [SENT_FIXED | kind, value]);
    let attributes: Vec<u8> = attributes.flat_map(u16::to_be_bytes).collect();
    let [high, low] = length(8 + attributes.len());
    [&[NONE_NEXT, 0, high, low, number, id, 0, 0], attributes.as_slice()].concat()
}

/// A length of two bytes. What is written is far shorter than the most it can say.
fn length(bytes: usize) -> [u8; 2] {
    u16::try_from(bytes).expect("a written item is short").to_be_bytes()
}
