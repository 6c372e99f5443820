//! Reading: datagrams of port 4500, key exchange messages, identities, DER.

use crate::raw;
use crate::refusal::{done, small, Refusal};

/// Where something lies in bytes that a call was given.
#[derive(Clone, Copy, Debug, PartialEq, Eq)]
pub struct Part {
    /// The byte where it begins, counted from 0.
    pub start: usize,
    /// How many bytes it has.
    pub length: usize,
}

impl Part {
    pub(crate) fn new(start: u64, length: u64) -> Part {
        Part { start: small(start), length: small(length) }
    }

    /// The bytes themselves, of those that the call was given.
    pub fn of(self, bytes: &[u8]) -> &[u8] {
        &bytes[self.start..self.start + self.length]
    }
}

/// What a datagram of port 4500 is.
#[derive(Clone, Copy, Debug, PartialEq, Eq)]
pub enum Datagram {
    /// A NAT keepalive.
    Keepalive,
    /// A key exchange message behind four zero bytes.
    KeyExchange(Part),
    /// An ESP packet, the whole datagram.
    Esp {
        /// How many bytes it has.
        length: usize,
    },
}

/// What a datagram of port 4500 is. Refused with 16.
pub fn datagram(datagram: &[u8]) -> Result<Datagram, Refusal> {
    let mut out = [0; 3];
    done(unsafe { raw::tallowbrim_datagram(datagram.as_ptr(), datagram.len(), &mut out) })?;
    Ok(match out {
        [1, ..] => Datagram::Keepalive,
        [2, start, length] => Datagram::KeyExchange(Part::new(start, length)),
        [3, length, _] => Datagram::Esp { length: small(length) },
        _ => unreachable!("the core answered {out:?}"),
    })
}

/// A key exchange message that reads.
#[derive(Clone, Copy, Debug, PartialEq, Eq)]
pub struct Message {
    /// [`MAIN_MODE`](crate::MAIN_MODE), [`INFORMATIONAL`](crate::INFORMATIONAL) or [`QUICK_MODE`](crate::QUICK_MODE).
    pub exchange: u8,
    /// How many payloads it has.
    pub count: u8,
}

/// Reads a key exchange message, from its header on and deciphered. Refused with 1 to 11, 13, 15, 16, 18, 19, 29 and 30.
pub fn message(message: &[u8]) -> Result<Message, Refusal> {
    let mut out = [0; 2];
    done(unsafe { raw::tallowbrim_message(message.as_ptr(), message.len(), &mut out) })?;
    let [exchange, count] = out;
    Ok(Message { exchange: small(exchange), count: small(count) })
}

/// A payload of a message.
#[derive(Clone, Copy, Debug, PartialEq, Eq)]
pub struct Payload {
    /// Its type; [`OFFER`](crate::OFFER) is an SA payload.
    pub kind: u8,
    /// Where it lies in the message.
    pub part: Part,
}

/// A payload of a message, the first being 0. Refused as [`message`] is, and with 16 where there is no such payload.
pub fn payload(message: &[u8], place: u8) -> Result<Payload, Refusal> {
    let mut out = [0; 3];
    done(unsafe { raw::tallowbrim_payload(message.as_ptr(), message.len(), place, &mut out) })?;
    let [kind, start, length] = out;
    Ok(Payload { kind: small(kind), part: Part::new(start, length) })
}

/// Whether the body of an identification payload is lawful in main or quick mode. Refused with 18.
pub fn identity(exchange: u8, body: &[u8]) -> Result<(), Refusal> {
    done(unsafe { raw::tallowbrim_identity(exchange, body.as_ptr(), body.len()) })
}

/// Whether bytes are one DER name: exactly one element, with tag 0x30. Refused with 18.
pub fn name(bytes: &[u8]) -> Result<(), Refusal> {
    done(unsafe { raw::tallowbrim_name(bytes.as_ptr(), bytes.len()) })
}

/// Whether bytes are exactly one DER element. Refused with 18.
pub fn element(bytes: &[u8]) -> Result<(), Refusal> {
    done(unsafe { raw::tallowbrim_element(bytes.as_ptr(), bytes.len()) })
}
