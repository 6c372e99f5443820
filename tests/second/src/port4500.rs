//! Document 01, "Port 4500".

use crate::refusal::{self, refuse_if, Refusal};

const KEEPALIVE: [u8; 1] = [255];
const KEY_EXCHANGE_MARKER: [u8; 4] = [0; 4];
const SHORTEST: usize = 4;

/// What a datagram of that port is. A key exchange is handed on without its marker, an ESP packet whole.
pub enum Datagram<'a> {
    Keepalive,
    KeyExchange(&'a [u8]),
    Esp(&'a [u8]),
}

pub fn read(message: &[u8]) -> Result<Datagram<'_>, Refusal> {
    if message == KEEPALIVE {
        return Ok(Datagram::Keepalive);
    }
    refuse_if(message.len() < SHORTEST, refusal::MALFORMED)?;
    match message.strip_prefix(&KEY_EXCHANGE_MARKER) {
        Some(rest) => Ok(Datagram::KeyExchange(rest)),
        None => Ok(Datagram::Esp(message)),
    }
}

pub fn answer(message: &[u8]) -> String {
    match read(message) {
        Ok(Datagram::Keepalive) => "keepalive".to_string(),
        Ok(Datagram::KeyExchange(rest)) => format!("key-exchange {} {}", KEY_EXCHANGE_MARKER.len(), rest.len()),
        Ok(Datagram::Esp(packet)) => format!("esp {}", packet.len()),
        Err(number) => format!("refused {number}"),
    }
}
