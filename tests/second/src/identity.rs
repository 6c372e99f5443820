//! Document 01, "Identities": the body of an identification payload, that is type, protocol, port (2 bytes), data.

use crate::der;
use crate::message::{MAIN_MODE, QUICK_MODE};
use crate::refusal::{self, refuse_if, Refusal};

pub fn check(exchange: u8, body: &[u8]) -> Result<(), Refusal> {
    refuse_if(!is_lawful(exchange, body), refusal::IDENTITY)
}

fn is_lawful(exchange: u8, body: &[u8]) -> bool {
    let [kind, protocol, port_high, port_low, data @ ..] = body else {
        return false;
    };
    match exchange {
        MAIN_MODE => [*protocol, *port_high, *port_low] == [0; 3] && names_a_party(*kind, data),
        QUICK_MODE => names_addresses(*kind, data),
        _ => false,
    }
}

fn names_a_party(kind: u8, data: &[u8]) -> bool {
    match kind {
        1 => data.len() == 4,
        5 => data.len() == 16,
        2 | 3 | 11 => (1..=255).contains(&data.len()),
        9 => der::is_name(data),
        10 => der::is_one_element(data),
        _ => false,
    }
}

fn names_addresses(kind: u8, data: &[u8]) -> bool {
    match kind {
        1 => data.len() == 4,
        4 | 7 => data.len() == 8,
        5 => data.len() == 16,
        6 | 8 => data.len() == 32,
        _ => false,
    }
}
