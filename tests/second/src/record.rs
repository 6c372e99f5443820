//! Request one, "To the readers" and "To the table": what is listed of a record.

use crate::frame::{self, Carries, Frame};
use crate::message::{self, HEADER_SIZE};
use crate::policy::{self, Book};
use crate::port4500::{self, Datagram};
use crate::refusal::{self, Refusal};
use crate::sequence::{Key, Table, AH, ESP};
use crate::verdict;
use crate::wire::u32_at;

const ENCIPHERED: u8 = 1;

/// What a record of that original length is said to be. With a book, a second line tells the choice from a message that
/// reads and has an SA payload.
pub fn listed(table: &mut Table, book: Option<&Book>, original: u32, bytes: &[u8]) -> String {
    match frame::read(original, bytes) {
        Frame::CutShort => "cut short".to_string(),
        Frame::NotIpv4 => "not IPv4".to_string(),
        Frame::Ipv4 { source, destination, carries } => {
            let said = handed_on(table, book, destination, carries);
            format!("{} > {} {said}", dotted(source), dotted(destination))
        }
    }
}

fn dotted(address: u32) -> String {
    let [one, two, three, four] = address.to_be_bytes();
    format!("{one}.{two}.{three}.{four}")
}

fn handed_on(table: &mut Table, book: Option<&Book>, destination: u32, carries: Carries) -> String {
    match carries {
        Carries::Fragment => "fragment".to_string(),
        Carries::OtherProtocol(protocol) => format!("other protocol {protocol}"),
        Carries::OtherPorts { source, destination } => format!("other ports {source} > {destination}"),
        Carries::Ah(packet) => format!("AH {}", verdict_on(table, destination, AH, packet)),
        Carries::Esp(packet) => format!("ESP {}", verdict_on(table, destination, ESP, packet)),
        Carries::KeyExchange(message) => key_exchange(book, message),
        Carries::Port4500(data) => match port4500::read(data) {
            Err(number) => refused(number),
            Ok(Datagram::Keepalive) => "keepalive".to_string(),
            Ok(Datagram::KeyExchange(message)) => key_exchange(book, message),
            Ok(Datagram::Esp(packet)) => format!("ESP {}", verdict_on(table, destination, ESP, packet)),
        },
    }
}

fn refused(number: Refusal) -> String {
    format!("refused {number}")
}

/// Bytes that are no whole header are never taken for enciphered.
fn key_exchange(book: Option<&Book>, message: &[u8]) -> String {
    if message.len() >= HEADER_SIZE && message[19] == ENCIPHERED {
        return format!("enciphered exchange {} id {:08x}", message[18], u32_at(message, 20));
    }
    let reading = match message::read(message) {
        Ok(reading) => reading,
        Err(number) => return refused(number),
    };
    let mut lines = format!("exchange {} payloads {}{}", reading.exchange, reading.payloads.len(), reading.places());
    if let (Some(book), Some(_)) = (book, reading.sa_body(message)) {
        lines += "\n  ";
        lines += &policy::choose_from(book, message, &reading).map_or_else(refused, verdict::chosen);
    }
    lines
}

/// SPI and number where the packet has them, and the table's verdict.
fn verdict_on(table: &mut Table, destination: u32, protocol: u8, packet: &[u8]) -> String {
    let verdict = match shown_to(table, destination, protocol, packet) {
        Ok(rise) => format!("accepted {rise}"),
        Err(number) => refused(number),
    };
    match fields(protocol, packet) {
        Some((spi, number)) => format!("{spi:08x} number {number} {verdict}"),
        None => verdict,
    }
}

/// SPI and number of a packet that has so many bytes, also where it is malformed.
fn fields(protocol: u8, packet: &[u8]) -> Option<(u32, u32)> {
    match protocol {
        AH if packet.len() >= 12 => Some((u32_at(packet, 4), u32_at(packet, 8))),
        ESP if packet.len() >= 8 => Some((u32_at(packet, 0), u32_at(packet, 4))),
        _ => None,
    }
}

/// Integrity is taken as yes. Where 11 would stand, the packet reads and its key is absent: the key is added first.
fn shown_to(table: &mut Table, destination: u32, protocol: u8, packet: &[u8]) -> Result<u64, Refusal> {
    match (table.packet(destination, protocol, true, packet), fields(protocol, packet)) {
        (Err(refusal::SPI), Some((spi, _))) => {
            table.add(Key { destination, protocol, spi })?;
            table.packet(destination, protocol, true, packet)
        }
        (verdict, _) => verdict,
    }
}
