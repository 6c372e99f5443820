//! The line `frame`: what `./capture` prints of a record behind its stamp; and what it prints of a whole file.

use crate::{accepted, places, said};
use tallowbrim::{Addresses, Carried, Datagram, HeaderCause, Listed, Refusal, Table};

const FILE_HEADER: usize = 24;
const RECORD_HEADER: usize = 16;

/// What a file's header is.
pub fn cause(file: &[u8]) -> String {
    match tallowbrim::header_cause(file) {
        HeaderCause::Nothing => "nothing wrong".to_string(),
        HeaderCause::Short => "too short".to_string(),
        HeaderCause::Pcapng => "pcapng".to_string(),
        HeaderCause::Nanoseconds => "nanoseconds".to_string(),
        HeaderCause::Version { major, minor } => format!("version {major} {minor}"),
        HeaderCause::CheckSequences => "check sequences".to_string(),
        HeaderCause::LinkType(number) => format!("link type {number}"),
        HeaderCause::NoCapture => "no capture".to_string(),
    }
}

pub fn capture(file: &[u8]) -> String {
    let mut listing = String::new();
    if let Err(refusal) = list(file, &mut listing) {
        listing += &format!("refused {}\n", refusal.number());
    }
    listing
}

fn list(file: &[u8], listing: &mut String) -> Result<(), Refusal> {
    let order = tallowbrim::file_header(file)?;
    let mut table = Table::new();
    let mut at = FILE_HEADER;
    for number in 1.. {
        if at >= file.len() {
            break;
        }
        let header = tallowbrim::record_header(order, &file[at..])?;
        *listing += &format!("{number} at {at}");
        let Some(header) = header else {
            *listing += " cut short\n";
            break;
        };
        *listing += &format!(" {}.{:06} ", header.seconds, header.microseconds);
        at += RECORD_HEADER;
        let Some(record) = file.get(at..at + usize::from(header.captured)) else {
            *listing += "cut short\n";
            break;
        };
        *listing += &frame(&mut table, header.original, record);
        *listing += "\n";
        at += record.len();
    }
    Ok(())
}

pub fn frame(table: &mut Table, original: u32, record: &[u8]) -> String {
    match tallowbrim::record(table, original, record) {
        Listed::CutShort => "cut short".to_string(),
        Listed::NotIpv4 => "not IPv4".to_string(),
        Listed::Fragment(between) => format!("{} fragment", shown(between)),
        Listed::OtherProtocol(between, protocol) => format!("{} other protocol {protocol}", shown(between)),
        Listed::OtherPorts(between, ports) => {
            format!("{} other ports {} > {}", shown(between), ports.source, ports.destination)
        }
        Listed::Keepalive(between) => format!("{} keepalive", shown(between)),
        Listed::Enciphered { addresses, exchange, id } => {
            format!("{} enciphered exchange {exchange} id {id:08x}", shown(addresses))
        }
        Listed::Read { addresses, exchange, count } => {
            let places = said(places(message_of(original, record), count));
            format!("{} exchange {exchange} payloads {count}{places}", shown(addresses))
        }
        Listed::Refused(between, refusal) => format!("{} {}", shown(between), said(Err(refusal))),
        Listed::ShortPacket { addresses, protocol, refusal } => {
            format!("{} {} {}", shown(addresses), name(protocol), said(Err(refusal)))
        }
        Listed::Packet { addresses, protocol, spi, number, verdict } => {
            let verdict = accepted(verdict);
            format!("{} {} {spi:08x} number {number} {verdict}", shown(addresses), name(protocol))
        }
    }
}

fn shown(Addresses { source, destination }: Addresses) -> String {
    format!("{source} > {destination}")
}

fn name(protocol: u8) -> &'static str {
    if protocol == tallowbrim::AH {
        "AH"
    } else {
        "ESP"
    }
}

/// The message in a record that carries one.
fn message_of(original: u32, record: &[u8]) -> &[u8] {
    match tallowbrim::carried(original, record) {
        Carried::Message(_, part) => part.of(record),
        Carried::Datagram(_, part) => match tallowbrim::datagram(part.of(record)) {
            Ok(Datagram::KeyExchange(message)) => message.of(part.of(record)),
            _ => &[],
        },
        _ => &[],
    }
}
