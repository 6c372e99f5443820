//! Captures: the headers of a classic pcap file, what a record carries, and what is listed of it.

use crate::raw;
use crate::reading::Part;
use crate::refusal::{always_done, done, refusal, small, Refusal};
use crate::sequence::Table;
use std::net::Ipv4Addr;

/// The byte order of a file.
#[derive(Clone, Copy, Debug, PartialEq, Eq)]
pub enum Order {
    /// Big-endian.
    Big,
    /// Little-endian.
    Little,
}

/// The byte order of a file, by its first 24 bytes. Refused with 8201.
pub fn file_header(header: &[u8]) -> Result<Order, Refusal> {
    let mut out = [0; 1];
    done(unsafe { raw::tallowbrim_file_header(header.as_ptr(), header.len(), &mut out) })?;
    Ok(match out {
        [1] => Order::Big,
        [2] => Order::Little,
        _ => unreachable!("the core answered {out:?}"),
    })
}

/// What a file is whose header is refused.
#[derive(Clone, Copy, Debug, PartialEq, Eq)]
pub enum HeaderCause {
    /// Nothing is wrong with it.
    Nothing,
    /// It is too short for a header.
    Short,
    /// A pcapng file.
    Pcapng,
    /// Its stamps are in nanoseconds.
    Nanoseconds,
    /// It is of another version.
    #[allow(missing_docs)]
    Version { major: u16, minor: u16 },
    /// Check sequences stand behind its frames.
    CheckSequences,
    /// It has another link type than Ethernet's.
    LinkType(u16),
    /// It is no capture.
    NoCapture,
}

/// What a file is whose header is refused.
pub fn header_cause(header: &[u8]) -> HeaderCause {
    let mut out = [0; 3];
    always_done(unsafe { raw::tallowbrim_header_cause(header.as_ptr(), header.len(), &mut out) });
    match out {
        [1, ..] => HeaderCause::Nothing,
        [2, ..] => HeaderCause::Short,
        [3, ..] => HeaderCause::Pcapng,
        [4, ..] => HeaderCause::Nanoseconds,
        [5, major, minor] => HeaderCause::Version { major: small(major), minor: small(minor) },
        [6, ..] => HeaderCause::CheckSequences,
        [7, number, _] => HeaderCause::LinkType(small(number)),
        [8, ..] => HeaderCause::NoCapture,
        _ => unreachable!("the core answered {out:?}"),
    }
}

/// The 16 bytes in front of a record.
#[derive(Clone, Copy, Debug, PartialEq, Eq)]
pub struct RecordHeader {
    /// The seconds of its stamp.
    pub seconds: u32,
    /// The microseconds of its stamp.
    pub microseconds: u32,
    /// How many bytes of the record follow.
    pub captured: u16,
    /// How many it had.
    pub original: u32,
}

/// Reads the 16 bytes in front of a record; `None` where the file ends inside them. Refused with 8201.
pub fn record_header(order: Order, header: &[u8]) -> Result<Option<RecordHeader>, Refusal> {
    let order = match order {
        Order::Big => 1,
        Order::Little => 2,
    };
    let mut out = [0; 5];
    done(unsafe { raw::tallowbrim_record_header(order, header.as_ptr(), header.len(), &mut out) })?;
    Ok(match out {
        [1, seconds, microseconds, captured, original] => Some(RecordHeader {
            seconds: small(seconds),
            microseconds: small(microseconds),
            captured: small(captured),
            original: small(original),
        }),
        [2, ..] => None,
        _ => unreachable!("the core answered {out:?}"),
    })
}

/// Of an IPv4 packet.
#[derive(Clone, Copy, Debug, PartialEq, Eq)]
#[allow(missing_docs)]
pub struct Addresses {
    pub source: Ipv4Addr,
    pub destination: Ipv4Addr,
}

impl Addresses {
    fn new(source: u64, destination: u64) -> Addresses {
        let address = |word| Ipv4Addr::from(small::<u32>(word));
        Addresses { source: address(source), destination: address(destination) }
    }
}

/// Of a UDP datagram.
#[derive(Clone, Copy, Debug, PartialEq, Eq)]
#[allow(missing_docs)]
pub struct Ports {
    pub source: u16,
    pub destination: u16,
}

impl Ports {
    fn new(source: u64, destination: u64) -> Ports {
        Ports { source: small(source), destination: small(destination) }
    }
}

/// What a record carries, and where in it.
#[derive(Clone, Copy, Debug, PartialEq, Eq)]
pub enum Carried {
    /// Bytes of it are missing.
    CutShort,
    /// It is no IPv4 packet.
    NotIpv4,
    /// A fragment.
    Fragment(Addresses),
    /// Another protocol, by its number.
    OtherProtocol(Addresses, u8),
    /// UDP of other ports.
    OtherPorts(Addresses, Ports),
    /// A key exchange message, of port 500.
    Message(Addresses, Part),
    /// A datagram of port 4500.
    Datagram(Addresses, Part),
    /// An AH packet.
    Ah(Addresses, Part),
    /// An ESP packet.
    Esp(Addresses, Part),
}

/// What a record carries that had `original` bytes.
pub fn carried(original: u32, record: &[u8]) -> Carried {
    let mut out = [0; 5];
    always_done(unsafe { raw::tallowbrim_carried(original, record.as_ptr(), record.len(), &mut out) });
    let [what, source, destination, first, second] = out;
    let addresses = Addresses::new(source, destination);
    match what {
        1 => Carried::CutShort,
        2 => Carried::NotIpv4,
        3 => Carried::Fragment(addresses),
        4 => Carried::OtherProtocol(addresses, small(first)),
        5 => Carried::OtherPorts(addresses, Ports::new(first, second)),
        6 => Carried::Message(addresses, Part::new(first, second)),
        7 => Carried::Datagram(addresses, Part::new(first, second)),
        8 => Carried::Ah(addresses, Part::new(first, second)),
        9 => Carried::Esp(addresses, Part::new(first, second)),
        _ => unreachable!("the core answered {out:?}"),
    }
}

/// What is listed of a record.
#[derive(Clone, Copy, Debug, PartialEq, Eq)]
#[allow(missing_docs)]
pub enum Listed {
    /// Bytes of it are missing.
    CutShort,
    /// It is no IPv4 packet.
    NotIpv4,
    /// A fragment.
    Fragment(Addresses),
    /// Another protocol, by its number.
    OtherProtocol(Addresses, u8),
    /// UDP of other ports.
    OtherPorts(Addresses, Ports),
    /// A NAT keepalive of port 4500.
    Keepalive(Addresses),
    /// A key exchange message that is enciphered, with its message ID.
    Enciphered { addresses: Addresses, exchange: u8, id: u32 },
    /// A key exchange message that reads, with how many payloads it has.
    Read { addresses: Addresses, exchange: u8, count: u8 },
    /// A key exchange message, or a datagram of port 4500, that does not.
    Refused(Addresses, Refusal),
    /// An AH or ESP packet too short for an SPI and a number.
    ShortPacket { addresses: Addresses, protocol: u8, refusal: Refusal },
    /// An AH or ESP packet, with its verdict as [`Table::packet`] gives it.
    Packet { addresses: Addresses, protocol: u8, spi: u32, number: u32, verdict: Result<u64, Refusal> },
}

/// A record that had `original` bytes into a table: its packets are judged as by a receiver that takes every packet's integrity for
/// good, and a life begins with its first packet.
pub fn record(table: &mut Table, original: u32, record: &[u8]) -> Listed {
    let mut out = [0; 8];
    always_done(unsafe { raw::tallowbrim_record(&mut table.0, original, record.as_ptr(), record.len(), &mut out) });
    let [what, source, destination, values @ ..] = out;
    let addresses = Addresses::new(source, destination);
    let [first, second, number, judged, rise] = values;
    match what {
        1 => Listed::CutShort,
        2 => Listed::NotIpv4,
        3 => Listed::Fragment(addresses),
        4 => Listed::OtherProtocol(addresses, small(first)),
        5 => Listed::OtherPorts(addresses, Ports::new(first, second)),
        6 => Listed::Keepalive(addresses),
        7 => Listed::Enciphered { addresses, exchange: small(first), id: small(second) },
        8 => Listed::Read { addresses, exchange: small(first), count: small(second) },
        9 => Listed::Refused(addresses, refusal(first)),
        10 => Listed::ShortPacket { addresses, protocol: small(first), refusal: refusal(second) },
        11 => Listed::Packet {
            addresses,
            protocol: small(first),
            spi: small(second),
            number: small(number),
            verdict: done(small(judged)).map(|()| rise),
        },
        _ => unreachable!("the core answered {out:?}"),
    }
}
