//! Request one, "What a record carries": an Ethernet frame, the IPv4 packet in it, and the datagram in that.
//!
//! Frame: two addresses of 6 bytes, EtherType (2), and more; a tag is an EtherType of its own and two bytes before the
//! next EtherType. IPv4: version and header length in words of four bytes (a half byte each), service, total length (2),
//! identification (2), flags and fragment offset (2), time to live, protocol, checksum (2), source (4), destination (4),
//! options. UDP: source port (2), destination port (2), length (2), which counts these eight bytes, checksum (2), data.

use crate::wire::{u16_at, u32_at};

const ETHERTYPE_AT: usize = 12;
const ETHERTYPE_SIZE: usize = 2;
const TAG_SIZE: usize = 4;
const MOST_TAGS: usize = 2;
const IPV4: u16 = 0x0800;
const IP_HEADER_LEAST: usize = 20;
const UDP_HEADER_SIZE: usize = 8;
const KEY_EXCHANGE_PORT: u16 = 500;
const NAT_PORT: u16 = 4500;
/// "More fragments" and the fragment offset.
const FRAGMENTED: u16 = 0x3fff;

/// What a frame is. Only a packet that is whole so far has addresses.
pub enum Frame<'a> {
    CutShort,
    NotIpv4,
    Ipv4 { source: u32, destination: u32, carries: Carries<'a> },
}

pub enum Carries<'a> {
    Fragment,
    Ah(&'a [u8]),
    Esp(&'a [u8]),
    /// The data of a datagram of port 500.
    KeyExchange(&'a [u8]),
    /// The data of a datagram of port 4500.
    Port4500(&'a [u8]),
    OtherPorts {
        source: u16,
        destination: u16,
    },
    OtherProtocol(u8),
}

pub fn read(original: u32, bytes: &[u8]) -> Frame<'_> {
    let captured = bytes.len() as u64;
    if captured < u64::from(original) {
        return Frame::CutShort;
    }
    match behind_ethertype(bytes) {
        None => Frame::CutShort,
        Some((IPV4, packet)) => ipv4(packet),
        Some(_) => Frame::NotIpv4,
    }
}

/// The EtherType behind the tags, and the bytes behind it; `None` where they end before.
fn behind_ethertype(frame: &[u8]) -> Option<(u16, &[u8])> {
    let mut at = ETHERTYPE_AT;
    for _ in 0..MOST_TAGS {
        if frame.len() < at + ETHERTYPE_SIZE {
            return None;
        }
        if !matches!(u16_at(frame, at), 0x8100 | 0x88a8) {
            break;
        }
        at += TAG_SIZE;
    }
    let behind = frame.get(at + ETHERTYPE_SIZE..)?;
    Some((u16_at(frame, at), behind))
}

fn ipv4(bytes: &[u8]) -> Frame<'_> {
    if bytes.len() < IP_HEADER_LEAST {
        return Frame::CutShort;
    }
    let version = bytes[0] >> 4;
    let header = usize::from(bytes[0] & 15) * 4;
    let total = usize::from(u16_at(bytes, 2));
    if version != 4 || header < IP_HEADER_LEAST || total < header {
        return Frame::NotIpv4;
    }
    if total > bytes.len() {
        return Frame::CutShort;
    }
    let carries = if u16_at(bytes, 6) & FRAGMENTED != 0 {
        Carries::Fragment
    } else {
        // What stands behind the total length is padding.
        let packet = &bytes[header..total];
        match bytes[9] {
            51 => Carries::Ah(packet),
            50 => Carries::Esp(packet),
            17 => match udp(packet) {
                Some(carries) => carries,
                None => return Frame::CutShort,
            },
            protocol => Carries::OtherProtocol(protocol),
        }
    };
    Frame::Ipv4 { source: u32_at(bytes, 12), destination: u32_at(bytes, 16), carries }
}

/// `None` if the datagram is cut short.
fn udp(bytes: &[u8]) -> Option<Carries<'_>> {
    if bytes.len() < UDP_HEADER_SIZE {
        return None;
    }
    let (source, destination) = (u16_at(bytes, 0), u16_at(bytes, 2));
    let length = usize::from(u16_at(bytes, 4));
    if length < UDP_HEADER_SIZE || length > bytes.len() {
        return None;
    }
    let data = &bytes[UDP_HEADER_SIZE..length];
    let of_port = |port| match port {
        KEY_EXCHANGE_PORT => Some(Carries::KeyExchange(data)),
        NAT_PORT => Some(Carries::Port4500(data)),
        _ => None,
    };
    // "The destination port decides if it is 500 or 4500, else the source port."
    of_port(destination).or_else(|| of_port(source)).or(Some(Carries::OtherPorts { source, destination }))
}
