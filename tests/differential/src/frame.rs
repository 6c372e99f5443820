//! Ethernet frames with IPv4 packets and what these carry. They are made sound; every field can then be set to anything.

use crate::message::{message_of, random_message, Message, EXCHANGES, NONCE, SA, VENDOR};
use crate::offer::SMALL;
use crate::random::Random;
use crate::sequence::{self, random_key, Key, Lives};

pub const IPV4: u16 = 0x0800;
/// The EtherTypes that begin a tag.
pub const TAGS: [u16; 2] = [0x8100, 0x88a8];
pub const ETHERTYPES: [u16; 10] = [0x0806, 0x86dd, 0x8864, 0x0801, 0x07ff, 0x0008, 0x9100, 0x0000, 0x0900, 0xffff];

pub const AH: u8 = 51;
pub const ESP: u8 = 50;
pub const UDP: u8 = 17;

pub const KEY_EXCHANGE_PORT: u16 = 500;
pub const NAT_PORT: u16 = 4_500;

pub const CUT_SHORT: &str = "cut short";
pub const NOT_IPV4: &str = "not IPv4";

/// What is `None` is written as it should be.
#[derive(Clone)]
pub struct Frame {
    pub tags: Vec<u16>,
    pub ethertype: u16,
    pub version: u8,
    pub header_words: Option<u8>,
    pub total: Option<u16>,
    pub fragment: u16,
    pub protocol: u8,
    pub source: u32,
    pub destination: u32,
    pub options: Vec<u8>,
    pub data: Vec<u8>,
    /// What stands behind the IPv4 packet.
    pub padding: Vec<u8>,
}

impl Frame {
    /// With so many tags, words of options and bytes of padding as one draw has it.
    pub fn random(random: &mut Random, protocol: u8, data: Vec<u8>) -> Frame {
        let (tags, words, padding) = (random.below(3), [0, 0, 1, 10][random.below(4)], [0, 0, 1, 26][random.below(4)]);
        Frame {
            tags: (0..tags).map(|_| random.one_of(&TAGS)).collect(),
            options: random.bytes(4 * words),
            padding: random.bytes(padding),
            // "Do not fragment" and the bit that is not in use mean nothing here.
            fragment: random.one_of(&[0, 0x4000, 0x8000, 0xc000]),
            source: random.number(32) as u32,
            destination: random.number(32) as u32,
            ..Frame::plain(protocol, data)
        }
    }

    /// Without tags, options and padding.
    pub fn plain(protocol: u8, data: Vec<u8>) -> Frame {
        Frame {
            tags: Vec::new(),
            ethertype: IPV4,
            version: 4,
            header_words: None,
            total: None,
            fragment: 0,
            protocol,
            source: 0x0a00_0001,
            destination: 0xc0a8_01fe,
            options: Vec::new(),
            data,
            padding: Vec::new(),
        }
    }

    /// Bytes before the IPv4 packet.
    pub fn packet_at(&self) -> usize {
        14 + 4 * self.tags.len()
    }

    /// Bytes before the padding, where nothing is set to another value.
    pub fn size(&self) -> usize {
        self.packet_at() + 20 + self.options.len() + self.data.len()
    }

    pub fn encode(&self) -> Vec<u8> {
        // Addresses, services, checksums and such mean nothing here, and are never zero.
        let mut bytes = vec![0xe7; 12];
        for tag in &self.tags {
            bytes.extend(tag.to_be_bytes());
            bytes.extend([0x08, 0x00]);
        }
        bytes.extend(self.ethertype.to_be_bytes());
        let right_words = (5 + self.options.len() / 4) as u8;
        let right_total = (20 + self.options.len() + self.data.len()) as u16;
        bytes.extend([self.version << 4 | self.header_words.unwrap_or(right_words), 0xe7]);
        bytes.extend(self.total.unwrap_or(right_total).to_be_bytes());
        bytes.extend([0xe7, 0xe7]);
        bytes.extend(self.fragment.to_be_bytes());
        bytes.extend([0xe7, self.protocol, 0xe7, 0xe7]);
        bytes.extend(self.source.to_be_bytes());
        bytes.extend(self.destination.to_be_bytes());
        [&bytes, self.options.as_slice(), &self.data, &self.padding].concat()
    }

    /// What is listed of it where its addresses are.
    pub fn says(&self, what: &str) -> String {
        let dotted = |address: u32| address.to_be_bytes().map(|byte| byte.to_string()).join(".");
        format!("{} > {} {what}", dotted(self.source), dotted(self.destination))
    }
}

/// A datagram, with that length or the right one.
pub fn udp(source: u16, destination: u16, length: Option<u16>, data: &[u8]) -> Vec<u8> {
    let length = length.unwrap_or(8 + data.len() as u16);
    let fields = [source, destination, length, 0xe7e7].map(u16::to_be_bytes).concat();
    [fields.as_slice(), data].concat()
}

/// Neither 500 nor 4500, often near them or with their bytes the other way round.
pub fn other_port(random: &mut Random) -> u16 {
    const NEAR: [u16; 12] = [0, 1, 53, 244, 499, 501, 756, 4_499, 4_501, 0xf401, 0x9411, 65_535];
    loop {
        let port = [random.one_of(&NEAR), random.number(16) as u16][random.below(2)];
        if !matches!(port, KEY_EXCHANGE_PORT | NAT_PORT) {
            return port;
        }
    }
}

/// Source and destination by which a datagram is taken for one of that port.
pub fn ports(random: &mut Random, port: u16) -> (u16, u16) {
    let other = other_port(random);
    match random.below(4) {
        0 => (port, other),
        1 => (other, port),
        2 => (port, port),
        _ => (KEY_EXCHANGE_PORT + NAT_PORT - port, port),
    }
}

/// What is listed of a message that reads.
pub fn reading(message: &Message) -> String {
    let answer = message.reading();
    let (exchange, rest) = answer.strip_prefix("read ").and_then(|read| read.split_once(' ')).expect("a reading");
    format!("exchange {exchange} payloads {rest}")
}

/// What is listed of a message with flag 1.
pub fn enciphered(message: &[u8]) -> String {
    let id: String = message[20..24].iter().map(|byte| format!("{byte:02x}")).collect();
    format!("enciphered exchange {} id {id}", message[18])
}

/// A datagram that hands on this message, by port 500 or behind the marker of port 4500.
pub fn with_message(random: &mut Random, message: &[u8]) -> Frame {
    let port = random.one_of(&[KEY_EXCHANGE_PORT, NAT_PORT]);
    let (source, destination) = ports(random, port);
    let data = if port == NAT_PORT { [&[0; 4], message].concat() } else { message.to_vec() };
    Frame::random(random, UDP, udp(source, destination, None, &data))
}

/// A well formed packet under that key, by its protocol or, if it is ESP, by port 4500 as well.
pub fn with_packet(random: &mut Random, key: Key, number: u32) -> Frame {
    let packet = sequence::random_packet(random, key, number);
    let mut frame = if key.protocol == sequence::AH {
        Frame::random(random, AH, packet)
    } else if key.spi == 0 || random.once_in(2) {
        Frame::random(random, ESP, packet)
    } else {
        let (source, destination) = ports(random, NAT_PORT);
        Frame::random(random, UDP, udp(source, destination, None, &packet))
    };
    frame.destination = key.destination;
    frame
}

/// What is listed of a well formed packet under that key.
pub fn packet_says(lives: &mut Lives, key: Key, number: u32) -> String {
    let name = if key.protocol == sequence::AH { "AH" } else { "ESP" };
    format!("{name} {:08x} number {number} {}", key.spi, lives.listed(key, number))
}

/// A sound record and what is listed of it.
pub struct Sound {
    pub original: u32,
    pub bytes: Vec<u8>,
    pub what: String,
    /// The message in it, where it reads and has an SA payload.
    pub offer: Option<Vec<u8>>,
}

/// A record of any kind, with packets under these keys.
pub fn random_sound(random: &mut Random, lives: &mut Lives, keys: &[Key]) -> Sound {
    let mut offer = None;
    let (frame, what) = match random.below(12) {
        0 => {
            let size = random.below(60);
            let data = random.bytes(size);
            let mut frame = Frame::random(random, 1, data);
            (frame.protocol, frame.fragment) = (random.byte(), frame.fragment | (1 << random.below(14)));
            let what = frame.says("fragment");
            (frame, what)
        }
        1 => {
            let size = random.below(60);
            let data = random.bytes(size);
            let protocol = random.one_of(&[0, 1, 2, 6, 16, 18, 47, 49, 52, 89, 255]);
            let frame = Frame::random(random, protocol, data);
            let what = frame.says(&format!("other protocol {protocol}"));
            (frame, what)
        }
        2 => {
            let (source, destination, size) = (other_port(random), other_port(random), random.below(60));
            let data = random.bytes(size);
            let frame = Frame::random(random, UDP, udp(source, destination, None, &data));
            let what = frame.says(&format!("other ports {source} > {destination}"));
            (frame, what)
        }
        3 => {
            let (source, destination) = ports(random, NAT_PORT);
            let frame = Frame::random(random, UDP, udp(source, destination, None, &[255]));
            let what = frame.says("keepalive");
            (frame, what)
        }
        4..=6 => {
            let (exchange, flags, count) = (random.one_of(&EXCHANGES), random.below(2) as u8, random.between(1, 3));
            let mut message = if exchange != EXCHANGES[1] && random.once_in(2) {
                message_of(random, exchange, 0, &[SA, NONCE, VENDOR][..count], SMALL)
            } else {
                random_message(random, exchange, count, SMALL)
            };
            message.flags = flags;
            let bytes = message.encode();
            let what = if flags == 1 { enciphered(&bytes) } else { reading(&message) };
            let frame = with_message(random, &bytes);
            offer = (flags == 0 && message.offer_at().is_some()).then_some(bytes);
            let what = frame.says(&what);
            (frame, what)
        }
        7 => {
            let mut frame = Frame::random(random, UDP, Vec::new());
            frame.ethertype = random.one_of(&ETHERTYPES);
            (frame, NOT_IPV4.to_string())
        }
        _ => {
            let key = random.one_of(keys);
            let number = sequence::number_near(random, lives.highest(key));
            let frame = with_packet(random, key, number);
            let what = frame.says(&packet_says(lives, key, number));
            (frame, what)
        }
    };
    let bytes = frame.encode();
    let length = bytes.len() as u32;
    let original = [length, length, length - 1, 0][random.below(4)];
    Sound { original, bytes, what, offer }
}

/// So many keys, some of which share destination or SPI.
pub fn random_keys(random: &mut Random, count: usize) -> Vec<Key> {
    let first = random_key(random);
    let mut keys = vec![first];
    while keys.len() < count {
        let other = random_key(random);
        let key = match random.below(3) {
            0 => Key { destination: first.destination, ..other },
            1 => Key { spi: first.spi, ..other },
            _ => other,
        };
        keys.push(key);
    }
    keys
}
