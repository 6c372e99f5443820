//! Lines `frame`: sound records of every kind, each check at its limits and broken with those behind it, and what reaches
//! the table, among lines that ask and change the same table.

use super::{Group, PLAIN, READ_REFUSALS, RISES};
use crate::cases::{refused, strings, word, Cases};
use crate::checks::CHECKS;
use crate::frame::{
    enciphered, packet_says, ports, random_keys, random_sound, reading, udp, with_message, with_packet, Frame, AH,
    CUT_SHORT, ESP, ETHERTYPES, IPV4, KEY_EXCHANGE_PORT, NAT_PORT, NOT_IPV4, TAGS, UDP,
};
use crate::message::{message_of, opaque, random_message, Message, EXCHANGES, HEADER_SIZE, LONGEST, NONCE, SA, VENDOR};
use crate::offer::SMALL;
use crate::random::Random;
use crate::sequence::{self, ah, esp, number_near, random_key, rising_lives, Follower, Key, LOWEST_SPI, MOST_ENTRIES};
use second::bench::Bench;

pub const GROUP: Group = Group {
    name: "frames",
    answers: &[
        READ_REFUSALS,
        &["cut short", "not IPv4", "fragment", "other protocol", "other ports >", "keepalive"],
        &["enciphered exchange id", "exchange payloads"],
        &["AH number accepted", "AH number refused 11", "AH number refused 16", "AH refused 16"],
        &["AH number refused 8194", "AH number refused 8197", "AH number refused 8199"],
        &["ESP number accepted", "ESP number refused 11", "ESP refused 16"],
        &["ESP number refused 8194", "ESP number refused 8197", "ESP number refused 8199"],
        &[
            "bad line",
            "done",
            "accepted",
            "loss",
            "number",
            "refused 8194",
            "refused 8197",
            "refused 8199",
            "refused 8200",
        ],
    ],
    at_least: 50,
    also: &[&["refused 24"]],
    in_order: true,
    occasions: &[
        ("lines `frame`", 100_000, |case, answers| case.input.starts_with(b"frame ") && answers != ["bad line"]),
        ("a key added first, its number accepted", 500, |case, answers| {
            EMPTY_BEFORE.contains(&case.kind) && answers.iter().any(|answer| answer.contains(" accepted "))
        }),
        ("a key added first, its number refused", 20, |case, answers| {
            EMPTY_BEFORE.contains(&case.kind) && answers.iter().any(|answer| answer.ends_with(" number 0 refused 8197"))
        }),
        ("a message behind two tags", 50, |case, answers| {
            let tagged = case.input.split(|&byte| byte == b' ').nth(2).is_some_and(|frame| {
                let ethertype = |at: usize| frame.get(2 * at..2 * at + 4);
                let is_tag = |at| matches!(ethertype(at), Some(b"8100" | b"88a8"));
                is_tag(12) && is_tag(16)
            });
            tagged && answers.iter().any(|answer| answer.contains(" exchange "))
        }),
    ],
    shared_occasions: RISES,
    kinds: &[
        ("sound record", sound_records),
        ("captured and original length", originals),
        ("every front of a frame", fronts),
        ("tags", tags),
        ("version, header length and total length", headers),
        ("flags and fragment offset", fragments),
        ("every protocol", every_protocol),
        ("UDP length", udp_lengths),
        (PORTS, all_ports),
        ("message that reads or is enciphered", lawful_messages),
        ("check of a reading broken", broken_messages),
        ("every flags byte", every_flags_byte),
        ("message around 28 bytes", short_messages),
        ("longest message", longest_messages),
        ("short datagram of port 4500", short_datagrams),
        (MARKERS, markers),
        (AH_LENGTHS, ah_packets),
        (ESP_LENGTHS, esp_packets),
        ("lowest SPI", lowest_spis),
        ("full table", full_tables),
        ("window", windows),
        ("frames among other lines", mixed_lines),
        ("two checks broken", two_checks_broken),
        ("byte changed", bytes_changed),
        ("random bytes", random_bytes),
        ("words of the line", words),
        ("rise at its limits", rises_at_their_limits),
    ],
    ..PLAIN
};

const PORTS: &str = "ports";
const MARKERS: &str = "marker of port 4500";
const AH_LENGTHS: &str = "AH length, length field and reserved field";
const ESP_LENGTHS: &str = "ESP length";
/// The kinds in which every frame finds an empty table.
const EMPTY_BEFORE: [&str; 4] = [PORTS, MARKERS, AH_LENGTHS, ESP_LENGTHS];

/// A record as long as it was.
fn add(follower: &mut Follower, frame: &Frame, answer: String) {
    let bytes = frame.encode();
    follower.frame(bytes.len() as u32, &bytes, answer);
}

/// A record whose addresses are shown.
fn add_says(follower: &mut Follower, frame: &Frame, what: &str) {
    add(follower, frame, frame.says(what));
}

/// A well formed packet under that key.
fn add_packet(random: &mut Random, follower: &mut Follower, key: Key, number: u32) {
    let frame = with_packet(random, key, number);
    let what = packet_says(&mut follower.lives, key, number);
    add_says(follower, &frame, &what);
}

fn key_of(frame: &Frame, protocol: u8, spi: u32) -> Key {
    Key { destination: frame.destination, protocol, spi }
}

fn sound_records(random: &mut Random, cases: &mut Cases) {
    for round in 0..45 {
        let mut follower = Follower::new(cases);
        let keys = random_keys(random, [10, 40, 80][round % 3]);
        for time in 0..400 {
            let sound = random_sound(random, &mut follower.lives, &keys);
            follower.frame(sound.original, &sound.bytes, sound.what);
            if time % 20 == 0 {
                follower.loss(random.one_of(&keys));
            }
        }
        follower.remove_all();
    }
}

/// A captured length above the original one changes nothing.
fn originals(random: &mut Random, cases: &mut Cases) {
    let mut follower = Follower::new(cases);
    for time in 0..400 {
        let (size, key) = (random.below(80), random_key(random));
        let data = random.bytes(size);
        let frame = if time % 2 == 0 { with_packet(random, key, 9) } else { Frame::random(random, 253, data) };
        let bytes = frame.encode();
        let length = bytes.len() as u32;
        let more = [length + 1, length + 256, length + 65_536, 65_536 + length, 1 << 31, u32::MAX];
        for original in [0, 1, length - 1, length].into_iter().chain(more) {
            let answer = match frame.protocol {
                _ if original > length => CUT_SHORT.to_string(),
                253 => frame.says("other protocol 253"),
                _ => frame.says(&packet_says(&mut follower.lives, key, 9)),
            };
            follower.frame(original, &bytes, answer);
        }
        follower.remove_all();
    }
}

/// A frame of each kind that has addresses, without padding.
fn shapes(random: &mut Random) -> Vec<Frame> {
    let message = message_of(random, EXCHANGES[0], 0, &[SA, VENDOR], SMALL).encode();
    let key = random_key(random);
    let (source, destination) = ports(random, NAT_PORT);
    let shapes = [
        with_packet(random, Key { protocol: sequence::AH, ..key }, 1),
        with_packet(random, Key { protocol: sequence::ESP, ..key }, 1),
        with_message(random, &message),
        with_message(random, &message[..HEADER_SIZE]),
        Frame::random(random, UDP, udp(source, destination, None, &[255])),
        Frame::random(random, UDP, udp(1, 2, None, &[0; 9])),
        Frame::random(random, 253, vec![0; 9]),
        Frame { fragment: 1, ..Frame::random(random, ESP, esp(key.spi, 1)) },
        Frame::random(random, 253, Vec::new()),
    ];
    shapes.map(|frame| Frame { padding: Vec::new(), ..frame }).to_vec()
}

/// Cut anywhere before its end a frame with an IPv4 packet is cut short, and cut in its padding it is sound.
fn fronts(random: &mut Random, cases: &mut Cases) {
    let mut follower = Follower::new(cases);
    for frame in (0..6).flat_map(|_| shapes(random)).collect::<Vec<_>>() {
        let bytes = frame.encode();
        for size in 0..bytes.len() {
            let original = [size, bytes.len(), 0][size % 3] as u32;
            follower.frame(original, &bytes[..size], CUT_SHORT.to_string());
        }
        let other = Frame { protocol: 253, fragment: 0, padding: random.bytes(26), ..frame.clone() };
        let bytes = other.encode();
        for size in other.size()..=bytes.len() {
            follower.frame(size as u32, &bytes[..size], other.says("other protocol 253"));
        }
    }
}

fn tags(_: &mut Random, cases: &mut Cases) {
    let mut follower = Follower::new(cases);
    let ethertypes: Vec<_> = [IPV4].into_iter().chain(ETHERTYPES).chain(TAGS).collect();
    for count in 0..=4 {
        for choice in strings(&[0, 1], count) {
            let tags: Vec<_> = choice.iter().map(|&tag| TAGS[usize::from(tag)]).collect();
            for &ethertype in &ethertypes {
                let frame = Frame { tags: tags.clone(), ethertype, ..Frame::plain(253, vec![0; 20]) };
                let bytes = frame.encode();
                let types: Vec<_> = tags.iter().chain([&ethertype]).collect();
                let passed = types.iter().take(2).take_while(|kind| TAGS.contains(kind)).count();
                let at = frame.packet_at();
                for size in (11..=at + 3).chain([at + 19, at + 20, frame.size() - 1, frame.size()]) {
                    let answer = if size < 14 + 4 * passed {
                        CUT_SHORT.to_string()
                    } else if types.get(passed) != Some(&&IPV4) {
                        NOT_IPV4.to_string()
                    } else if size < frame.size() {
                        CUT_SHORT.to_string()
                    } else {
                        frame.says("other protocol 253")
                    };
                    follower.frame(size as u32, &bytes[..size], answer);
                }
            }
        }
    }
}

fn headers(random: &mut Random, cases: &mut Cases) {
    let mut follower = Follower::new(cases);
    for version in 0..16 {
        for words in 0..16 {
            let header = 4 * usize::from(words);
            for behind in [0, 19, 20, 21, 24, 40, 60, 64] {
                let mut totals = vec![0, 19, 20, header.saturating_sub(1), header, header + 1];
                totals.extend([behind.max(1) - 1, behind, behind + 1, 256, 65_535]);
                totals.sort();
                totals.dedup();
                for total in totals {
                    let frame = Frame {
                        version,
                        header_words: Some(words),
                        total: Some(total as u16),
                        padding: random.bytes(44),
                        ..Frame::plain(253, Vec::new())
                    };
                    let bytes = &frame.encode()[..14 + behind];
                    let answer = if behind < 20 {
                        CUT_SHORT.to_string()
                    } else if version != 4 || words < 5 || total < header {
                        NOT_IPV4.to_string()
                    } else if total > behind {
                        CUT_SHORT.to_string()
                    } else {
                        frame.says("other protocol 253")
                    };
                    follower.frame(bytes.len() as u32, bytes, answer);
                }
            }
        }
    }
}

/// Each bit alone, any two, and any value; a fragment leaves the table as it was.
fn fragments(random: &mut Random, cases: &mut Cases) {
    let mut follower = Follower::new(cases);
    let one = (0..16).map(|bit| 1 << bit);
    let two = (0..16).flat_map(|high| (0..high).map(move |low| 1 << high | 1 << low));
    let any: Vec<u16> = (0..300).map(|_| random.number(16) as u16).collect();
    let fields: Vec<u16> = one.chain(two).chain([0, 0x1fff, 0x3fff, 0xc000, 0xffff]).chain(any).collect();
    for field in fields {
        let is_fragment = field & 0x3fff != 0;
        let key = random_key(random);
        let packet = Frame { fragment: field, ..with_packet(random, key, 5) };
        let what = if is_fragment { "fragment".to_string() } else { packet_says(&mut follower.lives, key, 5) };
        add_says(&mut follower, &packet, &what);
        follower.loss(key);
        follower.remove_all();
        for (protocol, data) in [(253, Vec::new()), (UDP, udp(1, 2, None, &[])), (UDP, vec![0; 3])] {
            let frame = Frame { fragment: field, ..Frame::random(random, protocol, data.clone()) };
            match (is_fragment, protocol, data.len()) {
                (true, ..) => add_says(&mut follower, &frame, "fragment"),
                (false, UDP, 3) => add(&mut follower, &frame, CUT_SHORT.to_string()),
                (false, UDP, _) => add_says(&mut follower, &frame, "other ports 1 > 2"),
                _ => add_says(&mut follower, &frame, "other protocol 253"),
            }
        }
    }
}

/// With zero bytes behind the header: no UDP length, no AH length and no SPI of them is sound.
fn every_protocol(random: &mut Random, cases: &mut Cases) {
    let mut follower = Follower::new(cases);
    for protocol in 0..=255 {
        for size in 0..=20 {
            let frame = Frame::random(random, protocol, vec![0; size]);
            match protocol {
                UDP => add(&mut follower, &frame, CUT_SHORT.to_string()),
                AH if size < 12 => add_says(&mut follower, &frame, "AH refused 16"),
                AH => add_says(&mut follower, &frame, "AH 00000000 number 0 refused 16"),
                ESP if size < 8 => add_says(&mut follower, &frame, "ESP refused 16"),
                ESP => add_says(&mut follower, &frame, "ESP 00000000 number 0 refused 11"),
                _ => add_says(&mut follower, &frame, &format!("other protocol {protocol}")),
            }
        }
    }
}

/// What is listed of bytes from port 4500 that are all 255.
fn bytes_of_255(follower: &mut Follower, frame: &Frame, size: usize) -> String {
    match size {
        1 => "keepalive".to_string(),
        0..=3 => refused(16),
        4..=7 => "ESP refused 16".to_string(),
        _ => packet_says(&mut follower.lives, key_of(frame, sequence::ESP, u32::MAX), u32::MAX),
    }
}

/// Bytes behind the UDP length are no part of the data.
fn udp_lengths(random: &mut Random, cases: &mut Cases) {
    let mut follower = Follower::new(cases);
    for left in 0..=40 {
        for length in (0..=left + 2).chain([256, 65_535]) {
            for port in [KEY_EXCHANGE_PORT, NAT_PORT, 53] {
                let (source, destination) = if port == 53 { (53, 54) } else { ports(random, port) };
                let mut data = udp(source, destination, Some(length as u16), &[255; 40]);
                data.truncate(left);
                let frame = Frame::random(random, UDP, data);
                if !(8..=left).contains(&length) {
                    add(&mut follower, &frame, CUT_SHORT.to_string());
                    continue;
                }
                let what = match port {
                    KEY_EXCHANGE_PORT => refused(30),
                    NAT_PORT => bytes_of_255(&mut follower, &frame, length - 8),
                    _ => "other ports 53 > 54".to_string(),
                };
                add_says(&mut follower, &frame, &what);
                follower.remove_all();
            }
        }
    }
}

/// Every two of these, with data that each reader takes otherwise.
fn all_ports(random: &mut Random, cases: &mut Cases) {
    let mut follower = Follower::new(cases);
    let any = random.between(5_000, 60_000) as u16;
    let all = [0, 1, 499, 500, 501, 756, 4_499, 4_500, 4_501, 0xf401, 0x9411, 65_535, any];
    for source in all {
        for destination in all {
            let is_read = |port: &u16| matches!(*port, KEY_EXCHANGE_PORT | NAT_PORT);
            let port = [destination, source].into_iter().find(is_read);
            let mut message = random_message(random, EXCHANGES[0], 1, SMALL);
            // Its first bytes are no marker, and no byte where flags are sought in a marked one is 1.
            (message.flags, message.initiator, message.responder) = (0, message.initiator | 1 << 63, 2);
            let bytes = message.encode();
            let spi = u32::from_be_bytes([bytes[0], bytes[1], bytes[2], bytes[3]]);
            let number = u32::from_be_bytes([bytes[4], bytes[5], bytes[6], bytes[7]]);
            for data in [bytes.clone(), [&[0; 4], bytes.as_slice()].concat(), vec![255], esp(256, 7)] {
                let frame = Frame::random(random, UDP, udp(source, destination, None, &data));
                let is_message = data == bytes;
                let what = match (port, data.len()) {
                    (None, _) => format!("other ports {source} > {destination}"),
                    (Some(KEY_EXCHANGE_PORT), _) if is_message => reading(&message),
                    (Some(KEY_EXCHANGE_PORT), _) => refused(30),
                    (_, 1) => "keepalive".to_string(),
                    (_, 8) => packet_says(&mut follower.lives, key_of(&frame, sequence::ESP, 256), 7),
                    _ if is_message => packet_says(&mut follower.lives, key_of(&frame, sequence::ESP, spi), number),
                    _ => reading(&message),
                };
                add_says(&mut follower, &frame, &what);
                follower.remove_all();
            }
        }
    }
}

/// What is listed of a message that reads with flag 0.
fn message_says(message: &Message) -> String {
    match message.flags {
        0 => reading(message),
        1 => enciphered(&message.encode()),
        _ => refused(8),
    }
}

fn add_message(random: &mut Random, cases: &mut Cases, message: &[u8], what: &str) {
    let frame = with_message(random, message);
    add_says(&mut Follower::new(cases), &frame, what);
}

fn lawful_messages(random: &mut Random, cases: &mut Cases) {
    for time in 0..4_000 {
        let count = random.between(1, 4);
        let message = random_message(random, EXCHANGES[time % 3], count, SMALL);
        add_message(random, cases, &message.encode(), &message_says(&message));
    }
}

/// With flag 1 nothing of it is looked at.
fn broken_messages(random: &mut Random, cases: &mut Cases) {
    for check in CHECKS {
        cases.detail = check.name.to_string();
        for time in 0..150 {
            let exchange = EXCHANGES[time % 3];
            let types: &[u8] = if exchange == EXCHANGES[1] { &[VENDOR] } else { &[SA, NONCE] };
            let mut message = message_of(random, exchange, 0, types, SMALL);
            if !(check.breaks)(random, &mut message) {
                continue;
            }
            let mut bytes = message.encode();
            // The longest messages would be most of all bytes.
            if bytes.len() > 4_000 && time >= 9 {
                continue;
            }
            add_message(random, cases, &bytes, &refused(check.number));
            if time % 5 == 0 && bytes.len() >= HEADER_SIZE {
                bytes[19] = 1;
                add_message(random, cases, &bytes, &enciphered(&bytes));
            }
        }
    }
    cases.detail.clear();
}

fn every_flags_byte(random: &mut Random, cases: &mut Cases) {
    for flags in 0..=255 {
        for time in 0..12 {
            let mut message = random_message(random, EXCHANGES[time % 3], 2, SMALL);
            // Whole blocks, so that no flag makes the length wrong.
            message.flags = 0;
            message.leave(0);
            message.flags = flags;
            add_message(random, cases, &message.encode(), &message_says(&message));
        }
    }
}

fn short_messages(random: &mut Random, cases: &mut Cases) {
    for size in 0..=44 {
        for flags in [0, 1, 2, 3, 255] {
            for time in 0..4 {
                let mut bytes = random.bytes(44);
                bytes[19] = flags;
                bytes[24..28].copy_from_slice(&[0; 4]);
                // The length that the header has is right at times, behind a version that is not.
                if time == 0 {
                    bytes[17] = 0x21;
                    bytes[24..28].copy_from_slice(&(size as u32).to_be_bytes());
                }
                bytes.truncate(size);
                let what = match flags {
                    1 if size >= HEADER_SIZE => enciphered(&bytes),
                    _ if size >= HEADER_SIZE && time == 0 => refused(5),
                    _ => refused(30),
                };
                add_message(random, cases, &bytes, &what);
            }
        }
    }
}

fn longest_messages(random: &mut Random, cases: &mut Cases) {
    for exchange in EXCHANGES {
        for size in [LONGEST - 1, LONGEST, LONGEST + 1, 16_000] {
            for flags in [0, 1, 2] {
                let mut message = message_of(random, exchange, 0, &[VENDOR], SMALL);
                message.payloads[0] = opaque(VENDOR, random.bytes(size - HEADER_SIZE - 4));
                let mut bytes = message.encode();
                bytes[19] = flags;
                let what = match flags {
                    1 => enciphered(&bytes),
                    _ if size > LONGEST => refused(30),
                    0 => reading(&message),
                    _ => refused(8),
                };
                add_message(random, cases, &bytes, &what);
            }
        }
    }
}

fn short_datagrams(random: &mut Random, cases: &mut Cases) {
    let mut follower = Follower::new(cases);
    for data in (0..=4).flat_map(|size| strings(&[0, 1, 4, 254, 255], size)).chain(strings(&[0, 255], 5)) {
        let (source, destination) = ports(random, NAT_PORT);
        let frame = Frame::random(random, UDP, udp(source, destination, None, &data));
        let what = match data.as_slice() {
            [255] => "keepalive".to_string(),
            [0, 0, 0, 0, ..] => refused(30),
            short if short.len() < 4 => refused(16),
            _ => "ESP refused 16".to_string(),
        };
        add_says(&mut follower, &frame, &what);
    }
}

/// Whole, or with one bit of it set, before a message or what is none.
fn markers(random: &mut Random, cases: &mut Cases) {
    let mut follower = Follower::new(cases);
    for time in 0..400 {
        let exchange = random.one_of(&EXCHANGES);
        let message = random_message(random, exchange, 1, SMALL);
        let bit = (time % 33) as u32;
        let spi = 1_u32.checked_shl(bit).unwrap_or(0);
        let data = [spi.to_be_bytes().as_slice(), &message.encode()].concat();
        let (source, destination) = ports(random, NAT_PORT);
        let frame = Frame::random(random, UDP, udp(source, destination, None, &data));
        let number = u32::from_be_bytes([data[4], data[5], data[6], data[7]]);
        let what = match spi {
            0 => message_says(&message),
            _ => packet_says(&mut follower.lives, key_of(&frame, sequence::ESP, spi), number),
        };
        add_says(&mut follower, &frame, &what);
        follower.remove_all();
    }
}

/// A packet that is malformed adds no key.
fn ah_packets(random: &mut Random, cases: &mut Cases) {
    let mut follower = Follower::new(cases);
    for size in 0..=44 {
        for field in (0..=12).chain([63, 64, 254, 255]) {
            for reserved in [0, 0, 1 << random.below(16)] {
                let (spi, number) = (random.between(256, 300) as u32, random.between(1, 3) as u32);
                let mut data = ah(field, reserved, spi, number);
                data.resize(size, 0xa5);
                let frame = Frame::random(random, AH, data);
                let key = key_of(&frame, sequence::AH, spi);
                let well_formed = reserved == 0 && field >= 1 && 4 * (usize::from(field) + 2) <= size;
                let what = match size {
                    0..=11 => "AH refused 16".to_string(),
                    _ if well_formed => packet_says(&mut follower.lives, key, number),
                    _ => format!("AH {spi:08x} number {number} refused 16"),
                };
                add_says(&mut follower, &frame, &what);
                follower.loss(key);
                follower.remove_all();
            }
        }
    }
}

fn esp_packets(random: &mut Random, cases: &mut Cases) {
    let mut follower = Follower::new(cases);
    for size in (0..=24).chain([255, 256, 1_400, 32_000]) {
        for time in 0..8 {
            let (spi, number) = (random.between(256, 300) as u32, random.between(0, 3) as u32);
            let mut data = esp(spi, number);
            data.resize(size, 0x5a);
            let (source, destination) = ports(random, NAT_PORT);
            let is_datagram = time % 2 == 1;
            let frame = match is_datagram {
                false => Frame::random(random, ESP, data.clone()),
                true => Frame::random(random, UDP, udp(source, destination, None, &data)),
            };
            let key = key_of(&frame, sequence::ESP, spi);
            let what = match size {
                0..=3 if is_datagram => refused(16),
                0..=7 => "ESP refused 16".to_string(),
                _ => packet_says(&mut follower.lives, key, number),
            };
            add_says(&mut follower, &frame, &what);
            follower.loss(key);
            follower.remove_all();
        }
    }
}

fn lowest_spis(random: &mut Random, cases: &mut Cases) {
    let mut follower = Follower::new(cases);
    for spi in (1..=20).chain(240..=270).chain([512, 65_536, 1 << 24, u32::MAX]) {
        for protocol in [sequence::AH, sequence::ESP] {
            let key = Key { protocol, spi, ..random_key(random) };
            for number in [0, 1, 1] {
                add_packet(random, &mut follower, key, number);
            }
            follower.loss(key);
            follower.remove_all();
        }
    }
}

/// 64 keys added by frames, by lines, or by both, and more.
fn full_tables(random: &mut Random, cases: &mut Cases) {
    for round in 0..30 {
        let mut follower = Follower::new(cases);
        let keys = random_keys(random, MOST_ENTRIES + 6);
        for (place, &key) in keys.iter().enumerate() {
            if round % 3 == 1 || round % 3 == 2 && place % 2 == 0 {
                follower.add(key);
            }
            // 0 is refused, and its key was added all the same.
            add_packet(random, &mut follower, key, small_number(place));
        }
        for (place, &key) in keys.iter().enumerate() {
            add_packet(random, &mut follower, key, 1 + small_number(place));
            follower.loss(key);
            if place % 16 == 5 {
                follower.remove(key);
                let low = Key { spi: random.below(LOWEST_SPI as usize) as u32, ..key };
                add_packet(random, &mut follower, low, 1);
                add_packet(random, &mut follower, *keys.last().expect("there are some"), place as u32);
            }
        }
        let low = Key { spi: 255, ..random_key(random) };
        for key in [low, random_key(random), random_key(random)] {
            add_packet(random, &mut follower, key, 0);
            follower.add(key);
        }
        follower.remove_all();
    }
}

/// A few small numbers, 0 among them.
fn small_number(place: usize) -> u32 {
    place as u32 % 3
}

/// Every two numbers after each other behind a high one, and walks near the window's edges.
fn windows(random: &mut Random, cases: &mut Cases) {
    let mut follower = Follower::new(cases);
    for highest in [1, 63, 64, 65, 66, 200, u32::MAX] {
        for back in (0..=3).chain(61..=67) {
            let key = random_key(random);
            let number = highest.saturating_sub(back);
            for number in [highest, number, number] {
                add_packet(random, &mut follower, key, number);
            }
            follower.remove_all();
        }
    }
    for _ in 0..60 {
        let key = random_key(random);
        for _ in 0..80 {
            let number = number_near(random, follower.lives.highest(key));
            add_packet(random, &mut follower, key, number);
        }
        follower.loss(key);
        follower.remove_all();
    }
}

/// The table is one: what a frame adds, other lines find, and the other way round.
fn mixed_lines(random: &mut Random, cases: &mut Cases) {
    for _ in 0..24 {
        let mut follower = Follower::new(cases);
        let count = random.one_of(&[3, 20, 70, 90]);
        let keys = random_keys(random, count);
        for _ in 0..600 {
            let key = random.one_of(&keys);
            let number = number_near(random, follower.lives.highest(key));
            match random.below(12) {
                0 => follower.add(key),
                1 => follower.remove(key),
                2 => follower.send(key),
                3 => follower.loss(key),
                4 => follower.packet(random, key, number, true),
                5 => follower.packet(random, key, number, false),
                6 => {
                    let sound = random_sound(random, &mut follower.lives, &keys);
                    follower.frame(sound.original, &sound.bytes, sound.what);
                }
                _ => add_packet(random, &mut follower, key, number),
            }
        }
        follower.remove_all();
    }
}

/// A frame with what is broken in it.
struct Broken {
    frame: Frame,
    /// How many of its bytes are captured.
    size: Option<usize>,
    is_longer: bool,
}

/// A check, what is listed where it is broken, and a way to break it.
type Break = (&'static str, fn(&mut Random, &mut Broken));

/// In the order in which they are looked at.
const BREAKS: &[Break] = &[
    (CUT_SHORT, |_, broken| broken.is_longer = true),
    (CUT_SHORT, |random, broken| broken.size = Some(random.below(14))),
    (CUT_SHORT, |random, broken| {
        broken.frame.tags = vec![random.one_of(&TAGS); random.between(1, 2)];
        broken.size = Some(random.between(14, broken.frame.packet_at() - 1));
    }),
    (NOT_IPV4, |random, broken| broken.frame.ethertype = random.one_of(&ETHERTYPES)),
    (NOT_IPV4, |random, broken| {
        broken.frame.tags = vec![random.one_of(&TAGS); 3];
        broken.size = Some(random.between(22, 60));
    }),
    (CUT_SHORT, |random, broken| broken.size = Some(broken.frame.packet_at() + random.below(20))),
    (NOT_IPV4, |random, broken| broken.frame.version = random.one_of(&[0, 3, 5, 6, 15])),
    (NOT_IPV4, |random, broken| broken.frame.header_words = Some(random.below(5) as u8)),
    (NOT_IPV4, |random, broken| broken.frame.total = Some(random.below(20) as u16)),
    (CUT_SHORT, |random, broken| {
        let whole = broken.frame.size() - broken.frame.packet_at();
        broken.frame.total = Some((whole + random.one_of(&[1, 2, 256, 20_000])) as u16);
    }),
    ("fragment", |random, broken| broken.frame.fragment |= 1 << random.below(14)),
    (CUT_SHORT, |random, broken| broken.frame.data.truncate(random.below(8))),
    (CUT_SHORT, |random, broken| {
        if let Some(length) = broken.frame.data.get_mut(4..6) {
            length.copy_from_slice(&[0, random.below(8) as u8]);
        }
    }),
    (CUT_SHORT, |random, broken| {
        let more = broken.frame.data.len() + random.one_of(&[1, 2, 256, 20_000]);
        if let Some(length) = broken.frame.data.get_mut(4..6) {
            length.copy_from_slice(&(more as u16).to_be_bytes());
        }
    }),
];

/// The earlier one is listed. It is broken last, as then nothing of it is undone.
fn two_checks_broken(random: &mut Random, cases: &mut Cases) {
    let mut follower = Follower::new(cases);
    for (place, (what, breaks)) in BREAKS.iter().enumerate() {
        for (_, other) in &BREAKS[place..] {
            for _ in 0..40 {
                let mut frame = Frame::random(random, UDP, udp(500, 4_500, None, &[255; 20]));
                frame.padding.clear();
                let mut broken = Broken { frame, size: None, is_longer: false };
                other(random, &mut broken);
                breaks(random, &mut broken);
                let mut bytes = broken.frame.encode();
                bytes.truncate(broken.size.unwrap_or(bytes.len()));
                let original = bytes.len() as u32 + u32::from(broken.is_longer);
                let answer = if *what == "fragment" { broken.frame.says(what) } else { what.to_string() };
                follower.frame(original, &bytes, answer);
            }
        }
    }
}

/// Lines whose answers hang on their bytes. The second program tells which keys they added, and these are removed.
struct Unknown<'a> {
    cases: &'a mut Cases,
    bench: Bench,
    keys: Vec<String>,
}

impl Unknown<'_> {
    fn new(cases: &mut Cases) -> Unknown<'_> {
        Unknown { cases, bench: Bench::default(), keys: Vec::new() }
    }

    fn line(&mut self, line: String) {
        let answer = self.bench.answer(line.as_bytes()).expect("it gets an answer");
        self.cases.one_line(line + "\n", None);
        let words: Vec<_> = answer.split(' ').collect();
        if let [_, ">", destination, name @ ("AH" | "ESP"), spi, "number", ..] = words[..] {
            let bytes: Vec<u8> = destination.split('.').filter_map(|byte| byte.parse().ok()).collect();
            let protocol = if name == "AH" { sequence::AH } else { sequence::ESP };
            self.keys.push(format!("{} {protocol} {spi}", word(&bytes)));
        }
    }

    fn frame(&mut self, original: usize, bytes: &[u8]) {
        self.line(format!("frame {original} {}", word(bytes)));
        // The table is full at times.
        if self.keys.len() > 80 {
            self.remove_all();
        }
    }

    fn remove_all(&mut self) {
        for key in std::mem::take(&mut self.keys) {
            self.line(format!("remove {key}"));
        }
    }
}

fn bytes_changed(random: &mut Random, cases: &mut Cases) {
    let mut unknown = Unknown::new(cases);
    for frame in (0..6).flat_map(|_| shapes(random)).collect::<Vec<_>>() {
        let bytes = frame.encode();
        for at in 12..bytes.len() {
            for changed in [bytes[at] ^ 1, bytes[at].wrapping_add(1), bytes[at] ^ 0x80, random.byte()] {
                let mut damaged = bytes.clone();
                damaged[at] = changed;
                unknown.frame(damaged.len(), &damaged);
            }
        }
    }
    unknown.remove_all();
}

/// Behind nothing, behind an EtherType, behind an IPv4 header and behind a UDP header.
fn random_bytes(random: &mut Random, cases: &mut Cases) {
    let mut unknown = Unknown::new(cases);
    for time in 0..12_000 {
        let size = random.below(90);
        let data = match random.below(3) {
            0 => random.bytes(size),
            1 => (0..size).map(|_| random.one_of(&[0, 0, 0, 1, 4, 8, 0x45, 255])).collect(),
            _ => (0..size).map(|_| random.byte() & random.byte() & random.byte()).collect(),
        };
        let frame = match time % 4 {
            0 => data,
            1 => [Frame::plain(1, Vec::new()).encode()[..14].to_vec(), data].concat(),
            2 => {
                let protocol = random.one_of(&[UDP, AH, ESP]);
                Frame::random(random, protocol, data).encode()
            }
            _ => {
                let port = random.one_of(&[KEY_EXCHANGE_PORT, NAT_PORT]);
                let (source, destination) = ports(random, port);
                Frame::random(random, UDP, udp(source, destination, None, &data)).encode()
            }
        };
        unknown.frame([frame.len(), 0][time % 2], &frame);
    }
    unknown.remove_all();
}

/// A line that is not understood leaves the table as it was.
fn words(random: &mut Random, cases: &mut Cases) {
    let mut follower = Follower::new(cases);
    let key = random_key(random);
    let frame = with_packet(random, key, 3);
    let bytes = frame.encode();
    let (length, hex) = (bytes.len(), word(&bytes));
    let bad = |words: Vec<&str>| words.iter().map(|words| format!("frame {words}")).collect::<Vec<_>>();
    let mut lines = bad(vec!["", " ", "-", "0", "0 ", "0  -", "- -", "-1 -", "+1 -", "00 -", "01 -", "0x1 -", "1.0 -"]);
    lines.extend(bad(vec![
        "4294967296 -",
        "42949672950 -",
        "18446744073709551616 -",
        "4294967295 - -",
        "1e1 -",
        "a -",
    ]));
    lines.extend(["Frame 0 -", "frames 0 -", "fram 0 -", "frame\t0 -", " frame 0 -", "frame 0 - "].map(str::to_string));
    for original in [format!("0{length}"), "4294967296".to_string(), "-1".to_string(), format!("{length:x}x")] {
        lines.push(format!("frame {original} {hex}"));
    }
    for spoiled in [&hex[1..], &hex[..hex.len() - 1], &format!("{hex}0"), &format!("{hex} "), &format!("{hex}0g")] {
        lines.push(format!("frame {length} {spoiled}"));
    }
    lines.push(format!("frame {length} {hex} {hex}"));
    lines.push(format!("frame {hex} {length}"));
    for line in lines.iter().cycle().take(2 * lines.len()) {
        follower.line(line, "bad line".to_string());
        follower.loss(key);
    }
    for (words, answer) in [("0 -", CUT_SHORT), ("4294967295 -", CUT_SHORT), ("4294967295 00", CUT_SHORT)] {
        follower.line(&format!("frame {words}"), answer.to_string());
    }
    for hex in [hex.clone(), hex.to_uppercase()] {
        let answer = frame.says(&packet_says(&mut follower.lives, key, 3));
        follower.line(&format!("frame {length} {hex}"), answer);
    }
    follower.remove_all();
    // The longest line, and one of a byte more.
    for (size, original) in [(32_763, "0"), (32_763, "00"), (32_762, "100"), (32_762, "4000"), (32_759, "4294967295")] {
        let long = Frame::plain(253, vec![0; size - 34]);
        let line = format!("frame {original} {}", word(&long.encode()));
        let answer = match original {
            "00" => "bad line".to_string(),
            "4294967295" => CUT_SHORT.to_string(),
            _ => long.says("other protocol 253"),
        };
        follower.line(&line, answer);
        follower.line(&format!("{line}00"), "bad line".to_string());
    }
}

/// A frame's integrity is taken as yes; where it is no, the packet comes by a line of its own.
fn rises_at_their_limits(random: &mut Random, cases: &mut Cases) {
    let mut follower = Follower::new(cases);
    let keys = [sequence::AH, sequence::ESP].map(|protocol| Key { protocol, ..random_key(random) });
    for (life, key) in rising_lives().into_iter().zip(keys.into_iter().cycle()) {
        for (number, integrity) in life {
            match integrity {
                true => add_packet(random, &mut follower, key, number),
                false => follower.packet(random, key, number, false),
            }
        }
        follower.loss(key);
        follower.remove_all();
    }
}
