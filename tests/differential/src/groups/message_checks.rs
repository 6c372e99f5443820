//! Header and chain: each check by itself, at its limit and one beyond, and any two broken at once.

use super::{Group, PLAIN, READ_ANSWERS};
use crate::cases::{refused, Cases};
use crate::checks::CHECKS;
use crate::layout::Length;
use crate::message::{
    message_of, opaque, padding, random_payload, Body, Message, Payload, Rest, BLOCK, CERTIFICATE, EXCHANGES, HASH,
    HEADER_SIZE, IDENTITY, INFORMATIONAL, KEY, LONGEST, MAIN_MODE, MOST_PAYLOADS, NONCE, NOTICE, OPAQUE,
    PAYLOAD_HEADER_SIZE, QUICK_MODE, SA, VENDOR,
};
use crate::offer::SMALL;
use crate::random::Random;

pub const GROUP: Group = Group {
    name: "message-checks",
    answers: READ_ANSWERS,
    at_least: 50,
    kinds: &[
        ("message's length", message_lengths),
        ("every version", every_version),
        ("every exchange", every_exchange),
        ("every flag", every_flag),
        ("cookie", cookies),
        ("message ID", message_ids),
        ("whole blocks with flag 1", whole_blocks),
        ("no first payload", no_first_payload),
        ("number of payloads", numbers_of_payloads),
        ("every payload type", every_payload_type),
        ("bytes left for a payload", bytes_left_for_a_payload),
        ("payload's reserved byte", reserved_bytes),
        ("payload's length", payload_lengths),
        ("hash", hashes),
        ("nonce", nonces),
        ("certificate", certificates),
        ("opaque body", opaque_bodies),
        ("second SA payload", second_sa_payloads),
        ("rest behind the last payload", rests),
        ("each check alone", each_check_alone),
        ("any two checks", any_two_checks),
        ("any three checks", any_three_checks),
    ],
    ..PLAIN
};

const FLAGS: [u8; 2] = [0, 1];

/// A lawful message of opaque payloads and a hash, which every exchange takes.
fn plain(random: &mut Random, exchange: u8, flag: u8) -> Message {
    message_of(random, exchange, flag, &[VENDOR, HASH, NOTICE], SMALL)
}

/// Such messages of every exchange, with either flag.
fn every_plain(random: &mut Random, mut make: impl FnMut(&mut Random, Message)) {
    for exchange in EXCHANGES {
        for flag in FLAGS {
            let message = plain(random, exchange, flag);
            make(random, message);
        }
    }
}

fn message_lengths(random: &mut Random, cases: &mut Cases) {
    every_plain(random, |_, message| {
        let bytes = message.encode();
        for length in 0..bytes.len() {
            cases.read(&bytes[..length], Some(refused(30)));
        }
        cases.read(&[bytes.as_slice(), &[0]].concat(), Some(refused(30)));
        for bit in 0..32 {
            cases.refused(&Message { length: Length::Is(bytes.len() ^ 1 << bit), ..message.clone() }, 30);
        }
    });
    for length in [LONGEST - 1, LONGEST, LONGEST + 1, LONGEST + 2, 10_000, 20_000] {
        let mut message = plain(random, MAIN_MODE, 0);
        let size = length - message.encode().len() - PAYLOAD_HEADER_SIZE;
        message.payloads.push(opaque(VENDOR, random.bytes(size)));
        cases.decided(&message, length <= LONGEST, 30);
    }
    // With flag 1 the longest ends at the last whole block.
    for blocks in [509, 510, 511, 512] {
        let mut message = plain(random, QUICK_MODE, 1);
        message.leave(0);
        let size = HEADER_SIZE + blocks * BLOCK - message.encode().len() - PAYLOAD_HEADER_SIZE;
        message.payloads.push(opaque(VENDOR, random.bytes(size)));
        cases.decided(&message, blocks <= 510, 30);
    }
}

fn every_version(random: &mut Random, cases: &mut Cases) {
    for version in 0..=255 {
        let exchange = random.one_of(&EXCHANGES);
        let message = Message { version, ..plain(random, exchange, 0) };
        cases.decided(&message, version == 0x11, if version >> 4 == 1 { 6 } else { 5 });
    }
}

fn every_exchange(random: &mut Random, cases: &mut Cases) {
    for exchange in 0..=255 {
        for flag in FLAGS {
            let mut message = Message { exchange, ..plain(random, QUICK_MODE, flag) };
            message.id = if exchange == MAIN_MODE { 0 } else { 1 };
            let number = if matches!(exchange, 1 | 3) { 29 } else { 7 };
            cases.decided(&message, EXCHANGES.contains(&exchange), number);
        }
    }
}

fn every_flag(random: &mut Random, cases: &mut Cases) {
    for exchange in EXCHANGES {
        let mut whole = plain(random, exchange, 1);
        whole.leave(0);
        for flags in 0..=255 {
            cases.decided(&Message { flags, ..whole.clone() }, flags <= 1, 8);
        }
    }
}

/// Zero, and each byte of a cookie as the only one that is not.
fn cookies(random: &mut Random, cases: &mut Cases) {
    every_plain(random, |_, message| {
        let quick = message.exchange == QUICK_MODE;
        for cookie in (0..64).map(|bit| 1 << bit) {
            cases.lawful(&Message { initiator: cookie, ..message.clone() });
            cases.lawful(&Message { responder: cookie, ..message.clone() });
            cases.refused(&Message { initiator: 0, responder: cookie, ..message.clone() }, 4);
            cases.decided(&Message { initiator: cookie, responder: 0, ..message.clone() }, !quick, 4);
        }
        cases.refused(&Message { initiator: 0, responder: 0, ..message.clone() }, 4);
    });
}

fn message_ids(random: &mut Random, cases: &mut Cases) {
    every_plain(random, |_, message| {
        for id in (0..32).map(|bit| 1 << bit) {
            cases.decided(&Message { id, ..message.clone() }, message.exchange != MAIN_MODE, 9);
        }
        cases.decided(&Message { id: 0, ..message.clone() }, message.exchange != QUICK_MODE, 9);
    });
}

/// The chain ends where the message does, in a whole block or not.
fn whole_blocks(random: &mut Random, cases: &mut Cases) {
    every_plain(random, |random, message| {
        for size in 0..2 * BLOCK {
            let mut message = Message { rest: Rest::Is(Vec::new()), ..message.clone() };
            message.payloads.push(opaque(VENDOR, random.bytes(size)));
            let whole = padding(message.encode().len()).is_empty();
            cases.decided(&message, whole || message.flags == 0, 30);
        }
    });
}

fn no_first_payload(random: &mut Random, cases: &mut Cases) {
    every_plain(random, |_, message| {
        cases.refused(&Message { first: Some(0), ..message.clone() }, 16);
        let empty = Message { payloads: Vec::new(), ..message.clone() };
        cases.refused(&empty, 16);
        for blocks in 1..3 {
            cases.refused(&Message { rest: Rest::Is(vec![0; blocks * BLOCK]), ..empty.clone() }, 16);
        }
        if message.flags == 1 {
            cases.refused(&Message { rest: Rest::Is(vec![0; 15]), ..empty }, 30);
        }
    });
}

/// Lawful payloads up to one too many and more; then one too many that breaks each check that comes behind.
fn numbers_of_payloads(random: &mut Random, cases: &mut Cases) {
    every_plain(random, |random, message| {
        for count in [1, 2, MOST_PAYLOADS - 1, MOST_PAYLOADS, MOST_PAYLOADS + 1, MOST_PAYLOADS + 2, 100, 255, 256, 257]
        {
            let payloads: Vec<_> = (0..count).map(|_| opaque(random.one_of(&OPAQUE), Vec::new())).collect();
            let many = Message { payloads, ..message.clone() };
            cases.decided(&many, count <= MOST_PAYLOADS, 16);
        }
        let full: Vec<_> = (0..MOST_PAYLOADS).map(|_| opaque(KEY, random.bytes(4))).collect();
        let full = Message { payloads: full, ..message };
        for kind in [2, 19, 255] {
            cases.refused(&Message { after_last: kind, ..full.clone() }, 16);
        }
        for last in [
            opaque(3, Vec::new()),
            Payload { length: Length::Is(3), ..opaque(VENDOR, Vec::new()) },
            Payload { length: Length::PastEnd(1), ..opaque(VENDOR, Vec::new()) },
            opaque(CERTIFICATE, vec![3]),
            opaque(HASH, vec![0; 32]),
        ] {
            let mut message = full.clone();
            message.payloads.push(last);
            cases.refused(&message, 16);
        }
    });
}

fn is_allowed(exchange: u8, kind: u8) -> bool {
    match kind {
        SA | IDENTITY => exchange != INFORMATIONAL,
        4..=13 | 20 | 21 | 128 => true,
        _ => false,
    }
}

/// As the first and as a later one, with a body that the type asks for.
fn every_payload_type(random: &mut Random, cases: &mut Cases) {
    every_plain(random, |random, message| {
        for kind in 1..=255 {
            for at in 0..=message.payloads.len() {
                let body_exchange = if message.exchange == INFORMATIONAL { QUICK_MODE } else { message.exchange };
                let mut message = message.clone();
                message.payloads.insert(at, random_payload(random, body_exchange, kind, SMALL));
                cases.decided(&message, is_allowed(message.exchange, kind), 1);
            }
        }
    });
}

/// A type is announced behind the last payload, and too few bytes are there.
fn bytes_left_for_a_payload(random: &mut Random, cases: &mut Cases) {
    every_plain(random, |random, message| {
        for kind in 1..=255 {
            let allowed = is_allowed(message.exchange, kind);
            for rest in 0..PAYLOAD_HEADER_SIZE {
                let mut message = Message { after_last: kind, ..message.clone() };
                message.leave(rest);
                cases.refused(&message, if allowed { 16 } else { 1 });
                message.rest = Rest::Is(random.bytes(rest));
                cases.refused(&message, if allowed { 16 } else { 1 });
            }
        }
        // Exactly enough for an empty body.
        let mut message = with_body(&message, VENDOR, Vec::new());
        message.leave(0);
        cases.lawful(&message);
    });
}

fn reserved_bytes(random: &mut Random, cases: &mut Cases) {
    every_plain(random, |_, message| {
        for reserved in 1..=255 {
            for at in 0..message.payloads.len() {
                let mut message = message.clone();
                message.payloads[at].reserved = reserved;
                cases.refused(&message, 16);
                message.payloads[at].length = Length::Is(3);
                cases.refused(&message, 16);
            }
        }
    });
}

fn payload_lengths(random: &mut Random, cases: &mut Cases) {
    every_plain(random, |random, message| {
        for kind in OPAQUE.into_iter().chain([CERTIFICATE, HASH, NONCE]) {
            let mut message = message.clone();
            message.payloads.push(random_payload(random, message.exchange, kind, SMALL));
            let last = message.payloads.len() - 1;
            for length in
                [0, 1, 2, 3].map(Length::Is).into_iter().chain([1, 2, 16, 255, 256, 40_000].map(Length::PastEnd))
            {
                for at in [0, last] {
                    let mut message = message.clone();
                    message.payloads[at].length = length;
                    cases.refused(&message, 30);
                }
            }
        }
        // The last payload reaches just to the end, and one byte less leaves a rest.
        for size in 0..40 {
            let mut message = Message { payloads: vec![opaque(VENDOR, random.bytes(size))], ..message.clone() };
            message.leave(0);
            cases.lawful(&message);
            let last = message.payloads.len() - 1;
            if size > 0 && message.flags == 0 {
                message.payloads[last].length = Length::Less(1);
                cases.refused(&message, 30);
            }
        }
    });
}

/// A body of that size behind lawful payloads.
fn with_body(message: &Message, kind: u8, body: Vec<u8>) -> Message {
    let mut message = message.clone();
    message.payloads.push(opaque(kind, body));
    message
}

fn hashes(random: &mut Random, cases: &mut Cases) {
    every_plain(random, |random, message| {
        for size in (0..=70).chain([255, 256, 288]) {
            cases.decided(&with_body(&message, HASH, random.bytes(size)), size == 32, 16);
        }
    });
}

fn nonces(random: &mut Random, cases: &mut Cases) {
    every_plain(random, |random, message| {
        for size in (0..=20).chain(250..=262).chain([263, 264, 511, 512, 520]) {
            cases.decided(&with_body(&message, NONCE, random.bytes(size)), (8..=256).contains(&size), 16);
        }
    });
}

fn certificates(random: &mut Random, cases: &mut Cases) {
    every_plain(random, |random, message| {
        cases.refused(&with_body(&message, CERTIFICATE, Vec::new()), 16);
        for encoding in 0..=255 {
            let size = random.below(3);
            let body = [&[encoding], random.bytes(size).as_slice()].concat();
            cases.decided(&with_body(&message, CERTIFICATE, body), matches!(encoding, 4 | 5), 19);
        }
    });
}

fn opaque_bodies(random: &mut Random, cases: &mut Cases) {
    every_plain(random, |random, message| {
        for kind in OPAQUE {
            for size in [0, 1, 2, 7, 8, 31, 32, 33, 256, 257] {
                cases.lawful(&with_body(&message, kind, random.bytes(size)));
            }
        }
    });
}

/// Lawful, empty, or what would be refused with another number if it were read; behind its own header's checks.
fn second_sa_payloads(random: &mut Random, cases: &mut Cases) {
    for exchange in [MAIN_MODE, QUICK_MODE] {
        for flag in FLAGS {
            for between in 0..4 {
                let types = [&[SA], vec![VENDOR; between].as_slice()].concat();
                let message = message_of(random, exchange, flag, &types, SMALL);
                let lawful = random_payload(random, exchange, SA, SMALL);
                let mut other_doi = message.clone();
                other_doi.offer().expect("it has one").doi = 2;
                let unread = [&[0, 0, 0, 2], random.bytes(20).as_slice()].concat();
                for body in [lawful.body, other_doi.payloads.remove(0).body, Body::Bytes(unread), Body::Bytes(vec![])] {
                    let second = Payload { body, ..opaque(SA, Vec::new()) };
                    let with = |payload| {
                        let mut message = message.clone();
                        message.payloads.extend([payload, opaque(VENDOR, Vec::new())]);
                        message
                    };
                    cases.refused(&with(second.clone()), 15);
                    cases.refused(&with(Payload { reserved: 1, ..second.clone() }), 16);
                    cases.refused(&with(Payload { length: Length::Is(3), ..second.clone() }), 30);
                    cases.refused(&with(Payload { length: Length::PastEnd(1), ..second }), 30);
                }
            }
        }
    }
}

fn rests(random: &mut Random, cases: &mut Cases) {
    every_plain(random, |random, message| {
        for rest in 1..=48 {
            let mut message = message.clone();
            message.leave(rest);
            let too_long = message.flags == 0 || rest > 15;
            cases.decided(&message, !too_long, 30);
            for at in 0..rest {
                let mut bytes = vec![0; rest];
                bytes[at] = random.one_of(&[1, 128, 255, rest as u8]);
                let message = Message { rest: Rest::Is(bytes), ..message.clone() };
                cases.refused(&message, if too_long { 30 } else { 16 });
            }
        }
    });
}

/// A lawful message in which every check has something to look at.
fn full(random: &mut Random, exchange: u8, flag: u8) -> Message {
    let offer_or_not = if exchange == INFORMATIONAL { VENDOR } else { SA };
    let front = if random.once_in(2) { &[HASH][..] } else { &[] };
    let types = [front, &[offer_or_not, NONCE, VENDOR]].concat();
    message_of(random, exchange, flag, &types, SMALL)
}

/// Breaks these checks, which stand in document 01's order; the first of them decides.
fn add_broken(random: &mut Random, cases: &mut Cases, exchange: u8, flag: u8, broken: &[usize]) {
    let mut message = full(random, exchange, flag);
    if broken.iter().rev().all(|&index| (CHECKS[index].breaks)(random, &mut message)) {
        let names: Vec<_> = broken.iter().map(|&index| CHECKS[index].name).collect();
        cases.detail = names.join(", ");
        cases.refused(&message, CHECKS[broken[0]].number);
    }
}

fn every_exchange_and_flag() -> impl Iterator<Item = (u8, u8)> {
    EXCHANGES.into_iter().flat_map(|exchange| FLAGS.map(|flag| (exchange, flag)))
}

fn each_check_alone(random: &mut Random, cases: &mut Cases) {
    for (exchange, flag) in every_exchange_and_flag() {
        for index in (0..CHECKS.len()).flat_map(|index| [index; 20]) {
            add_broken(random, cases, exchange, flag, &[index]);
        }
    }
}

fn any_two_checks(random: &mut Random, cases: &mut Cases) {
    for (exchange, flag) in every_exchange_and_flag() {
        for first in 0..CHECKS.len() {
            for second in first + 1..CHECKS.len() {
                add_broken(random, cases, exchange, flag, &[first, second]);
            }
        }
    }
}

fn any_three_checks(random: &mut Random, cases: &mut Cases) {
    for _ in 0..8_000 {
        let (exchange, flag) = (random.one_of(&EXCHANGES), random.one_of(&FLAGS));
        let mut broken = [0; 3].map(|_| random.below(CHECKS.len()));
        broken.sort();
        if broken[0] < broken[1] && broken[1] < broken[2] {
            add_broken(random, cases, exchange, flag, &broken);
        }
    }
}
