//! Messages of every shape, damaged in every field and at every byte. Where the answer hangs on the bytes around, the
//! two programs must agree.

use super::{Group, PLAIN, READ_ANSWERS};
use crate::cases::{refused, Cases};
use crate::damage::{limits, replaced, with_field, MENDINGS};
use crate::message::{
    message_of, random_message, Message, Rest, CERTIFICATE, DELETION, EXCHANGES, HASH, HEADER_SIZE, IDENTITY,
    INFORMATIONAL, MAIN_MODE, NONCE, NOTICE, QUICK_MODE, SA, SIGNATURE, SYMMETRIC_KEY, VENDOR,
};
use crate::offer::SMALL;
use crate::random::Random;

pub const GROUP: Group = Group {
    name: "message-damage",
    answers: READ_ANSWERS,
    at_least: 50,
    kinds: &[
        ("field at its limits", fields_at_their_limits),
        ("two fields at their limits", two_fields_at_their_limits),
        ("byte changed", bytes_changed),
        ("cut short", cut_short),
        ("bytes cut out", bytes_cut_out),
        ("bytes put in", bytes_put_in),
        ("payloads moved", payloads_moved),
        ("other exchange or flag", other_exchanges_and_flags),
        ("random bytes behind a header", random_chains),
    ],
    ..PLAIN
};

/// One message of each shape.
fn shapes(random: &mut Random) -> Vec<Message> {
    let shapes: [(u8, u8, &[u8]); 8] = [
        (MAIN_MODE, 0, &[SA, VENDOR]),
        (MAIN_MODE, 0, &[SA, CERTIFICATE, CERTIFICATE]),
        (MAIN_MODE, 0, &[SYMMETRIC_KEY, NONCE, IDENTITY, CERTIFICATE, SIGNATURE]),
        (MAIN_MODE, 1, &[HASH]),
        (QUICK_MODE, 1, &[HASH, SA, NONCE]),
        (QUICK_MODE, 1, &[HASH, SA, NONCE, IDENTITY, IDENTITY]),
        (INFORMATIONAL, 0, &[NOTICE]),
        (INFORMATIONAL, 1, &[HASH, DELETION]),
    ];
    shapes.map(|(exchange, flag, types)| message_of(random, exchange, flag, types, SMALL)).to_vec()
}

fn fields_at_their_limits(random: &mut Random, cases: &mut Cases) {
    for message in (0..6).flat_map(|_| shapes(random)).collect::<Vec<_>>() {
        let layout = message.layout();
        for field in &layout.fields {
            for value in limits(&layout, field) {
                cases.detail = format!("{} {value}", field.name);
                cases.read(&with_field(&layout, field, value), None);
            }
        }
    }
}

fn two_fields_at_their_limits(random: &mut Random, cases: &mut Cases) {
    for message in (0..120).flat_map(|_| shapes(random)).collect::<Vec<_>>() {
        let mut layout = message.layout();
        for _ in 0..10 {
            let mut names = Vec::new();
            let whole = layout.bytes.clone();
            for _ in 0..2 {
                let field = &layout.fields[random.below(layout.fields.len())];
                let value = random.one_of(&limits(&layout, field));
                names.push(format!("{} {value}", field.name));
                layout.bytes = with_field(&layout, field, value);
            }
            cases.detail = names.join(", ");
            cases.read(&layout.bytes, None);
            layout.bytes = whole;
        }
    }
}

fn bytes_changed(random: &mut Random, cases: &mut Cases) {
    for message in (0..6).flat_map(|_| shapes(random)).collect::<Vec<_>>() {
        let bytes = message.encode();
        for at in 0..bytes.len() {
            for changed in [bytes[at] ^ 1, bytes[at] ^ 0x80, random.byte()] {
                let mut damaged = bytes.clone();
                damaged[at] = changed;
                cases.read(&damaged, None);
            }
        }
    }
}

/// Without its end, once with the length that it had and once with the one that it has.
fn cut_short(random: &mut Random, cases: &mut Cases) {
    for message in shapes(random) {
        let layout = message.layout();
        for length in HEADER_SIZE..layout.bytes.len() {
            cases.read(&layout.bytes[..length], Some(refused(30)));
            let mut bytes = layout.bytes[..length].to_vec();
            bytes[24..28].copy_from_slice(&(length as u32).to_be_bytes());
            cases.read(&bytes, None);
        }
    }
}

fn bytes_cut_out(random: &mut Random, cases: &mut Cases) {
    for message in (0..2).flat_map(|_| shapes(random)).collect::<Vec<_>>() {
        let padded = message.flags == 1;
        let layout = Message { rest: Rest::Is(Vec::new()), ..message }.layout();
        for at in HEADER_SIZE..layout.bytes.len() {
            let cut = random.one_of(&[1, 1, 2, 4, 8]).min(layout.bytes.len() - at);
            for mending in MENDINGS {
                cases.read(&replaced(&layout, at, cut, &[], mending, padded), None);
            }
        }
    }
}

fn bytes_put_in(random: &mut Random, cases: &mut Cases) {
    for message in (0..2).flat_map(|_| shapes(random)).collect::<Vec<_>>() {
        let padded = message.flags == 1;
        let layout = Message { rest: Rest::Is(Vec::new()), ..message }.layout();
        for at in HEADER_SIZE..=layout.bytes.len() {
            let size = random.one_of(&[1, 1, 2, 4, 8]);
            let put = if random.once_in(2) { vec![0; size] } else { random.bytes(size) };
            for mending in MENDINGS {
                cases.read(&replaced(&layout, at, 0, &put, mending, padded), None);
            }
        }
    }
}

/// Everything is mended: payloads twice, left out, in another order, or of another type.
fn payloads_moved(random: &mut Random, cases: &mut Cases) {
    for message in (0..150).flat_map(|_| shapes(random)).collect::<Vec<_>>() {
        let mut message = message;
        let count = message.payloads.len();
        let (one, other) = (random.below(count), random.below(count));
        match random.below(4) {
            0 => message.payloads.insert(other, message.payloads[one].clone()),
            1 => drop(message.payloads.remove(one)),
            2 => message.payloads.swap(one, other),
            _ => message.payloads[one].kind = random.one_of(&[1, 4, 5, 6, 7, 8, 9, 10, 13, 20, 21, 128]),
        }
        cases.read(&message.encode(), None);
    }
}

/// The payloads of one exchange in a message of another.
fn other_exchanges_and_flags(random: &mut Random, cases: &mut Cases) {
    for message in (0..40).flat_map(|_| shapes(random)).collect::<Vec<_>>() {
        for exchange in EXCHANGES {
            for flags in [0, 1] {
                let id = if exchange == MAIN_MODE { 0 } else { 7 };
                cases.read(&Message { exchange, flags, id, ..message.clone() }.encode(), None);
            }
        }
    }
}

/// A header that is right, and bytes that mostly are small numbers.
fn random_chains(random: &mut Random, cases: &mut Cases) {
    for _ in 0..3_000 {
        let exchange = random.one_of(&EXCHANGES);
        let mut message = random_message(random, exchange, 1, SMALL);
        message.flags = 0;
        message.first = Some(random.one_of(&[1, 4, 5, 6, 8, 10, 13]));
        message.payloads.clear();
        let size = random.below(40);
        let small = |random: &mut Random| random.one_of(&[0, 0, 0, 0, 1, 2, 3, 4, 8, 13]);
        message.rest = Rest::Is((0..size).map(|_| small(random)).collect());
        cases.read(&message.encode(), None);
    }
}
