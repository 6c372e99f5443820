//! Lawful messages: every shape of the standard's figures 18 to 26, informational ones, and chains of any types.

use super::{Group, PLAIN};
use crate::cases::Cases;
use crate::message::{
    message_of, opaque, random_message, BLOCK, CERTIFICATE, CERTIFICATE_REQUEST, DELETION, EXCHANGES, HASH,
    HEADER_SIZE, IDENTITY, INFORMATIONAL, LONGEST, MAIN_MODE, MOST_PAYLOADS, NAT_D, NAT_OA, NONCE, NOTICE,
    PAYLOAD_HEADER_SIZE, QUICK_MODE, SA, SIGNATURE, SYMMETRIC_KEY, VENDOR,
};
use crate::offer::{offer_of, Sizes, LARGE, MOST_ATTRIBUTES, MOST_PROPOSALS, MOST_TRANSFORMS, SMALL};
use crate::random::Random;

pub const GROUP: Group = Group {
    name: "messages",
    answers: &[&["read"]],
    at_least: 50,
    kinds: &[
        ("shape of a figure", shapes_of_the_figures),
        ("informational message", informational_messages),
        ("chain of any types", chains_of_any_types),
        ("offer of every size", offers_of_every_size),
        ("long message", long_messages),
    ],
    ..PLAIN
};

/// A shape: exchange, flag, whether the responder has no cookie yet, and the payloads.
type Shape = (u8, u8, bool, &'static [u8]);

#[rustfmt::skip]
const FIGURES: [Shape; 12] = [
    // 18 and 19
    (MAIN_MODE, 0, true, &[SA]),
    (MAIN_MODE, 0, true, &[SA, VENDOR, VENDOR]),
    (MAIN_MODE, 0, false, &[SA, CERTIFICATE, CERTIFICATE]),
    // 20 and 21, and with the payloads that find out about an address translator
    (MAIN_MODE, 0, false, &[SYMMETRIC_KEY, NONCE, IDENTITY, CERTIFICATE, CERTIFICATE, SIGNATURE]),
    (MAIN_MODE, 0, false, &[SYMMETRIC_KEY, NONCE, IDENTITY, SIGNATURE]),
    (MAIN_MODE, 0, false, &[SYMMETRIC_KEY, NONCE, IDENTITY, SIGNATURE, NAT_D, NAT_D]),
    // 22 and 23
    (MAIN_MODE, 1, false, &[HASH]),
    // 24 and 25
    (QUICK_MODE, 1, false, &[HASH, SA, NONCE]),
    (QUICK_MODE, 1, false, &[HASH, SA, NONCE, IDENTITY, IDENTITY]),
    (QUICK_MODE, 1, false, &[HASH, SA, NONCE, IDENTITY, IDENTITY, NAT_OA, NAT_OA]),
    (QUICK_MODE, 1, false, &[HASH, SA, NONCE, CERTIFICATE_REQUEST]),
    // 26
    (QUICK_MODE, 1, false, &[HASH]),
];

fn add_shape(random: &mut Random, cases: &mut Cases, (exchange, flag, no_responder, types): Shape, sizes: Sizes) {
    let mut message = message_of(random, exchange, flag, types, sizes);
    if no_responder {
        message.responder = 0;
    }
    cases.lawful(&message);
}

fn shapes_of_the_figures(random: &mut Random, cases: &mut Cases) {
    for shape in FIGURES {
        for _ in 0..350 {
            add_shape(random, cases, shape, SMALL);
        }
        for _ in 0..30 {
            add_shape(random, cases, shape, LARGE);
        }
    }
}

fn informational_messages(random: &mut Random, cases: &mut Cases) {
    let shapes: [Shape; 5] = [
        (INFORMATIONAL, 0, true, &[NOTICE]),
        (INFORMATIONAL, 0, false, &[NOTICE]),
        (INFORMATIONAL, 0, false, &[DELETION]),
        (INFORMATIONAL, 1, false, &[HASH, NOTICE]),
        (INFORMATIONAL, 1, false, &[HASH, DELETION]),
    ];
    for shape in shapes {
        for _ in 0..100 {
            add_shape(random, cases, shape, SMALL);
        }
    }
}

fn chains_of_any_types(random: &mut Random, cases: &mut Cases) {
    for exchange in EXCHANGES {
        for count in (1..=MOST_PAYLOADS).flat_map(|count| [count; 12]) {
            cases.lawful(&random_message(random, exchange, count, SMALL));
        }
        for _ in 0..800 {
            let count = random.between(1, 6);
            cases.lawful(&random_message(random, exchange, count, SMALL));
        }
    }
}

/// Every number of proposals, of transforms and of attributes.
fn offers_of_every_size(random: &mut Random, cases: &mut Cases) {
    for proposals in (1..=MOST_PROPOSALS).flat_map(|count| [count; 20]) {
        let mut message = message_of(random, QUICK_MODE, 1, &[HASH, SA, NONCE], SMALL);
        *message.offer().expect("it has one") = offer_of(random, QUICK_MODE, proposals, SMALL);
        cases.lawful(&message);
    }
    for exchange in [MAIN_MODE, QUICK_MODE] {
        for transforms in (1..=MOST_TRANSFORMS).flat_map(|count| [count; 20]) {
            let sizes = Sizes { proposals: 2, transforms, attributes: MOST_ATTRIBUTES };
            cases.lawful(&message_of(random, exchange, 0, &[SA], sizes));
        }
    }
}

/// Up to the longest: one payload fills it, or with flag 1 its last whole block but for some padding.
fn long_messages(random: &mut Random, cases: &mut Cases) {
    for exchange in EXCHANGES {
        for length in [1_000, 4_096, LONGEST - 16, LONGEST - 1, LONGEST] {
            for flag in [0, 1] {
                let hash_end = HEADER_SIZE + PAYLOAD_HEADER_SIZE + 32;
                let unfilled = if flag == 1 { (length - HEADER_SIZE) % BLOCK + random.below(BLOCK) } else { 0 };
                let body = random.bytes(length - unfilled - hash_end - PAYLOAD_HEADER_SIZE);
                let mut message = message_of(random, exchange, flag, &[HASH], SMALL);
                message.payloads.push(opaque(VENDOR, body));
                cases.lawful(&message);
            }
        }
    }
}
