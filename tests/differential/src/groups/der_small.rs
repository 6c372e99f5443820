//! Short strings over small alphabets, whole or at random: what a maker of trees would not think of.

use super::{Group, DER_ANSWERS, PLAIN};
use crate::cases::{strings, Cases};
use crate::random::Random;
use crate::tree::{primitive, NAME_TAG};

pub const GROUP: Group = Group {
    name: "der-small",
    answers: DER_ANSWERS,
    at_least: 1,
    kinds: &[
        ("every string to 3 bytes", every_string_to_3_bytes),
        ("every string of 4 and 5 bytes", every_string_of_4_and_5_bytes),
        ("random string", random_strings),
        ("random list in a name", random_lists),
    ],
    ..PLAIN
};

fn every_string_to_3_bytes(_: &mut Random, cases: &mut Cases) {
    const ALPHABET: [u8; 16] =
        [0x00, 0x01, 0x02, 0x03, 0x1e, 0x1f, 0x20, 0x30, 0x31, 0x3f, 0x7f, 0x80, 0x81, 0x82, 0x83, 0xff];
    for string in (0..=3).flat_map(|length| strings(&ALPHABET, length)) {
        cases.der(&string, None);
    }
}

fn every_string_of_4_and_5_bytes(_: &mut Random, cases: &mut Cases) {
    const ALPHABET: [u8; 7] = [0x00, 0x01, 0x02, 0x03, 0x30, 0x3f, 0x81];
    for string in (4..=5).flat_map(|length| strings(&ALPHABET, length)) {
        cases.der(&string, None);
    }
}

const ALPHABETS: [&[u8]; 4] = [
    &[0x00, 0x30],
    &[0x00, 0x02, 0x30],
    &[0x00, 0x01, 0x02, 0x04, 0x20, 0x30],
    &[0x00, 0x01, 0x05, 0x1f, 0x30, 0x80, 0x81, 0x82],
];

fn random_string(random: &mut Random, longest: usize) -> Vec<u8> {
    let alphabet = random.one_of(&ALPHABETS);
    let length = random.between(0, longest);
    (0..length).map(|_| random.one_of(alphabet)).collect()
}

fn random_strings(random: &mut Random, cases: &mut Cases) {
    for _ in 0..10_000 {
        cases.der(&random_string(random, 12), None);
    }
}

/// The outermost length is right, so that what is inside decides.
fn random_lists(random: &mut Random, cases: &mut Cases) {
    for _ in 0..20_000 {
        let list = random_string(random, 10);
        cases.der(&primitive(NAME_TAG, list).encode(), None);
    }
}
