//! Every form of a length at its limits: only the shortest form of at most three bytes is lawful, and it must be true.

use super::{Group, DER_ANSWERS, MOST_DER_BYTES, PLAIN};
use crate::cases::Cases;
use crate::random::Random;
use crate::tree::{filling, length_in, primitive, shortest_size, sound_answer, Tree, CONSTRUCTED, NAME_TAG};

pub const GROUP: Group = Group {
    name: "der-lengths",
    answers: DER_ANSWERS,
    at_least: 1,
    kinds: &[
        ("short lengths in every form", short_lengths),
        ("long lengths in every form", long_lengths),
        ("every byte as a length", every_byte_as_a_length),
        ("every byte as a length of lengths", every_byte_as_a_length_of_lengths),
        ("every two-byte length", every_two_byte_length),
        ("length past its own list into the next element", length_past_its_list),
    ],
    ..PLAIN
};

const TAGS: [u8; 5] = [NAME_TAG, 0x31, 0xa0, 0x04, 0x10];
/// Forms of four bytes and more are never lawful.
const MOST_LENGTH_BYTES: usize = 6;

fn short_lengths(random: &mut Random, cases: &mut Cases) {
    for length in 0..=300 {
        for tag in TAGS {
            every_form(random, cases, tag, length);
        }
    }
}

fn long_lengths(random: &mut Random, cases: &mut Cases) {
    // Two heads of the longest form, and one byte after the element.
    const MOST: usize = MOST_DER_BYTES - 2 * (1 + MOST_LENGTH_BYTES) - 1;
    for length in [511, 512, 1_000, 4_095, 8_192, 16_384, 32_000, MOST] {
        for tag in TAGS {
            every_form(random, cases, tag, length);
        }
    }
}

/// An element of that length, written in each number of bytes that can hold it, over as many bytes, one more and one
/// less; by itself, and inside a name whose own length is always right.
fn every_form(random: &mut Random, cases: &mut Cases, tag: u8, length: usize) {
    if tag & CONSTRUCTED != 0 && length == 1 {
        return;
    }
    let inside = inside(random, tag, length);
    let shortest = shortest_size(length);
    for size in shortest..=MOST_LENGTH_BYTES {
        let element = [&[tag], length_in(length, size).as_slice(), &inside].concat();
        add_bare_and_inside(cases, &element, size == shortest);
        add_bare_and_inside(cases, &[&element, [random.byte()].as_slice()].concat(), false);
        if length > 0 {
            add_bare_and_inside(cases, &element[..element.len() - 1], false);
        }
    }
}

fn inside(random: &mut Random, tag: u8, length: usize) -> Vec<u8> {
    if tag & CONSTRUCTED == 0 {
        random.bytes(length)
    } else {
        filling(random, length).iter().flat_map(Tree::encode).collect()
    }
}

fn add_bare_and_inside(cases: &mut Cases, element: &[u8], lawful: bool) {
    let answer = |tag| if lawful { sound_answer(tag) } else { "none" };
    cases.der(element, Some(answer(element[0])));
    cases.der(&inside_a_name(element), Some(answer(NAME_TAG)));
}

/// A name whose own length is right, whatever bytes are inside.
fn inside_a_name(bytes: &[u8]) -> Vec<u8> {
    primitive(NAME_TAG, bytes.to_vec()).encode()
}

/// One byte of length over zero bytes: a byte over 127 is either no lawful form or announces a length of zero.
fn every_byte_as_a_length(_: &mut Random, cases: &mut Cases) {
    for tag in [0x04, 0x30, 0x31] {
        for byte in 0..=255_u8 {
            for following in (0..6).chain(125..131).chain(253..259) {
                // An even number of zero bytes is a list of empty elements, an odd one is none.
                let filled = tag & CONSTRUCTED == 0 || following % 2 == 0;
                let lawful = byte < 128 && usize::from(byte) == following && filled;
                let element = [&[tag, byte], vec![0; following].as_slice()].concat();
                cases.der(&element, Some(if lawful { sound_answer(tag) } else { "none" }));
                // Inside a name, zero bytes left over may be more elements.
                cases.der(&inside_a_name(&element), lawful.then_some("name"));
            }
        }
    }
}

/// A second byte of length behind 0x80 to 0x84 and 0xff, over as many bytes as it says.
fn every_byte_as_a_length_of_lengths(_: &mut Random, cases: &mut Cases) {
    for form in [0x80, 0x81, 0x82, 0x83, 0x84, 0xff] {
        for byte in 0..=255_u8 {
            let inside = vec![0; byte.into()];
            let element = [&[0x04, form, byte], inside.as_slice()].concat();
            // Behind 0x82 the first zero byte inside ends the length, so that it says 256 times `byte`: never true.
            add_bare_and_inside(cases, &element, form == 0x81 && byte >= 128);
        }
    }
}

/// The two bytes behind 0x82 at their limits, over as many bytes as they say.
fn every_two_byte_length(_: &mut Random, cases: &mut Cases) {
    for high in [0, 1, 2, 126, 127] {
        for low in [0, 1, 2, 127, 128, 129, 240, 254, 255] {
            let length = usize::from(u16::from_be_bytes([high, low]));
            if length + 8 <= MOST_DER_BYTES {
                let element = [&[0x04, 0x82, high, low], vec![0; length].as_slice()].concat();
                add_bare_and_inside(cases, &element, high > 0);
            }
        }
    }
}

/// The bytes that the length asks for are there, but belong to the element after its list.
fn length_past_its_list(random: &mut Random, cases: &mut Cases) {
    for length in [0, 1, 2, 126, 127, 128, 254, 255, 256, 1_000] {
        for past in [0, 1, 2, 3] {
            let said = length + past;
            let head = [&[0x04], length_in(said, shortest_size(said)).as_slice()].concat();
            let list = inside_a_name(&[head, random.bytes(length)].concat());
            let next = primitive(0x04, random.bytes(3)).encode();
            let around = inside_a_name(&[list, next].concat());
            cases.der(&around, Some(if past == 0 { "name" } else { "none" }));
        }
    }
}
