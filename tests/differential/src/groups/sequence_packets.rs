//! Packets: every length, every length field, every protocol, and which check comes first.

use super::{Group, PLAIN};
use crate::cases::{refused, Cases};
use crate::random::Random;
use crate::sequence::{ah, esp, random_key, Follower, Key, AH, ESP};

pub const GROUP: Group = Group {
    name: "sequence-packets",
    answers: &[
        &["done", "accepted", "loss", "refused 10", "refused 11", "refused 16", "refused 24"],
        &["refused 8194", "refused 8197"],
    ],
    at_least: 20,
    in_order: true,
    kinds: &[
        ("every AH length and length field", every_ah_length),
        ("AH length field at its limits", ah_length_fields_at_their_limits),
        ("AH reserved field", ah_reserved_fields),
        ("every ESP length", every_esp_length),
        ("every protocol", every_protocol),
        ("order of checks", order_of_checks),
        ("where the fields lie", where_the_fields_lie),
    ],
    ..PLAIN
};

/// A packet that is well formed takes the next number; any other is 16 and takes none.
fn add_next(follower: &mut Follower, key: Key, well_formed: bool, make: impl Fn(u32) -> Vec<u8>) {
    let number = follower.life(key).map_or(0, |life| life.highest()) + 1;
    let bytes = make(number);
    if well_formed {
        follower.packet_as(key, number, true, &bytes);
    } else {
        follower.any_packet(key, true, &bytes, refused(16));
    }
}

/// The front of a long AH packet.
fn ah_of(length: usize, field: u8, reserved: u16, spi: u32, number: u32) -> Vec<u8> {
    let mut bytes = ah(field, reserved, spi, number);
    bytes.resize(length, 0xa5);
    bytes
}

fn every_ah_length(random: &mut Random, cases: &mut Cases) {
    let mut follower = Follower::new(cases);
    let key = Key { protocol: AH, ..random_key(random) };
    follower.add(key);
    for length in 0..=44 {
        for field in (0..=12).chain([63, 64, 127, 128, 253, 254, 255]) {
            let well_formed = field >= 1 && 4 * (usize::from(field) + 2) <= length;
            add_next(&mut follower, key, well_formed, |number| ah_of(length, field, 0, key.spi, number));
        }
    }
    follower.loss(key);
    follower.remove_all();
}

/// Just as long as the field says, a byte less and a byte more.
fn ah_length_fields_at_their_limits(random: &mut Random, cases: &mut Cases) {
    let mut follower = Follower::new(cases);
    let key = Key { protocol: AH, ..random_key(random) };
    follower.add(key);
    for field in 0..=255 {
        let said = 4 * (usize::from(field) + 2);
        for length in [said - 1, said, said + 1] {
            let well_formed = field >= 1 && length >= said;
            add_next(&mut follower, key, well_formed, |number| ah_of(length, field, 0, key.spi, number));
        }
    }
    follower.remove_all();
}

fn ah_reserved_fields(random: &mut Random, cases: &mut Cases) {
    let mut follower = Follower::new(cases);
    let key = Key { protocol: AH, ..random_key(random) };
    follower.add(key);
    for reserved in (0..16).map(|bit| 1 << bit).chain([0, 0xffff, 0x0101]) {
        for length in [12, 13, 24] {
            add_next(&mut follower, key, reserved == 0, |number| ah_of(length, 1, reserved, key.spi, number));
        }
    }
    follower.remove_all();
}

fn every_esp_length(random: &mut Random, cases: &mut Cases) {
    let mut follower = Follower::new(cases);
    let key = Key { protocol: ESP, ..random_key(random) };
    follower.add(key);
    for length in (0..=40).chain([255, 256, 1_400, 32_000]) {
        add_next(&mut follower, key, length >= 8, |number| {
            let mut bytes = esp(key.spi, number);
            bytes.resize(length, 0x5a);
            bytes
        });
    }
    follower.remove_all();
}

fn every_protocol(random: &mut Random, cases: &mut Cases) {
    let mut follower = Follower::new(cases);
    let key = random_key(random);
    for protocol in [AH, ESP] {
        follower.add(Key { protocol, ..key });
    }
    for protocol in (0..=255).filter(|protocol| !matches!(protocol, 2 | 3)) {
        let other = Key { protocol, ..key };
        for bytes in [Vec::new(), esp(key.spi, 1), ah(1, 0, key.spi, 1), ah(0, 1, key.spi, 0)] {
            follower.any_packet(other, true, &bytes, refused(10));
            follower.any_packet(other, false, &bytes, refused(10));
        }
    }
    for protocol in [AH, ESP] {
        follower.packet(random, Key { protocol, ..key }, 1, true);
    }
    follower.remove_all();
}

/// Each packet breaks a check and those behind it: 16, 11, 8197, 8194, 24.
fn order_of_checks(random: &mut Random, cases: &mut Cases) {
    let mut follower = Follower::new(cases);
    for _ in 0..40 {
        let key = random_key(random);
        let absent = Key { spi: key.spi ^ 1 << 31, ..key };
        let absent = if absent.spi < 256 { Key { spi: 256, ..key } } else { absent };
        follower.add(key);
        follower.packet(random, key, 100, true);
        for (spi, number) in [(absent.spi, 0), (absent.spi, 100), (key.spi, 0), (key.spi, 100), (key.spi, 101)] {
            let malformed = if key.protocol == AH { ah(0, 0, spi, number) } else { esp(spi, number)[..7].to_vec() };
            follower.any_packet(key, false, &malformed, refused(16));
            follower.packet(random, Key { spi, ..key }, number, false);
        }
        for number in [36, 37, 101] {
            follower.packet(random, key, number, false);
            follower.packet(random, key, number, true);
            follower.packet(random, key, number, false);
        }
        follower.loss(key);
        follower.remove(key);
    }
}

/// Every bit of the SPI and of the number, so that no other byte is taken for one of theirs.
fn where_the_fields_lie(random: &mut Random, cases: &mut Cases) {
    let mut follower = Follower::new(cases);
    for protocol in [AH, ESP] {
        for bit in 0..32 {
            let key = Key { protocol, spi: 1 << bit.max(8), ..random_key(random) };
            follower.add(key);
            follower.packet(random, key, 1 << bit, true);
            follower.packet(random, Key { spi: key.spi ^ 1 << (bit ^ 16), ..key }, 1 << bit, true);
            follower.loss(key);
            follower.remove(key);
        }
    }
}
