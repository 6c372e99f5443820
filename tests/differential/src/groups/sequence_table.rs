//! The table of lives: 64 keys and 65, keys that differ in one part only, removal and reuse, and calls at random.

use super::{Group, PLAIN, RISES};
use crate::cases::Cases;
use crate::random::Random;
use crate::sequence::{number_near, random_key, rising_lives, Follower, Key, AH, ESP, LOWEST_SPI, MOST_ENTRIES};

pub const GROUP: Group = Group {
    name: "sequence-table",
    // 8198 would take 4,294,967,295 lines.
    answers: &[
        &["done", "accepted", "number", "loss", "refused 10", "refused 11", "refused 24"],
        &["refused 8194", "refused 8197", "refused 8199", "refused 8200"],
    ],
    at_least: 50,
    in_order: true,
    shared_occasions: RISES,
    kinds: &[
        ("absent key", absent_keys),
        ("checks of adding", checks_of_adding),
        ("64 keys and 65", more_keys_than_room),
        ("keys that differ in one part", keys_that_differ_in_one_part),
        ("life after life", life_after_life),
        ("sending", sending),
        ("call at random", calls_at_random),
        ("walk of many lives", walks_of_many_lives),
        ("rise at its limits", rises_at_their_limits),
    ],
    ..PLAIN
};

/// Every call but adding.
fn ask_all(random: &mut Random, follower: &mut Follower, key: Key, number: u32) {
    follower.send(key);
    follower.loss(key);
    follower.packet(random, key, number, true);
    follower.loss(key);
}

/// In an empty table, then in one that has another key; a protocol that no entry has is an absent key.
fn absent_keys(random: &mut Random, cases: &mut Cases) {
    let mut follower = Follower::new(cases);
    for _ in 0..2 {
        for protocol in 0..=255 {
            let key = Key { protocol, ..random_key(random) };
            follower.send(key);
            follower.loss(key);
            follower.remove(key);
        }
        for _ in 0..50 {
            let key = random_key(random);
            ask_all(random, &mut follower, key, 1);
        }
        follower.add(random_key(random));
    }
    follower.remove_all();
}

fn checks_of_adding(random: &mut Random, cases: &mut Cases) {
    let mut follower = Follower::new(cases);
    for spi in [0, 1, 255, LOWEST_SPI, 257, 511, 512, 65_536, u32::MAX] {
        for protocol in 0..=255 {
            let key = Key { protocol, spi, ..random_key(random) };
            follower.add(key);
            follower.add(key);
            follower.loss(key);
            follower.remove(key);
        }
    }
    for bit in 0..32 {
        follower.add(Key { spi: 1 << bit, ..random_key(random) });
    }
    follower.remove_all();
}

/// A full table answers present before full, and 10 and 11 before either; what is freed is used again.
fn more_keys_than_room(random: &mut Random, cases: &mut Cases) {
    let mut follower = Follower::new(cases);
    for round in 0..12 {
        while follower.keys().len() < MOST_ENTRIES {
            follower.add(random_key(random));
        }
        for key in follower.keys() {
            follower.add(key);
            ask_all(random, &mut follower, key, round + 1);
        }
        for protocol in [0, 1, AH, ESP, 4, 51, 255] {
            for spi in [0, 255, LOWEST_SPI, u32::MAX] {
                let key = Key { protocol, spi, ..random_key(random) };
                follower.add(key);
                follower.loss(key);
            }
        }
        // One after the other is freed and taken, at the front, at the end and in between.
        for at in [0, MOST_ENTRIES - 1, random.below(MOST_ENTRIES), random.below(MOST_ENTRIES)] {
            let freed = follower.keys()[at];
            let key = random_key(random);
            follower.add(key);
            follower.remove(freed);
            follower.loss(freed);
            follower.add(key);
            ask_all(random, &mut follower, key, 1);
            follower.add(freed);
        }
        for key in follower.keys() {
            if random.once_in(2) {
                follower.remove(key);
            }
        }
    }
    follower.remove_all();
}

/// One bit of the destination or of the SPI, or the other protocol, makes another key.
fn keys_that_differ_in_one_part(random: &mut Random, cases: &mut Cases) {
    let mut follower = Follower::new(cases);
    for _ in 0..6 {
        let key = Key { spi: random_key(random).spi | 0x0100_0000, ..random_key(random) };
        follower.add(key);
        follower.packet(random, key, 5, true);
        follower.send(key);
        let destinations = (0..32).map(|bit| Key { destination: key.destination ^ 1 << bit, ..key });
        let spis = (0..32).filter(|&bit| bit != 24).map(|bit| Key { spi: key.spi ^ 1 << bit, ..key });
        let protocol = Key { protocol: AH + ESP - key.protocol, ..key };
        for other in destinations.chain(spis).chain([protocol]) {
            ask_all(random, &mut follower, other, 5);
            follower.remove(other);
            follower.add(other);
            ask_all(random, &mut follower, other, 5);
            ask_all(random, &mut follower, key, 5);
            follower.remove(other);
            ask_all(random, &mut follower, key, 5);
        }
        follower.remove(key);
    }
}

/// What was accepted and sent in one life is not known in the next.
fn life_after_life(random: &mut Random, cases: &mut Cases) {
    let mut follower = Follower::new(cases);
    for _ in 0..30 {
        let (key, beside) = (random_key(random), random_key(random));
        follower.add(beside);
        for _ in 0..5 {
            follower.add(key);
            for number in [1, 2, 40, 66, 66, 2, 3] {
                ask_all(random, &mut follower, key, number);
                ask_all(random, &mut follower, beside, number + 1);
            }
            follower.remove(key);
            ask_all(random, &mut follower, key, 67);
        }
    }
    follower.remove_all();
}

fn sending(random: &mut Random, cases: &mut Cases) {
    let mut follower = Follower::new(cases);
    let keys = [(); 3].map(|_| random_key(random));
    keys.iter().for_each(|&key| follower.add(key));
    for _ in 0..3_000 {
        follower.send(random.one_of(&keys));
    }
    // Receiving leaves the counter alone, and a new life begins it again.
    ask_all(random, &mut follower, keys[0], 9);
    follower.remove(keys[0]);
    follower.add(keys[0]);
    keys.iter().for_each(|&key| follower.send(key));
    follower.remove_all();
}

fn packet_near(random: &mut Random, follower: &mut Follower, key: Key) {
    let highest = follower.life(key).map_or(0, |life| life.highest());
    let number = number_near(random, highest);
    let integrity = !random.once_in(4);
    follower.packet(random, key, number, integrity);
}

/// Over a few keys more than there is room for, and over the lent record, which is none of the table's.
fn calls_at_random(random: &mut Random, cases: &mut Cases) {
    let mut follower = Follower::new(cases);
    follower.lent_new();
    let mut keys: Vec<_> = (0..MOST_ENTRIES + 4).map(|_| random_key(random)).collect();
    keys.push(Key { protocol: 4, ..keys[0] });
    keys.push(Key { spi: 255, ..keys[1] });
    for _ in 0..40_000 {
        let key = random.one_of(&keys);
        match random.below(32) {
            0..=9 => follower.add(key),
            10 => follower.remove(key),
            11..=14 => follower.send(key),
            15..=18 => follower.loss(key),
            19 => follower.lent_loss(),
            20 if random.once_in(30) => follower.lent_new(),
            20 => {
                let number = number_near(random, follower.lent.highest());
                follower.lent(number, !random.once_in(4));
            }
            _ => packet_near(random, &mut follower, key),
        }
    }
    follower.remove_all();
}

/// The walks of a window, of many lives at once.
fn walks_of_many_lives(random: &mut Random, cases: &mut Cases) {
    let mut follower = Follower::new(cases);
    for _ in 0..20 {
        let keys: Vec<_> = (0..random.between(1, 8)).map(|_| random_key(random)).collect();
        keys.iter().for_each(|&key| follower.add(key));
        for _ in 0..1_000 {
            let key = random.one_of(&keys);
            packet_near(random, &mut follower, key);
            if random.once_in(6) {
                follower.loss(key);
            }
        }
        follower.remove_all();
    }
}

/// Each life of a key counts from 0, and another key's packets in between are none of its own.
fn rises_at_their_limits(random: &mut Random, cases: &mut Cases) {
    let mut follower = Follower::new(cases);
    let keys = [AH, ESP].map(|protocol| Key { protocol, ..random_key(random) });
    for (life, key) in rising_lives().into_iter().zip(keys.into_iter().cycle()) {
        let beside = random_key(random);
        follower.add(key);
        follower.add(beside);
        for (number, integrity) in life {
            follower.packet(random, key, number, integrity);
            packet_near(random, &mut follower, beside);
        }
        follower.loss(key);
        follower.remove_all();
    }
}
