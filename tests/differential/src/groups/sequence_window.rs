//! One receive record, lent: walks near the window's edges, every two numbers after each other, and rises at their limits.

use super::{Group, PLAIN, RISES};
use crate::cases::Cases;
use crate::random::Random;
use crate::sequence::{number_near, rising_lives, Follower};

pub const GROUP: Group = Group {
    name: "sequence-window",
    answers: &[&["done", "accepted", "refused 24", "refused 8194", "refused 8197", "loss"]],
    at_least: 50,
    in_order: true,
    shared_occasions: RISES,
    kinds: &[
        ("record before a first `lent new`", record_before_a_first_new),
        ("two numbers after each other", two_numbers),
        ("jump from a full window", jumps_from_a_full_window),
        ("integrity no before yes", integrity_no_before_yes),
        ("walk", walks),
        ("walk to the end of all numbers", walks_to_the_end),
        ("rise at its limits", rises_at_their_limits),
    ],
    ..PLAIN
};

fn record_before_a_first_new(_: &mut Random, cases: &mut Cases) {
    let mut follower = Follower::new(cases);
    follower.lent_loss();
    for integrity in [true, false] {
        follower.lent(0, integrity);
        follower.lent(70, !integrity);
    }
    follower.lent_loss();
}

fn two_numbers(_: &mut Random, cases: &mut Cases) {
    let mut follower = Follower::new(cases);
    for first in 1..=140 {
        for second in 0..=140 {
            follower.lent_new();
            follower.lent(first, true);
            follower.lent(second, true);
            follower.lent_loss();
        }
    }
}

/// The window is full or has every third number; then all of it is asked again.
fn jumps_from_a_full_window(_: &mut Random, cases: &mut Cases) {
    let mut follower = Follower::new(cases);
    for jump in (1..=70).chain([127, 128, 129, 1_000, 1 << 16, 1 << 31, u32::MAX - 64]) {
        for step in [1, 3] {
            follower.lent_new();
            (1..=64).step_by(step).for_each(|number| follower.lent(number, true));
            let highest = follower.lent.highest();
            follower.lent(highest + jump.min(u32::MAX - highest), true);
            follower.lent_loss();
            let highest = follower.lent.highest();
            for number in (highest.saturating_sub(66)..=highest).rev().step_by(5) {
                follower.lent(number, true);
            }
            follower.lent_loss();
        }
    }
}

/// A number whose integrity fails is not accepted before, moves nothing, and may yet come.
fn integrity_no_before_yes(random: &mut Random, cases: &mut Cases) {
    let mut follower = Follower::new(cases);
    follower.lent_new();
    for _ in 0..2_000 {
        let number = number_near(random, follower.lent.highest().min(1 << 30));
        follower.lent(number, false);
        follower.lent_loss();
        follower.lent(number, true);
        follower.lent(number, false);
        follower.lent(number, true);
        follower.lent_loss();
        if random.once_in(100) {
            follower.lent_new();
        }
    }
}

fn walk(random: &mut Random, follower: &mut Follower, steps: usize) {
    for _ in 0..steps {
        let number = number_near(random, follower.lent.highest());
        follower.lent(number, !random.once_in(4));
        if random.once_in(5) {
            follower.lent_loss();
        }
    }
}

fn walks(random: &mut Random, cases: &mut Cases) {
    let mut follower = Follower::new(cases);
    for _ in 0..250 {
        follower.lent_new();
        // Most numbers ahead are near; a walk ends soon after one that is far.
        walk(random, &mut follower, 120);
    }
}

fn walks_to_the_end(random: &mut Random, cases: &mut Cases) {
    let mut follower = Follower::new(cases);
    for _ in 0..100 {
        follower.lent_new();
        follower.lent(u32::MAX - random.one_of(&[0, 1, 2, 62, 63, 64, 65, 66, 200]), true);
        walk(random, &mut follower, 100);
        follower.lent(u32::MAX, true);
        for back in [0, 1, 62, 63, 64, 65] {
            follower.lent(u32::MAX - back, true);
        }
        follower.lent_loss();
    }
}

/// Together the rises of a life are the H of its loss line.
fn rises_at_their_limits(_: &mut Random, cases: &mut Cases) {
    let mut follower = Follower::new(cases);
    for life in rising_lives() {
        follower.lent_new();
        life.iter().for_each(|&(number, integrity)| follower.lent(number, integrity));
        follower.lent_loss();
    }
}
