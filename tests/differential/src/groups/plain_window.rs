//! The plain window: a list of 4,095 numbers, of 4,096 and one more, which refusal comes first, and that no line about the lent
//! record or the table touches it. The group `engines` shows it everything that the lent record is shown.

use super::{has_rise, Group, Occasion, LARGEST_RISE, PLAIN, RISES};
use crate::cases::{Case, Cases};
use crate::random::Random;
use crate::sequence::{number_near, random_key, rising_lives, Follower, Key, MOST_NUMBERS};

pub const GROUP: Group = Group {
    name: "plain-window",
    answers: &[&["done", "accepted", "refused 24", "refused 8194", "refused 8197", "refused 8202", "loss"]],
    at_least: 50,
    also: &[&["number", "refused 11", "refused 8200"]],
    in_order: true,
    occasions: OCCASIONS,
    shared_occasions: RISES,
    kinds: &[
        ("list before a first `plain new`", list_before_a_first_new),
        ("rise at its limits", rises_at_their_limits),
        ("which refusal comes first", which_refusal_comes_first),
        ("list of 4,095 numbers, of 4,096 and one more", lists_at_their_most),
        ("new list", new_lists),
        ("beside the lent record and the table", beside_the_others),
        ("call at random", calls_at_random),
    ],
    ..PLAIN
};

const LISTED: &str = "in the list";
const LISTED_BEHIND: &str = "in the list and behind the window";
const ONE_LESS: &str = "on a list of 4,095";
const FULL: &str = "on a full list";

const OCCASIONS: &[Occasion] = &[
    ("8197 of a number in the list", 20, |case, answers| is(case, LISTED_BEHIND, answers, "refused 8197")),
    ("8194 of a damaged packet", 100, |case, answers| is_damaged(case) && is(case, LISTED, answers, "refused 8194")),
    ("8197 on a list of 4,095", 50, |case, answers| is(case, ONE_LESS, answers, "refused 8197")),
    ("8194 on a list of 4,095", 50, |case, answers| is(case, ONE_LESS, answers, "refused 8194")),
    ("24 on a list of 4,095", 50, |case, answers| is(case, ONE_LESS, answers, "refused 24")),
    ("the 4,096th accepted", LISTS.len(), |case, answers| {
        case.detail == ONE_LESS && has_rise(answers, 0..=LARGEST_RISE)
    }),
    ("8197 on a full list", 50, |case, answers| is(case, FULL, answers, "refused 8197")),
    ("8194 on a full list", 50, |case, answers| is(case, FULL, answers, "refused 8194")),
    ("24 on a full list", 50, |case, answers| is(case, FULL, answers, "refused 24")),
    ("8202 on a full list", 50, |case, answers| is(case, FULL, answers, "refused 8202")),
];

fn is(case: &Case, detail: &str, answers: &[String], answer: &str) -> bool {
    case.detail == detail && answers == [answer]
}

fn is_damaged(case: &Case) -> bool {
    case.input.ends_with(b" no\n")
}

fn list_before_a_first_new(_: &mut Random, cases: &mut Cases) {
    let mut follower = Follower::new(cases);
    follower.plain_loss();
    for integrity in [true, false] {
        follower.plain(0, integrity);
        follower.plain(70, !integrity);
    }
    follower.plain_loss();
}

fn rises_at_their_limits(_: &mut Random, cases: &mut Cases) {
    let mut follower = Follower::new(cases);
    for life in rising_lives() {
        follower.plain_new();
        for (number, integrity) in life {
            follower.plain(number, integrity);
            follower.plain_loss();
        }
    }
}

/// Numbers at every limit as seen from H, and at the ends of all numbers.
fn limits(highest: u32) -> Vec<u32> {
    let ways = (-66..=2).chain([62, 63, 64, 65, 66]);
    let near = ways.filter_map(|way| u32::try_from(i64::from(highest) + way).ok());
    [0, 1, highest / 2, u32::MAX - 1, u32::MAX].into_iter().chain(near).collect()
}

/// Every limit of short lists, with either integrity: a number can be behind the window, in the list and damaged at once.
fn which_refusal_comes_first(_: &mut Random, cases: &mut Cases) {
    let mut follower = Follower::new(cases);
    let short = [vec![], vec![1], vec![63], vec![64, 1], vec![1, 2, 65, 66], vec![10, 11, 74, 75], vec![3, u32::MAX]];
    for list in short.into_iter().chain([(1..=70).collect()]) {
        let highest = list.iter().copied().max().unwrap_or(0);
        for number in limits(highest) {
            follower.plain_new();
            list.iter().for_each(|&number| follower.plain(number, true));
            follower.detail(match (list.contains(&number), highest.saturating_sub(number) < 64) {
                (true, true) => LISTED,
                (true, false) => LISTED_BEHIND,
                (false, _) => "",
            });
            for integrity in [false, true, false] {
                follower.plain(number, integrity);
                follower.plain_loss();
            }
            follower.detail("");
        }
    }
}

/// Of lists of 4,096 numbers the first, how far the others lie apart, and how far from H the one that makes it full. Of the last
/// 64 numbers all are in the list, some or one; the last list goes to the end of all numbers.
const LISTS: [(u32, u32, i64); 9] = [
    (1, 1, 1),
    (1, 1, 64),
    (2, 2, -1),
    (2, 2, -63),
    (3, 3, 2),
    (64, 64, 63),
    (65, 65, -62),
    (1_000_000, 1_000_000, 4_294_967_295 - 4_095_000_000),
    (u32::MAX - 4_095, 1, 1),
];

fn fill(follower: &mut Follower, first: u32, apart: u32, count: usize) {
    follower.plain_new();
    (first..).step_by(apart as usize).take(count).for_each(|number| follower.plain(number, true));
}

/// What is refused changes nothing: the loss line stays, and the same packets are refused again.
fn lists_at_their_most(_: &mut Random, cases: &mut Cases) {
    let mut follower = Follower::new(cases);
    for (first, apart, last) in LISTS {
        fill(&mut follower, first, apart, MOST_NUMBERS - 1);
        follower.detail(ONE_LESS);
        follower.plain_loss();
        let highest = follower.plain.highest();
        limits(highest).into_iter().for_each(|number| follower.plain(number, false));
        follower.plain_loss();
        follower.plain((i64::from(highest) + last) as u32, true);
        follower.detail(FULL);
        for _ in 0..2 {
            follower.plain_loss();
            for number in limits(follower.plain.highest()) {
                follower.plain(number, true);
                follower.plain(number, false);
            }
        }
        for way in [-1, 1, 64] {
            let number = i64::from(follower.plain.highest()) + way;
            follower.plain(u32::try_from(number).unwrap_or(u32::MAX), true);
            follower.plain_loss();
        }
        follower.detail("");
    }
}

/// A list of so many numbers is forgotten, and they are accepted once more.
fn new_lists(_: &mut Random, cases: &mut Cases) {
    let mut follower = Follower::new(cases);
    for count in [0, 1, 2, 63, 64, 65, 128, MOST_NUMBERS - 1, MOST_NUMBERS] {
        fill(&mut follower, 5, 3, count);
        let highest = follower.plain.highest();
        follower.plain(highest + 1, true);
        follower.plain_loss();
        follower.plain_new();
        follower.plain_new();
        follower.plain_loss();
        for number in [0, highest, 5, highest + 1, 1] {
            follower.plain(number, true);
            follower.plain_loss();
        }
    }
}

fn ask_all(follower: &mut Follower, key: Key) {
    follower.plain_loss();
    follower.lent_loss();
    follower.loss(key);
}

/// The same packets go to all three: the others go on where the list is full, and what becomes new is that one alone.
fn beside_the_others(random: &mut Random, cases: &mut Cases) {
    let mut follower = Follower::new(cases);
    let key = random_key(random);
    follower.plain_new();
    follower.lent_new();
    follower.add(key);
    for number in 1..=4_200 {
        follower.plain(number, true);
        follower.lent(number, true);
        follower.packet(random, key, number, true);
    }
    ask_all(&mut follower, key);
    let show_to_all = |random: &mut Random, follower: &mut Follower| {
        for number in [4_200, 4_096, 4_097, 4_201, 1] {
            follower.plain(number, true);
            follower.lent(number, true);
            follower.packet(random, key, number, true);
        }
        ask_all(follower, key);
    };
    show_to_all(random, &mut follower);
    follower.lent_new();
    ask_all(&mut follower, key);
    show_to_all(random, &mut follower);
    follower.remove(key);
    follower.add(key);
    ask_all(&mut follower, key);
    show_to_all(random, &mut follower);
    follower.plain_new();
    ask_all(&mut follower, key);
    show_to_all(random, &mut follower);
    follower.remove_all();
}

/// Over the list, the lent record and two keys, with numbers near the list's H.
fn calls_at_random(random: &mut Random, cases: &mut Cases) {
    let mut follower = Follower::new(cases);
    follower.plain_new();
    follower.lent_new();
    let keys = [(); 2].map(|_| random_key(random));
    for _ in 0..12_000 {
        let key = random.one_of(&keys);
        let (number, integrity) = (number_near(random, follower.plain.highest()), !random.once_in(4));
        match random.below(16) {
            0 if random.once_in(10) => follower.plain_new(),
            1 if random.once_in(10) => follower.lent_new(),
            2 if random.once_in(10) => follower.remove(key),
            3 => follower.add(key),
            4 => follower.send(key),
            5 => ask_all(&mut follower, key),
            6 | 7 => follower.lent(number, integrity),
            8 | 9 => follower.packet(random, key, number, integrity),
            10 | 11 => follower.plain_loss(),
            _ => follower.plain(number, integrity),
        }
    }
    follower.remove_all();
}
