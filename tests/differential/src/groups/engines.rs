//! Both engines on the same sequences of packets: each line goes to the lent record and, with the same words, to the plain
//! window. A case is one sequence.

use super::{sequence_window, Group, PLAIN, RISES};
use crate::cases::{Case, Cases};
use crate::compare::Law;
use crate::random::Random;
use crate::sequence::{number_near, Follower, MOST_NUMBERS};

pub const GROUP: Group = Group {
    name: "engines",
    answers: &[&["done", "accepted", "refused 24", "refused 8194", "refused 8197", "refused 8202", "loss"]],
    at_least: 50,
    law: Some(ALIKE),
    occasions: &[
        ("a sequence that comes to 8202", 10, |_, answers| answers.iter().any(|answer| answer == LIST_FULL)),
        ("a sequence of exactly 4,096 acceptances", 2, |_, answers| acceptances(answers) == MOST_NUMBERS),
        ("loss lines behind each of more than 4,096 packets", 2, |_, answers| has_many_loss_lines(answers)),
    ],
    shared_occasions: RISES,
    kinds: &[
        ("sequence of `sequence-window`", sequences_of_the_window),
        ("in order", in_order),
        ("exactly 4,096", exactly_as_many),
        ("far jump", far_jumps),
        ("far jump after far jump", far_jump_after_far_jump),
        ("oldest of the window", oldest_of_the_window),
        ("reordered", reordered),
        ("everything repeated", everything_repeated),
        ("repeated in short", repeated_in_short),
        ("integrity no before yes", integrity_no_before_yes),
        ("long walk", long_walks),
    ],
    ..PLAIN
};

const LIST_FULL: &str = "refused 8202";

/// Request five: up to 4,096 acceptances both engines give equal verdicts and loss lines, and a 4,097th is 8202 in one of them
/// only. Behind it the two have other histories.
const ALIKE: Law = Law {
    says: "both engines of `bench` answer alike, up to the 4,097th acceptance and its 8202",
    broken_by: |case, bench| {
        let mut accepted = 0;
        for (answers, line) in bench.chunks(2).zip(lines(case).skip(1).step_by(2)) {
            let [lent, plain] = answers else { return Some("an answer is missing".to_string()) };
            accepted += usize::from(is_acceptance(lent));
            if accepted > MOST_NUMBERS {
                return (plain != LIST_FULL).then(|| format!("`{line}`, acceptance {accepted}: {plain}"));
            }
            if lent != plain || plain == LIST_FULL {
                return Some(format!("`{line}`, {accepted} accepted: {plain}, and of the lent record {lent}"));
            }
        }
        None
    },
};

fn lines(case: &Case) -> impl Iterator<Item = String> + '_ {
    case.input.split(|&byte| byte == b'\n').map(|line| String::from_utf8_lossy(line).into_owned())
}

fn is_acceptance(verdict: &str) -> bool {
    verdict.starts_with("accepted ")
}

/// How many numbers the lent record accepted.
fn acceptances(answers: &[String]) -> usize {
    answers.iter().step_by(2).filter(|answer| is_acceptance(answer)).count()
}

fn has_many_loss_lines(answers: &[String]) -> bool {
    answers.iter().step_by(2).filter(|answer| answer.starts_with("loss ")).count() > MOST_NUMBERS
}

/// A number, and whether its integrity holds.
type Packet = (u32, bool);

/// One sequence for both engines. Their loss lines are asked behind each packet, or behind one of so many, and at the end.
fn both(cases: &mut Cases, packets: &[Packet], loss_behind: usize) {
    let mut lines = Cases { kind: cases.kind, detail: String::new(), made: Vec::new() };
    let mut follower = Follower::new(&mut lines);
    follower.lent_new();
    follower.plain_new();
    for (&(number, integrity), place) in packets.iter().zip(1..) {
        follower.lent(number, integrity);
        follower.plain(number, integrity);
        if place % loss_behind == 0 || place == packets.len() {
            follower.lent_loss();
            follower.plain_loss();
        }
    }
    let input = lines.made.iter().flat_map(|line| line.input.iter().copied()).collect();
    cases.several_lines(input, lines.made.into_iter().flat_map(|line| line.answers).collect());
}

fn all_sound(numbers: impl IntoIterator<Item = u32>) -> Vec<Packet> {
    numbers.into_iter().map(|number| (number, true)).collect()
}

/// The packet of a line to the lent record, if it has one.
fn packet(line: &Case) -> Option<Packet> {
    let words = std::str::from_utf8(&line.input).ok()?.strip_prefix("lent ")?.trim_end();
    let (number, integrity) = words.split_once(' ')?;
    Some((number.parse().ok()?, integrity == "yes"))
}

/// Every life that the other group shows to the lent record.
fn sequences_of_the_window(random: &mut Random, cases: &mut Cases) {
    for &(kind, _) in sequence_window::GROUP.kinds {
        cases.detail = kind.to_string();
        let lines = sequence_window::GROUP.of_kind(random, kind);
        for life in lines.chunk_by(|_, next| next.input != b"lent new\n") {
            both(cases, &life.iter().filter_map(packet).collect::<Vec<_>>(), 1);
        }
    }
}

/// From the first number on, and to the last of all.
fn in_order(_: &mut Random, cases: &mut Cases) {
    both(cases, &all_sound(1..=4_200), 1);
    both(cases, &all_sound(u32::MAX - 4_199..=u32::MAX), 64);
}

/// Behind these comes what is refused before 8202, and all of it again.
fn exactly_as_many(_: &mut Random, cases: &mut Cases) {
    for apart in [1, 3] {
        let all = all_sound((1..).step_by(apart).take(MOST_NUMBERS));
        let highest = all[MOST_NUMBERS - 1].0;
        let damaged = (highest - 70..highest + 70).map(|number| (number, false)).collect();
        both(cases, &[all.clone(), damaged, all].concat(), 100);
    }
}

/// The last number is reached in a few packets; those next to each are shown as well, at the window's edges.
fn far_jumps(random: &mut Random, cases: &mut Cases) {
    let near = |number: u32| [number, number - 1, number.saturating_sub(63), number.saturating_sub(64), number];
    both(cases, &all_sound((0..32).map(|bit| 1 << bit).chain([u32::MAX]).flat_map(near)), 1);
    for _ in 0..25 {
        let mut highest = 0_u32;
        let mut packets = Vec::new();
        while highest < u32::MAX {
            let bits = random.between(1, 32) as u32;
            highest = highest.saturating_add(random.number(bits) as u32).max(1);
            packets.extend(near(highest).map(|number| (number, !random.once_in(8))));
        }
        both(cases, &packets, 1);
    }
}

/// Of the last 64 numbers H alone is in the list.
fn far_jump_after_far_jump(random: &mut Random, cases: &mut Cases) {
    let mut highest = 0;
    let jumps = (0..4_200).map(|_| {
        highest += random.between(900_000, 1_022_000) as u32;
        highest
    });
    both(cases, &all_sound(jumps), 1);
}

/// A number that the window holds lies as far back in the list as it can, and all that the window holds come again.
fn oldest_of_the_window(_: &mut Random, cases: &mut Cases) {
    let oldest = 100;
    let once = [oldest].into_iter().chain(oldest - 63..oldest).chain(oldest + 1..=oldest + 63);
    both(cases, &all_sound(once.chain(oldest..=oldest + 63)), 1);
}

/// In blocks that are turned round or shuffled. Of 64 all are accepted, of more not all.
fn reordered(random: &mut Random, cases: &mut Cases) {
    let in_order = |most: u32| (1..=most).collect::<Vec<_>>();
    both(cases, &all_sound(in_order(4_200).chunks(64).flat_map(|block| block.iter().rev().copied())), 50);
    for (size, most) in [(64, 4_200), (100, 6_400)] {
        let mut numbers = in_order(most);
        numbers.chunks_mut(size).for_each(|block| shuffle(random, block));
        both(cases, &all_sound(numbers), 50);
    }
}

fn shuffle(random: &mut Random, numbers: &mut [u32]) {
    for left in (2..=numbers.len()).rev() {
        numbers.swap(left - 1, random.below(left));
    }
}

/// Each packet twice; behind the first 8202 all of the window again, and what follows it.
fn everything_repeated(_: &mut Random, cases: &mut Cases) {
    let twice = (1..=4_120).chain(4_030..=4_140).flat_map(|number| [number, number]);
    both(cases, &all_sound(twice), 64);
}

/// The same with few packets, near and far, and the loss lines asked at every step.
fn repeated_in_short(random: &mut Random, cases: &mut Cases) {
    for _ in 0..60 {
        let mut highest = 0;
        let mut once = Vec::new();
        for _ in 0..random.between(1, 20) {
            let number = number_near(random, highest);
            highest = highest.max(number);
            once.push((number, !random.once_in(4)));
        }
        let twice: Vec<_> = once.iter().flat_map(|&packet| [packet, packet]).collect();
        both(cases, &[twice.clone(), once, twice].concat(), 1);
    }
}

/// A damaged packet comes first, with the same number, the next or one that would move the window past it.
fn integrity_no_before_yes(random: &mut Random, cases: &mut Cases) {
    let damaged_first = |number| [(number + random.one_of(&[0, 1, 64]), false), (number, true)];
    both(cases, &(1..=4_150).flat_map(damaged_first).collect::<Vec<_>>(), 100);
}

/// Near the window's edges, until both engines have parted.
fn long_walks(random: &mut Random, cases: &mut Cases) {
    for _ in 0..2 {
        let (mut highest, mut packets) = (0_u32, Vec::new());
        for _ in 0..7_500 {
            // Without the numbers that end a walk.
            let number = number_near(random, highest).min(highest + 300);
            let integrity = !random.once_in(8);
            highest = if integrity { highest.max(number) } else { highest };
            packets.push((number, integrity));
        }
        both(cases, &packets, 100);
    }
}

#[cfg(test)]
mod tests {
    use super::*;
    use crate::DEFAULT_SEED;

    /// The packets 1 to 4,098, with the loss lines behind each.
    fn past_a_full_list() -> Case {
        let mut cases = Cases { kind: "", detail: String::new(), made: Vec::new() };
        both(&mut cases, &all_sound(1..=4_098), 1);
        cases.made.remove(0)
    }

    fn right() -> Vec<String> {
        past_a_full_list().answers.into_iter().flatten().collect()
    }

    /// What breaks the law where these are the answers of `bench`.
    fn broken_by(answers: &[String]) -> Option<String> {
        (ALIKE.broken_by)(&past_a_full_list(), answers)
    }

    #[test]
    fn the_right_answers_keep_the_law() {
        assert_eq!(broken_by(&right()), None);
    }

    #[test]
    fn another_verdict_rise_or_loss_line_of_either_engine_breaks_it() {
        // Of packet N the verdicts are the answers 4 N - 2 and 4 N - 1, the loss lines the two behind them.
        for (at, other) in [
            (2, "refused 24"),
            (3, "accepted 2"),
            (4 * 70 - 2, "accepted 0"),
            (4 * 70 + 1, "loss 70 64 63"),
            (4 * 4_096 - 1, "refused 8202"),
            (4 * 4_096, "loss 4096 64 0"),
        ] {
            let mut answers = right();
            answers[at] = other.to_string();
            assert!(broken_by(&answers).is_some(), "{at}");
        }
    }

    #[test]
    fn a_4097th_acceptance_of_both_breaks_it_and_so_does_8202_of_both() {
        let verdicts = 4 * 4_097 - 2;
        for (other, of) in [("accepted 1", verdicts + 1), ("refused 24", verdicts + 1), ("refused 8202", verdicts)] {
            let mut answers = right();
            assert_eq!(answers[verdicts..verdicts + 2], ["accepted 1", "refused 8202"]);
            answers[of] = other.to_string();
            assert!(broken_by(&answers).is_some(), "{other}");
        }
    }

    #[test]
    fn every_line_goes_to_both_engines() {
        for case in GROUP.cases(DEFAULT_SEED) {
            let lines: Vec<_> = lines(&case).collect();
            assert_eq!(lines.len(), case.answers.len() + 1, "{}", case.title());
            assert!(lines.chunks(2).all(|two| two.len() < 2 || two[0].replace("lent", "plain") == two[1]));
        }
    }
}
