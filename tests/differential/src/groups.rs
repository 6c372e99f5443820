//! The groups of cases. A group names every kind of answer that must occur in it, how often at least, and its kinds of
//! cases with their makers.

mod books;
mod captures;
mod choices;
mod deliveries;
mod der_damage;
mod der_lengths;
mod der_small;
mod der_trees;
mod ends;
mod engines;
mod exchanges;
mod frames;
mod identities;
mod lawful;
mod lawful_words;
mod lifetimes;
mod lines;
mod message_checks;
mod message_damage;
mod messages;
mod offer_checks;
mod offer_damage;
mod plain_window;
mod port;
mod replies;
mod sequence_lines;
mod sequence_packets;
mod sequence_table;
mod sequence_window;
mod verdicts;
mod why;
mod why_words;

use crate::cases::{Case, Cases, LINE_END_SHOWN};
use crate::compare::Law;
use crate::random::Random;
use std::ops::RangeInclusive;

pub type Maker = fn(&mut Random, &mut Cases);

/// What must occur beside kinds of answers: its name, how often at least, and how it is known by a case and its answers.
pub type Occasion = (&'static str, usize, fn(&Case, &[String]) -> bool);

/// Kinds of answers, in lists that several groups may share: what stands before their numbers, and each refusal by itself.
pub type Answers = &'static [&'static [&'static str]];

pub struct Group {
    pub name: &'static str,
    pub answers: Answers,
    /// How often each of them must occur.
    pub at_least: usize,
    /// Answers that may occur beside these.
    pub also: Answers,
    /// Whether an answer hangs on the lines before, so that a case by itself means nothing.
    pub in_order: bool,
    /// Whether an answer is a listing, of which every line counts; else its last line does.
    pub listings: bool,
    pub occasions: &'static [Occasion],
    /// Those that other groups ask for as well.
    pub shared_occasions: &'static [Occasion],
    /// What it asks of the answers of `bench` alone.
    pub law: Option<Law>,
    pub kinds: &'static [(&'static str, Maker)],
}

/// What most groups do without. A group that does not say how often its answers must occur fails.
const PLAIN: Group = Group {
    name: "",
    answers: &[],
    at_least: usize::MAX,
    also: &[],
    in_order: false,
    listings: false,
    occasions: &[],
    shared_occasions: &[],
    law: None,
    kinds: &[],
};

pub const ALL: &[Group] = &[
    der_trees::GROUP,
    der_lengths::GROUP,
    der_damage::GROUP,
    der_small::GROUP,
    port::GROUP,
    lines::GROUP,
    messages::GROUP,
    message_checks::GROUP,
    message_damage::GROUP,
    offer_checks::GROUP,
    offer_damage::GROUP,
    identities::GROUP,
    sequence_window::GROUP,
    sequence_table::GROUP,
    sequence_packets::GROUP,
    sequence_lines::GROUP,
    plain_window::GROUP,
    engines::GROUP,
    frames::GROUP,
    books::GROUP,
    choices::GROUP,
    lifetimes::GROUP,
    replies::GROUP,
    why::GROUP,
    lawful::GROUP,
    verdicts::GROUP,
    why_words::GROUP,
    lawful_words::GROUP,
    captures::GROUP,
    ends::GROUP,
    deliveries::GROUP,
    exchanges::GROUP,
];

/// Every number that a reading can be refused with.
#[rustfmt::skip]
const READ_REFUSALS: &[&str] = &[
    "refused 1", "refused 2", "refused 3", "refused 4", "refused 5", "refused 6", "refused 7", "refused 8", "refused 9",
    "refused 10", "refused 11", "refused 13", "refused 15", "refused 16", "refused 18", "refused 19", "refused 29", "refused 30",
];

/// Every line `read` is answered by one of these.
const READ_ANSWERS: Answers = &[&["read"], READ_REFUSALS];

/// What a reading can say of an SA payload.
const OFFER_ANSWERS: Answers =
    &[&["read", "refused 2", "refused 3", "refused 10", "refused 11", "refused 13", "refused 15"]];

/// Every line `der` is answered by one of these.
const DER_ANSWERS: Answers = &[&["name", "element", "none"]];

/// What quick mode ends answer, refusals aside, with the states that come before an exchange.
const END_ANSWERS: &[&str] = &["fresh", "room", "send", "nothing", "kept", "idle sends", "sent sends"];

/// The states that come in the course of an exchange, with and without agreed values.
const LATER_STATES: &[&str] = &[
    "half sends set transforms initiator-spis responder-spis initiator-nonce responder-nonce",
    "open sends set transforms initiator-spis responder-spis initiator-nonce responder-nonce",
    "given-up sends",
    "given-up sends set transforms initiator-spis responder-spis initiator-nonce responder-nonce",
];

/// How far accepted packets must move a window.
const RISES: &[Occasion] = &[
    ("a rise of 0", 100, |_, answers| has_rise(answers, 0..=0)),
    ("a rise of 1", 100, |_, answers| has_rise(answers, 1..=1)),
    ("a rise of 2 to 63", 100, |_, answers| has_rise(answers, 2..=63)),
    ("a rise of 64 or more", 100, |_, answers| has_rise(answers, 64..=LARGEST_RISE)),
    ("a rise of 4294967295", 40, |_, answers| has_rise(answers, LARGEST_RISE..=LARGEST_RISE)),
];

/// From nothing to the last number.
const LARGEST_RISE: u64 = 4_294_967_295;

/// Whether an answer, or a line of a listing, tells of one of these rises.
fn has_rise(answers: &[String], rises: RangeInclusive<u64>) -> bool {
    let mut lines = answers.iter().flat_map(|answer| answer.split(LINE_END_SHOWN));
    lines.any(|line| rise_of(line).is_some_and(|rise| rises.contains(&rise)))
}

/// The rise that a verdict carries, where it is an acceptance.
fn rise_of(verdict: &str) -> Option<u64> {
    verdict.rsplit_once("accepted ")?.1.parse().ok()
}

/// The longest line `der BYTES` has so many bytes in hex.
const MOST_DER_BYTES: usize = (65_535 - "der ".len()) / 2;

impl Group {
    /// The kinds of answers that must occur.
    pub fn wanted(&self) -> impl Iterator<Item = &'static str> {
        self.answers.iter().copied().flatten().copied()
    }

    /// The occasions that must occur.
    pub fn wanted_occasions(&self) -> impl Iterator<Item = &'static Occasion> {
        self.occasions.iter().chain(self.shared_occasions)
    }

    /// Whether a kind of answer belongs to the group.
    pub fn knows(&self, kind: &str) -> bool {
        self.answers.iter().chain(self.also).any(|kinds| kinds.contains(&kind))
    }

    pub fn cases(&self, seed: u64) -> Vec<Case> {
        let mut random = Random::new(seed, self.name);
        let mut cases = Cases { kind: "", detail: String::new(), made: Vec::new() };
        for &(kind, make) in self.kinds {
            cases.kind = kind;
            cases.detail.clear();
            make(&mut random, &mut cases);
        }
        cases.made
    }

    /// The cases of one of its kinds, for other groups.
    pub fn of_kind(&self, random: &mut Random, kind: &str) -> Vec<Case> {
        let (kind, make) = self.kinds.iter().find(|(name, _)| *name == kind).expect("the group has it");
        let mut cases = Cases { kind, detail: String::new(), made: Vec::new() };
        make(random, &mut cases);
        cases.made
    }
}

#[cfg(test)]
mod tests {
    use super::*;
    use crate::cases::refused;
    use std::collections::BTreeSet;

    #[test]
    fn every_group_says_what_must_occur_and_how_often() {
        for group in ALL {
            let says = !group.name.is_empty() && !group.kinds.is_empty() && group.wanted().next().is_some();
            assert!(says && group.at_least < PLAIN.at_least, "{}", group.name);
            let wanted: BTreeSet<_> = group.wanted().collect();
            assert_eq!(wanted.len(), group.wanted().count(), "{} names an answer twice", group.name);
            assert!(wanted.iter().all(|kind| group.knows(kind)) && !group.knows("refused 12"), "{}", group.name);
        }
    }

    #[test]
    fn a_rise_is_found_in_an_answer_and_in_any_line_of_a_listing() {
        let has = |answer: &str, rises| has_rise(&[answer.to_string()], rises);
        assert!(has("accepted 64", 64..=64) && !has("accepted 64", 65..=LARGEST_RISE));
        let listing = "1 at 24 0.000000 1.0.0.1 > 1.0.0.2 ESP 00000100 number 9 accepted 2 / 2 at 82 cut short";
        assert!(has(listing, 2..=2) && !has(listing, 9..=9));
        assert!(!has("accepted", 0..=LARGEST_RISE) && !has("refused 24", 0..=LARGEST_RISE));
    }

    /// The numbers of documents 01 and 02 so far; 8198 would take 4,294,967,295 lines.
    #[test]
    fn every_number_must_occur_fifty_times_in_some_group() {
        let of_table_17 = [1, 2, 3, 4, 5, 6, 7, 8, 9, 10, 11, 13, 14, 15, 16, 18, 19, 23, 24, 29, 30];
        let own = [8_192, 8_193, 8_194, 8_195, 8_196, 8_197, 8_199, 8_200, 8_201, 8_202];
        for number in of_table_17.into_iter().chain(own) {
            let is_wanted = |group: &Group| group.wanted().any(|kind| kind == refused(number));
            assert!(ALL.iter().any(|group| group.at_least >= 50 && is_wanted(group)), "{number}");
        }
    }
}
