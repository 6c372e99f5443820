//! The programs that say whether a reply is lawful: some of each kind of the lines `lawful` with the words that go with them,
//! inputs that are cut anywhere, and inputs around the longest that there are.

use super::choices::SORTS;
use super::lawful::{self, cannot_be_read, of_size, Sound};
use super::why_words::{of_each_detail, spread};
use super::{Answers, Group, PLAIN, READ_REFUSALS};
use crate::cases::{bytes, Case, Cases, ProgramsOf, Said};
use crate::message::LONGEST;
use crate::policy::{book_of, MOST_LINES};
use crate::random::Random;
use std::collections::BTreeMap;

pub const GROUP: Group = Group {
    name: "lawful-words",
    answers: ANSWERS,
    at_least: 10,
    listings: true,
    occasions: &[
        ("inputs", 3_000, |case, answers| matches!(case.programs, ProgramsOf::Lawfuls { .. }) && !answers.is_empty()),
        ("two differences at once", 300, |case, _| case.detail.starts_with(lawful::TWO_DIFFERENCES)),
        ("check broken at the offer", 200, |case, _| case.detail.contains("at the offer")),
        ("check broken at the reply", 200, |case, _| case.detail.contains("at the reply")),
        ("lawful, with more than 16,000 bytes", 10, |case, answers| case.input.len() > 16_000 && answers == ["lawful"]),
    ],
    kinds: &[
        (lawful::EXAMPLES, examples),
        ("line of the group lawful", lines),
        ("every front of an input", fronts),
        ("around the longest inputs", around_the_longest),
        ("input that comes in pieces", in_pieces),
    ],
    ..PLAIN
};

/// Each by itself, and with a book that chooses something or nothing. Numbers are left out.
macro_rules! forms {
    ($($form:literal),* $(,)?) => {
        &[
            $($form, concat!($form, " the book chooses set line transforms"), concat!($form, " the book chooses nothing"),)*
        ]
    };
}

const ANSWERS: Answers = &[
    &["lawful", "refused 14", "refused 8193"],
    READ_REFUSALS,
    &[
        "offer cannot read",
        "offer has no SA payload",
        "book cannot read",
        "reply cannot read",
        "reply has no SA payload",
    ],
    forms![
        "reply has sets",
        "reply set is not offered",
        "reply set has AH alone offered ESP alone",
        "reply set has AH alone offered AH with ESP",
        "reply set has ESP alone offered AH alone",
        "reply set has ESP alone offered AH with ESP",
        "reply set has AH with ESP offered AH alone",
        "reply set has AH with ESP offered ESP alone",
        "reply set has ISAKMP offered AH alone",
        "reply set has ISAKMP offered ESP alone",
        "reply set has ISAKMP offered AH with ESP",
        "reply set has AH alone offered ISAKMP",
        "reply set has ESP alone offered ISAKMP",
        "reply set has AH with ESP offered ISAKMP",
        "reply set has AH before ESP offered ESP before AH",
        "reply set has ESP before AH offered AH before ESP",
        "reply set has transforms",
        "reply set AH has transforms",
        "reply set ESP has transforms",
        "reply set transform is not offered",
        "reply set AH transform is not offered",
        "reply set ESP transform is not offered",
        "reply set transform has ID offered",
        "reply set AH transform has ID offered",
        "reply set ESP transform has ID offered",
        "reply set transform has other attributes than offered",
        "reply set AH transform has other attributes than offered",
        "reply set ESP transform has other attributes than offered",
    ],
    &[
        "reply takes set the book chooses set line transforms",
        "reply takes transform the book chooses set line transforms",
        "reply takes AH transform the book chooses set line transforms",
        "reply takes ESP transform the book chooses set line transforms",
        "reply takes set the book chooses nothing",
    ],
];

/// Offer, reply and book of a line.
fn inputs(line: &Case) -> (Vec<u8>, Vec<u8>, Option<Vec<u8>>) {
    let text = std::str::from_utf8(&line.input).expect("a line is text");
    let mut words = text.trim_end().split(' ').skip(1).map(bytes);
    let mut next = || words.next().expect("a line has two words at least");
    (next(), next(), words.next())
}

fn add(cases: &mut Cases, line: &Case) {
    let (offer, reply, book) = inputs(line);
    cases.judged_in_words(&offer, &reply, book.as_deref(), line.said.clone());
}

fn examples(random: &mut Random, cases: &mut Cases) {
    lawful::GROUP.of_kind(random, lawful::EXAMPLES).iter().for_each(|line| add(cases, line));
}

/// Some of each kind, of each two differences and of each check at each message, and some with each form of words.
fn lines(random: &mut Random, cases: &mut Cases) {
    const OF_EACH_FORM: usize = 12;
    let mut of_form: BTreeMap<String, usize> = BTreeMap::new();
    for (kind, _) in lawful::GROUP.kinds.iter().filter(|(kind, _)| ![lawful::EXAMPLES, lawful::WORDS].contains(kind)) {
        let made = lawful::GROUP.of_kind(random, kind);
        let mut some = match *kind {
            lawful::TWO_DIFFERENCES => of_each_detail(&made, 4),
            lawful::CHECKS_BROKEN => of_each_detail(&made, 3),
            _ => spread(&made, 50).collect(),
        };
        for line in &made {
            let count = of_form.entry(line.said.as_ref().map(lawful::form).unwrap_or_default()).or_default();
            *count += 1;
            some.extend((*count <= OF_EACH_FORM).then_some(line));
        }
        for line in some {
            cases.detail = line.title();
            add(cases, line);
        }
    }
}

/// Cut anywhere, from nothing to all but one byte.
fn fronts(random: &mut Random, cases: &mut Cases) {
    let Sound { to, answer, .. } = Sound::new(random, SORTS[0]);
    let (offer, reply, book) = (to.message, answer.encode(), to.book);
    for size in 0..offer.len() {
        cases.judged_in_words(&offer[..size], &reply, Some(&book), Some(cannot_be_read("offer", 30)));
    }
    for size in 0..reply.len() {
        cases.judged_in_words(&offer, &reply[..size], Some(&book), Some(cannot_be_read("reply", 30)));
    }
    for size in 0..book.len() {
        cases.judged_in_words(&offer, &reply, Some(&book[..size]), Some(cannot_be_read("book", 8_193)));
    }
}

/// The longest offer, reply and book, and a byte more and many more of each.
fn around_the_longest(random: &mut Random, cases: &mut Cases) {
    for time in 0..12 {
        let Sound { offer, to, reply, .. } = Sound::new(random, SORTS[time % 3]);
        let [message, answer] =
            [to.offer.clone(), reply.offer()].map(|of| of_size(random, offer.exchange, of, LONGEST));
        let choice = to.chosen.as_ref();
        cases.judged_in_words(&message, &answer, None, Some(reply.said(None)));
        cases.judged_in_words(&message, &answer, Some(&to.book), Some(reply.said(Some(choice))));
        let longest_book = book_of(random, MOST_LINES, MOST_LINES).encode();
        cases.judged_in_words(&message, &answer, Some(&longest_book), None);
        for more in [1, 2, 1_000] {
            let longer = |bytes: &[u8]| [bytes, &vec![0; more]].concat();
            for book in [None, Some(&longest_book[..])] {
                cases.judged_in_words(&longer(&message), &answer, book, Some(cannot_be_read("offer", 30)));
                cases.judged_in_words(&message, &longer(&answer), book, Some(cannot_be_read("reply", 30)));
            }
            let book = longer(&longest_book);
            cases.judged_in_words(&message, &answer, Some(&book), Some(cannot_be_read("book", 8_193)));
        }
    }
}

/// A program must go on reading until it has all that it was told of.
fn in_pieces(random: &mut Random, cases: &mut Cases) {
    for time in 0..12 {
        let Sound { offer, to, reply, answer } = Sound::new(random, SORTS[time % 3]);
        let said = Some(reply.said(Some(to.chosen.as_ref())));
        let first = to.message.len();
        for piece in [if time < 3 { 1 } else { 7 }, 82, first - 1, first, first + 1] {
            cases.judged_in_pieces(&to.message, &answer.encode(), Some(&to.book), piece, said.clone());
            cases.judged_in_pieces(&to.message, &answer.encode(), None, piece, Some(Said::Lawful));
        }
        let [message, answer] =
            [to.offer.clone(), reply.offer()].map(|of| of_size(random, offer.exchange, of, LONGEST));
        for piece in [1_000, 4_096, 8_191] {
            cases.judged_in_pieces(&message, &answer, Some(&to.book), piece, said.clone());
        }
    }
}

#[cfg(test)]
mod tests {
    use super::*;

    #[test]
    fn a_line_gives_its_inputs_back() {
        let mut cases = Cases { kind: "", detail: String::new(), made: Vec::new() };
        cases.judged(&[1, 2], &[], None, None);
        cases.judged(&[1], &[2], Some(&[]), None);
        assert_eq!(inputs(&cases.made[0]), (vec![1, 2], vec![], None));
        assert_eq!(inputs(&cases.made[1]), (vec![1], vec![2], Some(vec![])));
    }

    #[test]
    fn programs_are_given_a_byte_more_than_the_longest_at_most() {
        let mut cases = Cases { kind: "", detail: String::new(), made: Vec::new() };
        cases.judged_in_words(&[1; 9_000], &[2; 8_192], Some(&[3; 100]), None);
        cases.judged_in_words(&[1; 10], &[2; 20], None, None);
        let [long, short] = &cases.made[..] else { panic!("two were made") };
        assert_eq!(long.input, [vec![1; 8_193], vec![2; 8_192], vec![3; 83]].concat());
        let arguments = |case: &Case| match case.programs {
            ProgramsOf::Lawfuls { sizes, .. } => sizes.arguments().join(" "),
            _ => String::new(),
        };
        assert_eq!([long, short].map(arguments), ["8193 8192 83", "10 20"]);
    }
}
