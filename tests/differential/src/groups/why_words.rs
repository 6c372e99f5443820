//! The programs that say why: some of each kind of the lines `why`, with the book's size given and without, inputs that
//! are cut anywhere, and inputs around the bytes that count.

use super::lifetimes::PHASES;
use super::{why, Group, Occasion, PLAIN, READ_REFUSALS};
use crate::cases::{bytes, refused, Case, Cases, ProgramsOf, LINE_END_SHOWN};
use crate::message::{message_of, opaque, EXCHANGES, HASH, LONGEST, MAIN_MODE, NONCE, NOTICE, QUICK_MODE, SA, VENDOR};
use crate::offer::SMALL;
use crate::policy::{book_of, random_book, Book, MOST_LINES};
use crate::random::Random;
use std::collections::BTreeMap;

pub const GROUP: Group = Group {
    name: "why-words",
    // Of what is told every line, as it is read back from the words.
    answers: &[
        &["why", "no main lines", "no quick lines", "set line of mode to protocols"],
        &["set line of to suits", "set line of mode to suits", "set line of mode to protocol transform suits without"],
        &[
            "set line of to protocol transform id found wanted",
            "set line of mode to protocol transform id found wanted",
        ],
        &["set line of to protocol transform missing", "set line of mode to protocol transform missing"],
        &["set line of to protocol transform value found wanted"],
        &["set line of mode to protocol transform value found wanted"],
        &["set line of to protocol transform surplus", "set line of mode to protocol transform surplus"],
        &["set line of to protocol transform surplus found", "set line of mode to protocol transform surplus found"],
        &["set line of to protocol transform seconds found most"],
        &["set line of mode to protocol transform seconds found most"],
        &["set line of to protocol transform seconds found least"],
        &["set line of mode to protocol transform seconds found least"],
        &["set line of to protocol transform kilobytes found least"],
        &["set line of mode to protocol transform kilobytes found least"],
        &["refused 8193", "refused 15", "refused 16", "refused 30"],
    ],
    at_least: 30,
    also: &[READ_REFUSALS],
    listings: true,
    occasions: OCCASIONS,
    kinds: &[
        (why::EXAMPLES, examples),
        ("pair of the lines", pairs),
        ("size of the book", sizes),
        ("no SA payload", no_sa_payload),
        ("every front of an input", fronts),
        ("byte changed", bytes_changed),
        ("bytes around those that count", around_those_that_count),
        ("input that comes in pieces", in_pieces),
    ],
    ..PLAIN
};

/// What must occur so often: answers that tell a surplus type in an exchange, so that its name is read, or a mode.
macro_rules! occasions {
    (
        $least:literal times each of $($table:literal: $($kind:literal),+;)*
        modes $($mode:literal),+;
        besides $($other:expr),* $(,)?
    ) => {
        &[
            $($((concat!("type ", $kind, " of Table ", $table), $least, |_, answers| tells($table, answers, $kind)),)+)*
            $(
                (concat!("a line of mode ", $mode), $least, |_, answers| has(answers, concat!(" mode ", $mode, " to "))),
                (concat!("mode ", $mode, " found"), $least, |_, answers| {
                    has(answers, concat!(" value 4 found ", $mode, " wanted "))
                }),
            )+
            $($other),*
        ]
    };
}

#[rustfmt::skip]
const OCCASIONS: &[Occasion] = occasions! {
    5 times each of
    6: 0, 1, 2, 3, 4, 5, 6, 7, 8, 9, 10, 11, 13, 14, 15, 16, 17, 18, 19, 20, 32767;
    7: 0, 1, 3, 4, 5, 6, 7, 8, 9, 18, 19, 32767;
    modes 1, 2, 3, 4;
    besides
    ("inputs", 3_000, |case, answers| case.programs != ProgramsOf::Lines && !answers.is_empty()),
    ("a mode without a name", 10, |_, answers| {
        ["0", "5", "7", "255"].iter().any(|mode| has(answers, &format!(" value 4 found {mode} wanted ")))
    }),
    ("a set of AH alone", 10, |_, answers| has(answers, " protocols 2 /")),
    ("a set of ESP alone", 10, |_, answers| has(answers, " protocols 3 /")),
    ("a set of AH with ESP", 10, |_, answers| has(answers, " protocols 2+3 /")),
    ("AH would do", 50, |_, answers| has(answers, " suits without 3 ")),
    ("ESP would do", 50, |_, answers| has(answers, " suits without 2 ")),
    ("told of more than 8,000 bytes", 10, |case, answers| {
        case.input.len() > 8_000 && answers.iter().any(|told| told.starts_with("why"))
    }),
    ("more than a thousand lines of words", 5, |_, answers| {
        answers.iter().any(|told| told.matches(LINE_END_SHOWN).count() > 1_000)
    }),
};

/// Whether something is told. A line's end has a sign of its own.
fn has(answers: &[String], words: &str) -> bool {
    answers.iter().any(|told| format!("{told} / ").contains(words))
}

/// Whether the words name that type of Table 6 or 7.
fn tells(table: u8, answers: &[String], kind: u16) -> bool {
    let of_table = |line: &&str| line.contains(" mode ") == (table == 7);
    let names = |line: &str| {
        let causes = ["missing", "value", "surplus"];
        causes.iter().any(|cause| format!("{line} ").contains(&format!(" {cause} {kind} ")))
    };
    answers.iter().flat_map(|told| told.split(LINE_END_SHOWN).skip(1)).filter(of_table).any(names)
}

fn lines(told: &[&str]) -> Option<Vec<String>> {
    Some(told.iter().map(|line| line.to_string()).collect())
}

fn examples(random: &mut Random, cases: &mut Cases) {
    let (book, message) = why::example_of_quick_mode(random);
    let known = [
        why::SAID_OF_QUICK_MODE,
        "set 1 line 1 of 3 mode 1 to 3600 protocols 2+3",
        "set 1 line 2 of 2+3 mode 1 to 3600 suits",
        "set 2 line 1 of 3 mode 1 to 3600 protocol 3 transform 1 id found 20 wanted 129",
        "set 2 line 1 of 3 mode 1 to 3600 protocol 3 transform 2 missing 5",
        "set 2 line 1 of 3 mode 1 to 3600 protocol 3 transform 3 missing 1",
        "set 2 line 1 of 3 mode 1 to 3600 protocol 3 transform 4 value 4 found 2 wanted 1",
        "set 2 line 1 of 3 mode 1 to 3600 protocol 3 transform 5 surplus 6",
        "set 2 line 1 of 3 mode 1 to 3600 protocol 3 transform 6 seconds found 7200 most 3600",
        "set 2 line 1 of 3 mode 1 to 3600 protocol 3 transform 7 kilobytes found 0 least 1",
        "set 2 line 1 of 3 mode 1 to 3600 protocol 3 transform 8 seconds found 0 least 1",
        "set 2 line 2 of 2+3 mode 1 to 3600 protocols 3",
        "set 3 line 1 of 3 mode 1 to 3600 protocol 3 transform 1 surplus 1 found 3",
        "set 3 line 2 of 2+3 mode 1 to 3600 protocols 3",
        "set 4 line 1 of 3 mode 1 to 3600 suits",
        "set 4 line 2 of 2+3 mode 1 to 3600 protocols 3",
        "set 5 line 1 of 3 mode 1 to 3600 protocols 2+3",
        "set 5 line 2 of 2+3 mode 1 to 3600 protocol 3 transform 1 suits without 2",
        "set 5 line 2 of 2+3 mode 1 to 3600 protocol 2 transform 1 id found 129 wanted 20",
        "set 5 line 2 of 2+3 mode 1 to 3600 protocol 2 transform 2 missing 5",
        "set 6 line 1 of 3 mode 1 to 3600 protocols 2",
        "set 6 line 2 of 2+3 mode 1 to 3600 protocols 2",
    ];
    add_both(cases, &book.encode(), &message.encode(), lines(&known));
    add_both(cases, &[0, 0], &message.encode(), lines(&["why", "no quick lines"]));
    let (book, message) = why::example_of_main_mode(random);
    let known = [
        why::SAID_OF_MAIN_MODE,
        "set 1 line 1 of 1 to 86400 suits",
        "set 1 line 2 of 1 to 3600 protocol 1 transform 1 value 2 found 2 wanted 20",
        "set 1 line 2 of 1 to 3600 protocol 1 transform 2 seconds found 3601 most 3600",
    ];
    add_both(cases, &book.encode(), &message.encode(), lines(&known));
    add_both(cases, &[0, 0], &message.encode(), lines(&["why", "no main lines"]));
}

/// With the book's size and without; a lawful book ends where it says either way.
fn add_both(cases: &mut Cases, book: &[u8], message: &[u8], told: Option<Vec<String>>) {
    let input = [book, message].concat();
    cases.told(input.clone(), None, told.clone());
    cases.told(input, Some(book.len()), told);
}

/// Some of each kind of the lines, of each cause and each limit, all of them as a line too, so that the words are held to what `bench` answers.
fn pairs(random: &mut Random, cases: &mut Cases) {
    let is_of_pairs = |kind: &str| kind != why::EXAMPLES && !why::OTHER_THAN_PAIRS.contains(&kind);
    for (kind, _) in why::GROUP.kinds.iter().filter(|(kind, _)| is_of_pairs(kind)) {
        let made = why::GROUP.of_kind(random, kind);
        let some = match *kind {
            why::EACH_CAUSE => of_each_detail(&made, 12),
            why::LIFETIMES => of_each_detail(&made, 30),
            _ => spread(&made, 80).collect(),
        };
        for (line, with_size) in some.into_iter().zip([true, false].into_iter().cycle()) {
            cases.detail = line.title();
            let [book, message] = pair(line);
            cases.why(&book, &message, line.answers[0].clone());
            cases.told([book.as_slice(), &message].concat(), with_size.then_some(book.len()), None);
        }
    }
}

/// Up to so many of the cases with the same detail.
pub fn of_each_detail(made: &[Case], most: usize) -> Vec<&Case> {
    let mut by_detail: BTreeMap<&str, Vec<&Case>> = BTreeMap::new();
    for case in made {
        by_detail.entry(&case.detail).or_default().push(case);
    }
    by_detail.values().flat_map(|cases| spread(cases, most)).copied().collect()
}

/// Up to so many, from the first to the last.
pub fn spread<Thing>(all: &[Thing], most: usize) -> impl Iterator<Item = &Thing> {
    let count = all.len().min(most);
    (0..count).map(move |at| &all[at * all.len() / count])
}

fn pair(line: &Case) -> [Vec<u8>; 2] {
    let line = std::str::from_utf8(&line.input).expect("a line is text");
    let words: Vec<_> = line.trim_end().split(' ').collect();
    [bytes(words[1]), bytes(words[2])]
}

/// A book that is a byte too short, or has one left over, is refused where its size is given.
fn sizes(random: &mut Random, cases: &mut Cases) {
    for time in 0..20 {
        let types: &[u8] = [&[SA][..], &[HASH, SA, NONCE]][time / 2 % 2];
        let message = message_of(random, PHASES[time % 2], 0, types, SMALL).encode();
        let book = random_book(random).encode();
        let input = [book.as_slice(), &message].concat();
        for size in [0, 1, book.len() - 1, book.len() + 1, input.len() - 1, input.len()] {
            cases.told(input.clone(), Some(size), lines(&[&refused(8_193)]));
        }
        cases.told(input.clone(), Some(book.len()), None);
        cases.told(book.clone(), Some(book.len()), lines(&[&refused(30)]));
    }
}

/// Cut anywhere, from nothing to all but one byte: the book is refused until it is whole, then the message is.
fn fronts(random: &mut Random, cases: &mut Cases) {
    let book = book_of(random, 2, 2).encode();
    let input = [book.clone(), message_of(random, QUICK_MODE, 0, &[SA], SMALL).encode()].concat();
    for size in 0..input.len() {
        let number = if size < book.len() { 8_193 } else { 30 };
        cases.told(input[..size].to_vec(), None, lines(&[&refused(number)]));
    }
}

fn no_sa_payload(random: &mut Random, cases: &mut Cases) {
    for (exchange, types) in EXCHANGES
        .into_iter()
        .flat_map(|exchange| [&[HASH][..], &[NONCE, VENDOR], &[HASH, NOTICE]].map(|types| (exchange, types)))
    {
        for flag in [0, 1, 0, 1] {
            let message = message_of(random, exchange, flag, types, SMALL).encode();
            add_both(cases, &random_book(random).encode(), &message, lines(&[&refused(16)]));
        }
    }
}

fn bytes_changed(random: &mut Random, cases: &mut Cases) {
    for time in 0..240 {
        let message = message_of(random, PHASES[time % 2], 0, &[SA], SMALL).encode();
        let book = random_book(random).encode();
        let mut input = [book.as_slice(), &message].concat();
        for _ in 0..random.between(1, 2) {
            let at = random.below(input.len());
            input[at] = random.one_of(&[input[at] ^ 1, input[at].wrapping_add(1), input[at] ^ 128, 0]);
        }
        cases.told(input, (time % 3 == 0).then_some(book.len()), None);
    }
}

/// A readable offer in a message of exactly so many bytes.
fn message_of_size(random: &mut Random, exchange: u8, size: usize) -> Vec<u8> {
    let mut message = message_of(random, exchange, 0, &[SA, VENDOR], SMALL);
    message.payloads[1] = opaque(VENDOR, Vec::new());
    let more = size - message.encode().len();
    message.payloads[1] = opaque(VENDOR, random.bytes(more));
    message.encode()
}

/// The longest message behind the longest book ends one byte before those that count; whatever follows makes it too long.
fn around_those_that_count(random: &mut Random, cases: &mut Cases) {
    const COUNTED: usize = 8_275;
    let longest = book_of(random, MOST_LINES, MOST_LINES);
    for (exchange, no_lines) in [(MAIN_MODE, "no main lines"), (QUICK_MODE, "no quick lines")] {
        for (book, known) in [(longest.encode(), None), (Book::default().encode(), lines(&["why", no_lines]))] {
            for size in [LONGEST - 82, LONGEST - 1, LONGEST] {
                let message = message_of_size(random, exchange, size);
                add_both(cases, &book, &message, known.clone());
                let whole = [book.clone(), message].concat();
                for all in
                    [COUNTED - 1, COUNTED, COUNTED + 1, 9_000, 65_537].into_iter().filter(|&all| all > whole.len())
                {
                    let mut more = whole.clone();
                    more.resize(all, 0);
                    cases.told(more.clone(), None, lines(&[&refused(30)]));
                    cases.told(more, Some(book.len()), lines(&[&refused(30)]));
                }
            }
        }
    }
    for size in [COUNTED - 1, COUNTED, COUNTED + 1, 100_000] {
        cases.told(vec![9; size], None, lines(&[&refused(8_193)]));
        cases.told(vec![0; size], None, lines(&[&refused(30)]));
    }
}

/// A program must go on reading until the end of input or until it has all that counts.
fn in_pieces(random: &mut Random, cases: &mut Cases) {
    for time in 0..12 {
        let book = book_of(random, MOST_LINES, MOST_LINES).encode();
        for (size, piece) in [(600, 1), (600, 7), (600, 82), (600, 83), (LONGEST, 1_000), (LONGEST, 8_273)] {
            let input = [book.clone(), message_of_size(random, PHASES[time % 2], size)].concat();
            cases.told_in_pieces(input, piece, (time % 2 == 0).then_some(book.len()), None);
        }
    }
}
