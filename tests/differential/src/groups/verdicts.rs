//! The verdict programs: a book and a message behind it, each kind of either, and inputs around the bytes that count.

use super::{choices, Group, PLAIN, READ_REFUSALS};
use crate::cases::{refused, Case, Cases};
use crate::checks::CHECKS;
use crate::message::{
    message_of, opaque, random_message, Message, EXCHANGES, HASH, LONGEST, MOST_PAYLOADS, NONCE, NOTICE, SA, VENDOR,
};
use crate::offer::{LARGE, SMALL};
use crate::policy::{book_of, random_book, Book, MOST_LINES};
use crate::random::Random;

pub const GROUP: Group = Group {
    name: "verdicts",
    // The last line of what is printed: a choice, a payload where there is no SA payload, or a refusal.
    answers: &[READ_REFUSALS, &["chosen set line transforms", "payload at length", "refused 14", "refused 8193"]],
    at_least: 10,
    occasions: &[
        ("inputs", 4_000, |_, answers| !answers.is_empty()),
        ("nothing suits, said behind the payloads", 100, |_, answers| {
            answers.iter().any(|printed| printed.ends_with(" / refused 14"))
        }),
        ("chosen by two transforms", 100, |_, answers| {
            let transforms = answers.iter().filter_map(|printed| printed.rsplit_once(" transforms "));
            transforms.clone().any(|(_, transforms)| transforms.contains(' '))
        }),
        ("read from more than 8,000 bytes", 10, |case, answers| {
            case.input.len() > 8_000 && answers.iter().any(|printed| printed.starts_with("exchange "))
        }),
    ],
    kinds: &[
        ("example of document 01", examples),
        ("pair of the choices", pairs),
        ("check of a reading broken", checks_broken),
        ("any message and any book", any_message),
        ("no SA payload", no_sa_payload),
        ("damaged book", damaged_books),
        ("byte changed", bytes_changed),
        ("every front of an input", fronts),
        ("bytes around those that count", around_those_that_count),
        ("input that comes in pieces", in_pieces),
    ],
    ..PLAIN
};

/// "The first 8,275 bytes count."
const COUNTED: usize = 8_275;

fn add(cases: &mut Cases, book: &[u8], message: &[u8], lines: Option<Vec<String>>) {
    cases.verdict([book, message].concat(), lines);
}

/// What is said of a readable message before the choice.
fn reading_lines(message: &[u8]) -> Vec<String> {
    let mut payloads = Vec::new();
    let (mut kind, mut start) = (message[16], 28);
    while kind != 0 {
        let length = usize::from(u16::from_be_bytes([message[start + 2], message[start + 3]]));
        payloads.push(format!("payload {kind} at {start} length {length}"));
        (kind, start) = (message[start], start + length);
    }
    payloads.insert(0, format!("exchange {} payloads {}", message[18], payloads.len()));
    payloads
}

fn examples(_: &mut Random, cases: &mut Cases) {
    let book = [1, 0, 0, 0x0e, 0x10, 0];
    let sa = [0, 0, 0, 52, 0, 0, 0, 1, 0, 0, 0, 1, 0, 0, 0, 40, 1, 1, 0, 1, 0, 0, 0, 32, 1, 1, 0, 0];
    for (seconds, last) in [
        (0x0e10, "chosen set 1 line 1 transforms 1"),
        (0x0e11, "refused 14"),
        (1, "chosen set 1 line 1 transforms 1"),
        (0, "refused 14"),
    ] {
        let header = [&[1; 8][..], &[2; 8], &[1, 0x11, 2, 0], &[0; 4], &[0, 0, 0, 80]].concat();
        let attributes = [0x8001, 0x81, 0x8002, 0x14, 0x8003, 0x0a, 0x8014, 2, 0x800b, 1, 0x800c, seconds];
        let attributes: Vec<u8> = attributes.into_iter().flat_map(u16::to_be_bytes).collect();
        let lines = ["exchange 2 payloads 1", "payload 1 at 28 length 52", last].map(str::to_string);
        add(cases, &book, &[header, sa.to_vec(), attributes].concat(), Some(lines.to_vec()));
    }
}

/// Some of each kind of the choices.
fn pairs(random: &mut Random, cases: &mut Cases) {
    const OF_EACH_KIND: usize = 80;
    for (kind, _) in choices::GROUP.kinds.iter().filter(|(kind, _)| *kind != choices::WORDS) {
        let made = choices::GROUP.of_kind(random, kind);
        for choice in made.iter().step_by(made.len().div_ceil(OF_EACH_KIND)) {
            cases.detail = choice.title();
            let [book, message] = choices::pair(choice);
            add(cases, &book, &message, known(choice, &message));
        }
    }
}

/// What is printed where the choice is known. A refused book with a message behind it may be a lawful one that is shorter,
/// and without an SA payload no choice is printed.
fn known(choice: &Case, message: &[u8]) -> Option<Vec<String>> {
    let answer = choice.answers[0].as_ref()?;
    let with_reading = |last: String| [reading_lines(message), vec![last]].concat();
    if let Some(numbers) = answer.strip_prefix("chosen ") {
        let (set, rest) = numbers.split_once(' ')?;
        let (line, transforms) = rest.split_once(' ')?;
        return Some(with_reading(format!("chosen set {set} line {line} transforms {transforms}")));
    }
    match answer.as_str() {
        "refused 14" => Some(with_reading(answer.clone())),
        "refused 16" | "refused 8193" => None,
        _ => Some(vec![answer.clone()]),
    }
}

fn checks_broken(random: &mut Random, cases: &mut Cases) {
    for check in CHECKS {
        cases.detail = check.name.to_string();
        for time in 0..18 {
            let mut message = message_of(random, EXCHANGES[time % 3], time as u8 % 2, &[VENDOR], SMALL);
            if message.exchange != EXCHANGES[1] {
                message = message_of(random, message.exchange, message.flags, &[SA, NONCE], SMALL);
            }
            if (check.breaks)(random, &mut message) {
                let book = random_book(random).encode();
                add(cases, &book, &message.encode(), Some(vec![refused(check.number)]));
            }
        }
    }
}

fn any_message(random: &mut Random, cases: &mut Cases) {
    for time in 0..300 {
        let count = random.between(1, 5);
        let message = random_message(random, EXCHANGES[time % 3], count, if time % 20 == 0 { LARGE } else { SMALL });
        let bytes = message.encode();
        let lines = (message.offer_at().is_none() && bytes.len() <= LONGEST).then(|| reading_lines(&bytes));
        add(cases, &random_book(random).encode(), &bytes, lines);
    }
}

fn no_sa_payload(random: &mut Random, cases: &mut Cases) {
    for exchange in EXCHANGES {
        for types in [&[HASH][..], &[NONCE], &[VENDOR, VENDOR], &[HASH, NOTICE], &[VENDOR; MOST_PAYLOADS]] {
            for flag in [0, 1] {
                for _ in 0..4 {
                    let message = message_of(random, exchange, flag, types, SMALL).encode();
                    add(cases, &random_book(random).encode(), &message, Some(reading_lines(&message)));
                }
            }
        }
    }
}

fn damaged_books(random: &mut Random, cases: &mut Cases) {
    for time in 0..500 {
        let message = message_of(random, EXCHANGES[time % 3], 0, &[VENDOR], SMALL).encode();
        let (main, quick) = (random.below(MOST_LINES + 1), random.between(1, MOST_LINES));
        let mut book = book_of(random, main, quick).encode();
        let quick_at = 2 + 4 * main;
        let known = Some(vec![refused(8_193)]);
        let lines = match time % 5 {
            0 => {
                book[0] = random.between(9, 255) as u8;
                known
            }
            1 => {
                book[quick_at - 1] = random.between(9, 255) as u8;
                known
            }
            2 => {
                book[quick_at + 6 * random.below(quick)] = random.one_of(&[0, 3, 255]);
                known
            }
            3 => {
                book.remove(random.below(book.len()));
                None
            }
            _ => {
                let at = random.below(book.len());
                book[at] = random.one_of(&[book[at] ^ 1, book[at].wrapping_add(1), book[at] ^ 128, 0]);
                None
            }
        };
        add(cases, &book, &message, lines);
    }
}

fn bytes_changed(random: &mut Random, cases: &mut Cases) {
    for time in 0..600 {
        let exchange = [EXCHANGES[0], EXCHANGES[2]][time % 2];
        let types: &[u8] = [&[SA][..], &[HASH, SA, NONCE]][time / 2 % 2];
        let message = message_of(random, exchange, 0, types, SMALL).encode();
        let mut input = [random_book(random).encode(), message].concat();
        for _ in 0..random.between(1, 2) {
            let at = random.below(input.len());
            input[at] = random.one_of(&[input[at] ^ 1, input[at].wrapping_add(1), input[at] ^ 128, 0]);
        }
        cases.verdict(input, None);
    }
}

/// Cut anywhere, from nothing to all but one byte: the book is refused until it is whole, then the message is.
fn fronts(random: &mut Random, cases: &mut Cases) {
    for exchange in [EXCHANGES[0], EXCHANGES[2]] {
        let book = book_of(random, 2, 2).encode();
        let input = [book.clone(), message_of(random, exchange, 0, &[SA], SMALL).encode()].concat();
        for size in 0..input.len() {
            let number = if size < book.len() { 8_193 } else { 30 };
            cases.verdict(input[..size].to_vec(), Some(vec![refused(number)]));
        }
    }
}

/// A readable message of exactly so many bytes.
fn message_of_size(random: &mut Random, exchange: u8, size: usize) -> Message {
    let mut message = message_of(random, exchange, 0, &[VENDOR], SMALL);
    message.payloads[0] = opaque(VENDOR, Vec::new());
    let more = size - message.encode().len();
    message.payloads[0] = opaque(VENDOR, random.bytes(more));
    message
}

/// The longest message behind the longest book ends one byte before those that count; whatever follows belongs to the
/// message and makes it too long, as do bytes behind a shorter one.
fn around_those_that_count(random: &mut Random, cases: &mut Cases) {
    let longest = book_of(random, MOST_LINES, MOST_LINES);
    let books = [longest.clone(), Book { main: Vec::new(), ..longest.clone() }, Book::default()];
    for exchange in EXCHANGES {
        for book in books.iter().map(Book::encode) {
            for size in [LONGEST - 82, LONGEST - 1, LONGEST] {
                let message = message_of_size(random, exchange, size).encode();
                add(cases, &book, &message, Some(reading_lines(&message)));
                let whole = [book.clone(), message].concat();
                let sizes = [COUNTED - 1, COUNTED, COUNTED + 1, COUNTED + 2, 9_000, 16_384, 65_536, 65_537, 1_000_000];
                for all in sizes.into_iter().filter(|&all| all > whole.len()) {
                    let mut more = whole.clone();
                    more.resize(all, 0);
                    cases.verdict(more.clone(), Some(vec![refused(30)]));
                    // The header's own length made to agree with what counts: over 8,192 bytes all the same.
                    let counted = (all.min(COUNTED) - book.len()) as u32;
                    more[book.len() + 24..book.len() + 28].copy_from_slice(&counted.to_be_bytes());
                    let readable = counted as usize <= LONGEST;
                    cases.verdict(more, (!readable).then(|| vec![refused(30)]));
                }
            }
        }
    }
    for all in [COUNTED - 1, COUNTED, COUNTED + 1, 100_000] {
        cases.verdict(vec![9; all], Some(vec![refused(8_193)]));
        cases.verdict(vec![0; all], Some(vec![refused(30)]));
    }
}

/// A program must go on reading until the end of input or until it has all that counts.
fn in_pieces(random: &mut Random, cases: &mut Cases) {
    let book = book_of(random, MOST_LINES, MOST_LINES).encode();
    for time in 0..20 {
        let short = message_of(random, EXCHANGES[time % 3], 0, &[VENDOR, NONCE], SMALL).encode();
        for piece in [1, 7, 82, 83, 100] {
            if piece > 1 || time < 3 {
                cases.verdict_in_pieces([book.clone(), short.clone()].concat(), piece, Some(reading_lines(&short)));
            }
        }
        let long = message_of_size(random, EXCHANGES[time % 3], LONGEST).encode();
        let input = [book.clone(), long.clone()].concat();
        for piece in [1_000, 4_096, 8_273] {
            cases.verdict_in_pieces(input.clone(), piece, Some(reading_lines(&long)));
            let longer = [&input, [0].as_slice()].concat();
            cases.verdict_in_pieces(longer, piece, Some(vec![refused(30)]));
        }
    }
}

#[cfg(test)]
mod tests {
    use super::*;
    use crate::cases::LINE_END_SHOWN;

    #[test]
    fn lines_of_a_reading_are_those_of_the_message_made() {
        let mut random = Random::new(1, "verdicts");
        let message = message_of(&mut random, 5, 0, &[HASH, NOTICE], SMALL);
        let lines = reading_lines(&message.encode()).join(LINE_END_SHOWN);
        let length = message.encode().len() - 64;
        assert_eq!(
            lines,
            format!("exchange 5 payloads 2 / payload 8 at 28 length 36 / payload 11 at 64 length {length}")
        );
    }
}
