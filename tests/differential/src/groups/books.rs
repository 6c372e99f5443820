//! Policy books: every count, every limit of a line's fields, cut short and with bytes left over.

use super::{Group, PLAIN};
use crate::cases::Cases;
use crate::policy::{book_of, random_book, random_line, Book, Line, AH_WITH_ESP, ESP_ALONE, MAIN, MOST_LINES};
use crate::random::Random;

pub const GROUP: Group = Group {
    name: "books",
    answers: &[&["book", "refused 8193", "bad line"]],
    at_least: 20,
    kinds: &[
        ("every two counts", every_two_counts),
        ("count at either place", counts_at_either_place),
        ("seconds of a main line", |random, cases| seconds(random, cases, MAIN)),
        ("seconds of a quick line", |random, cases| {
            seconds(random, cases, ESP_ALONE);
            seconds(random, cases, AH_WITH_ESP);
        }),
        ("protocols and mode", protocols_and_modes),
        ("cut short", cut_short),
        ("bytes left over", bytes_left_over),
        ("byte changed", bytes_changed),
        ("small book", small_books),
        ("words of the line", words),
    ],
    ..PLAIN
};

fn add(cases: &mut Cases, book: &Book) {
    cases.book(&book.encode(), Some(Some((book.main.len(), book.quick.len()))));
}

fn every_two_counts(random: &mut Random, cases: &mut Cases) {
    for main in 0..=MOST_LINES {
        for quick in 0..=MOST_LINES {
            for _ in 0..10 {
                add(cases, &book_of(random, main, quick));
            }
        }
    }
}

/// Every value of each count, with as many lines as it says where they can be made.
fn counts_at_either_place(random: &mut Random, cases: &mut Cases) {
    for count in 0..=255 {
        for other in [0, 1, MOST_LINES] {
            let lawful = |counts| Some((count <= MOST_LINES).then_some(counts));
            cases.book(&book_of(random, count, other).encode(), lawful((count, other)));
            cases.book(&book_of(random, other, count).encode(), lawful((other, count)));
            // The count alone is changed: then too few bytes or some left over.
            let mut book = book_of(random, other, other).encode();
            book[0] = count as u8;
            let known = count == other || count > MOST_LINES;
            cases.book(&book, known.then_some((count == other).then_some((other, other))));
        }
    }
}

/// The limits of each line of a book, and the same in the wrong order of bytes.
fn seconds(random: &mut Random, cases: &mut Cases, protocols: &'static [u8]) {
    let most = random_line(random, protocols).most_seconds();
    let powers = (0..32).flat_map(|bit| [1 << bit, (1 << bit) + 1, (1_u32 << bit) - 1]);
    let limits = [most - 1, most, most + 1, most + 256, most + 65_536, most.swap_bytes(), u32::MAX];
    for seconds in powers.chain(limits) {
        for count in [1, 2, MOST_LINES] {
            for place in [0, count - 1] {
                let mut book = random_book(random);
                let lines: Vec<Line> = (0..count).map(|_| random_line(random, protocols)).collect();
                let changed = if protocols == MAIN { &mut book.main } else { &mut book.quick };
                *changed = lines;
                changed[place].seconds = seconds;
                let lawful = (1..=most).contains(&seconds);
                cases.book(&book.encode(), Some(lawful.then_some((book.main.len(), book.quick.len()))));
            }
        }
    }
}

fn protocols_and_modes(random: &mut Random, cases: &mut Cases) {
    for value in 0..=255 {
        for count in [1, 2, MOST_LINES] {
            for field in [0, 1] {
                let book = book_of(random, usize::from(value) % (MOST_LINES + 1), count);
                let mut bytes = book.encode();
                let line = random.below(count);
                bytes[2 + 4 * book.main.len() + 6 * line + field] = value;
                let lawful = if field == 0 { 1..=2 } else { 1..=4 };
                cases.book(&bytes, Some(lawful.contains(&value).then_some((book.main.len(), count))));
            }
        }
    }
}

/// Every part of a book from its front is too short.
fn cut_short(random: &mut Random, cases: &mut Cases) {
    for _ in 0..60 {
        let book = random_book(random).encode();
        for size in 0..book.len() {
            cases.book(&book[..size], Some(None));
        }
    }
}

fn bytes_left_over(random: &mut Random, cases: &mut Cases) {
    for _ in 0..200 {
        let book = random_book(random).encode();
        let line = random_line(random, ESP_ALONE);
        let another = Book { main: Vec::new(), quick: vec![line] }.encode();
        for more in [&[0], [0; 4].as_slice(), &another[2..], &random.bytes(1), &random.bytes(80), &book] {
            cases.book(&[&book, more].concat(), Some(None));
        }
    }
}

fn bytes_changed(random: &mut Random, cases: &mut Cases) {
    for _ in 0..60 {
        let book = random_book(random).encode();
        for at in 0..book.len() {
            for changed in [book[at] ^ 1, book[at].wrapping_add(1), book[at] ^ 128, random.byte()] {
                let mut damaged = book.clone();
                damaged[at] = changed;
                cases.book(&damaged, None);
            }
        }
    }
}

/// All strings to 2 bytes, and longer ones over few values.
fn small_books(_: &mut Random, cases: &mut Cases) {
    cases.book(&[], Some(None));
    for first in 0..=255 {
        cases.book(&[first], Some(None));
        for second in [0, 1, 8, 9, 255] {
            cases.book(&[first, second], Some((first == 0 && second == 0).then_some((0, 0))));
        }
    }
    for length in 3..=7 {
        for string in crate::cases::strings(&[0, 1, 2], length) {
            cases.book(&string, None);
        }
    }
}

fn words(_: &mut Random, cases: &mut Cases) {
    let good = [
        ("book 0000", "book 0 0"),
        ("book 0100000e1000", "book 1 0"),
        ("book 0100000E1000", "book 1 0"),
        ("book 01000151800101040000", "refused 8193"),
        ("book 010001518001010400000e10", "book 1 1"),
        ("book 010001518101010400000e10", "refused 8193"),
        ("book 010001518001010400000e11", "refused 8193"),
        ("book -", "refused 8193"),
    ];
    good.iter().for_each(|(line, answer)| cases.words(line, answer));
    let bad = [
        "book",
        "book ",
        "book 000",
        "book 00 00",
        "book 0000 ",
        "book  0000",
        " book 0000",
        "Book 0000",
        "BOOK 0000",
        "books 0000",
        "book0000",
        "book\t0000",
        "book 0000\r",
        "book 0g",
        "book --",
        "book - -",
        "book 0000 -",
        "book 0x0000",
        "book 0000\0",
        "book +0",
        "boo 0000",
        "book 0000 0000",
        "book 0 0",
        "book 1 0",
    ];
    bad.iter().for_each(|line| cases.words(line, "bad line"));
}
