//! The capture programs: files of every kind of record, each field of the headers, files that end anywhere, and borders
//! of records around the multiples of 65,536 bytes.

use super::{choices, Group, PLAIN, READ_REFUSALS, RISES};
use crate::capture::{
    Capture, FileHeader, Lengths, Order, FILE_HEADER_SIZE, LONGEST_RECORD, ORDERS, RECORD_HEADER_SIZE, RIGHT,
};
use crate::cases::{refused, Case, Cases};
use crate::checks::CHECKS;
use crate::frame::{
    enciphered, packet_says, random_keys, random_sound, udp, with_message, with_packet, Frame, AH, CUT_SHORT, ESP, UDP,
};
use crate::message::{message_of, random_message, EXCHANGES, HEADER_SIZE, NONCE, SA, VENDOR};
use crate::offer::SMALL;
use crate::policy::{random_book, Book};
use crate::random::Random;
use crate::sequence::{ah, random_key, rising_lives, Key, Lives, MOST_ENTRIES};

pub const GROUP: Group = Group {
    name: "captures",
    answers: &[
        READ_REFUSALS,
        &["cut short", "not IPv4", "fragment", "other protocol", "other ports >", "keepalive"],
        &["enciphered exchange id", "exchange payloads", "chosen set line transforms", "refused 14"],
        &["AH number accepted", "AH number refused 11", "AH number refused 16", "AH refused 16"],
        &["AH number refused 8194", "AH number refused 8197", "AH number refused 8199"],
        &["ESP number accepted", "ESP number refused 11", "ESP refused 16"],
        &["ESP number refused 8194", "ESP number refused 8197", "ESP number refused 8199"],
        &["refused 8193", "refused 8201"],
    ],
    at_least: 50,
    listings: true,
    occasions: &[
        ("captures", 3_000, |_, answers| !answers.is_empty()),
        ("8201 of the file header", 50, |case, answers| case.kind == FILE_HEADER && answers == ["refused 8201"]),
        ("8201 behind other lines", 50, |_, answers| answers.iter().any(|said| said.ends_with(" / refused 8201"))),
        ("8193 and nothing else", 50, |_, answers| answers == ["refused 8193"]),
        ("record header cut short", 50, |_, answers| last_line(answers).is_some_and(|line| line.len() == 5)),
        ("record cut short by the file's end", 50, |case, answers| {
            let is_cut = last_line(answers).is_some_and(|line| line.len() == 6 && line[4..] == ["cut", "short"]);
            is_cut && ENDS.contains(&case.kind)
        }),
        ("a line other than a book's first chosen", 10, |_, answers| {
            answers.iter().any(|said| said.contains("  chosen set ") && !said.contains(" line 1 "))
        }),
        ("nothing of an offer suits the book", 50, |_, answers| {
            answers.iter().any(|said| said.contains(" /   refused 14"))
        }),
        ("files over 65,536 bytes", 500, |case, _| case.input.len() > 65_536),
        ("files over 262,144 bytes", 50, |case, _| case.input.len() > 262_144),
    ],
    shared_occasions: RISES,
    kinds: &[
        ("sound records", sound_records),
        (FILE_HEADER, file_headers),
        ("fields that are not looked at", fields_not_looked_at),
        (EVERY_FRONT, fronts),
        ("captured length", captured_lengths),
        (FILE_ENDS, ends_at_borders),
        ("records go on at a multiple of 65,536 bytes", borders_inside),
        ("records near the longest", long_records),
        ("long file", long_files),
        ("full table", full_tables),
        ("check of a reading broken", broken_messages),
        ("offer and book", offers),
        ("any message and any book", any_messages),
        ("unlawful book", unlawful_books),
        ("file that comes in pieces", in_pieces),
        ("bytes changed", bytes_changed),
        ("rise at its limits", rises_at_their_limits),
    ],
    ..PLAIN
};

const FILE_HEADER: &str = "file header";
const EVERY_FRONT: &str = "every front of a file";
const FILE_ENDS: &str = "file ends at a multiple of 65,536 bytes";
/// The kinds of files that end early.
const ENDS: [&str; 2] = [EVERY_FRONT, FILE_ENDS];

const BUFFER: usize = 65_536;
/// How far from a multiple of that a border is laid.
const AROUND: usize = 20;
/// All at once.
const WHOLE: usize = usize::MAX;

/// The words of a listing's last line.
fn last_line(answers: &[String]) -> Option<Vec<&str>> {
    Some(answers.first()?.rsplit(" / ").next()?.split(' ').collect())
}

fn add(cases: &mut Cases, capture: &Capture) {
    cases.capture(capture.bytes.clone(), WHOLE, None, Some(capture.lines()));
}

fn sound(random: &mut Random, capture: &mut Capture, lives: &mut Lives, keys: &[Key]) -> bool {
    let sound = random_sound(random, lives, keys);
    capture.record(random, sound.original, &sound.bytes, &[sound.what]);
    sound.offer.is_some()
}

/// A well formed packet under that key.
fn packet(random: &mut Random, capture: &mut Capture, lives: &mut Lives, key: Key, number: u32) {
    let frame = with_packet(random, key, number);
    capture.frame(random, &frame, frame.says(&packet_says(lives, key, number)));
}

/// With a book, lines about offers come behind those that the maker knows.
fn sound_records(random: &mut Random, cases: &mut Cases) {
    for time in 0..260 {
        let mut capture = Capture::new(random, ORDERS[time % 2]);
        let (mut lives, count) = (Lives::default(), random.one_of(&[1, 6, 70]));
        let keys = random_keys(random, count);
        let mut has_offers = false;
        for _ in 0..random.between(0, 50) {
            has_offers |= sound(random, &mut capture, &mut lives, &keys);
        }
        let book = (time % 3 == 0).then(|| random_book(random).encode());
        let is_known = book.is_none() || !has_offers;
        cases.capture(capture.bytes.clone(), WHOLE, book.as_deref(), is_known.then(|| capture.lines()));
    }
}

/// With records behind it, which do not count, and a lawful book, an unlawful one or none.
fn file_headers(random: &mut Random, cases: &mut Cases) {
    let magics = [0xa1b2_3c4d, 0x0a0d_0d0a, 0xa1b2_cd34, 0xa1b2_c3d5, 0xb2a1_d4c3, 0xc3d4_a1b2, 0, u32::MAX];
    let links = [0, 2, 101, 113, 276, 0x1000_0001, 0x0100_0000, 0x0001_0001, u32::MAX];
    let mut headers = Vec::new();
    headers.extend(magics.map(|magic| FileHeader { magic, ..RIGHT }));
    headers.extend((0..32).map(|bit| FileHeader { magic: RIGHT.magic ^ 1 << bit, ..RIGHT }));
    headers.extend([0, 1, 3, 4, 0x0200, 0x0202, 65_535].map(|major| FileHeader { major, ..RIGHT }));
    headers.extend([0, 2, 3, 5, 0x0400, 0x0404, 65_535].map(|minor| FileHeader { minor, ..RIGHT }));
    headers.push(FileHeader { major: 4, minor: 2, ..RIGHT });
    headers.extend(links.map(|link| FileHeader { link, ..RIGHT }));
    headers.extend((0..32).map(|bit| FileHeader { link: 1 ^ 1 << bit, ..RIGHT }));
    for (time, header) in headers.iter().enumerate() {
        for order in ORDERS {
            let mut capture = Capture::new(random, order);
            let header = header.encode(random, order);
            capture.bytes.splice(..FILE_HEADER_SIZE, header);
            capture.filling(random, 40);
            let book = [None, Some(random_book(random).encode()), Some(vec![9])][time % 3].clone();
            cases.capture(capture.bytes, WHOLE, book.as_deref(), Some(vec![refused(8_201)]));
        }
    }
    // The magic in one order and the rest in the other.
    for order in ORDERS {
        let [one, other] = if order == Order::Big { ORDERS } else { [Order::Little, Order::Big] };
        let mixed = [&RIGHT.encode(random, one)[..4], &RIGHT.encode(random, other)[4..]].concat();
        cases.capture(mixed, WHOLE, None, Some(vec![refused(8_201)]));
        for size in 0..FILE_HEADER_SIZE {
            let front = RIGHT.encode(random, order)[..size].to_vec();
            let book = (size % 2 == 0).then_some([9].as_slice());
            cases.capture(front, WHOLE, book, Some(vec![refused(8_201)]));
        }
    }
}

fn fields_not_looked_at(random: &mut Random, cases: &mut Cases) {
    for order in ORDERS {
        for value in [0, 1, 65_535, 65_536, u32::MAX] {
            for field in 0..3 {
                let mut capture = Capture::new(random, order);
                let at = 8 + 4 * field;
                capture.bytes[at..at + 4].copy_from_slice(&order.number(value));
                capture.filling(random, 100);
                add(cases, &capture);
            }
        }
    }
}

/// A small file that ends at every byte, in either order.
fn fronts(random: &mut Random, cases: &mut Cases) {
    for order in ORDERS {
        let mut capture = Capture::new(random, order);
        let mut lives = Lives::default();
        let key = random_key(random);
        let message = message_of(random, EXCHANGES[0], 0, &[SA], SMALL);
        let frame = Frame { options: Vec::new(), ..with_packet(random, key, 1) };
        capture.frame(random, &frame, frame.says(&packet_says(&mut lives, key, 1)));
        capture.filling(random, 0);
        let frame = Frame::plain(UDP, udp(500, 500, None, &message.encode()[..HEADER_SIZE]));
        capture.frame(random, &frame, frame.says(&refused(30)));
        capture.filling(random, 14);
        capture.filling(random, 40);
        packet(random, &mut capture, &mut lives, key, 2);
        for size in 0..=capture.bytes.len() {
            let book = (size % 4 == 0).then(|| random_book(random).encode());
            let lines = capture.lines_of_front(size);
            cases.capture(capture.bytes[..size].to_vec(), WHOLE, book.as_deref(), Some(lines));
        }
    }
}

/// Over 65,535 nothing of the record counts, whether its bytes are there or not.
fn captured_lengths(random: &mut Random, cases: &mut Cases) {
    for time in 0..64 {
        let mut capture = Capture::new(random, ORDERS[time % 2]);
        for _ in 0..random.between(if time < 8 { 0 } else { 1 }, 4) {
            let size = random.below(100);
            capture.filling(random, size);
        }
        let mut lines = capture.lines();
        let captured = [65_536, 65_537, 65_551, 65_552, 131_072, 0x00ff_0000, 1 << 31, u32::MAX][time % 8];
        let original = random.one_of(&[0, 1, captured, u32::MAX]);
        let start = capture.bytes.len();
        capture.header(random, Lengths { captured, original });
        // A header that is not whole is cut short all the same.
        for size in [start + 12, start + 15] {
            let cut = format!("{} at {start} {CUT_SHORT}", capture.count() + 1);
            let lines = [lines.clone(), vec![cut]].concat();
            cases.capture(capture.bytes[..size].to_vec(), WHOLE, None, Some(lines));
        }
        let behind = [0, 1, 40, 65_535, 65_536, 70_000][time % 6];
        capture.bytes.resize(start + RECORD_HEADER_SIZE + behind, 0);
        lines.push(refused(8_201));
        cases.capture(capture.bytes, WHOLE, None, Some(lines));
    }
}

/// A border at every place around a multiple, and the file's end at every place behind the border.
fn ends_at_borders(random: &mut Random, cases: &mut Cases) {
    let mut time = 0;
    for border in 0..=2 * AROUND {
        for end in border..=2 * AROUND {
            time += 1;
            let multiple = BUFFER * (1 + time % 2) - AROUND;
            let mut capture = Capture::new(random, ORDERS[time / 2 % 2]);
            capture.fill_to(random, multiple + border);
            let left = end - border;
            match left.checked_sub(RECORD_HEADER_SIZE) {
                Some(size) if time % 3 > 0 => capture.filling(random, size),
                _ => capture.filling(random, 60),
            }
            let lines = capture.lines_of_front(multiple + end);
            capture.bytes.truncate(multiple + end);
            cases.capture(capture.bytes, WHOLE, None, Some(lines));
        }
    }
}

fn borders_inside(random: &mut Random, cases: &mut Cases) {
    for multiple in 1..=3 {
        for border in 0..=2 * AROUND {
            for size in [random.below(14), random.between(14, 200)] {
                let mut capture = Capture::new(random, ORDERS[border % 2]);
                capture.fill_to(random, BUFFER * multiple - AROUND + border);
                let (mut lives, keys) = (Lives::default(), random_keys(random, 3));
                capture.filling(random, size);
                for _ in 0..6 {
                    sound(random, &mut capture, &mut lives, &keys);
                }
                add(cases, &capture);
            }
        }
    }
}

/// Records that nearly fill or just fill a buffer, one after the other, from any place.
fn long_records(random: &mut Random, cases: &mut Cases) {
    for time in 0..100 {
        let mut capture = Capture::new(random, ORDERS[time % 2]);
        let first = time % 41;
        capture.filling(random, first);
        for _ in 0..random.between(1, 4) {
            let size = LONGEST_RECORD - random.one_of(&[0, 0, 0, 1, 2, 15, 16, 17, 23, 24, 25, 39, 40, 41]);
            capture.filling(random, size);
            if random.once_in(3) {
                let size = random.below(60);
                capture.filling(random, size);
            }
        }
        if time % 4 == 3 {
            let size = capture.bytes.len() - random.between(1, 200);
            let lines = capture.lines_of_front(size);
            cases.capture(capture.bytes[..size].to_vec(), WHOLE, None, Some(lines));
        } else {
            add(cases, &capture);
        }
    }
}

/// Several buffers of small records, or of records of any size.
fn long_files(random: &mut Random, cases: &mut Cases) {
    for time in 0..60 {
        let mut capture = Capture::new(random, ORDERS[time % 2]);
        let (mut lives, keys) = (Lives::default(), random_keys(random, 20));
        let size = BUFFER * random.between(4, 8) + random.below(BUFFER);
        while capture.bytes.len() < size {
            if time % 2 == 0 || random.once_in(8) {
                sound(random, &mut capture, &mut lives, &keys);
            } else {
                let size = [random.below(200), random.below(2_000), random.below(LONGEST_RECORD)][random.below(3)];
                capture.filling(random, size);
            }
        }
        add(cases, &capture);
    }
}

/// 64 keys and more, keys that no entry can have, and packets that are malformed.
fn full_tables(random: &mut Random, cases: &mut Cases) {
    for time in 0..40 {
        let mut capture = Capture::new(random, ORDERS[time % 2]);
        let mut lives = Lives::default();
        let keys = random_keys(random, MOST_ENTRIES + time % 6);
        for round in 0..2 {
            for (place, &key) in keys.iter().enumerate() {
                packet(random, &mut capture, &mut lives, key, (place % 5 + round) as u32);
            }
            for key in [Key { spi: 255, ..random_key(random) }, Key { spi: 1, ..random_key(random) }] {
                packet(random, &mut capture, &mut lives, key, 1);
            }
        }
        for size in [0, 7, 8, 11] {
            let frame = Frame::random(random, AH, vec![1; size]);
            capture.frame(random, &frame, frame.says("AH refused 16"));
            let frame = Frame::random(random, ESP, vec![1; size % 8]);
            capture.frame(random, &frame, frame.says("ESP refused 16"));
            let frame = Frame::random(random, AH, ah(2, 0, 0xabcd, 9));
            capture.frame(random, &frame, frame.says("AH 0000abcd number 9 refused 16"));
        }
        add(cases, &capture);
    }
}

/// A few of each check in a file of its own.
fn broken_messages(random: &mut Random, cases: &mut Cases) {
    for check in CHECKS {
        cases.detail = check.name.to_string();
        let mut capture = Capture::random(random);
        for time in 0..120 {
            let exchange = EXCHANGES[time % 3];
            let types: &[u8] = if exchange == EXCHANGES[1] { &[VENDOR] } else { &[SA, NONCE] };
            let mut message = message_of(random, exchange, 0, types, SMALL);
            let is_broken = (check.breaks)(random, &mut message);
            let bytes = message.encode();
            // The longest messages would be most of all bytes.
            if is_broken && (bytes.len() < 4_000 || time < 9) {
                let frame = with_message(random, &bytes);
                capture.frame(random, &frame, frame.says(&refused(check.number)));
            }
        }
        let book = random.once_in(2).then(|| random_book(random).encode());
        cases.capture(capture.bytes.clone(), WHOLE, book.as_deref(), Some(capture.lines()));
    }
    cases.detail.clear();
}

/// What is listed of a message that is known to read with flag 0.
fn reading(message: &[u8]) -> String {
    let mut places = Vec::new();
    let (mut kind, mut start) = (message[16], HEADER_SIZE);
    while kind != 0 {
        let length = usize::from(u16::from_be_bytes([message[start + 2], message[start + 3]]));
        places.push(format!("{kind}@{start}+{length}"));
        (kind, start) = (message[start], start + length);
    }
    format!("exchange {} payloads {} {}", message[18], places.len(), places.join(" "))
}

/// What is listed of a message of the choices with their book, where that is known.
fn known(choice: &Case, message: &[u8]) -> Option<Vec<String>> {
    let answer = choice.answers[0].as_ref()?;
    if answer == "refused 8193" {
        return None;
    }
    if message.len() >= HEADER_SIZE && message[19] == 1 {
        return Some(vec![enciphered(message)]);
    }
    if let Some(numbers) = answer.strip_prefix("chosen ") {
        let (set, rest) = numbers.split_once(' ')?;
        let (line, transforms) = rest.split_once(' ')?;
        return Some(vec![reading(message), format!("  chosen set {set} line {line} transforms {transforms}")]);
    }
    match answer.as_str() {
        "refused 14" => Some(vec![reading(message), format!("  {answer}")]),
        "refused 16" => None,
        _ => Some(vec![answer.clone()]),
    }
}

/// Some of each kind of the choices: the message with its own book, carried in several ways.
fn offers(random: &mut Random, cases: &mut Cases) {
    const OF_EACH_KIND: usize = 13;
    const OF_LATER_LINES: usize = 60;
    for (kind, _) in choices::GROUP.kinds.iter().filter(|(kind, _)| *kind != choices::WORDS) {
        let made = choices::GROUP.of_kind(random, kind);
        let most = if *kind == choices::PLANTED { OF_LATER_LINES } else { OF_EACH_KIND };
        for choice in made.iter().step_by(made.len().div_ceil(most)) {
            cases.detail = choice.title();
            let [book, message] = choices::pair(choice);
            let known = known(choice, &message);
            let mut capture = Capture::random(random);
            for _ in 0..3 {
                let frame = with_message(random, &message);
                let mut lines = known.clone().unwrap_or(vec![String::new()]);
                lines[0] = frame.says(&lines[0]);
                let bytes = frame.encode();
                capture.record(random, bytes.len() as u32, &bytes, &lines);
                let size = random.below(60);
                capture.filling(random, size);
            }
            let lines = match choice.answers[0].as_deref() {
                Some("refused 8193") => Some(vec![refused(8_193)]),
                _ => known.map(|_| capture.lines()),
            };
            cases.capture(capture.bytes, WHOLE, Some(&book), lines);
        }
    }
    cases.detail.clear();
}

fn any_messages(random: &mut Random, cases: &mut Cases) {
    for _ in 0..60 {
        let mut capture = Capture::random(random);
        for time in 0..30 {
            let count = random.between(1, 4);
            let message = random_message(random, EXCHANGES[time % 3], count, SMALL);
            let frame = with_message(random, &message.encode());
            capture.frame(random, &frame, String::new());
        }
        let book = random_book(random).encode();
        cases.capture(capture.bytes, WHOLE, Some(&book), None);
    }
}

/// Bytes left over make a book unlawful as well.
fn unlawful_books(random: &mut Random, cases: &mut Cases) {
    for time in 0..80 {
        let mut capture = Capture::new(random, ORDERS[time % 2]);
        for _ in 0..random.below(4) {
            let size = random.below(100);
            capture.filling(random, size);
        }
        let mut book = random_book(random).encode();
        match time % 5 {
            0 => book = Vec::new(),
            1 => book.push(0),
            2 => book = Book::default().encode()[..1].to_vec(),
            3 => book[0] = random.between(9, 255) as u8,
            _ => book.resize([83, 65_535, 65_536, 65_537, 200_000][time / 5 % 5].max(book.len() + 1), 0),
        }
        cases.capture(capture.bytes, WHOLE, Some(&book), Some(vec![refused(8_193)]));
    }
}

/// A program must go on reading until the end of the file.
fn in_pieces(random: &mut Random, cases: &mut Cases) {
    for time in 0..12 {
        let mut capture = Capture::new(random, ORDERS[time % 2]);
        let (mut lives, keys) = (Lives::default(), random_keys(random, 5));
        for _ in 0..6 {
            sound(random, &mut capture, &mut lives, &keys);
        }
        for piece in [1, 7, 15, 16, 17, 23, 24, 25, 40, 100] {
            if piece > 1 || time < 2 {
                cases.capture(capture.bytes.clone(), piece, None, Some(capture.lines()));
            }
        }
        let end = BUFFER * 3 + random.below(100);
        capture.fill_to(random, end);
        for piece in [4_096, 5_000, 65_535, 65_536, 65_537] {
            cases.capture(capture.bytes.clone(), piece, None, Some(capture.lines()));
        }
    }
}

fn bytes_changed(random: &mut Random, cases: &mut Cases) {
    for time in 0..160 {
        let mut capture = Capture::new(random, ORDERS[time % 2]);
        let (mut lives, keys) = (Lives::default(), random_keys(random, 5));
        for _ in 0..random.between(2, 12) {
            sound(random, &mut capture, &mut lives, &keys);
        }
        let mut bytes = capture.bytes;
        for _ in 0..random.between(1, 6) {
            let at = random.between(FILE_HEADER_SIZE, bytes.len() - 1);
            bytes[at] = random.one_of(&[bytes[at] ^ 1, bytes[at].wrapping_add(1), bytes[at] ^ 0x80, 0]);
        }
        let book = random.once_in(2).then(|| random_book(random).encode());
        cases.capture(bytes, WHOLE, book.as_deref(), None);
    }
}

/// Some lives in each file, each under its own key, their packets by turns. A capture has no packet whose integrity is no.
fn rises_at_their_limits(random: &mut Random, cases: &mut Cases) {
    const FILES: usize = 50;
    let all = rising_lives();
    let turns = all.iter().map(Vec::len).max().unwrap_or(0);
    for file in 0..FILES {
        let mut capture = Capture::new(random, ORDERS[file % 2]);
        let mut lives = Lives::default();
        let of_file: Vec<_> = all.iter().skip(file).step_by(FILES).collect();
        let keys = random_keys(random, of_file.len());
        for turn in 0..turns {
            for (life, &key) in of_file.iter().zip(&keys) {
                if let Some(&(number, true)) = life.get(turn) {
                    packet(random, &mut capture, &mut lives, key, number);
                }
            }
        }
        add(cases, &capture);
    }
}
