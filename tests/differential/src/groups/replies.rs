//! Replies to the pairs of book and message that the choices are made of, with own SPIs and rooms at their limits.

use super::{choices, Group, PLAIN, READ_REFUSALS};
use crate::cases::{refused, word, Case, Cases};
use crate::message::sa;
use crate::offer::{Offer, AH, ESP, ISAKMP};
use crate::random::Random;

pub const GROUP: Group = Group {
    name: "replies",
    answers: &[&["reply", "refused 11", "refused 14", "refused 16", "refused 8192", "refused 8193", "bad line"]],
    at_least: 50,
    also: &[READ_REFUSALS],
    occasions: &[
        ("pair of a book and a message", 100_000, |case, answers| case.kind == PAIRS && !answers.is_empty()),
        ("replies with AH before ESP", 500, |_, answers| protocols(answers) == [AH, ESP]),
        ("replies with ESP before AH", 500, |_, answers| protocols(answers) == [ESP, AH]),
        ("replies with ESP alone", 500, |_, answers| protocols(answers) == [ESP]),
        ("replies in main mode", 500, |_, answers| protocols(answers) == [ISAKMP]),
    ],
    kinds: &[
        (PAIRS, pairs),
        ("every SPI in every room", every_spi_in_every_room),
        ("which check comes first", first_checks),
        ("words of the line", words),
    ],
    ..PLAIN
};

const PAIRS: &str = "pair of the choices";
const LEAST_ROOM: usize = 2_048;
const LARGEST_ROOM: usize = 4_096;
const LOWEST_SPI: u32 = 256;

/// What a line asks beside book and message.
#[derive(Clone, Copy)]
struct Own {
    ah: u32,
    esp: u32,
    room: usize,
}

impl Own {
    fn spi(&self, protocol: u8) -> Option<u32> {
        match protocol {
            AH => Some(self.ah),
            ESP => Some(self.esp),
            _ => None,
        }
    }
}

/// The protocols of a reply, in its order; none if it is no reply.
fn protocols(answers: &[String]) -> Vec<u8> {
    const FIRST_PROPOSAL: usize = 12;
    let reply = answers.first().and_then(|answer| answer.strip_prefix("reply "));
    let byte = |at: usize| reply.and_then(|hex| u8::from_str_radix(hex.get(2 * at..2 * at + 2)?, 16).ok());
    let mut protocols = Vec::new();
    let mut at = FIRST_PROPOSAL;
    while let (Some(high), Some(low), Some(protocol)) = (byte(at + 2), byte(at + 3), byte(at + 5)) {
        protocols.push(protocol);
        at += usize::from(u16::from_be_bytes([high, low]));
    }
    protocols
}

fn random_own(random: &mut Random) -> Own {
    Own { ah: random_spi(random), esp: random_spi(random), room: random_room(random) }
}

fn random_spi(random: &mut Random) -> u32 {
    match random.below(16) {
        0 => 0,
        1 => LOWEST_SPI - 1,
        2..=4 => LOWEST_SPI,
        5..=7 => u32::MAX,
        _ => random.between(LOWEST_SPI as usize, u32::MAX as usize) as u32,
    }
}

fn random_room(random: &mut Random) -> usize {
    match random.below(16) {
        0 => 0,
        1 => LEAST_ROOM - 1,
        2 => random.below(LEAST_ROOM),
        3..=7 => LEAST_ROOM,
        8..=10 => LARGEST_ROOM,
        _ => random.between(LEAST_ROOM, LARGEST_ROOM),
    }
}

fn pairs(random: &mut Random, cases: &mut Cases) {
    for (kind, _) in choices::GROUP.kinds.iter().filter(|(kind, _)| *kind != choices::WORDS) {
        for choice in choices::GROUP.of_kind(random, kind) {
            cases.detail = choice.title();
            let own = random_own(random);
            add(cases, &choice, own);
        }
    }
}

/// A reply instead of a choice.
fn add(cases: &mut Cases, choice: &Case, own: Own) {
    let answer = if own.room < LEAST_ROOM { Some(refused(8_192)) } else { known(choice, own) };
    add_answered(cases, choice, own, answer);
}

fn add_answered(cases: &mut Cases, choice: &Case, own: Own, answer: Option<String>) {
    let [book, message] = choices::pair_in_words(choice);
    let line = format!("reply {book} {} {} {} {message}\n", own.ah, own.esp, own.room);
    cases.one_line(line, answer);
}

/// What the reply is in a room that is large enough, where it is known what is chosen.
fn known(choice: &Case, own: Own) -> Option<String> {
    let chosen = choice.answers[0].as_ref()?;
    if !chosen.starts_with("chosen ") {
        return Some(chosen.clone());
    }
    let mut taken = choices::taken(choice)?;
    if taken.iter().any(|proposal| own.spi(proposal.protocol).is_some_and(|spi| spi < LOWEST_SPI)) {
        return Some(refused(11));
    }
    for proposal in &mut taken {
        proposal.spi = own.spi(proposal.protocol).map_or(Vec::new(), |spi| spi.to_be_bytes().to_vec());
    }
    let reply = sa(Offer { doi: 1, situation: 1, proposals: taken, rest: Vec::new() });
    Some(format!("reply {}", word(&reply.encode_last())))
}

fn every_spi_in_every_room(random: &mut Random, cases: &mut Cases) {
    const SPIS: [u32; 8] = [0, 1, 255, 256, 257, 65_536, 0x8000_0000, u32::MAX];
    const ROOMS: [usize; 8] = [0, 1, 2_047, 2_048, 2_049, 3_000, 4_095, 4_096];
    let suiting = choices::GROUP.of_kind(random, "suiting transform");
    for ah in SPIS {
        for esp in SPIS {
            for room in ROOMS {
                for _ in 0..3 {
                    let choice = &suiting[random.below(suiting.len())];
                    add(cases, choice, Own { ah, esp, room });
                }
            }
        }
    }
}

/// A small room before an unlawful book, that before a message that cannot be read or has nothing that suits, and all of
/// them before an SPI.
fn first_checks(random: &mut Random, cases: &mut Cases) {
    const NO_ROOM: Own = Own { ah: 0, esp: 0, room: LEAST_ROOM - 1 };
    const NO_SPIS: Own = Own { ah: 0, esp: 0, room: LEAST_ROOM };
    for kind in ["unlawful book", "check of a reading broken", "no SA payload", "no line for the exchange"] {
        cases.detail = kind.to_string();
        for choice in choices::GROUP.of_kind(random, kind) {
            add_answered(cases, &choice, NO_ROOM, Some(refused(8_192)));
            add_answered(cases, &choice, NO_SPIS, choice.answers[0].clone());
        }
    }
}

fn words(_: &mut Random, cases: &mut Cases) {
    let good = [
        ("reply 0000 0 0 0 -", 8_192),
        ("reply - 0 0 2047 -", 8_192),
        ("reply - 0 0 2048 -", 8_193),
        ("reply 0000 0 0 2048 -", 30),
        ("reply 0000 4294967295 4294967295 4096 -", 30),
        ("reply 0100000E1000 256 256 4096 fF", 30),
    ];
    for (line, number) in good {
        cases.words(line, &refused(number));
    }
    let bad_line = |cases: &mut Cases, line: &str| cases.words(line, "bad line");
    let bad = [
        "reply",
        "reply 0000",
        "reply 0000 -",
        "reply 0000 256 2048 -",
        "reply 0000 256 256 -",
        "reply 0000 256 256 2048",
        "reply 256 256 2048 -",
        "reply 0000 256 256 256 2048 -",
        "reply 0000 256 256 2048 - -",
        "Reply 0000 256 256 2048 -",
        "replies 0000 256 256 2048 -",
        "choose 0000 256 256 2048 -",
    ];
    bad.iter().for_each(|line| bad_line(cases, line));
    for number in ["4294967296", "4294967552", "18446744073709551872", "0256", "00", "256.", "0x100", "00000100", "ff"]
    {
        bad_line(cases, &format!("reply 0000 {number} 256 2048 -"));
        bad_line(cases, &format!("reply 0000 256 {number} 2048 -"));
    }
    for room in ["4097", "4098", "8192", "65536", "67584", "4294969344", "18446744073709553664", "02048", "0x800"] {
        bad_line(cases, &format!("reply 0000 256 256 {room} -"));
    }
    let good = "reply 0000 256 256 2048 -";
    for at in 0..=good.len() {
        for byte in [" ", "\t", "\r", "\0", "-", "g", "G", ".", "/", ":", "\u{663}"] {
            bad_line(cases, &[&good[..at], byte, &good[at..]].concat());
        }
    }
}
