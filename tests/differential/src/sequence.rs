//! Lines about sequence numbers. What they do to the programs is followed here by each life's history, so that every
//! answer is known: the accepted numbers are kept as they came, and nothing is worked out but from them.

use crate::cases::{refused, word, Cases};
use crate::random::Random;
use std::collections::HashSet;

pub const AH: u8 = 2;
pub const ESP: u8 = 3;
pub const MOST_ENTRIES: usize = 64;
pub const LOWEST_SPI: u32 = 256;
/// So many the plain window's list holds.
pub const MOST_NUMBERS: usize = 4_096;

#[derive(Clone, Copy, PartialEq)]
pub struct Key {
    pub destination: u32,
    pub protocol: u8,
    pub spi: u32,
}

impl Key {
    fn words(&self) -> String {
        format!("{:08x} {} {:08x}", self.destination, self.protocol, self.spi)
    }
}

/// What happened from adding to removing, or since a lent record or a plain list was new.
#[derive(Default)]
pub struct Life {
    accepted: HashSet<u32>,
    highest: u32,
    sent: u32,
}

impl Life {
    pub fn highest(&self) -> u32 {
        self.highest
    }

    fn verdict(&mut self, number: u32, integrity: bool) -> String {
        self.verdict_up_to(usize::MAX, number, integrity)
    }

    /// The verdict where so many numbers are accepted and no more.
    fn verdict_up_to(&mut self, most: usize, number: u32, integrity: bool) -> String {
        if number == 0 || self.highest.checked_sub(64).is_some_and(|edge| number <= edge) {
            return refused(8_197);
        }
        if self.accepted.contains(&number) {
            return refused(8_194);
        }
        if !integrity {
            return refused(24);
        }
        if self.accepted.len() == most {
            return refused(8_202);
        }
        self.accepted.insert(number);
        let rise = number.saturating_sub(self.highest);
        self.highest = self.highest.max(number);
        format!("accepted {rise}")
    }

    fn loss(&self) -> String {
        let last: Vec<_> = (1..=self.highest).rev().take(64).collect();
        let accepted = last.iter().filter(|number| self.accepted.contains(number)).count();
        format!("loss {} {} {accepted}", self.highest, last.len())
    }
}

/// The lives that a table holds.
#[derive(Default)]
pub struct Lives(Vec<(Key, Life)>);

impl Lives {
    fn find(&mut self, key: Key) -> Option<&mut Life> {
        self.0.iter_mut().find(|(known, _)| *known == key).map(|(_, life)| life)
    }

    /// Adds the key, or says why not.
    fn add(&mut self, key: Key) -> Result<(), String> {
        if !matches!(key.protocol, AH | ESP) {
            Err(refused(10))
        } else if key.spi < LOWEST_SPI {
            Err(refused(11))
        } else if self.find(key).is_some() {
            Err(refused(8_200))
        } else if self.0.len() == MOST_ENTRIES {
            Err(refused(8_199))
        } else {
            self.0.push((key, Life::default()));
            Ok(())
        }
    }

    /// The verdict that a listing has for a well formed packet: an absent key is added first.
    pub fn listed(&mut self, key: Key, number: u32) -> String {
        if self.find(key).is_none() {
            if let Err(refused) = self.add(key) {
                return refused;
            }
        }
        self.find(key).expect("it was there or was added").verdict(number, true)
    }

    /// The highest number accepted under that key, 0 if there is none.
    pub fn highest(&mut self, key: Key) -> u32 {
        self.find(key).map_or(0, |life| life.highest)
    }
}

/// Writes lines and follows what they do. Each maker begins with an empty table and leaves it so.
pub struct Follower<'a> {
    cases: &'a mut Cases,
    pub lives: Lives,
    pub lent: Life,
    pub plain: Life,
}

impl Follower<'_> {
    pub fn new(cases: &mut Cases) -> Follower<'_> {
        Follower { cases, lives: Lives::default(), lent: Life::default(), plain: Life::default() }
    }

    pub fn line(&mut self, line: &str, answer: String) {
        self.cases.words(line, &answer);
    }

    /// What is particular about the lines that follow.
    pub fn detail(&mut self, detail: &str) {
        self.cases.detail = detail.to_string();
    }

    pub fn lent_new(&mut self) {
        self.lent = Life::default();
        self.line("lent new", "done".to_string());
    }

    pub fn lent(&mut self, number: u32, integrity: bool) {
        let answer = self.lent.verdict(number, integrity);
        self.line(&format!("lent {number} {}", yes_or_no(integrity)), answer);
    }

    pub fn lent_loss(&mut self) {
        let answer = self.lent.loss();
        self.line("lent loss", answer);
    }

    pub fn plain_new(&mut self) {
        self.plain = Life::default();
        self.line("plain new", "done".to_string());
    }

    pub fn plain(&mut self, number: u32, integrity: bool) {
        let answer = self.plain.verdict_up_to(MOST_NUMBERS, number, integrity);
        self.line(&format!("plain {number} {}", yes_or_no(integrity)), answer);
    }

    pub fn plain_loss(&mut self) {
        let answer = self.plain.loss();
        self.line("plain loss", answer);
    }

    /// The life under that key; `None` if there is none.
    pub fn life(&mut self, key: Key) -> Option<&mut Life> {
        self.lives.find(key)
    }

    pub fn keys(&self) -> Vec<Key> {
        self.lives.0.iter().map(|&(key, _)| key).collect()
    }

    pub fn add(&mut self, key: Key) {
        let answer = self.lives.add(key).map_or_else(|refused| refused, |()| "done".to_string());
        self.line(&format!("add {}", key.words()), answer);
    }

    pub fn remove(&mut self, key: Key) {
        let answer = self.life(key).map(|_| "done".to_string());
        self.lives.0.retain(|(known, _)| *known != key);
        self.line(&format!("remove {}", key.words()), answer.unwrap_or(refused(11)));
    }

    pub fn remove_all(&mut self) {
        for key in self.keys() {
            self.remove(key);
        }
    }

    pub fn send(&mut self, key: Key) {
        let answer = self.life(key).map(|life| {
            life.sent += 1;
            format!("number {}", life.sent)
        });
        self.line(&format!("send {}", key.words()), answer.unwrap_or(refused(11)));
    }

    pub fn loss(&mut self, key: Key) {
        let answer = self.life(key).map(|life| life.loss());
        self.line(&format!("loss {}", key.words()), answer.unwrap_or(refused(11)));
    }

    /// A record with these bytes and that original length.
    pub fn frame(&mut self, original: u32, bytes: &[u8], answer: String) {
        self.line(&format!("frame {original} {}", word(bytes)), answer);
    }

    /// A packet that is well formed.
    pub fn packet(&mut self, random: &mut Random, key: Key, number: u32, integrity: bool) {
        self.packet_as(key, number, integrity, &random_packet(random, key, number));
    }

    /// Bytes that are a well formed packet of that key with that number.
    pub fn packet_as(&mut self, key: Key, number: u32, integrity: bool, bytes: &[u8]) {
        let answer = match self.life(key) {
            Some(life) => life.verdict(number, integrity),
            None if matches!(key.protocol, AH | ESP) => refused(11),
            None => refused(10),
        };
        self.any_packet(key, integrity, bytes, answer);
    }

    /// A packet of any bytes to that key's destination, with that key's protocol.
    pub fn any_packet(&mut self, key: Key, integrity: bool, bytes: &[u8], answer: String) {
        let Key { destination, protocol, .. } = key;
        let integrity = yes_or_no(integrity);
        self.line(&format!("packet {destination:08x} {protocol} {integrity} {}", word(bytes)), answer);
    }
}

fn yes_or_no(integrity: bool) -> &'static str {
    if integrity {
        "yes"
    } else {
        "no"
    }
}

pub fn random_key(random: &mut Random) -> Key {
    Key {
        destination: random.number(32) as u32,
        protocol: random.one_of(&[AH, ESP]),
        spi: random.between(256, 0xffff_ffff) as u32,
    }
}

pub fn ah(length_field: u8, reserved: u16, spi: u32, number: u32) -> Vec<u8> {
    let [high, low] = reserved.to_be_bytes();
    [[50, length_field, high, low], spi.to_be_bytes(), number.to_be_bytes()].concat()
}

pub fn esp(spi: u32, number: u32) -> Vec<u8> {
    [spi.to_be_bytes(), number.to_be_bytes()].concat()
}

/// Well formed, with something behind its fields or nothing.
pub fn random_packet(random: &mut Random, key: Key, number: u32) -> Vec<u8> {
    let behind = random.below(9);
    if key.protocol == ESP {
        return [esp(key.spi, number), random.bytes(behind)].concat();
    }
    let words = random.below(4);
    [ah(1 + words as u8, 0, key.spi, number), random.bytes(4 * words + behind)].concat()
}

/// A number where a window might go wrong, as seen from H.
pub fn number_near(random: &mut Random, highest: u32) -> u32 {
    const BACK: [u32; 10] = [0, 1, 2, 31, 32, 62, 63, 64, 65, 66];
    const AHEAD: [u32; 10] = [1, 2, 3, 31, 32, 62, 63, 64, 65, 66];
    match random.below(16) {
        0..=5 => highest.saturating_sub(random.one_of(&BACK)),
        6..=9 => highest.saturating_sub(random.below(66) as u32),
        10..=12 => highest.saturating_add(random.one_of(&AHEAD[..3])),
        13 => highest.saturating_add(random.one_of(&AHEAD)),
        14 => highest.saturating_add(random.between(1, 300) as u32),
        _ => [0, 1, 64, 65, u32::MAX, random.number(32) as u32][random.below(5)],
    }
}

/// The numbers of lives, each with its integrity, by which H rises from nothing and then again or not: by 1, by the window's
/// width, by one more and one less. What is refused before the first or between the two changes no rise.
pub fn rising_lives() -> Vec<Vec<(u32, bool)>> {
    const FIRST: [u32; 8] = [1, 63, 64, 65, 66, u32::MAX - 65, u32::MAX - 1, u32::MAX];
    const FROM_FIRST: [i64; 14] = [-65, -64, -63, -62, -2, -1, 0, 1, 2, 62, 63, 64, 65, 66];
    let mut lives = Vec::new();
    for first in FIRST {
        for then in FROM_FIRST.iter().filter_map(|way| u32::try_from(i64::from(first) + way).ok()) {
            let [one, other] = [(first, true), (then, true)];
            lives.push(vec![one, other]);
            for refused in [(0, true), (then, false), (u32::MAX, false)] {
                lives.push(vec![refused, one, refused, other]);
            }
            for refused in [first, first.saturating_sub(64)] {
                lives.push(vec![one, (refused, true), other]);
            }
        }
    }
    lives
}

#[cfg(test)]
mod tests {
    use super::*;

    /// M9, M10 and M11.
    #[test]
    fn the_marked_examples_are_followed() {
        let mut life = Life::default();
        assert_eq!([0, 1, 1].map(|number| life.verdict(number, true)), ["refused 8197", "accepted 1", "refused 8194"]);
        for (first, then) in [(64, "accepted 0"), (65, "refused 8197")] {
            let mut life = Life::default();
            life.verdict(first, true);
            assert_eq!(life.verdict(1, true), then);
        }
        assert_eq!([2, 4].map(|number| life.verdict(number, true)), ["accepted 1", "accepted 2"]);
        assert_eq!(life.loss(), "loss 4 4 3");
    }

    #[test]
    fn the_examples_of_request_four_are_followed() {
        let mut life = Life::default();
        assert_eq!([5, 3, 70].map(|number| life.verdict(number, true)), ["accepted 5", "accepted 0", "accepted 65"]);
    }

    #[test]
    fn a_list_takes_4096_numbers_and_then_says_8202() {
        let mut life = Life::default();
        assert!((1..=4_096).all(|number| life.verdict_up_to(MOST_NUMBERS, number, true) == "accepted 1"));
        for _ in 0..2 {
            assert_eq!(life.verdict_up_to(MOST_NUMBERS, 4_097, false), "refused 24");
            assert_eq!(life.verdict_up_to(MOST_NUMBERS, 4_097, true), "refused 8202");
            assert_eq!(life.loss(), "loss 4096 64 64");
        }
        assert_eq!(life.verdict(4_097, true), "accepted 1");
    }

    #[test]
    fn the_rises_of_a_life_add_up_to_its_highest_number() {
        for numbers in rising_lives() {
            let mut life = Life::default();
            let verdicts = numbers.iter().map(|&(number, integrity)| life.verdict(number, integrity));
            let rises = verdicts.filter_map(|verdict| verdict.strip_prefix("accepted ")?.parse::<u64>().ok());
            let risen: u64 = rises.sum();
            assert!(life.loss().starts_with(&format!("loss {risen} ")), "{numbers:?}");
        }
    }
}
