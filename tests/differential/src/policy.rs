//! Policy books, and offers made to suit their lines or to miss them by a little.

use crate::message::{MAIN_MODE, QUICK_MODE};
use crate::offer::{
    fixed, free_kind, items, lawful_spi, life_duration, life_type, lifetime, proposal_of, random_attribute,
    random_border, random_lifetime, transform, variable, Attribute, Item, Offer, Proposal, Transform, Value, AH, ESP,
    ISAKMP, KILOBYTES, SECONDS,
};
use crate::random::Random;

pub const MOST_LINES: usize = 8;
pub const MOST_MAIN_SECONDS: u32 = 86_400;
pub const MOST_QUICK_SECONDS: u32 = 3_600;

/// What the sets that suit a line are made of.
pub const MAIN: &[u8] = &[ISAKMP];
pub const ESP_ALONE: &[u8] = &[ESP];
pub const AH_WITH_ESP: &[u8] = &[AH, ESP];

/// A line of either sort; a main line has no mode.
#[derive(Clone, Copy)]
pub struct Line {
    pub protocols: &'static [u8],
    pub mode: u8,
    pub seconds: u32,
}

impl Line {
    pub fn exchange(&self) -> u8 {
        if self.protocols == MAIN {
            MAIN_MODE
        } else {
            QUICK_MODE
        }
    }

    pub fn most_seconds(&self) -> u32 {
        if self.protocols == MAIN {
            MOST_MAIN_SECONDS
        } else {
            MOST_QUICK_SECONDS
        }
    }

    /// What a transform of that protocol must have, beside its lifetimes.
    pub fn wanted(&self, protocol: u8) -> Vec<Attribute> {
        let mode = fixed(4, self.mode.into());
        match protocol {
            ISAKMP => vec![fixed(1, 129), fixed(2, 20), fixed(3, 10), fixed(20, 2)],
            ESP if self.protocols == AH_WITH_ESP => vec![mode],
            _ => vec![mode, fixed(5, 20)],
        }
    }

    fn bytes(&self) -> Vec<u8> {
        let seconds = self.seconds.to_be_bytes();
        match self.protocols {
            MAIN => seconds.to_vec(),
            quick => [&[quick.len() as u8, self.mode], seconds.as_slice()].concat(),
        }
    }
}

/// The ID of a suiting transform.
pub fn suiting_id(protocol: u8) -> u8 {
    match protocol {
        ISAKMP => 1,
        AH => 20,
        _ => 129,
    }
}

#[derive(Clone, Default)]
pub struct Book {
    pub main: Vec<Line>,
    pub quick: Vec<Line>,
}

impl Book {
    /// Lines of one sort, and any of the other, which never matter.
    pub fn of(random: &mut Random, lines: &[Line]) -> Book {
        let mut book = random_book(random);
        match lines.first() {
            Some(line) if line.protocols == MAIN => book.main = lines.to_vec(),
            _ => book.quick = lines.to_vec(),
        }
        book
    }

    pub fn encode(&self) -> Vec<u8> {
        let lines = |lines: &[Line]| lines.iter().flat_map(Line::bytes).collect::<Vec<_>>();
        let counts = [self.main.len() as u8, self.quick.len() as u8];
        [&counts[..1], &lines(&self.main), &counts[1..], &lines(&self.quick)].concat()
    }
}

/// Lawful seconds, often at or beside a limit.
pub fn random_seconds(random: &mut Random, most: u32) -> u32 {
    let limits = [1, 2, 255, 256, 257, 3_600, 65_535, 65_536, 86_399, 86_400];
    let limits: Vec<_> = limits.into_iter().filter(|&limit| limit <= most).collect();
    if random.once_in(2) {
        return random.one_of(&limits);
    }
    random.between(1, most as usize) as u32
}

pub fn random_line(random: &mut Random, protocols: &'static [u8]) -> Line {
    let line = Line { protocols, mode: random.between(1, 4) as u8, seconds: 1 };
    Line { seconds: random_seconds(random, line.most_seconds()), ..line }
}

pub fn random_book(random: &mut Random) -> Book {
    let (main, quick) = (random.below(MOST_LINES + 1), random.below(MOST_LINES + 1));
    book_of(random, main, quick)
}

/// A lawful book of so many lines.
pub fn book_of(random: &mut Random, main: usize, quick: usize) -> Book {
    let main = (0..main).map(|_| random_line(random, MAIN)).collect();
    let quick = (0..quick).map(|_| {
        let protocols = random.one_of(&[ESP_ALONE, AH_WITH_ESP]);
        random_line(random, protocols)
    });
    Book { main, quick: quick.collect() }
}

/// Every way to send a number: fixed, and variable of each size that holds it.
pub fn codings(kind: u16, number: u32) -> Vec<Attribute> {
    let bytes = number.to_be_bytes();
    let holds = |&size: &usize| bytes[..4 - size].iter().all(|&byte| byte == 0);
    let sizes = (1..=4).filter(holds);
    let mut codings: Vec<_> = sizes.map(|size| variable(kind, bytes[4 - size..].to_vec())).collect();
    codings.extend(u16::try_from(number).ok().map(|number| fixed(kind, number)));
    codings
}

/// A duration sent in any way.
fn random_coding(random: &mut Random, exchange: u8, number: u32) -> Attribute {
    let mut codings = codings(life_duration(exchange), number);
    codings.swap_remove(random.below(codings.len()))
}

/// A lifetime that lasts so long.
pub fn lasting_lifetime(random: &mut Random, exchange: u8, value: u16, number: u32) -> Item {
    let duration = random_coding(random, exchange, number);
    lifetime(exchange, value, duration)
}

/// Kilobytes that suit, often at or beside a limit.
pub fn random_kilobytes(random: &mut Random, exchange: u8) -> Item {
    let limits = [1, 2, 255, 256, 65_535, 65_536, 0x00ff_ffff, u32::MAX, 1 + random.number(31) as u32];
    let kilobytes = random.one_of(&limits);
    lasting_lifetime(random, exchange, KILOBYTES, kilobytes)
}

pub fn shuffle<Thing>(random: &mut Random, things: &mut [Thing]) {
    for at in (1..things.len()).rev() {
        things.swap(at, random.below(at + 1));
    }
}

/// What the line wants and these lifetimes, in any order of them as wholes.
pub fn with_lifetimes(random: &mut Random, line: &Line, protocol: u8, lifetimes: Vec<Item>) -> Transform {
    let wanted = line.wanted(protocol).into_iter().map(|attribute| vec![attribute]);
    let mut items: Vec<Item> = wanted.chain(lifetimes).collect();
    shuffle(random, &mut items);
    transform(1, suiting_id(protocol), items.concat())
}

/// What the line wants, that duration in seconds, and in some kilobytes, in any order.
pub fn with_duration(random: &mut Random, line: &Line, protocol: u8, duration: Attribute) -> Transform {
    let mut lifetimes = vec![lifetime(line.exchange(), SECONDS, duration)];
    if random.once_in(3) {
        lifetimes.push(random_kilobytes(random, line.exchange()));
    }
    with_lifetimes(random, line, protocol, lifetimes)
}

/// A transform that suits the line if so many seconds do, sent in any way.
pub fn lasting(random: &mut Random, line: &Line, protocol: u8, seconds: u32) -> Transform {
    let duration = random_coding(random, line.exchange(), seconds);
    with_duration(random, line, protocol, duration)
}

pub fn suiting(random: &mut Random, line: &Line, protocol: u8) -> Transform {
    let seconds = random_seconds(random, line.seconds);
    lasting(random, line, protocol, seconds)
}

/// A readable transform that suits no line at all, neither this one nor one of other mode or seconds.
pub fn spoiled(random: &mut Random, line: &Line, protocol: u8) -> Transform {
    let mut spoiled = suiting(random, line, protocol);
    SPOILS[random.below(SPOILS.len())].1(random, line, &mut spoiled);
    spoiled
}

pub type Spoil = fn(&mut Random, &Line, &mut Transform);

/// Each leaves a transform readable.
pub const SPOILS: &[(&str, Spoil)] = &[
    ("attribute or seconds missing", |random, line, transform| {
        replace_wanted(random, line, transform, |_| Vec::new());
    }),
    ("attribute surplus", |random, line, transform| {
        let kind = unwanted(random, transform);
        let attribute = random_attribute(random, line.exchange(), kind);
        put_in(random, line, transform, vec![attribute]);
    }),
    ("algorithm of integrity surplus", |random, line, transform| {
        let kind = if line.protocols == AH_WITH_ESP && transform.id == 129 { 5 } else { unwanted(random, transform) };
        let value = if kind == 5 { 20 } else { 1 };
        put_in(random, line, transform, vec![fixed(kind, value)]);
    }),
    ("attribute with another value", |random, line, transform| {
        let duration = life_duration(line.exchange());
        let of_rule = |at: &usize| transform.attributes[*at].kind != duration;
        let of_rule: Vec<_> = (0..transform.attributes.len()).filter(of_rule).collect();
        let at = random.one_of(&of_rule);
        let kind = transform.attributes[at].kind;
        let is_mode = line.exchange() == QUICK_MODE && kind == 4;
        let value = transform.attributes[at].fixed_value().expect("a rule's value is sent fixed");
        let beside = if is_mode { [0, 5] } else { [value - 1, value + 1] };
        let others = [beside[0], beside[1], 0, value + 256, value << 8, value | 0x8000, 0xffff];
        // A life type does not become that of the other lifetime.
        let is_there = |&value: &u16| {
            let is = |other: &Attribute| other.kind == kind && other.fixed_value() == Some(value);
            transform.attributes.iter().any(is)
        };
        let others: Vec<_> = others.into_iter().filter(|value| !is_there(value)).collect();
        transform.attributes[at].value = Value::Fixed(random.one_of(&others));
    }),
    ("attribute of another type", |random, line, transform| {
        let kind = unwanted(random, transform);
        replace_wanted(random, line, transform, |item| {
            let Attribute { value, .. } = item[item.len() - 1].clone();
            let kind = if matches!(value, Value::Fixed(_)) { kind } else { free_kind(line.exchange()) };
            vec![Attribute { kind, value }]
        });
    }),
    ("no seconds", |random, line, transform| set_lifetime(random, line, transform, SECONDS, 0)),
    ("more seconds than any line has", |random, line, transform| {
        let most = line.most_seconds();
        let more = [most + 1, most + 256, most + 65_536, 0x0100_0001, 0x8000_0001, u32::MAX];
        let seconds = random.one_of(&more);
        set_lifetime(random, line, transform, SECONDS, seconds);
    }),
    ("another ID", |random, _, transform| {
        let others = [0, 1, 2, 19, 20, 21, 128, 129, 130, 255, random.byte()];
        let others: Vec<_> = others.into_iter().filter(|&id| id != transform.id).collect();
        transform.id = random.one_of(&others);
    }),
    ("no kilobytes", |random, line, transform| set_lifetime(random, line, transform, KILOBYTES, 0)),
    ("kilobytes without seconds", |random, line, transform| {
        let kilobytes = 1 + random.number(31) as u32;
        set_lifetime(random, line, transform, KILOBYTES, kilobytes);
        take_out(line, transform, SECONDS);
    }),
    ("a third life type", |random, line, transform| {
        let others = [0, 3, 4, 255, 256, 257, 258, 0x8001, 0x8002, 0xffff];
        let value = random.one_of(&others);
        let third = random_lifetime(random, line.exchange(), value);
        put_in(random, line, transform, third);
    }),
];

/// A type that the transform does not have; as it has all that is wanted of it, no line wants this one.
fn unwanted(random: &mut Random, transform: &Transform) -> u16 {
    loop {
        let kind = [random.between(0, 24) as u16, random.number(15) as u16][random.below(2)];
        if transform.attributes.iter().all(|attribute| attribute.kind != kind) {
            return kind;
        }
    }
}

/// Puts an item in anywhere.
pub fn put_in(random: &mut Random, line: &Line, transform: &mut Transform, item: Item) {
    let place = random_border(random, line.exchange(), &transform.attributes);
    transform.attributes.splice(place..place, item);
}

fn is_lifetime(line: &Line, item: &Item, value: u16) -> bool {
    item[0].kind == life_type(line.exchange()) && item[0].fixed_value() == Some(value)
}

/// Replaces an attribute that is wanted, or the seconds.
fn replace_wanted(random: &mut Random, line: &Line, transform: &mut Transform, replacement: impl Fn(&Item) -> Item) {
    let mut items = items(line.exchange(), &transform.attributes);
    let wanted: Vec<_> = (0..items.len()).filter(|&at| !is_lifetime(line, &items[at], KILOBYTES)).collect();
    let at = random.one_of(&wanted);
    items[at] = replacement(&items[at]);
    transform.attributes = items.concat();
}

pub fn take_out(line: &Line, transform: &mut Transform, value: u16) {
    let mut items = items(line.exchange(), &transform.attributes);
    items.retain(|item| !is_lifetime(line, item, value));
    transform.attributes = items.concat();
}

/// The lifetime of that life type lasts so long, whether the transform had one or not.
pub fn set_lifetime(random: &mut Random, line: &Line, transform: &mut Transform, value: u16, number: u32) {
    take_out(line, transform, value);
    let lifetime = lasting_lifetime(random, line.exchange(), value, number);
    put_in(random, line, transform, lifetime);
}

/// A lawful proposal of these transforms, with numbers that rise from anywhere.
pub fn proposal(random: &mut Random, number: u8, protocol: u8, mut transforms: Vec<Transform>) -> Proposal {
    let mut next = random.below(4) as u8;
    for transform in &mut transforms {
        transform.number = next;
        next += random.between(1, 30) as u8;
    }
    let exchange = if protocol == ISAKMP { MAIN_MODE } else { QUICK_MODE };
    let spi = lawful_spi(random, exchange);
    proposal_of(number, protocol, spi, transforms)
}

/// Protocols and their transforms, in the order in which they are offered.
pub type Set = Vec<(u8, Vec<Transform>)>;

/// A set with one transform each, made by `make`, in either order.
pub fn set_of(random: &mut Random, line: &Line, make: fn(&mut Random, &Line, u8) -> Transform) -> Set {
    let mut set: Set = line.protocols.iter().map(|&protocol| (protocol, vec![make(random, line, protocol)])).collect();
    shuffle(random, &mut set);
    set
}

/// An offer of these sets, with numbers that rise from anywhere.
pub fn offer_of_sets(random: &mut Random, sets: Vec<Set>) -> Offer {
    let mut number = random.below(4) as u8;
    let mut proposals = Vec::new();
    for set in sets {
        for (protocol, transforms) in set {
            proposals.push(proposal(random, number, protocol, transforms));
        }
        number += random.between(1, 12) as u8;
    }
    Offer { doi: 1, situation: 1, proposals, rest: Vec::new() }
}

#[cfg(test)]
mod tests {
    use super::*;

    #[test]
    fn seconds_are_sent_in_every_way_that_holds_them() {
        assert_eq!([255, 256, 65_535, 65_536, 1 << 24].map(|seconds| codings(2, seconds).len()), [5, 4, 4, 2, 1]);
    }

    #[test]
    fn the_largest_book_has_82_bytes() {
        let mut random = Random::new(1, "book");
        assert_eq!(book_of(&mut random, 8, 8).encode().len(), 82);
        assert_eq!(Book::default().encode(), [0, 0]);
    }
}
