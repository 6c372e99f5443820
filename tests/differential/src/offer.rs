//! Offers, the bodies of SA payloads, as trees of proposals, transforms and attributes.
//! They are made lawful; every field can then be set to anything.

use crate::layout::{Layout, Length};
use crate::message::{MAIN_MODE, QUICK_MODE};
use crate::random::Random;

pub const ISAKMP: u8 = 1;
pub const AH: u8 = 2;
pub const ESP: u8 = 3;
pub const MOST_PROPOSALS: usize = 16;
pub const MOST_TRANSFORMS: usize = 8;
pub const MOST_ATTRIBUTES: usize = 16;
/// The values of a life type that a line asks for.
pub const SECONDS: u16 = 1;
pub const KILOBYTES: u16 = 2;
/// The first proposal's number is never lower, so that lawful ones fit in before it.
pub const ROOM_FOR_NUMBERS: usize = 20;

#[derive(Clone)]
pub struct Offer {
    pub doi: u32,
    pub situation: u32,
    pub proposals: Vec<Proposal>,
    pub rest: Vec<u8>,
}

/// What is `None` is written as it should be.
#[derive(Clone)]
pub struct Proposal {
    pub next: Option<u8>,
    pub reserved: u8,
    pub length: Length,
    pub number: u8,
    pub protocol: u8,
    pub spi_size: Option<u8>,
    pub count: Option<u8>,
    pub spi: Vec<u8>,
    pub transforms: Vec<Transform>,
    pub rest: Vec<u8>,
}

#[derive(Clone)]
pub struct Transform {
    pub next: Option<u8>,
    pub reserved: u8,
    pub length: Length,
    pub number: u8,
    pub id: u8,
    pub second_reserved: u16,
    pub attributes: Vec<Attribute>,
    pub rest: Vec<u8>,
}

#[derive(Clone, Debug, PartialEq)]
pub struct Attribute {
    pub kind: u16,
    pub value: Value,
}

#[derive(Clone, Debug, PartialEq)]
pub enum Value {
    Fixed(u16),
    Variable(Length, Vec<u8>),
}

impl Offer {
    pub fn write(&self, layout: &mut Layout) {
        layout.number("DOI", 4, self.doi.into());
        layout.number("situation", 4, self.situation.into());
        for (index, proposal) in self.proposals.iter().enumerate() {
            proposal.write(layout, index + 1 == self.proposals.len());
        }
        layout.bytes(&self.rest);
    }

    pub fn last_proposal(&mut self) -> &mut Proposal {
        self.proposals.last_mut().expect("an offer has a proposal")
    }

    pub fn last_transform(&mut self) -> &mut Transform {
        self.last_proposal().transforms.last_mut().expect("a proposal has a transform")
    }
}

impl Proposal {
    fn write(&self, layout: &mut Layout, last: bool) {
        layout.number("proposal's next", 1, self.next.unwrap_or(if last { 0 } else { 2 }).into());
        layout.number("proposal's reserved byte", 1, self.reserved.into());
        layout.open("proposal's length", 2, Some(2), self.length);
        layout.number("proposal's number", 1, self.number.into());
        layout.number("proposal's protocol", 1, self.protocol.into());
        layout.number("proposal's SPI size", 1, self.spi_size.unwrap_or(self.spi.len() as u8).into());
        layout.number("proposal's transform count", 1, self.count.unwrap_or(self.transforms.len() as u8).into());
        match <[u8; 4]>::try_from(self.spi.as_slice()) {
            Ok(spi) => layout.number("proposal's SPI", 4, u32::from_be_bytes(spi).into()),
            Err(_) => layout.bytes(&self.spi),
        }
        for (index, transform) in self.transforms.iter().enumerate() {
            transform.write(layout, index + 1 == self.transforms.len());
        }
        layout.bytes(&self.rest);
        layout.close();
    }
}

impl Transform {
    fn write(&self, layout: &mut Layout, last: bool) {
        layout.number("transform's next", 1, self.next.unwrap_or(if last { 0 } else { 3 }).into());
        layout.number("transform's reserved byte", 1, self.reserved.into());
        layout.open("transform's length", 2, Some(2), self.length);
        layout.number("transform's number", 1, self.number.into());
        layout.number("transform's ID", 1, self.id.into());
        layout.number("transform's second reserved field", 2, self.second_reserved.into());
        self.attributes.iter().for_each(|attribute| attribute.write(layout));
        layout.bytes(&self.rest);
        layout.close();
    }
}

impl Attribute {
    /// Its value, if it is sent fixed.
    pub fn fixed_value(&self) -> Option<u16> {
        match self.value {
            Value::Fixed(value) => Some(value),
            Value::Variable(..) => None,
        }
    }

    fn write(&self, layout: &mut Layout) {
        match &self.value {
            Value::Fixed(value) => {
                layout.number("attribute's type", 2, (0x8000 | self.kind).into());
                layout.number("attribute's fixed value", 2, (*value).into());
            }
            Value::Variable(length, value) => {
                layout.number("attribute's type", 2, self.kind.into());
                layout.open("attribute's length", 2, None, *length);
                layout.bytes(value);
                layout.close();
            }
        }
    }
}

/// The types that must be sent fixed.
pub fn is_fixed(exchange: u8, kind: u16) -> bool {
    match exchange {
        MAIN_MODE => matches!(kind, 1..=5 | 11 | 13..=15 | 17 | 20),
        _ => matches!(kind, 1 | 3..=8),
    }
}

pub fn life_type(exchange: u8) -> u16 {
    if exchange == MAIN_MODE {
        11
    } else {
        1
    }
}

pub fn life_duration(exchange: u8) -> u16 {
    if exchange == MAIN_MODE {
        12
    } else {
        2
    }
}

/// Whether it is the life type or the life duration.
pub fn is_of_lifetime(exchange: u8, kind: u16) -> bool {
    kind == life_type(exchange) || kind == life_duration(exchange)
}

/// A type that need not be sent fixed, and has no rule for its length.
pub fn free_kind(exchange: u8) -> u16 {
    if exchange == MAIN_MODE {
        6
    } else {
        9
    }
}

pub fn fixed(kind: u16, value: u16) -> Attribute {
    Attribute { kind, value: Value::Fixed(value) }
}

pub fn variable(kind: u16, value: Vec<u8>) -> Attribute {
    Attribute { kind, value: Value::Variable(Length::Right, value) }
}

/// An attribute of that type, coded lawfully.
pub fn random_attribute(random: &mut Random, exchange: u8, kind: u16) -> Attribute {
    if is_fixed(exchange, kind) || random.once_in(2) {
        return fixed(kind, random.number(16) as u16);
    }
    let (least, most) = if kind == life_duration(exchange) { (1, 4) } else { (0, 6) };
    let size = random.between(least, most);
    variable(kind, random.bytes(size))
}

/// A life type, and behind it its duration.
pub fn lifetime(exchange: u8, value: u16, duration: Attribute) -> Item {
    vec![fixed(life_type(exchange), value), duration]
}

/// A lifetime whose duration is coded lawfully.
pub fn random_lifetime(random: &mut Random, exchange: u8, value: u16) -> Item {
    let duration = random_attribute(random, exchange, life_duration(exchange));
    lifetime(exchange, value, duration)
}

/// What has its place as a whole: an attribute by itself, or a lifetime.
pub type Item = Vec<Attribute>;

/// The items of a transform; a life type without a duration behind it is one as well.
pub fn items(exchange: u8, attributes: &[Attribute]) -> Vec<Item> {
    let is_pair =
        |one: &Attribute, next: &Attribute| one.kind == life_type(exchange) && next.kind == life_duration(exchange);
    attributes.chunk_by(is_pair).map(<[_]>::to_vec).collect()
}

/// A place in a transform that does not part a life type from what is behind it.
pub fn random_border(random: &mut Random, exchange: u8, attributes: &[Attribute]) -> usize {
    let parts = |place: &usize| *place > 0 && attributes[*place - 1].kind == life_type(exchange);
    let borders: Vec<_> = (0..=attributes.len()).filter(|place| !parts(place)).collect();
    random.one_of(&borders)
}

/// So many attributes: those of the tables, others, and the largest, each type once but for lifetimes of different types.
pub fn random_attributes(random: &mut Random, exchange: u8, count: usize) -> Vec<Attribute> {
    let mut attributes: Vec<Attribute> = Vec::new();
    while attributes.len() < count {
        let item = random_item(random, exchange);
        let is_like = |other: &Attribute| {
            other.kind == item[0].kind && (item.len() == 1 || other.fixed_value() == item[0].fixed_value())
        };
        if attributes.len() + item.len() <= count && !attributes.iter().any(is_like) {
            attributes.extend(item);
        }
    }
    attributes
}

fn random_item(random: &mut Random, exchange: u8) -> Item {
    let kind = match random.below(9) {
        0 => 0x7fff - random.below(3) as u16,
        1 => random.number(15) as u16,
        2 => life_type(exchange),
        _ => random.between(0, 24) as u16,
    };
    if is_of_lifetime(exchange, kind) {
        let value = [random.below(4) as u16, random.number(16) as u16][random.below(2)];
        return random_lifetime(random, exchange, value);
    }
    vec![random_attribute(random, exchange, kind)]
}

pub fn transform(number: u8, id: u8, attributes: Vec<Attribute>) -> Transform {
    Transform {
        next: None,
        reserved: 0,
        length: Length::Right,
        number,
        id,
        second_reserved: 0,
        attributes,
        rest: Vec::new(),
    }
}

/// The attributes that suit, in the order in which the standard lists them; in some kilobytes behind the seconds.
fn usual_attributes(random: &mut Random, exchange: u8) -> Vec<Attribute> {
    let seconds = random.between(1, 3_600);
    let duration = match random.below(3) {
        0 => variable(life_duration(exchange), (seconds as u32).to_be_bytes().to_vec()),
        _ => fixed(life_duration(exchange), seconds as u16),
    };
    let mut attributes = if exchange == MAIN_MODE {
        vec![fixed(1, 129), fixed(2, 20), fixed(3, 10), fixed(20, 2)]
    } else {
        vec![fixed(4, random.between(1, 4) as u16), fixed(5, 20)]
    };
    attributes.extend(lifetime(exchange, SECONDS, duration));
    if random.once_in(3) {
        attributes.extend(random_lifetime(random, exchange, KILOBYTES));
    }
    attributes
}

/// So many transforms with numbers that rise, and up to so many attributes each.
pub fn random_transforms(random: &mut Random, exchange: u8, count: usize, most_attributes: usize) -> Vec<Transform> {
    let mut number = random.below(3) as u8;
    let mut transforms = Vec::new();
    for _ in 0..count {
        let attributes = if random.once_in(2) {
            usual_attributes(random, exchange)
        } else {
            let count = random.between(0, most_attributes);
            random_attributes(random, exchange, count)
        };
        let id = [1, 20, 129, random.byte()][random.below(4)];
        transforms.push(transform(number, id, attributes));
        number += random.between(1, 3) as u8;
    }
    transforms
}

pub fn lawful_spi(random: &mut Random, exchange: u8) -> Vec<u8> {
    if exchange == MAIN_MODE {
        return Vec::new();
    }
    (random.between(256, 0xffff_ffff) as u32).to_be_bytes().to_vec()
}

/// A proposal that is written as it should be.
pub fn proposal_of(number: u8, protocol: u8, spi: Vec<u8>, transforms: Vec<Transform>) -> Proposal {
    Proposal {
        next: None,
        reserved: 0,
        length: Length::Right,
        number,
        protocol,
        spi_size: None,
        count: None,
        spi,
        transforms,
        rest: Vec::new(),
    }
}

/// A lawful proposal with one to `sizes.transforms` transforms.
pub fn random_proposal(random: &mut Random, exchange: u8, number: u8, protocol: u8, sizes: Sizes) -> Proposal {
    let count = random.between(1, sizes.transforms);
    let spi = lawful_spi(random, exchange);
    proposal_of(number, protocol, spi, random_transforms(random, exchange, count, sizes.attributes))
}

/// How much an offer has at most of each.
#[derive(Clone, Copy)]
pub struct Sizes {
    pub proposals: usize,
    pub transforms: usize,
    pub attributes: usize,
}

pub const SMALL: Sizes = Sizes { proposals: 3, transforms: 2, attributes: 3 };
pub const LARGE: Sizes = Sizes { proposals: MOST_PROPOSALS, transforms: MOST_TRANSFORMS, attributes: MOST_ATTRIBUTES };

/// A lawful offer; in exchange 32 of one to `sizes.proposals` proposals, some of them in sets of two.
pub fn random_offer(random: &mut Random, exchange: u8, sizes: Sizes) -> Offer {
    let count = if exchange == QUICK_MODE { random.between(1, sizes.proposals) } else { 1 };
    offer_of(random, exchange, count, sizes)
}

/// A lawful offer of exactly so many proposals, and in exchange 2 of one.
pub fn offer_of(random: &mut Random, exchange: u8, count: usize, sizes: Sizes) -> Offer {
    let mut number = random.between(ROOM_FOR_NUMBERS, 40) as u8;
    let mut proposals: Vec<Proposal> = Vec::new();
    for _ in 0..if exchange == MAIN_MODE { 1 } else { count } {
        let alone = proposals.iter().filter(|before| before.number == number).count() == 1;
        let protocol = match proposals.last() {
            _ if exchange == MAIN_MODE => ISAKMP,
            Some(before) if alone && random.once_in(2) => AH + ESP - before.protocol,
            _ => {
                number += random.between(1, 5) as u8;
                random.one_of(&[AH, ESP])
            }
        };
        proposals.push(random_proposal(random, exchange, number, protocol, sizes));
    }
    Offer { doi: 1, situation: 1, proposals, rest: Vec::new() }
}

#[cfg(test)]
mod tests {
    use super::*;

    #[test]
    fn lifetimes_are_made_whole_and_each_life_type_once() {
        let mut random = Random::new(1, "attributes");
        for exchange in [MAIN_MODE, QUICK_MODE] {
            for count in (0..=MOST_ATTRIBUTES).flat_map(|count| [count; 40]) {
                let attributes = random_attributes(&mut random, exchange, count);
                assert_eq!(attributes.len(), count);
                let whole = items(exchange, &attributes);
                let (pairs, singles): (Vec<_>, Vec<_>) = whole.into_iter().partition(|item| item.len() == 2);
                let mut values: Vec<_> = pairs.iter().map(|pair| pair[0].fixed_value()).collect();
                values.sort();
                values.dedup();
                assert_eq!(values.len(), pairs.len());
                assert!(singles.iter().all(|single| !is_of_lifetime(exchange, single[0].kind)));
            }
        }
    }

    #[test]
    fn no_border_parts_a_lifetime() {
        let mut random = Random::new(1, "borders");
        let attributes = [lifetime(QUICK_MODE, 1, fixed(2, 1)), vec![fixed(4, 1)]].concat();
        let mut borders: Vec<_> = (0..100).map(|_| random_border(&mut random, QUICK_MODE, &attributes)).collect();
        borders.sort();
        borders.dedup();
        assert_eq!(borders, [0, 2, 3]);
    }
}
