//! Document 01, "SA payload", and request two: its body, that is DOI (4 bytes), situation (4) and proposals.
//!
//! Proposal: next, reserved, length (2), number, protocol, SPI size, transform count, SPI, transforms.
//! Transform: next, reserved, length (2), number, ID, second reserved (2), attributes.
//! Attribute: type (2) with the high bit set, value (2); or type (2), value's length (2), value.

use crate::message::MAIN_MODE;
use crate::refusal::{self, refuse_if, Refusal};
use crate::wire::{u16_at, u32_at};
use std::ops::RangeInclusive;

pub const ISAKMP: u8 = 1;
pub const AH: u8 = 2;
pub const ESP: u8 = 3;

const OWN_FIELDS_SIZE: usize = 8;
const MOST_PROPOSALS: usize = 16;
const TRANSFORM_COUNTS: RangeInclusive<u8> = 1..=8;
const MOST_ATTRIBUTES: usize = 16;
const PROPOSAL_HEADER_SIZE: usize = 8;
const TRANSFORM_HEADER_SIZE: usize = 8;
const ATTRIBUTE_HEADER_SIZE: usize = 4;
pub const LOWEST_SPI: u32 = 256;
/// In variable form; one that is sent fixed has two bytes.
const DURATION_SIZES: RangeInclusive<usize> = 1..=4;

pub const NONE_NEXT: u8 = 0;
pub const PROPOSAL_NEXT: u8 = 2;
const TRANSFORM_NEXT: u8 = 3;

/// A high bit says how an attribute is sent; its type is what is below.
pub const SENT_FIXED: u16 = 0x8000;

/// What the two exchanges ask of an offer.
struct Rules {
    protocols: &'static [u8],
    spi_size: usize,
    more_proposals: bool,
    fixed: &'static [u16],
    life_type: u16,
    life_duration: u16,
}

const MAIN_RULES: Rules = Rules {
    protocols: &[ISAKMP],
    spi_size: 0,
    more_proposals: false,
    fixed: &[1, 2, 3, 4, 5, 11, 13, 14, 15, 17, 20],
    life_type: 11,
    life_duration: 12,
};

const QUICK_RULES: Rules = Rules {
    protocols: &[AH, ESP],
    spi_size: 4,
    more_proposals: true,
    fixed: &[1, 3, 4, 5, 6, 7, 8],
    life_type: 1,
    life_duration: 2,
};

/// What later proposals are measured by.
#[derive(PartialEq)]
struct Proposed {
    number: u8,
    protocol: u8,
}

pub fn check(exchange: u8, body: &[u8]) -> Result<(), Refusal> {
    let rules = if exchange == MAIN_MODE { &MAIN_RULES } else { &QUICK_RULES };
    refuse_if(body.len() < OWN_FIELDS_SIZE, refusal::SA_SYNTAX)?;
    refuse_if(u32_at(body, 0) != 1, refusal::DOI)?;
    refuse_if(u32_at(body, 4) != 1, refusal::SITUATION)?;
    let mut left = &body[OWN_FIELDS_SIZE..];
    let mut before = Vec::new();
    loop {
        let length = check_proposal_header(&before, left)?;
        let proposal = &left[..length];
        check_proposal(rules, proposal)?;
        left = &left[length..];
        if proposal[0] == NONE_NEXT {
            return refuse_if(!left.is_empty(), refusal::SA_SYNTAX);
        }
        before.push(Proposed { number: proposal[4], protocol: proposal[5] });
    }
}

/// All that is 15 about a proposal's own header; its length.
fn check_proposal_header(before: &[Proposed], left: &[u8]) -> Result<usize, Refusal> {
    refuse_if(before.len() == MOST_PROPOSALS, refusal::SA_SYNTAX)?;
    refuse_if(left.len() < PROPOSAL_HEADER_SIZE, refusal::SA_SYNTAX)?;
    refuse_if(!matches!(left[0], NONE_NEXT | PROPOSAL_NEXT), refusal::SA_SYNTAX)?;
    refuse_if(left[1] != 0, refusal::SA_SYNTAX)?;
    let length = usize::from(u16_at(left, 2));
    let spi_size = usize::from(left[6]);
    refuse_if(length < PROPOSAL_HEADER_SIZE + spi_size || length > left.len(), refusal::SA_SYNTAX)?;
    let this = Proposed { number: left[4], protocol: left[5] };
    refuse_if(before.last().is_some_and(|last| this.number < last.number), refusal::SA_SYNTAX)?;
    // Proposals with equal number form one set.
    refuse_if(before.contains(&this), refusal::SA_SYNTAX)?;
    Ok(length)
}

fn check_proposal(rules: &Rules, proposal: &[u8]) -> Result<(), Refusal> {
    let [next, protocol, spi_size, count] = [proposal[0], proposal[5], proposal[6], proposal[7]];
    refuse_if(!rules.protocols.contains(&protocol), refusal::PROTOCOL)?;
    refuse_if(usize::from(spi_size) != rules.spi_size, refusal::SPI)?;
    let (spi, transforms) = proposal[PROPOSAL_HEADER_SIZE..].split_at(rules.spi_size);
    refuse_if(!spi.is_empty() && u32_at(spi, 0) < LOWEST_SPI, refusal::SPI)?;
    refuse_if(!TRANSFORM_COUNTS.contains(&count), refusal::SA_SYNTAX)?;
    check_transforms(rules, count, transforms)?;
    refuse_if(next == PROPOSAL_NEXT && !rules.more_proposals, refusal::SA_SYNTAX)
}

fn check_transforms(rules: &Rules, count: u8, transforms: &[u8]) -> Result<(), Refusal> {
    let mut left = transforms;
    let mut number_before = None;
    for place in 1..=count {
        refuse_if(left.len() < TRANSFORM_HEADER_SIZE, refusal::SA_SYNTAX)?;
        let next = if place == count { NONE_NEXT } else { TRANSFORM_NEXT };
        refuse_if(left[0] != next, refusal::SA_SYNTAX)?;
        refuse_if(left[1] != 0 || u16_at(left, 6) != 0, refusal::SA_SYNTAX)?;
        let length = usize::from(u16_at(left, 2));
        refuse_if(length < TRANSFORM_HEADER_SIZE || length > left.len(), refusal::SA_SYNTAX)?;
        let number = left[4];
        refuse_if(number_before.is_some_and(|before| number <= before), refusal::SA_SYNTAX)?;
        check_attributes(rules, &left[TRANSFORM_HEADER_SIZE..length])?;
        number_before = Some(number);
        left = &left[length..];
    }
    refuse_if(!left.is_empty(), refusal::SA_SYNTAX)
}

fn check_attributes(rules: &Rules, attributes: &[u8]) -> Result<(), Refusal> {
    let mut left = attributes;
    let mut before: Vec<Attribute> = Vec::new();
    while !left.is_empty() {
        refuse_if(left.len() < ATTRIBUTE_HEADER_SIZE, refusal::SA_SYNTAX)?;
        let length = attribute_length(left);
        refuse_if(left.len() < length, refusal::SA_SYNTAX)?;
        refuse_if(before.len() == MOST_ATTRIBUTES, refusal::SA_SYNTAX)?;
        let attribute = Attribute::new(&left[..length]);
        check_place(rules, &before, &attribute)?;
        refuse_if(attribute.variable && rules.fixed.contains(&attribute.kind), refusal::ATTRIBUTE)?;
        let is_duration = attribute.kind == rules.life_duration;
        refuse_if(is_duration && !DURATION_SIZES.contains(&attribute.value.len()), refusal::ATTRIBUTE)?;
        before.push(attribute);
        left = &left[length..];
    }
    refuse_if(ends_with_life_type(rules, &before), refusal::SA_SYNTAX)
}

/// "Each duration must directly follow its life type and no life type stands without one, each life type value occurs at
/// most once", and each other type.
fn check_place(rules: &Rules, before: &[Attribute], this: &Attribute) -> Result<(), Refusal> {
    let behind_life_type = ends_with_life_type(rules, before);
    if this.kind == rules.life_duration {
        return refuse_if(!behind_life_type, refusal::SA_SYNTAX);
    }
    refuse_if(behind_life_type, refusal::SA_SYNTAX)?;
    let is_life_type = this.kind == rules.life_type;
    let is_repeated = |other: &Attribute| other.kind == this.kind && (!is_life_type || other.digits() == this.digits());
    refuse_if(before.iter().any(is_repeated), refusal::SA_SYNTAX)
}

fn ends_with_life_type(rules: &Rules, attributes: &[Attribute]) -> bool {
    attributes.last().is_some_and(|last| last.kind == rules.life_type)
}

struct Attribute<'a> {
    kind: u16,
    variable: bool,
    value: &'a [u8],
}

impl<'a> Attribute<'a> {
    /// All bytes of an attribute.
    fn new(bytes: &'a [u8]) -> Attribute<'a> {
        let first = u16_at(bytes, 0);
        let variable = first & SENT_FIXED == 0;
        let value_at = if variable { ATTRIBUTE_HEADER_SIZE } else { 2 };
        Attribute { kind: first & !SENT_FIXED, variable, value: &bytes[value_at..] }
    }

    /// The number that its value spells, or the largest that there is room for.
    fn number(&self) -> u64 {
        self.value.iter().fold(0, |number: u64, &byte| number.saturating_mul(256).saturating_add(byte.into()))
    }

    /// That number without a limit: its bytes from the first that is not zero, of which 0 has none.
    fn digits(&self) -> &'a [u8] {
        let zeros = self.value.iter().take_while(|&&byte| byte == 0).count();
        &self.value[zeros..]
    }
}

/// What follows goes through an offer that was checked: its items have the lengths that they say.
pub struct Proposal<'a> {
    pub number: u8,
    pub protocol: u8,
    pub spi: &'a [u8],
    transforms: &'a [u8],
}

pub struct Transform<'a> {
    pub number: u8,
    pub id: u8,
    /// All of it, with its own fields.
    pub bytes: &'a [u8],
    rules: &'static Rules,
}

pub fn proposals(body: &[u8]) -> impl Iterator<Item = Proposal<'_>> {
    items(&body[OWN_FIELDS_SIZE..], length_at_2).map(|proposal| {
        let (spi, transforms) = proposal[PROPOSAL_HEADER_SIZE..].split_at(proposal[6].into());
        Proposal { number: proposal[4], protocol: proposal[5], spi, transforms }
    })
}

/// "Proposals with equal number form one set": they stand behind each other, as numbers do not fall.
pub fn sets<'p, 'a>(proposals: &'p [Proposal<'a>]) -> impl Iterator<Item = &'p [Proposal<'a>]> {
    proposals.chunk_by(|one, next| one.number == next.number)
}

impl<'a> Proposal<'a> {
    pub fn transforms(&self) -> impl Iterator<Item = Transform<'a>> {
        let rules = if self.protocol == ISAKMP { &MAIN_RULES } else { &QUICK_RULES };
        items(self.transforms, length_at_2).map(move |transform| Transform {
            number: transform[4],
            id: transform[5],
            bytes: transform,
            rules,
        })
    }
}

/// What has its place in a transform as a whole: an attribute by itself, or a life type with its duration.
pub struct Whole {
    /// In a lifetime those of the life type.
    pub kind: u16,
    pub value: u64,
    /// Only a lifetime has one.
    pub duration: Option<u64>,
}

impl Transform<'_> {
    /// In the offer's order.
    pub fn wholes(&self) -> Vec<Whole> {
        let mut wholes: Vec<Whole> = Vec::new();
        for attribute in self.attributes() {
            match wholes.last_mut() {
                // It stands right behind its life type.
                Some(lifetime) if attribute.kind == self.rules.life_duration => {
                    lifetime.duration = Some(attribute.number());
                }
                _ => wholes.push(Whole { kind: attribute.kind, value: attribute.number(), duration: None }),
            }
        }
        wholes
    }

    fn attributes(&self) -> impl Iterator<Item = Attribute<'_>> {
        items(self.attribute_bytes(), attribute_length).map(Attribute::new)
    }

    pub fn attribute_bytes(&self) -> &[u8] {
        &self.bytes[TRANSFORM_HEADER_SIZE..]
    }
}

/// Items that stand behind each other, each with its length.
fn items(bytes: &[u8], length: fn(&[u8]) -> usize) -> impl Iterator<Item = &[u8]> {
    let mut left = bytes;
    std::iter::from_fn(move || {
        if left.is_empty() {
            return None;
        }
        let (item, rest) = left.split_at(length(left));
        left = rest;
        Some(item)
    })
}

fn length_at_2(item: &[u8]) -> usize {
    u16_at(item, 2).into()
}

fn attribute_length(attribute: &[u8]) -> usize {
    let variable = u16_at(attribute, 0) & SENT_FIXED == 0;
    ATTRIBUTE_HEADER_SIZE + if variable { length_at_2(attribute) } else { 0 }
}

#[cfg(test)]
pub mod tests {
    use super::*;
    use crate::message::QUICK_MODE;
    use Sent::*;

    /// An attribute; a life type and a duration of the types that the exchange has for them.
    #[derive(Clone, Copy)]
    pub enum Sent {
        LifeType(u16),
        Duration(u16),
        Other(u16, u16),
        VariableLifeType(&'static [u8]),
        VariableDuration(&'static [u8]),
        VariableOther(u16, &'static [u8]),
    }

    impl Sent {
        fn bytes(&self, rules: &Rules) -> Vec<u8> {
            let fixed = |kind: u16, value: u16| [(SENT_FIXED | kind).to_be_bytes(), value.to_be_bytes()].concat();
            let variable = |kind: u16, value: &[u8]| {
                [&kind.to_be_bytes(), (value.len() as u16).to_be_bytes().as_slice(), value].concat()
            };
            match *self {
                LifeType(value) => fixed(rules.life_type, value),
                Duration(value) => fixed(rules.life_duration, value),
                Other(kind, value) => fixed(kind, value),
                VariableLifeType(value) => variable(rules.life_type, value),
                VariableDuration(value) => variable(rules.life_duration, value),
                VariableOther(kind, value) => variable(kind, value),
            }
        }
    }

    /// One proposal of that protocol with one transform of that ID, which has these attributes.
    pub fn body(protocol: u8, id: u8, attributes: &[Sent]) -> Vec<u8> {
        let (rules, spi) = if protocol == ISAKMP { (&MAIN_RULES, vec![]) } else { (&QUICK_RULES, vec![1; 4]) };
        let attributes: Vec<u8> = attributes.iter().flat_map(|attribute| attribute.bytes(rules)).collect();
        let transform = [&[0, 0, 0, 8 + attributes.len() as u8, 1, id, 0, 0], attributes.as_slice()].concat();
        let length = (8 + spi.len() + transform.len()) as u8;
        let proposal = [&[0, 0, 0, length, 1, protocol, spi.len() as u8, 1], spi.as_slice(), &transform].concat();
        [&[0, 0, 0, 1, 0, 0, 0, 1], proposal.as_slice()].concat()
    }

    /// What these attributes are refused for, in both exchanges; 0 if they are read.
    fn answer(attributes: &[Sent]) -> Refusal {
        let main = check(MAIN_MODE, &body(ISAKMP, 1, attributes));
        let quick = check(QUICK_MODE, &body(ESP, 129, attributes));
        assert_eq!(main, quick);
        main.err().unwrap_or(0)
    }

    #[test]
    fn lifetimes_of_different_life_types_are_read_anywhere() {
        assert_eq!(answer(&[LifeType(1), Duration(3_600), LifeType(2), Duration(0)]), 0);
        assert_eq!(
            answer(&[Other(4, 1), LifeType(2), VariableDuration(&[1]), Other(5, 20), LifeType(1), Duration(1)]),
            0
        );
        assert_eq!(
            answer(&[LifeType(0), VariableDuration(&[0; 4]), LifeType(0x0100), Duration(1), LifeType(1), Duration(1)]),
            0
        );
    }

    #[test]
    fn a_duration_that_is_not_right_behind_a_life_type_is_15() {
        assert_eq!(answer(&[Duration(1)]), 15);
        assert_eq!(answer(&[Duration(1), LifeType(1), Duration(1)]), 15);
        assert_eq!(answer(&[Other(4, 1), VariableDuration(&[1])]), 15);
        assert_eq!(answer(&[LifeType(1), Duration(1), Duration(1)]), 15);
        assert_eq!(answer(&[LifeType(1), Duration(1), Other(4, 1), VariableDuration(&[1])]), 15);
    }

    #[test]
    fn a_life_type_value_that_is_repeated_is_15() {
        assert_eq!(answer(&[LifeType(1), Duration(1), LifeType(1), Duration(2)]), 15);
        assert_eq!(
            answer(&[LifeType(1), Duration(1), LifeType(2), Duration(1), Other(4, 1), LifeType(2), Duration(1)]),
            15
        );
        assert_eq!(answer(&[LifeType(9), Duration(1), LifeType(1), Duration(1), LifeType(9), Duration(1)]), 15);
    }

    #[test]
    fn something_else_behind_a_life_type_is_15() {
        assert_eq!(answer(&[LifeType(1), Other(4, 1)]), 15);
        assert_eq!(answer(&[LifeType(1), Other(4, 1), Duration(1)]), 15);
        assert_eq!(answer(&[LifeType(1), VariableOther(9, &[1]), Duration(1)]), 15);
        assert_eq!(answer(&[LifeType(1), LifeType(2), Duration(1)]), 15);
    }

    #[test]
    fn a_life_type_that_is_last_is_15() {
        assert_eq!(answer(&[LifeType(1)]), 15);
        assert_eq!(answer(&[LifeType(1), Duration(1), LifeType(2)]), 15);
        assert_eq!(answer(&[Other(4, 1), LifeType(1)]), 15);
    }

    #[test]
    fn the_number_of_a_life_type_is_what_all_its_bytes_spell() {
        let behind = |first: u16, bytes: &'static [u8]| {
            answer(&[LifeType(first), Duration(1), VariableLifeType(bytes), Duration(1)])
        };
        assert_eq!(behind(1, &[0, 0, 1]), 15);
        assert_eq!(behind(1, &[1, 0, 0, 0, 1]), 13);
        assert_eq!(behind(1, &[1]), 15);
        assert_eq!(behind(1, &[0; 1]), 13);
        assert_eq!(behind(1, &[0, 0, 0, 0, 0, 0, 0, 0, 0, 0, 0, 0, 0, 0, 0, 0, 0, 0, 0, 1]), 15);
        assert_eq!(behind(1, &[1, 0, 0, 0, 0, 0, 0, 0, 0, 0, 0, 0, 0, 0, 0, 0, 0, 0, 0, 1]), 13);
        assert_eq!(behind(1, &[1, 0]), 13);
        assert_eq!(behind(0x0102, &[1, 2]), 15);
        assert_eq!(behind(0, &[]), 15);
        assert_eq!(behind(0, &[0; 40]), 15);
        assert_eq!(behind(1, &[]), 13);
        assert_eq!(answer(&[VariableLifeType(&[1]), Duration(1)]), 13);
    }

    #[test]
    fn a_broken_pair_is_noticed_at_what_follows_before_its_own_13() {
        assert_eq!(answer(&[LifeType(1), VariableOther(4, &[1])]), 15);
        assert_eq!(answer(&[LifeType(1), VariableLifeType(&[2])]), 15);
        assert_eq!(answer(&[VariableDuration(&[])]), 15);
        assert_eq!(answer(&[LifeType(1), Duration(1), VariableDuration(&[0; 5])]), 15);
        assert_eq!(answer(&[LifeType(1), VariableDuration(&[])]), 13);
        assert_eq!(answer(&[LifeType(1), VariableDuration(&[0; 5])]), 13);
        // What comes earlier is noticed earlier.
        assert_eq!(answer(&[VariableOther(4, &[1]), LifeType(1)]), 13);
        assert_eq!(answer(&[VariableLifeType(&[1])]), 13);
        assert_eq!(answer(&[LifeType(1), VariableDuration(&[]), Duration(1)]), 13);
    }

    /// That many attributes by themselves, then these.
    fn behind(count: u16, attributes: Vec<Sent>) -> Vec<Sent> {
        (0..count).map(|place| Other(1_000 + place, 1)).chain(attributes).collect()
    }

    #[test]
    fn a_pair_may_end_at_the_sixteenth_attribute() {
        assert_eq!(answer(&behind(14, vec![LifeType(1), Duration(1)])), 0);
        assert_eq!(answer(&behind(15, vec![LifeType(1)])), 15);
        assert_eq!(answer(&behind(15, vec![LifeType(1), Duration(1)])), 15);
        assert_eq!(answer(&behind(15, vec![LifeType(1), VariableDuration(&[])])), 15);
        assert_eq!(answer(&behind(15, vec![VariableOther(4, &[1])])), 13);
        assert_eq!(answer(&behind(16, vec![VariableOther(4, &[1])])), 15);
        let pairs = |count: u16| (0..count).flat_map(|value| [LifeType(value), Duration(1)]).collect::<Vec<_>>();
        assert_eq!(answer(&pairs(8)), 0);
        assert_eq!(answer(&pairs(9)), 15);
    }

    #[test]
    fn any_other_type_occurs_once_and_stands_anywhere() {
        assert_eq!(answer(&[Other(4, 1), LifeType(1), Duration(1), Other(4, 2)]), 15);
        assert_eq!(answer(&[Other(9, 1), VariableOther(9, &[2])]), 15);
        // The life type and duration of one exchange are nothing in particular in the other.
        assert_eq!(check(QUICK_MODE, &body(AH, 20, &[Other(12, 1), Other(11, 1)])), Ok(()));
        assert_eq!(check(QUICK_MODE, &body(AH, 20, &[Other(11, 1), Other(11, 2)])), Err(15));
        assert_eq!(check(MAIN_MODE, &body(ISAKMP, 1, &[Other(2, 1), Other(1, 1)])), Ok(()));
        assert_eq!(check(MAIN_MODE, &body(ISAKMP, 1, &[Other(1, 1), Other(1, 2)])), Err(15));
    }
}
