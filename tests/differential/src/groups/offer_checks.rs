//! SA payloads: each check of a proposal, a transform and an attribute by itself, at its limit and one beyond.

use super::{Group, OFFER_ANSWERS, PLAIN};
use crate::cases::Cases;
use crate::checks::{Check, CHECKS};
use crate::layout::Length;
use crate::message::{message_of, Body, Message, HASH, MAIN_MODE, NONCE, QUICK_MODE, SA, VENDOR};
use crate::offer::{
    fixed, free_kind, is_fixed, is_of_lifetime, life_duration, life_type, lifetime, offer_of, random_attribute,
    random_attributes, random_proposal, random_transforms, transform, variable, Attribute, Offer, Sizes, Transform,
    Value, AH, ESP, ISAKMP, MOST_ATTRIBUTES, MOST_PROPOSALS, MOST_TRANSFORMS, SECONDS, SMALL,
};
use crate::random::Random;

pub const GROUP: Group = Group {
    name: "offer-checks",
    answers: OFFER_ANSWERS,
    at_least: 50,
    kinds: &[
        ("bytes left for the SA's own fields", bytes_left_for_own_fields),
        ("DOI and situation", doi_and_situation),
        ("number of proposals", numbers_of_proposals),
        ("bytes left for a proposal", bytes_left_for_a_proposal),
        ("proposal's next", proposal_next),
        ("proposal's reserved byte", proposal_reserved),
        ("proposal's length against its SPI size", proposal_length_and_spi_size),
        ("proposal's length against the SA's end", proposal_length_and_end),
        ("proposal numbers and protocols", numbers_and_protocols),
        ("every protocol", every_protocol),
        ("SPI size", spi_sizes),
        ("SPI", spis),
        ("announced count", announced_counts),
        ("number of transforms", numbers_of_transforms),
        ("bytes left over in a proposal", bytes_left_over),
        ("more than one proposal in exchange 2", more_in_exchange_2),
        ("bytes behind the last proposal", bytes_behind_the_last_proposal),
        ("bytes left for a transform", bytes_left_for_a_transform),
        ("transform's next", transform_next),
        ("transform's reserved fields", transform_reserved),
        ("transform's length", transform_lengths),
        ("transform's length against the proposal's end", transform_length_and_end),
        ("transform numbers", transform_numbers),
        ("bytes left for an attribute", bytes_left_for_an_attribute),
        ("attribute's length against the transform's end", attribute_length_and_end),
        ("number of attributes", numbers_of_attributes),
        ("attribute's type twice", types_twice),
        ("every attribute type", every_attribute_type),
        ("life duration", life_durations),
        ("check broken in an earlier proposal", earlier_proposals),
        ("check broken in an earlier transform", earlier_transforms),
        ("check broken in an earlier attribute", earlier_attributes),
    ],
    ..PLAIN
};

const PHASES: [u8; 2] = [MAIN_MODE, QUICK_MODE];

/// A lawful message with that offer, alone or among other payloads.
fn message_with(random: &mut Random, exchange: u8, offer: Offer) -> Message {
    let flag = random.below(2) as u8;
    let types: &[u8] = match random.below(3) {
        0 => &[SA],
        1 => &[SA, VENDOR],
        _ => &[HASH, SA, NONCE],
    };
    let mut message = message_of(random, exchange, flag, types, SMALL);
    *message.offer().expect("it has one") = offer;
    message
}

fn add(random: &mut Random, cases: &mut Cases, exchange: u8, offer: Offer, lawful: bool, number: u16) {
    cases.decided(&message_with(random, exchange, offer), lawful, number);
}

/// Both exchanges, so many times each, with a small lawful offer of one to three proposals.
fn every_offer(random: &mut Random, times: usize, mut make: impl FnMut(&mut Random, u8, Offer)) {
    for exchange in PHASES {
        for time in 0..times {
            let offer = offer_of(random, exchange, 1 + time % 3, SMALL);
            make(random, exchange, offer);
        }
    }
}

/// An offer whose last proposal has these transforms.
fn with_transforms(offer: &Offer, transforms: Vec<Transform>) -> Offer {
    let mut offer = offer.clone();
    offer.last_proposal().transforms = transforms;
    offer
}

/// An offer whose last transform has these attributes.
fn with_attributes(offer: &Offer, attributes: Vec<Attribute>) -> Offer {
    let mut offer = offer.clone();
    offer.last_transform().attributes = attributes;
    offer
}

fn bytes_left_for_own_fields(random: &mut Random, cases: &mut Cases) {
    every_offer(random, 6, |random, exchange, offer| {
        let mut message = message_with(random, exchange, offer);
        let at = message.offer_at().expect("it has one");
        let lawful = [0, 0, 0, 1, 0, 0, 0, 1];
        // Eight bytes are enough for these fields, and then a proposal is missing.
        for size in 0..=8 {
            for front in [lawful, [0, 0, 0, 2, 0, 0, 0, 1], [0; 8]] {
                message.payloads[at].body = Body::Bytes(front[..size].to_vec());
                let number = if size < 8 || front == lawful { 15 } else { 2 };
                cases.refused(&message, number);
            }
        }
    });
}

fn doi_and_situation(random: &mut Random, cases: &mut Cases) {
    every_offer(random, 3, |random, exchange, offer| {
        for value in (0..32).map(|bit| 1 << bit).chain([0, 3, 0x101, 0x10001, 0x0100_0001, 0xffff_ffff]) {
            add(random, cases, exchange, Offer { doi: value, ..offer.clone() }, value == 1, 2);
            add(random, cases, exchange, Offer { situation: value, ..offer.clone() }, value == 1, 3);
            if value != 1 {
                add(random, cases, exchange, Offer { doi: value, situation: value, ..offer.clone() }, false, 2);
            }
        }
    });
}

/// Lawful ones alone up to one too many and more; then one too many that is wrong otherwise.
fn numbers_of_proposals(random: &mut Random, cases: &mut Cases) {
    for count in (1..=MOST_PROPOSALS + 4).flat_map(|count| [count; 8]) {
        let offer = offer_of(random, QUICK_MODE, count, SMALL);
        add(random, cases, QUICK_MODE, offer, count <= MOST_PROPOSALS, 15);
    }
    for number in [0, 1, 200] {
        // Every number has a set of its own, or every two proposals share one.
        for shared in [1, 2] {
            for count in [MOST_PROPOSALS, MOST_PROPOSALS + 1] {
                let place = |index: usize| (number + (index / shared) as u8, [AH, ESP][index % 2]);
                let mut offer = offer_of(random, QUICK_MODE, 1, SMALL);
                offer.proposals = (0..count)
                    .map(|index| random_proposal(random, QUICK_MODE, place(index).0, place(index).1, SMALL))
                    .collect();
                add(random, cases, QUICK_MODE, offer.clone(), count <= MOST_PROPOSALS, 15);
                offer.last_proposal().protocol = 4;
                add(random, cases, QUICK_MODE, offer, false, if count <= MOST_PROPOSALS { 10 } else { 15 });
            }
        }
    }
}

fn bytes_left_for_a_proposal(random: &mut Random, cases: &mut Cases) {
    for _ in 0..10 {
        for size in 0..8 {
            let mut offer = offer_of(random, QUICK_MODE, 2, SMALL);
            offer.last_proposal().next = Some(2);
            for rest in [vec![0; size], random.bytes(size)] {
                add(random, cases, QUICK_MODE, Offer { rest, ..offer.clone() }, false, 15);
            }
        }
    }
}

/// On the last proposal only 0 is lawful, on one before it only 2.
fn proposal_next(random: &mut Random, cases: &mut Cases) {
    for next in 0..=255 {
        for exchange in PHASES {
            let mut offer = offer_of(random, exchange, 3, SMALL);
            let last = offer.proposals.len() - 1;
            for at in 0..=last {
                let mut offer = offer.clone();
                offer.proposals[at].next = Some(next);
                add(random, cases, exchange, offer, next == if at == last { 0 } else { 2 }, 15);
            }
            offer.last_proposal().next = Some(next);
            offer.last_proposal().protocol = 4;
            add(random, cases, exchange, offer, false, if matches!(next, 0 | 2) { 10 } else { 15 });
        }
    }
}

fn proposal_reserved(random: &mut Random, cases: &mut Cases) {
    every_offer(random, 3, |random, exchange, mut offer| {
        for reserved in 1..=255 {
            offer.last_proposal().reserved = reserved;
            add(random, cases, exchange, offer.clone(), false, 15);
        }
    });
}

/// An SPI that just fits is 11 if its size is wrong; one byte more is 15.
fn proposal_length_and_spi_size(random: &mut Random, cases: &mut Cases) {
    every_offer(random, 12, |random, exchange, mut offer| {
        let lawful_size = if exchange == MAIN_MODE { 0 } else { 4 };
        for size in (0..=12).chain([200, 247]) {
            let proposal = offer.last_proposal();
            proposal.transforms.clear();
            proposal.spi = vec![1; size];
            // There is no transform in it, so that even a lawful size ends with 15.
            add(random, cases, exchange, offer.clone(), false, if size == lawful_size { 15 } else { 11 });
            offer.last_proposal().spi_size = Some(size as u8 + 1);
            add(random, cases, exchange, offer.clone(), false, 15);
            offer.last_proposal().spi_size = None;
            // A length that is too short is found before a wrong protocol.
            for length in [0, 7, 7 + size, 8 + size] {
                let mut offer = offer.clone();
                offer.last_proposal().length = Length::Is(length);
                offer.last_proposal().protocol = 4;
                add(random, cases, exchange, offer, false, if length < 8 + size { 15 } else { 10 });
            }
        }
    });
}

/// An attribute at the end whose value, with every length around it but the outermost ones, takes a byte too many.
fn reaching_out(exchange: u8, number: u8) -> Transform {
    transform(
        number,
        1,
        vec![Attribute { kind: free_kind(exchange), value: Value::Variable(Length::More(1), vec![7, 7]) }],
    )
}

/// The byte too many is the next payload's, and everything else would be lawful.
fn proposal_length_and_end(random: &mut Random, cases: &mut Cases) {
    every_offer(random, 30, |random, exchange, offer| {
        let mut offer =
            with_transforms(&offer, vec![Transform { length: Length::More(1), ..reaching_out(exchange, 1) }]);
        offer.last_proposal().length = Length::More(1);
        let mut message = message_of(random, exchange, 0, &[SA, VENDOR], SMALL);
        *message.offer().expect("it has one") = offer.clone();
        cases.refused(&message, 15);
        // With a protocol that is wrong as well.
        message.offer().expect("it has one").last_proposal().protocol = 4;
        cases.refused(&message, 15);
        // One byte less is lawful.
        let proposal = message.offer().expect("it has one").last_proposal();
        proposal.protocol = offer.proposals[offer.proposals.len() - 1].protocol;
        proposal.length = Length::Right;
        proposal.transforms = vec![transform(1, 1, vec![variable(free_kind(exchange), vec![7, 7])])];
        cases.lawful(&message);
    });
}

/// Lawful if no number falls and no protocol stands twice under one number.
fn are_lawful(places: &[(u8, u8)]) -> bool {
    let risen = places.windows(2).all(|two| two[0].0 <= two[1].0);
    let once = (0..places.len()).all(|index| !places[..index].contains(&places[index]));
    risen && once
}

fn numbers_and_protocols(random: &mut Random, cases: &mut Cases) {
    let places: Vec<_> = [0, 1, 2, 255].into_iter().flat_map(|number| [(number, AH), (number, ESP)]).collect();
    let mut add_places = |random: &mut Random, places: &[(u8, u8)]| {
        let mut offer = offer_of(random, QUICK_MODE, 1, SMALL);
        let sizes = Sizes { transforms: 1, ..SMALL };
        let make = |&(number, protocol): &(u8, u8)| random_proposal(random, QUICK_MODE, number, protocol, sizes);
        offer.proposals = places.iter().map(make).collect();
        add(random, cases, QUICK_MODE, offer, are_lawful(places), 15);
    };
    for &first in &places {
        for &second in &places {
            add_places(random, &[first, second]);
            for &third in &places {
                add_places(random, &[first, second, third]);
            }
        }
    }
    for _ in 0..800 {
        let count = random.between(4, 6);
        let mut drawn: Vec<_> = (0..count).map(|_| (random.below(6) as u8, random.one_of(&[AH, ESP]))).collect();
        if !random.once_in(4) {
            drawn.sort_by_key(|&(number, _)| number);
        }
        add_places(random, &drawn);
    }
}

fn every_protocol(random: &mut Random, cases: &mut Cases) {
    for protocol in 0..=255 {
        every_offer(random, 2, |random, exchange, mut offer| {
            // By itself, so that it is the first of its set.
            offer.proposals.truncate(1);
            offer.last_proposal().protocol = protocol;
            let lawful = if exchange == MAIN_MODE { protocol == ISAKMP } else { matches!(protocol, AH | ESP) };
            add(random, cases, exchange, offer.clone(), lawful, 10);
            offer.last_proposal().spi = vec![0; 3];
            add(random, cases, exchange, offer, false, if lawful { 11 } else { 10 });
        });
    }
}

/// With as many bytes as it says, so that everything behind stands where it should.
fn spi_sizes(random: &mut Random, cases: &mut Cases) {
    every_offer(random, 4, |random, exchange, mut offer| {
        let lawful_size = if exchange == MAIN_MODE { 0 } else { 4 };
        for size in (0..=12).chain([16, 127, 128, 255]) {
            offer.last_proposal().spi = vec![1; size];
            add(random, cases, exchange, offer.clone(), size == lawful_size, 11);
            offer.last_proposal().count = Some(9);
            add(random, cases, exchange, offer.clone(), false, if size == lawful_size { 15 } else { 11 });
            offer.last_proposal().count = None;
        }
    });
}

fn spis(random: &mut Random, cases: &mut Cases) {
    let limits = [0, 1, 127, 128, 254, 255, 256, 257, 258, 511, 512, 65_535, 65_536, 0x00ff_ffff, u32::MAX];
    for spi in limits.into_iter().chain((0..32).map(|bit| 1 << bit)) {
        for at in 0..3 {
            let mut offer = offer_of(random, QUICK_MODE, 3, SMALL);
            offer.proposals[at].spi = spi.to_be_bytes().to_vec();
            add(random, cases, QUICK_MODE, offer.clone(), spi >= 256, 11);
            offer.proposals[at].count = Some(0);
            add(random, cases, QUICK_MODE, offer, false, if spi >= 256 { 15 } else { 11 });
        }
    }
}

/// More, fewer, or just as many as are there.
fn announced_counts(random: &mut Random, cases: &mut Cases) {
    for count in 0..=255 {
        every_offer(random, 3, |random, exchange, mut offer| {
            let there = offer.last_proposal().transforms.len();
            offer.last_proposal().count = Some(count);
            add(random, cases, exchange, offer.clone(), usize::from(count) == there, 15);
            // A count that is out of bounds is found before an attribute that is coded wrongly.
            offer.last_proposal().transforms[0].attributes = vec![random_wrongly_coded(random, exchange)];
            if usize::from(count) == there {
                add(random, cases, exchange, offer, false, 13);
            } else if usize::from(count) > MOST_TRANSFORMS {
                add(random, cases, exchange, offer, false, 15);
            }
        });
    }
}

fn random_wrongly_coded(random: &mut Random, exchange: u8) -> Attribute {
    let kinds: Vec<_> = (0..=20).filter(|&kind| is_fixed(exchange, kind)).collect();
    variable(random.one_of(&kinds), vec![0, 1])
}

fn numbers_of_transforms(random: &mut Random, cases: &mut Cases) {
    for count in 0..=MOST_TRANSFORMS + 8 {
        every_offer(random, 6, |random, exchange, offer| {
            let transforms = random_transforms(random, exchange, count, 2);
            let lawful = (1..=MOST_TRANSFORMS).contains(&count);
            add(random, cases, exchange, with_transforms(&offer, transforms), lawful, 15);
        });
    }
}

fn bytes_left_over(random: &mut Random, cases: &mut Cases) {
    every_offer(random, 9, |random, exchange, offer| {
        for size in 1..=20 {
            for at in 0..offer.proposals.len() {
                let mut offer = offer.clone();
                offer.proposals[at].rest = random.bytes(size);
                add(random, cases, exchange, offer, false, 15);
            }
        }
        // What is left over is itself a lawful transform.
        let mut offer = with_transforms(&offer, random_transforms(random, exchange, 3, 2));
        offer.last_proposal().count = Some(2);
        offer.last_proposal().transforms[1].next = Some(0);
        add(random, cases, exchange, offer, false, 15);
    });
}

/// Two lawful proposals; a wrong transform in the first comes before, a wrong second proposal is never reached.
fn more_in_exchange_2(random: &mut Random, cases: &mut Cases) {
    for count in [2, 3, 16, 17] {
        for _ in 0..20 {
            let mut offer = offer_of(random, MAIN_MODE, 1, SMALL);
            for more in 1..count {
                let number = offer.proposals[0].number + more;
                offer.proposals.push(random_proposal(random, MAIN_MODE, number, ISAKMP, SMALL));
            }
            add(random, cases, MAIN_MODE, offer.clone(), false, 15);
            let mut wrong_second = offer.clone();
            wrong_second.proposals[1].protocol = AH;
            add(random, cases, MAIN_MODE, wrong_second, false, 15);
            offer.proposals[0].transforms[0].attributes = vec![random_wrongly_coded(random, MAIN_MODE)];
            add(random, cases, MAIN_MODE, offer, false, 13);
        }
    }
}

fn bytes_behind_the_last_proposal(random: &mut Random, cases: &mut Cases) {
    every_offer(random, 9, |random, exchange, mut offer| {
        for size in 1..=20 {
            for rest in [vec![0; size], random.bytes(size)] {
                add(random, cases, exchange, Offer { rest, ..offer.clone() }, false, 15);
            }
        }
        // What stands behind it is itself a lawful proposal.
        let last = offer.proposals.len() - 1;
        let number = offer.proposals[last].number + 1;
        let protocol = offer.proposals[last].protocol;
        offer.proposals[last].next = Some(0);
        offer.proposals.push(random_proposal(random, exchange, number, protocol, SMALL));
        add(random, cases, exchange, offer, false, 15);
    });
}

fn bytes_left_for_a_transform(random: &mut Random, cases: &mut Cases) {
    every_offer(random, 6, |random, exchange, mut offer| {
        offer.last_transform().next = Some(3);
        let count = offer.last_proposal().transforms.len() as u8;
        offer.last_proposal().count = Some(count + 1);
        for size in 0..8 {
            for rest in [vec![0; size], random.bytes(size)] {
                offer.last_proposal().rest = rest;
                add(random, cases, exchange, offer.clone(), false, 15);
            }
        }
    });
}

/// On the last transform only 0 is lawful, on one before it only 3.
fn transform_next(random: &mut Random, cases: &mut Cases) {
    for next in 0..=255 {
        every_offer(random, 2, |random, exchange, offer| {
            let transforms = random_transforms(random, exchange, 3, 2);
            for at in 0..transforms.len() {
                let mut transforms = transforms.clone();
                transforms[at].next = Some(next);
                let lawful = next == if at + 1 == transforms.len() { 0 } else { 3 };
                add(random, cases, exchange, with_transforms(&offer, transforms), lawful, 15);
            }
        });
    }
}

fn transform_reserved(random: &mut Random, cases: &mut Cases) {
    every_offer(random, 2, |random, exchange, offer| {
        let transforms = random_transforms(random, exchange, 2, 2);
        for at in 0..2 {
            let mut add_changed = |random: &mut Random, change: &dyn Fn(&mut Transform)| {
                let mut transforms = transforms.clone();
                change(&mut transforms[at]);
                add(random, cases, exchange, with_transforms(&offer, transforms), false, 15);
            };
            (1..=255).for_each(|byte| add_changed(random, &|transform| transform.reserved = byte));
            (0..16).for_each(|bit| add_changed(random, &|transform| transform.second_reserved = 1 << bit));
        }
    });
}

/// Under 8; and one byte more or less than there is.
fn transform_lengths(random: &mut Random, cases: &mut Cases) {
    every_offer(random, 6, |random, exchange, offer| {
        let attributes = vec![random_attribute(random, exchange, 4)];
        let transforms = vec![transform(1, 1, attributes.clone()), transform(2, 1, attributes)];
        for length in (0..8).map(Length::Is).chain([Length::Less(1), Length::More(1), Length::PastEnd(1)]) {
            for at in 0..2 {
                let mut transforms = transforms.clone();
                transforms[at].length = length;
                add(random, cases, exchange, with_transforms(&offer, transforms), false, 15);
            }
        }
        // No attributes at all are lawful.
        add(random, cases, exchange, with_transforms(&offer, vec![transform(1, 1, Vec::new())]), true, 15);
    });
}

/// The byte too many is the next proposal's, and everything else would be lawful.
fn transform_length_and_end(random: &mut Random, cases: &mut Cases) {
    for _ in 0..60 {
        let mut offer = offer_of(random, QUICK_MODE, 2, SMALL);
        offer.proposals[0].transforms = vec![Transform { length: Length::More(1), ..reaching_out(QUICK_MODE, 1) }];
        add(random, cases, QUICK_MODE, offer.clone(), false, 15);
        offer.proposals[0].transforms = vec![transform(1, 1, vec![variable(free_kind(QUICK_MODE), vec![7, 7])])];
        add(random, cases, QUICK_MODE, offer, true, 15);
    }
}

fn transform_numbers(random: &mut Random, cases: &mut Cases) {
    const NUMBERS: [u8; 5] = [0, 1, 2, 254, 255];
    every_offer(random, 3, |random, exchange, offer| {
        for first in NUMBERS {
            for second in NUMBERS {
                for third in NUMBERS {
                    let numbers = [first, second, third];
                    let transforms = numbers.map(|number| transform(number, 1, vec![fixed(4, 1)])).to_vec();
                    let lawful = first < second && second < third;
                    add(random, cases, exchange, with_transforms(&offer, transforms), lawful, 15);
                }
            }
        }
    });
}

fn bytes_left_for_an_attribute(random: &mut Random, cases: &mut Cases) {
    every_offer(random, 20, |random, exchange, mut offer| {
        for size in 1..4 {
            for rest in [vec![0; size], vec![0x80; size], random.bytes(size)] {
                offer.last_transform().rest = rest;
                add(random, cases, exchange, offer.clone(), false, 15);
            }
        }
        // Exactly enough for an empty value, of a type that may have one.
        offer.last_transform().rest.clear();
        offer.last_transform().attributes = vec![variable(free_kind(exchange), Vec::new())];
        add(random, cases, exchange, offer, true, 15);
    });
}

/// The byte too many is the next transform's, and everything else would be lawful.
fn attribute_length_and_end(random: &mut Random, cases: &mut Cases) {
    every_offer(random, 60, |random, exchange, offer| {
        let behind = transform(2, 1, Vec::new());
        let reaching = vec![reaching_out(exchange, 1), behind.clone()];
        add(random, cases, exchange, with_transforms(&offer, reaching), false, 15);
        // A life duration with a byte too many is out of bounds first.
        let value = Value::Variable(Length::More(1), vec![0; 4]);
        let duration = Attribute { kind: life_duration(exchange), value };
        let lasting = transform(1, 1, lifetime(exchange, SECONDS, duration));
        add(random, cases, exchange, with_transforms(&offer, vec![lasting, behind.clone()]), false, 15);
        let within = transform(1, 1, vec![variable(free_kind(exchange), vec![7, 7])]);
        add(random, cases, exchange, with_transforms(&offer, vec![within, behind]), true, 15);
    });
}

fn numbers_of_attributes(random: &mut Random, cases: &mut Cases) {
    for count in 0..=MOST_ATTRIBUTES + 4 {
        every_offer(random, 9, |random, exchange, offer| {
            let attributes = random_attributes(random, exchange, count);
            let lawful = count <= MOST_ATTRIBUTES;
            add(random, cases, exchange, with_attributes(&offer, attributes), lawful, 15);
            // The last one is coded wrongly.
            let fault = random_wrongly_coded(random, exchange);
            let mut others = random_attributes(random, exchange, count.saturating_sub(1));
            if count > 0 && others.iter().all(|other| other.kind != fault.kind) {
                others.push(fault);
                add(random, cases, exchange, with_attributes(&offer, others), false, if lawful { 13 } else { 15 });
            }
        });
    }
}

/// In one transform, sent in either way at any two places; in two transforms it is lawful. The life type and duration of
/// each exchange are nothing in particular in the other.
fn types_twice(random: &mut Random, cases: &mut Cases) {
    every_offer(random, 3, |random, exchange, offer| {
        let kinds = [0, 1, 2, 5, 6, 9, 11, 12, 14, 20, 300, 0x7ffe, 0x7fff];
        for kind in kinds.into_iter().filter(|&kind| !is_of_lifetime(exchange, kind)) {
            for (first, second) in [(0, 1), (0, 5), (3, 4), (2, 15), (14, 15)] {
                let mut attributes: Vec<_> = (0..16).map(|place| fixed(1_000 + place, place)).collect();
                attributes[first] = random_attribute(random, exchange, kind);
                add(random, cases, exchange, with_attributes(&offer, attributes.clone()), true, 15);
                for again in [fixed(kind, 1), variable(kind, vec![0, 1]), variable(kind, vec![0; 5])] {
                    attributes[second] = again;
                    add(random, cases, exchange, with_attributes(&offer, attributes.clone()), false, 15);
                }
            }
            let same = vec![random_attribute(random, exchange, kind)];
            let two = vec![transform(1, 1, same.clone()), transform(2, 1, same)];
            add(random, cases, exchange, with_transforms(&offer, two), true, 15);
        }
    });
}

/// Those of a lifetime with the other one beside them.
fn every_attribute_type(random: &mut Random, cases: &mut Cases) {
    let kinds = (0..=64).chain([127, 128, 255, 256, 257, 0x1001, 0x2001, 0x4001, 0x4002, 0x4014, 0x7ffe, 0x7fff]);
    for kind in kinds {
        every_offer(random, 6, |random, exchange, offer| {
            let whole = |attribute: Attribute| match kind {
                kind if kind == life_type(exchange) => vec![attribute, fixed(life_duration(exchange), 1)],
                kind if kind == life_duration(exchange) => lifetime(exchange, SECONDS, attribute),
                _ => vec![attribute],
            };
            add(random, cases, exchange, with_attributes(&offer, whole(fixed(kind, 1))), true, 13);
            let sent_variable = whole(variable(kind, vec![0, 1]));
            let lawful = !is_fixed(exchange, kind);
            add(random, cases, exchange, with_attributes(&offer, sent_variable), lawful, 13);
        });
    }
}

/// The duration of each exchange is nothing in particular in the other; in exchange 2 type 2 is fixed.
fn life_durations(random: &mut Random, cases: &mut Cases) {
    for size in 0..=9 {
        every_offer(random, 9, |random, exchange, offer| {
            let duration = variable(life_duration(exchange), random.bytes(size));
            let lasting = lifetime(exchange, SECONDS, duration);
            add(random, cases, exchange, with_attributes(&offer, lasting), (1..=4).contains(&size), 13);
            let other_exchange = if exchange == MAIN_MODE { QUICK_MODE } else { MAIN_MODE };
            let other = variable(life_duration(other_exchange), random.bytes(size));
            add(random, cases, exchange, with_attributes(&offer, vec![other]), exchange == QUICK_MODE, 13);
            let free = variable(free_kind(exchange), random.bytes(size));
            add(random, cases, exchange, with_attributes(&offer, vec![free]), true, 13);
        });
    }
}

fn checks_from(first: &str, last: &str) -> &'static [Check] {
    let at = |name: &str| CHECKS.iter().position(|check| check.name == name).expect("there is such a check");
    &CHECKS[at(first)..=at(last)]
}

/// Breaks a check in the front of an offer, puts the back behind it, and breaks another there.
fn earlier(
    random: &mut Random,
    cases: &mut Cases,
    exchange: u8,
    checks: &[Check],
    split: fn(&mut Offer) -> Offer,
    join: fn(&mut Offer, Offer),
) {
    for check in checks {
        for later in checks {
            let count = if exchange == MAIN_MODE { 1 } else { 2 };
            let mut offer = offer_of(random, exchange, count, Sizes { transforms: 1, ..SMALL });
            let back = split(&mut offer);
            let mut front = message_with(random, exchange, offer);
            let mut back = message_with(random, exchange, back);
            if (check.breaks)(random, &mut front) && (later.breaks)(random, &mut back) {
                join(front.offer().expect("it has one"), back.offer().expect("it has one").clone());
                cases.detail = format!("{}, then {}", check.name, later.name);
                cases.refused(&front, check.number);
            }
        }
    }
}

fn earlier_proposals(random: &mut Random, cases: &mut Cases) {
    let checks = checks_from("proposal's next", "bytes left over in a proposal");
    let split = |offer: &mut Offer| {
        let mut back = offer.clone();
        back.proposals.remove(0);
        offer.proposals.truncate(1);
        back
    };
    let join = |front: &mut Offer, back: Offer| front.proposals.extend(back.proposals);
    earlier(random, cases, QUICK_MODE, checks, split, join);
}

fn earlier_transforms(random: &mut Random, cases: &mut Cases) {
    let checks = checks_from("transform's reserved byte", "life type last");
    let split = |offer: &mut Offer| {
        let mut back = offer.clone();
        back.last_transform().number += 50;
        back
    };
    let join = |front: &mut Offer, mut back: Offer| {
        let transforms = std::mem::take(&mut back.last_proposal().transforms);
        front.last_proposal().transforms.extend(transforms);
    };
    for exchange in PHASES {
        earlier(random, cases, exchange, checks, split, join);
    }
}

/// An attribute that is out of bounds leaves none behind it, and a life type is not last if there is one.
fn earlier_attributes(random: &mut Random, cases: &mut Cases) {
    let checks = checks_from("attribute's type twice", "life duration's size");
    let split = |offer: &mut Offer| offer.clone();
    let join = |front: &mut Offer, mut back: Offer| {
        let attributes = std::mem::take(&mut back.last_transform().attributes);
        front.last_transform().attributes.extend(attributes);
    };
    for exchange in PHASES {
        for _ in 0..20 {
            earlier(random, cases, exchange, checks, split, join);
        }
    }
}
