//! The checks of a reading in document 01's order, each with a way to break it that leaves the checks before it met.

use crate::layout::{get, Length};
use crate::message::{
    opaque, Body, Message, Payload, Rest, CERTIFICATE, HASH, IDENTITY, INFORMATIONAL, LONGEST, MAIN_MODE,
    MOST_PAYLOADS, NONCE, QUICK_MODE, SA, VENDOR,
};
use crate::offer::{
    self, fixed, free_kind, is_fixed, is_of_lifetime, items, life_duration, life_type, lifetime, random_lifetime,
    variable, Attribute, Item, Offer, Transform, Value, AH, ESP, MOST_ATTRIBUTES, MOST_PROPOSALS, SMALL,
};
use crate::random::Random;

pub struct Check {
    pub name: &'static str,
    pub number: u16,
    /// Breaks it, also where later checks are broken already; `false` where the message has no place for that.
    pub breaks: fn(&mut Random, &mut Message) -> bool,
}

const fn check(name: &'static str, number: u16, breaks: fn(&mut Random, &mut Message) -> bool) -> Check {
    Check { name, number, breaks }
}

/// Those of a payload's own header are broken at the SA payload; those of a proposal, a transform or an attribute at
/// the last one; those of the other bodies at a payload that is put in behind the SA payload.
pub const CHECKS: &[Check] = &[
    check("length unlike the header's", 30, length_unlike),
    check("over 8,192 bytes", 30, too_long),
    check("major version", 5, |random, message| {
        message.version = random.one_of(&[0x00, 0x20, 0xf0]) | message.version & 15;
        true
    }),
    check("minor version", 6, |random, message| {
        message.version = message.version & 0xf0 | random.one_of(&[0, 2, 15]);
        true
    }),
    check("exchange 1 or 3", 29, |random, message| {
        message.exchange = random.one_of(&[1, 3]);
        true
    }),
    check("exchange unknown", 7, |random, message| {
        message.exchange = random.one_of(&[0, 4, 6, 31, 33, 34, 255]);
        true
    }),
    check("flags", 8, |random, message| {
        message.flags |= random.one_of(&[2, 4, 128]);
        true
    }),
    check("initiator cookie zero", 4, |_, message| {
        message.initiator = 0;
        true
    }),
    check("responder cookie zero", 4, |_, message| {
        message.responder = 0;
        message.exchange == QUICK_MODE
    }),
    check("message ID", 9, message_id),
    check("flag 1 and no whole blocks", 30, |random, message| {
        message.rest = Rest::More(random.between(1, 15));
        message.flags == 1
    }),
    check("no first payload", 16, |_, message| {
        message.first = Some(0);
        true
    }),
    check("33rd payload", 16, |random, message| {
        let before = (0..MOST_PAYLOADS).map(|_| opaque(random.one_of(&[VENDOR, 4, 128]), Vec::new()));
        message.payloads.splice(..0, before);
        true
    }),
    check("payload's type", 1, |random, message| {
        let kind = unlawful_type(random, message.exchange);
        at_offer(message, |payload| payload.kind = kind)
    }),
    check("under 4 bytes for a payload", 16, cut_payload),
    check("payload's reserved byte", 16, |random, message| {
        let byte = nonzero(random);
        at_offer(message, |payload| payload.reserved = byte)
    }),
    check("payload's length under 4", 30, |random, message| {
        let length = Length::Is(random.below(4));
        at_offer(message, |payload| payload.length = length)
    }),
    check("payload past the end", 30, |random, message| {
        let length = Length::PastEnd(random.one_of(&[1, 2, 16, 40_000]));
        at_offer(message, |payload| payload.length = length)
    }),
    check("SA body under 8 bytes", 15, |random, message| {
        let size = random.below(8);
        let bytes = random.bytes(size);
        message.offer().is_some() && at_offer(message, |payload| payload.body = Body::Bytes(bytes))
    }),
    check("DOI", 2, |random, message| in_offer(message, |offer| offer.doi = not_1(random))),
    check("situation", 3, |random, message| in_offer(message, |offer| offer.situation = not_1(random))),
    check("17th proposal", 15, proposals_before),
    check("under 8 bytes for a proposal", 15, |random, message| in_offer(message, |offer| cut_proposal(random, offer))),
    check("proposal's next", 15, |random, message| {
        in_offer(message, |offer| offer.last_proposal().next = Some(random.one_of(&[1, 3, 4, 255])))
    }),
    check("proposal's reserved byte", 15, |random, message| {
        in_offer(message, |offer| offer.last_proposal().reserved = nonzero(random))
    }),
    check("proposal's length below 8 plus SPI size", 15, |random, message| {
        in_offer(message, |offer| {
            let least = 8 + offer.last_proposal().spi.len();
            offer.last_proposal().length = Length::Is(random.one_of(&[0, 7, least - 1]));
        })
    }),
    check("proposal past the SA's end", 15, |random, message| {
        in_offer(message, |offer| offer.last_proposal().length = Length::PastEnd(random.one_of(&[1, 2, 40_000])))
    }),
    check("proposal's number below the one before", 15, |random, message| {
        proposal_before_last(random, message, |before, last| before.number = last.number + 1)
    }),
    check("protocol already in its set", 15, |random, message| {
        proposal_before_last(random, message, |before, last| {
            last.protocol = before.protocol;
            before.number = last.number;
        })
    }),
    check("protocol", 10, |random, message| {
        let protocols: &[u8] = if message.exchange == MAIN_MODE { &[0, 2, 3, 4, 255] } else { &[0, 1, 4, 255] };
        in_offer(message, |offer| offer.last_proposal().protocol = random.one_of(protocols))
    }),
    check("SPI size", 11, |random, message| {
        let sizes: &[usize] = if message.exchange == MAIN_MODE { &[1, 4, 8] } else { &[0, 1, 3, 5, 8] };
        in_offer(message, |offer| offer.last_proposal().spi = vec![1; random.one_of(sizes)])
    }),
    check("SPI below 256", 11, |random, message| {
        let quick = message.exchange == QUICK_MODE;
        quick && in_offer(message, |offer| offer.last_proposal().spi = vec![0, 0, 0, random.one_of(&[0, 1, 255])])
    }),
    check("announced count", 15, |random, message| {
        in_offer(message, |offer| offer.last_proposal().count = Some(random.one_of(&[0, 9, 255])))
    }),
    check("under 8 bytes for a transform", 15, |random, message| {
        in_offer(message, |offer| cut_transform(random, offer))
    }),
    check("transform's next", 15, |random, message| {
        in_offer(message, |offer| offer.last_transform().next = Some(random.one_of(&[1, 2, 3, 255])))
    }),
    check("transform's reserved byte", 15, |random, message| {
        in_offer(message, |offer| offer.last_transform().reserved = nonzero(random))
    }),
    check("transform's length under 8", 15, |random, message| {
        in_offer(message, |offer| offer.last_transform().length = Length::Is(random.below(8)))
    }),
    check("transform past the proposal's end", 15, |random, message| {
        in_offer(message, |offer| offer.last_transform().length = Length::PastEnd(random.one_of(&[1, 2, 40_000])))
    }),
    check("transform's second reserved field", 15, |random, message| {
        in_offer(message, |offer| offer.last_transform().second_reserved = random.one_of(&[1, 256, 65_535]))
    }),
    check("transform's number not above the one before", 15, |_, message| {
        in_offer(message, |offer| {
            let same = offer::transform(offer.last_transform().number, 1, Vec::new());
            let transforms = &mut offer.last_proposal().transforms;
            transforms.insert(transforms.len() - 1, same);
        })
    }),
    check("attribute's first bytes past the transform's end", 15, |random, message| {
        in_items(message, |_, items| drop(items.pop()))
            && in_transform(message, |_, transform| {
                let size = random.between(1, 3);
                transform.rest = random.bytes(size);
            })
    }),
    check("attribute's value past the transform's end", 15, |random, message| {
        in_items(message, |_, items| {
            let attribute = items.last_mut().and_then(|item| item.last_mut()).expect("it has one");
            attribute.value = Value::Variable(Length::PastEnd(random.one_of(&[1, 2, 40_000])), random.bytes(3));
        })
    }),
    check("17th attribute", 15, |random, message| {
        in_transform(message, |exchange, transform| {
            let before = lawful_attributes_beside(random, exchange, transform);
            transform.attributes.splice(..0, before);
        })
    }),
    check("attribute's type twice", 15, |random, message| {
        in_items(message, |exchange, items| type_twice(random, exchange, items))
    }),
    check("duration not right behind a life type", 15, |random, message| {
        in_items(message, |exchange, items| duration_without_life_type(random, exchange, items))
    }),
    check("life type's value repeated", 15, |random, message| {
        in_items(message, |exchange, items| life_type_repeated(random, exchange, items))
    }),
    check("something else behind a life type", 15, |random, message| {
        in_items(message, |exchange, items| {
            let alone = fixed(life_type(exchange), unused_value(random, exchange, items));
            items.insert(items.len() - 1, vec![alone]);
        })
    }),
    check("fixed type sent variable", 13, |random, message| {
        in_items(message, |exchange, items| {
            let kinds: Vec<_> = (0..=20).filter(|&kind| is_fixed(exchange, kind)).collect();
            let kind = random.one_of(&kinds);
            let size = random.one_of(&[0, 1, 2, 4]);
            items.pop();
            items.retain(|before| before[0].kind != kind);
            items.push(vec![variable(kind, random.bytes(size))]);
        })
    }),
    check("life duration's size", 13, |random, message| {
        in_items(message, |exchange, items| {
            let size = random.one_of(&[0, 5, 6, 8]);
            let duration = variable(life_duration(exchange), random.bytes(size));
            items.pop();
            items.push(lifetime(exchange, unused_value(random, exchange, items), duration));
        })
    }),
    check("life type last", 15, |random, message| {
        in_items(message, |exchange, items| {
            let alone = fixed(life_type(exchange), unused_value(random, exchange, items));
            items.push(vec![alone]);
        })
    }),
    check("bytes left over in a proposal", 15, |random, message| {
        in_offer(message, |offer| {
            let size = random.one_of(&[1, 7, 8, 9]);
            offer.last_proposal().rest = random.bytes(size);
        })
    }),
    check("next 2 with exchange 2", 15, |_, message| {
        let main = message.exchange == MAIN_MODE;
        main && in_offer(message, |offer| offer.last_proposal().next = Some(2))
    }),
    check("bytes behind the last proposal", 15, |random, message| {
        in_offer(message, |offer| {
            let size = random.one_of(&[1, 7, 8, 20]);
            offer.rest = random.bytes(size);
        })
    }),
    check("second SA payload", 15, |random, message| {
        let size = random.below(40);
        message.offer().is_some() && behind_offer(message, opaque(SA, random.bytes(size)))
    }),
    check("later payload's type", 1, |random, message| {
        let kind = unlawful_type(random, message.exchange);
        behind_offer(message, opaque(kind, Vec::new()))
    }),
    check("later payload's reserved byte", 16, |random, message| {
        behind_offer(message, Payload { reserved: nonzero(random), ..opaque(NONCE, vec![0; 8]) })
    }),
    check("later payload's length under 4", 30, |random, message| {
        behind_offer(message, Payload { length: Length::Is(random.below(4)), ..opaque(HASH, vec![0; 32]) })
    }),
    check("later payload past the end", 30, |_, message| {
        behind_offer(message, Payload { length: Length::PastEnd(1), ..opaque(HASH, vec![0; 32]) })
    }),
    check("hash's size", 16, |random, message| {
        let size = random.one_of(&[0, 31, 33, 64]);
        behind_offer(message, opaque(HASH, random.bytes(size)))
    }),
    check("nonce's size", 16, |random, message| {
        let size = random.one_of(&[0, 7, 257]);
        behind_offer(message, opaque(NONCE, random.bytes(size)))
    }),
    check("certificate empty", 16, |_, message| behind_offer(message, opaque(CERTIFICATE, Vec::new()))),
    check("certificate's encoding", 19, |random, message| {
        behind_offer(message, opaque(CERTIFICATE, vec![random.one_of(&[0, 3, 6, 255])]))
    }),
    check("identity", 18, |random, message| {
        let size = random.below(4);
        message.exchange != INFORMATIONAL && behind_offer(message, opaque(IDENTITY, random.bytes(size)))
    }),
    check("rest with flag 0", 30, |random, message| {
        message.rest = Rest::More(random.one_of(&[1, 15, 16]));
        message.flags == 0
    }),
    check("rest over 15 bytes", 30, |_, message| {
        message.rest = Rest::More(16);
        message.flags == 1
    }),
    check("nonzero byte in the rest", 16, |random, message| {
        message.leave(random.between(1, 15));
        message.rest = Rest::Nonzero;
        message.flags == 1
    }),
];

fn nonzero(random: &mut Random) -> u8 {
    random.one_of(&[1, 2, 128, 255])
}

fn not_1(random: &mut Random) -> u32 {
    random.one_of(&[0, 2, 257, 65_537, 16_777_217])
}

pub fn unlawful_type(random: &mut Random, exchange: u8) -> u8 {
    let kinds: &[u8] = &[2, 3, 14, 19, 22, 127, 129, 255, SA, IDENTITY];
    let lawful_elsewhere = if exchange == INFORMATIONAL { 0 } else { 2 };
    random.one_of(&kinds[..kinds.len() - lawful_elsewhere])
}

fn length_unlike(random: &mut Random, message: &mut Message) -> bool {
    let lengths = [Length::Less(1), Length::Less(16), Length::More(1), Length::More(1 << 16), Length::More(1 << 24)];
    message.length = random.one_of(&lengths);
    true
}

fn too_long(_: &mut Random, message: &mut Message) -> bool {
    message.payloads.insert(0, opaque(VENDOR, vec![0; LONGEST]));
    true
}

fn message_id(random: &mut Random, message: &mut Message) -> bool {
    match message.exchange {
        MAIN_MODE => message.id = 1 << random.below(32),
        QUICK_MODE => message.id = 0,
        _ => return false,
    }
    true
}

/// Changes the SA payload, or the first where there is none.
fn at_offer(message: &mut Message, change: impl FnOnce(&mut Payload)) -> bool {
    let at = message.offer_at().unwrap_or(0);
    message.payloads.get_mut(at).map(change).is_some()
}

/// Puts a payload in behind the SA payload, or behind the first where there is none.
fn behind_offer(message: &mut Message, payload: Payload) -> bool {
    let at = message.offer_at().unwrap_or(0) + 1;
    message.payloads.insert(at, payload);
    true
}

fn cut_payload(random: &mut Random, message: &mut Message) -> bool {
    let at = message.offer_at().unwrap_or(0);
    message.after_last = message.payloads[at].kind;
    message.payloads.truncate(at);
    message.leave(random.below(4));
    true
}

fn in_offer(message: &mut Message, change: impl FnOnce(&mut Offer)) -> bool {
    message.offer().map(change).is_some()
}

/// Changes the last transform, which gets an attribute if it has none.
fn in_transform(message: &mut Message, change: impl FnOnce(u8, &mut Transform)) -> bool {
    let exchange = message.exchange;
    in_offer(message, |offer| {
        let transform = offer.last_transform();
        if transform.attributes.is_empty() {
            transform.attributes.push(variable(free_kind(exchange), vec![1]));
        }
        change(exchange, transform);
    })
}

/// Changes what the last transform is made of; a life type that is last stays so.
fn in_items(message: &mut Message, change: impl FnOnce(u8, &mut Vec<Item>)) -> bool {
    in_transform(message, |exchange, transform| {
        let mut items = items(exchange, &transform.attributes);
        let last = items.pop_if(|last| is_life_type_alone(exchange, last));
        if items.is_empty() {
            items.push(vec![variable(free_kind(exchange), vec![1])]);
        }
        change(exchange, &mut items);
        transform.attributes = items.into_iter().chain(last).flatten().collect();
    })
}

/// One in variable form is coded wrongly whatever is behind it.
fn is_life_type_alone(exchange: u8, item: &Item) -> bool {
    item.len() == 1 && item[0].kind == life_type(exchange) && item[0].fixed_value().is_some()
}

/// A place before the last item that is not behind a life type alone.
fn border_before_last(random: &mut Random, exchange: u8, items: &[Item]) -> usize {
    let is_border = |place: &usize| *place == 0 || !is_life_type_alone(exchange, &items[*place - 1]);
    let borders: Vec<_> = (0..items.len()).filter(is_border).collect();
    random.one_of(&borders)
}

/// A value that no life type there has.
fn unused_value(random: &mut Random, exchange: u8, items: &[Item]) -> u16 {
    let has = |value: u16| {
        items.iter().any(|item| item[0].kind == life_type(exchange) && item[0].fixed_value() == Some(value))
    };
    loop {
        let value = [random.below(4) as u16, random.number(16) as u16][random.below(2)];
        if !has(value) {
            return value;
        }
    }
}

/// Twice is the last attribute's type, or one that no lifetime has.
fn type_twice(random: &mut Random, exchange: u8, items: &mut Vec<Item>) {
    let last = items[items.len() - 1][0].kind;
    let is_unused = |kind: &u16| items.iter().flatten().all(|attribute| attribute.kind != *kind);
    let kinds = if is_of_lifetime(exchange, last) {
        vec![(1_000..).find(is_unused).expect("there are fewer attributes"); 2]
    } else {
        vec![last]
    };
    for kind in kinds {
        items.insert(border_before_last(random, exchange, items), vec![fixed(kind, 1)]);
    }
}

/// The last lifetime loses its life type, or another duration stands before.
fn duration_without_life_type(random: &mut Random, exchange: u8, items: &mut Vec<Item>) {
    let last = items.len() - 1;
    let would_pair = last > 0 && is_life_type_alone(exchange, &items[last - 1]);
    if items[last].len() == 2 && !would_pair {
        items[last].remove(0);
        return;
    }
    let duration = offer::random_attribute(random, exchange, life_duration(exchange));
    items.insert(border_before_last(random, exchange, items), vec![duration]);
}

/// That of the last life type stands in a lifetime before, or two lifetimes before share one.
fn life_type_repeated(random: &mut Random, exchange: u8, items: &mut Vec<Item>) {
    let last = &items[items.len() - 1][0];
    let value = match &last.value {
        _ if last.kind != life_type(exchange) => None,
        Value::Fixed(value) => Some(*value),
        Value::Variable(_, bytes) => (bytes.len() <= 2).then(|| get(bytes, 0, bytes.len()) as u16),
    };
    let unused = unused_value(random, exchange, items);
    for value in value.map_or(vec![unused; 2], |value| vec![value]) {
        let again = random_lifetime(random, exchange, value);
        items.insert(border_before_last(random, exchange, items), again);
    }
}

/// Sixteen attributes of types that the transform does not have, and of no lifetime.
fn lawful_attributes_beside(random: &mut Random, exchange: u8, transform: &Transform) -> Vec<Attribute> {
    let has = |kind: u16| transform.attributes.iter().any(|attribute| attribute.kind == kind);
    let kinds = (0..).filter(|&kind| !has(kind) && !is_of_lifetime(exchange, kind)).take(MOST_ATTRIBUTES);
    kinds.map(|kind| offer::random_attribute(random, exchange, kind)).collect()
}

/// Sixteen lawful proposals with rising numbers in front.
fn proposals_before(random: &mut Random, message: &mut Message) -> bool {
    let quick = message.exchange == QUICK_MODE;
    quick
        && in_offer(message, |offer| {
            let numbers = 1..=MOST_PROPOSALS as u8;
            let before = numbers.map(|number| offer::random_proposal(random, QUICK_MODE, number, AH, SMALL));
            offer.proposals.splice(..0, before);
            offer.proposals[MOST_PROPOSALS - 1].next = Some(2);
        })
}

/// Puts a lawful proposal in front of the last and then changes both.
fn proposal_before_last(
    random: &mut Random,
    message: &mut Message,
    change: impl FnOnce(&mut offer::Proposal, &mut offer::Proposal),
) -> bool {
    let quick = message.exchange == QUICK_MODE;
    quick
        && in_offer(message, |offer| {
            let number = offer.last_proposal().number;
            let protocol = random.one_of(&[AH, ESP]);
            let mut before = offer::random_proposal(random, QUICK_MODE, number, protocol, SMALL);
            change(&mut before, offer.last_proposal());
            offer.proposals.insert(offer.proposals.len() - 1, before);
        })
}

/// Too few bytes stand where the last proposal stood.
fn cut_proposal(random: &mut Random, offer: &mut Offer) {
    offer.proposals.pop();
    if let Some(before) = offer.proposals.last_mut() {
        before.next = Some(2);
    }
    let size = random.below(8);
    offer.rest = random.bytes(size);
}

/// Too few bytes stand where the last transform stood.
fn cut_transform(random: &mut Random, offer: &mut Offer) {
    let proposal = offer.last_proposal();
    proposal.count = Some(proposal.transforms.len() as u8);
    proposal.transforms.pop();
    if let Some(before) = proposal.transforms.last_mut() {
        before.next = Some(3);
    }
    let size = random.below(8);
    proposal.rest = random.bytes(size);
}
