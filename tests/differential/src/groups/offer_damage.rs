//! Offers with several sets, transforms and attributes, damaged in every field and at every byte inside the SA payload.

use super::{Group, OFFER_ANSWERS, PLAIN, READ_ANSWERS};
use crate::cases::Cases;
use crate::damage::{limits, replaced, with_field, MENDINGS};
use crate::layout::{Layout, Length, Span};
use crate::message::{message_of, Message, Rest, HASH, MAIN_MODE, NONCE, QUICK_MODE, SA};
use crate::offer::{items, offer_of, Offer, Sizes, Value};
use crate::random::Random;

pub const GROUP: Group = Group {
    name: "offer-damage",
    answers: OFFER_ANSWERS,
    at_least: 50,
    also: READ_ANSWERS,
    kinds: &[
        ("field at its limits", fields_at_their_limits),
        ("two fields at their limits", two_fields_at_their_limits),
        ("byte changed", bytes_changed),
        ("bytes cut out", bytes_cut_out),
        ("bytes put in", bytes_put_in),
        ("items moved", items_moved),
    ],
    ..PLAIN
};

const SIZES: Sizes = Sizes { proposals: 4, transforms: 3, attributes: 5 };

/// Lawful messages with an offer, of either exchange, without padding.
fn messages(random: &mut Random, of_each: usize) -> Vec<Message> {
    let mut messages = Vec::new();
    for time in 0..of_each {
        for (exchange, flag, types) in [(MAIN_MODE, 0, &[SA][..]), (QUICK_MODE, 1, &[HASH, SA, NONCE])] {
            let mut message = message_of(random, exchange, flag, types, SIZES);
            *message.offer().expect("it has one") = offer_of(random, exchange, 1 + time % 4, SIZES);
            message.rest = Rest::Is(Vec::new());
            messages.push(message);
        }
    }
    messages
}

/// The SA payload of a message that has one as its first or its second payload.
fn sa_payload<'a>(message: &Message, layout: &'a Layout) -> &'a Span {
    let mut payloads = layout.spans.iter().filter(|span| span.name == "payload's length");
    payloads.nth(message.offer_at().expect("it has one")).expect("each has a span")
}

fn padded(message: &Message) -> Message {
    Message { rest: Rest::Fewest, ..message.clone() }
}

fn fields_at_their_limits(random: &mut Random, cases: &mut Cases) {
    for message in messages(random, 16) {
        let layout = padded(&message).layout();
        let sa = sa_payload(&message, &layout);
        for field in layout.fields.iter().filter(|field| (sa.start..sa.end).contains(&field.at)) {
            for value in limits(&layout, field) {
                cases.detail = format!("{} {value}", field.name);
                cases.read(&with_field(&layout, field, value), None);
            }
        }
    }
}

fn two_fields_at_their_limits(random: &mut Random, cases: &mut Cases) {
    for message in messages(random, 500) {
        let mut layout = padded(&message).layout();
        let sa = sa_payload(&message, &layout);
        let within = sa.start..sa.end;
        let whole = layout.bytes.clone();
        for _ in 0..10 {
            let mut names = Vec::new();
            for _ in 0..2 {
                let fields: Vec<_> = layout.fields.iter().filter(|field| within.contains(&field.at)).collect();
                let field = random.one_of(&fields);
                let value = random.one_of(&limits(&layout, field));
                names.push(format!("{} {value}", field.name));
                layout.bytes = with_field(&layout, field, value);
            }
            cases.detail = names.join(", ");
            cases.read(&layout.bytes, None);
            layout.bytes = whole.clone();
        }
    }
}

fn bytes_changed(random: &mut Random, cases: &mut Cases) {
    for message in messages(random, 16) {
        let layout = padded(&message).layout();
        let sa = sa_payload(&message, &layout);
        for at in sa.start..sa.end {
            for changed in [layout.bytes[at] ^ 1, layout.bytes[at].wrapping_add(1), random.byte()] {
                let mut damaged = layout.bytes.clone();
                damaged[at] = changed;
                cases.read(&damaged, None);
            }
        }
    }
}

fn bytes_cut_out(random: &mut Random, cases: &mut Cases) {
    for message in messages(random, 10) {
        let layout = message.layout();
        let sa = sa_payload(&message, &layout);
        for at in sa.start + 4..sa.end {
            let cut = random.one_of(&[1, 2, 4, 8]).min(sa.end - at);
            for mending in MENDINGS {
                cases.read(&replaced(&layout, at, cut, &[], mending, message.flags == 1), None);
            }
        }
    }
}

fn bytes_put_in(random: &mut Random, cases: &mut Cases) {
    for message in messages(random, 10) {
        let layout = message.layout();
        let sa = sa_payload(&message, &layout);
        for at in sa.start + 4..=sa.end {
            let size = random.one_of(&[1, 2, 4, 8]);
            let put = if random.once_in(2) { vec![0; size] } else { random.bytes(size) };
            for mending in MENDINGS {
                cases.read(&replaced(&layout, at, 0, &put, mending, message.flags == 1), None);
            }
        }
    }
}

/// Everything is mended: items twice, left out or in another order, and values sent in the other way.
fn items_moved(random: &mut Random, cases: &mut Cases) {
    for message in messages(random, 3_000) {
        let mut message = padded(&message);
        for _ in 0..random.between(1, 2) {
            let exchange = message.exchange;
            move_items(random, exchange, message.offer().expect("it has one"));
        }
        cases.read(&message.encode(), None);
    }
}

/// Attributes are moved with what belongs to them, and in some cases without it.
fn move_items(random: &mut Random, exchange: u8, offer: &mut Offer) {
    if offer.proposals.is_empty() || random.once_in(3) {
        return move_one(random, &mut offer.proposals);
    }
    let at = random.below(offer.proposals.len());
    let transforms = &mut offer.proposals[at].transforms;
    if transforms.is_empty() || random.once_in(3) {
        return move_one(random, transforms);
    }
    let at = random.below(transforms.len());
    let attributes = &mut transforms[at].attributes;
    if attributes.is_empty() || random.once_in(2) {
        let mut items = items(exchange, attributes);
        if random.once_in(4) {
            items = attributes.chunks(1).map(<[_]>::to_vec).collect();
        }
        move_one(random, &mut items);
        *attributes = items.concat();
        return;
    }
    let at = random.below(attributes.len());
    attributes[at].value = match &attributes[at].value {
        Value::Fixed(value) => Value::Variable(Length::Right, value.to_be_bytes().to_vec()),
        Value::Variable(_, bytes) => Value::Fixed(bytes.len() as u16),
    };
}

fn move_one<Item: Clone>(random: &mut Random, items: &mut Vec<Item>) {
    if items.is_empty() {
        return;
    }
    let (one, other) = (random.below(items.len()), random.below(items.len()));
    match random.below(3) {
        0 => items.insert(other, items[one].clone()),
        1 => drop(items.remove(one)),
        _ => items.swap(one, other),
    }
}
