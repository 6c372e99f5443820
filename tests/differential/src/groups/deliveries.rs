//! Deliveries to quick mode ends in every state: each check alone and before others, message 1 with any offer, message 2
//! beside the offer, messages that are equal apart from their hash, and the longest that is taken.

use super::{choices, Group, END_ANSWERS, LATER_STATES, PLAIN, READ_REFUSALS};
use crate::cases::{refused, word, Case, Cases};
use crate::checks::CHECKS;
use crate::exchange::{
    agreed_values, deliver_line, last_states, long_message, message_1, offer_of, proposals, quick_message,
    random_identities, random_message_id, room_line, suiting_given, Exchange, Followed, Given, Identities, Role, State,
    HASH_BYTES, LEAST_ROOM, ROLES, STATES,
};
use crate::identity;
use crate::message::{
    message_of, opaque, random_payload, sa, Message, HASH, IDENTITY, INFORMATIONAL, MAIN_MODE, NAT_OA, NONCE, NOTICE,
    QUICK_MODE, SA, VENDOR,
};
use crate::offer::{
    fixed, items, proposal_of, random_border, transform, variable, Proposal, Value, AH, ESP, ISAKMP, SMALL,
};
use crate::policy::{random_kilobytes, random_line, Book, AH_WITH_ESP, ESP_ALONE};
use crate::random::Random;
use Role::{Initiator, Responder};

pub const GROUP: Group = Group {
    name: "deliveries",
    answers: &[
        END_ANSWERS,
        LATER_STATES,
        READ_REFUSALS,
        &["refused 14", "refused 23", "refused 8192", "refused 8195", "refused 8196"],
    ],
    at_least: 50,
    occasions: &[("ESP before AH agreed", 100, |_, answers| {
        let responder = last_states(answers).map_or("", |[_, responder]| responder.as_str());
        responder.contains(SPIS_OF_ESP_BEFORE_AH)
    })],
    kinds: &[
        ("check of a reading broken", checks_of_a_reading),
        ("order of the checks", order_of_the_checks),
        ("other shape", other_shapes),
        ("message 1 with an offer of the choices", offers_of_the_choices),
        ("message 2 beside the offer", beside_the_offer),
        ("message 2 with other identities", other_identities),
        ("each byte of a message changed", each_byte_changed),
        ("longest message", longest_messages),
        ("message sent back to its writer", sent_back),
        ("each message in each state", each_message_in_each_state),
    ],
    ..PLAIN
};

/// The responder of `offers_of_the_choices` has these two SPIs.
const RESPONDERS_AH: u32 = 0xa4a4_a4a4;
const RESPONDERS_ESP: u32 = 0xe5e5_e5e5;
const SPIS_OF_ESP_BEFORE_AH: &str = "responder-spis e5e5e5e5 a4a4a4a4";

/// Each check in each state: the same number everywhere, but where the end has given up.
fn checks_of_a_reading(random: &mut Random, cases: &mut Cases) {
    for role in ROLES {
        for state in STATES {
            for _ in 0..12 {
                let mut followed = Followed::in_state(random, role, state);
                for check in CHECKS {
                    let mut message = any_long_message(random, &followed);
                    if !(check.breaks)(random, &mut message) {
                        continue;
                    }
                    let number = if state == State::GivenUp { 8_196 } else { check.number };
                    refuse(&mut followed, role, true, &message.encode(), number);
                }
                followed.finish(cases);
            }
        }
    }
}

/// A message of this exchange's cookies and ID in one of the longer shapes, with any offer.
fn any_long_message(random: &mut Random, followed: &Followed) -> Message {
    let types: &[u8] = if random.once_in(2) { &[HASH, SA, NONCE] } else { &[HASH, SA, NONCE, IDENTITY, IDENTITY] };
    let mut message = message_of(random, QUICK_MODE, 1, types, SMALL);
    [message.initiator, message.responder] = followed.given[0].cookies.map(u64::from_be_bytes);
    message.id = followed.id;
    message
}

/// The delivery is refused, and the end is as it was.
fn refuse(followed: &mut Followed, role: Role, hash_holds: bool, message: &[u8], number: u16) {
    followed.exchange.line(&deliver_line(role, hash_holds, message), Some(refused(number)));
    let state = followed.state(role);
    followed.exchange.show(role, [Some(state), None]);
}

/// "8192, 23, 8196, reading, exchange not 32 (7), flag not 1 (8), initiator Idle (8195), cookies (4), message ID (9),
/// shape (16), over 2,048 bytes (30)": any of them at once.
fn order_of_the_checks(random: &mut Random, cases: &mut Cases) {
    for role in ROLES {
        for state in STATES {
            let mut followed = Followed::in_state(random, role, state);
            for faults in 0..512 {
                deliver_with_faults(random, &mut followed, role, state, faults);
            }
            followed.finish(cases);
        }
    }
}

fn deliver_with_faults(random: &mut Random, followed: &mut Followed, role: Role, state: State, faults: usize) {
    let has = |fault: usize| faults >> fault & 1 == 1;
    let [room, hash, reading, exchange, flag, cookie, id, shape, size] = [0, 1, 2, 3, 4, 5, 6, 7, 8].map(has);
    let mut message = any_long_message(random, followed);
    if size {
        let filler = variable(9, vec![0; 2_100]);
        message.offer().expect("it has one").last_transform().attributes = vec![filler];
    }
    if shape {
        let kind = random.one_of(&[HASH, NONCE, NAT_OA, VENDOR]);
        message.payloads.push(random_payload(random, QUICK_MODE, kind, SMALL));
    }
    if id {
        message.id = message.id.wrapping_add(1).max(1);
    }
    if cookie {
        // Two bits, since one could be the only one and leave a cookie of zero, which does not read.
        *[&mut message.initiator, &mut message.responder][random.below(2)] ^= 3 << random.between(8, 60);
    }
    if exchange {
        message.exchange = INFORMATIONAL;
        let notice = opaque(NOTICE, random.bytes(if size { 2_100 } else { 12 }));
        message.payloads = vec![message.payloads[0].clone(), notice];
    }
    if flag {
        message.flags = 0;
    }
    if reading {
        message.version = 0x10;
    }
    let idle = state == State::Idle;
    let checks = [
        (room, 8_192),
        (hash, 23),
        (state == State::GivenUp, 8_196),
        (reading, 6),
        (exchange, 7),
        (flag, 8),
        (role == Initiator && idle, 8_195),
        (cookie, 4),
        (id && !(role == Responder && idle), 9),
        (shape, 16),
        (size, 30),
    ];
    // A message without a fault is for others to try.
    let Some((_, number)) = checks.into_iter().find(|(wrong, _)| *wrong) else {
        return;
    };
    if room {
        let mut sizes = [LEAST_ROOM; 3];
        sizes[random.below(3)] = random.one_of(&[0, LEAST_ROOM - 1]);
        followed.exchange.line(&room_line(role, sizes), Some("room".to_string()));
    }
    followed.exchange.line(&deliver_line(role, !hash, &message.encode()), Some(refused(number)));
    if room {
        followed.exchange.line(&room_line(role, [LEAST_ROOM; 3]), Some("room".to_string()));
    }
    let state = followed.state(role);
    followed.exchange.show(role, [Some(state), None]);
}

/// Types that begin as a lawful shape does, and go on otherwise; or that are one with another beside it.
fn other_shapes(random: &mut Random, cases: &mut Cases) {
    const OTHERS: &[&[u8]] = &[
        &[HASH, HASH],
        &[HASH, SA],
        &[HASH, NONCE],
        &[HASH, NONCE, SA],
        &[SA, HASH, NONCE],
        &[SA, NONCE],
        &[SA, NONCE, HASH],
        &[NONCE],
        &[SA],
        &[HASH, SA, NONCE, NONCE],
        &[HASH, SA, NONCE, IDENTITY],
        &[HASH, SA, NONCE, IDENTITY, IDENTITY, IDENTITY],
        &[HASH, SA, IDENTITY, IDENTITY, NONCE],
        &[HASH, SA, NONCE, IDENTITY, NAT_OA],
        &[HASH, SA, NONCE, NAT_OA, NAT_OA],
        &[HASH, SA, NONCE, IDENTITY, IDENTITY, NAT_OA, NAT_OA],
        &[HASH, SA, NONCE, 4],
        &[HASH, SA, NONCE, VENDOR],
        &[VENDOR, HASH, SA, NONCE],
        &[HASH, NOTICE],
        &[HASH, 12],
        &[VENDOR],
    ];
    for role in ROLES {
        for state in STATES {
            let mut followed = Followed::in_state(random, role, state);
            for types in OTHERS {
                let mut message = message_of(random, QUICK_MODE, 1, types, SMALL);
                [message.initiator, message.responder] = followed.given[0].cookies.map(u64::from_be_bytes);
                message.id = followed.id;
                let number = match (role, state) {
                    (_, State::GivenUp) => 8_196,
                    (Initiator, State::Idle) => 8_195,
                    _ => 16,
                };
                refuse(&mut followed, role, true, &message.encode(), number);
            }
            followed.finish(cases);
        }
    }
}

/// Offers that no end here would make: any order, several transforms, durations sent in every way. Message 2 is known from
/// what is chosen.
fn offers_of_the_choices(random: &mut Random, cases: &mut Cases) {
    const OF_EACH_KIND: usize = 350;
    for kind in [
        "suiting transform",
        "transform beside the line",
        "protocols of a set",
        "sets in every order",
        "planted set, line and transform",
        "several suiting lines",
        "several suiting transforms",
        "largest offer and largest book",
    ] {
        let made = choices::GROUP.of_kind(random, kind);
        let is_quick = |case: &&Case| case.offer.as_ref().is_some_and(|offer| offer.proposals[0].protocol != ISAKMP);
        let quick: Vec<_> = made.iter().filter(is_quick).collect();
        for choice in quick.iter().step_by(quick.len().div_ceil(OF_EACH_KIND)) {
            cases.detail = choice.title();
            offer_of_a_choice(random, cases, choice);
        }
    }
}

fn offer_of_a_choice(random: &mut Random, cases: &mut Cases, choice: &Case) {
    let [mut initiator, mut responder] = suiting_given(random);
    (responder.ah, responder.esp) = (RESPONDERS_AH, RESPONDERS_ESP);
    initiator.book = Book::default();
    let (id, identities) = (random_message_id(random), random_identities(random));
    let offer = choice.offer.clone().expect("it has one");
    let one = long_message(&initiator, id, offer.clone(), &identities).encode();
    let mut exchange = Exchange::new(&[initiator.clone(), responder.clone()]);
    let [book, _] = choices::pair(choice);
    // The book is written as the choice has it.
    let line = responder.line(Responder).replacen(&word(&responder.book.encode()), &word(&book), 1);
    exchange.line(&line, Some("fresh".to_string()));
    let Some(mut taken) = choices::taken(choice) else {
        let number = if one.len() > 2_048 { 30 } else { 14 };
        let known = choice.answers[0].as_ref().map(|_| refused(number));
        exchange.deliver(Responder, true, &one, known);
        return exchange.finish(cases);
    };
    if one.len() > 2_048 {
        exchange.deliver(Responder, true, &one, Some(refused(30)));
        return exchange.finish(cases);
    }
    let offered = taken.clone();
    for proposal in &mut taken {
        proposal.spi = responder.spi(proposal.protocol).to_be_bytes().to_vec();
    }
    let nonces = [&initiator.nonce, &responder.nonce];
    let agreed = agreed_values(taken[0].number.into(), [offered, taken.clone()], nonces);
    let two = long_message(&responder, id, offer_of(taken), &identities).encode();
    let answer = Some(format!("send {}", word(&two)));
    for _ in 0..2 {
        exchange.line(&deliver_line(Responder, true, &one), answer.clone());
        exchange.show(Responder, [Some(format!("half sends 1{agreed}")), None]);
    }
    let three = quick_message(&initiator, id, Vec::new()).encode();
    exchange.line(&deliver_line(Responder, true, &three), Some("nothing".to_string()));
    exchange.show(Responder, [Some(format!("open sends 1{agreed}")), None]);
    exchange.finish(cases);
}

/// An initiator of two lines, one of either sort, that has sent message 1.
struct Asked {
    given: [Given; 2],
    identities: Identities,
    exchange: Exchange,
}

const ID: u32 = 77;

impl Asked {
    fn new(random: &mut Random) -> Asked {
        let mut given = suiting_given(random);
        let first = random_line(random, AH_WITH_ESP);
        let second = random_line(random, ESP_ALONE);
        given[0].book.quick = vec![first, second, first];
        let identities = random_identities(random);
        let mut exchange = Exchange::new(&given);
        let known = format!("send {}", word(&message_1(&given[0], ID, &identities).encode()));
        exchange.begin(ID, &identities, Some(known));
        Asked { given, identities, exchange }
    }

    /// What a responder answers that takes this set, counted from 1.
    fn answer(&self, set: usize) -> Vec<Proposal> {
        proposals(set as u8, &self.given[0].book.quick[set - 1], &self.given[1])
    }

    fn message_2(&self, proposals: Vec<Proposal>, identities: &Identities) -> Vec<u8> {
        long_message(&self.given[1], ID, offer_of(proposals), identities).encode()
    }

    fn refuses(&mut self, proposals: Vec<Proposal>, identities: &Identities, number: u16) {
        let message = self.message_2(proposals, identities);
        self.exchange.deliver(Initiator, true, &message, Some(refused(number)));
    }

    /// After any refusal the right answer is still taken.
    fn takes(mut self, cases: &mut Cases, set: usize) {
        let two = self.message_2(self.answer(set), &self.identities);
        let three = quick_message(&self.given[0], ID, Vec::new()).encode();
        self.exchange.line(&deliver_line(Initiator, true, &two), Some(format!("send {}", word(&three))));
        let sent = proposals(set as u8, &self.given[0].book.quick[set - 1], &self.given[0]);
        let nonces = [&self.given[0].nonce, &self.given[1].nonce];
        let agreed = agreed_values(set, [sent, self.answer(set)], nonces);
        self.exchange.show(Initiator, [Some(format!("open sends 1{agreed}")), None]);
        self.exchange.finish(cases);
    }
}

type Spoil = fn(&mut Random, &mut Vec<Proposal>);

/// Each makes of an answer that takes set 1 one that is not taken from the offer.
const SPOILED_ANSWERS: &[(&str, Spoil)] = &[
    ("another number", |random, set| {
        let number = random.one_of(&[0, 2, 4, 5, 255]);
        set.iter_mut().for_each(|proposal| proposal.number = number);
    }),
    ("numbers of two sets", |_, set| set[1].number = 2),
    ("protocols in the other order", |_, set| set.swap(0, 1)),
    ("AH alone", |_, set| set.truncate(1)),
    ("ESP alone", |_, set| {
        set.remove(0);
    }),
    ("another set behind it", |_, set| {
        let again = set.iter().map(|proposal| Proposal { number: 3, ..proposal.clone() }).collect::<Vec<_>>();
        set.extend(again);
    }),
    ("protocols changed", |_, set| {
        set[0].protocol = ESP;
        set[1].protocol = AH;
    }),
    ("another transform number", |random, set| {
        set[random.below(2)].transforms[0].number = random.one_of(&[0, 2, 255]);
    }),
    ("another transform ID", |random, set| set[random.below(2)].transforms[0].id ^= 1 << random.below(8)),
    ("another value", |random, set| {
        let attributes = &mut set[random.below(2)].transforms[0].attributes;
        let at = random.below(attributes.len());
        let Value::Fixed(value) = attributes[at].value else { unreachable!("an end sends fixed") };
        attributes[at].value = Value::Fixed(value ^ 1 << random.below(16));
    }),
    ("attributes in another order", |random, set| {
        let attributes = &mut set[random.below(2)].transforms[0].attributes;
        let mut items = items(QUICK_MODE, attributes);
        let at = random.below(items.len() - 1);
        items.swap(at, at + 1);
        *attributes = items.concat();
    }),
    ("attribute or lifetime missing", |random, set| {
        let attributes = &mut set[random.below(2)].transforms[0].attributes;
        let mut items = items(QUICK_MODE, attributes);
        items.remove(random.below(items.len()));
        *attributes = items.concat();
    }),
    ("attribute surplus", |random, set| {
        let attributes = &mut set[random.below(2)].transforms[0].attributes;
        let place = random_border(random, QUICK_MODE, attributes);
        attributes.insert(place, fixed(random.one_of(&[9, 3, 6]), 1));
    }),
    ("kilobytes surplus", |random, set| {
        let attributes = &mut set[random.below(2)].transforms[0].attributes;
        let place = random_border(random, QUICK_MODE, attributes);
        attributes.splice(place..place, random_kilobytes(random, QUICK_MODE));
    }),
    ("duration sent otherwise", |random, set| {
        let attributes = &mut set[random.below(2)].transforms[0].attributes;
        let last = attributes.last_mut().expect("it has a duration");
        let Value::Fixed(value) = last.value else { unreachable!("an end sends fixed") };
        *last = variable(2, value.to_be_bytes().to_vec());
    }),
    ("another transform behind it", |random, set| {
        let transforms = &mut set[random.below(2)].transforms;
        let again = transform(2, transforms[0].id, transforms[0].attributes.clone());
        transforms.push(again);
    }),
];

fn beside_the_offer(random: &mut Random, cases: &mut Cases) {
    for (name, spoil) in SPOILED_ANSWERS {
        cases.detail = name.to_string();
        for _ in 0..24 {
            let mut asked = Asked::new(random);
            let mut spoiled = asked.answer(1);
            spoil(random, &mut spoiled);
            // Also with identities that are not those sent: 15 comes first.
            let others = random_identities(random);
            let identities = asked.identities.clone();
            asked.refuses(spoiled.clone(), &identities, 15);
            asked.refuses(spoiled, &others, 15);
            asked.takes(cases, random.between(1, 3));
        }
    }
    cases.detail = "sets 1 and 3, which are alike".to_string();
    for set in (1..=3).flat_map(|set| [set; 12]) {
        Asked::new(random).takes(cases, set);
    }
    cases.detail = "both sets of the offer".to_string();
    for _ in 0..24 {
        let mut asked = Asked::new(random);
        let (both, identities) = ([asked.answer(1), asked.answer(2)].concat(), asked.identities.clone());
        asked.refuses(both, &identities, 15);
        asked.takes(cases, 2);
    }
}

fn other_identities(random: &mut Random, cases: &mut Cases) {
    for _ in 0..150 {
        let mut asked = Asked::new(random);
        let set = random.between(1, 3);
        let mut others: Vec<Identities> = vec![Some([(); 2].map(|()| identity::random_body(random, QUICK_MODE)))];
        if let Some([one, other]) = asked.identities.clone() {
            others.push(None);
            let mut changed = one.clone();
            let last = changed.len() - 1;
            changed[random.between(1, last)] ^= 1 << random.below(8);
            others.push(Some([changed.clone(), other.clone()]));
            others.push(Some([one.clone(), changed]));
            if one != other {
                others.push(Some([other, one]));
            }
        }
        others.retain(|others| *others != asked.identities);
        for identities in others {
            let answer = asked.answer(set);
            asked.refuses(answer, &identities, 18);
        }
        asked.takes(cases, set);
    }
}

/// Where an equal message brings something, each byte by itself: in the hash it does not matter.
fn each_byte_changed(random: &mut Random, cases: &mut Cases) {
    for (role, state, number) in [
        (Initiator, State::Sent, 2),
        (Initiator, State::Open, 2),
        (Responder, State::Idle, 1),
        (Responder, State::Sent, 1),
        (Responder, State::Open, 1),
        (Responder, State::Sent, 3),
        (Responder, State::Open, 3),
    ] {
        let mut followed = Followed::in_state(random, role, state);
        let message = followed.messages[number - 1].clone();
        let takes =
            !matches!((role, state, number), (Initiator, State::Open, _) | (Responder, State::Sent | State::Open, 1));
        for at in 0..message.len() {
            let mut changed = message.clone();
            changed[at] ^= 1 << random.below(8);
            let line = deliver_line(role, true, &changed);
            match (takes, HASH_BYTES.contains(&at)) {
                (true, true) => continue,
                (true, false) => {
                    // Some of these are taken, so that each needs an end of its own state.
                    let mut own = Followed::new(followed.given.clone(), followed.id, followed.identities.clone());
                    own.bring_to(role, state);
                    own.exchange.step(role, &line, None);
                    own.exchange.finish(cases);
                }
                (false, true) => {
                    let known = match (role, state) {
                        (Initiator, _) => format!("send {}", word(&followed.messages[2])),
                        (_, State::Sent) => format!("send {}", word(&followed.messages[1])),
                        _ => "nothing".to_string(),
                    };
                    followed.exchange.step(role, &line, Some(known));
                }
                (false, false) => {
                    followed.exchange.step(role, &line, None);
                    let state = followed.state(role);
                    followed.exchange.show(role, [Some(state), None]);
                }
            }
        }
        followed.exchange.finish(cases);
    }
}

/// Behind its header a message has whole blocks: 2,044 bytes are the most that is taken, 2,060 too many.
fn longest_messages(random: &mut Random, cases: &mut Cases) {
    for (size, too_long) in [(2_028, false), (2_044, false), (2_060, true), (2_076, true), (8_188, true)] {
        for _ in 0..6 {
            let given = suiting_given(random);
            let identities = random_identities(random);
            let line = given[0].book.quick[0];
            let mut responder = given[1].clone();
            responder.book.quick = vec![line];
            let mut offer = offer_of(proposals(1, &line, &given[0]));
            let filler = transform(1, 1, vec![variable(9, Vec::new())]);
            offer.proposals.push(proposal_of(2, ESP, vec![1; 4], vec![filler]));
            let mut message = long_message(&given[0], ID, offer, &identities);
            let more = size - message.encode().len();
            let filled = variable(9, random.bytes(more));
            message.offer().expect("it has one").last_transform().attributes = vec![filled];
            let one = message.encode();
            assert_eq!(one.len(), size);
            let mut exchange = Exchange::new(&[given[0].clone(), responder.clone()]);
            let two = long_message(&responder, ID, offer_of(proposals(1, &line, &responder)), &identities).encode();
            let answer = if too_long { refused(30) } else { format!("send {}", word(&two)) };
            exchange.deliver(Responder, true, &one, Some(answer.clone()));
            exchange.deliver(Responder, true, &one, Some(answer));
            // At an initiator that waits for message 2 it is no answer; the length is asked first.
            exchange.line(&given[0].line(Initiator), Some("fresh".to_string()));
            exchange.begin(ID, &identities, None);
            exchange.deliver(Initiator, true, &one, Some(refused(if too_long { 30 } else { 15 })));
            exchange.finish(cases);
        }
    }
}

/// "An end is told that a hash holds only for a message the other end wrote": told otherwise, it goes by the rules alone.
fn sent_back(random: &mut Random, cases: &mut Cases) {
    for role in ROLES {
        for state in STATES {
            for _ in 0..20 {
                let mut followed = Followed::in_state(random, role, state);
                let own: Vec<_> = followed.exchange.written[role as usize].clone();
                for message in own.iter().chain(&own) {
                    followed.exchange.deliver(role, true, message, None);
                }
                followed.exchange.finish(cases);
            }
        }
    }
}

/// What one end writes comes to the other in every state of it, and once more.
fn each_message_in_each_state(random: &mut Random, cases: &mut Cases) {
    for role in ROLES {
        for state in STATES {
            for number in if role == Initiator { &[2][..] } else { &[1, 3] } {
                for _ in 0..10 {
                    let mut followed = Followed::in_state(random, role, state);
                    followed.arrives(*number, &random.bytes(32));
                    followed.arrives(*number, &random.bytes(32));
                    followed.finish(cases);
                }
            }
        }
    }
    for _ in 0..60 {
        // A message in main mode is 7 to an end, although it reads.
        let role = random.one_of(&ROLES);
        let mut followed = Followed::in_state(random, role, State::Sent);
        let types: &[u8] = if random.once_in(2) { &[HASH] } else { &[HASH, SA, NONCE] };
        let mut message = message_of(random, MAIN_MODE, 1, types, SMALL);
        [message.initiator, message.responder] = followed.given[0].cookies.map(u64::from_be_bytes);
        refuse(&mut followed, role, true, &message.encode(), 7);
        let mut second_offer = any_long_message(random, &followed);
        let again = sa(second_offer.offer().expect("it has one").clone());
        second_offer.payloads.push(again);
        refuse(&mut followed, role, true, &second_offer.encode(), 15);
        followed.finish(cases);
    }
}
