//! Replies to recorded offers: such as repeat them, each difference alone and any two at once, books that choose the same,
//! something else and nothing, and what is refused before.

use super::choices::{self, message_with, SORTS};
use super::lifetimes::{describe, says, PHASES};
use super::why_words::spread;
use super::{Group, Occasion, PLAIN, READ_REFUSALS};
use crate::cases::{refused, word, Case, Cases, Said};
use crate::checks::CHECKS;
use crate::damage::{limits, with_field};
use crate::exchange::{
    chosen_line, long_message, message_1, offer_of, proposals, random_identities, random_message_id, suiting_given,
};
use crate::layout::Length;
use crate::message::{
    message_of, opaque, random_message, sa, Message, CERTIFICATE, EXCHANGES, HASH, IDENTITY, KEY, LONGEST, MAIN_MODE,
    MOST_PAYLOADS, NONCE, NOTICE, QUICK_MODE, SA, VENDOR,
};
use crate::offer::{
    fixed, life_type, proposal_of, transform, Offer, Proposal, Transform, Value, AH, ESP, ISAKMP, MOST_TRANSFORMS,
    SMALL,
};
use crate::policy::{
    offer_of_sets, random_book, random_line, set_of, suiting, Book, Line, AH_WITH_ESP, ESP_ALONE, MAIN,
};
use crate::random::Random;
use crate::repeats::{offer_of_shapes, random_places, sets, together, Chosen, Difference, Kind, Reply, KINDS};

pub const GROUP: Group = Group {
    name: "lawful",
    answers: &[READ_REFUSALS, &["lawful", "refused 14", "refused 8193", "bad line"]],
    at_least: 50,
    occasions: OCCASIONS,
    kinds: &[
        (EXAMPLES, examples),
        ("reply that repeats", replies_that_repeat),
        ("each difference alone", each_difference),
        (TWO_DIFFERENCES, two_differences),
        ("any differences at once", any_differences),
        ("each attribute changed", each_attribute),
        ("byte of a transform changed", transform_bytes),
        ("transform of another proposal or set", foreign_transforms),
        ("the same transforms in two sets", the_same_twice),
        ("proposals are no alternatives", no_alternatives),
        ("fields as they were offered", fields_as_offered),
        ("exchanges crossed", crossed),
        ("reply beside a choice", replies_beside_a_choice),
        ("reply to a pair of the choices", replies_to_choices),
        ("reply of our own responder", own_replies),
        (CHECKS_BROKEN, checks_broken),
        ("no SA payload", no_sa_payload),
        ("unlawful book", unlawful_books),
        ("which refusal comes first", first_refusals),
        ("longest messages", longest),
        ("near at random", near_at_random),
        ("any offer and any reply", any_messages),
        ("field at its limits", fields_at_their_limits),
        ("byte changed", bytes_changed),
        (WORDS, words),
    ],
    ..PLAIN
};

pub const EXAMPLES: &str = "example of request ten";
pub const TWO_DIFFERENCES: &str = "two differences at once";
pub const CHECKS_BROKEN: &str = "check of a reading broken";
pub const WORDS: &str = "words of the line";

/// What must occur so often: each refusal of a reading at the offer and at the reply; each difference told with no book, with
/// one that chooses something and with one that chooses nothing; each two at once; answers to cases whose detail has a word,
/// and the same where the words for them have a form.
macro_rules! occasions {
    (
        $read:literal times read $($number:literal),+;
        $told:literal times told $($kind:literal),+;
        $two:literal times two $($pair:literal),+;
        $($least:literal times $answer:literal: $($word:literal),+;)*
        said $($said:literal times $refused:literal $form:literal: $($where:literal),+;)*
    ) => {
        &[
            $(
                (concat!("refused ", $number, " at the offer"), $read, |case, answers| {
                    is(case, answers, concat!("refused ", $number), "offer: ", &["at the offer"])
                }),
                (concat!("refused ", $number, " at the reply"), $read, |case, answers| {
                    is(case, answers, concat!("refused ", $number), "reply: ", &["at the reply"])
                }),
            )+
            $(
                (concat!("15 for ", $kind), $told, |case, answers| {
                    is(case, answers, "refused 15", "", &[concat!("tells ", $kind), NO_BOOK])
                }),
                (concat!("15 for ", $kind, " and a choice"), $told, |case, answers| {
                    is(case, answers, "refused 15", "; the book chooses set", &[concat!("tells ", $kind)])
                }),
                (concat!("15 for ", $kind, " and no choice"), $told, |case, answers| {
                    is(case, answers, "refused 15", "; the book chooses nothing", &[concat!("tells ", $kind)])
                }),
            )+
            $((concat!("at once ", $pair), $two, |case, answers| is(case, answers, "refused 15", "", &[$pair])),)+
            $($((concat!($answer, ", ", $word), $least, |case, answers| is(case, answers, $answer, "", &[$word])),)+)*
            $($(
                (concat!($refused, ", ", $form, ", ", $where), $said, |case, answers| {
                    is(case, answers, $refused, $form, &[$where])
                }),
            )+)*
        ]
    };
}

#[rustfmt::skip]
const OCCASIONS: &[Occasion] = occasions! {
    20 times read 1, 2, 3, 4, 5, 6, 7, 8, 9, 10, 11, 13, 15, 16, 18, 19, 29, 30;
    100 times told "several sets", "set number", "protocols", "order", "several transforms", "transform number", "ID",
        "attributes";
    50 times two "several sets and set number", "several sets and protocols", "several sets and order",
        "several sets and several transforms", "several sets and transform number", "several sets and ID",
        "several sets and attributes", "set number and protocols", "set number and order",
        "set number and several transforms", "set number and transform number", "set number and ID",
        "set number and attributes", "protocols and several transforms", "protocols and transform number",
        "protocols and ID", "protocols and attributes", "order and several transforms", "order and transform number",
        "order and ID", "order and attributes", "several transforms and transform number", "several transforms and ID",
        "several transforms and attributes", "transform number and ID", "transform number and attributes",
        "ID and attributes";
    300 times "lawful": "no book", "with a book", "exchange 2", "exchange 32", "AH alone", "ESP alone", "AH before ESP",
        "ESP before AH", "a set other than the first", "a transform other than the first";
    100 times "lawful": "own responder, no book", "own responder, its book", "the same in two sets";
    50 times "refused 15": "one of two proposals", "two proposals for one", "cannot be read anew";
    100 times "refused 8193": "empty book", "unlawful book", "sound reply", "unsound reply";
    said
    200 times "refused 14" "takes set #; the book chooses set": "exchange 32";
    100 times "refused 14" "takes set #; the book chooses nothing": "exchange 2", "exchange 32", "no lines";
    50 times "refused 14" "reply: takes transform": "exchange 2";
    50 times "refused 14" "takes AH transform": "AH before ESP", "ESP before AH";
    50 times "refused 14" "takes ESP transform": "AH before ESP", "ESP before AH", "ESP alone";
    50 times "refused 15" "offered ISAKMP": "crossed";
    50 times "refused 15" "has ISAKMP, offered": "crossed";
    100 times "refused 16" "offer: has no SA payload": "no SA payload";
    100 times "refused 16" "reply: has no SA payload": "no SA payload";
};

const NO_BOOK: &str = "no book";

/// Whether that is the answer, that form is among the words for it, and the detail has all these words.
fn is(case: &Case, answers: &[String], answer: &str, form_of_words: &str, words: &[&str]) -> bool {
    let has_form = || case.said.as_ref().is_some_and(|said| form(said).contains(form_of_words));
    answers.first().is_some_and(|given| given == answer) && says(case, words) && has_form()
}

/// What is said without its numbers: `#` stands for each, and for several behind each other.
pub fn form(said: &Said) -> String {
    let mut form = String::new();
    for character in said.lines().pop().unwrap_or_default().chars() {
        match character {
            '0'..='9' if form.ends_with('#') => (),
            '0'..='9' if form.ends_with("# ") => drop(form.pop()),
            '0'..='9' => form.push('#'),
            _ => form.push(character),
        }
    }
    form
}

/// A recorded offer with a book, and what that chooses.
pub struct Recorded {
    pub offer: Offer,
    pub message: Vec<u8>,
    pub book: Vec<u8>,
    pub chosen: Option<Chosen>,
}

impl Recorded {
    /// An offer of any transforms with a book that has no line for it.
    fn plain(random: &mut Random, shapes: &[&[u8]], most_transforms: usize) -> Recorded {
        let offer = offer_of_shapes(random, shapes, most_transforms);
        let exchange = if shapes[0] == MAIN { MAIN_MODE } else { QUICK_MODE };
        let message = recorded(random, exchange, offer.clone());
        Recorded { offer, message, book: without_lines(random, exchange), chosen: None }
    }

    /// What a choice is tried with, where it is known.
    fn of_choice(choice: &Case) -> Option<Recorded> {
        let answer = choice.answers[0].as_ref()?;
        let chosen = Chosen::of_answer(answer);
        let offer = choice.offer.clone().filter(|_| chosen.is_some() || *answer == refused(14))?;
        let [book, message] = choices::pair(choice);
        Some(Recorded { offer, message, book, chosen })
    }

    fn sets(&self) -> Vec<&[Proposal]> {
        sets(&self.offer.proposals)
    }

    /// The reply that takes what is chosen.
    fn as_chosen(&self, random: &mut Random) -> Option<Reply> {
        let Chosen { set, transforms, .. } = self.chosen.as_ref()?;
        let sets = self.sets();
        let at = sets.iter().position(|each| each[0].number == *set)?;
        let place = |(proposal, number): (&Proposal, &u8)| {
            proposal.transforms.iter().position(|transform| transform.number == *number)
        };
        let places: Option<Vec<usize>> = sets[at].iter().zip(transforms).map(place).collect();
        Some(Reply::of(random, &self.offer, at, &places?))
    }
}

/// A book that chooses nothing of an offer in that exchange.
fn without_lines(random: &mut Random, exchange: u8) -> Vec<u8> {
    let mut book = random_book(random);
    match exchange {
        MAIN_MODE => book.main.clear(),
        _ => book.quick.clear(),
    }
    if random.once_in(2) {
        return Book::default().encode();
    }
    book.encode()
}

/// A message of that exchange with any payloads around the SA payload.
fn recorded(random: &mut Random, exchange: u8, offer: Offer) -> Vec<u8> {
    let others = [VENDOR, HASH, NONCE, NOTICE, KEY, CERTIFICATE, IDENTITY];
    let mut types: Vec<u8> = (0..random.below(3)).map(|_| random.one_of(&others)).collect();
    types.push(SA);
    types.extend((0..random.below(3)).map(|_| random.one_of(&others)));
    let flag = random.below(2) as u8;
    let mut message = message_of(random, exchange, flag, &types, SMALL);
    *message.offer().expect("it has one") = offer;
    // The first message of main mode knows no responder yet.
    if exchange == MAIN_MODE && random.once_in(4) {
        message.responder = 0;
    }
    message.encode()
}

/// A reply to a recorded offer, without a book and with its book.
fn add(random: &mut Random, cases: &mut Cases, to: &Recorded, reply: &Reply, words: &[&str]) {
    let message = recorded(random, reply.exchange, reply.offer());
    for book in [None, Some(&to.book[..])] {
        add_message(cases, to, reply, &message, book, words);
    }
}

fn add_message(cases: &mut Cases, to: &Recorded, reply: &Reply, message: &[u8], book: Option<&[u8]>, words: &[&str]) {
    let said = reply.said(book.map(|_| to.chosen.as_ref()));
    let tells = reply.told().map(|kind| format!("tells {}", kind.name()));
    let mut about = words.to_vec();
    about.push(if book.is_none() { NO_BOOK } else { "with a book" });
    about.extend((book == Some(&[0, 0])).then_some("no lines"));
    match &tells {
        Some(tells) => about.push(tells),
        None => about.extend(what_repeats(to, reply)),
    }
    describe(cases, reply.exchange, &about);
    cases.judged(&to.message, message, book, Some(said));
}

/// What a reply repeats.
fn what_repeats(to: &Recorded, reply: &Reply) -> Vec<&'static str> {
    let mut what = vec![match reply.proposals[..] {
        [Proposal { protocol: AH, .. }, _] => "AH before ESP",
        [Proposal { protocol: ESP, .. }, _] => "ESP before AH",
        _ => together(&reply.proposals),
    }];
    what.extend((reply.proposals[0].number != to.offer.proposals[0].number).then_some("a set other than the first"));
    what.extend(reply.takes_a_later_transform().then_some("a transform other than the first"));
    what
}

const SHAPES: [&[u8]; 4] = [&[AH], &[ESP], &[AH, ESP], &[ESP, AH]];

/// Sets of any shape.
fn random_shapes(random: &mut Random, most: usize) -> Vec<&'static [u8]> {
    (0..random.between(1, most)).map(|_| random.one_of(&SHAPES)).collect()
}

/// Offers with a book that chooses any set, line and transforms of them.
fn offers_with_a_choice(random: &mut Random, count: usize) -> Vec<Recorded> {
    let mut cases = Cases { kind: choices::PLANTED, detail: String::new(), made: Vec::new() };
    (0..count).for_each(|time| choices::plant(random, &mut cases, SORTS[time % 3]));
    cases.made.iter().filter_map(Recorded::of_choice).collect()
}

/// Whatever a reply may be made to: as many of which something is chosen as others of any shape.
fn offers_to_reply_to(random: &mut Random, count: usize) -> Vec<Recorded> {
    let mut offers = offers_with_a_choice(random, count / 2);
    while offers.len() < count {
        let shapes = if random.once_in(4) { vec![MAIN] } else { random_shapes(random, 4) };
        let most = random.one_of(&[1, 3, MOST_TRANSFORMS]);
        offers.push(Recorded::plain(random, &shapes, most));
    }
    offers
}

/// A reply that takes what is chosen, if something is and at random, or anything else.
fn any_reply(random: &mut Random, to: &Recorded) -> Reply {
    let as_chosen = to.as_chosen(random).filter(|_| !random.once_in(3));
    as_chosen.unwrap_or_else(|| Reply::random(random, &to.offer))
}

/// A message of one payload with these proposals.
fn alone(exchange: u8, byte: u8, proposals: Vec<Proposal>) -> Vec<u8> {
    let mut random = Random::new(byte.into(), "examples of request ten");
    let mut message = message_of(&mut random, exchange, 0, &[SA], SMALL);
    message.payloads = vec![sa(Offer { doi: 1, situation: 1, proposals, rest: Vec::new() })];
    message.encode()
}

/// Worked out by hand.
fn examples(_: &mut Random, cases: &mut Cases) {
    let hour = || vec![fixed(4, 1), fixed(5, 20), fixed(1, 1), fixed(2, 3_600)];
    let beside_ah = || vec![fixed(4, 1), fixed(1, 1), fixed(2, 3_600)];
    let ah = |number: u8| proposal_of(number, AH, vec![1, 0, 0, 2], vec![transform(1, 20, hour())]);
    let esp = |number: u8, transforms: &[u8]| {
        let transforms = transforms.iter().map(|&each| transform(each, 129, beside_ah())).collect();
        proposal_of(number, ESP, vec![1, 0, 0, 3], transforms)
    };
    let esp_alone = |number: u8, id: u8| proposal_of(number, ESP, vec![9; 4], vec![transform(1, id, hour())]);
    let offer = alone(QUICK_MODE, 1, vec![ah(1), esp(1, &[1, 2]), esp_alone(2, 129)]);
    let [both, esp_line] = [&[0, 1, 2, 1, 0, 0, 0x0e, 0x10][..], &[0, 1, 1, 1, 0, 0, 0x0e, 0x10]];
    let [set_1, set_2] =
        ["; the book chooses set 1 line 1 transforms 1 1", "; the book chooses set 2 line 1 transforms 1"];
    let said = |number: u16, words: &str| Said::Refused(number, format!("reply: {words}"));
    let quick: [(Vec<Proposal>, Option<&[u8]>, Said); 14] = [
        (vec![ah(1), esp(1, &[2])], None, Said::Lawful),
        (vec![ah(1), esp(1, &[1])], Some(both), Said::Lawful),
        (vec![esp_alone(2, 129)], Some(esp_line), Said::Lawful),
        (vec![ah(1), esp(1, &[2])], Some(both), said(14, &format!("takes ESP transform 2{set_1}"))),
        (vec![esp_alone(2, 129)], Some(both), said(14, &format!("takes set 2{set_1}"))),
        (vec![esp_alone(2, 129)], Some(&[0, 0]), said(14, "takes set 2; the book chooses nothing")),
        (vec![ah(1), esp(1, &[1]), esp_alone(2, 129)], None, said(15, "has 2 sets")),
        (vec![ah(3), esp(3, &[1])], None, said(15, "set 3 is not offered")),
        (vec![esp(1, &[1])], None, said(15, "set 1 has ESP alone, offered AH with ESP")),
        (vec![esp(1, &[1]), ah(1)], None, said(15, "set 1 has ESP before AH, offered AH before ESP")),
        (vec![ah(1), esp(1, &[1, 2])], None, said(15, "set 1: ESP has 2 transforms")),
        (vec![ah(1), esp(1, &[3])], Some(both), said(15, &format!("set 1: ESP transform 3 is not offered{set_1}"))),
        (
            vec![esp_alone(2, 128)],
            Some(esp_line),
            said(15, &format!("set 2: ESP transform 1 has ID 128, offered 129{set_2}")),
        ),
        (vec![esp(2, &[1])], None, said(15, "set 2: ESP transform 1 has other attributes than offered")),
    ];
    for (proposals, book, said) in quick {
        cases.judged(&offer, &alone(QUICK_MODE, 2, proposals), book, Some(said));
    }
    let main = |hash: u16| {
        [(1, 129), (2, hash), (3, 10), (20, 2), (11, 1), (12, 3_600)].map(|(kind, value)| fixed(kind, value))
    };
    let of = |transforms: &[(u8, u8, u16)]| {
        let transforms = transforms.iter().map(|&(number, id, hash)| transform(number, id, main(hash).to_vec()));
        vec![proposal_of(1, 1, Vec::new(), transforms.collect())]
    };
    let offer = alone(MAIN_MODE, 1, of(&[(1, 1, 2), (3, 1, 20), (4, 1, 20)]));
    let book: &[u8] = &[1, 0, 0, 0x0e, 0x10, 0];
    let chooses = "; the book chooses set 1 line 1 transforms 3";
    let main: [(&[(u8, u8, u16)], Option<&[u8]>, Said); 7] = [
        (&[(1, 1, 2)], None, Said::Lawful),
        (&[(3, 1, 20)], Some(book), Said::Lawful),
        (&[(4, 1, 20)], Some(book), said(14, &format!("takes transform 4{chooses}"))),
        (&[(2, 1, 20)], None, said(15, "set 1: transform 2 is not offered")),
        (&[(3, 0, 20)], None, said(15, "set 1: transform 3 has ID 0, offered 1")),
        (
            &[(1, 1, 20)],
            Some(book),
            said(15, &format!("set 1: transform 1 has other attributes than offered{chooses}")),
        ),
        (&[(1, 1, 2), (3, 1, 20)], None, said(15, "set 1 has 2 transforms")),
    ];
    for (transforms, book, said) in main {
        cases.judged(&offer, &alone(MAIN_MODE, 2, of(transforms)), book, Some(said));
    }
}

fn replies_that_repeat(random: &mut Random, cases: &mut Cases) {
    let alone = SHAPES.iter().map(|&shape| vec![shape]);
    let twos = SHAPES.iter().flat_map(|&one| SHAPES.iter().map(move |&other| vec![one, other]));
    let all: Vec<_> = vec![vec![MAIN]; 8].into_iter().chain(alone).chain(twos).collect();
    for _ in 0..12 {
        for shapes in all.iter().cloned().chain([random_shapes(random, 8), random_shapes(random, 8)]) {
            let most = random.one_of(&[1, 2, 5, MOST_TRANSFORMS]);
            let to = Recorded::plain(random, &shapes, most);
            for set in 0..to.sets().len() {
                let last: Vec<_> = to.sets()[set].iter().map(|proposal| proposal.transforms.len() - 1).collect();
                for places in [last, random_places(random, to.sets()[set])] {
                    let reply = Reply::of(random, &to.offer, set, &places);
                    add(random, cases, &to, &reply, &[]);
                }
            }
        }
    }
}

/// Each in every proposal.
fn each_difference(random: &mut Random, cases: &mut Cases) {
    for to in offers_to_reply_to(random, 330) {
        let reply = any_reply(random, &to);
        for kind in KINDS {
            let places = if kind.is_of_proposal() { reply.proposals.len() } else { 1 };
            for at in 0..places {
                if let Some(unlike) = reply.with(random, &[Difference { kind, at }]) {
                    add(random, cases, &to, &unlike, &["alone"]);
                }
            }
        }
    }
}

/// The later kind in the earlier proposal, the other way round, and both in one.
fn two_differences(random: &mut Random, cases: &mut Cases) {
    let offers = offers_to_reply_to(random, 600);
    for (one, other) in KINDS.iter().flat_map(|&one| KINDS.map(|other| (one, other))).filter(|(one, other)| one < other)
    {
        let pair = format!("{} and {}", one.name(), other.name());
        let places: &[usize] = &[0, 1];
        for (one_at, other_at) in places.iter().flat_map(|&one| places.iter().map(move |&other| (one, other))) {
            let differences = [Difference { kind: one, at: one_at }, Difference { kind: other, at: other_at }];
            let mut made = 0;
            while one.goes_with(other) && made < 16 {
                let to = &offers[random.below(offers.len())];
                if let Some(unlike) = any_reply(random, to).with(random, &differences) {
                    add(random, cases, to, &unlike, &[&pair]);
                    made += 1;
                }
            }
        }
    }
}

fn any_differences(random: &mut Random, cases: &mut Cases) {
    for to in offers_to_reply_to(random, 1_500) {
        let reply = any_reply(random, &to);
        let mut differences = Vec::new();
        for kind in KINDS {
            if random.once_in(3) && differences.iter().all(|before: &Difference| kind.goes_with(before.kind)) {
                differences.push(Difference { kind, at: random.below(reply.proposals.len()) });
            }
        }
        if let Some(unlike) = reply.with(random, &differences) {
            add(random, cases, &to, &unlike, &["any"]);
        }
    }
}

/// Every byte of every value of a transform; a life type's stays one that no other has.
fn each_attribute(random: &mut Random, cases: &mut Cases) {
    for to in offers_to_reply_to(random, 60) {
        let reply = any_reply(random, &to);
        for at in 0..reply.proposals.len() {
            let attributes = reply.proposals[at].transforms[0].attributes.clone();
            for (place, attribute) in attributes.iter().enumerate() {
                let size = match &attribute.value {
                    Value::Fixed(_) => 2,
                    Value::Variable(_, bytes) => bytes.len(),
                };
                for byte in 0..size {
                    let mut changed = attributes.clone();
                    match &mut changed[place].value {
                        Value::Fixed(value) => *value ^= 1 << (8 * byte),
                        Value::Variable(_, bytes) => bytes[byte] ^= 1,
                    }
                    let is_repeated =
                        attribute.kind == life_type(reply.exchange) && attributes.contains(&changed[place]);
                    if !is_repeated {
                        let changed = Transform { attributes: changed, ..reply.proposals[at].transforms[0].clone() };
                        let unlike = reply.with_transform(at, changed, Some(Kind::Attributes));
                        add(random, cases, &to, &unlike, &["each attribute"]);
                    }
                }
            }
        }
    }
}

/// Every byte of the transforms that are taken, which then often cannot be read.
fn transform_bytes(random: &mut Random, cases: &mut Cases) {
    for to in offers_to_reply_to(random, 18) {
        let reply = any_reply(random, &to);
        let layout = message_with(random, reply.exchange, reply.offer()).layout();
        for span in layout.spans.iter().filter(|span| span.name == "transform's length") {
            for at in span.start..span.end {
                let mut damaged = layout.bytes.clone();
                damaged[at] ^= 1 << random.below(8);
                let book = random.once_in(2).then_some(&to.book[..]);
                cases.judged(&to.message, &damaged, book, None);
            }
        }
    }
}

/// What is told of a transform, if it is not one of the proposal's.
fn told_of(offered: &Proposal, found: &Transform) -> Option<Kind> {
    let Some(same) = offered.transforms.iter().find(|offered| offered.number == found.number) else {
        return Some(Kind::TransformNumber);
    };
    if same.id != found.id {
        return Some(Kind::Id);
    }
    (same.attributes != found.attributes).then_some(Kind::Attributes)
}

/// A transform of the set's other proposal, or of any proposal of another set. It may be one of this proposal's as well.
fn foreign_transforms(random: &mut Random, cases: &mut Cases) {
    for time in 0..500 {
        let shapes = [SHAPES[2 + time % 2], SHAPES[time / 2 % 4]];
        let mut to = Recorded::plain(random, &shapes, 4);
        // Two times of three all have numbers and IDs in common, and some even the attributes.
        let model = to.offer.proposals[0].transforms.clone();
        for proposal in to.offer.proposals.iter_mut().skip(1).filter(|_| time % 3 > 0) {
            proposal.transforms.truncate(model.len());
            for (transform, model) in proposal.transforms.iter_mut().zip(&model) {
                (transform.number, transform.id) = (model.number, model.id);
                if random.once_in(3) {
                    transform.attributes = model.attributes.clone();
                }
            }
        }
        to.message = recorded(random, QUICK_MODE, to.offer.clone());
        let reply = Reply::of(random, &to.offer, 0, &[0, 0]);
        let at = random.below(2);
        for from in (0..to.offer.proposals.len()).filter(|&from| from != at) {
            let transforms = to.offer.proposals[from].transforms.clone();
            let found = transforms[random.below(transforms.len())].clone();
            let kind = told_of(&to.offer.proposals[at], &found);
            add(random, cases, &to, &reply.with_transform(at, found, kind), &["foreign transform"]);
        }
    }
}

/// A reply may repeat either of them, under its number.
fn the_same_twice(random: &mut Random, cases: &mut Cases) {
    for time in 0..200 {
        let shape = SHAPES[time % 4];
        let mut to = Recorded::plain(random, &[shape, shape], 4);
        let count = shape.len();
        for at in 0..count {
            to.offer.proposals[count + at].transforms = to.offer.proposals[at].transforms.clone();
        }
        to.message = recorded(random, QUICK_MODE, to.offer.clone());
        let places = random_places(random, &to.offer.proposals[..count]);
        for set in [0, 1] {
            let reply = Reply::of(random, &to.offer, set, &places);
            add(random, cases, &to, &reply, &["the same in two sets"]);
        }
    }
}

/// One of a set's two proposals alone, and two where one is offered; what is left is as it was offered.
fn no_alternatives(random: &mut Random, cases: &mut Cases) {
    let difference = [Difference { kind: Kind::Protocols, at: 0 }];
    for to in offers_to_reply_to(random, 400) {
        for set in 0..to.sets().len() {
            let places = random_places(random, to.sets()[set]);
            let reply = Reply::of(random, &to.offer, set, &places);
            let Some(unlike) = reply.with(random, &difference) else { continue };
            let word = match (reply.proposals.len(), unlike.proposals.len()) {
                (2, _) => "one of two proposals",
                (_, 2) => "two proposals for one",
                _ => "one for another",
            };
            add(random, cases, &to, &unlike, &[word]);
        }
    }
}

/// Next fields, lengths and counts are to be set anew. As they were offered, or wrong otherwise, they cannot be read.
fn fields_as_offered(random: &mut Random, cases: &mut Cases) {
    const DAMAGES: &[(&str, fn(&mut Proposal))] = &[
        ("transform's next", |proposal| proposal.transforms[0].next = Some(3)),
        ("transform's reserved byte", |proposal| proposal.transforms[0].reserved = 1),
        ("transform's second reserved field", |proposal| proposal.transforms[0].second_reserved = 1),
        ("transform's length", |proposal| proposal.transforms[0].length = Length::More(4)),
        ("proposal's next", |proposal| proposal.next = Some(2)),
        ("proposal's length", |proposal| proposal.length = Length::More(20)),
        ("proposal's count", |proposal| proposal.count = Some(2)),
        ("transform left out", |proposal| proposal.transforms.clear()),
    ];
    for to in offers_to_reply_to(random, 60) {
        let reply = any_reply(random, &to);
        for (name, damage) in DAMAGES {
            let mut offer = reply.offer();
            damage(offer.last_proposal());
            let message = recorded(random, reply.exchange, offer);
            describe(cases, reply.exchange, &["cannot be read anew", name]);
            for book in [None, Some(&to.book[..])] {
                cases.judged(&to.message, &message, book, Some(cannot_be_read("reply", 15)));
            }
        }
    }
}

pub fn cannot_be_read(name: &str, number: u16) -> Said {
    Said::Refused(number, format!("{name}: cannot be read"))
}

/// A main offer with a quick reply, and the other way round: the set's number is offered or not, or there are several sets.
fn crossed(random: &mut Random, cases: &mut Cases) {
    let is_main = |recorded: &Recorded| recorded.offer.proposals[0].protocol == ISAKMP;
    let (main, quick): (Vec<_>, Vec<_>) = offers_to_reply_to(random, 360).into_iter().partition(is_main);
    for (offers, others, times) in [(&main, &quick, 4), (&quick, &main, 1)] {
        for (to, set) in offers.iter().flat_map(|to| to.sets().into_iter().map(move |set| (to, set))) {
            for _ in 0..times {
                let other = &others[random.below(others.len())];
                let reply = any_reply(random, other).crossed(&to.offer, set[0].number);
                add(random, cases, to, &reply, &["crossed"]);
                let kind = random.one_of(&[Kind::SetNumber, Kind::SeveralSets]);
                if let Some(unlike) = reply.with_first(random, kind) {
                    add(random, cases, to, &unlike, &["crossed"]);
                }
            }
        }
    }
}

/// What is chosen, every other set, and in each proposal of the chosen one another transform.
fn replies_beside_a_choice(random: &mut Random, cases: &mut Cases) {
    for to in offers_with_a_choice(random, 600) {
        let chosen = to.as_chosen(random).expect("something is chosen");
        let mut replies: Vec<_> =
            (0..chosen.proposals.len()).filter_map(|at| chosen.with_another_transform(random, at)).collect();
        for (set, proposals) in to.sets().into_iter().enumerate() {
            let places = random_places(random, proposals);
            replies.push(Reply::of(random, &to.offer, set, &places));
        }
        replies.push(chosen);
        replies.iter().for_each(|reply| add(random, cases, &to, reply, &[]));
    }
}

/// What is chosen or any set of what the choices are made of, unaltered and with a difference.
fn replies_to_choices(random: &mut Random, cases: &mut Cases) {
    const OF_EACH_KIND: usize = 80;
    for (kind, _) in choices::GROUP.kinds.iter().filter(|(kind, _)| *kind != choices::WORDS) {
        let made = choices::GROUP.of_kind(random, kind);
        for to in spread(&made, OF_EACH_KIND).filter_map(Recorded::of_choice) {
            let reply = any_reply(random, &to);
            let difference = Difference { kind: random.one_of(&KINDS), at: random.below(reply.proposals.len()) };
            for reply in reply.with(random, &[difference]).iter().chain([&reply]) {
                add(random, cases, &to, reply, &["of the choices"]);
            }
        }
    }
}

/// Messages 1 and 2 of quick mode as the ends write them, with no book and with the responder's.
fn own_replies(random: &mut Random, cases: &mut Cases) {
    for _ in 0..400 {
        let given = suiting_given(random);
        let (id, identities) = (random_message_id(random), random_identities(random));
        let offer = message_1(&given[0], id, &identities);
        let place = chosen_line(&given).expect("a line suits one of the sets");
        let set = proposals(place as u8 + 1, &given[0].book.quick[place], &given[1]);
        let reply = long_message(&given[1], id, offer_of(set), &identities);
        for (word, book) in
            [("own responder, no book", None), ("own responder, its book", Some(given[1].book.encode()))]
        {
            describe(cases, QUICK_MODE, &[word]);
            cases.judged(&offer.encode(), &reply.encode(), book.as_deref(), Some(Said::Lawful));
        }
    }
}

/// An offer, a book that chooses the only set of it, and the reply that takes that.
pub struct Sound {
    pub offer: Message,
    pub to: Recorded,
    pub reply: Reply,
    pub answer: Message,
}

impl Sound {
    pub fn new(random: &mut Random, protocols: &'static [u8]) -> Sound {
        let line = random_line(random, protocols);
        let set = set_of(random, &line, suiting);
        let offer = offer_of_sets(random, vec![set]);
        let reply = Reply::of(random, &offer, 0, &vec![0; protocols.len()]);
        let message = message_with(random, line.exchange(), offer.clone());
        let chosen = Chosen { set: reply.proposals[0].number, line: 1, transforms: reply.numbers() };
        let book = Book::of(random, &[line]).encode();
        let to = Recorded { offer, message: message.encode(), book, chosen: Some(chosen) };
        let answer = message_with(random, line.exchange(), reply.offer());
        Sound { offer: message, to, reply, answer }
    }
}

/// A book that is none: with a byte more or less, or nothing at all.
fn unlawful(random: &mut Random, book: &[u8]) -> Vec<u8> {
    match random.below(3) {
        0 => [book, &[0]].concat(),
        1 => book[..book.len() - 1].to_vec(),
        _ => Vec::new(),
    }
}

/// At the offer with whatever comes behind it, and at the reply with a sound offer and a sound book or none.
fn checks_broken(random: &mut Random, cases: &mut Cases) {
    for check in CHECKS {
        for time in 0..12 {
            let Sound { offer, to, answer, .. } = Sound::new(random, SORTS[time % 3]);
            let bad_book = unlawful(random, &to.book);
            let mut broken = offer.clone();
            if (check.breaks)(random, &mut broken) {
                describe(cases, offer.exchange, &["at the offer", check.name]);
                let said = Some(cannot_be_read("offer", check.number));
                let (broken, answer) = (broken.encode(), answer.encode());
                cases.judged(&broken, &answer, None, said.clone());
                cases.judged(&broken, &answer, Some(&bad_book), said.clone());
                cases.judged(&broken, &answer[1..], Some(&to.book), said);
            }
            let mut broken = answer.clone();
            if (check.breaks)(random, &mut broken) {
                describe(cases, offer.exchange, &["at the reply", check.name]);
                let said = Some(cannot_be_read("reply", check.number));
                let broken = broken.encode();
                cases.judged(&to.message, &broken, None, said.clone());
                cases.judged(&to.message, &broken, Some(&to.book), said);
                describe(cases, offer.exchange, &["unlawful book", "unsound reply"]);
                cases.judged(&to.message, &broken, Some(&bad_book), Some(cannot_be_read("book", 8_193)));
            }
        }
    }
}

fn without_sa_payload(random: &mut Random) -> Vec<u8> {
    let exchange = random.one_of(&EXCHANGES);
    let types: [&[u8]; 5] = [&[HASH], &[NONCE, VENDOR], &[HASH, NOTICE], &[VENDOR], &[VENDOR; MOST_PAYLOADS]];
    let (flag, types) = (random.below(2) as u8, random.one_of(&types));
    message_of(random, exchange, flag, types, SMALL).encode()
}

fn has_no_sa_payload(name: &str) -> Said {
    Said::Refused(16, format!("{name}: has no SA payload"))
}

/// In the offer before an unlawful book and whatever is wrong with the reply, in the reply behind both.
fn no_sa_payload(random: &mut Random, cases: &mut Cases) {
    for time in 0..120 {
        let Sound { offer, to, answer, .. } = Sound::new(random, SORTS[time % 3]);
        let (answer, without) = (answer.encode(), without_sa_payload(random));
        let bad_book = unlawful(random, &to.book);
        describe(cases, offer.exchange, &["no SA payload"]);
        for (reply, book) in
            [(&answer, None), (&answer, Some(&bad_book)), (&without, Some(&to.book)), (&Vec::new(), None)]
        {
            cases.judged(&without, reply, book.map(Vec::as_slice), Some(has_no_sa_payload("offer")));
        }
        for book in [None, Some(&to.book[..]), Some(&[0, 0])] {
            cases.judged(&to.message, &without, book, Some(has_no_sa_payload("reply")));
        }
        describe(cases, offer.exchange, &["unlawful book", "unsound reply"]);
        cases.judged(&to.message, &without, Some(&bad_book), Some(cannot_be_read("book", 8_193)));
    }
}

/// An empty book is a book.
fn unlawful_books(random: &mut Random, cases: &mut Cases) {
    for time in 0..200 {
        let Sound { offer, to, answer, .. } = Sound::new(random, SORTS[time % 3]);
        let answer = answer.encode();
        let long = Line { seconds: random.one_of(&[0, 86_401, u32::MAX]), ..random_line(random, MAIN) };
        let long = Book { main: vec![long], quick: Vec::new() };
        let wrong_mode = Line { mode: random.one_of(&[0, 5, 255]), ..random_line(random, ESP_ALONE) };
        let wrong_mode = Book { main: Vec::new(), quick: vec![random_line(random, AH_WITH_ESP), wrong_mode] };
        let cut = to.book[..random.between(1, to.book.len() - 1)].to_vec();
        let longer = [&to.book, [random.byte()].as_slice()].concat();
        for book in [vec![9; 40], long.encode(), wrong_mode.encode(), cut, longer, Vec::new()] {
            let word = if book.is_empty() { "empty book" } else { "unlawful book" };
            for (name, reply) in [("sound reply", &answer[..]), ("unsound reply", &answer[..answer.len() - 1])] {
                describe(cases, offer.exchange, &[word, name]);
                cases.judged(&to.message, reply, Some(&book), Some(cannot_be_read("book", 8_193)));
            }
        }
    }
}

/// Each way in which an input can be right or wrong with each way of the others.
fn first_refusals(random: &mut Random, cases: &mut Cases) {
    let set_number = [Difference { kind: Kind::SetNumber, at: 0 }];
    for time in 0..24 {
        let Sound { offer, to, reply, answer } = Sound::new(random, SORTS[time % 3]);
        let unlike = reply.with(random, &set_number).expect("every set has a number");
        let without = without_sa_payload(random);
        let version = |message: &Message| Message { version: 0x10, ..message.clone() }.encode();
        let offers = [
            (to.message.clone(), None),
            (version(&offer), Some(cannot_be_read("offer", 6))),
            (without.clone(), Some(has_no_sa_payload("offer"))),
        ];
        let no_book = || Some(cannot_be_read("book", 8_193));
        let (none, sound, no_lines) = ((None, None), (Some(to.book.clone()), None), (Some(vec![0, 0]), None));
        let books =
            [none, sound, no_lines, (Some(Vec::new()), no_book()), (Some([&to.book, &[0][..]].concat()), no_book())];
        let unlike_message = message_with(random, unlike.exchange, unlike.offer()).encode();
        let replies = [
            (answer.encode(), Ok(&reply)),
            (unlike_message, Ok(&unlike)),
            (version(&answer), Err(cannot_be_read("reply", 6))),
            (without, Err(has_no_sa_payload("reply"))),
        ];
        for (offer, of_offer) in &offers {
            for (book, of_book) in &books {
                for (reply, of_reply) in &replies {
                    let choice = book.as_ref().map(|book| to.chosen.as_ref().filter(|_| *book == to.book));
                    let of_reply = of_reply.clone().map_or_else(|refused| refused, |reply| reply.said(choice));
                    let said = of_offer.as_ref().or(of_book.as_ref()).unwrap_or(&of_reply);
                    cases.judged(offer, reply, book.as_deref(), Some(said.clone()));
                }
            }
        }
    }
}

/// A readable message of exactly so many bytes, with that offer behind an opaque payload.
pub fn of_size(random: &mut Random, exchange: u8, offer: Offer, size: usize) -> Vec<u8> {
    let mut message = message_of(random, exchange, 0, &[VENDOR, SA], SMALL);
    *message.offer().expect("it has one") = offer;
    message.payloads[0] = opaque(VENDOR, Vec::new());
    let more = size - message.encode().len();
    message.payloads[0] = opaque(VENDOR, random.bytes(more));
    message.encode()
}

/// Messages of 8,192 bytes and of one more.
fn longest(random: &mut Random, cases: &mut Cases) {
    for time in 0..30 {
        let Sound { offer: Message { exchange, .. }, mut to, reply, answer } = Sound::new(random, SORTS[time % 3]);
        let [longest, longer] = [LONGEST, LONGEST + 1].map(|size| of_size(random, exchange, reply.offer(), size));
        let too_long = of_size(random, exchange, to.offer.clone(), LONGEST + 1);
        to.message = of_size(random, exchange, to.offer.clone(), LONGEST);
        for book in [None, Some(&to.book[..])] {
            add_message(cases, &to, &reply, &longest, book, &["longest messages"]);
            cases.judged(&to.message, &longer, book, Some(cannot_be_read("reply", 30)));
            cases.judged(&too_long, &answer.encode(), book, Some(cannot_be_read("offer", 30)));
        }
    }
}

/// Offers and replies of so few numbers, IDs and attributes that many are alike.
fn near_at_random(random: &mut Random, cases: &mut Cases) {
    for time in 0..2_400 {
        let exchange = PHASES[usize::from(time % 4 > 0)];
        let offer = near_offer(random, exchange, 3, 3);
        let most = if random.once_in(8) { 2 } else { 1 };
        let reply = near_offer(random, exchange, most, most);
        let [offer, reply] = [offer, reply].map(|offer| recorded(random, exchange, offer));
        let book = random.once_in(2).then(|| random_book(random).encode());
        cases.judged(&offer, &reply, book.as_deref(), None);
    }
}

fn near_offer(random: &mut Random, exchange: u8, most_sets: usize, most_transforms: usize) -> Offer {
    let shapes = if exchange == MAIN_MODE { vec![MAIN] } else { random_shapes(random, most_sets) };
    let mut proposals = Vec::new();
    for (number, shape) in (random.between(1, 2) as u8..).zip(shapes) {
        for &protocol in shape {
            let first = random.between(1, 2) as u8;
            let count = random.between(1, most_transforms) as u8;
            let near = |number: u8| {
                let mode = fixed(4, random.between(1, 2) as u16);
                transform(number, random.between(1, 2) as u8, vec![mode])
            };
            let transforms = (first..first + count).map(near).collect();
            let spi = if exchange == MAIN_MODE { Vec::new() } else { vec![1; 4] };
            proposals.push(proposal_of(number, protocol, spi, transforms));
        }
    }
    Offer { doi: 1, situation: 1, proposals, rest: Vec::new() }
}

/// Any two messages, and each as the reply to itself.
fn any_messages(random: &mut Random, cases: &mut Cases) {
    for _ in 0..600 {
        let [offer, reply] = [(); 2].map(|()| {
            let (exchange, count) = (random.one_of(&EXCHANGES), random.between(1, 4));
            random_message(random, exchange, count, SMALL).encode()
        });
        let book = random.once_in(2).then(|| random_book(random).encode());
        cases.judged(&offer, &reply, book.as_deref(), None);
        cases.judged(&offer, &offer, book.as_deref(), None);
    }
}

/// Of the offer and of the reply, each beside the other as it was.
fn fields_at_their_limits(random: &mut Random, cases: &mut Cases) {
    for protocols in SORTS {
        let Sound { offer, to, answer, .. } = Sound::new(random, protocols);
        let [offer, answer] = [offer, answer].map(|message| message.layout());
        for (is_offer, layout) in [(true, &offer), (false, &answer)] {
            for field in &layout.fields {
                for value in limits(layout, field) {
                    let damaged = with_field(layout, field, value);
                    let (one, other) = if is_offer { (&damaged, &answer.bytes) } else { (&offer.bytes, &damaged) };
                    cases.detail = format!("{} {value}", field.name);
                    cases.judged(one, other, random.once_in(2).then_some(&to.book), None);
                }
            }
        }
    }
}

fn bytes_changed(random: &mut Random, cases: &mut Cases) {
    for time in 0..6 {
        let Sound { to, answer, .. } = Sound::new(random, SORTS[time % 3]);
        let inputs = [to.message, answer.encode(), to.book];
        for (input, bytes) in inputs.iter().enumerate() {
            for at in 0..bytes.len() {
                for changed in [bytes[at] ^ 1, random.byte()] {
                    let mut damaged = inputs.clone();
                    damaged[input][at] = changed;
                    let [offer, reply, book] = &damaged;
                    cases.judged(offer, reply, (input == 2 || random.once_in(2)).then_some(book), None);
                }
            }
        }
    }
}

fn words(random: &mut Random, cases: &mut Cases) {
    let Sound { to, answer, .. } = Sound::new(random, MAIN);
    let [offer, reply, book] = [to.message, answer.encode(), to.book].map(|bytes| word(&bytes));
    for (line, answer) in [
        (format!("lawful {offer} {reply}"), "lawful"),
        (format!("lawful {offer} {reply} {book}"), "lawful"),
        (format!("lawful {} {}", offer.to_uppercase(), reply.to_uppercase()), "lawful"),
        (format!("lawful {offer} {reply} -"), "refused 8193"),
        (format!("lawful {offer} - -"), "refused 8193"),
        (format!("lawful {offer} -"), "refused 30"),
        (format!("lawful {offer} - {book}"), "refused 30"),
        (format!("lawful - {reply} -"), "refused 30"),
        ("lawful - -".to_string(), "refused 30"),
        ("lawful - - -".to_string(), "refused 30"),
        (format!("lawful {offer}"), "bad line"),
        (format!("lawful {offer} {reply} {book} -"), "bad line"),
        (format!("lawful {offer} {reply} {book} {book}"), "bad line"),
        (format!("lawful {offer} {reply} "), "bad line"),
        (format!("lawful {offer} {reply}  {book}"), "bad line"),
        (format!("lawful {offer}0 {reply}"), "bad line"),
        (format!("lawful {offer} {reply}0"), "bad line"),
        (format!("lawful {offer} {reply} {book}0"), "bad line"),
        (format!("lawful {offer} {reply} 0g"), "bad line"),
    ] {
        cases.words(&line, answer);
    }
    let bad = ["lawful", "lawful ", "lawful -", "lawful - - - -", "lawful - - - - -", "Lawful - -", "lawfully - -"];
    bad.iter().for_each(|line| cases.words(line, "bad line"));
    for good in ["lawful - -", "lawful - - -"] {
        for at in 0..=good.len() {
            for byte in [" ", "\t", "\r", "\0", "-", "g", "G", ".", "/", ":", "\u{663}"] {
                cases.words(&[&good[..at], byte, &good[at..]].concat(), "bad line");
            }
        }
    }
}

#[cfg(test)]
mod tests {
    use super::*;

    #[test]
    fn every_difference_and_every_two_that_go_together_are_asked_for() {
        let asked = |name: String| OCCASIONS.iter().any(|(occasion, ..)| *occasion == name);
        for kind in KINDS {
            assert!(asked(format!("15 for {}", kind.name())));
            for later in KINDS.into_iter().filter(|&later| kind < later && kind.goes_with(later)) {
                assert!(asked(format!("at once {} and {}", kind.name(), later.name())));
            }
        }
        assert_eq!(OCCASIONS.iter().filter(|(occasion, ..)| occasion.starts_with("at once ")).count(), 27);
    }

    #[test]
    fn numbers_are_left_out_of_a_form() {
        let form = |words: &str| form(&Said::Refused(14, words.to_string()));
        assert_eq!(
            form("reply: takes set 7; the book chooses set 12 line 1 transforms 0 255"),
            "reply: takes set #; the book chooses set # line # transforms #"
        );
        assert_eq!(
            form("reply: set 1: transform 2 has ID 3, offered 4"),
            "reply: set #: transform # has ID #, offered #"
        );
        assert_eq!(super::form(&Said::Lawful), "lawful");
    }

    #[test]
    fn a_book_beside_a_sound_offer_chooses_what_is_known() {
        let mut random = Random::new(1, "sound");
        for to in offers_with_a_choice(&mut random, 30) {
            let reply = to.as_chosen(&mut random).expect("something is chosen");
            let choice = to.chosen.as_ref();
            assert_eq!(reply.said(Some(choice)), Said::Lawful);
            assert!(
                matches!(reply.said(Some(None)), Said::Refused(14, words) if words.ends_with("; the book chooses nothing"))
            );
        }
    }
}
