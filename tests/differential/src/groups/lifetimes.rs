//! Lifetimes, the pairs of a life type and its duration: in every order among the other attributes, each way to break one,
//! what is refused first, and what suits by seconds and kilobytes.

use super::choices::{self, add_one, message_with, orders, set_to_change, Place, SORTS};
use super::{Group, Occasion, PLAIN};
use crate::cases::{Case, Cases};
use crate::layout::Length;
use crate::message::{MAIN_MODE, QUICK_MODE};
use crate::offer::{
    fixed, is_fixed, items, life_duration, life_type, lifetime, offer_of, random_attribute, random_attributes,
    random_lifetime, transform, variable, Attribute, Item, Transform, Value, KILOBYTES, MOST_ATTRIBUTES, SECONDS,
    SMALL,
};
use crate::policy::{
    lasting_lifetime, random_kilobytes, random_line, random_seconds, set_of, shuffle, spoiled, suiting, with_lifetimes,
    Line,
};
use crate::random::Random;

pub const GROUP: Group = Group {
    name: "lifetimes",
    answers: &[&["read", "chosen", "refused 13", "refused 14", "refused 15"]],
    at_least: 500,
    occasions: OCCASIONS,
    kinds: &[
        ("example of request two", examples),
        ("pairs in every order", every_order),
        ("items in another order", other_orders),
        ("a duration not right behind a life type", durations_alone),
        ("a repeated life type value", repeated_values),
        ("something else behind a life type", something_else_behind),
        ("a life type last", life_types_last),
        ("read before request two", read_before),
        ("number of a life type in variable form", numbers_in_variable_form),
        ("16th and 17th attribute", sixteenth_and_seventeenth),
        ("two refusals at one attribute", two_refusals_at_one),
        ("two refusals, one behind the other", two_refusals_in_order),
        ("pairs of several transforms", several_transforms),
        ("life type and duration of the other exchange", other_exchange),
        ("kilobytes at their limits", kilobytes_at_their_limits),
        ("lifetimes that suit or not", lifetimes_that_suit),
        ("lowest transform whose lifetimes suit", lowest_transforms),
    ],
    ..PLAIN
};

/// What must occur so often: cases with that answer whose detail has all of these words. First what must occur so often in
/// each exchange, then what must in both together.
macro_rules! occasions {
    (
        in each exchange $($each:literal $answer:literal: $($word:literal),+;)*
        in both together $($least:literal $given:literal: $($said:literal),+;)*
    ) => {
        &[
            $(
                (concat!($($word, ", ",)+ "exchange 2"), $each, |case, answers| {
                    occurs(case, answers, $answer, &[$($word,)+ "exchange 2"])
                }),
                (concat!($($word, ", ",)+ "exchange 32"), $each, |case, answers| {
                    occurs(case, answers, $answer, &[$($word,)+ "exchange 32"])
                }),
            )*
            $((concat!($($said, ", ",)+ $given), $least, |case, answers| occurs(case, answers, $given, &[$($said),+])),)*
        ]
    };
}

#[rustfmt::skip]
const OCCASIONS: &[Occasion] = occasions! {
    in each exchange
    200 "refused 15": "a duration not right behind a life type", "fixed";
    200 "refused 15": "a duration not right behind a life type", "variable";
    200 "refused 15": "a repeated life type value", "fixed";
    200 "refused 15": "a repeated life type value", "variable";
    200 "refused 15": "something else behind a life type", "fixed";
    200 "refused 15": "something else behind a life type", "variable";
    200 "refused 15": "a life type last", "fixed";
    200 "refused 13": "a life type last", "variable";
    200 "refused 15": "a repeated life type value", "seconds";
    200 "refused 15": "a repeated life type value", "kilobytes";
    200 "refused 15": "a repeated life type value", "another life type";
    100 "read": "a third life type";
    500 "chosen": "both lifetimes";
    50 "refused 14": "kilobytes 0", "fixed";
    50 "refused 14": "kilobytes 0", "variable";
    50 "chosen": "kilobytes 1", "fixed";
    50 "chosen": "kilobytes 1", "variable";
    50 "chosen": "largest kilobytes", "fixed";
    50 "chosen": "largest kilobytes", "variable";
    in both together
    500 "chosen": "every order";
    500 "read": "another order";
    500 "chosen": "another order";
    500 "refused 14": "another order";
    100 "refused 15": "duration before its type";
    100 "refused 15": "type and duration apart";
    100 "refused 15": "type alone";
    200 "refused 15": "number of no bytes";
    200 "refused 13": "number of no bytes";
    100 "refused 15": "number of 1 to 4 bytes";
    200 "refused 13": "number of 1 to 4 bytes";
    200 "refused 15": "number of more bytes";
    200 "refused 13": "number of more bytes";
    50 "read": "16th", "pair ends";
    50 "refused 15": "16th", "life type last";
    50 "refused 15": "16th", "duration alone";
    50 "refused 15": "16th", "something else behind a life type";
    50 "refused 15": "16th", "repeated pair ends";
    50 "refused 13": "16th", "fixed type sent variable";
    50 "refused 13": "16th", "life type sent variable";
    50 "refused 13": "16th", "duration's length";
    50 "refused 15": "17th", "pair ends";
    50 "refused 15": "17th", "pair begins";
    50 "refused 15": "17th", "life type last";
    50 "read": "eight pairs";
    50 "refused 15": "nine pairs";
    50 "refused 15": "bounds and 17th";
    50 "refused 15": "bounds and pair";
    50 "refused 15": "bounds and fixed";
    50 "refused 15": "bounds and duration's length";
    50 "refused 15": "17th and pair";
    50 "refused 15": "17th and fixed";
    50 "refused 15": "17th and duration's length";
    100 "refused 15": "pair and fixed";
    100 "refused 15": "pair and duration's length";
    100 "refused 15": "pair, then fixed";
    100 "refused 15": "pair, then duration's length";
    100 "refused 13": "fixed, then pair";
    50 "refused 13": "duration's length, then pair";
    50 "refused 13": "fixed, then life type last";
    50 "refused 13": "duration's length, then life type last";
    50 "refused 13": "fixed, then bounds";
    50 "refused 13": "duration's length, then bounds";
    50 "refused 13": "fixed, then 17th";
    50 "refused 13": "duration's length, then 17th";
    50 "refused 15": "life type last, then duration in the next transform";
    50 "refused 15": "life type last, then fixed in the next transform";
    50 "refused 13": "fixed, then life type last in the next transform";
    50 "read": "the same life types in two transforms";
    50 "read": "other exchange's types", "by themselves";
    50 "refused 15": "other exchange's types", "twice";
    50 "refused 15": "other exchange's types", "as half a pair";
    100 "refused 14": "kilobytes without seconds";
    100 "refused 14": "a third life type";
    100 "refused 14": "seconds beyond the line, with kilobytes";
    100 "chosen": "a later transform";
};

pub const PHASES: [u8; 2] = [MAIN_MODE, QUICK_MODE];
const FORMS: [&str; 2] = ["fixed", "variable"];

/// Between the words of a detail.
const BETWEEN: &str = "; ";

pub fn occurs(case: &Case, answers: &[String], answer: &str, words: &[&str]) -> bool {
    answers.first().is_some_and(|given| given.starts_with(answer)) && says(case, words)
}

/// Whether the detail of a case has all these words.
pub fn says(case: &Case, words: &[&str]) -> bool {
    words.iter().all(|word| case.detail.split(BETWEEN).any(|said| said == *word))
}

pub fn describe(cases: &mut Cases, exchange: u8, words: &[&str]) {
    cases.detail = format!("{}{BETWEEN}exchange {exchange}", words.join(BETWEEN));
}

/// A transform of these attributes anywhere in a lawful offer: it is read, or refused with that number.
fn add_read(random: &mut Random, cases: &mut Cases, exchange: u8, attributes: Vec<Attribute>, number: Option<u16>) {
    let count = random.between(1, 3);
    let mut offer = offer_of(random, exchange, count, SMALL);
    let proposal = random.below(offer.proposals.len());
    let transforms = &mut offer.proposals[proposal].transforms;
    let at = random.below(transforms.len());
    transforms[at].attributes = attributes;
    let message = message_with(random, exchange, offer);
    cases.decided(&message, number.is_none(), number.unwrap_or(0));
}

/// Life type values that differ, often those of seconds and kilobytes.
fn different_values(random: &mut Random, count: usize) -> Vec<u16> {
    let mut values: Vec<u16> = Vec::new();
    while values.len() < count {
        let any = random.number(16) as u16;
        let value = random.one_of(&[SECONDS, KILOBYTES, 0, 3, 255, 256, 257, 258, 0xffff, any]);
        if !values.contains(&value) {
            values.push(value);
        }
    }
    values
}

/// One more of them.
fn another_value(random: &mut Random, values: &[u16]) -> u16 {
    loop {
        let value = different_values(random, 1)[0];
        if !values.contains(&value) {
            return value;
        }
    }
}

/// Up to five attributes by themselves and a lifetime of each of these values, in any order.
fn random_items(random: &mut Random, exchange: u8, values: &[u16]) -> Vec<Item> {
    let count = random.below(6);
    let mut whole = items(exchange, &random_attributes(random, exchange, count));
    whole.retain(|item| item.len() == 1);
    whole.extend(values.iter().map(|&value| random_lifetime(random, exchange, value)));
    shuffle(random, &mut whole);
    whole
}

/// A lawful duration in that form.
fn duration_in_form(random: &mut Random, exchange: u8, form: &str) -> Attribute {
    if form == "fixed" {
        return fixed(life_duration(exchange), random.number(16) as u16);
    }
    let size = random.between(1, 4);
    variable(life_duration(exchange), random.bytes(size))
}

/// A number in so many bytes, or in those that it has if they are more.
fn spelled(number: u16, size: usize) -> Vec<u8> {
    let digits: Vec<u8> = number.to_be_bytes().into_iter().skip_while(|&byte| byte == 0).collect();
    [vec![0; size.saturating_sub(digits.len())], digits].concat()
}

/// These items are read, and with that fault at that place they are refused.
fn add_fault(
    random: &mut Random,
    cases: &mut Cases,
    exchange: u8,
    words: &[&str],
    (whole, place, fault): (Vec<Item>, usize, Item),
    number: u16,
) {
    let mut broken = whole.clone();
    broken.insert(place, fault);
    describe(cases, exchange, words);
    add_read(random, cases, exchange, broken.concat(), Some(number));
    describe(cases, exchange, &["without the fault"]);
    add_read(random, cases, exchange, whole.concat(), None);
}

/// Everything of `make` for each exchange and each form, so many times.
fn every_form(random: &mut Random, times: usize, mut make: impl FnMut(&mut Random, u8, &'static str)) {
    for exchange in PHASES {
        for form in FORMS {
            for _ in 0..times {
                make(random, exchange, form);
            }
        }
    }
}

fn durations_alone(random: &mut Random, cases: &mut Cases) {
    every_form(random, 250, |random, exchange, form| {
        let count = random.below(3);
        let values = different_values(random, count);
        let whole = random_items(random, exchange, &values);
        let place = random.below(whole.len() + 1);
        let fault = vec![duration_in_form(random, exchange, form)];
        let words = ["a duration not right behind a life type", form];
        add_fault(random, cases, exchange, &words, (whole, place, fault), 15);
    });
}

/// In variable form it stands behind the one that it repeats, as it would be 13 before.
fn repeated_values(random: &mut Random, cases: &mut Cases) {
    every_form(random, 150, |random, exchange, form| {
        let another = another_value(random, &[SECONDS, KILOBYTES]);
        for (word, value) in [("seconds", SECONDS), ("kilobytes", KILOBYTES), ("another life type", another)] {
            let other = another_value(random, &[value]);
            let count = random.between(1, 2);
            let whole = random_items(random, exchange, &[value, other][..count]);
            let is_repeated = |item: &Item| item[0].kind == life_type(exchange) && item[0].fixed_value() == Some(value);
            let first = whole.iter().position(is_repeated).expect("it is there");
            let mut fault = random_lifetime(random, exchange, value);
            let mut place = random.below(whole.len() + 1);
            if form == "variable" {
                let size = random.below(7);
                fault[0] = variable(life_type(exchange), spelled(value, size));
                place = random.between(first + 1, whole.len());
            }
            let words = ["a repeated life type value", form, word];
            add_fault(random, cases, exchange, &words, (whole, place, fault), 15);
        }
    });
}

/// What is behind it is lawful by itself, in that form: an attribute, or if that is fixed another lifetime.
fn something_else_behind(random: &mut Random, cases: &mut Cases) {
    every_form(random, 250, |random, exchange, form| {
        let values = different_values(random, 2);
        let mut whole = random_items(random, exchange, &values);
        if form == "variable" {
            let is_unused = |kind: &u16| whole.iter().all(|item| item[0].kind != *kind);
            let kind = (2_000..).find(is_unused).expect("there are fewer items");
            whole.push(vec![variable(kind, random.bytes(2))]);
        }
        let is_in_form = |place: &usize| whole[*place][0].fixed_value().is_some() == (form == "fixed");
        let places: Vec<_> = (0..whole.len()).filter(is_in_form).collect();
        let place = random.one_of(&places);
        let fault = vec![fixed(life_type(exchange), another_value(random, &values))];
        let words = ["something else behind a life type", form];
        add_fault(random, cases, exchange, &words, (whole, place, fault), 15);
    });
}

/// One in variable form is 13, before it is known that nothing is behind it.
fn life_types_last(random: &mut Random, cases: &mut Cases) {
    every_form(random, 250, |random, exchange, form| {
        let count = random.below(3);
        let values = different_values(random, count);
        let whole = random_items(random, exchange, &values);
        let value = another_value(random, &values);
        let size = random.below(7);
        let (fault, number) = match form {
            "fixed" => (fixed(life_type(exchange), value), 15),
            _ => (variable(life_type(exchange), spelled(value, size)), 13),
        };
        let place = whole.len();
        add_fault(random, cases, exchange, &["a life type last", form], (whole, place, vec![fault]), number);
        let third = different_values(random, 3);
        let whole = random_items(random, exchange, &third);
        describe(cases, exchange, &["a third life type"]);
        add_read(random, cases, exchange, whole.concat(), None);
    });
}

/// Document 01's example with other lifetimes.
fn examples(_: &mut Random, cases: &mut Cases) {
    for (lifetimes, answer) in [
        ("800b0001800c0e10800b0002800c0001", "chosen 1 1 1"),
        ("800b0002800c0001800b0001800c0e10", "chosen 1 1 1"),
        ("800b0001800c0e10800b0002000c00010f", "chosen 1 1 1"),
        ("800b0001800c0e10800b0002800c0000", "refused 14"),
        ("800b0001800c0e11800b0002800c0001", "refused 14"),
        ("800b0002800c0001", "refused 14"),
        ("800b0001800c0e10800b0003800c0001", "refused 14"),
        ("800b0001800c0e10800b0001800c0e10", "refused 15"),
        ("800b0001800c0e10000b0003000001800c0001", "refused 15"),
        ("800b0001800c0e10000b00050100000001800c0001", "refused 13"),
        ("800c0e10800b0001", "refused 15"),
        ("800b0001", "refused 15"),
    ] {
        let wanted = "80010081800200148003000a80140002";
        let size = (wanted.len() + lifetimes.len()) / 2;
        let header = format!("0101010101010101020202020202020201110200000000000000{:04x}", 56 + size);
        let sa = format!("0000{:04x}0000000100000001", 28 + size);
        let proposal = format!("0000{:04x}010100010000{:04x}01010000", 16 + size, 8 + size);
        cases.words(&format!("choose 0100000e1000 {header}{sa}{proposal}{wanted}{lifetimes}"), answer);
    }
}

/// The seconds and the kilobytes at every place among the rest, in each protocol.
fn every_order(random: &mut Random, cases: &mut Cases) {
    const OF_EACH_PROTOCOL: usize = 720;
    for protocols in SORTS {
        for &protocol in protocols {
            let orders = orders(random_line(random, protocols).wanted(protocol).len() + 2);
            for time in 0..OF_EACH_PROTOCOL {
                let line = random_line(random, protocols);
                let mut whole: Vec<Item> = line.wanted(protocol).into_iter().map(|attribute| vec![attribute]).collect();
                let seconds = random_seconds(random, line.seconds);
                whole.push(lasting_lifetime(random, line.exchange(), SECONDS, seconds));
                whole.push(random_kilobytes(random, line.exchange()));
                let order = &orders[time % orders.len()];
                let mut set = set_of(random, &line, suiting);
                let (_, transforms) =
                    set.iter_mut().find(|(offered, _)| *offered == protocol).expect("it is in the set");
                transforms[0].attributes = order.iter().flat_map(|&item| whole[item].clone()).collect();
                describe(cases, line.exchange(), &["every order", "both lifetimes"]);
                add_one(random, cases, line, set, true);
            }
        }
    }
}

/// What reads or suits, and what does not suit, does so in another order of its items as well.
fn other_orders(random: &mut Random, cases: &mut Cases) {
    for exchange in PHASES {
        describe(cases, exchange, &["another order"]);
        for _ in 0..150 {
            let count = random.between(2, MOST_ATTRIBUTES);
            let attributes = random_attributes(random, exchange, count);
            for _ in 0..3 {
                let another = shuffled(random, exchange, &attributes);
                add_read(random, cases, exchange, another, None);
            }
        }
    }
    for (protocols, (make, suits)) in SORTS.iter().flat_map(|sort| MAKERS.map(|maker| (*sort, maker))) {
        for _ in 0..100 {
            let line = random_line(random, protocols);
            describe(cases, line.exchange(), &["another order"]);
            let (mut set, at) = set_to_change(random, &line);
            set[at].1[0] = make(random, &line, set[at].0);
            for _ in 0..3 {
                let attributes = &mut set[at].1[0].attributes;
                *attributes = shuffled(random, line.exchange(), attributes);
                add_one(random, cases, line, set.clone(), suits);
            }
        }
    }
}

type Maker = fn(&mut Random, &Line, u8) -> Transform;

/// Transforms that suit, and such that do not.
const MAKERS: [(Maker, bool); 2] = [(suiting, true), (spoiled, false)];

fn shuffled(random: &mut Random, exchange: u8, attributes: &[Attribute]) -> Vec<Attribute> {
    let mut whole = items(exchange, attributes);
    shuffle(random, &mut whole);
    whole.concat()
}

/// Under document 01 alone these suited, or would have with a duration.
fn read_before(random: &mut Random, cases: &mut Cases) {
    for time in 0..450 {
        let line = random_line(random, SORTS[time % 3]);
        let (mut set, at) = set_to_change(random, &line);
        let mut whole = line.wanted(set[at].0).into_iter().map(|attribute| vec![attribute]).collect::<Vec<_>>();
        let seconds = random_seconds(random, line.seconds);
        let pair = lasting_lifetime(random, line.exchange(), SECONDS, seconds);
        let place = random.below(whole.len() + 1);
        let word = match time / 3 % 3 {
            0 => {
                whole.insert(place, pair.into_iter().rev().collect());
                "duration before its type"
            }
            1 => {
                let mut halves: Vec<Item> = pair.chunks(1).map(<[_]>::to_vec).collect();
                shuffle(random, &mut halves);
                let behind = random.between(1, whole.len());
                whole.insert(behind, halves.remove(0));
                whole.insert(random.below(behind), halves.remove(0));
                "type and duration apart"
            }
            _ => {
                whole.insert(place, pair[..1].to_vec());
                "type alone"
            }
        };
        set[at].1[0].attributes = whole.concat();
        describe(cases, line.exchange(), &[word]);
        choices::add_unreadable(random, cases, line, set);
    }
}

/// A lifetime with that life type in variable form, behind one with that value; it is 15 if it repeats it, else 13.
fn add_number(random: &mut Random, cases: &mut Cases, exchange: u8, value: u16, bytes: Vec<u8>, is_repeated: bool) {
    let word = match bytes.len() {
        0 => "number of no bytes",
        1..=4 => "number of 1 to 4 bytes",
        _ => "number of more bytes",
    };
    let mut whole = random_items(random, exchange, &[value]);
    whole.push(vec![variable(life_type(exchange), bytes), duration_in_form(random, exchange, "fixed")]);
    describe(cases, exchange, &[word]);
    add_read(random, cases, exchange, whole.concat(), Some(if is_repeated { 15 } else { 13 }));
}

/// With zeros in front it is the same number; with any other byte in front, or with its last byte changed, it is not.
fn numbers_in_variable_form(random: &mut Random, cases: &mut Cases) {
    const SIZES: [usize; 18] = [0, 1, 2, 3, 4, 5, 6, 7, 8, 9, 10, 16, 17, 32, 64, 255, 256, 300];
    const VALUES: [u16; 12] = [0, 1, 2, 3, 127, 128, 255, 256, 258, 0x7fff, 0x8000, 0xffff];
    for exchange in PHASES {
        for value in VALUES.into_iter().chain([random.number(16) as u16]) {
            for size in SIZES {
                let bytes = spelled(value, size);
                add_number(random, cases, exchange, value, bytes.clone(), true);
                let front = random.one_of(&[1, 2, 128, 255]);
                add_number(random, cases, exchange, value, [&[front], bytes.as_slice()].concat(), false);
                add_number(random, cases, exchange, value, [bytes.as_slice(), &[0]].concat(), value == 0);
                if let Some((last, before)) = bytes.split_last() {
                    let changed = [before, &[last ^ random.one_of(&[1, 128, 255])]].concat();
                    add_number(random, cases, exchange, value, changed, false);
                }
            }
        }
        for _ in 0..120 {
            add_number(random, cases, exchange, 0, Vec::new(), true);
            let value = random.between(1, 0xffff) as u16;
            add_number(random, cases, exchange, value, Vec::new(), false);
        }
    }
}

/// What the end of a transform is made of, behind a front.
#[derive(Clone)]
struct Parts {
    life_type: Attribute,
    /// A life type as every front has it.
    repeated: Attribute,
    variable_life_type: Attribute,
    duration: Attribute,
    /// In variable form, of no byte or more than four.
    wrong_duration: Attribute,
    single: Attribute,
    /// Of a fixed type, in variable form.
    wrong_single: Attribute,
}

/// The value of a life type in every front.
const IN_EVERY_FRONT: u16 = 100;

impl Parts {
    /// Parts of different numbers can stand in one transform.
    fn new(random: &mut Random, exchange: u8, number: u16) -> Parts {
        let value = 60 + number;
        let sizes = [random.between(1, 6), random.one_of(&[0, 5, 6, 9]), random.below(3)];
        Parts {
            life_type: fixed(life_type(exchange), value),
            repeated: fixed(life_type(exchange), IN_EVERY_FRONT),
            variable_life_type: variable(life_type(exchange), spelled(value, sizes[0])),
            duration: random_attribute(random, exchange, life_duration(exchange)),
            wrong_duration: variable(life_duration(exchange), random.bytes(sizes[1])),
            single: fixed(500 + number, 1),
            wrong_single: variable(4 + number, random.bytes(sizes[2])),
        }
    }

    /// Each way to break a pair but that a life type is last; it is noticed at the last attribute.
    fn broken_pairs(&self) -> Vec<Vec<Attribute>> {
        let Parts { life_type, repeated, duration, single, .. } = self.clone();
        vec![
            vec![duration.clone()],
            vec![life_type.clone(), duration.clone(), duration],
            vec![life_type.clone(), single],
            vec![life_type, repeated.clone()],
            vec![repeated],
        ]
    }

    fn sent_variable(&self) -> Vec<Vec<Attribute>> {
        let Parts { variable_life_type, duration, wrong_single, .. } = self.clone();
        vec![vec![wrong_single], vec![variable_life_type, duration]]
    }

    fn wrong_lengths(&self) -> Vec<Vec<Attribute>> {
        vec![vec![self.life_type.clone(), self.wrong_duration.clone()]]
    }
}

/// Five bytes of a value that reaches past the transform's end.
fn past_the_end(random: &mut Random, like: &Attribute) -> Attribute {
    let length = Length::PastEnd(random.one_of(&[1, 2, 40_000]));
    Attribute { kind: like.kind, value: Value::Variable(length, random.bytes(5)) }
}

/// So many lawful attributes, two at least, with types and life types that no parts have but the repeated one.
fn front(random: &mut Random, exchange: u8, count: usize) -> Vec<Attribute> {
    let pairs = random.between(1, (count / 2).min(4)) as u16;
    let pair = |number: u16| lifetime(exchange, IN_EVERY_FRONT + number, fixed(life_duration(exchange), 1));
    let singles = (0..count as u16 - 2 * pairs).map(|number| vec![fixed(1_000 + number, 1)]);
    let mut whole: Vec<Item> = (0..pairs).map(pair).chain(singles).collect();
    shuffle(random, &mut whole);
    whole.concat()
}

/// A front of so many attributes and that end.
fn add_end(
    random: &mut Random,
    cases: &mut Cases,
    exchange: u8,
    words: &[&str],
    (count, end): (usize, Vec<Attribute>),
    number: Option<u16>,
) {
    let mut attributes = front(random, exchange, count);
    attributes.extend(end);
    describe(cases, exchange, words);
    add_read(random, cases, exchange, attributes, number);
}

/// Both exchanges, so many times each, with parts for an end.
fn every_end(random: &mut Random, times: usize, mut make: impl FnMut(&mut Random, u8, Parts)) {
    for exchange in PHASES {
        for _ in 0..times {
            let parts = Parts::new(random, exchange, 0);
            make(random, exchange, parts);
        }
    }
}

fn sixteenth_and_seventeenth(random: &mut Random, cases: &mut Cases) {
    every_end(random, 40, |random, exchange, parts| {
        let Parts { life_type, repeated, variable_life_type, duration, wrong_duration, single, wrong_single } = parts;
        let pair = vec![life_type.clone(), duration.clone()];
        for (place, word, front, end, number) in [
            ("16th", "pair ends", 14, pair.clone(), None),
            ("16th", "another type", 15, vec![single.clone()], None),
            ("16th", "life type last", 15, vec![life_type.clone()], Some(15)),
            ("16th", "duration alone", 15, vec![duration.clone()], Some(15)),
            ("16th", "something else behind a life type", 14, vec![life_type.clone(), single.clone()], Some(15)),
            ("16th", "repeated pair ends", 14, vec![repeated, duration], Some(15)),
            ("16th", "fixed type sent variable", 15, vec![wrong_single], Some(13)),
            ("16th", "life type sent variable", 15, vec![variable_life_type], Some(13)),
            ("16th", "duration's length", 14, vec![life_type.clone(), wrong_duration], Some(13)),
            ("17th", "pair ends", 15, pair.clone(), Some(15)),
            ("17th", "another type", 16, vec![single], Some(15)),
            ("17th", "life type last", 16, vec![life_type], Some(15)),
            ("17th", "pair begins", 16, pair, Some(15)),
        ] {
            add_end(random, cases, exchange, &[place, word], (front, end), number);
        }
        for (word, pairs, number) in [("eight pairs", 8, None), ("nine pairs", 9, Some(15))] {
            let values = different_values(random, pairs);
            let pairs: Vec<Item> = values.iter().map(|&value| random_lifetime(random, exchange, value)).collect();
            describe(cases, exchange, &[word]);
            add_read(random, cases, exchange, pairs.concat(), number);
        }
    });
}

/// The check that comes first decides: bounds, a 17th, the pair, all 15; then fixed, the duration's length, both 13.
fn two_refusals_at_one(random: &mut Random, cases: &mut Cases) {
    every_end(random, 40, |random, exchange, parts| {
        let Parts { life_type, repeated, variable_life_type, duration, wrong_duration, single, wrong_single } = parts;
        let few = random.between(2, 12);
        let size = random.below(7);
        let repeated_variable = variable(repeated.kind, spelled(IN_EVERY_FRONT, size));
        let right_single = fixed(wrong_single.kind, 1);
        for (word, front, end) in [
            ("bounds and 17th", 16, vec![past_the_end(random, &single)]),
            ("bounds and pair", few, vec![past_the_end(random, &duration)]),
            ("bounds and pair", few, vec![life_type.clone(), past_the_end(random, &single)]),
            ("bounds and fixed", few, vec![past_the_end(random, &wrong_single)]),
            ("bounds and fixed", few, vec![past_the_end(random, &life_type)]),
            ("bounds and duration's length", few, vec![life_type.clone(), past_the_end(random, &duration)]),
            ("17th and pair", 16, vec![duration.clone()]),
            ("17th and pair", 16, vec![repeated]),
            ("17th and pair", 15, vec![life_type.clone(), single]),
            ("17th and fixed", 16, vec![wrong_single.clone()]),
            ("17th and fixed", 16, vec![variable_life_type.clone()]),
            ("17th and duration's length", 15, vec![life_type.clone(), wrong_duration.clone()]),
            ("pair and fixed", few, vec![life_type.clone(), wrong_single.clone()]),
            ("pair and fixed", few, vec![life_type.clone(), variable_life_type]),
            ("pair and fixed", few, vec![repeated_variable, duration.clone()]),
            ("pair and fixed", few, vec![right_single, wrong_single]),
            ("pair and duration's length", few, vec![wrong_duration.clone()]),
            ("pair and duration's length", few, vec![life_type, duration, wrong_duration]),
        ] {
            add_end(random, cases, exchange, &[word], (front, end), Some(15));
        }
    });
}

/// The one in front decides.
fn two_refusals_in_order(random: &mut Random, cases: &mut Cases) {
    every_end(random, 30, |random, exchange, parts| {
        let behind = Parts::new(random, exchange, 1);
        let past = vec![past_the_end(random, &behind.single)];
        let many = (0..MOST_ATTRIBUTES as u16).map(|number| fixed(2_000 + number, 1)).collect();
        let later = [
            ("pair", behind.broken_pairs()),
            ("fixed", behind.sent_variable()),
            ("duration's length", behind.wrong_lengths()),
            ("life type last", vec![vec![behind.life_type]]),
            ("bounds", vec![past]),
            ("17th", vec![many]),
        ];
        for (first, number, ends) in [
            ("pair", 15, parts.broken_pairs()),
            ("fixed", 13, parts.sent_variable()),
            ("duration's length", 13, parts.wrong_lengths()),
        ] {
            for (end, (second, others)) in ends.iter().flat_map(|end| later.iter().map(move |later| (end, later))) {
                let between = vec![fixed(900, 1)];
                let other = others[random.below(others.len())].clone();
                let end = [end.clone(), between, other].concat();
                let few = random.between(2, 5);
                let word = format!("{first}, then {second}");
                add_end(random, cases, exchange, &[&word], (few, end), Some(number));
            }
        }
    });
}

/// A pair ends where its transform does, and each transform has its own life types.
fn several_transforms(random: &mut Random, cases: &mut Cases) {
    every_end(random, 60, |random, exchange, parts| {
        let sound = |random: &mut Random| {
            let count = random.between(2, 6);
            front(random, exchange, count)
        };
        let same = sound(random);
        let open = [sound(random), vec![parts.life_type]].concat();
        let begun = [vec![parts.duration], sound(random)].concat();
        let wrong = [sound(random), vec![parts.wrong_single]].concat();
        for (word, one, other, number) in [
            ("the same life types in two transforms", same.clone(), same, None),
            ("life type last, then duration in the next transform", open.clone(), begun, Some(15)),
            ("life type last, then fixed in the next transform", open.clone(), wrong.clone(), Some(15)),
            ("fixed, then life type last in the next transform", wrong, open, Some(13)),
        ] {
            let count = random.between(1, 3);
            let mut offer = offer_of(random, exchange, count, SMALL);
            let at = random.below(offer.proposals.len());
            offer.proposals[at].transforms = vec![transform(1, 1, one), transform(2, 1, other)];
            describe(cases, exchange, &[word]);
            cases.decided(&message_with(random, exchange, offer), number.is_none(), number.unwrap_or(0));
        }
    });
}

/// There they are types like any other: in exchange 2 fixed ones, in exchange 32 free ones.
fn other_exchange(random: &mut Random, cases: &mut Cases) {
    every_end(random, 40, |random, exchange, parts| {
        let other = if exchange == MAIN_MODE { QUICK_MODE } else { MAIN_MODE };
        let value = random.below(4) as u16;
        let [one, two] = [life_type(other), life_duration(other)].map(|kind| fixed(kind, value));
        let between = parts.single;
        let few = random.between(2, 8);
        for (word, end, number) in [
            ("by themselves", vec![one.clone()], None),
            ("by themselves", vec![two.clone()], None),
            ("by themselves", vec![two.clone(), one.clone()], None),
            ("by themselves", vec![one.clone(), between.clone(), two.clone()], None),
            ("twice", vec![one.clone(), two.clone(), fixed(one.kind, value + 1)], Some(15)),
            ("twice", vec![one.clone(), two.clone(), between, fixed(two.kind, value + 1)], Some(15)),
            ("as half a pair", vec![one, parts.duration], Some(15)),
            ("as half a pair", vec![parts.life_type, two], Some(15)),
        ] {
            add_end(random, cases, exchange, &["other exchange's types", word], (few, end), number);
        }
        for kind in [life_type(other), life_duration(other)] {
            let size = random.below(8);
            let end = vec![variable(kind, random.bytes(size))];
            let number = is_fixed(exchange, kind).then_some(13);
            add_end(random, cases, exchange, &["other exchange's types", "variable"], (few, end), number);
        }
    });
}

/// A line and a set of which one transform has these lifetimes.
fn add_choice(random: &mut Random, cases: &mut Cases, line: Line, words: &[&str], lifetimes: Vec<Item>, suits: bool) {
    let both = lifetimes.len() == 2 && suits;
    let words = [words, if both { &["both lifetimes"] } else { &[] }].concat();
    let (mut set, at) = set_to_change(random, &line);
    set[at].1[0] = with_lifetimes(random, &line, set[at].0, lifetimes);
    describe(cases, line.exchange(), &words);
    add_one(random, cases, line, set, suits);
}

/// None, one, and the most that each size holds.
fn kilobytes_at_their_limits(random: &mut Random, cases: &mut Cases) {
    for (protocols, _) in SORTS.into_iter().flat_map(|sort| (0..60).map(move |time| (sort, time))) {
        for (word, most, suits) in
            [("kilobytes 0", 0, false), ("kilobytes 1", 1, true), ("largest kilobytes", u32::MAX, true)]
        {
            for (form, size) in [("fixed", 2), ("variable", 1), ("variable", 2), ("variable", 3), ("variable", 4)] {
                let line = random_line(random, protocols);
                let (duration, number) = (life_duration(line.exchange()), most & u32::MAX >> (32 - 8 * size));
                let kilobytes = match form {
                    "fixed" => fixed(duration, number as u16),
                    _ => variable(duration, number.to_be_bytes()[4 - size..].to_vec()),
                };
                let seconds = random_seconds(random, line.seconds);
                let lifetimes = vec![
                    lasting_lifetime(random, line.exchange(), SECONDS, seconds),
                    lifetime(line.exchange(), KILOBYTES, kilobytes),
                ];
                add_choice(random, cases, line, &[word, form], lifetimes, suits);
            }
        }
    }
}

/// Lifetimes for a line, and whether they suit it.
pub struct Lifetimes {
    pub seconds: Option<u32>,
    pub kilobytes: Option<u32>,
    pub third: Option<u16>,
}

impl Lifetimes {
    fn suit(&self, line: &Line) -> bool {
        let seconds = self.seconds.is_some_and(|seconds| (1..=line.seconds).contains(&seconds));
        seconds && self.kilobytes != Some(0) && self.third.is_none()
    }

    pub fn items(&self, random: &mut Random, line: &Line) -> Vec<Item> {
        let exchange = line.exchange();
        let lasting = [(SECONDS, self.seconds), (KILOBYTES, self.kilobytes)];
        let lasting = lasting.into_iter().filter_map(|(value, number)| Some((value, number?)));
        let mut items: Vec<Item> =
            lasting.map(|(value, number)| lasting_lifetime(random, exchange, value, number)).collect();
        items.extend(self.third.map(|value| random_lifetime(random, exchange, value)));
        items
    }

    /// What an occasion asks for.
    fn word(&self, line: &Line) -> &'static str {
        let without_third = Lifetimes { third: None, ..*self };
        match *self {
            Lifetimes { seconds: None, kilobytes: Some(1..), third: None } => "kilobytes without seconds",
            Lifetimes { third: Some(_), .. } if without_third.suit(line) => "a third life type",
            Lifetimes { seconds: Some(seconds), kilobytes: Some(1..), third: None } if seconds > line.seconds => {
                "seconds beyond the line, with kilobytes"
            }
            _ => "any lifetimes",
        }
    }
}

/// Any of seconds, kilobytes and another life type, each at its limits or missing.
fn lifetimes_that_suit(random: &mut Random, cases: &mut Cases) {
    for (protocols, _) in SORTS.into_iter().flat_map(|sort| (0..20).map(move |time| (sort, time))) {
        for faults in 0..6 * 4 * 2 {
            let line = random_line(random, protocols);
            let seconds =
                [None, Some(0), Some(1), Some(line.seconds), Some(line.seconds + 1), Some(u32::MAX)][faults % 6];
            let kilobytes = [None, Some(0), Some(1), Some(1 + random.number(31) as u32)][faults / 6 % 4];
            let third = (faults >= 24).then(|| random.one_of(&[0, 3, 4, 255, 256, 257, 258, 0x8001, 0xffff]));
            let lifetimes = Lifetimes { seconds, kilobytes, third };
            let items = lifetimes.items(random, &line);
            add_choice(random, cases, line, &[lifetimes.word(&line)], items, lifetimes.suit(&line));
        }
    }
}

/// Transforms that differ in their lifetimes alone.
fn lowest_transforms(random: &mut Random, cases: &mut Cases) {
    for time in 0..600 {
        let line = random_line(random, SORTS[time % 3]);
        let mut set = set_of(random, &line, suiting);
        let mut lowest = Vec::new();
        for (protocol, transforms) in &mut set {
            let offered: Vec<Lifetimes> = (0..random.between(2, 6)).map(|_| random_lifetimes(random, &line)).collect();
            lowest.push(offered.iter().position(|lifetimes| lifetimes.suit(&line)));
            let make = |lifetimes: &Lifetimes| {
                let items = lifetimes.items(random, &line);
                with_lifetimes(random, &line, *protocol, items)
            };
            *transforms = offered.iter().map(make).collect();
        }
        let is_later = lowest.iter().any(|lowest| lowest.is_some_and(|lowest| lowest > 0));
        let place = lowest.into_iter().collect::<Option<Vec<_>>>();
        let place = place.map(|transforms| Place { set: 0, line: 0, transforms });
        describe(cases, line.exchange(), &[if is_later { "a later transform" } else { "the first transform" }]);
        choices::add(random, cases, &[line], vec![set], place);
    }
}

fn random_lifetimes(random: &mut Random, line: &Line) -> Lifetimes {
    let within = random_seconds(random, line.seconds);
    Lifetimes {
        seconds: [None, Some(0), Some(line.seconds + 1), Some(within), Some(within), Some(within)][random.below(6)],
        kilobytes: [None, Some(0), Some(1), Some(u32::MAX)][random.below(4)],
        third: random.once_in(3).then(|| random.one_of(&[0, 3, 257, 258, 0xffff])),
    }
}

#[cfg(test)]
mod tests {
    use super::*;

    #[test]
    fn numbers_are_spelled_with_zeros_in_front() {
        assert_eq!(spelled(0, 0), []);
        assert_eq!(spelled(1, 3), [0, 0, 1]);
        assert_eq!(spelled(256, 1), [1, 0]);
    }

    #[test]
    fn a_front_has_as_many_attributes_as_are_asked_for() {
        let mut random = Random::new(1, "front");
        for count in 2..=MOST_ATTRIBUTES {
            assert_eq!(front(&mut random, QUICK_MODE, count).len(), count);
        }
    }
}
