//! Why a set does not suit a line: each cause alone, any two at once, every surplus type, lifetimes at their limits, sets,
//! lines and transforms of every number, and what is refused before.

use super::choices::{self, message_with, SORTS};
use super::lifetimes::{describe, occurs, Lifetimes, PHASES};
use super::{Group, Occasion, PLAIN, READ_REFUSALS};
use crate::cases::{refused, word, Case, Cases};
use crate::causes::{
    answer, faults, faulty, judged_suiting, odd_life_type, set_with, some_faults, unwanted_types, wanted_types,
    with_two_surplus, Fault, Fault::*, Judged, JudgedSet, SUITS,
};
use crate::message::{message_of, Message, MAIN_MODE, QUICK_MODE, SA};
use crate::offer::{
    fixed, life_duration, life_type, lifetime, proposal_of, random_lifetime, transform, variable, Attribute, Item,
    Offer, Proposal, Transform, AH, ESP, ISAKMP, KILOBYTES, MOST_PROPOSALS, MOST_TRANSFORMS, SECONDS, SMALL,
};
use crate::policy::{
    lasting, offer_of_sets, put_in, random_book, random_line, set_of, suiting, suiting_id, with_lifetimes, Book, Line,
    AH_WITH_ESP, ESP_ALONE, MAIN, MOST_LINES,
};
use crate::random::Random;

pub const GROUP: Group = Group {
    name: "why",
    answers: &[READ_REFUSALS, &["why", "refused 8193", "bad line"]],
    at_least: 20,
    occasions: OCCASIONS,
    kinds: &[
        (EXAMPLES, examples),
        ("set that suits", sets_that_suit),
        (EACH_CAUSE, each_cause),
        ("every surplus type", every_surplus),
        ("two causes at once", two_causes),
        ("neighbouring causes at once", neighbouring_causes),
        ("two surplus attributes", two_surplus_attributes),
        ("any causes at once", any_causes),
        (LIFETIMES, lifetimes_at_their_limits),
        ("every transform ID", every_id),
        ("mode of offer and line", modes),
        ("protocols of a set", protocols_of_a_set),
        ("sets, lines and transforms", sets_lines_and_transforms),
        ("lines that differ", lines_that_differ),
        ("no line of the exchange", no_lines),
        ("longest answer", longest),
        ("pair of the choices", pairs_of_the_choices),
        (WORDS, words),
        (BEHIND_OTHERS, longest_behind_others),
    ],
    ..PLAIN
};

pub const EXAMPLES: &str = "example of request three";
pub const EACH_CAUSE: &str = "each cause alone";
pub const LIFETIMES: &str = "lifetimes at their limits";
const WORDS: &str = "words of the line";
const BEHIND_OTHERS: &str = "longest answer behind others";
/// Of these not every case is one pair.
pub const OTHER_THAN_PAIRS: &[&str] = &[WORDS, BEHIND_OTHERS];

/// What must occur so often: answers that name a cause in an exchange, details that have a word in each exchange, and all
/// others.
macro_rules! occasions {
    (
        $least:literal times $($exchange:literal: $($cause:literal),+;)*
        in each exchange $($each:literal: $($word:literal),+;)*
        besides $($other:expr),* $(,)?
    ) => {
        &[
            $($(
                (concat!($cause, ", exchange ", $exchange), $least, |_, answers| names(answers, $exchange, $cause)),
            )+)*
            $($(
                (concat!($word, ", exchange 2"), $each, |case, answers| {
                    occurs(case, answers, "why", &[$word, "exchange 2"])
                }),
                (concat!($word, ", exchange 32"), $each, |case, answers| {
                    occurs(case, answers, "why", &[$word, "exchange 32"])
                }),
            )+)*
            $($other),*
        ]
    };
}

#[rustfmt::skip]
const OCCASIONS: &[Occasion] = occasions! {
    300 times
    2: "id", "seconds", "kilobytes",
       "missing 1", "missing 2", "missing 3", "missing 20", "missing 11", "value 1", "value 2", "value 3", "value 20",
       "surplus 4", "surplus 5", "surplus 6", "surplus 7", "surplus 8", "surplus 9", "surplus 10", "surplus 11",
       "surplus 13", "surplus 14", "surplus 15", "surplus 16", "surplus 17",
       "surplus 0", "surplus 18", "surplus 19", "surplus 32767";
    32: "id", "seconds", "kilobytes",
       "missing 4", "missing 1", "missing 5", "value 4", "value 5",
       "surplus 1", "surplus 3", "surplus 5", "surplus 6", "surplus 7", "surplus 8", "surplus 9",
       "surplus 0", "surplus 18", "surplus 19", "surplus 32767";
    in each exchange
    300: "id and missing", "missing and missing", "missing and value", "value and value", "value and surplus",
         "surplus and surplus", "surplus and seconds", "seconds and kilobytes";
    50: "seconds 0", "seconds 1", "seconds line", "seconds line + 1", "no seconds", "kilobytes 0", "kilobytes 1",
         "kilobytes large", "no kilobytes", "odd life type", "two odd life types", "no line of the exchange";
    besides
    ("pair near the line", 60_000, |case, answers| {
        case.offer.is_some() && answers.iter().any(|answer| answer.contains(" suits") || answer.contains(" transform "))
    }),
    ("suits, exchange 2", 1_000, |case, answers| {
        of_proposals(case, |proposal| proposal.protocol == ISAKMP) && shows(answers, "suits")
    }),
    ("suits, exchange 32", 1_000, |case, answers| {
        of_proposals(case, |proposal| proposal.protocol != ISAKMP) && shows(answers, "suits")
    }),
    ("protocols", 1_000, |_, answers| shows(answers, "protocols")),
    ("AH would do", 500, |_, answers| would_do(answers, AH)),
    ("ESP would do", 500, |_, answers| would_do(answers, ESP)),
    ("AH alone against either sort of line", 500, |case, answers| occurs(case, answers, "why", &["set of AH"])),
    ("ESP alone against either sort of line", 500, |case, answers| occurs(case, answers, "why", &["set of ESP"])),
    ("AH before ESP against either sort of line", 500, |case, answers| occurs(case, answers, "why", &["set of AH, ESP"])),
    ("ESP before AH against either sort of line", 500, |case, answers| occurs(case, answers, "why", &["set of ESP, AH"])),
    ("several sets", 1_000, |case, _| sets(case) > 1),
    ("several lines", 1_000, |_, answers| answers.iter().any(|answer| answer.contains(" line 2 "))),
    ("several transforms", 1_000, |case, _| of_proposals(case, |proposal| proposal.transforms.len() > 1)),
    ("set number other than 1", 1_000, |case, _| of_proposals(case, |proposal| proposal.number != 1)),
    ("transform number other than 1", 1_000, |case, _| {
        of_proposals(case, |proposal| proposal.transforms.iter().any(|transform| transform.number != 1))
    }),
    ("answer of 41,859 characters", 10, |_, answers| answers.iter().any(|answer| answer.len() == LONGEST_ANSWER)),
};

const LONGEST_ANSWER: usize = 41_859;

/// What is said of each transform: the protocol, and the words of the cause and whatever comes behind.
fn of_transforms(answers: &[String]) -> impl Iterator<Item = (&str, &str)> {
    let items = answers.iter().flat_map(|answer| answer.split(" protocol ").skip(1));
    items.filter_map(|item| {
        let (protocol, behind) = item.split_once(" transform ")?;
        Some((protocol, behind.split_once(' ')?.1))
    })
}

/// Whether a transform of that exchange has that cause.
fn names(answers: &[String], exchange: u8, cause: &str) -> bool {
    let is_cause = |said: &str| said.strip_prefix(cause).is_some_and(|rest| rest.is_empty() || rest.starts_with(' '));
    let of_exchange = |protocol: &str| (protocol == "1") == (exchange == MAIN_MODE);
    // Most answers need not be taken apart.
    let could_be = answers.iter().any(|answer| answer.contains(cause));
    could_be && of_transforms(answers).any(|(protocol, said)| of_exchange(protocol) && is_cause(said))
}

/// Whether a set and a line show this as a whole.
fn shows(answers: &[String], shown: &str) -> bool {
    let mut pairs = answers.iter().flat_map(|answer| answer.split(" set ").skip(1));
    pairs.any(|pair| pair.split(' ').nth(3) == Some(shown))
}

/// Whether a transform of that protocol suits in a set that does not.
fn would_do(answers: &[String], protocol: u8) -> bool {
    of_transforms(answers).any(|(of, said)| of == protocol.to_string() && said.starts_with("suits"))
}

fn of_proposals(case: &Case, is_so: fn(&Proposal) -> bool) -> bool {
    case.offer.iter().flat_map(|offer| &offer.proposals).any(is_so)
}

fn sets(case: &Case) -> usize {
    let proposals = case.offer.as_ref().map_or(&[][..], |offer| &offer.proposals);
    proposals.chunk_by(|one, next| one.number == next.number).count()
}

/// These sets against these lines, each of which finds the same causes in a set of its own protocols.
fn add(random: &mut Random, cases: &mut Cases, lines: &[Line], sets: Vec<JudgedSet>) {
    let causes: Vec<Vec<String>> =
        sets.iter().flatten().map(|(_, judged)| judged.iter().map(|judged| judged.cause.clone()).collect()).collect();
    let transforms = |judged: Vec<Judged>| judged.into_iter().map(|judged| judged.transform).collect();
    let of_set = |set: JudgedSet| set.into_iter().map(|(protocol, judged)| (protocol, transforms(judged))).collect();
    let offer = offer_of_sets(random, sets.into_iter().map(of_set).collect());
    let known = answer(lines, &offer, |_, proposal, transform| causes[proposal][transform].clone());
    add_known(random, cases, lines, offer, known);
}

fn add_known(random: &mut Random, cases: &mut Cases, lines: &[Line], offer: Offer, known: String) {
    let message = message_with(random, lines[0].exchange(), offer);
    cases.why_offered(&Book::of(random, lines).encode(), &message, Some(known));
}

/// One line, and a set with that transform in it.
fn add_one(random: &mut Random, cases: &mut Cases, line: Line, protocol: u8, judged: Judged) {
    let set = set_with(random, &line, protocol, judged);
    add(random, cases, &[line], vec![set]);
}

/// Everything of `make` for each protocol of each sort of line, so many times.
fn every_protocol(random: &mut Random, times: usize, mut make: impl FnMut(&mut Random, Line, u8)) {
    for protocols in SORTS {
        for &protocol in protocols {
            for _ in 0..times {
                let line = random_line(random, protocols);
                make(random, line, protocol);
            }
        }
    }
}

/// A message of one payload with that offer.
fn message_alone(random: &mut Random, exchange: u8, proposals: Vec<Proposal>) -> Message {
    let mut message = message_of(random, exchange, 0, &[SA], SMALL);
    *message.offer().expect("it has one") = Offer { doi: 1, situation: 1, proposals, rest: Vec::new() };
    message
}

/// The lines of request three's examples, and an offer with what they show.
pub fn example_of_quick_mode(random: &mut Random) -> (Book, Message) {
    let line = |protocols| Line { protocols, mode: 1, seconds: 3_600 };
    let book = Book { main: Vec::new(), quick: vec![line(ESP_ALONE), line(AH_WITH_ESP)] };
    let (mode, algorithm) = (|value| fixed(4, value), fixed(5, 20));
    let seconds = |seconds| lifetime(QUICK_MODE, SECONDS, fixed(2, seconds));
    let kilobytes = |kilobytes| lifetime(QUICK_MODE, KILOBYTES, fixed(2, kilobytes));
    let [no_seconds, hour] = [vec![], seconds(3_600)];
    let esp =
        |number: u8, id: u8, front: Vec<Attribute>, lifetimes: Item| transform(number, id, [front, lifetimes].concat());
    let right = || vec![mode(1), algorithm.clone()];
    let proposal = |number: u8, protocol: u8, transforms: Vec<Transform>| {
        proposal_of(number, protocol, vec![0, 0, 1, protocol], transforms)
    };
    let causes = vec![
        esp(1, 20, right(), hour.clone()),
        esp(2, 129, vec![mode(1)], hour.clone()),
        esp(3, 129, right(), no_seconds),
        esp(4, 129, vec![mode(2), algorithm.clone()], hour.clone()),
        esp(5, 129, [right(), vec![fixed(6, 128)]].concat(), hour.clone()),
        esp(6, 129, right(), seconds(7_200)),
        esp(7, 129, right(), [hour.clone(), kilobytes(0)].concat()),
        esp(8, 129, right(), seconds(0)),
    ];
    let odd = lifetime(QUICK_MODE, 3, fixed(2, 1));
    let beside_ah = || esp(1, 129, vec![mode(1)], hour.clone());
    let proposals = vec![
        proposal(1, AH, vec![esp(1, 20, right(), hour.clone())]),
        proposal(1, ESP, vec![beside_ah()]),
        proposal(2, ESP, causes),
        proposal(3, ESP, vec![esp(1, 129, right(), [hour.clone(), odd].concat())]),
        proposal(4, ESP, vec![esp(1, 129, right(), hour.clone())]),
        proposal(5, ESP, vec![beside_ah()]),
        proposal(5, AH, vec![esp(1, 129, right(), hour.clone()), esp(2, 20, vec![mode(1)], hour.clone())]),
        proposal(6, AH, vec![esp(1, 20, right(), hour.clone())]),
    ];
    (book, message_alone(random, QUICK_MODE, proposals))
}

/// Two main lines, and document 01's example with another hash algorithm.
pub fn example_of_main_mode(random: &mut Random) -> (Book, Message) {
    let line = |seconds| Line { protocols: MAIN, mode: 0, seconds };
    let book = Book { main: vec![line(86_400), line(3_600)], quick: Vec::new() };
    let attributes = |hash: u16, seconds: u16| {
        [(1, 129), (2, hash), (3, 10), (20, 2), (11, 1), (12, seconds)].map(|(kind, value)| fixed(kind, value)).to_vec()
    };
    let transforms = vec![transform(1, 1, attributes(2, 3_600)), transform(2, 1, attributes(20, 3_601))];
    (book, message_alone(random, MAIN_MODE, vec![proposal_of(1, 1, Vec::new(), transforms)]))
}

/// What is said of these two examples.
pub const SAID_OF_QUICK_MODE: &str = "why set 1 line 1 protocols set 1 line 2 suits \
    set 2 line 1 protocol 3 transform 1 id protocol 3 transform 2 missing 5 protocol 3 transform 3 missing 1 \
    protocol 3 transform 4 value 4 protocol 3 transform 5 surplus 6 protocol 3 transform 6 seconds \
    protocol 3 transform 7 kilobytes protocol 3 transform 8 seconds set 2 line 2 protocols \
    set 3 line 1 protocol 3 transform 1 surplus 1 set 3 line 2 protocols \
    set 4 line 1 suits set 4 line 2 protocols \
    set 5 line 1 protocols \
    set 5 line 2 protocol 3 transform 1 suits protocol 2 transform 1 id protocol 2 transform 2 missing 5 \
    set 6 line 1 protocols set 6 line 2 protocols";
pub const SAID_OF_MAIN_MODE: &str =
    "why set 1 line 1 suits set 1 line 2 protocol 1 transform 1 value 2 protocol 1 transform 2 seconds";

fn examples(random: &mut Random, cases: &mut Cases) {
    let (book, message) = example_of_quick_mode(random);
    cases.why_offered(&book.encode(), &message, Some(SAID_OF_QUICK_MODE.to_string()));
    cases.why_offered(&[0, 0], &message, Some("why".to_string()));
    let (book, message) = example_of_main_mode(random);
    cases.why_offered(&book.encode(), &message, Some(SAID_OF_MAIN_MODE.to_string()));
    cases.why_offered(&[0, 0], &message, Some("why".to_string()));
}

fn sets_that_suit(random: &mut Random, cases: &mut Cases) {
    every_protocol(random, 1_500, |random, line, protocol| {
        let judged = judged_suiting(random, &line, protocol);
        add_one(random, cases, line, protocol, judged);
    });
}

fn each_cause(random: &mut Random, cases: &mut Cases) {
    every_protocol(random, 400, |random, line, protocol| {
        for fault in faults(random, &line, protocol) {
            describe(cases, line.exchange(), &[&fault.cause(), "alone"]);
            let judged = faulty(random, &line, protocol, &[fault]);
            add_one(random, cases, line, protocol, judged);
        }
    });
}

/// Each in every form that it can be sent in, and the types beside and between those of the tables.
fn every_surplus(random: &mut Random, cases: &mut Cases) {
    every_protocol(random, 160, |random, line, protocol| {
        let times = if line.protocols == MAIN { 2 } else { 1 };
        for kind in unwanted_types(&line, protocol).into_iter().flat_map(|kind| vec![kind; times]) {
            describe(cases, line.exchange(), &["surplus of a row"]);
            let judged = faulty(random, &line, protocol, &[Surplus(kind)]);
            add_one(random, cases, line, protocol, judged);
        }
    });
    let others = (0..=40).chain([127, 128, 255, 256, 257, 0x4000, 0x7ffd, 0x7ffe]);
    for kind in others {
        every_protocol(random, 4, |random, line, protocol| {
            let exchange = line.exchange();
            if !wanted_types(&line, protocol).contains(&kind) && kind != life_duration(exchange) {
                describe(cases, exchange, &["surplus of any type"]);
                let judged = faulty(random, &line, protocol, &[Surplus(kind)]);
                add_one(random, cases, line, protocol, judged);
            }
        });
    }
}

/// Any two that a transform can have, in request three's order.
fn twos(random: &mut Random, line: &Line, protocol: u8) -> Vec<[Fault; 2]> {
    let faults = faults(random, line, protocol);
    let with_later = |at: usize| faults[at + 1..].iter().map(move |&second| (at, second));
    let twos = (0..faults.len()).flat_map(with_later).map(|(at, second)| [faults[at], second]);
    twos.filter(|[first, second]| first.goes_with(*second, line.exchange())).collect()
}

/// Of any two the first in request three's order is named, wherever they stand in the offer.
fn two_causes(random: &mut Random, cases: &mut Cases) {
    every_protocol(random, 40, |random, line, protocol| {
        for two in twos(random, &line, protocol) {
            add_two(random, cases, line, protocol, two);
        }
    });
}

fn add_two(random: &mut Random, cases: &mut Cases, line: Line, protocol: u8, [first, second]: [Fault; 2]) {
    describe(cases, line.exchange(), &[&format!("{} and {}", first.name(), second.name())]);
    let judged = faulty(random, &line, protocol, &[first, second]);
    add_one(random, cases, line, protocol, judged);
}

/// Two causes that stand beside each other in request three's order, or the same one of two types.
fn neighbouring_causes(random: &mut Random, cases: &mut Cases) {
    const NEIGHBOURS: [[&str; 2]; 7] = [
        ["id", "missing"],
        ["missing", "missing"],
        ["missing", "value"],
        ["value", "value"],
        ["value", "surplus"],
        ["surplus", "seconds"],
        ["seconds", "kilobytes"],
    ];
    every_protocol(random, 320, |random, line, protocol| {
        for names in NEIGHBOURS {
            let mut twos = twos(random, &line, protocol);
            twos.retain(|two| two.map(Fault::name) == names);
            // An ESP that goes with AH has one type with a value.
            if !twos.is_empty() {
                let two = random.one_of(&twos);
                add_two(random, cases, line, protocol, two);
            }
        }
    });
}

/// The one that stands in front is named, whichever type is larger.
fn two_surplus_attributes(random: &mut Random, cases: &mut Cases) {
    every_protocol(random, 700, |random, line, protocol| {
        let unwanted = unwanted_types(&line, protocol);
        let first = random.one_of(&unwanted);
        let others: Vec<_> = unwanted.into_iter().filter(|&kind| kind != first).collect();
        let kinds = [first, random.one_of(&others)];
        describe(cases, line.exchange(), &["surplus and surplus"]);
        let judged = with_two_surplus(random, &line, protocol, kinds);
        add_one(random, cases, line, protocol, judged);
    });
}

fn any_causes(random: &mut Random, cases: &mut Cases) {
    every_protocol(random, 2_000, |random, line, protocol| {
        let some = some_faults(random, &line, protocol);
        describe(cases, line.exchange(), &[&format!("{} causes", some.len())]);
        let judged = faulty(random, &line, protocol, &some);
        add_one(random, cases, line, protocol, judged);
    });
}

/// Seconds, kilobytes and life types with no meaning, each at its limits or missing.
fn lifetimes_at_their_limits(random: &mut Random, cases: &mut Cases) {
    every_protocol(random, 30, |random, line, protocol| {
        let all_seconds = [
            ("no seconds", None),
            ("seconds 0", Some(0)),
            ("seconds 1", Some(1)),
            ("seconds line", Some(line.seconds)),
            ("seconds line + 1", Some(line.seconds + 1)),
            ("seconds largest", Some(u32::MAX)),
        ];
        for seconds in all_seconds {
            let large = random.number(32) as u32 | 1 << 16;
            for kilobytes in [
                ("no kilobytes", None),
                ("kilobytes 0", Some(0)),
                ("kilobytes 1", Some(1)),
                ("kilobytes large", Some(large)),
            ] {
                for odd in 0..3 {
                    add_lifetimes(random, cases, line, protocol, (seconds, kilobytes, odd));
                }
            }
        }
    });
}

/// A duration with its name.
type Named = (&'static str, Option<u32>);

/// With so many odd life types. A case goes by what decides it.
fn add_lifetimes(
    random: &mut Random,
    cases: &mut Cases,
    line: Line,
    protocol: u8,
    (seconds, kilobytes, odd): (Named, Named, usize),
) {
    let exchange = line.exchange();
    let is_within = |seconds: u32| (1..=line.seconds).contains(&seconds);
    let (words, cause): (&[&str], _) = match (seconds.1, odd, kilobytes.1) {
        (None, ..) => (&[seconds.0], Missing(life_type(exchange)).cause()),
        (_, 1, _) => (&["odd life type"], Surplus(life_type(exchange)).cause()),
        (_, 2, _) => (&["two odd life types"], Surplus(life_type(exchange)).cause()),
        (Some(duration), ..) if !is_within(duration) => (&[seconds.0], Seconds.cause()),
        (.., Some(0)) => (&[kilobytes.0], Kilobytes.cause()),
        _ => (&[seconds.0, kilobytes.0], SUITS.to_string()),
    };
    let third = (odd > 0).then(|| odd_life_type(random));
    let lifetimes = Lifetimes { seconds: seconds.1, kilobytes: kilobytes.1, third };
    let mut items = lifetimes.items(random, &line);
    items.extend((odd > 1).then(|| random_lifetime(random, exchange, 1_000)));
    describe(cases, exchange, words);
    let transform = with_lifetimes(random, &line, protocol, items);
    add_one(random, cases, line, protocol, Judged { transform, cause });
}

fn every_id(random: &mut Random, cases: &mut Cases) {
    for id in 0..=255 {
        every_protocol(random, 2, |random, line, protocol| {
            let mut judged = judged_suiting(random, &line, protocol);
            judged.transform.id = id;
            if id != suiting_id(protocol) {
                judged.cause = Id.cause();
            }
            add_one(random, cases, line, protocol, judged);
        });
    }
}

fn modes(random: &mut Random, cases: &mut Cases) {
    for (mode, offered) in (1..=4).flat_map(|mode| [0, 1, 2, 3, 4, 5, 7, 255].map(|offered| (mode, offered))) {
        every_protocol(random, 12, |random, line, protocol| {
            if line.protocols != MAIN {
                let line = Line { mode, ..line };
                let cause = if offered == mode { SUITS.to_string() } else { Value(4).cause() };
                let transform = suiting(random, &Line { mode: offered, ..line }, protocol);
                add_one(random, cases, line, protocol, Judged { transform, cause });
            }
        });
    }
}

/// AH alone, ESP alone, both in both orders; each ESP as it would suit alone and beside AH.
fn protocols_of_a_set(random: &mut Random, cases: &mut Cases) {
    for _ in 0..250 {
        for (word, shape) in [
            ("set of AH", &[AH][..]),
            ("set of ESP", &[ESP]),
            ("set of AH, ESP", &[AH, ESP]),
            ("set of ESP, AH", &[ESP, AH]),
        ] {
            for protocols in [ESP_ALONE, AH_WITH_ESP] {
                let line = random_line(random, protocols);
                describe(cases, QUICK_MODE, &[word]);
                let set = shape.iter().map(|&protocol| (protocol, vec![made_for_any(random, &line, protocol)]));
                let set = set.collect();
                add(random, cases, &[line], vec![set]);
            }
        }
    }
}

/// One that suits the line or the line of the other sort, and what it then is against this one.
fn made_for_any(random: &mut Random, line: &Line, protocol: u8) -> Judged {
    let made_for = random.one_of(&[ESP_ALONE, AH_WITH_ESP]);
    let transform = suiting(random, &Line { protocols: made_for, ..*line }, protocol);
    let cause = match (line.protocols, made_for) {
        (ESP_ALONE, AH_WITH_ESP) if protocol == ESP => Missing(5).cause(),
        (AH_WITH_ESP, ESP_ALONE) if protocol == ESP => Surplus(5).cause(),
        _ => SUITS.to_string(),
    };
    Judged { transform, cause }
}

/// Lines that differ in their protocols alone, and sets of every shape with up to eight transforms.
fn sets_lines_and_transforms(random: &mut Random, cases: &mut Cases) {
    for time in 0..4_000 {
        let model = random_line(random, SORTS[time % 3]);
        let is_main = model.protocols == MAIN;
        let mut lines = vec![model];
        for _ in 0..random.below(MOST_LINES) {
            let protocols = if is_main { MAIN } else { random.one_of(&[ESP_ALONE, AH_WITH_ESP]) };
            lines.push(Line { protocols, ..model });
        }
        let count = if is_main { 1 } else { random.between(1, 5) };
        let sets = (0..count).map(|_| any_set(random, &model)).collect();
        add(random, cases, &lines, sets);
    }
}

fn any_set(random: &mut Random, model: &Line) -> JudgedSet {
    let shapes: [&[u8]; 4] = [&[AH], &[ESP], &[AH, ESP], &[ESP, AH]];
    let shape = if model.protocols == MAIN { MAIN } else { random.one_of(&shapes) };
    let line = match shape.len() {
        _ if shape == MAIN => *model,
        1 => Line { protocols: ESP_ALONE, ..*model },
        _ => Line { protocols: AH_WITH_ESP, ..*model },
    };
    let mut set = JudgedSet::new();
    for &protocol in shape {
        let most = random.one_of(&[2, MOST_TRANSFORMS]);
        let count = random.between(1, most);
        let judged = (0..count).map(|_| {
            let some = some_faults(random, &line, protocol);
            faulty(random, &line, protocol, &some)
        });
        set.push((protocol, judged.collect()));
    }
    set
}

/// Each line has its own mode and seconds: another mode comes before seconds beyond the line.
fn lines_that_differ(random: &mut Random, cases: &mut Cases) {
    for time in 0..4_000 {
        let model = random_line(random, SORTS[time % 3]);
        let is_main = model.protocols == MAIN;
        let lasts = random.between(1, model.seconds as usize) as u32;
        let near = |random: &mut Random| [model.seconds, lasts, (lasts - 1).max(1), lasts + 1][random.below(4)];
        let mut lines = vec![model];
        for _ in 0..random.below(MOST_LINES) {
            let protocols = if is_main { MAIN } else { random.one_of(&[ESP_ALONE, model.protocols]) };
            let mode = if random.once_in(3) { random.between(1, 4) as u8 } else { model.mode };
            let seconds = near(random).min(model.most_seconds());
            lines.push(Line { protocols, mode, seconds });
        }
        let mut set = set_of(random, &model, suiting);
        let mut seconds = Vec::new();
        for (protocol, transforms) in &mut set {
            let durations: Vec<u32> = (0..random.between(1, 3)).map(|_| near(random)).collect();
            *transforms = durations.iter().map(|&each| lasting(random, &model, *protocol, each)).collect();
            seconds.push(durations);
        }
        let offer = offer_of_sets(random, vec![set]);
        let known = answer(&lines, &offer, |line, proposal, transform| {
            if !is_main && line.mode != model.mode {
                return Value(4).cause();
            }
            let is_beyond = seconds[proposal][transform] > line.seconds;
            if is_beyond {
                Seconds.cause()
            } else {
                SUITS.to_string()
            }
        });
        add_known(random, cases, &lines, offer, known);
    }
}

/// Lines of the other exchange never matter, and nothing is refused.
fn no_lines(random: &mut Random, cases: &mut Cases) {
    for exchange in PHASES {
        for time in 0..200 {
            let protocols = if exchange == MAIN_MODE { MAIN } else { [ESP_ALONE, AH_WITH_ESP][time % 2] };
            let line = random_line(random, protocols);
            let set = set_of(random, &line, suiting);
            let offer = offer_of_sets(random, vec![set]);
            let mut book = random_book(random);
            match exchange {
                MAIN_MODE => book.main.clear(),
                _ => book.quick.clear(),
            }
            describe(cases, exchange, &["no line of the exchange"]);
            let message = message_with(random, exchange, offer);
            cases.why_offered(&book.encode(), &message, Some("why".to_string()));
        }
    }
}

/// As many lines, proposals and transforms as there can be, with numbers of three digits and the longest cause in each.
fn longest(random: &mut Random, cases: &mut Cases) {
    for time in 0..40 {
        let line = random_line(random, [ESP_ALONE, ESP_ALONE, AH_WITH_ESP][time % 3]);
        let surplus = if time % 2 == 0 { fixed(32_767, random.number(16) as u16) } else { variable(32_767, vec![]) };
        let offer = with_surplus_each(random, &line, &surplus);
        let lines = [line; MOST_LINES];
        let known = surplus_each(&lines, &offer);
        add_known(random, cases, &lines, offer, known);
    }
}

/// Sixteen proposals of eight transforms, each with that attribute too many.
fn with_surplus_each(random: &mut Random, line: &Line, surplus: &Attribute) -> Offer {
    let set_size = line.protocols.len();
    let mut proposals = Vec::new();
    for at in 0..MOST_PROPOSALS {
        let protocol = line.protocols[at % set_size];
        let with_surplus = |number: u8| {
            let mut offered = suiting(random, line, protocol);
            offered.number = number;
            put_in(random, line, &mut offered, vec![surplus.clone()]);
            offered
        };
        let transforms = (0..MOST_TRANSFORMS as u8).map(|place| 255 - 7 * (7 - place)).map(with_surplus).collect();
        proposals.push(proposal_of(100 + (at / set_size) as u8, protocol, vec![1; 4], transforms));
    }
    Offer { doi: 1, situation: 1, proposals, rest: Vec::new() }
}

fn surplus_each(lines: &[Line], offer: &Offer) -> String {
    answer(lines, offer, |_, _, _| Surplus(32_767).cause())
}

/// The longest answer behind others that leave just room for it in 64 KiB, some bytes more and some less.
fn longest_behind_others(random: &mut Random, cases: &mut Cases) {
    const BUFFER: usize = 65_536;
    let line = random_line(random, ESP_ALONE);
    let offer = with_surplus_each(random, &line, &fixed(32_767, 0));
    let [half, whole] = [MOST_LINES / 2, MOST_LINES].map(|count| vec![line; count]);
    let message = word(&message_with(random, QUICK_MODE, offer.clone()).encode());
    let line_of = |lines: &[Line]| {
        let book = Book { main: Vec::new(), quick: lines.to_vec() };
        format!("why {} {message}\n", word(&book.encode()))
    };
    for before in (BUFFER - LONGEST_ANSWER - 8)..=(BUFFER - LONGEST_ANSWER + 8) {
        let mut answers = vec![surplus_each(&half, &offer)];
        let mut input = line_of(&half);
        let left = before - (answers[0].len() + 1);
        for (line, answer, times) in filling(left) {
            input += &line.repeat(times);
            answers.resize(answers.len() + times, answer.to_string());
        }
        answers.push(surplus_each(&whole, &offer));
        input += &line_of(&whole);
        cases.alone(input.into_bytes(), &answers);
    }
}

/// Lines whose answers have that many bytes together, line ends and all, each with its answer and how often it comes.
fn filling(bytes: usize) -> [(&'static str, &'static str, usize); 2] {
    let [unlawful, bad] = [("why - -\n", "refused 8193"), ("why\n", "bad line")];
    let [long, short] = [unlawful, bad].map(|(_, answer)| answer.len() + 1);
    let times = (0..short).find(|times| (bytes - times * long) % short == 0).expect("13 and 9 have no common factor");
    [(unlawful.0, unlawful.1, times), (bad.0, bad.1, (bytes - times * long) / short)]
}

/// All that a choice is tried with, and of the checks every case. What is refused there is refused here, but where nothing
/// suits there is an answer.
fn pairs_of_the_choices(random: &mut Random, cases: &mut Cases) {
    const OF_EACH_KIND: usize = 1_000;
    for (kind, _) in choices::GROUP.kinds.iter().filter(|(kind, _)| *kind != choices::WORDS) {
        let made = choices::GROUP.of_kind(random, kind);
        let most = if *kind == choices::CHECKS_BROKEN { made.len() } else { OF_EACH_KIND };
        for choice in made.iter().step_by(made.len().div_ceil(most)) {
            cases.detail = choice.title();
            let [book, message] = choices::pair(choice);
            let is_of_both = |answer: &&String| answer.starts_with("refused ") && **answer != refused(14);
            cases.why(&book, &message, choice.answers[0].as_ref().filter(is_of_both).cloned());
            cases.made.last_mut().expect("it was made").offer = choice.offer.clone();
        }
    }
}

fn words(_: &mut Random, cases: &mut Cases) {
    for (line, answer) in [("why - -", 8_193), ("why 0000 -", 30), ("why - 00", 8_193), ("why 00 00", 8_193)] {
        cases.words(line, &refused(answer));
    }
    let bad = [
        "why",
        "why ",
        "why 0000",
        "why 0000 ",
        "why  0000",
        "why  0000 -",
        "why 0000  -",
        " why 0000 -",
        "why 0000 - ",
        "why 0000 - -",
        "why 0000 -\r",
        "Why 0000 -",
        "wh 0000 -",
        "whys 0000 -",
        "why\t0000 -",
        "why 000 -",
        "why 0000 0",
        "why 0g -",
        "why 0000 0g",
        "why 0000 --",
        "why -- -",
        "why,0000,-",
        "why 0000,-",
        "why 0x00 -",
        "why 0000 - - -",
    ];
    bad.iter().for_each(|line| cases.words(line, "bad line"));
}

#[cfg(test)]
mod tests {
    use super::*;

    #[test]
    fn the_longest_answer_is_made_as_long_as_request_three_says() {
        let made = GROUP.of_kind(&mut Random::new(1, "why"), "longest answer");
        let lengths = made.iter().map(|case| case.answers[0].as_ref().map(String::len));
        assert_eq!(lengths.max(), Some(Some(LONGEST_ANSWER)));
    }

    #[test]
    fn causes_are_found_whole_and_in_their_exchange() {
        let answer = ["why set 2 line 1 protocol 3 transform 1 surplus 18 set 3 line 1 suits".to_string()];
        assert!(names(&answer, QUICK_MODE, "surplus 18"));
        assert!(!names(&answer, QUICK_MODE, "surplus 1"));
        assert!(!names(&answer, MAIN_MODE, "surplus 18"));
        assert!(shows(&answer, "suits") && !shows(&answer, "protocols") && !would_do(&answer, ESP));
    }
}
