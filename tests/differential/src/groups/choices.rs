//! Choices: offers at the line and beside it, sets, lines and transforms of which a later one suits, the order of the
//! checks, and pairs of any book and any message.

use super::{Group, PLAIN, READ_REFUSALS};
use crate::cases::{bytes, refused, Case, Cases};
use crate::checks::CHECKS;
use crate::damage::{limits, with_field};
use crate::message::{
    message_of, random_message, Message, EXCHANGES, HASH, MAIN_MODE, MOST_PAYLOADS, NONCE, NOTICE, QUICK_MODE, SA,
    VENDOR,
};
use crate::offer::{
    fixed, is_of_lifetime, items, life_duration, random_border, Attribute, Offer, Proposal, Sizes, Transform, AH, ESP,
    KILOBYTES, MOST_PROPOSALS, MOST_TRANSFORMS, SMALL,
};
use crate::policy::{
    codings, lasting, offer_of_sets, random_book, random_line, random_seconds, set_of, spoiled, suiting, suiting_id,
    with_duration, Book, Line, Set, AH_WITH_ESP, ESP_ALONE, MAIN, MOST_LINES, SPOILS,
};
use crate::random::Random;

pub const GROUP: Group = Group {
    name: "choices",
    answers: &[READ_REFUSALS, &["chosen", "refused 14", "refused 8193", "bad line"]],
    at_least: 20,
    occasions: &[
        ("chosen with a set other than the first", 500, |case, answers| {
            chosen_numbers(answers).is_some_and(|chosen| firsts(case).first().is_some_and(|first| chosen[0] != first.0))
        }),
        ("chosen with a line other than the first", 500, |_, answers| {
            chosen_numbers(answers).is_some_and(|chosen| chosen[1] != 1)
        }),
        ("chosen with a transform other than the first", 500, |case, answers| {
            chosen_numbers(answers).is_some_and(|chosen| {
                let firsts = firsts(case).into_iter().filter(|first| first.0 == chosen[0]);
                firsts.zip(&chosen[2..]).any(|(first, transform)| first.1 != *transform)
            })
        }),
        ("readable offer near the line", 50_000, |case, answers| {
            case.offer.is_some() && (answers == ["refused 14"] || chosen_numbers(answers).is_some())
        }),
    ],
    kinds: &[
        ("example of document 01", examples),
        ("suiting transform", suiting_transforms),
        ("transform beside the line", transforms_beside_the_line),
        ("each attribute missing, doubled, with another value", each_attribute),
        ("every attribute type as a surplus", every_surplus),
        ("lifetime around the limit", lifetimes),
        ("every transform ID", every_id),
        ("mode of offer and line", modes),
        ("protocols of a set", protocols_of_a_set),
        ("sets in every order", sets_in_every_order),
        ("a set's proposals are no alternatives", no_alternatives),
        (PLANTED, planted),
        ("several suiting lines", several_lines),
        ("several suiting transforms", several_transforms),
        ("largest offer and largest book", largest),
        ("no line for the exchange", no_lines),
        ("no SA payload", no_sa_payload),
        (CHECKS_BROKEN, checks_broken),
        ("unlawful book", unlawful_books),
        ("near offers and books at random", near_at_random),
        ("any message and any book", any_message),
        ("field of a suiting offer at its limits", fields_at_their_limits),
        ("byte of a suiting offer changed", bytes_changed),
        (WORDS, words),
    ],
    ..PLAIN
};

/// The kind in which sets, lines and transforms other than the first are chosen.
pub const PLANTED: &str = "planted set, line and transform";

/// The kind in which every refusal of a reading occurs.
pub const CHECKS_BROKEN: &str = "check of a reading broken";

/// The kind of which not every case is a pair.
pub const WORDS: &str = "words of the line";

/// The chosen proposals with their chosen transforms alone, where something is known to be chosen of a known offer.
pub fn taken(choice: &Case) -> Option<Vec<Proposal>> {
    let numbers = chosen_numbers(choice.answers[0].as_slice())?;
    let offer = choice.offer.as_ref()?;
    let set = offer.proposals.iter().filter(|proposal| proposal.number == numbers[0]);
    let taken = set.zip(&numbers[2..]).map(|(proposal, &transform)| {
        let mut taken = proposal.clone();
        taken.transforms.retain(|each| each.number == transform);
        taken
    });
    Some(taken.collect())
}

/// Book and message of a case that is a pair.
pub fn pair(choice: &Case) -> [Vec<u8>; 2] {
    let [book, message] = pair_in_words(choice);
    [bytes(book), bytes(message)]
}

pub fn pair_in_words(choice: &Case) -> [&str; 2] {
    let line = std::str::from_utf8(&choice.input).expect("a line of the choices is text");
    let words: Vec<_> = line.trim_end().split(' ').collect();
    [words[1], words[2]]
}

/// Set, line and transforms of the answer `chosen`.
fn chosen_numbers(answers: &[String]) -> Option<Vec<u8>> {
    answers.first()?.strip_prefix("chosen ")?.split(' ').map(|word| word.parse().ok()).collect()
}

/// For each proposal that is offered its number and that of its first transform.
fn firsts(case: &Case) -> Vec<(u8, u8)> {
    let proposals = case.offer.iter().flat_map(|offer| &offer.proposals);
    proposals.map(|proposal| (proposal.number, proposal.transforms[0].number)).collect()
}

/// What a line can be about.
pub const SORTS: [&[u8]; 3] = [MAIN, ESP_ALONE, AH_WITH_ESP];

/// A readable message with that offer, alone or among other payloads.
pub fn message_with(random: &mut Random, exchange: u8, offer: Offer) -> Message {
    let flag = random.below(2) as u8;
    let types: &[u8] = match random.below(4) {
        0 | 1 => &[SA],
        2 => &[SA, VENDOR],
        _ => &[HASH, SA, NONCE],
    };
    let mut message = message_of(random, exchange, flag, types, SMALL);
    *message.offer().expect("it has one") = offer;
    message
}

/// Where in an offer something is chosen, all counted from 0; the transforms in the order of the proposals.
pub struct Place {
    pub set: usize,
    pub line: usize,
    pub transforms: Vec<usize>,
}

/// A book of these lines and an offer of these sets.
pub fn add(random: &mut Random, cases: &mut Cases, lines: &[Line], sets: Vec<Set>, place: Option<Place>) {
    let exchange = if sets[0][0].0 == MAIN[0] { MAIN_MODE } else { QUICK_MODE };
    let before = |place: &Place| sets[..place.set].iter().map(Vec::len).sum::<usize>();
    let first = place.as_ref().map_or(0, before);
    let offer = offer_of_sets(random, sets);
    let answer = place.map_or(refused(14), |Place { line, transforms, .. }| {
        let proposals = &offer.proposals[first..];
        let chosen =
            proposals.iter().zip(transforms).map(|(proposal, at)| format!(" {}", proposal.transforms[at].number));
        format!("chosen {} {}{}", proposals[0].number, line + 1, chosen.collect::<String>())
    });
    let book = Book::of(random, lines).encode();
    let message = message_with(random, exchange, offer);
    cases.choose_offered(&book, &message, Some(answer));
}

/// One set and one line.
pub fn add_one(random: &mut Random, cases: &mut Cases, line: Line, set: Set, suits: bool) {
    let place = suits.then(|| Place { set: 0, line: 0, transforms: vec![0; set.len()] });
    add(random, cases, &[line], vec![set], place);
}

/// A set that suits the line, with one proposal of it to be changed.
pub fn set_to_change(random: &mut Random, line: &Line) -> (Set, usize) {
    let set = set_of(random, line, suiting);
    let at = random.below(set.len());
    (set, at)
}

fn examples(_: &mut Random, cases: &mut Cases) {
    let front = "01010101010101010202020202020202011102000000000000000050\
                 0000003400000001000000010000002801010001\
                 0000002001010000";
    let attributes = "80010081800200148003000a80140002800b0001800c";
    for (book, seconds, answer) in [
        ("0100000e1000", "0e10", "chosen 1 1 1"),
        ("0100000e1000", "0e11", "refused 14"),
        ("0100000e1000", "0001", "chosen 1 1 1"),
        ("0100000e1000", "0000", "refused 14"),
        ("0200000e0f00000e1000", "0e10", "chosen 1 2 1"),
        ("0000", "0e10", "refused 14"),
        ("0100000e100000", "0e10", "refused 8193"),
    ] {
        cases.words(&format!("choose {book} {front}{attributes}{seconds}"), answer);
    }
}

fn suiting_transforms(random: &mut Random, cases: &mut Cases) {
    for protocols in SORTS {
        for _ in 0..2_000 {
            let line = random_line(random, protocols);
            let set = set_of(random, &line, suiting);
            add_one(random, cases, line, set, true);
        }
    }
}

/// Every way to spoil a transform, in each protocol.
fn transforms_beside_the_line(random: &mut Random, cases: &mut Cases) {
    for (name, spoil) in SPOILS {
        for protocols in SORTS {
            cases.detail = name.to_string();
            for _ in 0..400 {
                let line = random_line(random, protocols);
                let (mut set, at) = set_to_change(random, &line);
                spoil(random, &line, &mut set[at].1[0]);
                add_one(random, cases, line, set, false);
            }
        }
    }
}

/// Every attribute of a suiting transform by itself. A doubled one makes the offer unreadable, as does half a lifetime; the
/// kilobytes may be missing as a whole.
fn each_attribute(random: &mut Random, cases: &mut Cases) {
    for protocols in SORTS {
        for _ in 0..30 {
            let line = random_line(random, protocols);
            let set = set_of(random, &line, suiting);
            let count = |set: &Set, at: usize| set[at].1[0].attributes.len();
            for (at, attribute) in (0..set.len()).flat_map(|at| (0..count(&set, at)).map(move |each| (at, each))) {
                let mut missing = set.clone();
                let removed = missing[at].1[0].attributes.remove(attribute);
                if is_of_lifetime(line.exchange(), removed.kind) {
                    add_unreadable(random, cases, line, missing);
                } else {
                    add_one(random, cases, line, missing, false);
                }

                let mut doubled = set.clone();
                let copy = doubled[at].1[0].attributes[attribute].clone();
                let place = random.below(count(&set, at) + 1);
                doubled[at].1[0].attributes.insert(place, copy);
                add_unreadable(random, cases, line, doubled);

                other_values(random, cases, line, &set, at, attribute);
            }
            for at in 0..set.len() {
                lifetimes_missing(random, cases, line, &set, at);
            }
        }
    }
}

/// One line and one set that breaks the rule on what may stand where.
pub fn add_unreadable(random: &mut Random, cases: &mut Cases, line: Line, set: Set) {
    let offer = offer_of_sets(random, vec![set]);
    let message = message_with(random, line.exchange(), offer).encode();
    cases.choose(&Book::of(random, &[line]).encode(), &message, Some(refused(15)));
}

fn other_values(random: &mut Random, cases: &mut Cases, line: Line, set: &Set, at: usize, attribute: usize) {
    let attributes = &set[at].1[0].attributes;
    let kind = attributes[attribute].kind;
    if kind == life_duration(line.exchange()) {
        return;
    }
    let right = attributes[attribute].fixed_value();
    for value in [0, 1, 2, 3, 4, 5, 6, 10, 19, 20, 21, 128, 129, 130, 256, 257, 0x1400, 0x8001, 0xffff] {
        let mut changed = set.clone();
        changed[at].1[0].attributes[attribute] = fixed(kind, value);
        let is_there = |other: &Attribute| other.kind == kind && other.fixed_value() == Some(value);
        if Some(value) != right && attributes.iter().any(is_there) {
            add_unreadable(random, cases, line, changed);
        } else {
            add_one(random, cases, line, changed, Some(value) == right);
        }
    }
}

fn lifetimes_missing(random: &mut Random, cases: &mut Cases, line: Line, set: &Set, at: usize) {
    let whole = items(line.exchange(), &set[at].1[0].attributes);
    for lifetime in (0..whole.len()).filter(|&item| whole[item].len() == 2) {
        let mut left = whole.clone();
        let is_kilobytes = left.remove(lifetime)[0].fixed_value() == Some(KILOBYTES);
        let mut missing = set.clone();
        missing[at].1[0].attributes = left.concat();
        add_one(random, cases, line, missing, is_kilobytes);
    }
}

fn every_surplus(random: &mut Random, cases: &mut Cases) {
    for protocols in SORTS {
        for kind in (0..=40).chain([128, 255, 256, 257, 0x7ffe, 0x7fff]).flat_map(|kind| [kind; 6]) {
            let line = random_line(random, protocols);
            let (mut set, at) = set_to_change(random, &line);
            let attributes = &mut set[at].1[0].attributes;
            if attributes.iter().all(|attribute| attribute.kind != kind) {
                let value = random.one_of(&[0, 1, 20, 129]);
                attributes.insert(random_border(random, line.exchange(), attributes), fixed(kind, value));
                add_one(random, cases, line, set, false);
            }
        }
    }
}

/// At the limit, one below and one above, and at the ends of each size, sent in every way.
fn lifetimes(random: &mut Random, cases: &mut Cases) {
    for protocols in SORTS {
        let most = random_line(random, protocols).most_seconds();
        let limits = [1, 2, 255, 256, 257, 3_599, 3_600, 65_535, 65_536, 65_537, 86_399, 86_400];
        let some: Vec<_> = (0..12).map(|_| random_seconds(random, most)).collect();
        for limit in limits.into_iter().filter(|&limit| limit <= most).chain(some) {
            let line = Line { seconds: limit, ..random_line(random, protocols) };
            let around = [limit - 1, limit, limit + 1, limit + 256, limit + 65_536, limit + (1 << 24), limit | 1 << 31];
            for seconds in around.into_iter().chain([0, 1, 255, 256, 65_535, 65_536, 1 << 24, u32::MAX]) {
                for duration in codings(life_duration(line.exchange()), seconds) {
                    for _ in 0..2 {
                        let (mut set, at) = set_to_change(random, &line);
                        set[at].1[0] = with_duration(random, &line, set[at].0, duration.clone());
                        add_one(random, cases, line, set, (1..=limit).contains(&seconds));
                    }
                }
            }
        }
    }
}

fn every_id(random: &mut Random, cases: &mut Cases) {
    for protocols in SORTS {
        for id in 0..=255 {
            for at in 0..protocols.len() {
                let line = random_line(random, protocols);
                let mut set = set_of(random, &line, suiting);
                set[at].1[0].id = id;
                let suits = id == suiting_id(set[at].0);
                add_one(random, cases, line, set, suits);
            }
        }
    }
}

fn modes(random: &mut Random, cases: &mut Cases) {
    for protocols in [ESP_ALONE, AH_WITH_ESP] {
        for mode in 1..=4 {
            for offered in [0, 1, 2, 3, 4, 5, 6, 255].into_iter().flat_map(|offered| [offered; 12]) {
                let line = Line { mode, ..random_line(random, protocols) };
                let (mut set, at) = set_to_change(random, &line);
                set[at].1[0] = suiting(random, &Line { mode: offered, ..line }, set[at].0);
                add_one(random, cases, line, set, offered == mode);
            }
        }
    }
}

/// AH alone, ESP alone, both in both orders; each ESP as it would suit alone and beside AH.
fn protocols_of_a_set(random: &mut Random, cases: &mut Cases) {
    for _ in 0..250 {
        for protocols in [ESP_ALONE, AH_WITH_ESP] {
            let line = random_line(random, protocols);
            for offered in [&[AH][..], &[ESP], &[AH, ESP], &[ESP, AH]] {
                for made_for in [ESP_ALONE, AH_WITH_ESP] {
                    let model = Line { protocols: made_for, ..line };
                    let part = |&protocol: &u8| (protocol, vec![suiting(random, &model, protocol)]);
                    let set: Set = offered.iter().map(part).collect();
                    let suits = made_for == protocols && offered.len() == protocols.len() && offered.contains(&ESP);
                    add_one(random, cases, line, set, suits);
                }
            }
        }
    }
}

/// Each shape of a set, all in every order, against lines for one of them or for several.
fn sets_in_every_order(random: &mut Random, cases: &mut Cases) {
    const SHAPES: [&[u8]; 4] = [&[AH], &[ESP], &[AH, ESP], &[ESP, AH]];
    for _ in 0..30 {
        for order in orders(SHAPES.len()) {
            for sorts in [&[ESP_ALONE][..], &[AH_WITH_ESP], &[ESP_ALONE, AH_WITH_ESP], &[AH_WITH_ESP, ESP_ALONE]] {
                let line = random_line(random, sorts[0]);
                let lines: Vec<_> = sorts.iter().map(|&protocols| Line { protocols, ..line }).collect();
                let for_shape = |shape: &[u8]| if shape.len() == 2 { AH_WITH_ESP } else { ESP_ALONE };
                let mut sets = Vec::new();
                let mut place = None;
                for (at, shape) in order.iter().map(|&each| SHAPES[each]).enumerate() {
                    let model = Line { protocols: for_shape(shape), ..line };
                    sets.push(
                        shape.iter().map(|&protocol| (protocol, vec![suiting(random, &model, protocol)])).collect(),
                    );
                    let line = sorts.iter().position(|&sort| shape != [AH] && sort == for_shape(shape));
                    let here = line.map(|line| Place { set: at, line, transforms: vec![0; shape.len()] });
                    place = place.or(here);
                }
                add(random, cases, &lines, sets, place);
            }
        }
    }
}

/// Every order of so many items.
pub fn orders(count: usize) -> Vec<Vec<usize>> {
    if count == 0 {
        return vec![Vec::new()];
    }
    let shorter = orders(count - 1);
    let with_last = |order: &Vec<usize>, at: usize| [&order[..at], &[count - 1], &order[at..]].concat();
    shorter.iter().flat_map(|order| (0..count).map(move |at| with_last(order, at))).collect()
}

/// One of both proposals has only spoiled transforms, and the other one suits by itself.
fn no_alternatives(random: &mut Random, cases: &mut Cases) {
    for _ in 0..1_500 {
        let both = random_line(random, AH_WITH_ESP);
        let alone = Line { protocols: ESP_ALONE, ..both };
        let (mut set, at) = set_to_change(random, &both);
        let spoiled_protocol = set[at].0;
        for _ in 0..random.between(1, 3) {
            set[at].1.push(spoiled(random, &both, spoiled_protocol));
        }
        set[at].1.remove(0);
        for (protocol, transforms) in &mut set {
            if *protocol == ESP && spoiled_protocol == AH {
                transforms.push(suiting(random, &alone, ESP));
            }
        }
        let lines = [&[both, alone][..], &[alone, both], &[alone], &[both]];
        let lines = lines[random.below(lines.len())];
        // Behind it, the same protocol in a set of its own suits.
        let esp = vec![(ESP, vec![suiting(random, &alone, ESP)])];
        let place = lines.iter().position(|line| line.protocols == ESP_ALONE);
        let place = place.map(|line| Place { set: 1, line, transforms: vec![0] });
        add(random, cases, lines, vec![set, esp], place);
    }
}

/// A set in which one proposal, or both, has no suiting transform.
fn spoiled_set(random: &mut Random, line: &Line) -> Set {
    let mut set = set_of(random, line, spoiled);
    if set.len() == 2 && random.once_in(2) {
        let at = random.below(2);
        set[at].1[0] = suiting(random, line, set[at].0);
    }
    set
}

fn planted(random: &mut Random, cases: &mut Cases) {
    for time in 0..15_000 {
        plant(random, cases, SORTS[time % 3]);
    }
}

/// A set at one place that suits one line by one transform in each proposal. Everything before it is spoiled, and behind
/// it stands what would suit as well or would not.
pub fn plant(random: &mut Random, cases: &mut Cases, protocols: &'static [u8]) {
    let mut lines = Vec::new();
    let line_at = random.below(4);
    let planted = Line { seconds: 2 + random_seconds(random, 3_598), ..random_line(random, protocols) };
    // A line before it has other protocols, another mode, or fewer seconds than the transforms have.
    let lasts = random.between(2, planted.seconds as usize) as u32;
    for _ in 0..line_at {
        let fewer = Line { seconds: random.between(1, lasts as usize - 1) as u32, ..planted };
        let other_mode = Line { mode: planted.mode % 4 + 1, ..planted };
        let other_sort = if protocols == ESP_ALONE { AH_WITH_ESP } else { ESP_ALONE };
        let before = [fewer, other_mode, Line { protocols: other_sort, ..planted }];
        lines.push(if protocols == MAIN { fewer } else { before[random.below(3)] });
    }
    lines.push(planted);
    for _ in 0..random.below(3) {
        lines.push(if random.once_in(2) { planted } else { random_line(random, protocols) });
    }

    let set_at = if protocols == MAIN { 0 } else { random.below(4) };
    let mut sets: Vec<Set> = Vec::new();
    for _ in 0..set_at {
        let line = lines[random.below(lines.len())];
        sets.push(if random.once_in(5) {
            vec![(AH, vec![suiting(random, &line, AH)])]
        } else {
            spoiled_set(random, &line)
        });
    }
    let mut set = set_of(random, &planted, |random, line, protocol| lasting(random, line, protocol, 1));
    let mut transforms = Vec::new();
    for (protocol, offered) in &mut set {
        let at = random.below(4);
        *offered = (0..at).map(|_| spoiled(random, &planted, *protocol)).collect();
        offered.push(lasting(random, &planted, *protocol, lasts));
        for _ in 0..random.below(3) {
            let again = random.between(lasts as usize, planted.seconds as usize) as u32;
            offered.push(lasting(random, &planted, *protocol, again));
        }
        transforms.push(at);
    }
    sets.push(set);
    for _ in 0..if protocols == MAIN { 0 } else { random.below(3) } {
        sets.push(set_of(random, &planted, suiting));
    }
    add(random, cases, &lines, sets, Some(Place { set: set_at, line: line_at, transforms }));
}

/// One set and up to eight lines of its sort: the first whose mode is the same and whose seconds are enough.
fn several_lines(random: &mut Random, cases: &mut Cases) {
    for time in 0..5_000 {
        let protocols = SORTS[time % 3];
        let count = random.between(2, MOST_LINES);
        let mode = random.between(1, 4) as u8;
        let near = random_seconds(random, 3_000);
        let lines: Vec<Line> = (0..count)
            .map(|_| Line {
                protocols,
                mode: if random.once_in(3) { random.between(1, 4) as u8 } else { mode },
                seconds: near + random.below(4) as u32,
            })
            .collect();
        let lasts = near + random.below(5) as u32;
        let model = Line { protocols, mode, seconds: lasts };
        let mut set = set_of(random, &model, suiting);
        for (protocol, transforms) in &mut set {
            transforms[0] = lasting(random, &model, *protocol, lasts);
        }
        let suits = |line: &Line| (protocols == MAIN || line.mode == mode) && line.seconds >= lasts;
        let place = lines.iter().position(suits);
        let place = place.map(|line| Place { set: 0, line, transforms: vec![0; set.len()] });
        add(random, cases, &lines, vec![set], place);
    }
}

/// Any of up to eight transforms suits or is spoiled; the lowest that suits is taken in each proposal.
fn several_transforms(random: &mut Random, cases: &mut Cases) {
    for time in 0..4_000 {
        let line = random_line(random, SORTS[time % 3]);
        let mut set = set_of(random, &line, suiting);
        let mut lowest = Vec::new();
        for (protocol, transforms) in &mut set {
            let suits: Vec<bool> = (0..random.between(2, MOST_TRANSFORMS)).map(|_| random.once_in(3)).collect();
            let make = |&suits: &bool| if suits { suiting } else { spoiled }(random, &line, *protocol);
            *transforms = suits.iter().map(make).collect();
            lowest.push(suits.iter().position(|&suits| suits));
        }
        let transforms: Option<Vec<usize>> = lowest.into_iter().collect();
        add(random, cases, &[line], vec![set], transforms.map(|transforms| Place { set: 0, line: 0, transforms }));
    }
}

/// As many sets, lines and transforms as there can be, of which the last or none suits.
fn largest(random: &mut Random, cases: &mut Cases) {
    for time in 0..150 {
        let protocols = SORTS[time % 3];
        let planted = Line { mode: 4, seconds: 3_600, ..random_line(random, protocols) };
        let other = Line { seconds: 3_599, ..planted };
        let lines: Vec<_> = (1..MOST_LINES).map(|_| other).chain([planted]).collect();
        let sets = if protocols == MAIN { 1 } else { MOST_PROPOSALS / protocols.len() };
        let mut offered: Vec<Set> = (0..sets).map(|_| set_of(random, &planted, spoiled)).collect();
        for set in &mut offered {
            for (protocol, transforms) in set {
                // So small that sixteen proposals stay below 8,192 bytes.
                *transforms = (0..MOST_TRANSFORMS).map(|_| lasting(random, &planted, *protocol, 0)).collect();
            }
        }
        let suits = random.once_in(2);
        if suits {
            for (protocol, transforms) in &mut offered[sets - 1] {
                transforms[MOST_TRANSFORMS - 1] = lasting(random, &planted, *protocol, 3_600);
            }
        }
        let transforms = vec![MOST_TRANSFORMS - 1; protocols.len()];
        let place = suits.then_some(Place { set: sets - 1, line: MOST_LINES - 1, transforms });
        add(random, cases, &lines, offered, place);
    }
}

/// Lines of the other exchange never matter.
fn no_lines(random: &mut Random, cases: &mut Cases) {
    for time in 0..600 {
        let line = random_line(random, SORTS[time % 3]);
        let set = set_of(random, &line, suiting);
        let offer = offer_of_sets(random, vec![set]);
        let mut book = random_book(random);
        match line.exchange() {
            MAIN_MODE => book.main.clear(),
            _ => book.quick.clear(),
        }
        let message = message_with(random, line.exchange(), offer);
        cases.choose_offered(&book.encode(), &message, Some(refused(14)));
    }
}

/// Before it is asked whether anything suits, and after book and message.
fn no_sa_payload(random: &mut Random, cases: &mut Cases) {
    for exchange in EXCHANGES {
        for types in [&[HASH][..], &[NONCE], &[VENDOR, VENDOR], &[HASH, NOTICE], &[VENDOR; MOST_PAYLOADS]] {
            for flag in [0, 1] {
                for _ in 0..20 {
                    let mut message = message_of(random, exchange, flag, types, SMALL);
                    let book = random_book(random).encode();
                    cases.choose(&book, &message.encode(), Some(refused(16)));
                    cases.choose(&[&book, [0].as_slice()].concat(), &message.encode(), Some(refused(8_193)));
                    message.version = 0x10;
                    cases.choose(&book, &message.encode(), Some(refused(6)));
                }
            }
        }
    }
}

/// A message is refused as its reading is, whatever the book's lines; an unlawful book comes before.
fn checks_broken(random: &mut Random, cases: &mut Cases) {
    for check in CHECKS {
        cases.detail = check.name.to_string();
        for time in 0..24 {
            let line = random_line(random, SORTS[time % 3]);
            let set = set_of(random, &line, suiting);
            let offer = offer_of_sets(random, vec![set]);
            let mut message = message_with(random, line.exchange(), offer);
            if !(check.breaks)(random, &mut message) {
                continue;
            }
            let book = Book::of(random, &[line]).encode();
            cases.choose(&book, &message.encode(), Some(refused(check.number)));
            cases.choose(&[&book, [0].as_slice()].concat(), &message.encode(), Some(refused(8_193)));
        }
    }
}

fn unlawful_books(random: &mut Random, cases: &mut Cases) {
    for time in 0..1_500 {
        let line = random_line(random, SORTS[time % 3]);
        let set = set_of(random, &line, suiting);
        let offer = offer_of_sets(random, vec![set]);
        let message = message_with(random, line.exchange(), offer);
        let mut book = Book::of(random, &[line]);
        let unlawful = match random.below(5) {
            0 => book.encode()[..random.below(book.encode().len())].to_vec(),
            1 => [book.encode(), random.bytes(1)].concat(),
            2 => [&[9][..], &book.encode()[1..]].concat(),
            3 => {
                book.main.push(Line { seconds: random.one_of(&[0, 86_401, u32::MAX]), ..random_line(random, MAIN) });
                book.encode()
            }
            _ => {
                book.quick.push(Line { mode: random.one_of(&[0, 5, 255]), ..random_line(random, ESP_ALONE) });
                book.encode()
            }
        };
        cases.choose(&unlawful, &message.encode(), Some(refused(8_193)));
    }
}

/// Sets of any shape, whose transforms suit one of the lines, one near it, or none.
fn near_at_random(random: &mut Random, cases: &mut Cases) {
    for time in 0..12_000 {
        let main = time % 4 == 0;
        let count = random.between(1, 4);
        let lines: Vec<Line> = (0..count)
            .map(|_| {
                let protocols = if main { MAIN } else { random.one_of(&[ESP_ALONE, AH_WITH_ESP]) };
                Line { mode: random.between(1, 2) as u8, ..random_line(random, protocols) }
            })
            .collect();
        let sets = if main { 1 } else { random.between(1, 4) };
        let sets = (0..sets).map(|_| near_set(random, &lines)).collect();
        let offer = offer_of_sets(random, sets);
        let message = message_with(random, lines[0].exchange(), offer);
        cases.choose_offered(&Book::of(random, &lines).encode(), &message, None);
    }
}

fn near_set(random: &mut Random, lines: &[Line]) -> Set {
    let shapes: [&[u8]; 4] = [&[AH], &[ESP], &[AH, ESP], &[ESP, AH]];
    let shape = if lines[0].protocols == MAIN { MAIN } else { random.one_of(&shapes) };
    let mut set = Set::new();
    for &protocol in shape {
        let count = random.between(1, 3);
        let near = (0..count).map(|_| near_transform(random, lines, shape.len(), protocol)).collect();
        set.push((protocol, near));
    }
    set
}

fn near_transform(random: &mut Random, lines: &[Line], of: usize, protocol: u8) -> Transform {
    let line = lines[random.below(lines.len())];
    let protocols = match (line.protocols, of) {
        (MAIN, _) => MAIN,
        _ if random.once_in(6) => line.protocols,
        (_, 1) => ESP_ALONE,
        _ => AH_WITH_ESP,
    };
    let line = Line { protocols, ..line };
    match random.below(6) {
        0 => spoiled(random, &line, protocol),
        1 => lasting(random, &line, protocol, line.seconds + 1),
        2 => suiting(random, &Line { mode: 3 - line.mode.min(2), ..line }, protocol),
        _ => suiting(random, &line, protocol),
    }
}

fn any_message(random: &mut Random, cases: &mut Cases) {
    let sizes = Sizes { proposals: 4, transforms: 3, attributes: 5 };
    for time in 0..6_000 {
        let count = random.between(1, 4);
        let message = random_message(random, EXCHANGES[time % 3], count, sizes);
        cases.choose(&random_book(random).encode(), &message.encode(), None);
    }
}

/// Suiting offers of one or two sets against lines of their sort.
fn suiting_messages(random: &mut Random, count: usize) -> Vec<(Vec<u8>, Message)> {
    let mut pairs = Vec::new();
    for time in 0..count {
        let line = random_line(random, SORTS[time % 3]);
        let sets = if line.protocols == MAIN { 1 } else { 1 + time % 2 };
        let sets = (0..sets).map(|_| set_of(random, &line, suiting)).collect();
        let offer = offer_of_sets(random, sets);
        pairs.push((Book::of(random, &[line]).encode(), message_with(random, line.exchange(), offer)));
    }
    pairs
}

fn fields_at_their_limits(random: &mut Random, cases: &mut Cases) {
    for (book, message) in suiting_messages(random, 18) {
        let layout = message.layout();
        for field in &layout.fields {
            for value in limits(&layout, field) {
                cases.detail = format!("{} {value}", field.name);
                cases.choose(&book, &with_field(&layout, field, value), None);
            }
        }
    }
}

fn bytes_changed(random: &mut Random, cases: &mut Cases) {
    for (book, message) in suiting_messages(random, 18) {
        let bytes = message.encode();
        for at in 0..bytes.len() {
            for changed in [bytes[at] ^ 1, bytes[at].wrapping_add(1), random.byte()] {
                let mut damaged = bytes.clone();
                damaged[at] = changed;
                cases.choose(&book, &damaged, None);
            }
        }
    }
}

fn words(_: &mut Random, cases: &mut Cases) {
    for (line, answer) in
        [("choose - -", 8_193), ("choose 0000 -", 30), ("choose - 00", 8_193), ("choose 00 00", 8_193)]
    {
        cases.words(line, &refused(answer));
    }
    let bad = [
        "choose",
        "choose ",
        "choose 0000",
        "choose 0000 ",
        "choose  0000",
        "choose  0000 -",
        "choose 0000  -",
        " choose 0000 -",
        "choose 0000 - ",
        "choose 0000 - -",
        "choose 0000 -\r",
        "Choose 0000 -",
        "chose 0000 -",
        "chooses 0000 -",
        "choose\t0000 -",
        "choose 000 -",
        "choose 0000 0",
        "choose 0g -",
        "choose 0000 0g",
        "choose 0000 --",
        "choose -- -",
        "choose,0000,-",
        "choose 0000,-",
        "choose 0x00 -",
        "choose 0000 - - -",
    ];
    bad.iter().for_each(|line| cases.words(line, "bad line"));
}
