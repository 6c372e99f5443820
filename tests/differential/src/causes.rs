//! What can be wrong with a transform, made from one that suits, and what request three then says of it.

use crate::offer::{
    fixed, life_type, random_attribute, random_border, random_lifetime, Attribute, Item, Offer, Proposal, Transform,
    ESP, KILOBYTES, SECONDS,
};
use crate::policy::{put_in, set_lifetime, set_of, suiting, take_out, Line, AH_WITH_ESP, MAIN};
use crate::random::Random;
use Fault::*;

pub const SUITS: &str = "suits";

/// What can be wrong with a transform, each with the cause that is named for it, in request three's order.
#[derive(Clone, Copy, PartialEq)]
pub enum Fault {
    Id,
    Missing(u16),
    Value(u16),
    Surplus(u16),
    Seconds,
    Kilobytes,
}

impl Fault {
    pub fn cause(self) -> String {
        match self {
            Id | Seconds | Kilobytes => self.name().to_string(),
            Missing(kind) | Value(kind) | Surplus(kind) => format!("{} {kind}", self.name()),
        }
    }

    pub fn name(self) -> &'static str {
        match self {
            Id => "id",
            Missing(_) => "missing",
            Value(_) => "value",
            Surplus(_) => "surplus",
            Seconds => "seconds",
            Kilobytes => "kilobytes",
        }
    }

    /// Whether a transform can have both.
    pub fn goes_with(self, other: Fault, exchange: u8) -> bool {
        match (self, other) {
            (Missing(one), Value(other)) => one != other,
            (Missing(kind), Seconds) => kind != life_type(exchange),
            _ => true,
        }
    }

    /// Brings it into a transform of the line that has nothing like it.
    fn bring_into(self, random: &mut Random, line: &Line, transform: &mut Transform) {
        match self {
            Id => {
                let any = random.byte();
                let others =
                    [0, 1, 2, 19, 20, 21, 128, 129, 130, 255, any].into_iter().filter(|&id| id != transform.id);
                transform.id = random.one_of(&others.collect::<Vec<_>>());
            }
            Missing(kind) if kind == life_type(line.exchange()) => take_out(line, transform, SECONDS),
            Missing(kind) => transform.attributes.retain(|attribute| attribute.kind != kind),
            Value(kind) => {
                let is_it = |attribute: &&mut Attribute| attribute.kind == kind;
                let attribute = transform.attributes.iter_mut().find(is_it).expect("it is wanted");
                *attribute = fixed(kind, another_value(random, attribute.fixed_value().expect("it is sent fixed")));
            }
            Surplus(kind) => {
                let item = surplus(random, line.exchange(), kind);
                put_in(random, line, transform, item);
            }
            Seconds => {
                let seconds = seconds_out_of_bounds(random, line);
                set_lifetime(random, line, transform, SECONDS, seconds);
            }
            Kilobytes => set_lifetime(random, line, transform, KILOBYTES, 0),
        }
    }
}

fn another_value(random: &mut Random, value: u16) -> u16 {
    let others = [0, 1, 2, 3, 4, 5, 7, value - 1, value + 1, value + 256, value << 8, value | 0x8000, 0xffff];
    let others: Vec<_> = others.into_iter().filter(|&other| other != value).collect();
    random.one_of(&others)
}

fn seconds_out_of_bounds(random: &mut Random, line: &Line) -> u32 {
    let most = line.seconds;
    random.one_of(&[0, 0, most + 1, most + 1, most + 256, most + 65_536, most | 1 << 31, u32::MAX])
}

/// A life type with no meaning.
pub fn odd_life_type(random: &mut Random) -> u16 {
    random.one_of(&[0, 3, 4, 255, 256, 257, 258, 0x8001, 0x8002, 0xffff])
}

fn surplus(random: &mut Random, exchange: u8, kind: u16) -> Item {
    if kind == life_type(exchange) {
        let value = odd_life_type(random);
        return random_lifetime(random, exchange, value);
    }
    vec![random_attribute(random, exchange, kind)]
}

/// The types that the line wants, in document 01's order.
pub fn wanted_types(line: &Line, protocol: u8) -> &'static [u16] {
    match line.protocols {
        MAIN => &[1, 2, 3, 20, 11],
        AH_WITH_ESP if protocol == ESP => &[4, 1],
        _ => &[4, 1, 5],
    }
}

/// The rows of Table 6 or 7 that the line does not want, the life type for one with no meaning, and types in no row.
/// A duration never stands by itself.
pub fn unwanted_types(line: &Line, protocol: u8) -> Vec<u16> {
    let rows: &[u16] = match line.protocols {
        MAIN => &[4, 5, 6, 7, 8, 9, 10, 11, 13, 14, 15, 16, 17],
        AH_WITH_ESP if protocol == ESP => &[1, 3, 5, 6, 7, 8, 9],
        _ => &[1, 3, 6, 7, 8, 9],
    };
    [rows, &[0, 18, 19, 32_767]].concat()
}

/// All that can be wrong, with one surplus type, in request three's order.
pub fn faults(random: &mut Random, line: &Line, protocol: u8) -> Vec<Fault> {
    let wanted = wanted_types(line, protocol);
    let with_value = wanted.iter().filter(|&&kind| kind != life_type(line.exchange()));
    let surplus = random.one_of(&unwanted_types(line, protocol));
    let missing = wanted.iter().map(|&kind| Missing(kind));
    let values = with_value.map(|&kind| Value(kind));
    let last = [Surplus(surplus), Seconds, Kilobytes];
    [Id].into_iter().chain(missing).chain(values).chain(last).collect()
}

/// Some of all that can be wrong.
pub fn some_faults(random: &mut Random, line: &Line, protocol: u8) -> Vec<Fault> {
    let mut some: Vec<Fault> = Vec::new();
    let once_in = random.between(2, 6);
    for fault in faults(random, line, protocol) {
        if random.once_in(once_in) && some.iter().all(|before| before.goes_with(fault, line.exchange())) {
            some.push(fault);
        }
    }
    some
}

/// A transform, and what is said of it against the lines that it is made for.
#[derive(Clone)]
pub struct Judged {
    pub transform: Transform,
    pub cause: String,
}

pub type JudgedSet = Vec<(u8, Vec<Judged>)>;

pub fn judged_suiting(random: &mut Random, line: &Line, protocol: u8) -> Judged {
    Judged { transform: suiting(random, line, protocol), cause: SUITS.to_string() }
}

/// One with these faults, which are in request three's order.
pub fn faulty(random: &mut Random, line: &Line, protocol: u8, faults: &[Fault]) -> Judged {
    let mut transform = suiting(random, line, protocol);
    faults.iter().for_each(|fault| fault.bring_into(random, line, &mut transform));
    Judged { transform, cause: faults.first().map_or(SUITS.to_string(), |first| first.cause()) }
}

/// One with two surplus attributes, of which the first stands in front.
pub fn with_two_surplus(random: &mut Random, line: &Line, protocol: u8, [first, second]: [u16; 2]) -> Judged {
    let mut judged = faulty(random, line, protocol, &[Surplus(second)]);
    let attributes = &mut judged.transform.attributes;
    let is_second = |attribute: &Attribute| attribute.kind == second && is_surplus(line, attribute);
    let second_at = attributes.iter().position(is_second).expect("it was brought in");
    let first_at = random_border(random, line.exchange(), &attributes[..second_at]);
    attributes.splice(first_at..first_at, surplus(random, line.exchange(), first));
    Judged { cause: Surplus(first).cause(), ..judged }
}

/// Of an unwanted type, or a life type with no meaning.
fn is_surplus(line: &Line, attribute: &Attribute) -> bool {
    let is_lifetime = attribute.kind == life_type(line.exchange());
    !is_lifetime || ![Some(SECONDS), Some(KILOBYTES)].contains(&attribute.fixed_value())
}

/// A set for the line that has this transform, and for its other protocol if it has one a transform that suits.
pub fn set_with(random: &mut Random, line: &Line, protocol: u8, judged: Judged) -> JudgedSet {
    let shape = set_of(random, line, suiting).into_iter().map(|(protocol, _)| protocol);
    let of_shape = |offered: u8| {
        let is_it = offered == protocol;
        (offered, vec![if is_it { judged.clone() } else { judged_suiting(random, line, offered) }])
    };
    shape.map(of_shape).collect()
}

/// The answer, where each transform is known to be so against each line that has its set's protocols.
pub fn answer(lines: &[Line], offer: &Offer, cause: impl Fn(&Line, usize, usize) -> String) -> String {
    let proposals: Vec<(usize, &Proposal)> = offer.proposals.iter().enumerate().collect();
    let mut answer = "why".to_string();
    for set in proposals.chunk_by(|one, next| one.1.number == next.1.number) {
        for (line, place) in lines.iter().zip(1..) {
            let causes: Vec<Vec<String>> = set
                .iter()
                .map(|&(at, proposal)| {
                    (0..proposal.transforms.len()).map(|transform| cause(line, at, transform)).collect()
                })
                .collect();
            answer += &format!(" set {} line {place}{}", set[0].1.number, shown(line, set, &causes));
        }
    }
    answer
}

/// What a set and a line show, by the causes of the set's transforms.
fn shown(line: &Line, set: &[(usize, &Proposal)], causes: &[Vec<String>]) -> String {
    let mut protocols: Vec<u8> = set.iter().map(|(_, proposal)| proposal.protocol).collect();
    protocols.sort();
    if protocols != line.protocols {
        return " protocols".to_string();
    }
    if causes.iter().all(|causes| causes.iter().any(|cause| cause == SUITS)) {
        return " suits".to_string();
    }
    let mut shown = String::new();
    for ((_, proposal), causes) in set.iter().zip(causes) {
        for (transform, cause) in proposal.transforms.iter().zip(causes) {
            shown += &format!(" protocol {} transform {} {cause}", proposal.protocol, transform.number);
        }
    }
    shown
}
