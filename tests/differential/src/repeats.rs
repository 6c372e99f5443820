//! Replies that repeat a recorded offer, what can differ in one, and what request ten then says.

use crate::cases::Said;
use crate::message::{MAIN_MODE, QUICK_MODE};
use crate::offer::{
    fixed, items, lawful_spi, life_duration, life_type, random_border, random_transforms, Attribute, Item, Offer,
    Proposal, Transform, Value, AH, ESP, ISAKMP, MOST_ATTRIBUTES, MOST_PROPOSALS, MOST_TRANSFORMS,
};
use crate::policy::{codings, shuffle};
use crate::random::Random;
use Kind::*;

/// What can differ in a reply, in the order in which it is told.
#[derive(Clone, Copy, Debug, PartialEq, Eq, PartialOrd, Ord)]
pub enum Kind {
    SeveralSets,
    SetNumber,
    Protocols,
    Order,
    SeveralTransforms,
    TransformNumber,
    Id,
    Attributes,
}

pub const KINDS: [Kind; 8] =
    [SeveralSets, SetNumber, Protocols, Order, SeveralTransforms, TransformNumber, Id, Attributes];

impl Kind {
    pub fn name(self) -> &'static str {
        match self {
            SeveralSets => "several sets",
            SetNumber => "set number",
            Protocols => "protocols",
            Order => "order",
            SeveralTransforms => "several transforms",
            TransformNumber => "transform number",
            Id => "ID",
            Attributes => "attributes",
        }
    }

    /// Whether it is of one proposal and not of the set.
    pub fn is_of_proposal(self) -> bool {
        self >= SeveralTransforms
    }

    /// Whether a reply can differ in both. Protocols that are not the same ones are in no other order.
    pub fn goes_with(self, other: Kind) -> bool {
        self != other && !matches!((self, other), (Protocols, Order) | (Order, Protocols))
    }
}

/// A difference, with the place of its proposal where it is of one.
#[derive(Clone, Copy, Debug, PartialEq, Eq, PartialOrd, Ord)]
pub struct Difference {
    pub kind: Kind,
    pub at: usize,
}

/// What a book chooses of an offer.
#[derive(Clone, Debug, PartialEq)]
pub struct Chosen {
    pub set: u8,
    pub line: u8,
    pub transforms: Vec<u8>,
}

impl Chosen {
    /// Of the answer `chosen`, which the line `choose` gets.
    pub fn of_answer(answer: &str) -> Option<Chosen> {
        let numbers: Option<Vec<u8>> =
            answer.strip_prefix("chosen ")?.split(' ').map(|word| word.parse().ok()).collect();
        match &numbers?[..] {
            [set, line, transforms @ ..] => Some(Chosen { set: *set, line: *line, transforms: transforms.to_vec() }),
            _ => None,
        }
    }

    fn shown(&self) -> String {
        let transforms: String = self.transforms.iter().map(|number| format!(" {number}")).collect();
        format!("set {} line {} transforms{transforms}", self.set, self.line)
    }
}

/// The sets of an offer, in its order.
pub fn sets(proposals: &[Proposal]) -> Vec<&[Proposal]> {
    proposals.chunk_by(|one, next| one.number == next.number).collect()
}

/// A reply, and the offered set of which it is made.
#[derive(Clone)]
pub struct Reply {
    pub exchange: u8,
    pub proposals: Vec<Proposal>,
    offered: Vec<Proposal>,
    /// All sets that are offered.
    offer: Vec<Proposal>,
    differences: Vec<Difference>,
}

impl Reply {
    /// It repeats that set with these transforms, each counted from 0. Its SPIs are mostly its own.
    pub fn of(random: &mut Random, offer: &Offer, set: usize, transforms: &[usize]) -> Reply {
        let offered = sets(&offer.proposals)[set].to_vec();
        let exchange = if offered[0].protocol == ISAKMP { MAIN_MODE } else { QUICK_MODE };
        let taken = offered.iter().zip(transforms).map(|(proposal, &at)| Proposal {
            spi: if random.once_in(5) { proposal.spi.clone() } else { lawful_spi(random, exchange) },
            transforms: vec![proposal.transforms[at].clone()],
            ..proposal.clone()
        });
        let proposals = taken.collect();
        Reply { exchange, proposals, offered, offer: offer.proposals.clone(), differences: Vec::new() }
    }

    /// It repeats any set with any transforms.
    pub fn random(random: &mut Random, offer: &Offer) -> Reply {
        let set = random.below(sets(&offer.proposals).len());
        let transforms = random_places(random, sets(&offer.proposals)[set]);
        Reply::of(random, offer, set, &transforms)
    }

    pub fn offer(&self) -> Offer {
        Offer { doi: 1, situation: 1, proposals: self.proposals.clone(), rest: Vec::new() }
    }

    /// What of it is told, if it does not repeat the offer.
    pub fn told(&self) -> Option<Kind> {
        self.differences.first().map(|difference| difference.kind)
    }

    pub fn takes_a_later_transform(&self) -> bool {
        let first = self.offered.iter().map(|proposal| proposal.transforms[0].number);
        first.zip(self.numbers()).any(|(first, taken)| first != taken)
    }

    /// Which transform of each proposal is taken, by its number.
    pub fn numbers(&self) -> Vec<u8> {
        self.proposals.iter().map(|proposal| proposal.transforms[0].number).collect()
    }

    /// The same reply with these differences, or none if it has no place for one of them.
    pub fn with(&self, random: &mut Random, differences: &[Difference]) -> Option<Reply> {
        let mut reply = self.clone();
        reply.differences = differences.to_vec();
        reply.differences.sort();
        // From the last kind on, so that each finds what it changes as it was offered.
        for difference in reply.differences.clone().into_iter().rev() {
            reply.bring_in(random, difference).then_some(())?;
        }
        Some(reply)
    }

    /// The same reply with that transform in a proposal, which makes this difference if any.
    pub fn with_transform(&self, at: usize, transform: Transform, kind: Option<Kind>) -> Reply {
        let mut reply = self.clone();
        reply.proposals[at].transforms = vec![transform];
        reply.differences = kind.map(|kind| Difference { kind, at }).into_iter().collect();
        reply
    }

    /// The same reply with another offered transform in a proposal that has several.
    pub fn with_another_transform(&self, random: &mut Random, at: usize) -> Option<Reply> {
        let taken = self.proposals[at].transforms[0].number;
        let others: Vec<_> = self.offered[at].transforms.iter().filter(|offered| offered.number != taken).collect();
        let other = (!others.is_empty()).then(|| others[random.below(others.len())].clone())?;
        Some(self.with_transform(at, other, None))
    }

    /// The same reply to another offer, of the other exchange, as if it took that set of it.
    pub fn crossed(&self, offer: &Offer, number: u8) -> Reply {
        let offered = offer.proposals.iter().filter(|proposal| proposal.number == number).cloned().collect();
        let proposals = numbered(&self.proposals, number);
        let differences = vec![Difference { kind: Protocols, at: 0 }];
        Reply { exchange: self.exchange, proposals, offered, offer: offer.proposals.clone(), differences }
    }

    /// The same reply with a difference that is told before all others.
    pub fn with_first(&self, random: &mut Random, kind: Kind) -> Option<Reply> {
        let mut reply = self.clone();
        let difference = Difference { kind, at: 0 };
        reply.differences.insert(0, difference);
        reply.bring_in(random, difference).then_some(reply)
    }

    fn bring_in(&mut self, random: &mut Random, Difference { kind, at }: Difference) -> bool {
        if kind.is_of_proposal() && at >= self.proposals.len() {
            return false;
        }
        match kind {
            SeveralSets => self.exchange == QUICK_MODE && self.add_sets(random),
            SetNumber => {
                let number = unlike(random, &self.offer.iter().map(|proposal| proposal.number).collect::<Vec<_>>());
                self.proposals.iter_mut().for_each(|proposal| proposal.number = number);
                true
            }
            Protocols => self.exchange == QUICK_MODE && self.change_protocols(random),
            Order => {
                self.proposals.reverse();
                self.proposals.len() == 2
            }
            SeveralTransforms => self.add_transforms(random, at),
            TransformNumber => {
                let numbers: Vec<_> = self.offered[at].transforms.iter().map(|offered| offered.number).collect();
                self.proposals[at].transforms[0].number = unlike(random, &numbers);
                true
            }
            Id => {
                let id = self.proposals[at].transforms[0].id;
                self.proposals[at].transforms[0].id = unlike(random, &[id]);
                true
            }
            Attributes => {
                let offered = self.offered[at].transforms.clone();
                change_attributes(random, self.exchange, &offered, &mut self.proposals[at].transforms[0])
            }
        }
    }

    /// One set more at least, before or behind it: another one that is offered, or the same under another number. Or the
    /// proposals of the set get numbers of their own.
    fn add_sets(&mut self, random: &mut Random) -> bool {
        let is_number_wrong = self.differences.iter().any(|difference| difference.kind == SetNumber);
        let number = self.proposals[0].number;
        if self.proposals.len() == 2 && !is_number_wrong && random.once_in(4) {
            match number {
                255 => self.proposals[0].number -= 1,
                _ => self.proposals[1].number += 1,
            }
            return true;
        }
        let set = self.proposals.clone();
        let mut others: Vec<Vec<Proposal>> = Vec::new();
        for offered in sets(&self.offer).into_iter().filter(|offered| offered[0].number != number) {
            let mut one_each = offered.to_vec();
            one_each.iter_mut().for_each(|proposal| proposal.transforms.truncate(1));
            others.push(one_each);
        }
        let is_offered = |number: u8| self.offer.iter().any(|proposal| proposal.number == number);
        if others.is_empty() || is_number_wrong || random.once_in(2) {
            let free = (0..=255).filter(|&other| other != number && !is_offered(other)).collect::<Vec<_>>();
            others = (0..random.between(1, 7)).map(|_| numbered(&set, random.one_of(&free))).collect();
        }
        shuffle(random, &mut others);
        others.truncate(random.between(1, others.len()));
        others.push(set);
        others.sort_by_key(|set| set[0].number);
        others.dedup_by_key(|set| set[0].number);
        self.proposals = others.concat();
        self.proposals.len() <= MOST_PROPOSALS
    }

    /// Of two proposals one is left, where something else differs that one; of one the protocol becomes another, or
    /// another one goes with it.
    fn change_protocols(&mut self, random: &mut Random) -> bool {
        if self.proposals.len() == 2 {
            let differs = self.differences.iter().find(|difference| difference.kind.is_of_proposal());
            let kept = differs.map_or_else(|| random.below(2), |difference| difference.at);
            self.proposals.remove(1 - kept);
            return true;
        }
        let only = &mut self.proposals[0];
        let other = AH + ESP - only.protocol;
        if random.once_in(2) {
            only.protocol = other;
            return true;
        }
        let beside = Proposal { protocol: other, spi: lawful_spi(random, QUICK_MODE), ..only.clone() };
        self.proposals.insert(random.below(2), beside);
        true
    }

    /// Other transforms beside the one that is taken: those that are offered, or new ones.
    fn add_transforms(&mut self, random: &mut Random, at: usize) -> bool {
        let transforms = &mut self.proposals[at].transforms;
        let taken = transforms[0].number;
        let is_other = |other: &&Transform| other.number != taken;
        let mut others: Vec<_> = self.offered[at].transforms.iter().filter(is_other).cloned().collect();
        if others.is_empty() || random.once_in(3) {
            let numbers = rising(random, MOST_TRANSFORMS);
            let like = |number: u8| Transform { number, ..self.offered[at].transforms[0].clone() };
            others = numbers.into_iter().filter(|&number| number != taken).map(like).collect();
        }
        shuffle(random, &mut others);
        let most = others.len().min(MOST_TRANSFORMS - 1);
        others.truncate(random.between(1, most));
        transforms.extend(others);
        transforms.sort_by_key(|transform| transform.number);
        true
    }

    /// What is said of it beside what the book chooses, or without a book.
    pub fn said(&self, choice: Option<Option<&Chosen>>) -> Said {
        let chooses = match choice {
            None => String::new(),
            Some(None) => "; the book chooses nothing".to_string(),
            Some(Some(chosen)) => format!("; the book chooses {}", chosen.shown()),
        };
        let refused = |number: u16, what: String| Said::Refused(number, format!("reply: {what}{chooses}"));
        if let Some(first) = self.differences.first() {
            return refused(15, self.differs_by(first));
        }
        let set = self.proposals[0].number;
        match choice {
            None => Said::Lawful,
            Some(Some(chosen)) if chosen.set == set => {
                let numbers = self.numbers();
                let other = (0..numbers.len()).find(|&at| numbers[at] != chosen.transforms[at]);
                other.map_or(Said::Lawful, |at| refused(14, format!("takes {}", self.transform_at(at))))
            }
            Some(_) => refused(14, format!("takes set {set}")),
        }
    }

    fn differs_by(&self, &Difference { kind, at }: &Difference) -> String {
        let set = self.proposals[0].number;
        let transform = || &self.proposals[at].transforms[0];
        match kind {
            SeveralSets => format!("has {} sets", sets(&self.proposals).len()),
            SetNumber => format!("set {set} is not offered"),
            Protocols => format!("set {set} has {}, offered {}", together(&self.proposals), together(&self.offered)),
            Order => format!("set {set} has {}, offered {}", in_order(&self.proposals), in_order(&self.offered)),
            SeveralTransforms => {
                let of = if self.exchange == MAIN_MODE { "" } else { &format!(": {}", self.protocol_at(at)) };
                format!("set {set}{of} has {} transforms", self.proposals[at].transforms.len())
            }
            TransformNumber => format!("set {set}: {} is not offered", self.transform_at(at)),
            Id => {
                let number = transform().number;
                let offered = self.offered[at].transforms.iter().find(|offered| offered.number == number);
                let offered = offered.expect("only its ID differs").id;
                format!("set {set}: {} has ID {}, offered {offered}", self.transform_at(at), transform().id)
            }
            Attributes => format!("set {set}: {} has other attributes than offered", self.transform_at(at)),
        }
    }

    fn protocol_at(&self, at: usize) -> &'static str {
        protocol_name(self.proposals[at].protocol)
    }

    /// As it is named in words.
    fn transform_at(&self, at: usize) -> String {
        let named = format!("transform {}", self.proposals[at].transforms[0].number);
        match self.exchange {
            MAIN_MODE => named,
            _ => format!("{} {named}", self.protocol_at(at)),
        }
    }
}

/// One transform of each proposal, counted from 0.
pub fn random_places(random: &mut Random, set: &[Proposal]) -> Vec<usize> {
    set.iter().map(|proposal| random.below(proposal.transforms.len())).collect()
}

fn numbered(set: &[Proposal], number: u8) -> Vec<Proposal> {
    set.iter().map(|proposal| Proposal { number, ..proposal.clone() }).collect()
}

fn protocol_name(protocol: u8) -> &'static str {
    match protocol {
        AH => "AH",
        ESP => "ESP",
        _ => "ISAKMP",
    }
}

/// The words for a set's protocols.
pub fn together(set: &[Proposal]) -> &'static str {
    let protocols: Vec<u8> = set.iter().map(|proposal| proposal.protocol).collect();
    match protocols[..] {
        [ISAKMP] => "ISAKMP",
        [AH] => "AH alone",
        [ESP] => "ESP alone",
        _ => "AH with ESP",
    }
}

/// The words for the order of two.
pub fn in_order(set: &[Proposal]) -> String {
    set.iter().map(|proposal| protocol_name(proposal.protocol)).collect::<Vec<_>>().join(" before ")
}

/// A number that is none of these, often beside one of them or at an end.
fn unlike(random: &mut Random, numbers: &[u8]) -> u8 {
    loop {
        let near = random.one_of(numbers);
        let number = match random.below(6) {
            0 => near.wrapping_add(1),
            1 => near.wrapping_sub(1),
            2 => random.one_of(&[0, 255]),
            3 => near ^ 1 << random.below(8),
            _ => random.byte(),
        };
        if !numbers.contains(&number) {
            return number;
        }
    }
}

/// So many numbers that rise: from 1, from 0, up to 255, or from anywhere to anywhere.
pub fn rising(random: &mut Random, count: usize) -> Vec<u8> {
    let most = count as u8;
    match random.below(5) {
        0 => (1..=most).collect(),
        1 => (0..most).collect(),
        2 => (0..most).map(|place| 255 - (most - 1 - place)).collect(),
        _ => {
            let mut numbers: Vec<u8> = vec![random.one_of(&[0, 255])];
            while numbers.len() < count {
                numbers.push(unlike(random, &numbers));
            }
            numbers.sort();
            numbers
        }
    }
}

/// An offer of sets of these protocols, with up to so many transforms in each proposal and any numbers. Some transforms are
/// like the one before but for something small.
pub fn offer_of_shapes(random: &mut Random, shapes: &[&[u8]], most_transforms: usize) -> Offer {
    let set_numbers = rising(random, shapes.len());
    let mut proposals = Vec::new();
    for (shape, number) in shapes.iter().zip(set_numbers) {
        for &protocol in *shape {
            let exchange = if protocol == ISAKMP { MAIN_MODE } else { QUICK_MODE };
            let count = random.between(1, most_transforms);
            let mut transforms = random_transforms(random, exchange, count, 4);
            for at in 1..count {
                if random.once_in(2) {
                    let mut like = transforms[at - 1].clone();
                    change_attributes(random, exchange, &[], &mut like);
                    transforms[at] = like;
                }
            }
            let numbers = rising(random, count);
            transforms.iter_mut().zip(numbers).for_each(|(transform, number)| transform.number = number);
            let spi = lawful_spi(random, exchange);
            proposals.push(crate::offer::proposal_of(number, protocol, spi, transforms));
        }
    }
    Offer { doi: 1, situation: 1, proposals, rest: Vec::new() }
}

/// Gives a transform other attributes than it has, which can be read; whether there is a way. Those of another transform of
/// the proposal are tried too.
fn change_attributes(random: &mut Random, exchange: u8, offered: &[Transform], transform: &mut Transform) -> bool {
    for _ in 0..40 {
        let changed = changed_attributes(random, exchange, offered, &transform.attributes);
        if changed != transform.attributes {
            transform.attributes = changed;
            return true;
        }
    }
    false
}

fn changed_attributes(
    random: &mut Random,
    exchange: u8,
    offered: &[Transform],
    attributes: &[Attribute],
) -> Vec<Attribute> {
    let mut whole = items(exchange, attributes);
    let at = random.below(whole.len().max(1));
    match random.below(7) {
        0 if attributes.len() < MOST_ATTRIBUTES => {
            let place = random_border(random, exchange, attributes);
            let mut more = attributes.to_vec();
            more.insert(place, fixed(unused_kind(random, exchange, attributes), random.number(16) as u16));
            return more;
        }
        1 if !whole.is_empty() => drop(whole.remove(at)),
        2 => shuffle(random, &mut whole),
        3 if !whole.is_empty() => change_value(random, exchange, &mut whole, at),
        4 if !whole.is_empty() => send_otherwise(random, &mut whole[at]),
        5 if !whole.is_empty() => change_type(random, exchange, attributes, &mut whole[at]),
        6 if !offered.is_empty() => return offered[random.below(offered.len())].attributes.clone(),
        _ => (),
    }
    whole.concat()
}

/// One that no lifetime has and the transform has not, such as need not be sent fixed but may.
fn unused_kind(random: &mut Random, exchange: u8, attributes: &[Attribute]) -> u16 {
    loop {
        let kind = [random.between(0, 24) as u16, random.number(15) as u16][random.below(2)];
        let is_free = attributes.iter().all(|attribute| attribute.kind != kind);
        if is_free && kind != life_type(exchange) && kind != life_duration(exchange) {
            return kind;
        }
    }
}

/// A bit of a value; a life type keeps its own.
fn change_value(random: &mut Random, exchange: u8, whole: &mut [Item], at: usize) {
    let attribute = whole[at].last_mut().expect("an item has an attribute");
    if attribute.kind == life_type(exchange) {
        return;
    }
    match &mut attribute.value {
        Value::Fixed(value) => *value ^= 1 << random.below(16),
        Value::Variable(_, bytes) if !bytes.is_empty() => {
            let at = random.below(bytes.len());
            bytes[at] ^= 1 << random.below(8);
        }
        Value::Variable(..) => (),
    }
}

/// The same duration in another form.
fn send_otherwise(random: &mut Random, item: &mut Item) {
    if let [_, duration] = &mut item[..] {
        let number = match &duration.value {
            Value::Fixed(value) => u32::from(*value),
            Value::Variable(_, bytes) => bytes.iter().fold(0, |number, &byte| number << 8 | u32::from(byte)),
        };
        let mut forms = codings(duration.kind, number);
        *duration = forms.swap_remove(random.below(forms.len()));
    }
}

/// Another type with the same value, in its low byte or in its high one.
fn change_type(random: &mut Random, exchange: u8, attributes: &[Attribute], item: &mut Item) {
    if let [Attribute { kind, value: Value::Fixed(_) }] = &mut item[..] {
        let other = *kind ^ 1 << random.below(15);
        let is_free = attributes.iter().all(|attribute| attribute.kind != other);
        if is_free && other != life_type(exchange) && other != life_duration(exchange) {
            *kind = other;
        }
    }
}

#[cfg(test)]
mod tests {
    use super::*;
    use crate::cases::word;
    use crate::message::{message_of, SA};
    use crate::offer::SMALL;
    use second::bench::Bench;

    /// Offers of two sets, the first of which has two proposals, and of main mode.
    fn offers(random: &mut Random) -> Vec<Offer> {
        let shapes: [&[&[u8]]; 3] = [&[&[AH, ESP], &[ESP]], &[&[ESP, AH], &[AH]], &[&[ISAKMP]]];
        (0..60).map(|time| offer_of_shapes(random, shapes[time % 3], 4)).collect()
    }

    fn is_read(random: &mut Random, exchange: u8, offer: Offer) -> bool {
        let mut message = message_of(random, exchange, 0, &[SA], SMALL);
        *message.offer().expect("it has one") = offer;
        let line = format!("read {}", word(&message.encode()));
        Bench::default().answer(line.as_bytes()).is_some_and(|answer| answer.starts_with("read "))
    }

    #[test]
    fn numbers_rise_and_reach_both_ends() {
        let mut random = Random::new(1, "rising");
        let mut ends = [0, 0];
        for count in (1..=16).flat_map(|count| [count; 20]) {
            let numbers = rising(&mut random, count);
            assert_eq!(numbers.len(), count);
            assert!(numbers.is_sorted_by(|one, next| one < next));
            ends[0] += usize::from(numbers[0] == 0);
            ends[1] += usize::from(numbers[count - 1] == 255);
        }
        assert!(ends.iter().all(|&times| times > 50));
    }

    #[test]
    fn a_reply_with_any_two_differences_is_read_and_the_first_is_told() {
        let mut random = Random::new(1, "differences");
        let pairs = KINDS.iter().flat_map(|&one| KINDS.map(|other| (one, other)));
        let pairs: Vec<_> = pairs.filter(|(one, other)| one.goes_with(*other)).collect();
        let mut made = Vec::new();
        for offer in offers(&mut random) {
            let reply = Reply::random(&mut random, &offer);
            assert!(is_read(&mut random, reply.exchange, offer.clone()));
            assert!(is_read(&mut random, reply.exchange, reply.offer()));
            assert_eq!(reply.said(None), Said::Lawful);
            for &(one, other) in &pairs {
                let differences = [Difference { kind: one, at: 1 }, Difference { kind: other, at: 0 }];
                if let Some(unlike) = reply.with(&mut random, &differences) {
                    assert!(is_read(&mut random, unlike.exchange, unlike.offer()));
                    assert_eq!(unlike.told(), Some(one.min(other)));
                    made.push((one, other));
                }
            }
        }
        assert!(pairs.iter().all(|pair| made.contains(pair)));
    }

    #[test]
    fn what_is_told_has_the_values_of_offer_and_reply() {
        let hour = vec![fixed(4, 1), fixed(1, 1), fixed(2, 3_600)];
        let transforms = [1, 2].map(|number| crate::offer::transform(number, 129, hour.clone()));
        let proposal = |protocol| crate::offer::proposal_of(7, protocol, vec![1; 4], transforms.to_vec());
        let offer = Offer { doi: 1, situation: 1, proposals: vec![proposal(AH), proposal(ESP)], rest: Vec::new() };
        let mut random = Random::new(1, "told");
        let reply = Reply::of(&mut random, &offer, 0, &[0, 1]);
        assert_eq!(reply.numbers(), [1, 2]);
        let chosen = Chosen::of_answer("chosen 7 3 1 1").expect("it is an answer");
        let with = |reply: &Reply, words: &str| {
            let chooses = "; the book chooses set 7 line 3 transforms 1 1";
            let Said::Refused(number, said) = reply.said(Some(Some(&chosen))) else { panic!("it is refused") };
            assert_eq!(said, format!("reply: {words}{chooses}"));
            number
        };
        assert_eq!(with(&reply, "takes ESP transform 2"), 14);
        let mut swapped = reply.with(&mut random, &[Difference { kind: Order, at: 0 }]).expect("it has two");
        assert_eq!(with(&swapped, "set 7 has ESP before AH, offered AH before ESP"), 15);
        swapped.proposals.truncate(1);
        swapped.differences[0].kind = Protocols;
        assert_eq!(with(&swapped, "set 7 has ESP alone, offered AH with ESP"), 15);
        let mut other = reply.with(&mut random, &[Difference { kind: Id, at: 1 }]).expect("it has an ID");
        other.proposals[1].transforms[0].id = 5;
        assert_eq!(with(&other, "set 7: ESP transform 2 has ID 5, offered 129"), 15);
    }
}
