//! Document 01, "Policy book and choice", and request two: the book, and which set, line and transforms are chosen.
//!
//! Book: count, main lines of seconds (4); count, quick lines of protocols, mode, seconds (4).

use crate::message::{self, Reading, MAIN_MODE};
use crate::offer::{self, Proposal, Transform, Whole, AH, ESP, ISAKMP};
use crate::refusal::{self, refuse_if, Refusal};
use crate::wire::u32_at;
use std::ops::RangeInclusive;

const MOST_LINES: u8 = 8;
const MAIN_LINE_SIZE: usize = 4;
const QUICK_LINE_SIZE: usize = 6;
const MAIN_SECONDS: RangeInclusive<u32> = 1..=86_400;
const QUICK_SECONDS: RangeInclusive<u32> = 1..=3_600;
const MODES: RangeInclusive<u8> = 1..=4;

/// The values of a life type that mean something.
pub const SECONDS: u64 = 1;
pub const KILOBYTES: u64 = 2;

pub struct Book {
    pub main: Vec<Line>,
    pub quick: Vec<Line>,
}

impl Book {
    pub fn lines(&self, exchange: u8) -> &[Line] {
        if exchange == MAIN_MODE {
            &self.main
        } else {
            &self.quick
        }
    }
}

pub enum Line {
    Main { seconds: u32 },
    EspAlone { mode: u32, seconds: u32 },
    AhWithEsp { mode: u32, seconds: u32 },
}

/// The set's proposal number, the line counted from 1, what is taken of each proposal in the offer's order.
pub struct Choice<'a> {
    pub set: u8,
    pub line: usize,
    pub taken: Vec<Taken<'a>>,
}

/// A proposal of the chosen set: its protocol, the offered SPI, its lowest suiting transform.
pub struct Taken<'a> {
    pub protocol: u8,
    pub spi: &'a [u8],
    pub transform: Transform<'a>,
}

/// A book by itself, with no bytes left over.
pub fn book(bytes: &[u8]) -> Result<Book, Refusal> {
    let (book, rest) = book_in_front(bytes)?;
    refuse_if(!rest.is_empty(), refusal::BOOK)?;
    Ok(book)
}

/// A book and the bytes behind it.
pub fn book_in_front(bytes: &[u8]) -> Result<(Book, &[u8]), Refusal> {
    let (main, rest) = lines(bytes, MAIN_LINE_SIZE, main_line)?;
    let (quick, rest) = lines(rest, QUICK_LINE_SIZE, quick_line)?;
    Ok((Book { main, quick }, rest))
}

/// A count, so many lines of that size, and the bytes behind them.
fn lines(bytes: &[u8], size: usize, line: fn(&[u8]) -> Option<Line>) -> Result<(Vec<Line>, &[u8]), Refusal> {
    let (&count, rest) = bytes.split_first().ok_or(refusal::BOOK)?;
    let all = usize::from(count) * size;
    refuse_if(count > MOST_LINES || rest.len() < all, refusal::BOOK)?;
    let (lines, rest) = rest.split_at(all);
    let lines: Option<_> = lines.chunks(size).map(line).collect();
    Ok((lines.ok_or(refusal::BOOK)?, rest))
}

fn main_line(bytes: &[u8]) -> Option<Line> {
    let seconds = u32_at(bytes, 0);
    MAIN_SECONDS.contains(&seconds).then_some(Line::Main { seconds })
}

fn quick_line(bytes: &[u8]) -> Option<Line> {
    let (mode, seconds) = (u32::from(bytes[1]), u32_at(bytes, 2));
    let lawful = MODES.contains(&bytes[1]) && QUICK_SECONDS.contains(&seconds);
    match bytes[0] {
        1 if lawful => Some(Line::EspAlone { mode, seconds }),
        2 if lawful => Some(Line::AhWithEsp { mode, seconds }),
        _ => None,
    }
}

/// "Checks: book, message, no SA payload (16), then 14."
pub fn choose<'a>(book_bytes: &[u8], message: &'a [u8]) -> Result<Choice<'a>, Refusal> {
    let book = book(book_bytes)?;
    let reading = message::read(message)?;
    choose_from(&book, message, &reading)
}

/// A message that was read has one SA payload at most.
pub fn choose_from<'a>(book: &Book, message: &'a [u8], reading: &Reading) -> Result<Choice<'a>, Refusal> {
    let body = reading.sa_body(message).ok_or(refusal::MALFORMED)?;
    let proposals: Vec<_> = offer::proposals(body).collect();
    for set in offer::sets(&proposals) {
        for (line, place) in book.lines(reading.exchange).iter().zip(1..) {
            if let Some(taken) = suiting(set, line) {
                return Ok(Choice { set: set[0].number, line: place, taken });
            }
        }
    }
    Err(refusal::NOTHING_SUITS)
}

/// The lowest suiting transform of every proposal, if the set suits the line.
fn suiting<'a>(set: &[Proposal<'a>], line: &Line) -> Option<Vec<Taken<'a>>> {
    if !line.has_protocols_of(set) {
        return None;
    }
    let lowest = |proposal: &Proposal<'a>| {
        let &Proposal { protocol, spi, .. } = proposal;
        let transform = proposal.transforms().find(|transform| line.wants(protocol).suits(transform))?;
        Some(Taken { protocol, spi, transform })
    };
    set.iter().map(lowest).collect()
}

/// What a line wants of a transform.
pub struct Wanted {
    pub id: u8,
    /// Types and values in document 01's order; the life type's value 1 stands for a lifetime in seconds.
    pub attributes: Vec<(u16, u64)>,
    pub most_seconds: u64,
}

impl Line {
    pub fn protocols(&self) -> &'static [u8] {
        match self {
            Line::Main { .. } => &[ISAKMP],
            Line::EspAlone { .. } => &[ESP],
            Line::AhWithEsp { .. } => &[AH, ESP],
        }
    }

    /// Whether a set's protocols are exactly the line's; a protocol stands in a set once.
    pub fn has_protocols_of(&self, set: &[Proposal]) -> bool {
        let protocols = self.protocols();
        set.len() == protocols.len() && set.iter().all(|proposal| protocols.contains(&proposal.protocol))
    }

    pub fn seconds(&self) -> u32 {
        match *self {
            Line::Main { seconds } | Line::EspAlone { seconds, .. } | Line::AhWithEsp { seconds, .. } => seconds,
        }
    }

    /// What a transform of that protocol, which is one of the line's, must have.
    pub fn wants(&self, protocol: u8) -> Wanted {
        let (id, attributes) = match (self, protocol) {
            (Line::Main { .. }, _) => (1, vec![(1, 129), (2, 20), (3, 10), (20, 2), (11, SECONDS)]),
            (&Line::AhWithEsp { mode, .. }, AH) => (20, vec![(4, mode.into()), (1, SECONDS), (5, 20)]),
            (&Line::AhWithEsp { mode, .. }, _) => (129, vec![(4, mode.into()), (1, SECONDS)]),
            (&Line::EspAlone { mode, .. }, _) => (129, vec![(4, mode.into()), (1, SECONDS), (5, 20)]),
        };
        Wanted { id, attributes, most_seconds: self.seconds().into() }
    }
}

impl Wanted {
    /// All that is wanted and nothing else, and "seconds within the line and, if present, kilobytes of at least 1".
    fn suits(&self, transform: &Transform) -> bool {
        let wholes = transform.wholes();
        let is_there =
            |&(kind, value): &(u16, u64)| wholes.iter().any(|whole| (whole.kind, whole.value) == (kind, value));
        let is_wanted = |whole: &Whole| match (whole.duration, whole.value) {
            (None, value) => self.attributes.contains(&(whole.kind, value)),
            (Some(duration), SECONDS) => (1..=self.most_seconds).contains(&duration),
            (Some(duration), KILOBYTES) => duration >= 1,
            (Some(_), _) => false,
        };
        transform.id == self.id && self.attributes.iter().all(is_there) && wholes.iter().all(is_wanted)
    }
}

#[cfg(test)]
mod tests {
    use super::*;
    use crate::message::QUICK_MODE;
    use crate::offer::tests::{body, Sent, Sent::*};

    /// Whether these lifetimes, at any place among what a line of 3,600 seconds wants besides, suit it; the same for each
    /// protocol of each sort of line.
    fn suit(lifetimes: &[Sent]) -> bool {
        let (seconds, mode) = (3_600, 1);
        let lines = [
            (Line::Main { seconds }, ISAKMP, 1, &[(1, 129), (2, 20), (3, 10), (20, 2)][..]),
            (Line::EspAlone { mode, seconds }, ESP, 129, &[(4, 1), (5, 20)]),
            (Line::AhWithEsp { mode, seconds }, AH, 20, &[(4, 1), (5, 20)]),
            (Line::AhWithEsp { mode, seconds }, ESP, 129, &[(4, 1)]),
        ];
        let mut answers = Vec::new();
        for (line, protocol, id, others) in lines {
            for place in 0..=others.len() {
                let mut attributes: Vec<Sent> = others.iter().map(|&(kind, value)| Other(kind, value)).collect();
                attributes.splice(place..place, lifetimes.iter().copied());
                let body = body(protocol, id, &attributes);
                let exchange = if protocol == ISAKMP { MAIN_MODE } else { QUICK_MODE };
                assert_eq!(offer::check(exchange, &body), Ok(()));
                let set: Vec<_> = offer::proposals(&body).collect();
                answers.push(set[0].transforms().all(|transform| line.wants(protocol).suits(&transform)));
            }
        }
        answers.dedup();
        assert_eq!(answers.len(), 1);
        answers[0]
    }

    #[test]
    fn seconds_are_the_duration_behind_life_type_1() {
        assert!(suit(&[LifeType(1), Duration(1)]));
        assert!(suit(&[LifeType(1), VariableDuration(&[0, 0, 0x0e, 0x10])]));
        assert!(!suit(&[LifeType(1), Duration(0)]));
        assert!(!suit(&[LifeType(1), Duration(3_601)]));
        assert!(!suit(&[LifeType(1), VariableDuration(&[1, 0, 0, 1])]));
        assert!(!suit(&[]));
    }

    #[test]
    fn kilobytes_beside_seconds_are_at_least_1() {
        assert!(!suit(&[LifeType(1), Duration(3_600), LifeType(2), Duration(0)]));
        assert!(!suit(&[LifeType(1), Duration(3_600), LifeType(2), VariableDuration(&[0; 4])]));
        assert!(suit(&[LifeType(1), Duration(3_600), LifeType(2), Duration(1)]));
        assert!(suit(&[LifeType(1), Duration(3_600), LifeType(2), VariableDuration(&[0xff; 4])]));
        assert!(suit(&[LifeType(2), VariableDuration(&[1]), LifeType(1), Duration(1)]));
        assert!(!suit(&[LifeType(2), Duration(1), LifeType(1), Duration(3_601)]));
    }

    #[test]
    fn kilobytes_without_seconds_do_not_suit() {
        assert!(!suit(&[LifeType(2), Duration(1)]));
    }

    #[test]
    fn a_lifetime_of_any_other_type_is_surplus() {
        for value in [0, 3, 257, 258, u16::MAX] {
            assert!(!suit(&[LifeType(1), Duration(1), LifeType(value), Duration(1)]));
            assert!(!suit(&[LifeType(value), Duration(1), LifeType(2), Duration(1), LifeType(1), Duration(1)]));
            assert!(!suit(&[LifeType(value), Duration(1)]));
        }
    }
}
