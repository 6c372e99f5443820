//! Policy: the book, what it chooses of a message, the reply, why nothing suits, and whether another's reply is lawful.

use crate::raw;
use crate::refusal::{always_done, done, refusal, small, Refusal};
use std::ops::Deref;

/// A policy book that reads.
#[derive(Clone, Copy, Debug, PartialEq, Eq)]
pub struct Book {
    /// How many main lines it has.
    pub main: u8,
    /// How many quick lines it has.
    pub quick: u8,
}

/// Reads a policy book. Refused with 8193.
pub fn book(book: &[u8]) -> Result<Book, Refusal> {
    let mut out = [0; 2];
    done(unsafe { raw::tallowbrim_book(book.as_ptr(), book.len(), &mut out) })?;
    let [main, quick] = out;
    Ok(Book { main: small(main), quick: small(quick) })
}

/// What each proposal of a set has, in the set's order: a slice of one or two.
#[derive(Clone, Copy, Debug, PartialEq, Eq)]
pub enum OfSet<T> {
    /// Of the only proposal.
    Alone([T; 1]),
    /// Of AH and ESP together, whichever comes first.
    Both([T; 2]),
}

/// The numbers of the transforms that are taken of a set.
pub type Transforms = OfSet<u8>;

impl<T> Deref for OfSet<T> {
    type Target = [T];

    fn deref(&self) -> &[T] {
        match self {
            OfSet::Alone(one) => one,
            OfSet::Both(both) => both,
        }
    }
}

impl<T: TryFrom<u64>> OfSet<T> {
    /// From the words of an answer: how many, the first, the second.
    pub(crate) fn new(count: u64, first: u64, second: u64) -> OfSet<T> {
        match count {
            1 => OfSet::Alone([small(first)]),
            2 => OfSet::Both([small(first), small(second)]),
            _ => unreachable!("the core answered {count} proposals"),
        }
    }
}

/// What a book chooses of a message.
#[derive(Clone, Copy, Debug, PartialEq, Eq)]
pub struct Choice {
    /// The set, by its proposal number.
    pub set: u8,
    /// The line that it suits, counted from 1.
    pub line: u8,
    /// The transforms that are taken.
    pub transforms: Transforms,
}

/// What a book chooses of a message. Refused with 8193, as [`message`](crate::message) is, and with 14.
pub fn choose(book: &[u8], message: &[u8]) -> Result<Choice, Refusal> {
    let mut out = [0; 5];
    done(unsafe { raw::tallowbrim_choose(book.as_ptr(), book.len(), message.as_ptr(), message.len(), &mut out) })?;
    let [set, line, count, first, second] = out;
    Ok(Choice { set: small(set), line: small(line), transforms: OfSet::new(count, first, second) })
}

/// Chooses, and writes the reply, an SA payload with the own SPIs of AH and ESP, to the start of a buffer of at least
/// [`BUFFER`](crate::BUFFER) bytes. Gives the reply; no other byte of the buffer changes. Refused with 8192, as [`choose`] is,
/// and with 11.
pub fn reply<'a>(book: &[u8], message: &[u8], ah: u32, esp: u32, buffer: &'a mut [u8]) -> Result<&'a [u8], Refusal> {
    let mut out = [0; 1];
    done(unsafe {
        raw::tallowbrim_reply(
            book.as_ptr(),
            book.len(),
            message.as_ptr(),
            message.len(),
            ah,
            esp,
            buffer.as_mut_ptr(),
            buffer.len(),
            &mut out,
        )
    })?;
    Ok(&buffer[..small(out[0])])
}

/// Places that a cause is asked at, each counted from 0.
#[derive(Clone, Copy, Debug, Default, PartialEq, Eq)]
pub struct Places {
    /// Of a set in the offer.
    pub set: u8,
    /// Of a line among those of the message's exchange.
    pub line: u8,
    /// Of a proposal in the set.
    pub proposal: u8,
    /// Of a transform in the proposal.
    pub transform: u8,
}

/// What is said of a set and a line.
#[derive(Clone, Copy, Debug, PartialEq, Eq)]
pub enum Why {
    /// The set's protocols are not the line's; nothing else is looked at.
    Protocols,
    /// What is said of the transform. The set suits the line where each of its proposals has a transform that suits.
    Transform(Cause),
}

/// The first thing that is wrong with a transform for a line.
#[derive(Clone, Copy, Debug, PartialEq, Eq)]
pub enum Cause {
    /// Nothing is.
    Suits,
    /// It has another transform ID.
    #[allow(missing_docs)]
    Id { found: u8, wanted: u8 },
    /// It lacks an attribute of this type.
    Missing(u16),
    /// An attribute has another value.
    #[allow(missing_docs)]
    Value { kind: u16, found: u32, wanted: u32 },
    /// An attribute is not wanted.
    #[allow(missing_docs)]
    Surplus { kind: u16, found: u32 },
    /// Its lifetime in seconds is 0 or too long.
    #[allow(missing_docs)]
    Seconds { found: u32, longest: u32 },
    /// Its lifetime is no kilobyte.
    Kilobytes,
}

/// Why a transform does not suit a line, `None` where there is no such place. Refused as [`choose`] is, but never with 14.
pub fn cause(book: &[u8], message: &[u8], at: Places) -> Result<Option<Why>, Refusal> {
    let mut out = [0; 5];
    done(unsafe {
        raw::tallowbrim_cause(
            book.as_ptr(),
            book.len(),
            message.as_ptr(),
            message.len(),
            at.set,
            at.line,
            at.proposal,
            at.transform,
            &mut out,
        )
    })?;
    let [said, told @ ..] = out;
    Ok(match said {
        1 => None,
        2 => Some(Why::Protocols),
        3 => Some(Why::Transform(Cause::new(told))),
        _ => unreachable!("the core answered {out:?}"),
    })
}

impl Cause {
    /// From the words of an answer: which cause, and its values.
    fn new(told: [u64; 4]) -> Cause {
        match told {
            [1, ..] => Cause::Suits,
            [2, found, wanted, _] => Cause::Id { found: small(found), wanted: small(wanted) },
            [3, kind, ..] => Cause::Missing(small(kind)),
            [4, kind, found, wanted] => Cause::Value { kind: small(kind), found: small(found), wanted: small(wanted) },
            [5, kind, found, _] => Cause::Surplus { kind: small(kind), found: small(found) },
            [6, found, longest, _] => Cause::Seconds { found: small(found), longest: small(longest) },
            [7, ..] => Cause::Kilobytes,
            _ => unreachable!("the core answered {told:?}"),
        }
    }
}

/// What stands at places of an offer.
#[derive(Clone, Copy, Debug, PartialEq, Eq)]
pub struct Place {
    /// The set's number.
    pub set: u8,
    /// The proposal's protocol.
    pub protocol: u8,
    /// The transform's number.
    pub transform: u8,
}

/// What stands at places of the offer, counted as in [`Places`]; `None` where there is no such place. Refused as
/// [`message`](crate::message) is.
pub fn place(message: &[u8], set: u8, proposal: u8, transform: u8) -> Result<Option<Place>, Refusal> {
    let mut out = [0; 4];
    done(unsafe { raw::tallowbrim_place(message.as_ptr(), message.len(), set, proposal, transform, &mut out) })?;
    Ok(match out {
        [1, ..] => None,
        [2, set, protocol, transform] => {
            Some(Place { set: small(set), protocol: small(protocol), transform: small(transform) })
        }
        _ => unreachable!("the core answered {out:?}"),
    })
}

/// Whether a gateway's reply is lawful beside the offer that it answers: it repeats one offered set, with one offered transform in each
/// proposal, unaltered and in the offer's order; with a book, it is also what that chooses of the offer. Refused as
/// [`message`](crate::message) is of the offer, and with 16 where it has no SA payload; with 8193; the same of the reply; with 15 and
/// with 14. [`difference`] tells what it is.
pub fn lawful(offer: &[u8], reply: &[u8], book: Option<&[u8]>) -> Result<(), Refusal> {
    let lent = book.unwrap_or_default();
    done(unsafe {
        raw::tallowbrim_lawful(
            offer.as_ptr(),
            offer.len(),
            reply.as_ptr(),
            reply.len(),
            book.is_some(),
            lent.as_ptr(),
            lent.len(),
        )
    })
}

/// What differs first between a reply and the offer that it answers, or what a book chooses of that. Sets and transforms are told by their
/// numbers; a protocol is that of the proposal.
#[derive(Clone, Copy, Debug, PartialEq, Eq)]
pub enum Difference {
    /// Nothing does: the reply is lawful.
    Nothing,
    /// The offer cannot be read.
    OfferRefused(Refusal),
    /// The book cannot be read.
    BookRefused(Refusal),
    /// The reply cannot be read.
    ReplyRefused(Refusal),
    /// The reply has so many sets.
    SeveralSets(u8),
    /// The number of its set is not offered.
    SetNotOffered(u8),
    /// Its set has other protocols than the offered one.
    Protocols,
    /// Its set has them in another order.
    Order,
    /// A proposal has so many transforms.
    #[allow(missing_docs)]
    SeveralTransforms { protocol: u8, count: u8 },
    /// The number of a transform is not offered.
    #[allow(missing_docs)]
    TransformNotOffered { protocol: u8, number: u8 },
    /// A transform has another ID.
    #[allow(missing_docs)]
    Id { protocol: u8, number: u8, found: u8, offered: u8 },
    /// A transform has other attributes.
    #[allow(missing_docs)]
    Attributes { protocol: u8, number: u8 },
    /// The book chooses another set.
    #[allow(missing_docs)]
    OtherSet { found: u8, chosen: u8 },
    /// The book chooses another transform.
    #[allow(missing_docs)]
    OtherTransform { protocol: u8, found: u8, chosen: u8 },
    /// The book chooses nothing.
    NothingChosen,
}

/// What differs first of a reply; it is lawful where nothing does.
pub fn difference(offer: &[u8], reply: &[u8], book: Option<&[u8]>) -> Difference {
    let lent = book.unwrap_or_default();
    let mut out = [0; 5];
    always_done(unsafe {
        raw::tallowbrim_difference(
            offer.as_ptr(),
            offer.len(),
            reply.as_ptr(),
            reply.len(),
            book.is_some(),
            lent.as_ptr(),
            lent.len(),
            &mut out,
        )
    });
    Difference::new(out)
}

impl Difference {
    /// From the words of an answer: which difference, and its values.
    fn new(out: [u64; 5]) -> Difference {
        match out {
            [1, ..] => Difference::Nothing,
            [2, number, ..] => Difference::OfferRefused(refusal(number)),
            [3, number, ..] => Difference::BookRefused(refusal(number)),
            [4, number, ..] => Difference::ReplyRefused(refusal(number)),
            [5, count, ..] => Difference::SeveralSets(small(count)),
            [6, number, ..] => Difference::SetNotOffered(small(number)),
            [7, ..] => Difference::Protocols,
            [8, ..] => Difference::Order,
            [9, protocol, count, ..] => {
                Difference::SeveralTransforms { protocol: small(protocol), count: small(count) }
            }
            [10, protocol, number, ..] => {
                Difference::TransformNotOffered { protocol: small(protocol), number: small(number) }
            }
            [11, protocol, number, found, offered] => Difference::Id {
                protocol: small(protocol),
                number: small(number),
                found: small(found),
                offered: small(offered),
            },
            [12, protocol, number, ..] => Difference::Attributes { protocol: small(protocol), number: small(number) },
            [13, found, chosen, ..] => Difference::OtherSet { found: small(found), chosen: small(chosen) },
            [14, protocol, found, chosen, _] => {
                Difference::OtherTransform { protocol: small(protocol), found: small(found), chosen: small(chosen) }
            }
            [15, ..] => Difference::NothingChosen,
            _ => unreachable!("the core answered {out:?}"),
        }
    }
}
