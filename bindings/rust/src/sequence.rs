//! Sequence numbers: what arrived of one life of an SA, by either of two engines, and a table of 64 lives.

use crate::raw;
use crate::refusal::{always_done, done, small, Refusal};
use std::net::Ipv4Addr;

/// How many packets of a life arrived.
#[derive(Clone, Copy, Debug, PartialEq, Eq)]
pub struct LossLine {
    /// The highest accepted number.
    pub highest: u32,
    /// How many of the last numbers are looked at.
    pub span: u32,
    /// How many of those were accepted.
    pub count: u32,
}

impl LossLine {
    fn new([highest, span, count]: [u64; 3]) -> LossLine {
        LossLine { highest: small(highest), span: small(span), count: small(count) }
    }
}

/// What arrived of one life of an SA.
#[derive(Clone, Debug, Default, PartialEq, Eq)]
pub struct Receive([u64; raw::RECEIVE]);

impl Receive {
    /// A life that begins.
    pub fn new() -> Receive {
        Receive::default()
    }

    /// A packet's number arrives; the caller says whether its integrity holds. Gives by how much the highest accepted number
    /// rose, 0 where it did not. Refused with 8197, 8194 and 24.
    pub fn step(&mut self, number: u32, integrity: bool) -> Result<u64, Refusal> {
        let mut out = [0; 1];
        done(unsafe { raw::tallowbrim_step(&mut self.0, number, integrity, &mut out) })?;
        Ok(out[0])
    }

    /// The loss line of the life.
    pub fn loss(&self) -> LossLine {
        let mut out = [0; 3];
        always_done(unsafe { raw::tallowbrim_loss_line(&self.0, &mut out) });
        LossLine::new(out)
    }
}

/// The plain window, which keeps the accepted numbers of one life of an SA as a plain list, of up to 4,096: the engine to read and
/// to compare with, not the fast one, since each step looks through the whole list. Until it refuses a packet with 8202 it gives
/// what a [`Receive`] gives of the same packets; from then on the two part, since the list lacks a number that the other has.
// Boxed, since each move would copy 32 KiB.
#[derive(Clone, Debug, PartialEq, Eq)]
pub struct PlainList(Box<[u64; raw::PLAIN_LIST]>);

impl Default for PlainList {
    fn default() -> PlainList {
        PlainList(Box::new([0; raw::PLAIN_LIST]))
    }
}

impl PlainList {
    /// A life that begins.
    pub fn new() -> PlainList {
        PlainList::default()
    }

    /// As [`Receive::step`]; and refused with 8202 where it would be accepted but the list is full.
    pub fn step(&mut self, number: u32, integrity: bool) -> Result<u64, Refusal> {
        let mut out = [0; 1];
        done(unsafe { raw::tallowbrim_plain_step(&mut self.0, number, integrity, &mut out) })?;
        Ok(out[0])
    }

    /// The loss line of the life.
    pub fn loss(&self) -> LossLine {
        let mut out = [0; 3];
        always_done(unsafe { raw::tallowbrim_plain_loss_line(&self.0, &mut out) });
        LossLine::new(out)
    }
}

/// What an SA entry is known by.
#[derive(Clone, Copy, Debug, PartialEq, Eq, Hash)]
pub struct Key {
    /// The packets' IPv4 destination.
    pub destination: Ipv4Addr,
    /// [`AH`](crate::AH) or [`ESP`](crate::ESP).
    pub protocol: u8,
    /// The SPI.
    pub spi: u32,
}

/// 64 SA entries.
#[derive(Clone, Debug, PartialEq, Eq)]
pub struct Table(pub(crate) [u64; raw::TABLE]);

impl Default for Table {
    fn default() -> Table {
        Table([0; raw::TABLE])
    }
}

impl Table {
    /// The empty table.
    pub fn new() -> Table {
        Table::default()
    }

    /// A life begins. Refused with 10, 11, 8200 and 8199.
    pub fn add(&mut self, key: Key) -> Result<(), Refusal> {
        done(unsafe { raw::tallowbrim_add(&mut self.0, key.destination.into(), key.protocol, key.spi) })
    }

    /// A life ends. Refused with 11.
    pub fn remove(&mut self, key: Key) -> Result<(), Refusal> {
        done(unsafe { raw::tallowbrim_remove(&mut self.0, key.destination.into(), key.protocol, key.spi) })
    }

    /// An AH or ESP packet arrives; the caller says whether its integrity holds. Gives what [`Receive::step`] does, of the
    /// packet's life. Refused with 10, 16, 11, 8197, 8194 and 24.
    pub fn packet(
        &mut self,
        destination: Ipv4Addr,
        protocol: u8,
        integrity: bool,
        packet: &[u8],
    ) -> Result<u64, Refusal> {
        let mut out = [0; 1];
        done(unsafe {
            raw::tallowbrim_packet(
                &mut self.0,
                destination.into(),
                protocol,
                integrity,
                packet.as_ptr(),
                packet.len(),
                &mut out,
            )
        })?;
        Ok(out[0])
    }

    /// The next number for a packet that is sent. Refused with 11 and 8198.
    pub fn send(&mut self, key: Key) -> Result<u32, Refusal> {
        let mut out = [0; 1];
        done(unsafe { raw::tallowbrim_send(&mut self.0, key.destination.into(), key.protocol, key.spi, &mut out) })?;
        Ok(small(out[0]))
    }

    /// The loss line of a life. Refused with 11.
    pub fn loss(&self, key: Key) -> Result<LossLine, Refusal> {
        let mut out = [0; 3];
        done(unsafe { raw::tallowbrim_loss(&self.0, key.destination.into(), key.protocol, key.spi, &mut out) })?;
        Ok(LossLine::new(out))
    }
}

#[cfg(test)]
mod tests {
    use super::*;
    use std::collections::BTreeSet;

    fn numbered(answer: Result<u64, Refusal>) -> Result<u64, u32> {
        answer.map_err(Refusal::number)
    }

    /// Numbers drawn around one that moves on and at times jumps far ahead: zero, new, late, repeated, behind the window, and some
    /// without integrity.
    fn packets() -> impl Iterator<Item = (u32, bool)> {
        let mut drawn: u32 = 1;
        (0..4_000).map(move |place: u32| {
            drawn = drawn.wrapping_mul(1_664_525).wrapping_add(1_013_904_223);
            let middle = place + place / 1_000 * 1_000_000;
            ((middle + (drawn >> 16) % 160).saturating_sub(80), drawn >> 28 != 0)
        })
    }

    #[test]
    fn the_plain_list_answers_as_the_record_does() {
        let (mut record, mut list) = (Receive::new(), PlainList::new());
        let mut kinds = BTreeSet::new();
        for (number, integrity) in packets() {
            let answer = list.step(number, integrity);
            assert_eq!(answer, record.step(number, integrity), "{number}");
            assert_eq!(list.loss(), record.loss(), "{number}");
            kinds.insert(numbered(answer).map(|rise| rise > 0));
        }
        assert_eq!(kinds, [Ok(false), Ok(true), Err(24), Err(8_194), Err(8_197)].into());
    }

    #[test]
    fn a_full_plain_list_refuses_what_all_else_would_accept() {
        let (mut record, mut list) = (Receive::new(), PlainList::new());
        for number in 1..=4_096 {
            assert_eq!([record.step(number, true), list.step(number, true)], [Ok(1), Ok(1)]);
        }
        let full = list.clone();
        for (number, integrity, refusal) in
            [(0, true, 8_197), (4_032, true, 8_197), (4_033, true, 8_194), (4_097, false, 24), (4_097, true, 8_202)]
        {
            assert_eq!(numbered(list.step(number, integrity)), Err(refusal), "{number}");
        }
        assert_eq!(list, full);
        // The record accepts it, and from then on the two part.
        assert_eq!(record.step(4_097, true), Ok(1));
        assert_eq!([record.step(4_033, true), list.step(4_033, true)].map(numbered), [Err(8_197), Err(8_194)]);
    }

    #[test]
    fn a_plain_list_that_no_step_left_gets_an_answer() {
        let list_of = |front: &[u64]| {
            let mut list = PlainList::new();
            list.0[..front.len()].copy_from_slice(front);
            list
        };
        // A number that stands twice counts once; what stands behind the count is not looked at.
        let mut list = list_of(&[3, 5, 3, 5, 8]);
        assert_eq!(list.loss(), LossLine { highest: 5, span: 5, count: 2 });
        assert_eq!(list.step(9, true), Ok(4));
        assert_eq!(list, list_of(&[4, 5, 3, 5, 9]));
        // A count above 4,096 is read as 4,096, and the last number is looked at.
        for count in [4_097, u64::MAX] {
            let mut list = list_of(&[7; raw::PLAIN_LIST]);
            list.0[0] = count;
            list.0[4_096] = 9;
            let full = list.clone();
            assert_eq!(list.loss(), LossLine { highest: 9, span: 9, count: 2 });
            assert_eq!([7, 9, 8].map(|number| numbered(list.step(number, true))), [8_194, 8_194, 8_202].map(Err));
            assert_eq!(list, full);
        }
    }
}
