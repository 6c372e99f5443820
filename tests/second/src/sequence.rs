//! Document 01, "Sequence numbers", and request four: the table of lives, the packets, and one receive record by itself.
//! A record is the plain set of the numbers that were accepted in its life.
//!
//! AH: next header, length, reserved (2 bytes), SPI (4), number (4), and more. ESP: SPI (4), number (4), and more.

use crate::refusal::{self, refuse_if, Refusal};
use crate::wire::{u16_at, u32_at};
use std::collections::{BTreeMap, BTreeSet};

const MOST_ENTRIES: usize = 64;
const LOWEST_SPI: u32 = 256;
pub const SPAN: u32 = 64;
pub const AH: u8 = 2;
pub const ESP: u8 = 3;
const AH_LEAST: usize = 12;
const ESP_LEAST: usize = 8;

#[derive(Clone, Copy, PartialEq, Eq, PartialOrd, Ord)]
pub struct Key {
    pub destination: u32,
    pub protocol: u8,
    pub spi: u32,
}

/// H, the span below it that counts, and how many of those numbers were accepted.
pub struct Loss {
    pub highest: u32,
    pub span: u32,
    pub count: usize,
}

/// What keeps the accepted numbers of one life.
pub trait OneLife: Default {
    /// The rise of an accepted number: the highest after it less the highest before it.
    fn step(&mut self, number: u32, integrity: bool) -> Result<u64, Refusal>;

    fn loss(&self) -> Loss;
}

#[derive(Default)]
pub struct Receive {
    accepted: BTreeSet<u32>,
}

impl Receive {
    fn highest(&self) -> u32 {
        self.accepted.last().copied().unwrap_or(0)
    }
}

impl OneLife for Receive {
    fn step(&mut self, number: u32, integrity: bool) -> Result<u64, Refusal> {
        let before = self.highest();
        let behind = u64::from(number) + u64::from(SPAN) <= u64::from(before);
        refuse_if(number == 0 || behind, refusal::ZERO_OR_BEHIND)?;
        refuse_if(self.accepted.contains(&number), refusal::ACCEPTED_BEFORE)?;
        refuse_if(!integrity, refusal::INTEGRITY)?;
        self.accepted.insert(number);
        Ok(u64::from(self.highest() - before))
    }

    fn loss(&self) -> Loss {
        let highest = self.highest();
        let span = highest.min(SPAN);
        Loss { highest, span, count: self.accepted.iter().filter(|&&number| number > highest - span).count() }
    }
}

/// From adding to removing.
#[derive(Default)]
struct Life {
    received: Receive,
    sent: u32,
}

#[derive(Default)]
pub struct Table {
    lives: BTreeMap<Key, Life>,
}

impl Table {
    pub fn add(&mut self, key: Key) -> Result<(), Refusal> {
        refuse_if(!matches!(key.protocol, AH | ESP), refusal::PROTOCOL)?;
        refuse_if(key.spi < LOWEST_SPI, refusal::SPI)?;
        refuse_if(self.lives.contains_key(&key), refusal::ENTRY_PRESENT)?;
        refuse_if(self.lives.len() == MOST_ENTRIES, refusal::TABLE_FULL)?;
        self.lives.insert(key, Life::default());
        Ok(())
    }

    pub fn remove(&mut self, key: Key) -> Result<(), Refusal> {
        self.lives.remove(&key).map(|_| ()).ok_or(refusal::SPI)
    }

    /// The rise of an accepted packet's number in its life.
    pub fn packet(&mut self, destination: u32, protocol: u8, integrity: bool, packet: &[u8]) -> Result<u64, Refusal> {
        let (spi, number) = spi_and_number(protocol, packet)?;
        self.life(Key { destination, protocol, spi })?.received.step(number, integrity)
    }

    pub fn send(&mut self, key: Key) -> Result<u32, Refusal> {
        let life = self.life(key)?;
        life.sent = life.sent.checked_add(1).ok_or(refusal::COUNTER_AT_END)?;
        Ok(life.sent)
    }

    pub fn loss(&mut self, key: Key) -> Result<Loss, Refusal> {
        Ok(self.life(key)?.received.loss())
    }

    fn life(&mut self, key: Key) -> Result<&mut Life, Refusal> {
        self.lives.get_mut(&key).ok_or(refusal::SPI)
    }
}

fn spi_and_number(protocol: u8, packet: &[u8]) -> Result<(u32, u32), Refusal> {
    match protocol {
        AH => {
            refuse_if(packet.len() < AH_LEAST, refusal::MALFORMED)?;
            refuse_if(u16_at(packet, 2) != 0, refusal::MALFORMED)?;
            let length = (usize::from(packet[1]) + 2) * 4;
            refuse_if(!(AH_LEAST..=packet.len()).contains(&length), refusal::MALFORMED)?;
            Ok((u32_at(packet, 4), u32_at(packet, 8)))
        }
        ESP => {
            refuse_if(packet.len() < ESP_LEAST, refusal::MALFORMED)?;
            Ok((u32_at(packet, 0), u32_at(packet, 4)))
        }
        _ => Err(refusal::PROTOCOL),
    }
}

#[cfg(test)]
mod tests {
    use super::*;

    /// The verdicts on the numbers of a new life, each with its integrity.
    fn verdicts<const COUNT: usize>(numbers: [(u32, bool); COUNT]) -> [Result<u64, Refusal>; COUNT] {
        let mut record = Receive::default();
        numbers.map(|(number, integrity)| record.step(number, integrity))
    }

    fn rises<const COUNT: usize>(numbers: [u32; COUNT]) -> [u64; COUNT] {
        verdicts(numbers.map(|number| (number, true))).map(|verdict| verdict.expect("it is accepted"))
    }

    #[test]
    fn the_rise_is_how_far_the_highest_number_rose() {
        assert_eq!(rises([5, 3, 70]), [5, 0, 65]);
        assert_eq!(rises([1, 2, 4, 67, 131, 196]), [1, 1, 2, 63, 64, 65]);
        for first in [1, 64, 65, 4_294_967_295] {
            assert_eq!(rises([first]), [first.into()]);
        }
        assert_eq!(rises([1, 4_294_967_294, 4_294_967_295]), [1, 4_294_967_293, 1]);
    }

    #[test]
    fn a_number_inside_the_window_raises_nothing() {
        assert_eq!(rises([64, 1, 63, 32, 65]), [64, 0, 0, 0, 1]);
        assert_eq!(rises([4_294_967_295, 4_294_967_294, 4_294_967_232]), [4_294_967_295, 0, 0]);
    }

    #[test]
    fn a_refused_number_carries_nothing_and_changes_no_rise() {
        let shown = [(100, false), (0, true), (10, true), (10, true), (500, false), (74, true), (10, true), (76, true)];
        let [no, zero, again, behind] = [24, 8_197, 8_194, 8_197].map(Err);
        assert_eq!(verdicts(shown), [no, zero, Ok(10), again, no, Ok(64), behind, Ok(2)]);
    }

    #[test]
    fn every_life_of_a_key_counts_its_rises_from_0() {
        let mut table = Table::default();
        let [key, other] = [0x1234, 0x1235].map(|spi| Key { destination: 9, protocol: ESP, spi });
        table.add(other).unwrap();
        for life in 1..=2 {
            table.add(key).unwrap();
            let mut shown = |key: Key, number: u32| {
                let packet = [key.spi.to_be_bytes(), number.to_be_bytes()].concat();
                table.packet(key.destination, key.protocol, true, &packet)
            };
            assert_eq!(shown(key, 7), Ok(7));
            assert_eq!(shown(other, life * 1_000), Ok(1_000));
            assert_eq!([8, 6, 80].map(|number| shown(key, number)), [Ok(1), Ok(0), Ok(72)]);
            assert_eq!(table.loss(key).map(|loss| loss.highest), Ok(7 + 1 + 72));
            table.remove(key).unwrap();
        }
    }
}
