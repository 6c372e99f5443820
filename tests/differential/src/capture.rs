//! Capture files, with the listing that is known of each front of them.

use crate::cases::refused;
use crate::frame::{Frame, CUT_SHORT, NOT_IPV4};
use crate::random::Random;

pub const FILE_HEADER_SIZE: usize = 24;
pub const RECORD_HEADER_SIZE: usize = 16;
pub const LONGEST_RECORD: usize = 65_535;
/// The protocol of the frames that are there to fill a file.
const FILLING: u8 = 253;

#[derive(Clone, Copy, PartialEq)]
pub enum Order {
    Big,
    Little,
}

pub const ORDERS: [Order; 2] = [Order::Big, Order::Little];

impl Order {
    pub fn number(self, value: u32) -> [u8; 4] {
        match self {
            Order::Big => value.to_be_bytes(),
            Order::Little => value.to_le_bytes(),
        }
    }

    fn half(self, value: u16) -> [u8; 2] {
        match self {
            Order::Big => value.to_be_bytes(),
            Order::Little => value.to_le_bytes(),
        }
    }
}

/// The fields of a file header that are looked at, and any others.
pub struct FileHeader {
    pub magic: u32,
    pub major: u16,
    pub minor: u16,
    pub link: u32,
}

pub const RIGHT: FileHeader = FileHeader { magic: 0xa1b2_c3d4, major: 2, minor: 4, link: 1 };

impl FileHeader {
    pub fn encode(&self, random: &mut Random, order: Order) -> Vec<u8> {
        let FileHeader { magic, major, minor, link } = *self;
        let mut bytes = order.number(magic).to_vec();
        bytes.extend([order.half(major), order.half(minor)].concat());
        // Time zone, accuracy, snap length.
        bytes.extend(random.bytes(12));
        bytes.extend(order.number(link));
        bytes
    }
}

struct Record {
    place: usize,
    stamp: String,
    lines: Vec<String>,
}

#[derive(Clone, Copy)]
pub struct Lengths {
    pub captured: u32,
    pub original: u32,
}

pub struct Capture {
    order: Order,
    pub bytes: Vec<u8>,
    records: Vec<Record>,
}

impl Capture {
    pub fn new(random: &mut Random, order: Order) -> Capture {
        Capture { order, bytes: RIGHT.encode(random, order), records: Vec::new() }
    }

    /// In either order.
    pub fn random(random: &mut Random) -> Capture {
        let order = random.one_of(&ORDERS);
        Capture::new(random, order)
    }

    /// A record's header alone; its stamp as a line shows it.
    pub fn header(&mut self, random: &mut Random, lengths: Lengths) -> String {
        let any = random.number(32) as u32;
        let seconds = random.one_of(&[0, 1, 1_700_000_000, u32::MAX, any]);
        let microseconds = random.one_of(&[0, 1, 99_999, 100_000, 999_999, 1_000_000, u32::MAX, any]);
        for number in [seconds, microseconds, lengths.captured, lengths.original] {
            self.bytes.extend(self.order.number(number));
        }
        let digits = microseconds.to_string();
        format!("{seconds}.{}{digits}", "0".repeat(6_usize.saturating_sub(digits.len())))
    }

    /// A whole record, and what is listed of it, with the lines behind its first.
    pub fn record(&mut self, random: &mut Random, original: u32, bytes: &[u8], what: &[String]) {
        let place = self.bytes.len();
        let stamp = self.header(random, Lengths { captured: bytes.len() as u32, original });
        self.bytes.extend(bytes);
        let first = format!("{} at {place} {stamp} {}", self.records.len() + 1, what[0]);
        let lines = [&[first], &what[1..]].concat();
        self.records.push(Record { place, stamp, lines });
    }

    pub fn frame(&mut self, random: &mut Random, frame: &Frame, what: String) {
        let bytes = frame.encode();
        self.record(random, bytes.len() as u32, &bytes, &[what]);
    }

    /// A record of so many bytes.
    pub fn filling(&mut self, random: &mut Random, size: usize) {
        if size < 34 {
            let what = if size < 14 { CUT_SHORT } else { NOT_IPV4 };
            return self.record(random, size as u32, &vec![0; size], &[what.to_string()]);
        }
        let frame = Frame { source: random.number(32) as u32, ..Frame::plain(FILLING, vec![0x5a; size - 34]) };
        self.frame(random, &frame, frame.says(&format!("other protocol {FILLING}")));
    }

    /// Records up to that place, which is no less than a record's header away.
    pub fn fill_to(&mut self, random: &mut Random, place: usize) {
        while self.bytes.len() < place {
            let most = place - self.bytes.len() - RECORD_HEADER_SIZE;
            let size = if most <= LONGEST_RECORD { most } else { random.between(20_000, LONGEST_RECORD) };
            // What is left takes another record, or nothing.
            let size = if size < most { size.min(most - RECORD_HEADER_SIZE) } else { size };
            self.filling(random, size);
        }
    }

    pub fn count(&self) -> usize {
        self.records.len()
    }

    /// The lines of the whole file.
    pub fn lines(&self) -> Vec<String> {
        self.records.iter().flat_map(|record| record.lines.clone()).collect()
    }

    /// The lines of its first `size` bytes.
    pub fn lines_of_front(&self, size: usize) -> Vec<String> {
        if size < FILE_HEADER_SIZE {
            return vec![refused(8_201)];
        }
        let ends = self.records.iter().skip(1).map(|record| record.place).chain([self.bytes.len()]);
        let mut lines = Vec::new();
        for ((number, record), end) in (1..).zip(&self.records).zip(ends) {
            let place = record.place;
            if size >= end {
                lines.extend(record.lines.clone());
            } else if size >= place + RECORD_HEADER_SIZE {
                lines.push(format!("{number} at {place} {} {CUT_SHORT}", record.stamp));
            } else if size > place {
                lines.push(format!("{number} at {place} {CUT_SHORT}"));
            }
        }
        lines
    }
}

#[cfg(test)]
mod tests {
    use super::*;

    #[test]
    fn a_file_is_filled_to_any_place() {
        let mut random = Random::new(1, "capture");
        for place in [40, 41, 65_536, 65_591, 65_592, 131_072, 200_000] {
            let mut capture = Capture::new(&mut random, Order::Big);
            capture.fill_to(&mut random, place);
            assert_eq!(capture.bytes.len(), place);
        }
    }

    #[test]
    fn the_lines_of_a_front_end_where_it_ends() {
        let mut random = Random::new(1, "capture");
        let mut capture = Capture::new(&mut random, Order::Little);
        capture.filling(&mut random, 14);
        capture.filling(&mut random, 3);
        assert_eq!(capture.lines_of_front(23), ["refused 8201"]);
        assert!(capture.lines_of_front(24).is_empty());
        assert_eq!(capture.lines_of_front(25), ["1 at 24 cut short"]);
        assert_eq!(capture.lines_of_front(54), capture.lines()[..1]);
        assert_eq!(capture.lines_of_front(69)[1], "2 at 54 cut short");
        assert!(capture.lines_of_front(72)[1].starts_with("2 at 54 ") && capture.lines_of_front(72) == capture.lines());
        assert_eq!(capture.lines_of_front(73), capture.lines());
    }
}
