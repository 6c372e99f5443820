//! Request one: the listing of a capture file. The file is held in memory as a whole.
//!
//! File header: magic (4), major and minor version (2 each), time zone (4), accuracy (4), snap length (4), link type (4).
//! Record header: seconds, microseconds, captured length, original length (4 each), before the captured bytes. All of them
//! are in the byte order in which the magic stands.

use crate::policy::{self, Book};
use crate::record;
use crate::refusal::{self, refuse_if, Refusal};
use crate::sequence::Table;
use std::io::{self, Read, Write};

const MAGIC: u32 = 0xa1b2_c3d4;
const ETHERNET: u32 = 1;
const FILE_HEADER_SIZE: usize = 24;
const RECORD_HEADER_SIZE: usize = 16;
const LONGEST_RECORD: usize = 65_535;

pub fn answer(mut input: impl Read, book: Option<&[u8]>, output: &mut impl Write) -> io::Result<()> {
    let mut file = Vec::new();
    input.read_to_end(&mut file)?;
    output.write_all(lines(&file, book).unwrap_or_else(refused).as_bytes())?;
    output.flush()
}

fn refused(number: Refusal) -> String {
    format!("refused {number}\n")
}

fn lines(file: &[u8], book: Option<&[u8]>) -> Result<String, Refusal> {
    let order = byte_order(file)?;
    let book = book.map(policy::book).transpose()?;
    Ok(records(file, order, book.as_ref()))
}

/// The file's own, if its header is of this kind.
fn byte_order(file: &[u8]) -> Result<Order, Refusal> {
    refuse_if(file.len() < FILE_HEADER_SIZE, refusal::CAPTURE)?;
    let orders = [Order::BigEndian, Order::LittleEndian];
    let order = orders.into_iter().find(|order| order.u32_at(file, 0) == MAGIC).ok_or(refusal::CAPTURE)?;
    refuse_if(order.u16_at(file, 4) != 2 || order.u16_at(file, 6) != 4, refusal::CAPTURE)?;
    refuse_if(order.u32_at(file, 20) != ETHERNET, refusal::CAPTURE)?;
    Ok(order)
}

fn records(file: &[u8], order: Order, book: Option<&Book>) -> String {
    let mut table = Table::default();
    let mut lines = String::new();
    let mut place = FILE_HEADER_SIZE;
    let mut number = 1;
    while place < file.len() {
        let left = &file[place..];
        if left.len() < RECORD_HEADER_SIZE {
            lines += &format!("{number} at {place} cut short\n");
            break;
        }
        let [seconds, microseconds, captured, original] = [0, 4, 8, 12].map(|at| order.u32_at(left, at));
        let captured = captured as usize;
        if captured > LONGEST_RECORD {
            lines += &refused(refusal::CAPTURE);
            break;
        }
        lines += &format!("{number} at {place} {seconds}.{microseconds:06} ");
        let behind = &left[RECORD_HEADER_SIZE..];
        if behind.len() < captured {
            lines += "cut short\n";
            break;
        }
        lines += &record::listed(&mut table, book, original, &behind[..captured]);
        lines += "\n";
        place += RECORD_HEADER_SIZE + captured;
        number += 1;
    }
    lines
}

#[derive(Clone, Copy)]
enum Order {
    BigEndian,
    LittleEndian,
}

impl Order {
    fn u16_at(self, bytes: &[u8], at: usize) -> u16 {
        let number = [bytes[at], bytes[at + 1]];
        match self {
            Order::BigEndian => u16::from_be_bytes(number),
            Order::LittleEndian => u16::from_le_bytes(number),
        }
    }

    fn u32_at(self, bytes: &[u8], at: usize) -> u32 {
        let number = [bytes[at], bytes[at + 1], bytes[at + 2], bytes[at + 3]];
        match self {
            Order::BigEndian => u32::from_be_bytes(number),
            Order::LittleEndian => u32::from_le_bytes(number),
        }
    }
}

#[cfg(test)]
mod tests {
    use super::*;

    const BIG: [u8; 24] = [0xa1, 0xb2, 0xc3, 0xd4, 0, 2, 0, 4, 0, 0, 0, 0, 0, 0, 0, 0, 0, 0, 255, 255, 0, 0, 0, 1];
    const LITTLE: [u8; 24] = [0xd4, 0xc3, 0xb2, 0xa1, 2, 0, 4, 0, 0, 0, 0, 0, 0, 0, 0, 0, 255, 255, 0, 0, 1, 0, 0, 0];
    const BOOK: [u8; 6] = [1, 0, 0, 0x0e, 0x10, 0];

    fn said(file: &[u8], book: Option<&[u8]>) -> String {
        let mut output = Vec::new();
        answer(file, book, &mut output).unwrap();
        String::from_utf8(output).unwrap()
    }

    fn record(frame: &[u8]) -> Vec<u8> {
        let length = (frame.len() as u32).to_be_bytes();
        [&[0, 0, 0, 7], &5_u32.to_be_bytes(), &length, &length, frame].concat()
    }

    /// What is said of these frames, without number, place and stamp, which the other tests look at.
    fn all(frames: &[Vec<u8>], book: Option<&[u8]>) -> Vec<String> {
        let file = [BIG.to_vec(), frames.iter().flat_map(|frame| record(frame)).collect()].concat();
        let of_line = |line: &str| line.split_once(" 7.000005 ").map_or(line, |(_, what)| what).to_string();
        said(&file, book).lines().map(of_line).collect()
    }

    fn one(frame: &[u8]) -> String {
        all(&[frame.to_vec()], None).concat()
    }

    /// From 10.0.0.1 to 10.0.0.2.
    fn ip(protocol: u8, behind: &[u8]) -> Vec<u8> {
        let total = 20 + behind.len() as u8;
        let header = [0x45, 0, 0, total, 0, 0, 0, 0, 64, protocol, 0, 0, 10, 0, 0, 1, 10, 0, 0, 2];
        [header.as_slice(), behind].concat()
    }

    fn ethernet(behind: &[u8]) -> Vec<u8> {
        [&[0; 12][..], &[8, 0], behind].concat()
    }

    fn udp(source: u16, destination: u16, data: &[u8]) -> Vec<u8> {
        let length = 8 + data.len() as u16;
        let fields = [source, destination, length, 0].into_iter().flat_map(u16::to_be_bytes).collect();
        ethernet(&ip(17, &[fields, data.to_vec()].concat()))
    }

    fn ah(reserved: u8, spi: u32, number: u32) -> Vec<u8> {
        ethernet(&ip(51, &[[50, 1, 0, reserved], spi.to_be_bytes(), number.to_be_bytes()].concat()))
    }

    fn esp(spi: u32, number: u32) -> Vec<u8> {
        ethernet(&ip(50, &[spi.to_be_bytes(), number.to_be_bytes()].concat()))
    }

    /// Document 01's message, with that lifetime and flags.
    fn example(lifetime: u8, flags: u8) -> Vec<u8> {
        let header = [&[1; 16], [1, 0x11, 2, flags, 0, 0, 0, 0, 0, 0, 0, 80].as_slice()].concat();
        let sa = [0, 0, 0, 52, 0, 0, 0, 1, 0, 0, 0, 1];
        let proposal = [0, 0, 0, 40, 1, 1, 0, 1, 0, 0, 0, 32, 1, 1, 0, 0];
        let attributes = [0x80, 1, 0, 0x81, 0x80, 2, 0, 0x14, 0x80, 3, 0, 0x0a, 0x80, 0x14, 0, 2, 0x80, 0x0b, 0, 1];
        [&header, &sa[..], &proposal, &attributes, &[0x80, 0x0c, 0x0e, lifetime]].concat()
    }

    #[test]
    fn a_listing_has_number_place_stamp_and_what_in_either_byte_order() {
        let big = [&BIG[..], &record(&esp(256, 1)), &record(&[0; 14])].concat();
        let lines =
            "1 at 24 7.000005 10.0.0.1 > 10.0.0.2 ESP 00000100 number 1 accepted 1\n2 at 82 7.000005 not IPv4\n";
        assert_eq!(said(&big, None), lines);
        let mut little = big.clone();
        little[..24].copy_from_slice(&LITTLE);
        for at in [24, 28, 32, 36, 82, 86, 90, 94] {
            little[at..at + 4].reverse();
        }
        assert_eq!(said(&little, None), lines);
        assert_eq!(said(&BIG, None), "");
    }

    #[test]
    fn microseconds_have_six_digits_at_least() {
        let stamped = |microseconds: u32| {
            let mut file = [&BIG[..], &record(&[0; 14])].concat();
            file[28..32].copy_from_slice(&microseconds.to_be_bytes());
            said(&file, None)
        };
        assert_eq!(stamped(0), "1 at 24 7.000000 not IPv4\n");
        assert_eq!(stamped(999_999), "1 at 24 7.999999 not IPv4\n");
        assert_eq!(stamped(u32::MAX), "1 at 24 7.4294967295 not IPv4\n");
    }

    #[test]
    fn another_file_header_is_8201_before_the_book() {
        for at in [0, 1, 2, 3, 4, 5, 6, 7, 20, 21, 22, 23] {
            let mut file = BIG;
            file[at] ^= 1;
            assert_eq!(said(&file, Some(&[9])), "refused 8201\n");
        }
        for at in 8..20 {
            let mut file = BIG;
            file[at] ^= 255;
            assert_eq!(said(&file, None), "");
        }
        for size in 0..24 {
            assert_eq!(said(&LITTLE[..size], None), "refused 8201\n");
        }
        assert_eq!(said(&LITTLE, Some(&[9])), "refused 8193\n");
        assert_eq!(said(&LITTLE, Some(&[])), "refused 8193\n");
        assert_eq!(said(&LITTLE, Some(&[BOOK.as_slice(), &[0]].concat())), "refused 8193\n");
    }

    #[test]
    fn a_record_over_65535_bytes_ends_the_listing() {
        let header = |captured: u32| [[0; 4], [0; 4], captured.to_be_bytes(), [0; 4]].concat();
        let first = [&BIG[..], &record(&[0; 14])].concat();
        let longest = [first.clone(), header(65_535), vec![0; 65_535], record(&[0; 14])].concat();
        let lines = "1 at 24 7.000005 not IPv4\n2 at 54 0.000000 not IPv4\n3 at 65605 7.000005 not IPv4\n";
        assert_eq!(said(&longest, None), lines);
        let longer = [first, header(65_536), vec![0; 65_536], record(&[0; 14])].concat();
        assert_eq!(said(&longer, None), "1 at 24 7.000005 not IPv4\nrefused 8201\n");
        assert_eq!(said(&longer[..70], None), "1 at 24 7.000005 not IPv4\nrefused 8201\n");
        assert_eq!(said(&longer[..69], None), "1 at 24 7.000005 not IPv4\n2 at 54 cut short\n");
    }

    #[test]
    fn a_file_that_ends_early_ends_the_listing() {
        let file = [&BIG[..], &record(&[0; 14])].concat();
        for size in 25..file.len() {
            let line = if size < 40 { "1 at 24 cut short\n" } else { "1 at 24 7.000005 cut short\n" };
            assert_eq!(said(&file[..size], None), line);
        }
    }

    #[test]
    fn frames_that_are_cut_short_or_not_ipv4() {
        let whole = ethernet(&ip(6, &[0; 4]));
        for size in 0..whole.len() {
            assert_eq!(one(&whole[..size]), "cut short");
        }
        let padded = [whole.as_slice(), &[0; 22]].concat();
        for frame in [&whole, &padded] {
            assert_eq!(one(frame), "10.0.0.1 > 10.0.0.2 other protocol 6");
        }
        for (at, byte) in [(12, 0x86), (13, 6), (14, 0x55), (14, 0x44), (17, 0), (17, 19)] {
            let mut frame = whole.clone();
            frame[at] = byte;
            assert_eq!(one(&frame), "not IPv4");
        }
        let mut table = Table::default();
        assert_eq!(record::listed(&mut table, None, 39, &whole), "cut short");
        assert_eq!(record::listed(&mut table, None, 37, &whole), "10.0.0.1 > 10.0.0.2 other protocol 6");
    }

    #[test]
    fn two_tags_are_passed_and_a_third_is_not_ipv4() {
        let behind = [&[8, 0], ip(6, &[]).as_slice()].concat();
        let tagged = |tags: &[u8]| [&[0; 12], tags, &behind].concat();
        let (inner, outer) = ([0x81, 0, 0, 5], [0x88, 0xa8, 0, 5]);
        for tags in [inner.to_vec(), outer.to_vec(), [outer, inner].concat(), [inner, inner].concat()] {
            assert_eq!(one(&tagged(&tags)), "10.0.0.1 > 10.0.0.2 other protocol 6");
            for size in 0..tags.len() + 34 {
                assert_eq!(one(&tagged(&tags)[..size]), "cut short");
            }
        }
        assert_eq!(one(&tagged(&[inner, inner, inner].concat())), "not IPv4");
        assert_eq!(one(&tagged(&[inner, inner, inner].concat())[..22]), "not IPv4");
    }

    #[test]
    fn options_are_passed_over_and_fragments_are_not_read() {
        let mut options = ethernet(&ip(50, &[1, 1, 1, 1, 0, 0, 1, 0, 0, 0, 0, 9]));
        options[14] = 0x46;
        assert_eq!(one(&options), "10.0.0.1 > 10.0.0.2 ESP 00000100 number 9 accepted 9");
        for (flags, what) in [(0x20, "fragment"), (0x01, "fragment"), (0x40, "ESP 00000100 number 1 accepted 1")] {
            let mut frame = esp(256, 1);
            frame[20] = flags;
            assert_eq!(one(&frame), format!("10.0.0.1 > 10.0.0.2 {what}"));
        }
    }

    #[test]
    fn ports_and_what_they_bring() {
        let said_of = |source, destination, data: &[u8]| {
            let said = one(&udp(source, destination, data));
            said.strip_prefix("10.0.0.1 > 10.0.0.2 ").unwrap_or(&said).to_string()
        };
        let (message, enciphered) = (example(0x10, 0), example(0x10, 1));
        let marked = [&[0; 4], message.as_slice()].concat();
        assert_eq!(said_of(500, 500, &message), "exchange 2 payloads 1 1@28+52");
        assert_eq!(said_of(1024, 500, &message), "exchange 2 payloads 1 1@28+52");
        assert_eq!(said_of(500, 61000, &message), "exchange 2 payloads 1 1@28+52");
        assert_eq!(said_of(4500, 1024, &marked), "exchange 2 payloads 1 1@28+52");
        assert_eq!(said_of(500, 4500, &marked), "exchange 2 payloads 1 1@28+52");
        assert_eq!(said_of(4500, 500, &message), "exchange 2 payloads 1 1@28+52");
        // The marker is read as part of a cookie, and a cookie's last bytes, 1, as exchange and flags.
        assert_eq!(said_of(4500, 500, &marked), "enciphered exchange 1 id 01110200");
        assert_eq!(said_of(500, 500, &enciphered), "enciphered exchange 2 id 00000000");
        assert_eq!(said_of(500, 500, &enciphered[..28]), "enciphered exchange 2 id 00000000");
        assert_eq!(said_of(500, 500, &enciphered[..27]), "refused 30");
        assert_eq!(said_of(500, 500, &example(0x10, 3)), "refused 8");
        assert_eq!(said_of(500, 4500, &[255]), "keepalive");
        assert_eq!(said_of(500, 4500, &[255; 3]), "refused 16");
        assert_eq!(said_of(500, 4500, &[255; 7]), "ESP refused 16");
        assert_eq!(said_of(500, 4500, &[255; 8]), "ESP ffffffff number 4294967295 accepted 4294967295");
        assert_eq!(said_of(53, 4501, &[]), "other ports 53 > 4501");
        for length in [0, 7, 9] {
            let mut frame = udp(500, 500, &[]);
            frame[39] = length;
            assert_eq!(one(&frame), "cut short");
        }
        assert_eq!(one(&ethernet(&ip(17, &[0; 7]))), "cut short");
    }

    #[test]
    fn an_unknown_key_is_added_and_stays_also_if_its_number_is_refused() {
        let mut table = Table::default();
        let mut said = |frame: Vec<u8>| record::listed(&mut table, None, 0, &frame)[20..].to_string();
        assert_eq!(said(ah(0, 0x1234, 0)), "AH 00001234 number 0 refused 8197");
        assert_eq!(said(ah(0, 0x1234, 65)), "AH 00001234 number 65 accepted 65");
        assert_eq!(said(ah(0, 0x1234, 65)), "AH 00001234 number 65 refused 8194");
        assert_eq!(said(ah(0, 0x1234, 1)), "AH 00001234 number 1 refused 8197");
        assert_eq!(said(esp(0x1234, 1)), "ESP 00001234 number 1 accepted 1");
        assert_eq!(said(ah(0, 0x1234, 64)), "AH 00001234 number 64 accepted 0");
        assert_eq!(said(ah(0, 0x1234, 67)), "AH 00001234 number 67 accepted 2");
        assert_eq!(said(esp(255, 1)), "ESP 000000ff number 1 refused 11");
        assert_eq!(said(ah(1, 0x9999, 5)), "AH 00009999 number 5 refused 16");
        assert_eq!(said(ethernet(&ip(51, &[0; 11]))), "AH refused 16");
        assert_eq!(said(ethernet(&ip(51, &[0; 12]))), "AH 00000000 number 0 refused 16");
        assert_eq!(said(ethernet(&ip(50, &[0; 7]))), "ESP refused 16");
        for spi in 1_000..1_062 {
            assert_eq!(said(esp(spi, 1)), format!("ESP {spi:08x} number 1 accepted 1"));
        }
        assert_eq!(said(esp(1_062, 1)), "ESP 00000426 number 1 refused 8199");
        assert_eq!(said(esp(255, 1)), "ESP 000000ff number 1 refused 11");
        assert_eq!(said(esp(1_061, 1)), "ESP 00000425 number 1 refused 8194");
    }

    #[test]
    fn a_book_brings_a_second_line_for_an_offer_that_reads() {
        let messages = [example(0x10, 0), example(0x11, 0), example(0x10, 1), example(0x10, 2)];
        let frames: Vec<_> = messages.iter().map(|message| udp(500, 500, message)).collect();
        let what = |what| format!("10.0.0.1 > 10.0.0.2 {what}");
        let reads = what("exchange 2 payloads 1 1@28+52");
        let rest = [what("enciphered exchange 2 id 00000000"), what("refused 8")];
        let expected = [&reads, "  chosen set 1 line 1 transforms 1", &reads, "  refused 14", &rest[0], &rest[1]];
        assert_eq!(all(&frames, Some(&BOOK)), expected);
        assert_eq!(all(&frames, None), [reads.as_str(), &reads, &rest[0], &rest[1]]);
        let mut without_sa = example(0x10, 0);
        without_sa[16] = 13;
        let lines = all(&[udp(500, 500, &without_sa)], Some(&BOOK));
        assert_eq!(lines, [what("exchange 2 payloads 1 13@28+52")]);
    }
}
