//! The calls on captures, which the lines of `bench` do not reach: the file of samples/branch.pcap, and headers that are refused.

use tallowbrim::{carried, file_header, header_cause, record, record_header};
use tallowbrim::{Carried, HeaderCause, Listed, Order, RecordHeader, Table};

const FILE: &[u8] = include_bytes!("../../../samples/branch.pcap");
const LISTING: &str = include_str!("../../../samples/branch.listing");
const FILE_HEADER: usize = 24;
const RECORD_HEADER: usize = 16;

/// Number, place and stamp of each line, and of its packets the verdict.
#[test]
fn records_are_as_the_sample_lists_them() {
    let order = file_header(&FILE[..FILE_HEADER]).unwrap();
    let mut table = Table::new();
    let mut at = FILE_HEADER;
    for (number, line) in (1..).zip(LISTING.lines()) {
        let behind = &FILE[at + RECORD_HEADER..];
        let header = record_header(order, &FILE[at..at + RECORD_HEADER]).unwrap().unwrap();
        let RecordHeader { seconds, microseconds, captured, original } = header;
        let front = format!("{number} at {at} {seconds}.{microseconds:06} ");
        assert!(line.starts_with(&front), "{line} does not begin with {front}");
        let bytes = &behind[..captured.into()];
        let listed = record(&mut table, original, bytes);
        assert_eq!(listed == Listed::CutShort, carried(original, bytes) == Carried::CutShort, "{line}");
        let rise = if let Listed::Packet { verdict, .. } = listed { verdict.ok() } else { None };
        assert_eq!(rise, line.split_once(" accepted ").map(|(_, rise)| rise.parse().unwrap()), "{line}");
        at += RECORD_HEADER + usize::from(captured);
    }
    assert_eq!(at, FILE.len());
}

#[test]
fn a_refused_file_is_told_by_its_header() {
    let changed = |at: usize, bytes: &[u8]| {
        let mut header = FILE[..FILE_HEADER].to_vec();
        header[at..at + bytes.len()].copy_from_slice(bytes);
        header
    };
    let big = changed(0, &[0xa1, 0xb2, 0xc3, 0xd4, 0, 2, 0, 4, 0, 0, 0, 0, 0, 0, 0, 0, 0, 0, 0, 0, 0, 0, 0, 1]);
    assert_eq!(file_header(&big), Ok(Order::Big));
    assert_eq!(file_header(FILE), Ok(Order::Little));
    assert_eq!(header_cause(FILE), HeaderCause::Nothing);
    for (header, cause) in [
        (FILE[..FILE_HEADER - 1].to_vec(), HeaderCause::Short),
        (changed(0, &[0x0a, 0x0d, 0x0d, 0x0a]), HeaderCause::Pcapng),
        (changed(0, &[0x4d, 0x3c, 0xb2, 0xa1]), HeaderCause::Nanoseconds),
        (changed(4, &[1, 2, 3, 4]), HeaderCause::Version { major: 0x0201, minor: 0x0403 }),
        (changed(23, &[0x14]), HeaderCause::CheckSequences),
        (changed(20, &[0x71, 0x01]), HeaderCause::LinkType(0x0171)),
        (changed(0, &[0]), HeaderCause::NoCapture),
    ] {
        assert_eq!(file_header(&header).map_err(|refusal| refusal.number()), Err(8_201), "{cause:?}");
        assert_eq!(header_cause(&header), cause);
    }
}

#[test]
fn a_record_header_is_read_in_the_order_of_the_file() {
    let header = [0, 0, 0, 1, 0, 0, 0, 2, 0, 0, 0, 3, 0, 0, 0, 4];
    let read = RecordHeader { seconds: 1, microseconds: 2, captured: 3, original: 4 };
    assert_eq!(record_header(Order::Big, &header), Ok(Some(read)));
    assert_eq!(record_header(Order::Little, &header).map_err(|refusal| refusal.number()), Err(8_201));
    assert_eq!(record_header(Order::Big, &header[..RECORD_HEADER - 1]), Ok(None));
}
