//! Document 01, "The verdict program": a book and a message behind it, and what is to be said about them.

use crate::message::{self, Payload};
use crate::policy::{self, Choice};
use crate::refusal::Refusal;
use std::io::{self, Read, Write};

/// "The first 8,275 bytes count."
const COUNTED: u64 = 8_275;

pub fn answer(input: impl Read, output: &mut impl Write) -> io::Result<()> {
    let bytes = counted(input)?;
    output.write_all(verdict(&bytes).as_bytes())?;
    output.flush()
}

/// What counts of an input.
pub fn counted(input: impl Read) -> io::Result<Vec<u8>> {
    let mut bytes = Vec::new();
    input.take(COUNTED).read_to_end(&mut bytes)?;
    Ok(bytes)
}

fn verdict(bytes: &[u8]) -> String {
    lines(bytes).unwrap_or_else(refused)
}

pub fn refused(number: Refusal) -> String {
    format!("refused {number}\n")
}

fn lines(bytes: &[u8]) -> Result<String, Refusal> {
    let (book, message) = policy::book_in_front(bytes)?;
    let reading = message::read(message)?;
    let mut lines = format!("exchange {} payloads {}\n", reading.exchange, reading.payloads.len());
    for Payload { kind, start, length } in &reading.payloads {
        lines += &format!("payload {kind} at {start} length {length}\n");
    }
    if reading.sa_body(message).is_some() {
        lines += &policy::choose_from(&book, message, &reading).map_or_else(refused, |choice| chosen(choice) + "\n");
    }
    Ok(lines)
}

/// A choice as a line without its end.
pub fn chosen(choice: Choice) -> String {
    format!("chosen {}", numbers(&choice))
}

/// Set, line and transforms of a choice.
pub fn numbers(Choice { set, line, taken }: &Choice) -> String {
    let transforms: String = taken.iter().map(|taken| format!(" {}", taken.transform.number)).collect();
    format!("set {set} line {line} transforms{transforms}")
}

#[cfg(test)]
mod tests {
    use super::*;

    const BOOK: [u8; 6] = [1, 0, 0, 0x0e, 0x10, 0];

    /// Document 01's message, with that lifetime.
    fn example(lifetime: u16) -> Vec<u8> {
        let header = [&[1; 16], [1, 0x11, 2, 0, 0, 0, 0, 0, 0, 0, 0, 80].as_slice()].concat();
        let sa = [0, 0, 0, 52, 0, 0, 0, 1, 0, 0, 0, 1];
        let proposal = [0, 0, 0, 40, 1, 1, 0, 1, 0, 0, 0, 32, 1, 1, 0, 0];
        let attributes: [u16; 12] = [0x8001, 0x81, 0x8002, 0x14, 0x8003, 0x0a, 0x8014, 2, 0x800b, 1, 0x800c, lifetime];
        let attributes: Vec<u8> = attributes.into_iter().flat_map(u16::to_be_bytes).collect();
        [header, sa.to_vec(), proposal.to_vec(), attributes].concat()
    }

    fn said(bytes: &[u8]) -> String {
        let mut output = Vec::new();
        answer(bytes, &mut output).unwrap();
        String::from_utf8(output).unwrap()
    }

    #[test]
    fn the_example_of_document_01_prints_its_three_lines() {
        let lines = "exchange 2 payloads 1\npayload 1 at 28 length 52\nchosen set 1 line 1 transforms 1\n";
        assert_eq!(said(&[BOOK.as_slice(), &example(0x0e10)].concat()), lines);
    }

    #[test]
    fn a_refused_choice_is_the_last_line_and_other_refusals_are_the_only_one() {
        let lines = "exchange 2 payloads 1\npayload 1 at 28 length 52\nrefused 14\n";
        assert_eq!(said(&[BOOK.as_slice(), &example(0x0e11)].concat()), lines);
        assert_eq!(said(&BOOK), "refused 30\n");
        assert_eq!(said(&[9]), "refused 8193\n");
        assert_eq!(said(&[]), "refused 8193\n");
    }

    #[test]
    fn nothing_is_said_about_a_choice_without_an_sa_payload() {
        let mut message = example(1);
        message[16] = 13;
        let lines = "exchange 2 payloads 1\npayload 13 at 28 length 52\n";
        assert_eq!(said(&[BOOK.as_slice(), &message].concat()), lines);
    }

    /// The longest book and the longest message are 8,274 bytes; one more byte makes the message too long.
    #[test]
    fn bytes_behind_those_that_count_do_not_matter() {
        let book = [&[8][..], &[0, 0, 0, 1].repeat(8), &[8], &[1, 1, 0, 0, 0, 1].repeat(8)].concat();
        let mut message = [example(1)[..28].to_vec(), vec![0; 8_164]].concat();
        message[16] = 13;
        message[24..28].copy_from_slice(&8_192_u32.to_be_bytes());
        message[30..32].copy_from_slice(&8_164_u16.to_be_bytes());
        let whole = [book, message].concat();
        assert_eq!(whole.len(), 8_274);
        assert_eq!(said(&whole), "exchange 2 payloads 1\npayload 13 at 28 length 8164\n");
        assert_eq!(said(&[whole.as_slice(), &[0]].concat()), "refused 30\n");
        let mut behind_a_short_book = [BOOK.as_slice(), &whole[82..], &[0; 100]].concat();
        behind_a_short_book[30..34].copy_from_slice(&8_269_u32.to_be_bytes());
        assert_eq!(said(&behind_a_short_book), "refused 30\n");
    }
}
