//! The lines of `bench`: takes them in and gives their answers out.

use crate::message::{self, Reading};
use crate::plain_window::PlainWindow;
use crate::policy::{self, Book, Choice};
use crate::quick_lines::Ends;
use crate::refusal::Refusal;
use crate::reply::{self, Spis};
use crate::sequence::{Key, Loss, OneLife, Receive, Table};
use crate::{der, identity, lawful, lines, port4500, record, why};
use std::io::{self, BufRead, BufReader, Read, Write};

const LONGEST_LINE: usize = 65_535;
const LINE_END: u8 = b'\n';

/// Everything that lines can change.
#[derive(Default)]
pub struct Bench {
    table: Table,
    lent: Receive,
    plain: PlainWindow,
    ends: Ends,
}

impl Bench {
    /// The answer to a line without its line end, or `None` where it gets no answer.
    pub fn answer(&mut self, line: &[u8]) -> Option<String> {
        if line.is_empty() || line[0] == b'#' {
            return None;
        }
        let understood = if line.len() > LONGEST_LINE { None } else { self.understand(&lines::words(line)) };
        Some(understood.unwrap_or_else(|| "bad line".to_string()))
    }

    fn understand(&mut self, words: &[&[u8]]) -> Option<String> {
        match words {
            [b"port", message] => Some(port4500::answer(&lines::bytes(message)?)),
            [b"der", element] => Some(der::answer(&lines::bytes(element)?).to_string()),
            [b"read", message] => Some(answer(message::read(&lines::bytes(message)?), reading)),
            [b"book", book] => Some(answer(policy::book(&lines::bytes(book)?), line_counts)),
            [b"choose", book, message] => {
                let (book, message) = (lines::bytes(book)?, lines::bytes(message)?);
                Some(answer(policy::choose(&book, &message), chosen))
            }
            [b"why", book, message] => {
                let (book, message) = (lines::bytes(book)?, lines::bytes(message)?);
                Some(answer(why::answer(&book, &message), |causes| causes))
            }
            [b"lawful", offer, reply] => {
                let (offer, reply) = (lines::bytes(offer)?, lines::bytes(reply)?);
                Some(lawful(lawful::answer(&offer, &reply, None)))
            }
            [b"lawful", offer, reply, book] => {
                let (offer, reply) = (lines::bytes(offer)?, lines::bytes(reply)?);
                Some(lawful(lawful::answer(&offer, &reply, Some(&lines::bytes(book)?))))
            }
            [b"reply", book, ah, esp, room, message] => {
                let (book, message) = (lines::bytes(book)?, lines::bytes(message)?);
                let own = Spis { ah: lines::decimal(ah)?, esp: lines::decimal(esp)? };
                Some(answer(reply::alone(&book, own, lines::room(room)?, &message), written))
            }
            [b"identity", exchange, body] => Some(done(identity::check(phase(exchange)?, &lines::bytes(body)?))),
            [b"packet", destination, protocol, integrity, packet] => {
                let (destination, protocol) = (lines::u32_in_hex(destination)?, lines::decimal(protocol)?);
                let (integrity, packet) = (lines::yes_or_no(integrity)?, lines::bytes(packet)?);
                Some(accepted(self.table.packet(destination, protocol, integrity, &packet)))
            }
            [b"frame", original, bytes] => {
                let (original, bytes) = (lines::decimal(original)?, lines::bytes(bytes)?);
                Some(record::listed(&mut self.table, None, original, &bytes))
            }
            [verb @ (b"add" | b"remove" | b"send" | b"loss"), destination, protocol, spi] => {
                self.entry(verb, key(destination, protocol, spi)?)
            }
            [b"lent", words @ ..] => one_life(&mut self.lent, words),
            [b"plain", words @ ..] => one_life(&mut self.plain, words),
            _ => self.ends.understand(words),
        }
    }

    fn entry(&mut self, verb: &[u8], key: Key) -> Option<String> {
        match verb {
            b"add" => Some(done(self.table.add(key))),
            b"remove" => Some(done(self.table.remove(key))),
            b"send" => Some(answer(self.table.send(key), |number| format!("number {number}"))),
            b"loss" => Some(answer(self.table.loss(key), loss)),
            _ => None,
        }
    }
}

/// What stands behind `lent` or `plain`, asked of the life that is kept there.
fn one_life<Kept: OneLife>(kept: &mut Kept, words: &[&[u8]]) -> Option<String> {
    match words {
        [b"new"] => {
            *kept = Kept::default();
            Some("done".to_string())
        }
        [b"loss"] => Some(loss(kept.loss())),
        [number, integrity] => {
            let (number, integrity) = (lines::decimal(number)?, lines::yes_or_no(integrity)?);
            Some(accepted(kept.step(number, integrity)))
        }
        _ => None,
    }
}

fn answer<Values>(outcome: Result<Values, Refusal>, show: impl FnOnce(Values) -> String) -> String {
    match outcome {
        Ok(values) => show(values),
        Err(number) => format!("refused {number}"),
    }
}

fn done(outcome: Result<(), Refusal>) -> String {
    answer(outcome, |()| "done".to_string())
}

fn accepted(outcome: Result<u64, Refusal>) -> String {
    answer(outcome, |rise| format!("accepted {rise}"))
}

fn lawful(outcome: Result<(), Refusal>) -> String {
    answer(outcome, |()| "lawful".to_string())
}

fn reading(reading: Reading) -> String {
    format!("read {} {}{}", reading.exchange, reading.payloads.len(), reading.places())
}

fn line_counts(Book { main, quick }: Book) -> String {
    format!("book {} {}", main.len(), quick.len())
}

fn chosen(Choice { set, line, taken }: Choice) -> String {
    let transforms = taken.iter().map(|taken| format!(" {}", taken.transform.number));
    format!("chosen {set} {line}{}", transforms.collect::<String>())
}

fn written(reply: Vec<u8>) -> String {
    format!("reply {}", lines::word(&reply))
}

fn loss(Loss { highest, span, count }: Loss) -> String {
    format!("loss {highest} {span} {count}")
}

fn key(destination: &[u8], protocol: &[u8], spi: &[u8]) -> Option<Key> {
    let (destination, protocol) = (lines::u32_in_hex(destination)?, lines::decimal(protocol)?);
    Some(Key { destination, protocol, spi: lines::u32_in_hex(spi)? })
}

/// The exchanges that have identities.
fn phase(word: &[u8]) -> Option<u8> {
    match word {
        b"2" => Some(message::MAIN_MODE),
        b"32" => Some(message::QUICK_MODE),
        _ => None,
    }
}

/// A line as it comes in, piece by piece.
#[derive(Default)]
struct Line(Vec<u8>);

impl Line {
    /// One byte over the longest line is kept, so that a longer one shows; the rest would not matter.
    fn add(&mut self, piece: &[u8]) {
        let room = LONGEST_LINE + 1 - self.0.len();
        self.0.extend_from_slice(&piece[..piece.len().min(room)]);
    }
}

fn write_answer(bench: &mut Bench, line: &mut Line, output: &mut impl Write) -> io::Result<()> {
    if let Some(answer) = bench.answer(&line.0) {
        writeln!(output, "{answer}")?;
    }
    line.0.clear();
    Ok(())
}

/// Answers are handed on before more input is waited for, so that a caller may write a line and read its answer.
pub fn answer_all(input: impl Read, output: &mut impl Write) -> io::Result<()> {
    let mut input = BufReader::with_capacity(65_536, input);
    let mut bench = Bench::default();
    let mut line = Line::default();
    loop {
        if input.buffer().is_empty() {
            output.flush()?;
        }
        let piece = input.fill_buf()?;
        if piece.is_empty() {
            break;
        }
        let used = match piece.iter().position(|&byte| byte == LINE_END) {
            Some(at) => {
                line.add(&piece[..at]);
                write_answer(&mut bench, &mut line, output)?;
                at + 1
            }
            None => {
                line.add(piece);
                piece.len()
            }
        };
        input.consume(used);
    }
    write_answer(&mut bench, &mut line, output)?;
    output.flush()
}

#[cfg(test)]
mod tests {
    use super::*;
    use std::cell::RefCell;
    use std::io::BufWriter;

    /// Hands out a line at a time, and each only when those before it are answered.
    struct Caller<'a> {
        lines: &'a [&'a [u8]],
        written: &'a RefCell<Vec<u8>>,
        handed_out: usize,
    }

    impl Read for Caller<'_> {
        fn read(&mut self, room: &mut [u8]) -> io::Result<usize> {
            let line_ends = self.written.borrow().iter().filter(|&&byte| byte == LINE_END).count();
            assert_eq!(line_ends, self.handed_out, "an answer is held back");
            let Some(line) = self.lines.get(self.handed_out) else {
                return Ok(0);
            };
            self.handed_out += 1;
            room[..line.len()].copy_from_slice(line);
            Ok(line.len())
        }
    }

    struct Answers<'a>(&'a RefCell<Vec<u8>>);

    impl Write for Answers<'_> {
        fn write(&mut self, bytes: &[u8]) -> io::Result<usize> {
            self.0.borrow_mut().write(bytes)
        }

        fn flush(&mut self) -> io::Result<()> {
            Ok(())
        }
    }

    #[test]
    fn a_frame_goes_to_the_table_of_the_lines() {
        let mut bench = Bench::default();
        let mut said = |line: &str| bench.answer(line.as_bytes()).unwrap_or_default();
        let frame = "00000000000000000000000008004500001c00000000403200000a0000010a0000020000010000000002";
        assert_eq!(said("frame 4294967295 -"), "cut short");
        for original in ["4294967296", "042", "-1", "x", ""] {
            assert_eq!(said(&format!("frame {original} {frame}")), "bad line");
        }
        assert_eq!(said("loss 0a000002 3 00000100"), "refused 11");
        assert_eq!(said(&format!("frame 42 {frame}")), "10.0.0.1 > 10.0.0.2 ESP 00000100 number 2 accepted 2");
        assert_eq!(said("loss 0a000002 3 00000100"), "loss 2 2 1");
        assert_eq!(said("packet 0a000002 3 yes 0000010000000002"), "refused 8194");
        assert_eq!(said("packet 0a000002 3 yes 0000010000000005"), "accepted 3");
    }

    #[test]
    fn an_accepted_number_of_the_lent_record_has_its_rise_behind_it() {
        let mut bench = Bench::default();
        let mut said = |line: &str| bench.answer(line.as_bytes()).unwrap_or_default();
        for _ in 0..2 {
            let answers =
                ["lent new", "lent 5 yes", "lent 3 yes", "lent 5 yes", "lent 70 no", "lent 70 yes"].map(&mut said);
            assert_eq!(answers, ["done", "accepted 5", "accepted 0", "refused 8194", "refused 24", "accepted 65"]);
            assert_eq!(said("lent loss"), "loss 70 64 1");
        }
        assert_eq!(["lent new", "lent 4294967295 yes"].map(&mut said), ["done", "accepted 4294967295"]);
    }

    #[test]
    fn the_plain_list_is_none_of_the_lent_record() {
        let mut bench = Bench::default();
        let mut said = |line: &str| bench.answer(line.as_bytes()).unwrap_or_default();
        let answers = ["plain loss", "plain 5 yes", "plain 3 yes", "plain 5 yes", "plain 70 no", "plain 70 yes"];
        assert_eq!(
            answers.map(&mut said),
            ["loss 0 0 0", "accepted 5", "accepted 0", "refused 8194", "refused 24", "accepted 65"]
        );
        assert_eq!(["lent loss", "lent 5 yes", "lent new"].map(&mut said), ["loss 0 0 0", "accepted 5", "done"]);
        for bad in ["plain", "plain 9", "plain new ", "plain loss yes", "plain 4294967296 yes", "plain 09 yes"] {
            assert_eq!(said(bad), "bad line");
        }
        assert_eq!(["plain loss", "plain new", "plain loss"].map(&mut said), ["loss 70 64 1", "done", "loss 0 0 0"]);
    }

    #[test]
    fn a_caller_gets_each_answer_before_writing_the_next_line() {
        let written = RefCell::new(Vec::new());
        let mut output = BufWriter::new(Answers(&written));
        let caller = Caller { lines: &[b"der 3000\n", b"port ff\n", b"der 30\n"], written: &written, handed_out: 0 };
        answer_all(caller, &mut output).unwrap();
        assert_eq!(written.borrow().as_slice(), b"name\nkeepalive\nnone\n");
    }
}
