//! Answers the lines of `bench` from Rust, over bindings/rust alone. `lines verdict BOOK MESSAGE` prints what `./verdict` prints of
//! these two files, the book being in bytes, and `lines capture FILE..` of each file its name and what its header is, and then
//! what `./capture` prints of it.

mod ends;
mod listing;
mod policy;
mod words;

use ends::Ends;
use std::io::{self, BufRead, BufWriter, Write};
use std::{env, fs};
use tallowbrim::{Datagram, Key, LossLine, Payload, PlainList, Receive, Refusal, Table};

const LONGEST_LINE: usize = 65_535;

fn main() {
    let arguments: Vec<String> = env::args().skip(1).collect();
    let outcome = match arguments.iter().map(String::as_str).collect::<Vec<_>>()[..] {
        [] => answer_all(io::stdin().lock(), BufWriter::new(io::stdout().lock())),
        ["verdict", book, message] => verdict(book, message),
        ["capture", ref files @ ..] if !files.is_empty() => files.iter().try_for_each(|file| capture(file)),
        _ => {
            eprintln!("usage: lines [verdict BOOK MESSAGE | capture FILE..]");
            std::process::exit(2)
        }
    };
    if let Err(error) = outcome {
        eprintln!("lines: cannot read its input or write its answers: {error}");
        std::process::exit(1);
    }
}

fn verdict(book: &str, message: &str) -> io::Result<()> {
    let said = policy::verdict(&fs::read(book)?, &fs::read(message)?);
    io::stdout().write_all(said.as_bytes())
}

fn capture(name: &str) -> io::Result<()> {
    let file = fs::read(name)?;
    let said = format!("{name}: {}\n{}", listing::cause(&file), listing::capture(&file));
    io::stdout().write_all(said.as_bytes())
}

fn answer_all(mut input: impl BufRead, mut output: impl Write) -> io::Result<()> {
    let mut caller = Caller::default();
    let mut line = Vec::new();
    while input.read_until(b'\n', &mut line)? > 0 {
        if let Some(answer) = caller.answer(line.strip_suffix(b"\n").unwrap_or(&line)) {
            writeln!(output, "{answer}")?;
        }
        line.clear();
    }
    output.flush()
}

/// What lines can change.
#[derive(Default)]
struct Caller {
    table: Table,
    lent: Receive,
    plain: PlainList,
    ends: Ends,
}

impl Caller {
    /// The answer to a line without its line end; `None` where it gets no answer.
    fn answer(&mut self, line: &[u8]) -> Option<String> {
        if line.is_empty() || line[0] == b'#' {
            return None;
        }
        let words: Vec<&[u8]> = line.split(|&byte| byte == b' ').collect();
        let understood = if line.len() > LONGEST_LINE { None } else { self.understand(&words) };
        Some(understood.unwrap_or_else(|| "bad line".to_string()))
    }

    fn understand(&mut self, words: &[&[u8]]) -> Option<String> {
        Some(match words {
            [b"port", bytes] => said(port(&words::bytes(bytes)?)),
            [b"read", bytes] => said(read(&words::bytes(bytes)?)),
            [b"identity", b"2", body] => done(tallowbrim::identity(tallowbrim::MAIN_MODE, &words::bytes(body)?)),
            [b"identity", b"32", body] => done(tallowbrim::identity(tallowbrim::QUICK_MODE, &words::bytes(body)?)),
            [b"der", bytes] => der(&words::bytes(bytes)?).to_string(),
            [b"book" | b"choose" | b"why" | b"lawful" | b"reply", ..] => said(policy::answer(words)?),
            [b"frame", original, record] => {
                listing::frame(&mut self.table, words::decimal(original)?, &words::bytes(record)?)
            }
            [b"packet", destination, protocol, integrity, packet] => {
                let (destination, protocol) = (words::four_bytes(destination)?, words::decimal(protocol)?);
                let (integrity, packet) = (words::yes_or_no(integrity)?, words::bytes(packet)?);
                accepted(self.table.packet(destination.into(), protocol, integrity, &packet))
            }
            [b"add", key @ ..] => done(self.table.add(key_of(key)?)),
            [b"remove", key @ ..] => done(self.table.remove(key_of(key)?)),
            [b"send", key @ ..] => said(self.table.send(key_of(key)?).map(|number| format!("number {number}"))),
            [b"loss", key @ ..] => said(self.table.loss(key_of(key)?).map(loss)),
            [b"lent", b"new"] => {
                self.lent = Receive::new();
                "done".to_string()
            }
            [b"lent", b"loss"] => loss(self.lent.loss()),
            [b"lent", number, integrity] => {
                accepted(self.lent.step(words::decimal(number)?, words::yes_or_no(integrity)?))
            }
            [b"plain", b"new"] => {
                self.plain = PlainList::new();
                "done".to_string()
            }
            [b"plain", b"loss"] => loss(self.plain.loss()),
            [b"plain", number, integrity] => {
                accepted(self.plain.step(words::decimal(number)?, words::yes_or_no(integrity)?))
            }
            _ => return self.ends.understand(words),
        })
    }
}

fn said(outcome: Result<String, Refusal>) -> String {
    outcome.unwrap_or_else(|refusal| format!("refused {}", refusal.number()))
}

fn done(outcome: Result<(), Refusal>) -> String {
    said(outcome.map(|()| "done".to_string()))
}

fn accepted(outcome: Result<u64, Refusal>) -> String {
    said(outcome.map(|rise| format!("accepted {rise}")))
}

fn loss(LossLine { highest, span, count }: LossLine) -> String {
    format!("loss {highest} {span} {count}")
}

/// The words DST PROTOCOL SPI.
fn key_of(words: &[&[u8]]) -> Option<Key> {
    let [destination, protocol, spi] = words else { return None };
    let (destination, protocol) = (words::four_bytes(destination)?.into(), words::decimal(protocol)?);
    Some(Key { destination, protocol, spi: words::four_bytes(spi)? })
}

fn port(bytes: &[u8]) -> Result<String, Refusal> {
    Ok(match tallowbrim::datagram(bytes)? {
        Datagram::Keepalive => "keepalive".to_string(),
        Datagram::KeyExchange(part) => format!("key-exchange {} {}", part.start, part.length),
        Datagram::Esp { length } => format!("esp {length}"),
    })
}

fn read(bytes: &[u8]) -> Result<String, Refusal> {
    let message = tallowbrim::message(bytes)?;
    Ok(format!("read {} {}{}", message.exchange, message.count, places(bytes, message.count)?))
}

/// ` TYPE@START+LENGTH` of each payload.
fn places(message: &[u8], count: u8) -> Result<String, Refusal> {
    let shown = |Payload { kind, part }| format!(" {kind}@{}+{}", part.start, part.length);
    (0..count).map(|place| tallowbrim::payload(message, place).map(shown)).collect()
}

fn der(bytes: &[u8]) -> &'static str {
    if tallowbrim::name(bytes).is_ok() {
        "name"
    } else if tallowbrim::element(bytes).is_ok() {
        "element"
    } else {
        "none"
    }
}
