//! A case: lines for both programs, and what is known about their answers.

use crate::message::Message;
use crate::offer::Offer;

pub struct Case {
    /// What it tries, in the words in which a difference is shown.
    pub kind: &'static str,
    /// What is particular about it among those of its kind.
    pub detail: String,
    /// Whole lines; only in a case that runs alone may the last one lack its line end. Or a book and a message, a
    /// capture, or an offer, a reply and perhaps a book.
    pub input: Vec<u8>,
    /// One for each answer owed: the right one, or `None` where only agreement is asked.
    pub answers: Vec<Option<String>>,
    pub programs: ProgramsOf,
    /// What capture programs are given beside the capture.
    pub book: Option<Vec<u8>>,
    /// What is offered, where the message can be read and answers are counted by it.
    pub offer: Option<Offer>,
    /// What the program `lawful` is known to say where the line of that name is asked.
    pub said: Option<Said>,
}

/// What is said of a reply: that it is lawful, or a number and the words that go with it.
#[derive(Clone, Debug, PartialEq)]
pub enum Said {
    Lawful,
    Refused(u16, String),
}

impl Said {
    /// The answer to the line.
    pub fn answer(&self) -> String {
        match self {
            Said::Lawful => "lawful".to_string(),
            Said::Refused(number, _) => refused(*number),
        }
    }

    /// What the program prints.
    pub fn lines(&self) -> Vec<String> {
        match self {
            Said::Lawful => vec![self.answer()],
            Said::Refused(_, words) => vec![self.answer(), words.clone()],
        }
    }
}

/// How many bytes of an input are the offer, the reply and the book.
#[derive(Clone, Copy, PartialEq)]
pub struct Sizes {
    pub offer: usize,
    pub reply: usize,
    pub book: Option<usize>,
}

impl Sizes {
    /// As programs are given them.
    pub fn arguments(&self) -> Vec<String> {
        [Some(self.offer), Some(self.reply), self.book].into_iter().flatten().map(|size| size.to_string()).collect()
    }
}

/// Which programs a case is for.
#[derive(Clone, Copy, PartialEq)]
pub enum ProgramsOf {
    /// Those that answer lines, one run for all such cases.
    Lines,
    /// The same, but a run of their own, because the end of input matters.
    LinesAlone,
    /// The verdict programs, whose whole output is one answer. The input comes in pieces of so many bytes.
    Verdicts { piece: usize },
    /// The capture programs, likewise.
    Captures { piece: usize },
    /// The programs that say why, likewise; of the core's own its words are read back. They may be told the book's size.
    Whys { piece: usize, book_size: Option<usize> },
    /// The programs that say whether a reply is lawful, likewise.
    Lawfuls { piece: usize, sizes: Sizes },
}

impl Case {
    pub fn title(&self) -> String {
        if self.detail.is_empty() {
            return self.kind.to_string();
        }
        format!("{}: {}", self.kind, self.detail)
    }
}

/// Where the maker of one kind of case puts its cases.
pub struct Cases {
    pub kind: &'static str,
    /// Goes with every case that follows.
    pub detail: String,
    pub made: Vec<Case>,
}

impl Cases {
    /// A line `der BYTES`, with its answer where it is known.
    pub fn der(&mut self, bytes: &[u8], answer: Option<&'static str>) {
        self.line("der", bytes, answer.map(str::to_string));
    }

    /// A line `port BYTES`, with its answer.
    pub fn port(&mut self, bytes: &[u8], answer: String) {
        self.line("port", bytes, Some(answer));
    }

    /// A line `read BYTES`, with its answer where it is known.
    pub fn read(&mut self, bytes: &[u8], answer: Option<String>) {
        self.line("read", bytes, answer);
    }

    pub fn lawful(&mut self, message: &Message) {
        self.read(&message.encode(), Some(message.reading()));
    }

    pub fn refused(&mut self, message: &Message, number: u16) {
        self.read(&message.encode(), Some(refused(number)));
    }

    /// The message as it stands: lawful, or refused with that number.
    pub fn decided(&mut self, message: &Message, lawful: bool, number: u16) {
        if lawful {
            self.lawful(message);
        } else {
            self.refused(message, number);
        }
    }

    /// A line `identity EXCHANGE BYTES`, with its answer where it is known.
    pub fn identity(&mut self, exchange: u8, bytes: &[u8], lawful: Option<bool>) {
        let answer = lawful.map(|lawful| if lawful { "done".to_string() } else { refused(18) });
        self.line(&format!("identity {exchange}"), bytes, answer);
    }

    /// A line `book BYTES`, with how many lines of each sort it has, or that it is refused, where that is known.
    pub fn book(&mut self, bytes: &[u8], counts: Option<Option<(usize, usize)>>) {
        let answer = |counts: Option<_>| counts.map_or(refused(8_193), |(main, quick)| format!("book {main} {quick}"));
        self.line("book", bytes, counts.map(answer));
    }

    /// A line `choose BOOK BYTES`, with its answer where it is known.
    pub fn choose(&mut self, book: &[u8], message: &[u8], answer: Option<String>) {
        self.line(&format!("choose {}", word(book)), message, answer);
    }

    /// The same with a message that can be read and has an offer.
    pub fn choose_offered(&mut self, book: &[u8], message: &Message, answer: Option<String>) {
        self.choose(book, &message.encode(), answer);
        self.offers(message);
    }

    /// A line `why BOOK BYTES`, with its answer where it is known.
    pub fn why(&mut self, book: &[u8], message: &[u8], answer: Option<String>) {
        self.line(&format!("why {}", word(book)), message, answer);
    }

    /// The same with a message that can be read and has an offer.
    pub fn why_offered(&mut self, book: &[u8], message: &Message, answer: Option<String>) {
        self.why(book, &message.encode(), answer);
        self.offers(message);
    }

    /// What the case that was made last offers.
    fn offers(&mut self, message: &Message) {
        let offer = message.payloads.iter().find_map(|payload| payload.offer());
        self.made.last_mut().expect("it was made").offer = offer.cloned();
    }

    fn line(&mut self, verb: &str, bytes: &[u8], answer: Option<String>) {
        self.one_line(format!("{verb} {}\n", word(bytes)), answer);
    }

    /// A whole line, with its answer where it is known.
    pub fn one_line(&mut self, line: String, answer: Option<String>) {
        self.add(line.into_bytes(), vec![answer], ProgramsOf::Lines);
    }

    /// A line of these words, with its answer.
    pub fn words(&mut self, words: &str, answer: &str) {
        self.one_line(format!("{words}\n"), Some(answer.to_string()));
    }

    /// Whole lines and the answers to them.
    pub fn lines(&mut self, input: Vec<u8>, answers: &[String]) {
        self.add(input, answers.iter().cloned().map(Some).collect(), ProgramsOf::Lines);
    }

    /// Whole lines, each with its answer where it is known.
    pub fn several_lines(&mut self, input: Vec<u8>, answers: Vec<Option<String>>) {
        self.add(input, answers, ProgramsOf::Lines);
    }

    /// All that a pair of programs gets to read, and the answers to it.
    pub fn alone(&mut self, input: Vec<u8>, answers: &[String]) {
        self.add(input, answers.iter().cloned().map(Some).collect(), ProgramsOf::LinesAlone);
    }

    /// All that a pair of verdict programs gets to read, and the lines that they print where those are known.
    pub fn verdict(&mut self, input: Vec<u8>, lines: Option<Vec<String>>) {
        self.verdict_in_pieces(input, usize::MAX, lines);
    }

    pub fn verdict_in_pieces(&mut self, input: Vec<u8>, piece: usize, lines: Option<Vec<String>>) {
        self.add(input, vec![lines.map(|lines| lines.join(LINE_END_SHOWN))], ProgramsOf::Verdicts { piece });
    }

    /// A capture that a pair of capture programs gets to read, in pieces of so many bytes, and the lines of its listing where
    /// those are known.
    pub fn capture(&mut self, input: Vec<u8>, piece: usize, book: Option<&[u8]>, lines: Option<Vec<String>>) {
        self.add(input, vec![lines.map(|lines| lines.join(LINE_END_SHOWN))], ProgramsOf::Captures { piece });
        self.made.last_mut().expect("it was made").book = book.map(<[u8]>::to_vec);
    }

    /// A book and a message that a pair of programs gets to read, and what it tells of them, line by line, where that is
    /// known.
    pub fn told(&mut self, input: Vec<u8>, book_size: Option<usize>, lines: Option<Vec<String>>) {
        self.told_in_pieces(input, usize::MAX, book_size, lines);
    }

    pub fn told_in_pieces(
        &mut self,
        input: Vec<u8>,
        piece: usize,
        book_size: Option<usize>,
        lines: Option<Vec<String>>,
    ) {
        self.add(input, vec![lines.map(|lines| lines.join(LINE_END_SHOWN))], ProgramsOf::Whys { piece, book_size });
    }

    /// A line `lawful OFFER REPLY [BOOK]`, with what is said of it where that is known.
    pub fn judged(&mut self, offer: &[u8], reply: &[u8], book: Option<&[u8]>, said: Option<Said>) {
        let words = [Some(offer), Some(reply), book].into_iter().flatten().map(word).collect::<Vec<_>>();
        self.one_line(format!("lawful {}\n", words.join(" ")), said.as_ref().map(Said::answer));
        self.made.last_mut().expect("it was made").said = said;
    }

    /// The same for a pair of programs.
    pub fn judged_in_words(&mut self, offer: &[u8], reply: &[u8], book: Option<&[u8]>, said: Option<Said>) {
        self.judged_in_pieces(offer, reply, book, usize::MAX, said);
    }

    pub fn judged_in_pieces(
        &mut self,
        offer: &[u8],
        reply: &[u8],
        book: Option<&[u8]>,
        piece: usize,
        said: Option<Said>,
    ) {
        // As the script gives them: a byte more than the longest of each at most.
        let front = |bytes: &[u8], most: usize| bytes[..bytes.len().min(most)].to_vec();
        let (offer, reply, book) = (front(offer, 8_193), front(reply, 8_193), book.map(|book| front(book, 83)));
        let sizes = Sizes { offer: offer.len(), reply: reply.len(), book: book.as_ref().map(Vec::len) };
        let lines = said.map(|said| said.lines().join(LINE_END_SHOWN));
        let input = [offer, reply, book.unwrap_or_default()].concat();
        self.add(input, vec![lines], ProgramsOf::Lawfuls { piece, sizes });
    }

    fn add(&mut self, input: Vec<u8>, answers: Vec<Option<String>>, programs: ProgramsOf) {
        let (kind, detail) = (self.kind, self.detail.clone());
        self.made.push(Case { kind, detail, input, answers, programs, book: None, offer: None, said: None });
    }
}

/// Stands for the line ends within an answer of several lines.
pub const LINE_END_SHOWN: &str = " / ";

pub fn refused(number: u16) -> String {
    format!("refused {number}")
}

/// Bytes as a word of a line.
pub fn word(bytes: &[u8]) -> String {
    if bytes.is_empty() {
        return "-".to_string();
    }
    const DIGITS: &[u8; 16] = b"0123456789abcdef";
    let mut hex = String::with_capacity(2 * bytes.len());
    for byte in bytes {
        hex.push(DIGITS[usize::from(byte >> 4)].into());
        hex.push(DIGITS[usize::from(byte & 15)].into());
    }
    hex
}

/// The bytes of a word that holds some.
pub fn bytes(word: &str) -> Vec<u8> {
    if word == "-" {
        return Vec::new();
    }
    let byte = |at| u8::from_str_radix(&word[at..at + 2], 16).expect("bytes in hex");
    (0..word.len()).step_by(2).map(byte).collect()
}

/// Every string of exactly `length` bytes over the alphabet.
pub fn strings(alphabet: &[u8], length: usize) -> Vec<Vec<u8>> {
    let mut strings = vec![Vec::new()];
    for _ in 0..length {
        strings = strings
            .iter()
            .flat_map(|string| alphabet.iter().map(move |&byte| [string.as_slice(), &[byte]].concat()))
            .collect();
    }
    strings
}
