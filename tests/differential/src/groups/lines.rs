//! The grammar of lines: which get no answer, which get `bad line`, how long one may be, and where input ends.

use super::{Group, MOST_DER_BYTES, PLAIN};
use crate::cases::{word, Cases};
use crate::random::Random;
use crate::tree::{primitive, wrapped};

pub const GROUP: Group = Group {
    name: "lines",
    answers: &[&["bad line", "name", "element", "none", "keepalive", "key-exchange", "esp", "refused 16"]],
    at_least: 1,
    kinds: &[
        ("good line", good_lines),
        ("bad line", bad_lines),
        ("line without an answer", lines_without_an_answer),
        ("every byte as a digit", every_byte_as_a_digit),
        ("every byte beside a word", every_byte_beside_a_word),
        ("good line spoiled", good_lines_spoiled),
        ("line at or past its longest", long_lines),
        ("end of input", ends_of_input),
        ("long line at the end of input", long_lines_at_the_end_of_input),
        ("mixed lines", mixed_lines),
    ],
    ..PLAIN
};

/// A line without its line end, and its answer if it gets one.
type Line = (Vec<u8>, Option<String>);

const LONGEST_LINE: usize = 65_535;

const GOOD: &[(&str, &str)] = &[
    ("der 3000", "name"),
    ("der 3080", "none"),
    ("der -", "none"),
    ("der 00", "none"),
    ("der 0400", "element"),
    ("der 3003020101", "name"),
    ("der aB02Cd00", "element"),
    ("der Ab02cD00", "element"),
    ("port ff", "keepalive"),
    ("port FF", "keepalive"),
    ("port fF", "keepalive"),
    ("port Ff", "keepalive"),
    ("port -", "refused 16"),
    ("port fFFf", "refused 16"),
    ("port 00000000", "key-exchange 4 0"),
    ("port 00000000aAbB", "key-exchange 4 2"),
    ("port 0123456789abcdef", "esp 8"),
    ("port ABCDEF9876543210", "esp 8"),
];

#[rustfmt::skip]
const BAD: &[&str] = &[
    // spaces
    " ", "  ", " der 3000", "der 3000 ", "der  3000", "der\t3000", "der3000", " # der 3000",
    // the number of words
    "der", "der ", "port", "port ", "der 30 00", "der 3000 -", "der - -", "der - 3000", "der 3000 #", "port ff ff",
    // bytes
    "der 3", "der 300", "port f", "der --", "der -00", "der 00-", "der 0x3000", "der +3000", "der 3g00", "der 30_00",
    "der 3000,", "der #", "port 255", "port keepalive",
    // verbs
    "-", "3000", "Der 3000", "DER 3000", "PORT ff", "de 3000", "ders 3000", "name 3000", "port4500 ff", "bad line",
    // bytes that are no part of any word
    "\r", "der 3000\r", "port ff\r", "\0", "\0der 3000", "der\x003000", "der 30\0", "der 3000\0",
    "der \u{ff13}000", "dér 3000", "\u{feff}der 3000", "der\u{a0}3000",
];

const WITHOUT_ANSWER: &[&str] = &["", "#", "##", "# der 3000", "#der 3000", "#port", "# \0\r\u{ff}", "#\r", "# a  b "];

fn good(index: usize) -> Line {
    let (line, answer) = GOOD[index];
    (line.into(), Some(answer.to_string()))
}

fn bad(line: impl Into<Vec<u8>>) -> Line {
    (line.into(), Some("bad line".to_string()))
}

fn without_answer(line: impl Into<Vec<u8>>) -> Line {
    (line.into(), None)
}

/// The lines, each with its line end, and their answers.
fn joined(lines: &[Line]) -> (Vec<u8>, Vec<String>) {
    let input = lines.iter().flat_map(|(line, _)| [line, b"\n".as_slice()].concat()).collect();
    let answers = lines.iter().filter_map(|(_, answer)| answer.clone()).collect();
    (input, answers)
}

/// Among the other cases, with a good line behind it that shows an answer too many at once.
fn add(cases: &mut Cases, line: Line) {
    let (input, answers) = joined(&[line, good(0)]);
    cases.lines(input, &answers);
}

/// As all of the input, once with the last line end and once without it.
fn add_alone(cases: &mut Cases, lines: &[Line]) {
    let (mut input, answers) = joined(lines);
    cases.alone(input.clone(), &answers);
    input.pop();
    cases.alone(input, &answers);
}

fn good_lines(_: &mut Random, cases: &mut Cases) {
    (0..GOOD.len()).for_each(|index| add(cases, good(index)));
}

fn bad_lines(_: &mut Random, cases: &mut Cases) {
    BAD.iter().for_each(|&line| add(cases, bad(line)));
}

fn lines_without_an_answer(_: &mut Random, cases: &mut Cases) {
    WITHOUT_ANSWER.iter().for_each(|&line| add(cases, without_answer(line)));
}

fn every_byte_but_line_end() -> impl Iterator<Item = u8> {
    (0..=255).filter(|&byte| byte != b'\n')
}

fn every_byte_as_a_digit(_: &mut Random, cases: &mut Cases) {
    for byte in every_byte_but_line_end() {
        let answer = |others: &str| match byte {
            b'f' | b'F' => "keepalive".to_string(),
            b'0'..=b'9' | b'a'..=b'e' | b'A'..=b'E' => others.to_string(),
            _ => "bad line".to_string(),
        };
        add(cases, ([b"port f", [byte].as_slice()].concat(), Some(answer("refused 16"))));
        add(cases, ([b"port ", [byte].as_slice(), b"F"].concat(), Some(answer("refused 16"))));
    }
}

fn every_byte_beside_a_word(_: &mut Random, cases: &mut Cases) {
    for byte in every_byte_but_line_end() {
        let before = [[byte].as_slice(), b"der 3000"].concat();
        add(cases, if byte == b'#' { without_answer(before) } else { bad(before) });
        let between = [b"der", [byte].as_slice(), b"3000"].concat();
        add(cases, if byte == b' ' { good(0) } else { bad(between) });
        add(cases, bad([b"der 30", [byte].as_slice(), b"00"].concat()));
        add(cases, bad([b"der 3000", [byte].as_slice()].concat()));
    }
}

/// One byte more in a good line: none of these may stand anywhere in it, save that a comment begins with `#`.
fn good_lines_spoiled(_: &mut Random, cases: &mut Cases) {
    for (line, _) in GOOD {
        for at in 0..=line.len() {
            for byte in [b' ', b'\t', b'\r', b'\0', b'-', b'#', b'g', b'G', b'@', b'`', b'/', b':', 0x80, 0xff] {
                let spoiled = [&line.as_bytes()[..at], &[byte], &line.as_bytes()[at..]].concat();
                add(cases, if spoiled[0] == b'#' { without_answer(spoiled) } else { bad(spoiled) });
            }
        }
    }
}

/// A line `port BYTES` of that odd length, with zero bytes alone.
fn port_line_of(length: usize) -> Line {
    let line = format!("port {}", "0".repeat(length - "port ".len()));
    let rest = (length - "port ".len()) / 2 - 4;
    (line.into(), Some(format!("key-exchange 4 {rest}")))
}

/// A line `der BYTES` that holds a name of so many bytes.
fn der_line_of(bytes: usize) -> Line {
    const TWO_HEADS: usize = 8;
    let name = wrapped(primitive(0x04, vec![0; bytes - TWO_HEADS]), 1);
    (format!("der {}", word(&name.encode())).into(), Some("name".to_string()))
}

fn spoiled((line, _): Line) -> Line {
    bad(line)
}

fn long_line_samples() -> Vec<Line> {
    let mut lines = vec![
        der_line_of(MOST_DER_BYTES - 1),
        der_line_of(MOST_DER_BYTES),
        // Good lines but for their length.
        spoiled(der_line_of(MOST_DER_BYTES + 1)),
        port_line_of(LONGEST_LINE - 2),
        port_line_of(LONGEST_LINE),
        spoiled(port_line_of(LONGEST_LINE + 2)),
        spoiled(port_line_of(199_999)),
    ];
    let lengths = [65_534, 65_535, 65_536, 65_537, 131_070, 131_071, 131_072, 131_073, 200_000, 1_000_000];
    for length in lengths {
        lines.push(bad(vec![b'0'; length]));
        lines.push(bad(vec![b' '; length]));
        lines.push(bad(vec![0xff; length]));
        lines.push(without_answer(vec![b'#'; length]));
        // What follows would be a line by itself if the front were taken for one.
        for tail in ["der 3000", "#", "", "port ff"] {
            lines.push(bad([vec![b'x'; length], tail.into()].concat()));
            lines.push(without_answer([b"#".as_slice(), &vec![b'x'; length - 1], tail.as_bytes()].concat()));
        }
    }
    lines
}

fn long_lines(_: &mut Random, cases: &mut Cases) {
    long_line_samples().into_iter().for_each(|line| add(cases, line));
}

fn ends_of_input(_: &mut Random, cases: &mut Cases) {
    cases.alone(Vec::new(), &[]);
    let short = [bad("der 300"), bad(" "), bad("\r"), bad("d"), good(0), good(2), good(8), good(12)];
    let silent = WITHOUT_ANSWER.iter().map(|&line| without_answer(line));
    for line in short.into_iter().chain(silent) {
        add_alone(cases, std::slice::from_ref(&line));
        add_alone(cases, &[good(0), line.clone()]);
        add_alone(cases, &[line, without_answer(""), without_answer("")]);
    }
}

fn long_lines_at_the_end_of_input(_: &mut Random, cases: &mut Cases) {
    for line in long_line_samples().into_iter().filter(|(line, _)| line.len() <= 70_000) {
        add_alone(cases, &[line]);
    }
}

fn mixed_lines(random: &mut Random, cases: &mut Cases) {
    let long = long_line_samples();
    for _ in 0..20 {
        let count = random.between(1, 400);
        let lines: Vec<_> = (0..count).map(|_| random_line(random, &long)).collect();
        add_alone(cases, &lines);
    }
}

fn random_line(random: &mut Random, long: &[Line]) -> Line {
    match random.below(40) {
        0 => long[random.below(long.len())].clone(),
        1..=9 => without_answer(random.one_of(WITHOUT_ANSWER)),
        10..=19 => bad(random.one_of(BAD)),
        _ => good(random.below(GOOD.len())),
    }
}
