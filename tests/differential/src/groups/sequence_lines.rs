//! The words of lines about sequence numbers, and that a bad line leaves every record as it was.

use super::{Group, PLAIN};
use crate::cases::Cases;
use crate::random::Random;
use crate::sequence::{Follower, Key, ESP};

pub const GROUP: Group = Group {
    name: "sequence-lines",
    answers: &[&["done", "accepted", "number", "loss", "bad line"]],
    at_least: 5,
    also: &[&["refused 8194", "refused 8197", "refused 24", "refused 8200", "refused 10", "refused 11"]],
    in_order: true,
    kinds: &[
        ("bad line", bad_lines),
        ("good line spoiled", good_lines_spoiled),
        ("every byte as a protocol", every_byte_as_a_protocol),
        ("number of a lent record or a plain list", numbers_of_one_life),
    ],
    ..PLAIN
};

const KEY: Key = Key { destination: 0xc000_02ab, protocol: ESP, spi: 0x1234_abcd };

/// Lines that would change something if they were understood. Those of the lent record are bad ones of the plain list too.
#[rustfmt::skip]
const BAD: &[&str] = &[
    // the number of words
    "add", "add c00002ab 3", "add c00002ab 3 00000100 ", "add c00002ab 3 00000100 yes", "add  c00002ab 3 00000100",
    "remove", "remove c00002ab 3", "remove c00002ab 3 1234abcd -", "send c00002ab 3", "send c00002ab 3 1234abcd 1",
    "loss", "loss c00002ab 3", "loss c00002ab 3 1234abcd yes", "packet c00002ab 3 yes", "packet c00002ab 3 1234abcd00000009",
    "packet c00002ab 3 yes 1234abcd00000009 -", "packet c00002ab 3 yes no 1234abcd00000009", "packet",
    "lent", "lent ", "lent new ", "lent new yes", "lent 9", "lent yes", "lent yes 9", "lent 9 yes no", "lent loss yes", "new",
    // four bytes in hex
    "remove 0c00002ab 3 1234abcd", "remove c00002a 3 1234abcd", "remove c00002a 3 1234abcd0", "remove c00002abab 3 1234abcd",
    "remove c00002ab 3 1234abc", "remove c00002ab 3 1234abcd00", "remove c00002ab 3 001234abcd", "remove c00002ag 3 1234abcd",
    "remove - 3 1234abcd", "remove c00002ab 3 -", "remove c00002ab 3 305441741", "remove 192.0.2.171 3 1234abcd",
    "remove 0xc00002ab 3 1234abcd", "remove +00002ab 3 1234abcd", "remove c00002ab 3 +234abcd", "remove  3 1234abcd",
    // protocol
    "remove c00002ab 03 1234abcd", "remove c00002ab 003 1234abcd", "remove c00002ab 3.0 1234abcd", "remove c00002ab +3 1234abcd",
    "remove c00002ab -3 1234abcd", "remove c00002ab 256 1234abcd", "remove c00002ab 259 1234abcd", "remove c00002ab 0x3 1234abcd",
    "remove c00002ab 65539 1234abcd", "remove c00002ab 4294967299 1234abcd", "remove c00002ab 18446744073709551619 1234abcd",
    "remove c00002ab - 1234abcd", "remove c00002ab  1234abcd", "remove c00002ab esp 1234abcd", "remove c00002ab 00 1234abcd",
    "add c00002ab 256 00000100", "send c00002ab 259 1234abcd", "loss c00002ab 03 1234abcd",
    "packet c00002ab 03 yes 1234abcd00000009", "packet c00002ab 259 yes 1234abcd00000009",
    // yes or no
    "packet c00002ab 3 Yes 1234abcd00000009", "packet c00002ab 3 y 1234abcd00000009", "packet c00002ab 3 1 1234abcd00000009",
    "packet c00002ab 3 YES 1234abcd00000009", "packet c00002ab 3 true 1234abcd00000009", "packet c00002ab 3  1234abcd00000009",
    "lent 9 Yes", "lent 9 y", "lent 9 1", "lent 9 yes ", "lent 9  yes", "lent 9 yess", "lent 9 ye", "lent 9 noo", "lent 9 n",
    // bytes
    "packet c00002ab 3 yes 1234abcd0000000", "packet c00002ab 3 yes 1234abcd0000000g", "packet c00002ab 3 yes ",
    "packet c00002ab 3 yes 1234abcd 00000009", "packet c00002ab 3 yes --",
    // verbs
    "Add c00002ab 3 00000100", "Remove c00002ab 3 1234abcd", "delete c00002ab 3 1234abcd", "sends c00002ab 3 1234abcd",
    "Lent new", "lent New", "lent NEW", "lent Loss", "lent reset", "lent new\r", "lent 9 yes\r", "remove c00002ab 3 1234abcd\r",
    "Plain new", "lent plain new", "plain lent new", "lentplain new",
    "lent\tnew", " lent new", "c00002ab 3 1234abcd", "packet lent 9 yes", "lent packet yes", "remove c00002ab 3 1234abcd\0",
];

/// After a bad line everything is as it was: the next number, what is accepted, what was sent.
fn bad(follower: &mut Follower, random: &mut Random, line: &str) {
    follower.line(line, "bad line".to_string());
    let highest = follower.lent.highest();
    follower.lent_loss();
    follower.lent(highest + 1, true);
    follower.plain_loss();
    follower.plain(highest + 1, true);
    follower.loss(KEY);
    follower.packet(random, KEY, highest + 1, true);
    follower.send(KEY);
}

/// A table with one entry, and a lent record and a plain list that are not fresh.
fn with_records(cases: &mut Cases) -> Follower<'_> {
    let mut follower = Follower::new(cases);
    follower.lent_new();
    follower.plain_new();
    follower.add(KEY);
    follower
}

fn bad_lines(random: &mut Random, cases: &mut Cases) {
    let mut follower = with_records(cases);
    for line in BAD {
        bad(&mut follower, random, line);
        if line.contains("lent") {
            bad(&mut follower, random, &line.replace("lent", "plain"));
        }
    }
    follower.remove_all();
}

/// One byte more in a good line: none of these may stand anywhere in it.
fn good_lines_spoiled(random: &mut Random, cases: &mut Cases) {
    let mut follower = with_records(cases);
    let of_table = ["remove c00002ab 3 1234abcd", "packet c00002ab 3 no 1234abcdffffffff"];
    let of_one_life = ["lent 77777 yes", "lent new", "plain 77777 yes", "plain new"];
    for line in of_table.into_iter().chain(of_one_life) {
        for at in 0..=line.len() {
            for byte in [" ", "\t", "\r", "\0", "-", "g", "G", ".", "/", ":", "\u{663}"] {
                bad(&mut follower, random, &[&line[..at], byte, &line[at..]].concat());
            }
        }
    }
    follower.remove_all();
}

fn every_byte_as_a_protocol(_: &mut Random, cases: &mut Cases) {
    let mut follower = Follower::new(cases);
    for byte in (0..128).filter(|&byte| byte != b'\n' && !byte.is_ascii_digit()) {
        let letter = char::from(byte);
        follower.line(&format!("add c00002ab {letter} 1234abcd"), "bad line".to_string());
        follower.line(&format!("add c00002ab 3{letter} 1234abcd"), "bad line".to_string());
    }
    for protocol in 0..=255 {
        follower.add(Key { protocol, ..KEY });
    }
    for protocol in 256..=520 {
        follower.line(&format!("add c00002ab {protocol} 1234abcd"), "bad line".to_string());
    }
    follower.remove_all();
}

/// The largest number, the next that is none, and numbers that are longer than they need be.
fn numbers_of_one_life(_: &mut Random, cases: &mut Cases) {
    let mut follower = Follower::new(cases);
    follower.lent_new();
    follower.plain_new();
    follower.lent(7, true);
    follower.plain(7, true);
    let too_large =
        ["4294967296", "4294967302", "8589934591", "18446744073709551616", "18446744073709551623", "99999999999"];
    let other = ["00", "07", "08", "+8", "-8", "8.", "0x8", "8e1", "1_0", "", "-", "ffffffff", "04294967295"];
    for number in too_large.into_iter().chain(other) {
        follower.line(&format!("lent {number} yes"), "bad line".to_string());
        follower.line(&format!("plain {number} yes"), "bad line".to_string());
    }
    for number in [0, 7, 8, 10, 100, u32::MAX - 1, u32::MAX] {
        follower.lent(number, true);
        follower.lent_loss();
        follower.plain(number, true);
        follower.plain_loss();
    }
}
