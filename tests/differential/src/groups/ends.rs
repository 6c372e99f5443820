//! Quick mode ends line by line: what a fresh end and a begin are refused for and in which order, ticks, rooms, nonces
//! handed back, and the words of these lines.

use super::{Group, END_ANSWERS, LATER_STATES, PLAIN};
use crate::cases::{refused, word, Cases};
use crate::checks::CHECKS;
use crate::exchange::{
    begin_line, deliver_line, long_message, message_1, offer_of, proposals, random_given, random_identities,
    random_nonce, room_line, state_line, suiting_given, unlawful_identities, Exchange, Followed, Given, Role, State,
    LARGEST_ROOM, LEAST_ROOM, ROLES, STATES,
};
use crate::identity::{addresses, body};
use crate::message::{
    message_of, opaque, random_payload, Message, Payload, EXCHANGES, HASH, IDENTITY, NAT_OA, NONCE, QUICK_MODE, SA,
    VENDOR,
};
use crate::offer::SMALL;
use crate::policy::Line;
use crate::random::Random;
use Role::{Initiator, Responder};

pub const GROUP: Group = Group {
    name: "ends",
    answers: &[
        END_ANSWERS,
        &[
            "nonce",
            "none",
            "bad line",
            "refused 4",
            "refused 9",
            "refused 11",
            "refused 14",
            "refused 16",
            "refused 18",
        ],
        &["refused 8192", "refused 8193", "refused 8195", "refused 8196"],
    ],
    at_least: 50,
    also: &[LATER_STATES, &["refused 23"]],
    kinds: &[
        ("checks of a fresh end", checks_of_fresh),
        ("limits of a fresh end", limits_of_fresh),
        ("checks of a begin", checks_of_begin),
        ("every identity type at a begin", every_identity_type),
        ("book of each size at a begin", books_at_begin),
        ("rooms", rooms),
        ("room outlives its end", rooms_and_fresh_ends),
        ("nonce handed back", nonces),
        ("nonce of a message that does not read", nonces_of_unreadable_messages),
        ("before a first fresh end", before_a_first_fresh_end),
        ("words of the lines", words),
        ("good line spoiled", good_lines_spoiled),
    ],
    ..PLAIN
};

/// A line with some of its faults: the number of the first is the answer, or what is done without any.
fn first<const COUNT: usize>(numbers: [u16; COUNT], faults: usize) -> Option<u16> {
    (0..COUNT).find(|&fault| faults >> fault & 1 == 1).map(|fault| numbers[fault])
}

/// Cookie, book, SPIs, nonce: any of them at fault, in any state, which then stays as it was.
fn checks_of_fresh(random: &mut Random, cases: &mut Cases) {
    for role in ROLES {
        for state in STATES.into_iter().flat_map(|state| [state; 6]) {
            let mut followed = Followed::in_state(random, role, state);
            for faults in 1..16 {
                let mut given = followed.given[role as usize].clone();
                if faults & 1 == 1 {
                    given.cookies[random.below(2)] = [0; 8];
                }
                if faults & 2 == 2 {
                    given.book.quick = vec![Line { mode: 5, ..followed.given[0].book.quick[0] }];
                }
                if faults & 4 == 4 {
                    *[&mut given.ah, &mut given.esp][random.below(2)] = random.one_of(&[0, 255]);
                }
                if faults & 8 == 8 {
                    given.nonce = random.bytes(7);
                }
                let known = first([4, 8_193, 11, 16], faults).map(refused);
                followed.exchange.line(&given.line(role), known);
                let state = followed.state(role);
                followed.exchange.show(role, [Some(state), None]);
            }
            let given = followed.given[role as usize].clone();
            followed.exchange.line(&given.line(role), Some("fresh".to_string()));
            let zero = format!("kept {0} {0}", word(&[0; LEAST_ROOM]));
            followed.exchange.show(role, [Some("idle sends 0".to_string()), Some(zero)]);
            followed.exchange.end(cases);
        }
    }
}

fn limits_of_fresh(random: &mut Random, cases: &mut Cases) {
    for role in ROLES {
        let given = suiting_given(random);
        let mut exchange = Exchange::new(&given);
        let mut add = |given: Given, lawful: bool, number: u16| {
            let known = if lawful { "fresh".to_string() } else { refused(number) };
            exchange.line(&given.line(role), Some(known));
        };
        let given = given[role as usize].clone();
        for size in (0..=20).chain(250..=260).chain([512, 513, 1_024, 65_536 / 4]) {
            let nonce = random.bytes(size);
            add(Given { nonce, ..given.clone() }, (8..=256).contains(&size), 16);
        }
        for spi in [0, 1, 254, 255, 256, 257, 511, 512, 65_535, 65_536, 1 << 24, 1 << 31, u32::MAX] {
            add(Given { ah: spi, ..given.clone() }, spi >= 256, 11);
            add(Given { esp: spi, ..given.clone() }, spi >= 256, 11);
            add(Given { ah: spi, esp: spi, ..given.clone() }, spi >= 256, 11);
        }
        for bit in 0..64 {
            let cookie = (1_u64 << bit).to_be_bytes();
            add(Given { cookies: [cookie, given.cookies[1]], ..given.clone() }, true, 4);
            add(Given { cookies: [given.cookies[0], cookie], ..given.clone() }, true, 4);
            add(Given { cookies: [cookie, [0; 8]], ..given.clone() }, false, 4);
            add(Given { cookies: [[0; 8], cookie], ..given.clone() }, false, 4);
        }
        exchange.finish(cases);
    }
}

/// Room, message ID, identities, quick lines: any of them at fault in any state.
fn checks_of_begin(random: &mut Random, cases: &mut Cases) {
    for state in STATES {
        for faults in 0..16 {
            for _ in 0..16 {
                let mut followed = Followed::in_state(random, Initiator, state);
                if faults & 8 == 8 && state == State::Idle {
                    followed.given[0].book.quick.clear();
                    let line = followed.given[0].line(Initiator);
                    followed.exchange.line(&line, Some("fresh".to_string()));
                }
                if faults & 1 == 1 {
                    let mut sizes = [LEAST_ROOM; 3];
                    sizes[random.below(3)] = random.one_of(&[0, LEAST_ROOM - 1]);
                    followed.exchange.room(Initiator, sizes);
                }
                let id = if faults & 2 == 2 { 0 } else { followed.id };
                let identities =
                    if faults & 4 == 4 { unlawful_identities(random) } else { followed.identities.clone() };
                let in_state = match state {
                    State::GivenUp => Some(8_196),
                    State::Sent | State::Open => Some(8_195),
                    State::Idle => None,
                };
                let number = first([8_192], faults & 1).or(in_state).or(first([9, 18, 14], faults >> 1));
                let written = || format!("send {}", word(&message_1(&followed.given[0], id, &identities).encode()));
                let known = number.map_or_else(written, refused);
                followed.exchange.begin(id, &identities, Some(known));
                followed.exchange.finish(cases);
            }
        }
    }
}

/// Every type, with data of its own size and of others; both bodies are asked.
fn every_identity_type(random: &mut Random, cases: &mut Cases) {
    for kind in 0..=255 {
        let own_size = addresses(QUICK_MODE).iter().find(|(address, _)| *address == kind).map(|(_, size)| *size);
        let sizes: &[usize] = if own_size.is_some() { &[0, 3, 4, 5, 7, 8, 9, 16, 17, 31, 32, 33] } else { &[4, 16] };
        for &size in sizes {
            let given = random_given(random, 1);
            let mut exchange = Exchange::new(&given);
            let of_kind = body(kind, random.byte(), random.number(16) as u16, &random.bytes(size));
            let lawful = body(1, 0, 0, &random.bytes(4));
            for bodies in [[of_kind.clone(), lawful.clone()], [lawful, of_kind]].map(Some) {
                let written = || format!("send {}", word(&message_1(&given[0], 9, &bodies).encode()));
                let known = if own_size == Some(size) { written() } else { refused(18) };
                exchange.line(&given[0].line(Initiator), Some("fresh".to_string()));
                exchange.begin(9, &bodies, Some(known));
            }
            exchange.end(cases);
        }
    }
}

fn books_at_begin(random: &mut Random, cases: &mut Cases) {
    for lines in 0..=8 {
        for _ in 0..50 {
            let given = random_given(random, lines);
            let mut exchange = Exchange::new(&given);
            let identities = random_identities(random);
            let written = || format!("send {}", word(&message_1(&given[0], 1, &identities).encode()));
            let known = if lines == 0 { refused(14) } else { written() };
            exchange.begin(1, &identities, Some(known));
            exchange.finish(cases);
        }
    }
}

/// Each of the three sizes around its least, before a tick, a begin and a delivery.
fn rooms(random: &mut Random, cases: &mut Cases) {
    const SIZES: [usize; 8] = [0, 1, 76, LEAST_ROOM - 1, LEAST_ROOM, LEAST_ROOM + 1, LARGEST_ROOM - 1, LARGEST_ROOM];
    for role in ROLES {
        for place in 0..3 {
            let mut followed = Followed::in_state(random, role, State::Sent);
            let repeated = format!("send {}", word(&followed.messages[role as usize]));
            for size in SIZES {
                let mut sizes = [LEAST_ROOM; 3];
                sizes[place] = size;
                followed.exchange.room(role, sizes);
                let known = |answer: &str| Some(if size < LEAST_ROOM { refused(8_192) } else { answer.to_string() });
                followed.exchange.deliver(role, false, &[], known("refused 23"));
                if role == Initiator {
                    followed.exchange.begin(0, &None, known("refused 8195"));
                } else {
                    let message = followed.messages[0].clone();
                    followed.exchange.deliver(role, true, &message, known(&repeated));
                }
                if size <= LEAST_ROOM {
                    followed.exchange.tick(role, known(&repeated));
                }
            }
            followed.exchange.finish(cases);
        }
    }
}

/// What is lent to one end says nothing about the other, and a fresh end is lent what the one before it was.
fn rooms_and_fresh_ends(random: &mut Random, cases: &mut Cases) {
    for role in ROLES {
        let mut followed = Followed::in_state(random, role, State::Sent);
        followed.exchange.room(role, [3, 5, LEAST_ROOM]);
        followed.exchange.show(role.other(), [None, None]);
        let given = followed.given[role as usize].clone();
        followed.exchange.step(role, &given.line(role), Some("fresh".to_string()));
        followed.exchange.show(role, [Some("idle sends 0".to_string()), Some("kept 000000 0000000000".to_string())]);
        followed.exchange.tick(role, Some(refused(8_192)));
        followed.exchange.room(role, [LARGEST_ROOM, LEAST_ROOM, LEAST_ROOM]);
        followed.exchange.tick(role, Some(refused(8_195)));
        followed.exchange.finish(cases);
    }
}

/// Asks for the nonce in that message, under either role, beside any other message.
fn add_nonce(random: &mut Random, cases: &mut Cases, message: &[u8], nonce: &[u8]) {
    let size = random.below(90);
    let other = random.bytes(size);
    let known = Some(format!("nonce {}", word(nonce)));
    cases.one_line(format!("nonce i {} {}\n", word(message), word(&other)), known.clone());
    cases.one_line(format!("nonce r {} {}\n", word(&other), word(message)), known);
}

fn nonce_of(message: &Message) -> Vec<u8> {
    let nonce = message.payloads.iter().find(|payload| payload.kind == NONCE).map(Payload::encode_last);
    nonce.map_or(Vec::new(), |payload| payload[4..].to_vec())
}

fn nonces(random: &mut Random, cases: &mut Cases) {
    const LONG: [&[u8]; 2] = [&[HASH, SA, NONCE], &[HASH, SA, NONCE, IDENTITY, IDENTITY]];
    for types in LONG {
        for flag in [0, 1] {
            for _ in 0..40 {
                let mut message = message_of(random, QUICK_MODE, flag, types, SMALL);
                message.payloads[2] = opaque(NONCE, random_nonce(random));
                add_nonce(random, cases, &message.encode(), &nonce_of(&message));
                // One payload more, fewer or of another type, and two of them in the other place.
                let mut more = message.clone();
                let kind = random.one_of(&[HASH, NONCE, IDENTITY, NAT_OA, VENDOR]);
                more.payloads.push(random_payload(random, QUICK_MODE, kind, SMALL));
                let mut fewer = message.clone();
                fewer.payloads.pop();
                let mut swapped = message.clone();
                let at = random.below(2);
                swapped.payloads.swap(at, at + 1);
                for other in [more, fewer, swapped] {
                    add_nonce(random, cases, &other.encode(), &[]);
                }
            }
        }
    }
    for exchange in EXCHANGES {
        for _ in 0..20 {
            let types: &[u8] = if exchange == EXCHANGES[1] { &[HASH, VENDOR, NONCE] } else { LONG[random.below(2)] };
            let message = message_of(random, exchange, 0, types, SMALL);
            let nonce = if exchange == QUICK_MODE { nonce_of(&message) } else { Vec::new() };
            add_nonce(random, cases, &message.encode(), &nonce);
        }
    }
    // The other message of an exchange is not looked at.
    for _ in 0..60 {
        let given = suiting_given(random);
        let identities = random_identities(random);
        let one = message_1(&given[0], 1, &identities);
        let two = long_message(&given[1], 2, offer_of(proposals(1, &given[0].book.quick[0], &given[1])), &identities);
        let [one_word, two_word] = [&one, &two].map(|message| word(&message.encode()));
        for (role, message) in ROLES.into_iter().zip([&one, &two]) {
            let known = format!("nonce {}", word(&nonce_of(message)));
            cases.one_line(format!("nonce {} {one_word} {two_word}\n", role.letter()), Some(known));
        }
    }
}

fn nonces_of_unreadable_messages(random: &mut Random, cases: &mut Cases) {
    for check in CHECKS {
        cases.detail = check.name.to_string();
        for flag in [0, 1] {
            let mut message = message_of(random, QUICK_MODE, flag, &[HASH, SA, NONCE], SMALL);
            if (check.breaks)(random, &mut message) {
                add_nonce(random, cases, &message.encode(), &[]);
            }
        }
    }
}

/// Every line about an end that is not there, beside one that is or is not.
fn before_a_first_fresh_end(random: &mut Random, cases: &mut Cases) {
    let given = suiting_given(random);
    let message = message_1(&given[0], 1, &None).encode();
    for present in [&[][..], &[Initiator], &[Responder], &ROLES] {
        let mut input = String::new();
        let mut answers = Vec::new();
        let mut add = |line: String, answer: &str| {
            input += &line;
            input += "\n";
            answers.push(answer.to_string());
        };
        for &role in present {
            add(given[role as usize].line(role), "fresh");
        }
        for role in ROLES.into_iter().filter(|role| !present.contains(role)) {
            let mut refused_end = given[role as usize].clone();
            refused_end.nonce.clear();
            for line in [
                state_line(role),
                refused_end.line(role),
                state_line(role),
                format!("kept {}", role.letter()),
                format!("tick {}", role.letter()),
                room_line(role, [0; 3]),
                deliver_line(role, true, &message),
                deliver_line(role, false, &[]),
            ] {
                add(line.clone(), if line.starts_with("fresh") { "refused 16" } else { "none" });
            }
            if role == Initiator {
                add(begin_line(1, &None), "none");
                add(begin_line(0, &None), "none");
            }
            add("nonce i - -".to_string(), "nonce -");
            add(format!("room {} 0 0 4097", role.letter()), "bad line");
            // The room that was asked for too early is not lent.
            add(given[role as usize].line(role), "fresh");
            add(format!("tick {}", role.letter()), "refused 8195");
            let zero = word(&[0; LEAST_ROOM]);
            add(format!("kept {}", role.letter()), &format!("kept {zero} {zero}"));
        }
        for role in ROLES {
            add(state_line(role), "idle sends 0");
        }
        for _ in 0..4 {
            cases.alone(input.clone().into_bytes(), &answers);
        }
    }
}

/// Lines that would change or show something if they were understood.
#[rustfmt::skip]
const BAD: &[&str] = &[
    // the number of words
    "state", "state ", "state i ", "state i r", "kept", "kept i i", "tick", "tick i yes", "room i 2048 2048",
    "room i 2048 2048 2048 2048", "room 2048 2048 2048", "begin", "begin 1", "begin 1 -", "begin 1 - - -", "begin i 1 - -",
    "deliver i yes", "deliver i -", "deliver yes -", "deliver i yes - -", "nonce i -", "nonce - -", "nonce i - - -", "fresh i",
    "fresh i 0101010101010101 0202020202020202 0000 256 256", "fresh 0101010101010101 0202020202020202 0000 256 256 0000000000000000",
    // roles
    "state I", "state R", "state x", "state ir", "state -", "state 0", "tick initiator", "kept responder", "nonce x - -",
    "deliver b yes -", "room x 2048 2048 2048",
    // sizes and other numbers
    "room i 4097 2048 2048", "room i 2048 4097 2048", "room i 2048 2048 4097", "room i 02048 2048 2048", "room i -1 2048 2048",
    "room i 0x800 2048 2048", "room i 2048 2048 65536", "room i 4294969344 2048 2048", "room i 2048 18446744073709553664 2048",
    "room i - 2048 2048", "room i  2048 2048", "begin 4294967296 - -", "begin 4294967297 - -", "begin 01 - -", "begin 00 - -",
    "begin -1 - -", "begin 0x1 - -", "begin - - -", "begin 1. - -", "begin 18446744073709551617 - -",
    "fresh i 0101010101010101 0202020202020202 0000 4294967296 256 0000000000000000",
    "fresh i 0101010101010101 0202020202020202 0000 256 4294967552 0000000000000000",
    "fresh i 0101010101010101 0202020202020202 0000 0256 256 0000000000000000",
    "fresh i 0101010101010101 0202020202020202 0000 256 00000100 0000000000000000",
    // cookies
    "fresh i 01010101010101 0202020202020202 0000 256 256 0000000000000000",
    "fresh i 010101010101010101 0202020202020202 0000 256 256 0000000000000000",
    "fresh i 0101010101010101 02020202020202 0000 256 256 0000000000000000",
    "fresh i 0101010101010101 - 0000 256 256 0000000000000000", "fresh i - 0202020202020202 0000 256 256 0000000000000000",
    "fresh i 010101010101010 0202020202020202 0000 256 256 0000000000000000",
    // bytes, yes or no
    "fresh i 0101010101010101 0202020202020202 000 256 256 0000000000000000",
    "fresh i 0101010101010101 0202020202020202 0000 256 256 000000000000000", "begin 1 0 -", "begin 1 - 0g", "begin 1 -- -",
    "deliver i yes 0", "deliver i yes 0g", "deliver i Yes -", "deliver i 1 -", "deliver i y -", "nonce i 0 -", "nonce i - 0g",
    // verbs
    "State i", "STATE i", "states i", "Begin 1 - -", "ticks i", "keep i", "rooms i 2048 2048 2048", "deliver\ti yes -", "end i",
    "Fresh i 0101010101010101 0202020202020202 0000 256 256 0000000000000000", "state i\r", "tick i\r", "begin 1 - -\r",
];

/// After a bad line both ends are as they were.
fn words(random: &mut Random, cases: &mut Cases) {
    for state in [State::Idle, State::Sent] {
        let mut followed = Followed::in_state(random, Initiator, state);
        for line in BAD {
            followed.exchange.line(line, Some("bad line".to_string()));
            let state = followed.state(Initiator);
            followed.exchange.show(Initiator, [Some(state), None]);
        }
        let numbers = ["4294967295", "4294967296"];
        for (number, known) in numbers.into_iter().zip(["send", "bad line"]) {
            let lines = [&followed.given[0].line(Initiator), &format!("begin {number} - -")];
            followed.exchange.line(lines[0], Some("fresh".to_string()));
            let written = || format!("send {}", word(&message_1(&followed.given[0], u32::MAX, &None).encode()));
            let known = if known == "send" { written() } else { known.to_string() };
            followed.exchange.line(lines[1], Some(known));
        }
        followed.exchange.end(cases);
    }
}

/// One byte more in a good line: none of these may stand anywhere in it.
fn good_lines_spoiled(random: &mut Random, cases: &mut Cases) {
    let mut followed = Followed::in_state(random, Responder, State::Idle);
    let good = [
        "tick i",
        "state r",
        "kept r",
        "room r 2048 2048 2048",
        "begin 7 01000000c0000201 01000000c0000202",
        "deliver r no 00",
        "nonce r - 00",
        "fresh r 0101010101010101 0202020202020202 0000 256 257 0000000000000000",
    ];
    for line in good {
        for at in 0..=line.len() {
            for byte in [" ", "\t", "\r", "\0", "-", "g", "G", ".", "/", ":", "\u{663}"] {
                let spoiled = [&line[..at], byte, &line[at..]].concat();
                followed.exchange.line(&spoiled, Some("bad line".to_string()));
            }
        }
        for role in ROLES {
            let state = followed.state(role);
            followed.exchange.show(role, [Some(state), None]);
        }
    }
    followed.exchange.end(cases);
}
