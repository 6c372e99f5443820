//! Port 4500: every short message over a small alphabet, and long ones with the marker whole or spoiled.

use super::{Group, PLAIN};
use crate::cases::{strings, Cases};
use crate::random::Random;

pub const GROUP: Group = Group {
    name: "port",
    answers: &[&["keepalive", "key-exchange", "esp", "refused 16"]],
    at_least: 1,
    kinds: &[
        ("every message to 6 bytes", every_message_to_6_bytes),
        ("every single byte", every_single_byte),
        ("long message", long_messages),
    ],
    ..PLAIN
};

fn every_message_to_6_bytes(_: &mut Random, cases: &mut Cases) {
    for message in (0..=6).flat_map(|length| strings(&[0, 1, 4, 254, 255], length)) {
        let answer = match message.as_slice() {
            [255] => "keepalive".to_string(),
            [] | [_] | [_, _] | [_, _, _] => "refused 16".to_string(),
            [0, 0, 0, 0, rest @ ..] => format!("key-exchange 4 {}", rest.len()),
            whole => format!("esp {}", whole.len()),
        };
        cases.port(&message, answer);
    }
}

fn every_single_byte(_: &mut Random, cases: &mut Cases) {
    for byte in 0..=255 {
        let answer = if byte == 255 { "keepalive" } else { "refused 16" };
        cases.port(&[byte], answer.to_string());
    }
}

fn long_messages(random: &mut Random, cases: &mut Cases) {
    for length in [7, 28, 127, 128, 255, 256, 1_400, 8_192, 8_196, 16_384, 32_760] {
        for rest in [vec![0; length], vec![255; length], random.bytes(length)] {
            let whole = length + 4;
            cases.port(&[&[0; 4], rest.as_slice()].concat(), format!("key-exchange 4 {length}"));
            cases.port(&[&[255; 4], rest.as_slice()].concat(), format!("esp {whole}"));
            for at in 0..4 {
                let mut marker = [0; 4];
                marker[at] = random.one_of(&[1, 128, 255]);
                cases.port(&[&marker, rest.as_slice()].concat(), format!("esp {whole}"));
            }
        }
    }
}
