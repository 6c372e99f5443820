//! Identities: every type with every size, names sound and spoiled, and the words of the line.

use super::{Group, PLAIN};
use crate::cases::Cases;
use crate::identity::{addresses, body, random_body, random_element, random_name, ELEMENT, NAME, TEXTS};
use crate::message::{message_of, opaque, IDENTITY, MAIN_MODE, QUICK_MODE, SIGNATURE};
use crate::offer::SMALL;
use crate::random::Random;
use crate::tree::{constructed, primitive, random_tree, wrapped, Tree, DEEPEST, NAME_TAG};

pub const GROUP: Group = Group {
    name: "identities",
    answers: &[&["done", "refused 18", "read", "bad line"]],
    at_least: 50,
    kinds: &[
        ("lawful identity", lawful_identities),
        ("every type and size", every_type_and_size),
        ("protocol and port", protocols_and_ports),
        ("too short", too_short),
        ("tree of every depth", trees_of_every_depth),
        ("every outer tag", every_outer_tag),
        ("bytes behind the element", bytes_behind_the_element),
        ("byte changed", bytes_changed),
        ("byte cut out or put in", bytes_cut_out_or_put_in),
        ("identity in a message", identities_in_messages),
        ("words of the line", words),
    ],
    ..PLAIN
};

const PHASES: [u8; 2] = [MAIN_MODE, QUICK_MODE];

fn lawful_identities(random: &mut Random, cases: &mut Cases) {
    for exchange in PHASES {
        for _ in 0..2_000 {
            cases.identity(exchange, &random_body(random, exchange), Some(true));
        }
    }
}

/// Whether so many bytes, which are one primitive element of an odd tag where they can be, suit the type.
fn suits(exchange: u8, kind: u8, size: usize) -> bool {
    let address = addresses(exchange).contains(&(kind, size));
    let text = exchange == MAIN_MODE && TEXTS.contains(&kind) && (1..=255).contains(&size);
    let element = exchange == MAIN_MODE && kind == ELEMENT && size == OCTETS;
    address || text || element
}

/// The data is `04 0b` and more bytes: one element where it has just so many bytes, and never a name.
const OCTETS: usize = 13;

fn every_type_and_size(random: &mut Random, cases: &mut Cases) {
    let sizes = || (0..=40).chain([63, 64, 127, 128, 129, 254, 255, 256, 257, 511, 512]);
    for exchange in PHASES {
        for kind in 0..=255 {
            let limited = !(1..=12).contains(&kind);
            for size in sizes().filter(|&size| !limited || matches!(size, 1 | 4 | 8 | 16 | 32)) {
                let mut data = random.bytes(size);
                data.splice(..size.min(2), [4, OCTETS as u8 - 2].into_iter().take(size));
                cases.identity(exchange, &body(kind, 0, 0, &data), Some(suits(exchange, kind, size)));
            }
        }
    }
}

/// In exchange 2 both are 0; in exchange 32 they are free.
fn protocols_and_ports(random: &mut Random, cases: &mut Cases) {
    for exchange in PHASES {
        for protocol in 0..=255 {
            for port in [0, 1, 255, 256, 65_535] {
                let mut identity = random_body(random, exchange);
                identity[1] = protocol;
                identity[2..4].copy_from_slice(&u16::to_be_bytes(port));
                cases.identity(exchange, &identity, Some(exchange == QUICK_MODE || (protocol, port) == (0, 0)));
            }
        }
    }
}

fn too_short(random: &mut Random, cases: &mut Cases) {
    for exchange in PHASES {
        for kind in 0..=255 {
            for size in 0..4 {
                let whole = [&[kind, 0, 0], random.bytes(1).as_slice()].concat();
                cases.identity(exchange, &whole[..size], Some(false));
            }
        }
    }
}

/// Types 9 and 10 in exchange 2; in exchange 32 neither is known.
fn add_tree(cases: &mut Cases, bytes: &[u8], answer: Option<&str>) {
    let name = answer.map(|answer| answer == "name");
    let element = answer.map(|answer| answer != "none");
    cases.identity(MAIN_MODE, &body(NAME, 0, 0, bytes), name);
    cases.identity(MAIN_MODE, &body(ELEMENT, 0, 0, bytes), element);
    cases.identity(QUICK_MODE, &body(NAME, 0, 0, bytes), Some(false));
}

fn trees_of_every_depth(random: &mut Random, cases: &mut Cases) {
    for depth in 1..=DEEPEST + 1 {
        for _ in 0..100 {
            let tree = random_tree(random, depth, 3);
            add_tree(cases, &tree.encode(), Some(tree.answer()));
        }
        for leaf in [primitive(0x04, Vec::new()), constructed(NAME_TAG, Vec::new())] {
            let tree = wrapped(leaf, depth - 1);
            add_tree(cases, &tree.encode(), Some(tree.answer()));
        }
    }
    for size in [255, 256, 1_000, 8_000] {
        let tree = wrapped(primitive(0x04, random.bytes(size)), 1);
        add_tree(cases, &tree.encode(), Some("name"));
    }
}

fn every_outer_tag(random: &mut Random, cases: &mut Cases) {
    for tag in 0..=255 {
        let tree = Tree { tag, ..random_name(random) };
        let answer = match tag {
            NAME_TAG => "name",
            _ if tag % 32 == 31 => "none",
            _ => "element",
        };
        add_tree(cases, &tree.encode(), Some(answer));
    }
}

fn bytes_behind_the_element(random: &mut Random, cases: &mut Cases) {
    for _ in 0..300 {
        let (name, element) = (random_name(random).encode(), random_element(random).encode());
        for more in [&[0], [0; 2].as_slice(), &[NAME_TAG, 0], &name] {
            add_tree(cases, &[&name, more].concat(), Some("none"));
            add_tree(cases, &[&element, more].concat(), Some("none"));
        }
    }
}

fn bytes_changed(random: &mut Random, cases: &mut Cases) {
    for exchange in PHASES {
        for _ in 0..60 {
            let identity = random_body(random, exchange);
            for at in 0..identity.len().min(60) {
                for changed in [identity[at] ^ 1, identity[at].wrapping_sub(1), random.byte()] {
                    let mut damaged = identity.clone();
                    damaged[at] = changed;
                    cases.identity(exchange, &damaged, None);
                }
            }
        }
    }
}

fn bytes_cut_out_or_put_in(random: &mut Random, cases: &mut Cases) {
    for exchange in PHASES {
        for _ in 0..60 {
            let identity = random_body(random, exchange);
            for at in 0..identity.len().min(60) {
                cases.identity(exchange, &[&identity[..at], &identity[at + 1..]].concat(), None);
                cases.identity(exchange, &[&identity[..at], &[random.byte()], &identity[at..]].concat(), None);
            }
        }
    }
}

/// Lawful, with a byte less, and as an identity of the other exchange.
fn identities_in_messages(random: &mut Random, cases: &mut Cases) {
    for exchange in PHASES {
        for _ in 0..500 {
            let mut message = message_of(random, exchange, 0, &[IDENTITY, SIGNATURE], SMALL);
            cases.lawful(&message);
            let other = if exchange == MAIN_MODE { QUICK_MODE } else { MAIN_MODE };
            message.payloads[0] = opaque(IDENTITY, random_body(random, other));
            cases.read(&message.encode(), None);
            let kind = random.one_of(&[0, 12, 255]);
            message.payloads[0] = opaque(IDENTITY, body(kind, 0, 0, &[1; 4]));
            cases.refused(&message, 18);
        }
    }
}

fn words(_: &mut Random, cases: &mut Cases) {
    let good = [
        ("identity 2 -", "refused 18"),
        ("identity 32 -", "refused 18"),
        ("identity 2 010000000a000001", "done"),
        ("identity 32 01FFffFF0A000001", "done"),
        ("identity 2 010000010a000001", "refused 18"),
        ("identity 2 090000003000", "done"),
    ];
    good.iter().for_each(|(line, answer)| cases.words(line, answer));
    let exchanges =
        ["0", "1", "3", "5", "02", "032", "+2", "2.", "2,", "3 2", "33", "-", "", "0x2", "20", "256", "258", "two"];
    let of_exchange = exchanges.iter().map(|exchange| format!("identity {exchange} 010000000a000001"));
    let others = [
        "identity",
        "identity 2",
        "identity 32 ",
        "identity 2 010000000a00000",
        "identity 2 01 0000000a000001",
        "identity 2 010000000a000001 ",
        "identity  2 010000000a000001",
        "identity 010000000a000001",
        "identity 010000000a000001 2",
        "Identity 2 010000000a000001",
        "identity2 010000000a000001",
        "read",
        "read ",
        "read 2 -",
        "read - -",
        "read 0",
        "read 0g",
        "Read -",
        "reads -",
        "read\t-",
        "read -\r",
        "identity 2 -\r",
        "identity 2\r -",
        "identity 2 --",
        "identity \u{0662} -",
        "identity 2 \0",
        "#identity 2 -\nidentity",
        "\nread",
    ];
    for byte in (0..=255).filter(|&byte| byte != b'\n') {
        let line = [b"identity ", [byte].as_slice(), b" 010000000a000001\n"].concat();
        cases.lines(line, &[if byte == b'2' { "done" } else { "bad line" }.to_string()]);
    }
    for line in of_exchange.chain(others.map(str::to_string)) {
        cases.words(&line, "bad line");
    }
}
