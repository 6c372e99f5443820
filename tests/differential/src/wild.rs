//! Exchanges in which anything happens: messages changed, cut, made longer, taken from another exchange or sent back, hashes
//! said to fail, too little room, ends begun anew. Only that both programs agree is asked of them.

use crate::cases::word;
use crate::exchange::{
    message_1, random_cookie, random_given, random_identities, random_message_id, random_nonce, suiting_given,
    unlawful_identities, Exchange, Given, Identities, Role, HASH_BYTES, LARGEST_ROOM, LEAST_ROOM, ROLES,
};
use crate::layout::set;
use crate::message::{
    message_of, padding, CERTIFICATE, EXCHANGES, HASH, HEADER_SIZE, IDENTITY, INFORMATIONAL, MAIN_MODE, NAT_OA, NONCE,
    NOTICE, QUICK_MODE, SA, VENDOR,
};
use crate::offer::{LARGE, SMALL};
use crate::policy::{random_book, MOST_LINES};
use crate::random::Random;
use Role::{Initiator, Responder};

/// An exchange with what a network can do to it.
pub struct Wild {
    pub exchange: Exchange,
    given: [Given; 2],
    id: u32,
    pub identities: Identities,
    /// What the ends of another exchange wrote.
    foreign: Vec<Vec<u8>>,
}

impl Wild {
    pub fn new(random: &mut Random) -> Wild {
        let mut given = if random.once_in(8) {
            let lines = random.below(MOST_LINES + 1);
            random_given(random, lines)
        } else {
            suiting_given(random)
        };
        if random.once_in(40) {
            given[1].cookies[random.below(2)] = random_cookie(random);
        }
        let (id, identities) = (random_message_id(random), random_identities(random));
        let foreign = foreign(random, &given, id, &identities);
        Wild { exchange: Exchange::new(&given), given, id, identities, foreign }
    }

    fn begin(&mut self, random: &mut Random) {
        let spoiled = if random.once_in(10) { unlawful_identities(random) } else { self.identities.clone() };
        let id = if random.once_in(30) { 0 } else { self.id };
        self.exchange.begin(id, &spoiled, None);
    }

    /// The next message of an honest exchange.
    pub fn go_on(&mut self, random: &mut Random) {
        let [initiator, responder] = &self.exchange.written;
        match (initiator.last(), responder.last()) {
            (None, _) => self.begin(random),
            (Some(message), None) => {
                let message = message.clone();
                self.exchange.deliver(Responder, true, &message, None);
            }
            (Some(last), Some(message)) => {
                // Message 3 is written once message 2 has arrived.
                let (to, message) = if is_message_3(last) { (Responder, last) } else { (Initiator, message) };
                let message = message.clone();
                self.exchange.deliver(to, true, &message, None);
            }
        }
    }

    /// Any message that was written here, or that would be.
    fn any_message(&self, random: &mut Random) -> Vec<u8> {
        let written: Vec<_> = self.exchange.written.iter().flatten().collect();
        if written.is_empty() {
            return message_1(&self.given[0], self.id, &self.identities).encode();
        }
        written[random.below(written.len())].clone()
    }

    pub fn changed(&mut self, random: &mut Random) {
        let message = self.any_message(random);
        let changed = match random.below(10) {
            0 | 1 => byte_changed(random, message),
            2..=5 => spot_changed(random, message),
            6 => cut(random, message),
            7 => extended(random, message),
            8 => hash_changed(random, message),
            _ => self.crafted(random),
        };
        let to = random.one_of(&ROLES);
        self.exchange.deliver(to, true, &changed, None);
    }

    /// A message of other payloads, sizes and exchanges, under this exchange's cookies and message ID.
    fn crafted(&self, random: &mut Random) -> Vec<u8> {
        const SHAPES: &[&[u8]] = &[
            &[HASH],
            &[HASH, SA, NONCE],
            &[HASH, SA, NONCE, IDENTITY, IDENTITY],
            &[HASH, SA],
            &[HASH, NONCE, SA],
            &[HASH, SA, NONCE, IDENTITY],
            &[HASH, SA, NONCE, IDENTITY, IDENTITY, IDENTITY],
            &[SA, NONCE],
            &[HASH, SA, NONCE, NAT_OA, NAT_OA],
            &[HASH, SA, NONCE, CERTIFICATE],
            &[HASH, HASH],
            &[HASH, NOTICE],
            &[VENDOR],
        ];
        let types = SHAPES[random.below(SHAPES.len())];
        let exchange = [QUICK_MODE, QUICK_MODE, QUICK_MODE, random.one_of(&EXCHANGES)][random.below(4)];
        let types = if exchange == INFORMATIONAL { &[HASH, NOTICE] } else { types };
        let flag = u8::from(!random.once_in(8));
        let sizes = random.one_of(&[SMALL, SMALL, LARGE]);
        let mut message = message_of(random, exchange, flag, types, sizes);
        [message.initiator, message.responder] = self.given[0].cookies.map(u64::from_be_bytes);
        if exchange != MAIN_MODE {
            message.id = self.id;
        }
        message.encode()
    }

    pub fn anything(&mut self, random: &mut Random) {
        let role = random.one_of(&ROLES);
        let message = self.any_message(random);
        match random.below(16) {
            0 | 1 => {
                self.exchange.tick(role, None);
            }
            2 => {
                self.exchange.deliver(role, false, &message, None);
            }
            3 | 4 => {
                // Also to the end that wrote it.
                self.exchange.deliver(role, true, &message, None);
            }
            5 | 6 => {
                let foreign = &self.foreign[random.below(self.foreign.len())].clone();
                self.exchange.deliver(role, true, foreign, None);
            }
            7 => self.small_room(random, role),
            8 => self.exchange.room(role, random_rooms(random)),
            9 => self.begin(random),
            10 => self.fresh(random, role),
            11 => (0..5).for_each(|_| {
                self.exchange.tick(role, None);
            }),
            _ => self.changed(random),
        }
    }

    /// A line in too small a room, then room again.
    fn small_room(&mut self, random: &mut Random, role: Role) {
        let mut sizes = random_rooms(random);
        sizes[random.below(3)] = random.one_of(&[0, 1, LEAST_ROOM - 1]);
        self.exchange.room(role, sizes);
        match random.below(3) {
            0 => self.begin(random),
            1 => {
                self.exchange.tick(role, None);
            }
            _ => {
                let message = self.any_message(random);
                self.exchange.deliver(role, !random.once_in(4), &message, None);
            }
        }
        if !random.once_in(4) {
            self.exchange.room(role, [LEAST_ROOM; 3]);
        }
    }

    /// An end anew, or one that is refused.
    fn fresh(&mut self, random: &mut Random, role: Role) {
        let mut given = self.given[role as usize].clone();
        let spoiled_book = random.once_in(4);
        match random.below(6) {
            0 => given.cookies[random.below(2)] = [0; 8],
            1 => given.ah = random.one_of(&[0, 255]),
            2 => given.esp = random.one_of(&[0, 255]),
            3 => given.nonce = random.one_of(&[&[1; 7][..], &[], &[2; 257]]).to_vec(),
            4 => given.nonce = random_nonce(random),
            _ => given.book = random_book(random),
        }
        let mut line = given.line(role);
        if spoiled_book {
            let book = word(&given.book.encode());
            line = line.replacen(&format!(" {book} "), &format!(" {book}00 "), 1);
        }
        self.exchange.step(role, &line, None);
    }
}

fn is_message_3(message: &[u8]) -> bool {
    message.len() == 76
}

/// What ends wrote that differ in a cookie, the message ID, or all but these.
fn foreign(random: &mut Random, given: &[Given; 2], id: u32, identities: &Identities) -> Vec<Vec<u8>> {
    let mut others = given.clone();
    let mut other_id = id;
    match random.below(4) {
        0 => {
            let place = random.below(2);
            let cookie = random_cookie(random);
            others.iter_mut().for_each(|end| end.cookies[place] = cookie);
        }
        1 => other_id = random_message_id(random),
        2 => {
            let cookies = given[0].cookies;
            others = suiting_given(random);
            others.iter_mut().for_each(|end| end.cookies = cookies);
        }
        _ => others[random.below(2)].nonce = random_nonce(random),
    }
    let mut other = Exchange::new(&others);
    let identities = if random.once_in(2) { identities.clone() } else { random_identities(random) };
    other.begin(other_id, &identities, None);
    for to in [Responder, Initiator] {
        if let Some(message) = other.written[to.other() as usize].last().cloned() {
            other.deliver(to, true, &message, None);
        }
    }
    let mut written = other.written.concat();
    written.push(message_1(&others[0], other_id, &identities).encode());
    written
}

fn random_rooms(random: &mut Random) -> [usize; 3] {
    let enough = [LEAST_ROOM, LEAST_ROOM, LARGEST_ROOM, random.between(LEAST_ROOM, LARGEST_ROOM)];
    [(); 3].map(|()| random.one_of(&enough))
}

fn hash_changed(random: &mut Random, mut message: Vec<u8>) -> Vec<u8> {
    let hash = random.bytes(32);
    message[HASH_BYTES].copy_from_slice(&hash);
    message
}

fn byte_changed(random: &mut Random, mut message: Vec<u8>) -> Vec<u8> {
    let at = random.below(message.len());
    let byte = message[at];
    message[at] = [byte ^ 1, byte.wrapping_add(1), byte ^ 128, 0, random.byte()][random.below(5)];
    message
}

/// A byte of the header, of a payload's header or of the first proposal set to a value that matters there.
fn spot_changed(random: &mut Random, mut message: Vec<u8>) -> Vec<u8> {
    const SPOTS: &[(usize, &[u8])] = &[
        (7, &[0, 1]),
        (15, &[0, 1]),
        (16, &[0, 1, 6, 14, 255]),
        (17, &[0x10, 0x01, 0x21, 0x12]),
        (17, &[0x10, 0x01]),
        (18, &[1, 2, 3, 4, 5, 33]),
        (18, &[1, 3]),
        (19, &[0, 2, 3]),
        (20, &[0, 255]),
        (23, &[0, 1, 255]),
        (28, &[0, 5, 6, 10, 14]),
        (29, &[1]),
        (31, &[3, 35, 37]),
        (64, &[0, 5, 6, 8, 13]),
        (64, &[6]),
        (67, &[11, 255]),
        (71, &[0, 2]),
        (75, &[0, 2]),
        (76, &[1, 2, 3]),
        (77, &[1]),
        (80, &[0, 1, 2, 8, 9]),
        (81, &[0, 1, 2, 3, 4]),
        (81, &[0, 1, 4]),
        (82, &[0, 3, 5]),
        (83, &[0, 2, 9]),
        (86, &[0]),
        (88, &[3]),
        (92, &[0, 2]),
        (93, &[20, 128, 129]),
        (96, &[0]),
        (96, &[0]),
        (99, &[1, 2, 3, 4]),
        (103, &[1, 20]),
    ];
    for _ in 0..random.between(1, 2) {
        let (at, values) = SPOTS[random.below(SPOTS.len())];
        if let Some(byte) = message.get_mut(at) {
            *byte = random.one_of(values);
        }
    }
    if random.once_in(6) {
        // All of the SPI but its last byte.
        message.get_mut(84..87).into_iter().for_each(|front| front.fill(0));
    }
    if random.once_in(6) && message.len() > 140 {
        // Somewhere in the nonce, the identities and the padding.
        let at = random.between(message.len() - 40, message.len() - 1);
        message[at] = random.byte();
    }
    message
}

/// Cut anywhere, the header's length right or not.
fn cut(random: &mut Random, mut message: Vec<u8>) -> Vec<u8> {
    let size = match random.below(3) {
        0 => message.len() - random.between(1, 16),
        1 => HEADER_SIZE + 16 * random.below((message.len() - HEADER_SIZE) / 16),
        _ => random.below(message.len()),
    };
    message.truncate(size);
    if size >= HEADER_SIZE && random.once_in(2) {
        set(&mut message, 24, 4, size as u64);
    }
    message
}

/// Bytes behind the last, zero or not, the header's length right or not.
fn extended(random: &mut Random, mut message: Vec<u8>) -> Vec<u8> {
    let more = random.one_of(&[1, 4, 16, 16, 32, 2_000]);
    message.resize(message.len() + more, random.one_of(&[0, 0, 1]));
    if !random.once_in(4) {
        let padding = padding(message.len());
        message.extend(padding);
        let length = message.len() as u64;
        set(&mut message, 24, 4, length);
    }
    message
}
