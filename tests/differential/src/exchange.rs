//! Lines about quick mode ends. Messages that the ends of an exchange write are taken from the second program, so that the
//! next line can deliver them; where nothing on the way changes a message, every answer is known, because the messages
//! are made here too and what the ends do with them is followed.

use crate::cases::{bytes, refused, word, Cases};
use crate::identity;
use crate::message::{message_of, opaque, sa, Message, Payload, HASH, IDENTITY, NONCE, QUICK_MODE};
use crate::offer::{fixed, lifetime, proposal_of, transform, Offer, Proposal, AH, SECONDS, SMALL};
use crate::policy::{self, book_of, suiting_id, Book, Line, MOST_LINES};
use crate::random::Random;
use second::bench::Bench;

pub const LEAST_ROOM: usize = 2_048;
pub const LARGEST_ROOM: usize = 4_096;
/// Where the 32 hash bytes stand in every message of quick mode.
pub const HASH_BYTES: std::ops::Range<usize> = 32..64;

#[derive(Clone, Copy, PartialEq, Debug)]
pub enum Role {
    Initiator,
    Responder,
}

use Role::{Initiator, Responder};

pub const ROLES: [Role; 2] = [Initiator, Responder];

impl Role {
    pub fn letter(self) -> char {
        match self {
            Initiator => 'i',
            Responder => 'r',
        }
    }

    pub fn other(self) -> Role {
        match self {
            Initiator => Responder,
            Responder => Initiator,
        }
    }
}

/// What a fresh end is given.
#[derive(Clone)]
pub struct Given {
    pub cookies: [[u8; 8]; 2],
    pub book: Book,
    pub ah: u32,
    pub esp: u32,
    pub nonce: Vec<u8>,
}

impl Given {
    pub fn spi(&self, protocol: u8) -> u32 {
        if protocol == AH {
            self.ah
        } else {
            self.esp
        }
    }

    pub fn line(&self, role: Role) -> String {
        let [initiator, responder] = self.cookies.map(|cookie| word(&cookie));
        let (book, nonce) = (word(&self.book.encode()), word(&self.nonce));
        format!("fresh {} {initiator} {responder} {book} {} {} {nonce}", role.letter(), self.ah, self.esp)
    }
}

pub fn random_cookie(random: &mut Random) -> [u8; 8] {
    match random.below(8) {
        0 => [0, 0, 0, 0, 0, 0, 0, 1],
        1 => [1, 0, 0, 0, 0, 0, 0, 0],
        _ => (1 + random.number(63)).to_be_bytes(),
    }
}

pub fn random_spi(random: &mut Random) -> u32 {
    match random.below(6) {
        0 => 256,
        1 => u32::MAX,
        2 => random.between(257, 70_000) as u32,
        _ => random.between(256, u32::MAX as usize) as u32,
    }
}

/// Of 8 to 256 bytes.
pub fn random_nonce(random: &mut Random) -> Vec<u8> {
    let size = [8, 9, 16, 32, 255, 256, random.between(8, 64), random.between(8, 256)][random.below(8)];
    random.bytes(size)
}

pub fn random_message_id(random: &mut Random) -> u32 {
    [1, 256, u32::MAX, 1 + random.number(31) as u32, 1 + random.number(31) as u32][random.below(5)]
}

pub type Identities = Option<[Vec<u8>; 2]>;

/// None, or two of any types.
pub fn random_identities(random: &mut Random) -> Identities {
    let body = |random: &mut Random| identity::random_body(random, QUICK_MODE);
    random.once_in(2).then(|| [body(random), body(random)])
}

/// One body is missing, too short or too long, or has a type that none has.
pub fn unlawful_identities(random: &mut Random) -> Identities {
    let mut bodies = [(); 2].map(|()| identity::random_body(random, QUICK_MODE));
    let body = &mut bodies[random.below(2)];
    match random.below(4) {
        0 => body.clear(),
        1 => body.truncate(3),
        2 => body.push(0),
        _ => body[0] = random.one_of(&[0, 2, 3, 9, 10, 11, 12, 255]),
    }
    Some(bodies)
}

/// Ends with the same cookies, the initiator with so many quick lines.
pub fn random_given(random: &mut Random, lines: usize) -> [Given; 2] {
    let cookies = [random_cookie(random), random_cookie(random)];
    let end = |random: &mut Random, quick: usize| {
        let main = random.below(3);
        let book = book_of(random, main, quick);
        Given { cookies, book, ah: random_spi(random), esp: random_spi(random), nonce: random_nonce(random) }
    };
    let others = random.below(MOST_LINES + 1);
    [end(random, lines), end(random, others)]
}

/// The same, and the responder has a line for one of the sets, often among others.
pub fn suiting_given(random: &mut Random) -> [Given; 2] {
    let lines = [1, 1, 2, random.between(1, MOST_LINES)][random.below(4)];
    let mut given = random_given(random, lines);
    let offered = given[0].book.quick[random.below(lines)];
    let longer = policy::MOST_QUICK_SECONDS - offered.seconds;
    let seconds = offered.seconds + [0, longer, random.below(longer as usize + 1) as u32][random.below(3)];
    let responders = &mut given[1].book.quick;
    responders.truncate(MOST_LINES - 1);
    responders.insert(random.below(responders.len() + 1), Line { seconds, ..offered });
    given
}

/// The set that is chosen, as a place in the initiator's lines.
pub fn chosen_line([initiator, responder]: &[Given; 2]) -> Option<usize> {
    let suits = |offered: &Line, line: &Line| {
        line.protocols == offered.protocols && line.mode == offered.mode && offered.seconds <= line.seconds
    };
    initiator.book.quick.iter().position(|offered| responder.book.quick.iter().any(|line| suits(offered, line)))
}

/// The proposals of one line as they are offered, with an end's own SPIs.
pub fn proposals(number: u8, line: &Line, own: &Given) -> Vec<Proposal> {
    let proposal = |&protocol: &u8| {
        let mut attributes = line.wanted(protocol);
        attributes.extend(lifetime(QUICK_MODE, SECONDS, fixed(2, line.seconds as u16)));
        let offered = transform(1, suiting_id(protocol), attributes);
        let spi = own.spi(protocol).to_be_bytes().to_vec();
        proposal_of(number, protocol, spi, vec![offered])
    };
    line.protocols.iter().map(proposal).collect()
}

pub fn offer_of(proposals: Vec<Proposal>) -> Offer {
    Offer { doi: 1, situation: 1, proposals, rest: Vec::new() }
}

/// A message of quick mode as an end writes it.
pub fn quick_message(given: &Given, id: u32, payloads: Vec<Payload>) -> Message {
    let mut any = message_of(&mut Random::new(1, "fields"), QUICK_MODE, 1, &[HASH], SMALL);
    any.payloads = [vec![opaque(HASH, vec![0; 32])], payloads].concat();
    let [initiator, responder] = given.cookies.map(u64::from_be_bytes);
    Message { initiator, responder, id, ..any }
}

/// Message 1 or 2.
pub fn long_message(given: &Given, id: u32, offer: Offer, identities: &Identities) -> Message {
    let mut payloads = vec![sa(offer), opaque(NONCE, given.nonce.clone())];
    payloads.extend(identities.iter().flatten().map(|body| opaque(IDENTITY, body.clone())));
    quick_message(given, id, payloads)
}

pub fn message_1(given: &Given, id: u32, identities: &Identities) -> Message {
    let sets = given.book.quick.iter().zip(1..).flat_map(|(line, number)| proposals(number, line, given));
    long_message(given, id, offer_of(sets.collect()), identities)
}

/// Both programs' lines of one case, with the ends of the second program beside them.
pub struct Exchange {
    bench: Bench,
    input: String,
    answers: Vec<Option<String>>,
    /// What each end wrote, the initiator's first.
    pub written: [Vec<Vec<u8>>; 2],
}

impl Exchange {
    /// Fresh ends, with as much lent as an end asks for. Cases go through one run of a program, so that each has to begin
    /// with both.
    pub fn new(given: &[Given; 2]) -> Exchange {
        let mut exchange = Exchange {
            bench: Bench::default(),
            input: String::new(),
            answers: Vec::new(),
            written: [Vec::new(), Vec::new()],
        };
        for (role, given) in ROLES.into_iter().zip(given) {
            exchange.line(&given.line(role), Some("fresh".to_string()));
            exchange.line(&room_line(role, [LEAST_ROOM; 3]), Some("room".to_string()));
            exchange.line(&state_line(role), Some("idle sends 0".to_string()));
        }
        exchange
    }

    /// One line; the second program's answer.
    pub fn line(&mut self, line: &str, known: Option<String>) -> String {
        self.input += line;
        self.input += "\n";
        self.answers.push(known);
        self.bench.answer(line.as_bytes()).expect("a line that gets an answer")
    }

    /// One line about an end, with its state and its kept buffers behind it.
    pub fn step(&mut self, role: Role, line: &str, known: Option<String>) -> String {
        let answer = self.step_unseen(role, line, known);
        self.show(role, [None, None]);
        answer
    }

    fn step_unseen(&mut self, role: Role, line: &str, known: Option<String>) -> String {
        let answer = self.line(line, known);
        self.written[role as usize].extend(answer.strip_prefix("send ").map(bytes));
        answer
    }

    /// Asks for state and kept buffers, with what is known of them. These lines change nothing.
    pub fn show(&mut self, role: Role, [state, kept]: [Option<String>; 2]) {
        for (line, known) in [(state_line(role), state), (format!("kept {}", role.letter()), kept)] {
            self.input += &line;
            self.input += "\n";
            self.answers.push(known);
        }
    }

    pub fn begin(&mut self, id: u32, identities: &Identities, known: Option<String>) -> String {
        self.step(Initiator, &begin_line(id, identities), known)
    }

    pub fn deliver(&mut self, role: Role, hash_holds: bool, message: &[u8], known: Option<String>) -> String {
        self.step(role, &deliver_line(role, hash_holds, message), known)
    }

    pub fn tick(&mut self, role: Role, known: Option<String>) -> String {
        self.step(role, &format!("tick {}", role.letter()), known)
    }

    pub fn room(&mut self, role: Role, sizes: [usize; 3]) {
        self.step(role, &room_line(role, sizes), Some("room".to_string()));
    }

    /// Both ends are shown once more; whether the ends are open is counted there.
    pub fn finish(mut self, cases: &mut Cases) {
        for role in ROLES {
            self.show(role, [None, None]);
        }
        self.end(cases);
    }

    pub fn end(self, cases: &mut Cases) {
        cases.several_lines(self.input.into_bytes(), self.answers);
    }
}

/// State words of both ends in the answers to an exchange that is finished.
pub fn last_states(answers: &[String]) -> Option<[&String; 2]> {
    match answers {
        [.., initiator, _, responder, _] => Some([initiator, responder]),
        _ => None,
    }
}

pub fn room_line(role: Role, [sent, got, output]: [usize; 3]) -> String {
    format!("room {} {sent} {got} {output}", role.letter())
}

pub fn state_line(role: Role) -> String {
    format!("state {}", role.letter())
}

pub fn begin_line(id: u32, identities: &Identities) -> String {
    let [one, other] = identities.clone().unwrap_or_default();
    format!("begin {id} {} {}", word(&one), word(&other))
}

pub fn deliver_line(role: Role, hash_holds: bool, message: &[u8]) -> String {
    format!("deliver {} {} {}", role.letter(), if hash_holds { "yes" } else { "no" }, word(message))
}

pub const STATES: [State; 4] = [State::Idle, State::Sent, State::Open, State::GivenUp];

#[derive(Clone, Copy, PartialEq, Debug)]
pub enum State {
    Idle,
    /// Or Half.
    Sent,
    Open,
    GivenUp,
}

/// An exchange on whose network messages get lost, repeated and reordered, but none is changed save in its hash bytes.
/// What the ends do is followed as far as a table of states and messages goes.
pub struct Followed {
    pub exchange: Exchange,
    pub given: [Given; 2],
    pub id: u32,
    pub identities: Identities,
    /// Messages 1, 2 and 3, where the responder's policy suits; only message 1 otherwise.
    pub messages: Vec<Vec<u8>>,
    agreed: String,
    pub states: [State; 2],
    sends: [u8; 2],
    /// The sent and the got buffer of each end.
    kept: [[Vec<u8>; 2]; 2],
}

impl Followed {
    pub fn new(given: [Given; 2], id: u32, identities: Identities) -> Followed {
        let exchange = Exchange::new(&given);
        let mut messages = vec![message_1(&given[0], id, &identities).encode()];
        let mut agreed = String::new();
        if let Some(chosen) = chosen_line(&given) {
            let taken = |own: &Given| proposals(chosen as u8 + 1, &given[0].book.quick[chosen], own);
            messages.push(long_message(&given[1], id, offer_of(taken(&given[1])), &identities).encode());
            messages.push(quick_message(&given[0], id, Vec::new()).encode());
            agreed = agreed_values(chosen + 1, given.each_ref().map(taken), given.each_ref().map(|end| &end.nonce));
        }
        let kept = || [vec![0; LEAST_ROOM], vec![0; LEAST_ROOM]];
        Followed {
            exchange,
            given,
            id,
            identities,
            messages,
            agreed,
            states: [State::Idle; 2],
            sends: [0; 2],
            kept: [kept(), kept()],
        }
    }

    /// An exchange in which that end is in that state, and the other one has done no more than that takes.
    pub fn in_state(random: &mut Random, role: Role, state: State) -> Followed {
        let given = suiting_given(random);
        let mut followed = Followed::new(given, random_message_id(random), random_identities(random));
        followed.bring_to(role, state);
        followed
    }

    pub fn bring_to(&mut self, role: Role, state: State) {
        let arrivals = match (role, state) {
            (Initiator, State::Idle) => return,
            (Initiator, State::Sent | State::GivenUp) | (Responder, State::Idle) => 0,
            (Initiator, State::Open) => 2,
            (Responder, State::Sent | State::GivenUp) => 1,
            (Responder, State::Open) => 3,
        };
        self.begin();
        (1..=arrivals).for_each(|number| self.arrives(number, &[0; 32]));
        while state == State::GivenUp && self.states[role as usize] != state {
            self.tick(role);
        }
    }

    pub fn begin(&mut self) {
        let known = match self.states[0] {
            State::GivenUp => refused(8_196),
            State::Idle => {
                self.states[0] = State::Sent;
                self.sends[0] = 1;
                self.send_first(Initiator, 1)
            }
            _ => refused(8_195),
        };
        self.step(Initiator, &begin_line(self.id, &self.identities), known);
    }

    /// Message 1, 2 or 3 arrives at the end that did not write it, its hash bytes filled in as `hash` says.
    pub fn arrives(&mut self, number: usize, hash: &[u8]) {
        let to = if number == 2 { Initiator } else { Responder };
        let mut message = self.messages[number - 1].clone();
        message[HASH_BYTES].copy_from_slice(hash);
        let known = match (self.states[to as usize], number) {
            (State::GivenUp, _) => refused(8_196),
            (State::Idle, 1) if self.messages.len() == 1 => refused(14),
            (State::Idle, 1) => {
                self.states[1] = State::Sent;
                self.sends[1] = 1;
                put(&mut self.kept[1][1], &message);
                self.send_first(Responder, 2)
            }
            (State::Sent, 1) => self.send(2),
            (State::Sent, 2) => {
                self.states[0] = State::Open;
                put(&mut self.kept[0][1], &message);
                self.send_first(Initiator, 3)
            }
            (State::Open, 2) => self.send(3),
            (State::Sent, 3) => {
                self.states[1] = State::Open;
                "nothing".to_string()
            }
            (State::Open, 1 | 3) => "nothing".to_string(),
            _ => refused(8_195),
        };
        self.step(to, &deliver_line(to, true, &message), known);
    }

    pub fn tick(&mut self, role: Role) {
        let end = role as usize;
        let known = match self.states[end] {
            State::GivenUp => refused(8_196),
            State::Idle => refused(8_195),
            State::Sent if self.sends[end] < 4 => {
                self.sends[end] += 1;
                self.send(end + 1)
            }
            State::Sent => {
                self.states[end] = State::GivenUp;
                "nothing".to_string()
            }
            State::Open => "nothing".to_string(),
        };
        self.step(role, &format!("tick {}", role.letter()), known);
    }

    /// The messages that were written and can arrive.
    pub fn written(&self) -> Vec<usize> {
        let wrote = |role: Role, message: &Vec<u8>| self.exchange.written[role as usize].contains(message);
        let writers = [Initiator, Responder, Initiator];
        let numbers = self.messages.iter().zip(writers).zip(1..);
        numbers.filter(|((message, writer), _)| wrote(*writer, message)).map(|(_, number)| number).collect()
    }

    fn send(&self, number: usize) -> String {
        format!("send {}", word(&self.messages[number - 1]))
    }

    fn send_first(&mut self, writer: Role, number: usize) -> String {
        put(&mut self.kept[writer as usize][0], &self.messages[number - 1]);
        self.send(number)
    }

    fn step(&mut self, role: Role, line: &str, known: String) {
        self.exchange.step_unseen(role, line, Some(known));
        self.exchange.show(role, [Some(self.state(role)), None]);
    }

    pub fn state(&self, role: Role) -> String {
        let end = role as usize;
        let word = match (self.states[end], role) {
            (State::Idle, _) => "idle",
            (State::Sent, Initiator) => "sent",
            (State::Sent, Responder) => "half",
            (State::Open, _) => "open",
            (State::GivenUp, _) => "given-up",
        };
        let holds = match role {
            Initiator => self.states[0] == State::Open,
            Responder => self.states[1] != State::Idle,
        };
        format!("{word} sends {}{}", self.sends[end], if holds { &self.agreed } else { "" })
    }

    /// Both ends are shown with what is known of them.
    pub fn finish(mut self, cases: &mut Cases) {
        for role in ROLES {
            let [sent, got] = &self.kept[role as usize];
            // Whole buffers are long; to know them in some cases is enough.
            let kept = (cases.made.len() % 4 == 0).then(|| format!("kept {} {}", word(sent), word(got)));
            self.exchange.show(role, [Some(self.state(role)), kept]);
        }
        self.exchange.end(cases);
    }
}

fn put(buffer: &mut [u8], message: &[u8]) {
    buffer[..message.len()].copy_from_slice(message);
}

/// What a state says about agreed values, from the set as the initiator offered it and as the responder repeats it.
pub fn agreed_values(set: usize, proposals: [Vec<Proposal>; 2], nonces: [&Vec<u8>; 2]) -> String {
    let transforms: String = proposals[1].iter().map(|each| format!(" {}", each.transforms[0].number)).collect();
    let [initiators, responders] =
        proposals.map(|set| set.iter().map(|proposal| format!(" {}", word(&proposal.spi))).collect::<String>());
    let [initiator, responder] = nonces.map(|nonce| word(nonce));
    format!(
        " set {set} transforms{transforms} initiator-spis{initiators} responder-spis{responders} \
         initiator-nonce {initiator} responder-nonce {responder}"
    )
}

#[cfg(test)]
mod tests {
    use super::*;

    /// What the second program says of an end, without how often it sent.
    fn state(exchange: &mut Exchange, role: Role) -> (String, String) {
        let answer = exchange.bench.answer(state_line(role).as_bytes()).unwrap();
        let mut words = answer.splitn(4, ' ');
        let state = words.next().unwrap().to_string();
        (state, words.nth(2).unwrap_or("").to_string())
    }

    /// How far an exchange has come: one, then two, then three has arrived.
    #[derive(Default)]
    struct Progress {
        arrived: usize,
    }

    impl Progress {
        /// Demand 3, its last sentence.
        fn check(&mut self, followed: &Followed, number: usize) {
            let wrote = |role: Role, count: usize| followed.exchange.written[role as usize].len() >= count;
            if followed.states.contains(&State::GivenUp) {
                return;
            }
            if number == self.arrived + 1 {
                self.arrived = number;
            }
            assert!(self.arrived < 1 || wrote(Responder, 1));
            assert!(self.arrived < 2 || followed.exchange.written[0].contains(&followed.messages[2]));
            assert!(self.arrived < 3 || followed.states == [State::Open; 2]);
        }
    }

    /// Demand 3, what holds at every moment.
    fn check_safety(followed: &mut Followed, before: &[(String, String); 2]) -> [(String, String); 2] {
        let now = ROLES.map(|role| state(&mut followed.exchange, role));
        let [(initiator, agreed), (responder, responders)] = &now;
        assert!(responder != "open" || initiator == "open");
        if initiator == "open" {
            assert_eq!(agreed, responders);
            assert!(["half", "open", "given-up"].contains(&responder.as_str()));
        }
        for (before, now) in before.iter().zip(&now) {
            assert!(before.0 != "open" || before == now);
        }
        now
    }

    #[test]
    fn two_ends_keep_to_demand_3_on_a_network_that_loses_repeats_and_reorders() {
        let mut random = Random::new(1, "demand 3");
        let mut both_open = 0;
        for _ in 0..1_500 {
            let given = suiting_given(&mut random);
            let identities = random_identities(&mut random);
            let mut followed = Followed::new(given, random_message_id(&mut random), identities);
            let mut progress = Progress::default();
            let mut states = ROLES.map(|role| state(&mut followed.exchange, role));
            followed.begin();
            for _ in 0..random.between(3, 12) {
                let written = followed.written();
                if random.once_in(4) {
                    followed.tick(random.one_of(&ROLES));
                } else {
                    let number = random.one_of(&written);
                    followed.arrives(number, &random.bytes(32));
                    progress.check(&followed, number);
                }
                states = check_safety(&mut followed, &states);
            }
            both_open += usize::from(states.iter().all(|(state, _)| state == "open"));
        }
        assert!(both_open > 300, "only {both_open}");
    }

    #[test]
    fn messages_that_ends_write_can_be_read_and_are_padded_with_the_fewest_zero_bytes() {
        let mut random = Random::new(1, "written");
        for _ in 0..500 {
            let given = suiting_given(&mut random);
            let identities = random_identities(&mut random);
            let mut followed = Followed::new(given, random_message_id(&mut random), identities);
            followed.begin();
            (1..=3).for_each(|number| followed.arrives(number, &[0; 32]));
            let written = followed.exchange.written.concat();
            assert_eq!(written.len(), 3);
            assert!(written.iter().all(|message| message.len() <= 2_048 && (message.len() - 28) % 16 == 0));
            for message in &written {
                let answer = followed.exchange.bench.answer(format!("read {}", word(message)).as_bytes()).unwrap();
                let (_, last) = answer.rsplit_once(' ').unwrap();
                let (_, place) = last.split_once('@').unwrap();
                let (start, length) = place.split_once('+').unwrap();
                let end = start.parse::<usize>().unwrap() + length.parse::<usize>().unwrap();
                assert!(message.len() - end < 16 && message[end..].iter().all(|&byte| byte == 0));
            }
            assert_eq!(followed.messages[2].len(), 76);
        }
    }

    #[test]
    fn cases_of_exchanges_end_with_the_states_of_both_ends() {
        let mut random = Random::new(1, "ends");
        let mut cases = Cases { kind: "made up", detail: String::new(), made: Vec::new() };
        Followed::in_state(&mut random, Responder, State::Open).finish(&mut cases);
        let known: Vec<_> = cases.made[0].answers.iter().map(|answer| answer.clone().unwrap_or_default()).collect();
        assert!(last_states(&known).unwrap().iter().all(|state| state.starts_with("open ")));
    }
}
