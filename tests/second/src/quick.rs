//! Document 01, "Quick mode ends": the initiator and the responder, each with its two kept buffers.

use crate::identity;
use crate::lines::LARGEST_ROOM;
use crate::message::{self, NONCE_SIZES, QUICK_MODE};
use crate::offer::LOWEST_SPI;
use crate::policy::{self, Book};
use crate::quick_messages::{self, Identities, Parts, Shape};
use crate::refusal::{self, refuse_if, Refusal};
use crate::reply::{self, Spis, LEAST_ROOM};
use crate::wire::u32_at;

const MOST_SENDS: u8 = 4;
const LONGEST_MESSAGE: usize = 2_048;
const FLAG_AT: usize = 19;
const FLAG: u8 = 1;
const MESSAGE_ID_AT: usize = 20;

#[derive(Clone, Copy, PartialEq)]
pub enum Role {
    Initiator,
    Responder,
}

#[derive(Clone, Copy, PartialEq)]
pub enum State {
    Idle,
    Sent,
    Half,
    Open,
    GivenUp,
}

/// What a step answers when it is not refused.
pub enum Step {
    Send(Vec<u8>),
    Nothing,
}

/// How many bytes of each buffer are lent.
#[derive(Clone, Copy)]
pub struct Lent {
    pub sent: usize,
    pub got: usize,
    pub output: usize,
}

impl Lent {
    fn check(&self) -> Result<(), Refusal> {
        refuse_if([self.sent, self.got, self.output].into_iter().any(|size| size < LEAST_ROOM), refusal::ROOM)
    }
}

/// A kept buffer, and how many bytes the message in it has.
pub struct Kept {
    bytes: [u8; LARGEST_ROOM],
    length: usize,
}

impl Kept {
    fn new() -> Kept {
        Kept { bytes: [0; LARGEST_ROOM], length: 0 }
    }

    fn put(&mut self, message: &[u8]) {
        self.bytes[..message.len()].copy_from_slice(message);
        self.length = message.len();
    }

    fn message(&self) -> &[u8] {
        &self.bytes[..self.length]
    }

    /// So many bytes of it, whatever they are.
    pub fn lent(&self, size: usize) -> &[u8] {
        &self.bytes[..size]
    }
}

/// What both ends have when they are open. Transforms and SPIs stand in the set's order; the initiator's come first.
pub struct Agreed {
    pub set: u8,
    pub transforms: Vec<u8>,
    pub spis: [Vec<u32>; 2],
    pub nonces: [Vec<u8>; 2],
}

pub struct End {
    role: Role,
    /// The initiator's, then the responder's.
    cookies: [u8; 16],
    book: Book,
    own: Spis,
    nonce: Vec<u8>,
    message_id: u32,
    pub state: State,
    pub sends: u8,
    pub agreed: Option<Agreed>,
    pub sent: Kept,
    pub got: Kept,
}

impl End {
    pub fn fresh(role: Role, cookies: [[u8; 8]; 2], book: &[u8], own: Spis, nonce: Vec<u8>) -> Result<End, Refusal> {
        refuse_if(cookies.contains(&[0; 8]), refusal::COOKIE)?;
        let book = policy::book(book)?;
        refuse_if(own.ah < LOWEST_SPI || own.esp < LOWEST_SPI, refusal::SPI)?;
        refuse_if(!NONCE_SIZES.contains(&nonce.len()), refusal::MALFORMED)?;
        Ok(End {
            role,
            cookies: cookies.concat().try_into().expect("two cookies of 8 bytes"),
            book,
            own,
            nonce,
            message_id: 0,
            state: State::Idle,
            sends: 0,
            agreed: None,
            sent: Kept::new(),
            got: Kept::new(),
        })
    }

    /// "8192, 8196, not an Idle initiator 8195, 9, 18, no quick lines 14."
    pub fn begin(&mut self, lent: Lent, message_id: u32, identities: [&[u8]; 2]) -> Result<Step, Refusal> {
        lent.check()?;
        self.check_not_given_up()?;
        refuse_if(self.role != Role::Initiator || self.state != State::Idle, refusal::UNEXPECTED)?;
        refuse_if(message_id == 0, refusal::MESSAGE_ID)?;
        let identities = no_or_two(identities)?;
        refuse_if(self.book.quick.is_empty(), refusal::NOTHING_SUITS)?;
        let offer = quick_messages::offer(&self.book.quick, self.own);
        let parts = Parts { sa: &offer, nonce: &self.nonce, identities };
        let message = quick_messages::long_message(&self.cookies, message_id, &parts);
        self.message_id = message_id;
        self.state = State::Sent;
        self.sends = 1;
        Ok(self.send_first(message))
    }

    pub fn deliver(&mut self, lent: Lent, hash_holds: bool, message: &[u8]) -> Result<Step, Refusal> {
        lent.check()?;
        refuse_if(!hash_holds, refusal::HASH)?;
        self.check_not_given_up()?;
        let reading = message::read(message)?;
        let is_idle = |role| self.role == role && self.state == State::Idle;
        refuse_if(reading.exchange != QUICK_MODE, refusal::EXCHANGE_TYPE)?;
        refuse_if(message[FLAG_AT] != FLAG, refusal::FLAG)?;
        refuse_if(is_idle(Role::Initiator), refusal::UNEXPECTED)?;
        refuse_if(!message.starts_with(&self.cookies), refusal::COOKIE)?;
        let is_other_id = u32_at(message, MESSAGE_ID_AT) != self.message_id;
        refuse_if(is_other_id && !is_idle(Role::Responder), refusal::MESSAGE_ID)?;
        let shape = quick_messages::shape(message, &reading).ok_or(refusal::MALFORMED)?;
        refuse_if(message.len() > LONGEST_MESSAGE, refusal::LENGTHS)?;
        match (self.role, self.state, shape) {
            (Role::Initiator, State::Sent, Shape::Long(parts)) => self.take_message_2(message, &parts),
            (Role::Initiator, State::Open, Shape::Long(_)) if self.got_before(message) => Ok(self.send_again()),
            (Role::Responder, State::Idle, Shape::Long(parts)) => {
                let choice = policy::choose_from(&self.book, message, &reading)?;
                Ok(self.take_message_1(message, &parts, &choice))
            }
            (Role::Responder, State::Half, Shape::Long(_)) if self.got_before(message) => Ok(self.send_again()),
            (Role::Responder, State::Half, Shape::HashAlone) => {
                self.state = State::Open;
                Ok(Step::Nothing)
            }
            (Role::Responder, State::Open, Shape::Long(_)) if self.got_before(message) => Ok(Step::Nothing),
            (Role::Responder, State::Open, Shape::HashAlone) => Ok(Step::Nothing),
            _ => Err(refusal::UNEXPECTED),
        }
    }

    /// "Tick: 8192, 8196, Idle 8195; Open nothing; Sent or Half sends its kept message again, up to four sends, and the
    /// next tick is GivenUp with nothing to send."
    pub fn tick(&mut self, lent: Lent) -> Result<Step, Refusal> {
        lent.check()?;
        self.check_not_given_up()?;
        match self.state {
            State::Idle => Err(refusal::UNEXPECTED),
            State::Sent | State::Half if self.sends < MOST_SENDS => {
                self.sends += 1;
                Ok(self.send_again())
            }
            State::Sent | State::Half => {
                self.state = State::GivenUp;
                Ok(Step::Nothing)
            }
            State::Open | State::GivenUp => Ok(Step::Nothing),
        }
    }

    fn check_not_given_up(&self) -> Result<(), Refusal> {
        refuse_if(self.state == State::GivenUp, refusal::GIVEN_UP)
    }

    /// "One set, its number, protocols, order and each transform as offered, else 15; identities equal those sent, else
    /// 18. Then Open; writes message 3."
    fn take_message_2(&mut self, message: &[u8], parts: &Parts) -> Result<Step, Refusal> {
        let sent = quick_messages::long_parts(self.sent.message()).expect("message 1 was sent");
        let taken = quick_messages::taken_from_offer(sent.sa, parts.sa).ok_or(refusal::SA_SYNTAX)?;
        refuse_if(parts.identities != sent.identities, refusal::IDENTITY)?;
        self.agreed = Some(Agreed {
            set: taken[0].number,
            transforms: taken.iter().flat_map(|proposal| proposal.transforms()).map(|each| each.number).collect(),
            spis: [
                taken.iter().filter_map(|proposal| self.own.of(proposal.protocol)).collect(),
                taken.iter().map(|proposal| u32_at(proposal.spi, 0)).collect(),
            ],
            nonces: [self.nonce.clone(), parts.nonce.to_vec()],
        });
        self.got.put(message);
        self.state = State::Open;
        let message_3 = quick_messages::message_3(&self.cookies, self.message_id);
        Ok(self.send_first(message_3))
    }

    /// "Half and message 2 (identities repeated), one send."
    fn take_message_1(&mut self, message: &[u8], parts: &Parts, choice: &policy::Choice) -> Step {
        let id = u32_at(message, MESSAGE_ID_AT);
        let answer = Parts { sa: &reply::body(choice, self.own), nonce: &self.nonce, identities: parts.identities };
        let message_2 = quick_messages::long_message(&self.cookies, id, &answer);
        self.agreed = Some(Agreed {
            set: choice.set,
            transforms: choice.taken.iter().map(|taken| taken.transform.number).collect(),
            spis: [
                choice.taken.iter().map(|taken| u32_at(taken.spi, 0)).collect(),
                choice.taken.iter().filter_map(|taken| self.own.of(taken.protocol)).collect(),
            ],
            nonces: [parts.nonce.to_vec(), self.nonce.clone()],
        });
        self.message_id = id;
        self.got.put(message);
        self.state = State::Half;
        self.sends = 1;
        self.send_first(message_2)
    }

    fn got_before(&self, message: &[u8]) -> bool {
        quick_messages::are_equal(self.got.message(), message)
    }

    /// "A message sent first goes to sent and output, a repeat to output alone."
    fn send_first(&mut self, message: Vec<u8>) -> Step {
        self.sent.put(&message);
        Step::Send(message)
    }

    fn send_again(&self) -> Step {
        Step::Send(self.sent.message().to_vec())
    }
}

/// Both empty means none; one empty body is no identity.
fn no_or_two(bodies: [&[u8]; 2]) -> Result<Identities<'_>, Refusal> {
    if bodies.iter().all(|body| body.is_empty()) {
        return Ok(None);
    }
    for body in bodies {
        identity::check(QUICK_MODE, body)?;
    }
    Ok(Some(bodies))
}

/// "The nonce body as it stands in that role's message, or an empty part."
pub fn nonce<'a>(role: Role, initiators: &'a [u8], responders: &'a [u8]) -> &'a [u8] {
    let message = match role {
        Role::Initiator => initiators,
        Role::Responder => responders,
    };
    quick_messages::long_parts(message).map_or(&[], |parts| parts.nonce)
}
