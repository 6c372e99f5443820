//! Quick mode: an end with buffers of its own, and the record of one alone, for buffers that are kept elsewhere.

use crate::policy::{OfSet, Transforms};
use crate::raw;
use crate::refusal::{always_done, done, small, Refusal};

/// The least size of the two kept buffers and of the output of an end, and of the buffer of a reply.
pub const BUFFER: usize = 2048;

/// Which end of an exchange.
#[derive(Clone, Copy, Debug, PartialEq, Eq)]
#[allow(missing_docs)]
pub enum Role {
    Initiator,
    Responder,
}

impl Role {
    fn is_initiator(self) -> bool {
        self == Role::Initiator
    }
}

/// What an end is given once.
#[derive(Clone, Copy, Debug)]
pub struct Own<'a> {
    /// Which end it is.
    pub role: Role,
    /// The initiator's cookie.
    pub initiator_cookie: u64,
    /// The responder's cookie.
    pub responder_cookie: u64,
    /// Its policy book.
    pub book: &'a [u8],
    /// Its own SPI of AH.
    pub ah: u32,
    /// Its own SPI of ESP.
    pub esp: u32,
    /// Its nonce, of 8 to 256 bytes.
    pub nonce: &'a [u8],
}

/// What comes of a message or a tick.
#[derive(Debug, PartialEq, Eq)]
pub enum Step<'a> {
    /// A message to send; its hash is to be filled in here. The kept copy has none.
    Send(&'a mut [u8]),
    /// Nothing to send.
    Nothing,
}

/// The state of an end.
#[derive(Clone, Copy, Debug, PartialEq, Eq)]
#[allow(missing_docs)]
pub enum State {
    Idle,
    Sent,
    Half,
    Open,
    GivenUp,
}

/// Where an end stands.
#[derive(Clone, Copy, Debug, PartialEq, Eq)]
pub struct Standing {
    /// Its state.
    pub state: State,
    /// How often its message was sent.
    pub sends: u8,
    /// How many bytes at the start of the one kept buffer are the message that it sent.
    pub sent: usize,
    /// How many bytes at the start of the other are the message that it got.
    pub got: usize,
}

/// The SPIs of one end.
pub type Spis = OfSet<u32>;

/// What the ends agreed on.
#[derive(Clone, Copy, Debug, PartialEq, Eq)]
pub struct Agreed {
    /// The set, by its proposal number.
    pub set: u8,
    /// The transforms that are taken of it.
    pub transforms: Transforms,
    /// The initiator's SPIs.
    pub initiator: Spis,
    /// The responder's SPIs.
    pub responder: Spis,
}

/// One end of quick mode with its buffers.
#[derive(Clone, Debug)]
pub struct End {
    record: EndRecord,
    sent: Vec<u8>,
    got: Vec<u8>,
    output: Vec<u8>,
}

impl End {
    /// An end that starts anew. Refused with 4, 8193, 11 and 16.
    pub fn fresh(own: &Own) -> Result<End, Refusal> {
        let buffer = || vec![0; BUFFER];
        Ok(End { record: EndRecord::fresh(own)?, sent: buffer(), got: buffer(), output: buffer() })
    }

    /// The initiator begins, with a message ID and two identity bodies, both empty for none. Gives the message to send, whose hash
    /// is to be filled in there. Refused with 8196, 8195, 9, 18 and 14.
    pub fn begin(&mut self, id: u32, first: &[u8], second: &[u8]) -> Result<&mut [u8], Refusal> {
        let (record, lent) = self.parted();
        record.begin(id, first, second, lent)
    }

    /// A message arrives; the caller says whether its hash holds. Refused with 23, 8196, as [`message`](crate::message) is, with
    /// 8195 and 14.
    pub fn deliver(&mut self, hash_holds: bool, message: &[u8]) -> Result<Step<'_>, Refusal> {
        let (record, lent) = self.parted();
        record.deliver(hash_holds, message, lent)
    }

    /// Time has passed without an answer. Refused with 8196 and 8195.
    pub fn tick(&mut self) -> Result<Step<'_>, Refusal> {
        let (record, lent) = self.parted();
        record.tick(lent)
    }

    /// Where it stands.
    pub fn state(&self) -> Standing {
        self.record.state()
    }

    /// What the ends agreed on, once a message was got. Refused with 8195.
    pub fn agreed(&self) -> Result<Agreed, Refusal> {
        self.record.agreed()
    }

    /// The message that it sent, with no hash; empty before it sent one.
    pub fn sent(&self) -> &[u8] {
        &self.sent[..self.state().sent]
    }

    /// The message that it got; empty before it got one.
    pub fn got(&self) -> &[u8] {
        &self.got[..self.state().got]
    }

    fn parted(&mut self) -> (&mut EndRecord, Lent<'_>) {
        (&mut self.record, Lent { sent: &mut self.sent, got: &mut self.got, output: &mut self.output })
    }
}

/// The buffers that an end is lent at each call: the same two kept ones, as the last call left them, and an output. One of under
/// [`BUFFER`] bytes is refused with 8192.
#[derive(Debug)]
pub struct Lent<'a> {
    /// Keeps the message that the end sent.
    pub sent: &'a mut [u8],
    /// Keeps the message that it got.
    pub got: &'a mut [u8],
    /// Takes the message to send.
    pub output: &'a mut [u8],
}

/// One end of quick mode without its buffers. What [`End`] says of a call holds here too.
#[derive(Clone, Debug, PartialEq, Eq)]
pub struct EndRecord([u8; raw::END]);

impl EndRecord {
    /// An end that starts anew; both kept buffers begin as zeros, or as anything.
    pub fn fresh(own: &Own) -> Result<EndRecord, Refusal> {
        let mut record = EndRecord([0; raw::END]);
        done(unsafe {
            raw::tallowbrim_fresh(
                &mut record.0,
                own.role.is_initiator(),
                own.initiator_cookie,
                own.responder_cookie,
                own.book.as_ptr(),
                own.book.len(),
                own.ah,
                own.esp,
                own.nonce.as_ptr(),
                own.nonce.len(),
            )
        })?;
        Ok(record)
    }

    /// The initiator begins.
    pub fn begin<'a>(&mut self, id: u32, first: &[u8], second: &[u8], lent: Lent<'a>) -> Result<&'a mut [u8], Refusal> {
        let mut out = [0; 2];
        done(unsafe {
            raw::tallowbrim_begin(
                &mut self.0,
                id,
                first.as_ptr(),
                first.len(),
                second.as_ptr(),
                second.len(),
                lent.sent.as_mut_ptr(),
                lent.sent.len(),
                lent.got.as_ptr(),
                lent.got.len(),
                lent.output.as_mut_ptr(),
                lent.output.len(),
                &mut out,
            )
        })?;
        match step(out, lent.output) {
            Step::Send(message) => Ok(message),
            Step::Nothing => unreachable!("the core began with nothing to send"),
        }
    }

    /// A message arrives.
    pub fn deliver<'a>(&mut self, hash_holds: bool, message: &[u8], lent: Lent<'a>) -> Result<Step<'a>, Refusal> {
        let mut out = [0; 2];
        done(unsafe {
            raw::tallowbrim_deliver(
                &mut self.0,
                hash_holds,
                message.as_ptr(),
                message.len(),
                lent.sent.as_mut_ptr(),
                lent.sent.len(),
                lent.got.as_mut_ptr(),
                lent.got.len(),
                lent.output.as_mut_ptr(),
                lent.output.len(),
                &mut out,
            )
        })?;
        Ok(step(out, lent.output))
    }

    /// Time has passed without an answer.
    pub fn tick<'a>(&mut self, lent: Lent<'a>) -> Result<Step<'a>, Refusal> {
        let mut out = [0; 2];
        done(unsafe {
            raw::tallowbrim_tick(
                &mut self.0,
                lent.sent.as_ptr(),
                lent.sent.len(),
                lent.got.as_ptr(),
                lent.got.len(),
                lent.output.as_mut_ptr(),
                lent.output.len(),
                &mut out,
            )
        })?;
        Ok(step(out, lent.output))
    }

    /// Where it stands.
    pub fn state(&self) -> Standing {
        let mut out = [0; 4];
        always_done(unsafe { raw::tallowbrim_state(&self.0, &mut out) });
        let [state, sends, sent, got] = out;
        let state = match state {
            0 => State::Idle,
            1 => State::Sent,
            2 => State::Half,
            3 => State::Open,
            4 => State::GivenUp,
            _ => unreachable!("the core answered state {state}"),
        };
        Standing { state, sends: small(sends), sent: small(sent), got: small(got) }
    }

    /// What the ends agreed on, once a message was got.
    pub fn agreed(&self) -> Result<Agreed, Refusal> {
        let mut out = [0; 10];
        done(unsafe { raw::tallowbrim_agreed(&self.0, &mut out) })?;
        let [set, transforms @ .., i, i_first, i_second, r, r_first, r_second] = out;
        let [count, first, second] = transforms;
        Ok(Agreed {
            set: small(set),
            transforms: OfSet::new(count, first, second),
            initiator: OfSet::new(i, i_first, i_second),
            responder: OfSet::new(r, r_first, r_second),
        })
    }
}

/// What the words of a step say of the output.
fn step(out: [u64; 2], output: &mut [u8]) -> Step<'_> {
    match out {
        [1, size] => Step::Send(&mut output[..small(size)]),
        [0, _] => Step::Nothing,
        _ => unreachable!("the core answered {out:?}"),
    }
}

/// The nonce of the initiator's or of the responder's message, of which both are given; empty where that message has none.
pub fn nonce(of: Role, initiators: &[u8], responders: &[u8]) -> Vec<u8> {
    let (mut nonce, mut out) = ([0; 256], [0; 1]);
    always_done(unsafe {
        raw::tallowbrim_nonce(
            of.is_initiator(),
            initiators.as_ptr(),
            initiators.len(),
            responders.as_ptr(),
            responders.len(),
            &mut nonce,
            &mut out,
        )
    });
    nonce[..small(out[0])].to_vec()
}
