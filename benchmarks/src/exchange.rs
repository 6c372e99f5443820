//! Times one whole exchange of quick mode, from two fresh ends to both open: the core, lent call by call, and the second program's own ends.

use crate::raw::{self, END};
use crate::samples;
use crate::timing;
use second::quick::{End, Lent, Role, State, Step};
use second::reply::Spis;
use std::hint::black_box;

const EXCHANGES_A_ROUND: usize = 50;

const LIFE: u32 = 3_599;
const ICOOKIE: u64 = 0x1111_1111_1111_1111;
const RCOOKIE: u64 = 0x2222_2222_2222_2222;
const MESSAGE_ID: u32 = 0x0102_0304;
const AH: u32 = 0x1000_0001;
const ESP: u32 = 0x1000_0002;
const NONCES: [[u8; 16]; 2] = [[0xa5; 16], [0x5a; 16]];

/// The least room of an end's buffers, and the number of the state Open (include/tallowbrim.h).
const BUFFER: usize = 2_048;
const OPEN: u64 = 3;

/// The initiator's book and the responder's, and the body of both identities.
struct Given {
    books: [Vec<u8>; 2],
    identity: Vec<u8>,
}

/// One end of the core's, with what a caller keeps for it.
struct Seat {
    end: [u8; END],
    sent: [u8; BUFFER],
    got: [u8; BUFFER],
    output: [u8; BUFFER],
}

/// The core's time over the second program's with eight lines in both books, where only the last set suits, and it only the last line.
pub fn ratio() -> f64 {
    let [mut offered, mut taken] = [[LIFE + 1; 8], [LIFE - 1; 8]];
    (offered[7], taken[7]) = (LIFE, LIFE);
    let ratio = compare("eight lines, the last suits", [&offered, &taken]);
    compare("one line", [&[LIFE], &[LIFE]]);
    ratio
}

fn compare(name: &str, seconds: [&[u32]; 2]) -> f64 {
    let identity = [&[4, 0, 0, 0][..], &[192, 0, 2, 0], &[255, 255, 255, 0]].concat();
    let given = &Given { books: seconds.map(samples::lines), identity };
    let length = agreed(name, given);
    timing::ratio(
        &format!("{name} (message 1 of {length} bytes)"),
        [&|| core_round(given), &|| second_round(given)],
        EXCHANGES_A_ROUND,
    )
}

/// The length of message 1, where both reach Open with the same three messages, byte for byte.
fn agreed(name: &str, given: &Given) -> usize {
    let mut seats = seats();
    let sizes = core(given, &mut seats).unwrap_or_else(|number| panic!("{name}: the core refused {number}"));
    let messages = second(given).unwrap_or_else(|number| panic!("{name}: the second program refused {number}"));
    let [initiator, responder] = &seats;
    for ((message, size), buffer) in messages.iter().zip(sizes).zip([&responder.got, &initiator.got, &initiator.output])
    {
        assert_eq!(message, &buffer[..size], "{name}: the two write messages unlike");
    }
    messages[0].len()
}

fn core_round(given: &Given) {
    let mut seats = seats();
    for _ in 0..EXCHANGES_A_ROUND {
        assert!(black_box(core(black_box(given), &mut seats)).is_ok());
    }
}

fn second_round(given: &Given) {
    for _ in 0..EXCHANGES_A_ROUND {
        assert!(black_box(second(black_box(given))).is_ok());
    }
}

fn seats() -> [Seat; 2] {
    [0; 2].map(|_| Seat { end: [0; END], sent: [0; BUFFER], got: [0; BUFFER], output: [0; BUFFER] })
}

/// Message 1 is lost at first and sent again by a tick. The sizes of the three messages, or the first refusal.
fn core(given: &Given, [initiator, responder]: &mut [Seat; 2]) -> Result<[usize; 3], u32> {
    let Given { books: [ibook, rbook], identity } = given;
    initiator.fresh(true, ibook, &NONCES[0])?;
    responder.fresh(false, rbook, &NONCES[1])?;
    initiator.begin(identity)?;
    let one = initiator.tick()?;
    let two = responder.deliver(&initiator.output[..one])?;
    let three = initiator.deliver(&responder.output[..two])?;
    responder.deliver(&initiator.output[..three])?;
    assert_eq!([initiator.state(), responder.state()], [OPEN; 2], "the core's ends are not both open");
    Ok([one, two, three])
}

// SAFETY, of each call: pointers and lengths are those of slices that outlive the call, no lent one overlaps another, and the core asks no more.
impl Seat {
    fn fresh(&mut self, initiator: bool, book: &[u8], nonce: &[u8]) -> Result<(), u32> {
        match unsafe {
            raw::tallowbrim_fresh(
                &mut self.end,
                initiator,
                ICOOKIE,
                RCOOKIE,
                book.as_ptr(),
                book.len(),
                AH,
                ESP,
                nonce.as_ptr(),
                nonce.len(),
            )
        } {
            0 => Ok(()),
            refusal => Err(refusal),
        }
    }

    fn begin(&mut self, identity: &[u8]) -> Result<usize, u32> {
        let mut out = [0; 2];
        let refusal = unsafe {
            raw::tallowbrim_begin(
                &mut self.end,
                MESSAGE_ID,
                identity.as_ptr(),
                identity.len(),
                identity.as_ptr(),
                identity.len(),
                self.sent.as_mut_ptr(),
                BUFFER,
                self.got.as_ptr(),
                BUFFER,
                self.output.as_mut_ptr(),
                BUFFER,
                &mut out,
            )
        };
        sized(refusal, out)
    }

    fn deliver(&mut self, message: &[u8]) -> Result<usize, u32> {
        let mut out = [0; 2];
        let refusal = unsafe {
            raw::tallowbrim_deliver(
                &mut self.end,
                true,
                message.as_ptr(),
                message.len(),
                self.sent.as_mut_ptr(),
                BUFFER,
                self.got.as_mut_ptr(),
                BUFFER,
                self.output.as_mut_ptr(),
                BUFFER,
                &mut out,
            )
        };
        sized(refusal, out)
    }

    fn tick(&mut self) -> Result<usize, u32> {
        let mut out = [0; 2];
        let refusal = unsafe {
            raw::tallowbrim_tick(
                &mut self.end,
                self.sent.as_ptr(),
                BUFFER,
                self.got.as_ptr(),
                BUFFER,
                self.output.as_mut_ptr(),
                BUFFER,
                &mut out,
            )
        };
        sized(refusal, out)
    }

    fn state(&self) -> u64 {
        let mut out = [0; 4];
        unsafe { raw::tallowbrim_state(&self.end, &mut out) };
        out[0]
    }
}

/// How many bytes of its output an end sends, or the refusal.
fn sized(refusal: u32, [_, size]: [u64; 2]) -> Result<usize, u32> {
    match refusal {
        0 => Ok(size as usize),
        refusal => Err(refusal),
    }
}

/// The same exchange of the second program's: its three messages.
fn second(given: &Given) -> Result<[Vec<u8>; 3], u16> {
    let Given { books: [ibook, rbook], identity } = given;
    let lent = Lent { sent: BUFFER, got: BUFFER, output: BUFFER };
    let end = |role, book, nonce: [u8; 16]| {
        let cookies = [ICOOKIE, RCOOKIE].map(u64::to_be_bytes);
        End::fresh(role, cookies, book, Spis { ah: AH, esp: ESP }, nonce.to_vec())
    };
    let mut initiator = end(Role::Initiator, ibook, NONCES[0])?;
    let mut responder = end(Role::Responder, rbook, NONCES[1])?;
    initiator.begin(lent, MESSAGE_ID, [identity, identity])?;
    let one = sent(initiator.tick(lent)?);
    let two = sent(responder.deliver(lent, true, &one)?);
    let three = sent(initiator.deliver(lent, true, &two)?);
    responder.deliver(lent, true, &three)?;
    let open = [&initiator, &responder].map(|end| matches!(end.state, State::Open));
    assert_eq!(open, [true; 2], "the second program's ends are not both open");
    Ok([one, two, three])
}

fn sent(step: Step) -> Vec<u8> {
    match step {
        Step::Send(message) => message,
        Step::Nothing => Vec::new(),
    }
}
