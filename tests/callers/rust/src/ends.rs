//! The lines about quick mode ends: one end of each role, its buffers, and how much of them is lent.

use crate::{said, words};
use tallowbrim::{Agreed, EndRecord, Lent, Own, Refusal, Role, State, Step, BUFFER};

const LARGEST_ROOM: usize = 4_096;

struct Seat {
    end: Option<EndRecord>,
    nonce: Vec<u8>,
    sent: [u8; LARGEST_ROOM],
    got: [u8; LARGEST_ROOM],
    output: [u8; LARGEST_ROOM],
    room: [usize; 3],
}

pub struct Ends {
    initiator: Seat,
    responder: Seat,
}

impl Default for Ends {
    fn default() -> Ends {
        Ends { initiator: Seat::new(), responder: Seat::new() }
    }
}

impl Ends {
    /// The answer to a line about ends; `None` if it is not understood. Before a first `fresh` of an end it is `none`.
    pub fn understand(&mut self, words: &[&[u8]]) -> Option<String> {
        let answered = match words {
            [b"fresh", role, initiator, responder, book, ah, esp, nonce] => {
                let own = Own {
                    role: words::role(role)?,
                    initiator_cookie: words::eight_bytes(initiator)?,
                    responder_cookie: words::eight_bytes(responder)?,
                    book: &words::bytes(book)?,
                    ah: words::decimal(ah)?,
                    esp: words::decimal(esp)?,
                    nonce: &words::bytes(nonce)?,
                };
                Some(said(self.seat(own.role).fresh(&own)))
            }
            [b"room", role, sent, got, output] => {
                let room = [words::room(sent)?, words::room(got)?, words::room(output)?];
                self.seat(words::role(role)?).lend(room)
            }
            [b"begin", id, first, second] => {
                let (id, first, second) = (words::decimal(id)?, words::bytes(first)?, words::bytes(second)?);
                let (end, lent) = self.initiator.parted();
                end.map(|end| step(end.begin(id, &first, &second, lent).map(Step::Send)))
            }
            [b"deliver", role, hash_holds, message] => {
                let (hash_holds, message) = (words::yes_or_no(hash_holds)?, words::bytes(message)?);
                let (end, lent) = self.seat(words::role(role)?).parted();
                end.map(|end| step(end.deliver(hash_holds, &message, lent)))
            }
            [b"tick", role] => {
                let (end, lent) = self.seat(words::role(role)?).parted();
                end.map(|end| step(end.tick(lent)))
            }
            [b"state", role] => {
                let role = words::role(role)?;
                self.seat(role).state(role)
            }
            [b"kept", role] => {
                let (end, lent) = self.seat(words::role(role)?).parted();
                end.map(|_| format!("kept {} {}", words::word(lent.sent), words::word(lent.got)))
            }
            [b"nonce", role, initiators, responders] => {
                let (initiators, responders) = (words::bytes(initiators)?, words::bytes(responders)?);
                let nonce = tallowbrim::nonce(words::role(role)?, &initiators, &responders);
                Some(format!("nonce {}", words::word(&nonce)))
            }
            _ => return None,
        };
        Some(answered.unwrap_or_else(|| "none".to_string()))
    }

    fn seat(&mut self, role: Role) -> &mut Seat {
        match role {
            Role::Initiator => &mut self.initiator,
            Role::Responder => &mut self.responder,
        }
    }
}

impl Seat {
    fn new() -> Seat {
        let [sent, got, output] = [[0; LARGEST_ROOM]; 3];
        Seat { end: None, nonce: Vec::new(), sent, got, output, room: [BUFFER; 3] }
    }

    /// A refused end leaves the one before it as it was, an end that is made has kept nothing yet, and the room outlives both.
    fn fresh(&mut self, own: &Own) -> Result<String, Refusal> {
        let end = Some(EndRecord::fresh(own)?);
        *self = Seat { end, nonce: own.nonce.to_vec(), room: self.room, ..Seat::new() };
        Ok("fresh".to_string())
    }

    fn lend(&mut self, room: [usize; 3]) -> Option<String> {
        self.end.as_ref()?;
        self.room = room;
        Some("room".to_string())
    }

    /// The end, if it was made, and what is lent to it.
    fn parted(&mut self) -> (Option<&mut EndRecord>, Lent<'_>) {
        let [sent, got, output] = self.room;
        let lent = Lent { sent: &mut self.sent[..sent], got: &mut self.got[..got], output: &mut self.output[..output] };
        (self.end.as_mut(), lent)
    }

    fn state(&self, role: Role) -> Option<String> {
        let end = self.end.as_ref()?;
        let standing = end.state();
        let name = match standing.state {
            State::Idle => "idle",
            State::Sent => "sent",
            State::Half => "half",
            State::Open => "open",
            State::GivenUp => "given-up",
        };
        let agreed = end.agreed().map_or(String::new(), |values| agreed(values) + &self.nonces(role, standing.got));
        Some(format!("{name} sends {}{agreed}", standing.sends))
    }

    /// The own nonce, and that of the message that was got.
    fn nonces(&self, role: Role, size: usize) -> String {
        let got = &self.got[..size];
        let own = words::word(&self.nonce);
        let other = |role| words::word(&tallowbrim::nonce(role, got, got));
        let [initiators, responders] = match role {
            Role::Initiator => [own, other(Role::Responder)],
            Role::Responder => [other(Role::Initiator), own],
        };
        format!(" initiator-nonce {initiators} responder-nonce {responders}")
    }
}

fn step(outcome: Result<Step, Refusal>) -> String {
    said(outcome.map(|step| match step {
        Step::Send(message) => format!("send {}", words::word(message)),
        Step::Nothing => "nothing".to_string(),
    }))
}

fn agreed(Agreed { set, transforms, initiator, responder }: Agreed) -> String {
    let transforms = crate::policy::numbers(&transforms);
    let [initiator, responder] =
        [initiator, responder].map(|spis| spis.iter().map(|spi| format!(" {spi:08x}")).collect::<String>());
    format!(" set {set} transforms{transforms} initiator-spis{initiator} responder-spis{responder}")
}
