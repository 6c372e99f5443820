//! The lines about quick mode ends, and what they change: one end of each role, and how much of its buffers is lent.

use crate::lines;
use crate::quick::{self, Agreed, End, Lent, Role, State, Step};
use crate::refusal::Refusal;
use crate::reply::{Spis, LEAST_ROOM};

/// The end of one role. What is lent outlives the end.
struct Seat {
    end: Option<End>,
    lent: Lent,
}

pub struct Ends {
    initiator: Seat,
    responder: Seat,
}

impl Default for Ends {
    fn default() -> Ends {
        let seat = || Seat { end: None, lent: Lent { sent: LEAST_ROOM, got: LEAST_ROOM, output: LEAST_ROOM } };
        Ends { initiator: seat(), responder: seat() }
    }
}

impl Ends {
    /// The answer to a line about ends; `None` if it is not understood.
    pub fn understand(&mut self, words: &[&[u8]]) -> Option<String> {
        match words {
            [b"fresh", role, initiator, responder, book, ah, esp, nonce] => {
                let role = lines::role(role)?;
                let cookies = [lines::cookie(initiator)?, lines::cookie(responder)?];
                let own = Spis { ah: lines::decimal(ah)?, esp: lines::decimal(esp)? };
                let (book, nonce) = (lines::bytes(book)?, lines::bytes(nonce)?);
                Some(self.fresh(role, End::fresh(role, cookies, &book, own, nonce)))
            }
            [b"room", role, sent, got, output] => {
                let lent = Lent { sent: lines::room(sent)?, got: lines::room(got)?, output: lines::room(output)? };
                let seat = self.seat(lines::role(role)?);
                Some(seat.of_end(|_, kept| {
                    *kept = lent;
                    "room".to_string()
                }))
            }
            [b"begin", message_id, one, other] => {
                let message_id = lines::decimal(message_id)?;
                let (one, other) = (lines::bytes(one)?, lines::bytes(other)?);
                Some(self.initiator.of_end(|end, lent| step(end.begin(*lent, message_id, [&one, &other]))))
            }
            [b"deliver", role, hash_holds, message] => {
                let (hash_holds, message) = (lines::yes_or_no(hash_holds)?, lines::bytes(message)?);
                let seat = self.seat(lines::role(role)?);
                Some(seat.of_end(|end, lent| step(end.deliver(*lent, hash_holds, &message))))
            }
            [b"tick", role] => Some(self.seat(lines::role(role)?).of_end(|end, lent| step(end.tick(*lent)))),
            [b"state", role] => Some(self.seat(lines::role(role)?).of_end(|end, _| state(end))),
            [b"kept", role] => Some(self.seat(lines::role(role)?).of_end(|end, lent| kept(end, *lent))),
            [b"nonce", role, initiators, responders] => {
                let (initiators, responders) = (lines::bytes(initiators)?, lines::bytes(responders)?);
                let nonce = quick::nonce(lines::role(role)?, &initiators, &responders);
                Some(format!("nonce {}", lines::word(nonce)))
            }
            _ => None,
        }
    }

    fn seat(&mut self, role: Role) -> &mut Seat {
        match role {
            Role::Initiator => &mut self.initiator,
            Role::Responder => &mut self.responder,
        }
    }

    /// A refused end leaves the one before it as it was.
    fn fresh(&mut self, role: Role, outcome: Result<End, Refusal>) -> String {
        match outcome {
            Ok(end) => {
                self.seat(role).end = Some(end);
                "fresh".to_string()
            }
            Err(number) => format!("refused {number}"),
        }
    }
}

impl Seat {
    /// "Before a first `fresh` of an end, its lines answer `none`."
    fn of_end(&mut self, answer: impl FnOnce(&mut End, &mut Lent) -> String) -> String {
        self.end.as_mut().map_or("none".to_string(), |end| answer(end, &mut self.lent))
    }
}

fn step(outcome: Result<Step, Refusal>) -> String {
    match outcome {
        Ok(Step::Send(message)) => format!("send {}", lines::word(&message)),
        Ok(Step::Nothing) => "nothing".to_string(),
        Err(number) => format!("refused {number}"),
    }
}

fn state(end: &End) -> String {
    let state = match end.state {
        State::Idle => "idle",
        State::Sent => "sent",
        State::Half => "half",
        State::Open => "open",
        State::GivenUp => "given-up",
    };
    format!("{state} sends {}{}", end.sends, end.agreed.as_ref().map_or(String::new(), agreed))
}

fn agreed(Agreed { set, transforms, spis, nonces }: &Agreed) -> String {
    let transforms: String = transforms.iter().map(|number| format!(" {number}")).collect();
    let [initiators, responders] = spis.each_ref().map(|spis| spis.iter().map(|spi| format!(" {spi:08x}")));
    format!(
        " set {set} transforms{transforms} initiator-spis{} responder-spis{} initiator-nonce {} responder-nonce {}",
        initiators.collect::<String>(),
        responders.collect::<String>(),
        lines::word(&nonces[0]),
        lines::word(&nonces[1])
    )
}

fn kept(end: &End, lent: Lent) -> String {
    format!("kept {} {}", lines::word(end.sent.lent(lent.sent)), lines::word(end.got.lent(lent.got)))
}

#[cfg(test)]
mod tests {
    use crate::bench::Bench;

    const COOKIES: &str = "0101010101010101 0202020202020202";
    /// AH with ESP in mode 2 for 3,600 seconds; ESP alone in mode 1 for one second.
    const INITIATORS_BOOK: &str = "0002020200000e10010100000001";
    const RESPONDERS_BOOK: &str = "0001010100000001";
    const IDENTITIES: &str = "01000000c0000201 040601bbc0000200ffffff00";

    /// Worked out by hand: 36 bytes of hash, 116 of SA, 13 of nonce, 12 and 16 of identities, 15 of padding.
    const MESSAGE_1: &str = "0101010101010101 0202020202020202 08112001 00000007 000000ec \
        01000024 0000000000000000000000000000000000000000000000000000000000000000 \
        0a000074 00000001 00000001 \
        0200002401020401 00000100 0000001801140000 80040002 80050014 80010001 80020e10 \
        0200002001030401 00000101 0000001401810000 80040002 80010001 80020e10 \
        0000002402030401 00000101 0000001801810000 80040001 80050014 80010001 80020001 \
        0500000d aaaaaaaaaaaaaaaaaa \
        0500000c 01000000 c0000201 \
        00000010 040601bb c0000200 ffffff00 \
        000000000000000000000000000000";
    const MESSAGE_2: &str = "0101010101010101 0202020202020202 08112001 00000007 0000009c \
        01000024 0000000000000000000000000000000000000000000000000000000000000000 \
        0a000030 00000001 00000001 \
        0000002402030401 ffffffff 0000001801810000 80040001 80050014 80010001 80020001 \
        0500000c bbbbbbbbbbbbbbbb \
        0500000c 01000000 c0000201 \
        00000010 040601bb c0000200 ffffff00 \
        00000000";
    const MESSAGE_3: &str = "0101010101010101 0202020202020202 08112001 00000007 0000004c \
        00000024 0000000000000000000000000000000000000000000000000000000000000000 \
        000000000000000000000000";
    const AGREED: &str = "set 2 transforms 1 initiator-spis 00000101 responder-spis ffffffff \
        initiator-nonce aaaaaaaaaaaaaaaaaa responder-nonce bbbbbbbbbbbbbbbb";

    struct Lines(Bench);

    impl Lines {
        fn fresh() -> Lines {
            let mut lines = Lines(Bench::default());
            lines.expect(&format!("fresh i {COOKIES} {INITIATORS_BOOK} 256 257 aaaaaaaaaaaaaaaaaa"), "fresh");
            lines.expect(&format!("fresh r {COOKIES} {RESPONDERS_BOOK} 300 4294967295 bbbbbbbbbbbbbbbb"), "fresh");
            lines
        }

        fn begun() -> Lines {
            let mut lines = Lines::fresh();
            lines.expect(&format!("begin 7 {IDENTITIES}"), &format!("send {}", hex(MESSAGE_1)));
            lines
        }

        fn expect(&mut self, line: &str, answer: &str) {
            assert_eq!(self.0.answer(line.as_bytes()).unwrap(), answer, "{line}");
        }

        fn deliver(&mut self, role: &str, message: &str, answer: &str) {
            self.expect(&format!("deliver {role} yes {}", hex(message)), answer);
        }
    }

    fn hex(message: &str) -> String {
        message.replace(' ', "")
    }

    #[test]
    fn the_three_messages_are_written_byte_for_byte_and_both_ends_are_open() {
        let mut lines = Lines::begun();
        lines.expect("state i", "sent sends 1");
        lines.deliver("r", MESSAGE_1, &format!("send {}", hex(MESSAGE_2)));
        lines.expect("state r", &format!("half sends 1 {AGREED}"));
        lines.deliver("i", MESSAGE_2, &format!("send {}", hex(MESSAGE_3)));
        lines.expect("state i", &format!("open sends 1 {AGREED}"));
        lines.deliver("r", MESSAGE_3, "nothing");
        lines.expect("state r", &format!("open sends 1 {AGREED}"));
        assert_eq!(hex(MESSAGE_3).len(), 2 * 76);
    }

    #[test]
    fn message_3_overwrites_the_front_of_sent_and_got_keeps_the_hash_as_delivered() {
        let mut lines = Lines::begun();
        lines.deliver("r", MESSAGE_1, &format!("send {}", hex(MESSAGE_2)));
        let hashed = hex(MESSAGE_2).replacen(&"00".repeat(32), &"5a".repeat(32), 1);
        lines.deliver("i", &hashed, &format!("send {}", hex(MESSAGE_3)));
        let sent = hex(MESSAGE_3) + &hex(MESSAGE_1)[2 * 76..] + &"00".repeat(2_048 - 236);
        let got = hashed + &"00".repeat(2_048 - 156);
        lines.expect("kept i", &format!("kept {sent} {got}"));
    }

    #[test]
    fn an_equal_message_brings_the_answer_again_and_another_one_is_unexpected() {
        let mut lines = Lines::begun();
        let message_2 = format!("send {}", hex(MESSAGE_2));
        lines.deliver("r", MESSAGE_1, &message_2);
        lines.deliver("r", &hex(MESSAGE_1).replacen(&"00".repeat(32), &"77".repeat(32), 1), &message_2);
        lines.deliver("r", &MESSAGE_1.replace("c0000201", "c0000202"), "refused 8195");
        lines.expect("state r", &format!("half sends 1 {AGREED}"));
        lines.deliver("i", MESSAGE_3, "refused 8195");
        lines.deliver("i", &MESSAGE_2.replace("c0000201", "c0000202"), "refused 18");
        lines.deliver("i", &MESSAGE_2.replace("80020001", "80020002"), "refused 15");
        lines.deliver("i", MESSAGE_2, &format!("send {}", hex(MESSAGE_3)));
        lines.deliver("i", MESSAGE_2, &format!("send {}", hex(MESSAGE_3)));
        lines.deliver("i", &MESSAGE_2.replace("bbbb", "bbbc"), "refused 8195");
        lines.deliver("r", MESSAGE_3, "nothing");
        lines.deliver("r", MESSAGE_3, "nothing");
        lines.deliver("r", MESSAGE_1, "nothing");
        lines.deliver("r", MESSAGE_2, "refused 8195");
    }

    #[test]
    fn three_ticks_send_again_and_the_fourth_gives_up() {
        let mut lines = Lines::begun();
        lines.expect("tick r", "refused 8195");
        for sends in 2..=4 {
            lines.expect("tick i", &format!("send {}", hex(MESSAGE_1)));
            lines.expect("state i", &format!("sent sends {sends}"));
        }
        lines.expect("tick i", "nothing");
        lines.expect("state i", "given-up sends 4");
        lines.expect("tick i", "refused 8196");
        lines.expect("begin 7 - -", "refused 8196");
        lines.expect("deliver i no -", "refused 23");
        lines.expect("deliver i yes -", "refused 8196");
        lines.expect("room i 2047 2048 2048", "room");
        lines.expect("deliver i no -", "refused 8192");
    }

    #[test]
    fn a_room_hides_kept_bytes_and_a_fresh_end_has_none() {
        let mut lines = Lines::begun();
        lines.expect("room i 0 3 0", "room");
        lines.expect("kept i", "kept - 000000");
        lines.expect("room i 2 1 0", "room");
        lines.expect("kept i", "kept 0101 00");
        lines.expect(&format!("fresh i {COOKIES} - 256 257 aaaaaaaaaaaaaaaaaa"), "refused 8193");
        lines.expect("kept i", "kept 0101 00");
        lines.expect(&format!("fresh i {COOKIES} 0000 256 257 aaaaaaaaaaaaaaaaaa"), "fresh");
        lines.expect("kept i", "kept 0000 00");
        lines.expect("state i", "idle sends 0");
    }

    #[test]
    fn a_nonce_is_handed_back_from_the_longer_shapes_alone() {
        let mut lines = Lines(Bench::default());
        let [one, two, three] = [MESSAGE_1, MESSAGE_2, MESSAGE_3].map(hex);
        lines.expect(&format!("nonce i {one} -"), "nonce aaaaaaaaaaaaaaaaaa");
        lines.expect(&format!("nonce r {one} {two}"), "nonce bbbbbbbbbbbbbbbb");
        lines.expect(&format!("nonce r {one} {three}"), "nonce -");
        lines.expect("state r", "none");
    }
}
