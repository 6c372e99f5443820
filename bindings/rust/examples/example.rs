//! Judges the sample four-sets, then plays a whole exchange of quick mode between two ends, whose first message is lost.

use std::error::Error;
use std::fs;
use tallowbrim::{choose, message, payload, End, Own, Refusal, Role, Step};

/// No main lines and one quick line: AH with ESP, tunnel, to 3,600 seconds.
const BOOK: [u8; 8] = [0, 1, 2, 1, 0, 0, 0x0e, 0x10];

fn main() -> Result<(), Box<dyn Error>> {
    let samples = concat!(env!("CARGO_MANIFEST_DIR"), "/../../samples");
    judge(&fs::read(format!("{samples}/four-sets.book"))?, &fs::read(format!("{samples}/four-sets.message"))?)?;
    exchange()?;
    Ok(())
}

fn judge(book: &[u8], bytes: &[u8]) -> Result<(), Refusal> {
    let read = message(bytes)?;
    println!("exchange {} payloads {}", read.exchange, read.count);
    for place in 0..read.count {
        let payload = payload(bytes, place)?;
        println!("payload {} at {} length {}", payload.kind, payload.part.start, payload.part.length);
    }
    let choice = choose(book, bytes)?;
    println!("chosen set {} line {} transforms{}", choice.set, choice.line, numbers(&choice.transforms));
    Ok(())
}

fn exchange() -> Result<(), Refusal> {
    let mut initiator = end(Role::Initiator, [0x1001, 0x1002], &[0xaa; 16])?;
    let mut responder = end(Role::Responder, [0x2001, 0x2002], &[0xbb; 16])?;

    let lost = initiator.begin(7, &[], &[])?.to_vec();
    say("the initiator begins", &lost, [&initiator, &responder]);
    let first = to_send(initiator.tick()?);
    say("it was lost, time passes", &first, [&initiator, &responder]);
    let second = to_send(responder.deliver(true, &first)?);
    say("message 1 arrives", &second, [&initiator, &responder]);
    let third = to_send(initiator.deliver(true, &second)?);
    say("message 2 arrives", &third, [&initiator, &responder]);
    let none = to_send(responder.deliver(true, &third)?);
    say("message 3 arrives", &none, [&initiator, &responder]);

    let agreed = initiator.agreed()?;
    assert_eq!(agreed, responder.agreed()?);
    println!("agreed on set {} transforms{}", agreed.set, numbers(&agreed.transforms));
    println!("SPIs: initiator{}, responder{}", spis(&agreed.initiator), spis(&agreed.responder));
    Ok(())
}

fn end(role: Role, [ah, esp]: [u32; 2], nonce: &[u8]) -> Result<End, Refusal> {
    let [initiator_cookie, responder_cookie] = [0x0101_0101_0101_0101, 0x0202_0202_0202_0202];
    End::fresh(&Own { role, initiator_cookie, responder_cookie, book: &BOOK, ah, esp, nonce })
}

/// What goes on the wire, empty for nothing. A program would fill in the message's hash and encipher it here.
fn to_send(step: Step) -> Vec<u8> {
    match step {
        Step::Send(message) => message.to_vec(),
        Step::Nothing => Vec::new(),
    }
}

fn say(event: &str, sent: &[u8], ends: [&End; 2]) {
    let [initiator, responder] = ends.map(|end| end.state().state);
    let sent = if sent.is_empty() { "nothing".to_string() } else { format!("{} bytes", sent.len()) };
    println!("{event}: {sent} to send, initiator {initiator:?}, responder {responder:?}");
}

fn numbers(transforms: &[u8]) -> String {
    transforms.iter().map(|number| format!(" {number}")).collect()
}

fn spis(spis: &[u32]) -> String {
    spis.iter().map(|spi| format!(" {spi:08x}")).collect()
}
