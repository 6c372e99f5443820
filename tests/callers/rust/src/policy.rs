//! The lines `book`, `choose`, `reply`, `why` and `lawful`, and what `./verdict` prints.

use crate::{said, words};
use tallowbrim::{Book, Cause, Choice, Places, Refusal, Why};

/// The answer to one of these lines; `None` where a word is none of its sort.
pub fn answer(words: &[&[u8]]) -> Option<Result<String, Refusal>> {
    Some(match words {
        [b"book", book] => {
            tallowbrim::book(&words::bytes(book)?).map(|Book { main, quick }| format!("book {main} {quick}"))
        }
        [b"choose", book, message] => {
            let choice = tallowbrim::choose(&words::bytes(book)?, &words::bytes(message)?);
            choice.map(|Choice { set, line, transforms }| format!("chosen {set} {line}{}", numbers(&transforms)))
        }
        [b"why", book, message] => why(&words::bytes(book)?, &words::bytes(message)?),
        [b"lawful", offer, reply] => lawful(&words::bytes(offer)?, &words::bytes(reply)?, None),
        [b"lawful", offer, reply, book] => {
            lawful(&words::bytes(offer)?, &words::bytes(reply)?, Some(&words::bytes(book)?))
        }
        [b"reply", book, ah, esp, room, message] => {
            let (book, ah, esp) = (words::bytes(book)?, words::decimal(ah)?, words::decimal(esp)?);
            let mut buffer = vec![0; words::room(room)?];
            let reply = tallowbrim::reply(&book, &words::bytes(message)?, ah, esp, &mut buffer);
            reply.map(|reply| format!("reply {}", words::word(reply)))
        }
        _ => return None,
    })
}

pub fn numbers(transforms: &[u8]) -> String {
    transforms.iter().map(|number| format!(" {number}")).collect()
}

fn why(book: &[u8], message: &[u8]) -> Result<String, Refusal> {
    tallowbrim::cause(book, message, Places::default())?;
    let Book { main, quick } = tallowbrim::book(book)?;
    let lines = if tallowbrim::message(message)?.exchange == tallowbrim::MAIN_MODE { main } else { quick };
    let mut said = "why".to_string();
    for set in 0..=u8::MAX {
        let Some(place) = tallowbrim::place(message, set, 0, 0)? else { break };
        for line in 0..lines {
            said += &format!(" set {} line {}{}", place.set, line + 1, pair(book, message, set, line)?);
        }
    }
    Ok(said)
}

/// What is said of a set and a line: it suits where each proposal has a transform that does.
fn pair(book: &[u8], message: &[u8], set: u8, line: u8) -> Result<String, Refusal> {
    let mut causes = String::new();
    let mut all_suit = true;
    for proposal in 0..=u8::MAX {
        if tallowbrim::place(message, set, proposal, 0)?.is_none() {
            break;
        }
        let mut one_suits = false;
        for transform in 0..=u8::MAX {
            let Some(place) = tallowbrim::place(message, set, proposal, transform)? else { break };
            match tallowbrim::cause(book, message, Places { set, line, proposal, transform })? {
                Some(Why::Transform(told)) => {
                    one_suits |= told == Cause::Suits;
                    causes += &format!(" protocol {} transform {} {}", place.protocol, place.transform, cause(told));
                }
                Some(Why::Protocols) => return Ok(" protocols".to_string()),
                None => return Ok(" none".to_string()),
            }
        }
        all_suit &= one_suits;
    }
    Ok(if all_suit { " suits".to_string() } else { causes })
}

fn cause(told: Cause) -> String {
    match told {
        Cause::Suits => "suits".to_string(),
        Cause::Id { .. } => "id".to_string(),
        Cause::Missing(kind) => format!("missing {kind}"),
        Cause::Value { kind, .. } => format!("value {kind}"),
        Cause::Surplus { kind, .. } => format!("surplus {kind}"),
        Cause::Seconds { .. } => "seconds".to_string(),
        Cause::Kilobytes => "kilobytes".to_string(),
    }
}

fn lawful(offer: &[u8], reply: &[u8], book: Option<&[u8]>) -> Result<String, Refusal> {
    tallowbrim::lawful(offer, reply, book).map(|()| "lawful".to_string())
}

/// Lines with their ends.
pub fn verdict(book: &[u8], message: &[u8]) -> String {
    payloads_and_choice(book, message).unwrap_or_else(|refusal| said(Err(refusal)) + "\n")
}

fn payloads_and_choice(book: &[u8], bytes: &[u8]) -> Result<String, Refusal> {
    tallowbrim::book(book)?;
    let message = tallowbrim::message(bytes)?;
    let mut lines = format!("exchange {} payloads {}\n", message.exchange, message.count);
    let mut offers = false;
    for place in 0..message.count {
        let payload = tallowbrim::payload(bytes, place)?;
        lines += &format!("payload {} at {} length {}\n", payload.kind, payload.part.start, payload.part.length);
        offers |= payload.kind == tallowbrim::OFFER;
    }
    if offers {
        let chosen = |Choice { set, line, transforms }| {
            format!("chosen set {set} line {line} transforms{}", numbers(&transforms))
        };
        lines += &said(tallowbrim::choose(book, bytes).map(chosen));
        lines += "\n";
    }
    Ok(lines)
}
