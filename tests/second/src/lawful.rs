//! Request ten, "Is this gateway's reply lawful?": whether a recorded reply repeats one offered set with one offered transform
//! per proposal, with a book also whether that is its choice, and what differs first.

use crate::message::{self, Reading};
use crate::offer::{self, Proposal, AH, ISAKMP};
use crate::policy::{self, Choice};
use crate::refusal::{self, Refusal};
use crate::verdict;
use std::io::{self, Read, Write};

/// A number, and the line of words that goes with it.
struct Refused {
    number: Refusal,
    words: String,
}

fn refused(number: Refusal, words: String) -> Refused {
    Refused { number, words }
}

/// A message that reads and has an SA payload.
struct Recorded<'a> {
    reading: Reading,
    proposals: Vec<Proposal<'a>>,
}

impl<'a> Recorded<'a> {
    /// Refused as its reading is, and with 16 where it has no SA payload.
    fn new(name: &str, message: &'a [u8]) -> Result<Recorded<'a>, Refused> {
        let reading = message::read(message).map_err(|number| refused(number, format!("{name}: cannot be read")))?;
        let body = reading.sa_body(message);
        let body = body.ok_or_else(|| refused(refusal::MALFORMED, format!("{name}: has no SA payload")))?;
        Ok(Recorded { reading, proposals: offer::proposals(body).collect() })
    }
}

/// "Those of reading the offer (16 without an SA), then of the book, then of the reply (likewise), then 15 for no offered
/// choice, then 14 for another than the book's."
fn judge(offer: &[u8], reply: &[u8], book: Option<&[u8]>) -> Result<(), Refused> {
    let offered = Recorded::new("offer", offer)?;
    let book = book.map(policy::book).transpose();
    let book = book.map_err(|number| refused(number, "book: cannot be read".to_string()))?;
    let reply = Recorded::new("reply", reply)?;
    let choice = book.map(|book| policy::choose_from(&book, offer, &offered.reading).ok());
    let beside_choice = choice.as_ref().map_or(String::new(), |choice| format!("; the book chooses {}", named(choice)));
    let told = |number: Refusal, what: String| refused(number, format!("reply: {what}{beside_choice}"));
    repeats(&offered.proposals, &reply.proposals).map_err(|what| told(refusal::SA_SYNTAX, what))?;
    let takes_choice = choice.map_or(Ok(()), |choice| takes(choice, &reply.proposals));
    takes_choice.map_err(|what| told(refusal::NOTHING_SUITS, what))
}

fn named(choice: &Option<Choice>) -> String {
    choice.as_ref().map_or("nothing".to_string(), verdict::numbers)
}

/// Whether the reply has one offered set with one offered transform per proposal, in the offer's order; else what differs
/// first. A kind of difference is looked for in every proposal before the next kind is.
fn repeats(offered: &[Proposal], reply: &[Proposal]) -> Result<(), String> {
    let (set, sets) = (reply[0].number, offer::sets(reply).count());
    tell_if(sets > 1, || format!("has {sets} sets"))?;
    let offered = offer::sets(offered).find(|offered| offered[0].number == set);
    let offered = offered.ok_or_else(|| format!("set {set} is not offered"))?;
    let [has, wanted] = [reply, offered].map(together);
    tell_if(has != wanted, || format!("set {set} has {has}, offered {wanted}"))?;
    let [has, wanted] = [reply, offered].map(in_order);
    tell_if(has != wanted, || format!("set {set} has {has}, offered {wanted}"))?;
    for proposal in reply {
        let (of_set, count) = (of_set(proposal), proposal.transforms().count());
        tell_if(count > 1, || format!("{of_set} has {count} transforms"))?;
    }
    let mut taken = Vec::new();
    for (proposal, offered) in reply.iter().zip(offered) {
        for transform in proposal.transforms() {
            let name = format!("set {set}: {}", transform_of(proposal.protocol, transform.number));
            let same = offered.transforms().find(|offered| offered.number == transform.number);
            let same = same.ok_or_else(|| format!("{name} is not offered"))?;
            taken.push((name, transform, same));
        }
    }
    for (name, transform, offered) in &taken {
        tell_if(transform.id != offered.id, || format!("{name} has ID {}, offered {}", transform.id, offered.id))?;
    }
    for (name, transform, offered) in &taken {
        let differ = transform.attribute_bytes() != offered.attribute_bytes();
        tell_if(differ, || format!("{name} has other attributes than offered"))?;
    }
    Ok(())
}

/// Whether a reply that repeats an offer is what the book chooses of it, which may be nothing.
fn takes(choice: Option<Choice>, reply: &[Proposal]) -> Result<(), String> {
    let set = reply[0].number;
    let choice = choice.filter(|choice| choice.set == set).ok_or_else(|| format!("takes set {set}"))?;
    for (proposal, chosen) in reply.iter().zip(&choice.taken) {
        for transform in proposal.transforms() {
            let is_other = transform.number != chosen.transform.number;
            tell_if(is_other, || format!("takes {}", transform_of(proposal.protocol, transform.number)))?;
        }
    }
    Ok(())
}

fn tell_if(differs: bool, what: impl FnOnce() -> String) -> Result<(), String> {
    if differs {
        Err(what())
    } else {
        Ok(())
    }
}

fn protocol_name(protocol: u8) -> &'static str {
    match protocol {
        ISAKMP => "ISAKMP",
        AH => "AH",
        _ => "ESP",
    }
}

/// The protocols of a set, in whatever order they are; it has each once, and ISAKMP by itself.
fn together(set: &[Proposal]) -> String {
    match set {
        [one] if one.protocol == ISAKMP => protocol_name(one.protocol).to_string(),
        [one] => format!("{} alone", protocol_name(one.protocol)),
        _ => "AH with ESP".to_string(),
    }
}

fn in_order(set: &[Proposal]) -> String {
    set.iter().map(|proposal| protocol_name(proposal.protocol)).collect::<Vec<_>>().join(" before ")
}

/// Main mode has one proposal, which needs no name.
fn of_set(proposal: &Proposal) -> String {
    match proposal.protocol {
        ISAKMP => format!("set {}", proposal.number),
        protocol => format!("set {}: {}", proposal.number, protocol_name(protocol)),
    }
}

fn transform_of(protocol: u8, number: u8) -> String {
    match protocol {
        ISAKMP => format!("transform {number}"),
        _ => format!("{} transform {number}", protocol_name(protocol)),
    }
}

/// The answer to the line `lawful`.
pub fn answer(offer: &[u8], reply: &[u8], book: Option<&[u8]>) -> Result<(), Refusal> {
    judge(offer, reply, book).map_err(|refused| refused.number)
}

/// How many bytes the offer, the reply and the book have, which come behind each other.
pub struct Sizes {
    pub offer: u64,
    pub reply: u64,
    pub book: Option<u64>,
}

/// What the program `lawful` prints.
pub fn tell(mut input: impl Read, sizes: Sizes, output: &mut impl Write) -> io::Result<()> {
    let offer = part(&mut input, sizes.offer)?;
    let reply = part(&mut input, sizes.reply)?;
    let book = sizes.book.map(|size| part(&mut input, size)).transpose()?;
    let told = match judge(&offer, &reply, book.as_deref()) {
        Ok(()) => "lawful\n".to_string(),
        Err(Refused { number, words }) => verdict::refused(number) + &words + "\n",
    };
    output.write_all(told.as_bytes())?;
    output.flush()
}

fn part(input: impl Read, size: u64) -> io::Result<Vec<u8>> {
    let mut bytes = Vec::new();
    input.take(size).read_to_end(&mut bytes)?;
    Ok(bytes)
}

#[cfg(test)]
mod tests {
    use super::*;
    use crate::message::{MAIN_MODE, QUICK_MODE};
    use crate::offer::ESP;

    /// Number, ID, and types and values that are sent fixed.
    type Transform<'a> = (u8, u8, &'a [[u16; 2]]);
    /// Number, protocol, and transforms.
    type Proposed<'a> = (u8, u8, &'a [Transform<'a>]);

    /// Next, length and what is behind them.
    fn item(next: u8, rest: &[u8]) -> Vec<u8> {
        [&[next, 0, 0, 4 + rest.len() as u8], rest].concat()
    }

    fn transform(next: u8, &(number, id, attributes): &Transform) -> Vec<u8> {
        let attributes = attributes.iter().flat_map(|&[kind, value]| [0x8000 | kind, value]);
        let attributes: Vec<u8> = attributes.flat_map(u16::to_be_bytes).collect();
        item(next, &[&[number, id, 0, 0], attributes.as_slice()].concat())
    }

    fn proposal(next: u8, spi: &[u8], &(number, protocol, transforms): &Proposed) -> Vec<u8> {
        let count = transforms.len();
        let nexts = (1..=count).map(|place| if place == count { 0 } else { 3 });
        let transforms: Vec<u8> = transforms.iter().zip(nexts).flat_map(|(each, next)| transform(next, each)).collect();
        item(next, &[&[number, protocol, spi.len() as u8, count as u8], spi, &transforms].concat())
    }

    /// A message with one payload, whose cookies are of that byte, and its SPIs too.
    fn message(byte: u8, kind: u8, exchange: u8, body: &[u8]) -> Vec<u8> {
        let id = if exchange == MAIN_MODE { 0 } else { byte };
        let payload = item(0, body);
        let fields = [kind, 0x11, exchange, 0, 0, 0, 0, id, 0, 0, 0, 28 + payload.len() as u8];
        [&[byte; 16], fields.as_slice(), &payload].concat()
    }

    fn recorded(byte: u8, proposals: &[Proposed]) -> Vec<u8> {
        let is_main = proposals[0].1 == ISAKMP;
        let spi: &[u8] = if is_main { &[] } else { &[byte; 4] };
        let nexts = (1..=proposals.len()).map(|place| if place == proposals.len() { 0 } else { 2 });
        let proposals = proposals.iter().zip(nexts).flat_map(|(each, next)| proposal(next, spi, each));
        let body: Vec<u8> = [0, 0, 0, 1, 0, 0, 0, 1].into_iter().chain(proposals).collect();
        message(byte, 1, if is_main { MAIN_MODE } else { QUICK_MODE }, &body)
    }

    fn said(offer: &[u8], reply: &[u8], book: Option<&[u8]>) -> String {
        let sizes =
            Sizes { offer: offer.len() as u64, reply: reply.len() as u64, book: book.map(|book| book.len() as u64) };
        let mut output = Vec::new();
        let input = [offer, reply, book.unwrap_or_default()].concat();
        tell(input.as_slice(), sizes, &mut output).unwrap();
        let said = String::from_utf8(output).unwrap();
        let first = said.lines().next().unwrap().to_string();
        assert_eq!(
            answer(offer, reply, book).map_or_else(|number| format!("refused {number}"), |()| "lawful".into()),
            first
        );
        said
    }

    const HOUR: [[u16; 2]; 2] = [[1, 1], [2, 3_600]];
    const HALF: [[u16; 2]; 2] = [[1, 1], [2, 1_800]];
    const TUNNEL: [u16; 2] = [4, 1];
    const SM3: [u16; 2] = [5, 20];
    const AH_HOUR: &[[u16; 2]] = &[TUNNEL, SM3, HOUR[0], HOUR[1]];
    const ESP_HOUR: &[[u16; 2]] = &[TUNNEL, HOUR[0], HOUR[1]];
    const ESP_HALF: &[[u16; 2]] = &[TUNNEL, HALF[0], HALF[1]];

    /// Set 2 is ESP before AH, set 7 is AH alone. In set 2 ESP has the transforms 0 and 255.
    const OFFERED: &[Proposed] = &[
        (2, ESP, &[(0, 129, ESP_HOUR), (255, 129, ESP_HALF)]),
        (2, AH, &[(3, 20, AH_HOUR)]),
        (7, AH, &[(3, 20, ESP_HOUR)]),
    ];
    /// AH with ESP in a tunnel, for an hour; the same for half of one.
    const BOOK: &[u8] = &[0, 1, 2, 1, 0, 0, 0x0e, 0x10];
    const HALF_BOOK: &[u8] = &[0, 1, 2, 1, 0, 0, 0x07, 0x08];

    fn of(reply: &[Proposed], book: Option<&[u8]>) -> String {
        said(&recorded(1, OFFERED), &recorded(9, reply), book)
    }

    #[test]
    fn one_offered_set_with_one_offered_transform_each_is_lawful() {
        let first = [(2, ESP, &[(0, 129, ESP_HOUR)][..]), (2, AH, &[(3, 20, AH_HOUR)])];
        let last = [(2, ESP, &[(255, 129, ESP_HALF)][..]), (2, AH, &[(3, 20, AH_HOUR)])];
        for reply in [&first[..], &last, &[(7, AH, &[(3, 20, ESP_HOUR)])]] {
            assert_eq!(of(reply, None), "lawful\n");
        }
        assert_eq!(of(&first, Some(BOOK)), "lawful\n");
        assert_eq!(
            of(&last, Some(BOOK)),
            "refused 14\nreply: takes ESP transform 255; the book chooses set 2 line 1 transforms 0 3\n"
        );
        assert_eq!(
            of(&[(7, AH, &[(3, 20, ESP_HOUR)])], Some(BOOK)),
            "refused 14\nreply: takes set 7; the book chooses set 2 line 1 transforms 0 3\n"
        );
        for book in [HALF_BOOK, &[0, 0]] {
            assert_eq!(of(&first, Some(book)), "refused 14\nreply: takes set 2; the book chooses nothing\n");
        }
    }

    /// What is told of a reply that does not repeat the offer, without a book and with one.
    fn unlike(reply: &[Proposed]) -> String {
        let told = of(reply, None);
        let what = told.strip_prefix("refused 15\nreply: ").expect(&told).trim_end();
        for (book, choice) in [(BOOK, "set 2 line 1 transforms 0 3"), (HALF_BOOK, "nothing")] {
            assert_eq!(of(reply, Some(book)), format!("refused 15\nreply: {what}; the book chooses {choice}\n"));
        }
        what.to_string()
    }

    #[test]
    fn what_differs_first_is_told() {
        const AH_AS_OFFERED: Proposed = (2, AH, &[(3, 20, AH_HOUR)]);
        const ESP_AS_OFFERED: Proposed = (2, ESP, &[(0, 129, ESP_HOUR)]);
        assert_eq!(unlike(&[ESP_AS_OFFERED, AH_AS_OFFERED, (7, AH, &[(3, 20, ESP_HOUR)])]), "has 2 sets");
        assert_eq!(unlike(&[(3, ESP, &[(0, 129, ESP_HOUR)])]), "set 3 is not offered");
        assert_eq!(unlike(&[ESP_AS_OFFERED]), "set 2 has ESP alone, offered AH with ESP");
        assert_eq!(unlike(&[AH_AS_OFFERED]), "set 2 has AH alone, offered AH with ESP");
        assert_eq!(unlike(&[(7, ESP, &[(3, 20, ESP_HOUR)])]), "set 7 has ESP alone, offered AH alone");
        assert_eq!(unlike(&[AH_AS_OFFERED, ESP_AS_OFFERED]), "set 2 has AH before ESP, offered ESP before AH");
        let both = &[(0, 129, ESP_HOUR), (255, 129, ESP_HALF)];
        assert_eq!(unlike(&[(2, ESP, both), AH_AS_OFFERED]), "set 2: ESP has 2 transforms");
        assert_eq!(unlike(&[ESP_AS_OFFERED, (2, AH, both)]), "set 2: AH has 2 transforms");
        assert_eq!(unlike(&[(2, ESP, &[(3, 20, AH_HOUR)]), AH_AS_OFFERED]), "set 2: ESP transform 3 is not offered");
        assert_eq!(
            unlike(&[ESP_AS_OFFERED, (2, AH, &[(3, 129, AH_HOUR)])]),
            "set 2: AH transform 3 has ID 129, offered 20"
        );
        assert_eq!(
            unlike(&[(2, ESP, &[(0, 129, ESP_HALF)]), AH_AS_OFFERED]),
            "set 2: ESP transform 0 has other attributes than offered"
        );
    }

    #[test]
    fn a_kind_of_difference_is_looked_for_in_every_proposal_before_the_next_kind() {
        const OTHERS: &[Transform] = &[(1, 1, &[]), (2, 2, &[])];
        assert_eq!(unlike(&[(2, ESP, &OTHERS[..1]), (2, AH, OTHERS)]), "set 2: AH has 2 transforms");
        assert_eq!(unlike(&[(2, ESP, OTHERS), (2, AH, OTHERS)]), "set 2: ESP has 2 transforms");
        assert_eq!(
            unlike(&[(2, ESP, &[(0, 1, &[])]), (2, AH, &[(4, 20, AH_HOUR)])]),
            "set 2: AH transform 4 is not offered"
        );
        assert_eq!(
            unlike(&[(2, ESP, &[(0, 129, &[])]), (2, AH, &[(3, 21, AH_HOUR)])]),
            "set 2: AH transform 3 has ID 21, offered 20"
        );
        assert_eq!(unlike(&[(2, AH, OTHERS)]), "set 2 has AH alone, offered AH with ESP");
        assert_eq!(unlike(&[(2, AH, OTHERS), (2, ESP, OTHERS)]), "set 2 has AH before ESP, offered ESP before AH");
        assert_eq!(unlike(&[(0, AH, OTHERS), (1, ESP, OTHERS), (2, ESP, OTHERS)]), "has 3 sets");
    }

    #[test]
    fn main_mode_names_no_protocol_before_a_transform() {
        const HOURS: &[[u16; 2]] = &[[1, 129], [2, 20], [3, 10], [20, 2], [11, 1], [12, 3_600]];
        const OTHER: &[[u16; 2]] = &[[1, 129], [2, 2], [3, 10], [20, 2], [11, 1], [12, 3_600]];
        let offer = recorded(1, &[(1, ISAKMP, &[(1, 1, OTHER), (3, 1, HOURS), (4, 1, HOURS)])]);
        let main = |transforms: &[Transform]| recorded(2, &[(1, ISAKMP, transforms)]);
        let of = |transforms: &[Transform], book: Option<&[u8]>| said(&offer, &main(transforms), book);
        let book: &[u8] = &[2, 0, 0, 0x0e, 0x0f, 0, 0, 0x0e, 0x10, 0];
        assert_eq!(of(&[(1, 1, OTHER)], None), "lawful\n");
        assert_eq!(of(&[(3, 1, HOURS)], Some(book)), "lawful\n");
        let chooses = "; the book chooses set 1 line 2 transforms 3\n";
        assert_eq!(of(&[(4, 1, HOURS)], Some(book)), format!("refused 14\nreply: takes transform 4{chooses}"));
        assert_eq!(
            of(&[(2, 1, HOURS)], Some(book)),
            format!("refused 15\nreply: set 1: transform 2 is not offered{chooses}")
        );
        assert_eq!(of(&[(3, 2, HOURS)], None), "refused 15\nreply: set 1: transform 3 has ID 2, offered 1\n");
        assert_eq!(
            of(&[(3, 1, OTHER)], None),
            "refused 15\nreply: set 1: transform 3 has other attributes than offered\n"
        );
        assert_eq!(of(&[(1, 1, OTHER), (3, 1, HOURS)], None), "refused 15\nreply: set 1 has 2 transforms\n");
        let quick = recorded(2, &[(1, ESP, &[(1, 1, ESP_HOUR)])]);
        assert_eq!(said(&offer, &quick, None), "refused 15\nreply: set 1 has ESP alone, offered ISAKMP\n");
        assert_eq!(
            said(&quick, &main(&[(1, 1, OTHER)]), Some(&[0, 0])),
            "refused 15\nreply: set 1 has ISAKMP, offered ESP alone; the book chooses nothing\n"
        );
    }

    #[test]
    fn offer_then_book_then_reply_then_the_comparison_is_refused() {
        let offer = recorded(1, OFFERED);
        let [short, no_sa] = [&offer[1..], &message(1, 13, MAIN_MODE, &[])];
        assert_eq!(said(short, short, Some(&[])), "refused 30\noffer: cannot be read\n");
        assert_eq!(said(no_sa, short, Some(&[])), "refused 16\noffer: has no SA payload\n");
        assert_eq!(said(&message(1, 8, MAIN_MODE, &[]), short, None), "refused 16\noffer: cannot be read\n");
        assert_eq!(said(&offer, short, Some(&[])), "refused 8193\nbook: cannot be read\n");
        assert_eq!(said(&offer, short, Some(BOOK)), "refused 30\nreply: cannot be read\n");
        assert_eq!(said(&offer, short, None), "refused 30\nreply: cannot be read\n");
        assert_eq!(said(&offer, no_sa, Some(HALF_BOOK)), "refused 16\nreply: has no SA payload\n");
    }
}
