//! Request three, "Say why nothing was chosen": for every set and line of a readable offer and a book `suits`, or what keeps
//! the one from the other.

use crate::message::{self, MAIN_MODE};
use crate::offer::{self, Proposal, Transform, Whole};
use crate::policy::{self, Book, Line, Wanted, KILOBYTES, SECONDS};
use crate::refusal::{self, Refusal};
use crate::verdict;
use std::io::{self, Read, Write};

/// What keeps a transform from a line. Several may hold at once: the one to be told is the least, by the order of the cases
/// here and then by the place.
#[derive(PartialEq, Eq, PartialOrd, Ord)]
enum Cause {
    Id { found: u8, wanted: u8 },
    Missing { among_wanted: usize, kind: u16 },
    Value { among_wanted: usize, kind: u16, found: u64, wanted: u64 },
    Surplus { in_offer: usize, kind: u16, life_type: Option<u64> },
    Seconds { found: u64, most: u64 },
    Kilobytes { found: u64 },
}

/// All that holds of a transform.
fn causes(wanted: &Wanted, transform: &Transform) -> Vec<Cause> {
    let wholes = transform.wholes();
    let wrong = wholes.iter().enumerate().filter_map(|(place, whole)| what_is_wrong(wanted, place, whole));
    let missing = wanted.attributes.iter().enumerate().filter(|(_, attribute)| is_missing(attribute, &wholes));
    let missing = missing.map(|(among_wanted, &(kind, _))| Cause::Missing { among_wanted, kind });
    let (found, wanted) = (transform.id, wanted.id);
    let id = (found != wanted).then_some(Cause::Id { found, wanted });
    wrong.chain(missing).chain(id).collect()
}

/// Another value is not missing, but lifetimes of another life type are no seconds.
fn is_missing(&(kind, value): &(u16, u64), wholes: &[Whole]) -> bool {
    !wholes.iter().any(|whole| whole.kind == kind && (whole.duration.is_none() || whole.value == value))
}

fn what_is_wrong(wanted: &Wanted, in_offer: usize, whole: &Whole) -> Option<Cause> {
    let &Whole { kind, value: found, duration } = whole;
    match (duration, found) {
        (Some(seconds), SECONDS) => {
            let most = wanted.most_seconds;
            (!(1..=most).contains(&seconds)).then_some(Cause::Seconds { found: seconds, most })
        }
        (Some(kilobytes), KILOBYTES) => (kilobytes == 0).then_some(Cause::Kilobytes { found: kilobytes }),
        (Some(_), life_type) => Some(Cause::Surplus { in_offer, kind, life_type: Some(life_type) }),
        (None, _) => {
            let Some(among_wanted) = wanted.attributes.iter().position(|attribute| attribute.0 == kind) else {
                return Some(Cause::Surplus { in_offer, kind, life_type: None });
            };
            let wanted = wanted.attributes[among_wanted].1;
            (found != wanted).then_some(Cause::Value { among_wanted, kind, found, wanted })
        }
    }
}

impl Cause {
    /// As the line `why` has it.
    fn named(&self) -> String {
        match self {
            Cause::Id { .. } => "id".to_string(),
            Cause::Missing { kind, .. } => format!("missing {kind}"),
            Cause::Value { kind, .. } => format!("value {kind}"),
            Cause::Surplus { kind, .. } => format!("surplus {kind}"),
            Cause::Seconds { .. } => "seconds".to_string(),
            Cause::Kilobytes { .. } => "kilobytes".to_string(),
        }
    }

    /// With what was offered and what the line wants.
    fn told(&self) -> String {
        let values = match self {
            Cause::Id { found, wanted } => format!(" found {found} wanted {wanted}"),
            Cause::Value { found, wanted, .. } => format!(" found {found} wanted {wanted}"),
            Cause::Surplus { life_type: Some(found), .. } => format!(" found {found}"),
            Cause::Seconds { found: found @ 0, .. } | Cause::Kilobytes { found } => format!(" found {found} least 1"),
            Cause::Seconds { found, most } => format!(" found {found} most {most}"),
            Cause::Missing { .. } | Cause::Surplus { life_type: None, .. } => String::new(),
        };
        self.named() + &values
    }
}

/// A set and a line.
struct Pair {
    set: u8,
    /// Counted from 1.
    place: usize,
    /// What the line is: protocols, mode and seconds.
    line: String,
    shows: Shows,
}

enum Shows {
    Suits,
    Protocols {
        of_set: String,
    },
    /// Each transform of each proposal, and the protocols of which none suits.
    Transforms {
        judged: Vec<Judged>,
        lacking: String,
    },
}

struct Judged {
    protocol: u8,
    transform: u8,
    /// None if it suits.
    cause: Option<Cause>,
}

/// Every set in order, and for each every line of the exchange in order.
fn pairs(book: &Book, exchange: u8, body: &[u8]) -> Vec<Pair> {
    let proposals: Vec<_> = offer::proposals(body).collect();
    let mut pairs = Vec::new();
    for set in offer::sets(&proposals) {
        for (line, place) in book.lines(exchange).iter().zip(1..) {
            pairs.push(Pair { set: set[0].number, place, line: described(line), shows: shows(set, line) });
        }
    }
    pairs
}

fn shows(set: &[Proposal], line: &Line) -> Shows {
    let mut protocols: Vec<u8> = set.iter().map(|proposal| proposal.protocol).collect();
    if !line.has_protocols_of(set) {
        protocols.sort();
        return Shows::Protocols { of_set: together(&protocols) };
    }
    let judged: Vec<Judged> = set.iter().flat_map(|proposal| judged(proposal, line)).collect();
    protocols.retain(|&protocol| !judged.iter().any(|each| each.protocol == protocol && each.cause.is_none()));
    if protocols.is_empty() {
        return Shows::Suits;
    }
    Shows::Transforms { judged, lacking: together(&protocols) }
}

fn judged(proposal: &Proposal, line: &Line) -> Vec<Judged> {
    let (protocol, wanted) = (proposal.protocol, line.wants(proposal.protocol));
    let judge = |transform: Transform| {
        let cause = causes(&wanted, &transform).into_iter().min();
        Judged { protocol, transform: transform.number, cause }
    };
    proposal.transforms().map(judge).collect()
}

impl Pair {
    /// As the line `why` has it.
    fn named(&self) -> String {
        let shown = match &self.shows {
            Shows::Suits => " suits".to_string(),
            Shows::Protocols { .. } => " protocols".to_string(),
            Shows::Transforms { judged, .. } => judged.iter().map(Judged::named).collect(),
        };
        format!(" set {} line {}{shown}", self.set, self.place)
    }

    /// A line for each line of words that a fitter reads, with what that must tell.
    fn told(&self) -> String {
        let shown = match &self.shows {
            Shows::Suits => vec![" suits".to_string()],
            Shows::Protocols { of_set } => vec![format!(" protocols {of_set}")],
            Shows::Transforms { judged, lacking } => judged.iter().map(|each| each.told(lacking)).collect(),
        };
        let Pair { set, place, line, .. } = self;
        shown.iter().map(|shown| format!("set {set} line {place} of {line}{shown}\n")).collect()
    }
}

impl Judged {
    fn named(&self) -> String {
        self.with(self.cause.as_ref().map_or("suits".to_string(), Cause::named))
    }

    /// One that would do stands in a set that does not: the words say for lack of which protocol.
    fn told(&self, lacking: &str) -> String {
        self.with(self.cause.as_ref().map_or_else(|| format!("suits without {lacking}"), Cause::told))
    }

    fn with(&self, cause: String) -> String {
        format!(" protocol {} transform {} {cause}", self.protocol, self.transform)
    }
}

fn together(protocols: &[u8]) -> String {
    protocols.iter().map(u8::to_string).collect::<Vec<_>>().join("+")
}

fn described(line: &Line) -> String {
    let (protocols, seconds) = (together(line.protocols()), line.seconds());
    match line {
        Line::Main { .. } => format!("{protocols} to {seconds}"),
        Line::EspAlone { mode, .. } | Line::AhWithEsp { mode, .. } => format!("{protocols} mode {mode} to {seconds}"),
    }
}

struct Why {
    exchange: u8,
    pairs: Vec<Pair>,
}

impl Why {
    /// Refused as the choice is, but for 14: the message, then no SA payload (16).
    fn new(book: &Book, message: &[u8]) -> Result<Why, Refusal> {
        let reading = message::read(message)?;
        let body = reading.sa_body(message).ok_or(refusal::MALFORMED)?;
        Ok(Why { exchange: reading.exchange, pairs: pairs(book, reading.exchange, body) })
    }

    fn named(&self) -> String {
        "why".to_string() + &self.pairs.iter().map(Pair::named).collect::<String>()
    }

    fn told(&self) -> String {
        if self.pairs.is_empty() {
            return format!("no {} lines\n", if self.exchange == MAIN_MODE { "main" } else { "quick" });
        }
        self.pairs.iter().map(Pair::told).collect()
    }
}

/// The answer to the line `why`.
pub fn answer(book: &[u8], message: &[u8]) -> Result<String, Refusal> {
    Ok(Why::new(&policy::book(book)?, message)?.named())
}

/// Of a book and a message behind it: the answer to the line `why`, and then what the words of the program `why` must tell.
/// With a size the book is exactly so many bytes.
pub fn tell(input: impl Read, book_size: Option<usize>, output: &mut impl Write) -> io::Result<()> {
    let bytes = verdict::counted(input)?;
    let told = in_one(&bytes, book_size).map(|why| format!("{}\n{}", why.named(), why.told()));
    output.write_all(told.unwrap_or_else(verdict::refused).as_bytes())?;
    output.flush()
}

fn in_one(bytes: &[u8], book_size: Option<usize>) -> Result<Why, Refusal> {
    let (book, message) = match book_size {
        None => policy::book_in_front(bytes)?,
        Some(size) => {
            let (book, message) = bytes.split_at(size.min(bytes.len()));
            (policy::book(book)?, message)
        }
    };
    Why::new(&book, message)
}

#[cfg(test)]
mod tests {
    use super::*;
    use crate::message::QUICK_MODE;
    use crate::offer::tests::{body, Sent, Sent::*};
    use crate::offer::{AH, ESP, ISAKMP};

    /// Lines of 3,600 seconds: one of main mode; ESP alone and then AH with ESP, both in a tunnel.
    fn book() -> Book {
        let (mode, seconds) = (1, 3_600);
        Book {
            main: vec![Line::Main { seconds }],
            quick: vec![Line::EspAlone { mode, seconds }, Line::AhWithEsp { mode, seconds }],
        }
    }

    /// What the line of that place shows of an offer of one set.
    fn pair(body: &[u8], place: usize) -> Pair {
        let exchange = if body[13] == ISAKMP { MAIN_MODE } else { QUICK_MODE };
        assert_eq!(offer::check(exchange, body), Ok(()));
        pairs(&book(), exchange, body).remove(place - 1)
    }

    /// What is said of the only transform of an offer, against the first line.
    fn cause(protocol: u8, id: u8, attributes: &[Sent]) -> String {
        let said = pair(&body(protocol, id, attributes), 1).named();
        let before = format!(" set 1 line 1 protocol {protocol} transform 1 ");
        said.strip_prefix(&before).unwrap_or(&said).to_string()
    }

    const IN_ONE_HOUR: [Sent; 2] = [LifeType(1), Duration(3_600)];

    /// All that a main line wants.
    const MAIN: [Sent; 6] = [Other(1, 129), Other(2, 20), Other(3, 10), Other(20, 2), LifeType(1), Duration(1)];

    #[test]
    fn what_is_wanted_suits_in_any_order() {
        let suits = " set 1 line 1 suits";
        assert_eq!(cause(ESP, 129, &[Other(5, 20), LifeType(1), Duration(1), Other(4, 1)]), suits);
        let with_kilobytes = [LifeType(2), Duration(1), Other(4, 1), LifeType(1), Duration(3_600), Other(5, 20)];
        assert_eq!(cause(ESP, 129, &with_kilobytes), suits);
        let main = [Other(20, 2), LifeType(1), Duration(1), Other(3, 10), Other(1, 129), Other(2, 20)];
        assert_eq!(cause(ISAKMP, 1, &main), suits);
    }

    #[test]
    fn the_id_comes_before_all_else() {
        assert_eq!(cause(ESP, 20, &[Other(4, 1), LifeType(1), Duration(1), Other(5, 20)]), "id");
        assert_eq!(cause(ESP, 128, &[]), "id");
        assert_eq!(cause(ISAKMP, 2, &[Other(9, 1), LifeType(1), Duration(0)]), "id");
    }

    #[test]
    fn what_is_missing_is_named_in_document_01s_order() {
        assert_eq!(cause(ESP, 129, &[]), "missing 4");
        assert_eq!(cause(ESP, 129, &[Other(5, 20), LifeType(1), Duration(1)]), "missing 4");
        assert_eq!(cause(ESP, 129, &[Other(4, 1)]), "missing 1");
        assert_eq!(cause(ESP, 129, &[Other(4, 1), LifeType(1), Duration(1)]), "missing 5");
        assert_eq!(cause(ISAKMP, 1, &[]), "missing 1");
        assert_eq!(cause(ISAKMP, 1, &[Other(1, 129), Other(3, 10), Other(20, 2)]), "missing 2");
        assert_eq!(cause(ISAKMP, 1, &[Other(1, 129), Other(2, 20), Other(3, 10)]), "missing 20");
        assert_eq!(cause(ISAKMP, 1, &[Other(1, 129), Other(2, 20), Other(3, 10), Other(20, 2)]), "missing 11");
    }

    #[test]
    fn kilobytes_and_other_life_types_are_no_seconds() {
        assert_eq!(cause(ESP, 129, &[Other(4, 1), LifeType(2), Duration(1), Other(5, 20)]), "missing 1");
        assert_eq!(cause(ESP, 129, &[Other(4, 2), LifeType(0), Duration(1), Other(5, 20), Other(6, 1)]), "missing 1");
    }

    #[test]
    fn a_missing_attribute_comes_before_another_value() {
        assert_eq!(cause(ESP, 129, &[Other(4, 2), LifeType(1), Duration(1)]), "missing 5");
        assert_eq!(cause(ISAKMP, 1, &[Other(1, 1), Other(2, 1), Other(3, 1), Other(20, 1)]), "missing 11");
    }

    #[test]
    fn another_value_comes_before_a_surplus_attribute() {
        let [life_type, duration] = IN_ONE_HOUR;
        assert_eq!(cause(ESP, 129, &[Other(6, 1), Other(5, 2), life_type, duration, Other(4, 1)]), "value 5");
        assert_eq!(cause(ESP, 129, &[Other(5, 2), life_type, duration, Other(4, 2)]), "value 4");
        let main = [Other(9, 0), Other(20, 1), Other(3, 1), life_type, duration, Other(2, 2), Other(1, 129)];
        assert_eq!(cause(ISAKMP, 1, &main), "value 2");
    }

    #[test]
    fn the_first_surplus_attribute_in_the_offers_order_is_named() {
        let [life_type, duration] = [LifeType(1), Duration(0)];
        let third = [LifeType(3), Duration(1)];
        let wanted = [Other(4, 1), life_type, duration, Other(5, 20)];
        assert_eq!(cause(ESP, 129, &[&wanted[..], &third, &[Other(6, 1)]].concat()), "surplus 1");
        assert_eq!(cause(ESP, 129, &[&[Other(6, 1)], &wanted[..], &third].concat()), "surplus 6");
        assert_eq!(cause(ESP, 129, &[&[VariableOther(32_767, &[])], &wanted[..]].concat()), "surplus 32767");
        assert_eq!(cause(ISAKMP, 1, &MAIN.iter().copied().chain(third).collect::<Vec<_>>()), "surplus 11");
    }

    #[test]
    fn seconds_come_before_kilobytes_and_both_have_their_limits() {
        let lasting = |seconds: u16, kilobytes: u16| {
            let lifetimes = [LifeType(2), Duration(kilobytes), LifeType(1), Duration(seconds)];
            cause(ESP, 129, &[&[Other(4, 1), Other(5, 20)], lifetimes.as_slice()].concat())
        };
        assert_eq!(lasting(0, 0), "seconds");
        assert_eq!(lasting(3_601, 0), "seconds");
        assert_eq!(lasting(3_600, 0), "kilobytes");
        assert_eq!(lasting(1, 1), " set 1 line 1 suits");
    }

    /// AH and ESP in one set, each with one transform.
    fn both(ah: &[Sent], esp: &[Sent]) -> Vec<u8> {
        let (ah, esp) = (body(AH, 20, ah), body(ESP, 129, esp));
        [&ah[..8], &[2], &ah[9..], &esp[8..]].concat()
    }

    #[test]
    fn a_set_is_measured_by_its_protocols_and_then_as_a_whole() {
        let [life_type, duration] = IN_ONE_HOUR;
        let (ah, esp) = ([Other(4, 1), Other(5, 20), life_type, duration], [Other(4, 1), life_type, duration]);
        assert_eq!(pair(&both(&ah, &esp), 1).named(), " set 1 line 1 protocols");
        assert_eq!(pair(&both(&ah, &esp), 2).named(), " set 1 line 2 suits");
        assert_eq!(
            pair(&both(&esp, &ah), 2).named(),
            " set 1 line 2 protocol 2 transform 1 missing 5 protocol 3 transform 1 surplus 5"
        );
        assert_eq!(
            pair(&both(&ah, &ah), 2).told(),
            "set 1 line 2 of 2+3 mode 1 to 3600 protocol 2 transform 1 suits without 3\n\
             set 1 line 2 of 2+3 mode 1 to 3600 protocol 3 transform 1 surplus 5\n"
        );
        assert_eq!(pair(&body(AH, 20, &ah), 1).told(), "set 1 line 1 of 3 mode 1 to 3600 protocols 2\n");
    }

    #[test]
    fn values_are_told_as_they_were_offered_and_wanted() {
        let told = |protocol: u8, id: u8, attributes: &[Sent]| {
            let said = pair(&body(protocol, id, attributes), 1).told();
            said.split_once(" transform 1 ").expect("a cause").1.trim_end().to_string()
        };
        assert_eq!(told(ESP, 20, &[]), "id found 20 wanted 129");
        let [life_type, duration] = IN_ONE_HOUR;
        assert_eq!(told(ESP, 129, &[Other(4, 3), Other(5, 20), life_type, duration]), "value 4 found 3 wanted 1");
        let odd = [Other(4, 1), Other(5, 20), life_type, duration, LifeType(9), Duration(1)];
        assert_eq!(told(ESP, 129, &odd), "surplus 1 found 9");
        let long = [Other(4, 1), Other(5, 20), life_type, VariableDuration(&[0, 1, 0, 0])];
        assert_eq!(told(ESP, 129, &long), "seconds found 65536 most 3600");
        let none = [Other(4, 1), Other(5, 20), life_type, Duration(0)];
        assert_eq!(told(ESP, 129, &none), "seconds found 0 least 1");
    }

    /// A message of exchange 2 with that payload alone.
    fn message(kind: u8, body: &[u8]) -> Vec<u8> {
        let payload = [&[0, 0, 0, 4 + body.len() as u8], body].concat();
        [&[1; 16], [kind, 0x11, 2, 0, 0, 0, 0, 0, 0, 0, 0, 28 + payload.len() as u8].as_slice(), &payload].concat()
    }

    #[test]
    fn refusals_are_those_of_the_choice_without_14() {
        let offer = message(1, &body(ISAKMP, 1, &MAIN));
        let [one_line, no_lines] = [&[1, 0, 0, 0x0e, 0x10, 0][..], &[0, 0]];
        assert_eq!(answer(one_line, &offer), Ok("why set 1 line 1 suits".to_string()));
        assert_eq!(answer(no_lines, &offer), Ok("why".to_string()));
        assert_eq!(answer(no_lines, &message(13, &[])), Err(16));
        assert_eq!(answer(no_lines, &message(13, &[])[1..]), Err(30));
        assert_eq!(answer(&[0, 0, 0], &message(13, &[])[1..]), Err(8_193));
    }

    #[test]
    fn a_size_parts_the_book_from_the_message() {
        let told = |bytes: &[u8], size: Option<usize>| {
            let mut output = Vec::new();
            tell(bytes, size, &mut output).unwrap();
            String::from_utf8(output).unwrap()
        };
        let bytes = [&[0, 0], message(1, &body(ISAKMP, 1, &MAIN)).as_slice()].concat();
        assert_eq!(told(&bytes, None), "why\nno main lines\n");
        assert_eq!(told(&bytes, Some(2)), "why\nno main lines\n");
        assert_eq!(told(&bytes, Some(3)), "refused 8193\n");
        assert_eq!(told(&bytes[..2], Some(2)), "refused 30\n");
    }
}
