//! Mutations named by hand, where the scan cannot see a check.

use crate::mutation::Mutation;
use crate::source::Source;

/// A file, and a text that must stand in it. What is between the marks changes: `front«before→after»back`.
#[rustfmt::skip]
const NAMED: &[(&str, &str)] = &[
    ("bench.rs", "«*kept = Kept::default();→»"),
    ("bench.rs", "one_life(&mut self.«lent→plain», words)"),
    ("bench.rs", "one_life(&mut self.«plain→lent», words)"),
    ("bench.rs", "«one_life(&mut self.lent, words)→{ one_life(&mut self.plain, words); one_life(&mut self.lent, words) }»"),
    ("bench.rs", "«one_life(&mut self.plain, words)→{ one_life(&mut self.lent, words); one_life(&mut self.plain, words) }»"),
    ("bench.rs", "«one_life(&mut self.plain, words)\
                  →if words == [b\"new\"] { Some(\"done\".to_string()) } else { one_life(&mut self.plain, words) }»"),
    ("bench.rs", "«one_life(&mut self.lent, words)\
                  →{ if words == [b\"new\"] { self.plain = PlainWindow::default(); } one_life(&mut self.lent, words) }»"),
    ("bench.rs", "«one_life(&mut self.plain, words)\
                  →{ if words == [b\"new\"] { self.lent = Receive::default(); } one_life(&mut self.plain, words) }»"),
    ("bench.rs", "«Some(done(self.table.remove(key)))\
                  →{ self.plain = PlainWindow::default(); Some(done(self.table.remove(key))) }»"),
    ("bench.rs", "lawful::answer(&offer, &reply, «None→Some(&[0, 0])»)"),
    ("bench.rs", "format!(\"accepted« {rise}→»\")"),
    ("identity.rs", "9 => der::«is_name→is_one_element»(data)"),
    ("identity.rs", "10 => der::«is_one_element→is_name»(data)"),
    ("lawful.rs", "«let offered = Recorded::new(\"offer\", offer)?;\n    \
                   let book = book.map(policy::book).transpose();\n    \
                   let book = book.map_err(|number| refused(number, \"book: cannot be read\".to_string()))?;\
                   →let book = book.map(policy::book).transpose();\n    \
                   let book = book.map_err(|number| refused(number, \"book: cannot be read\".to_string()))?;\n    \
                   let offered = Recorded::new(\"offer\", offer)?;»"),
    ("lawful.rs", "«let book = book.map_err(|number| refused(number, \"book: cannot be read\".to_string()))?;\n    \
                   let reply = Recorded::new(\"reply\", reply)?;\
                   →let reply = Recorded::new(\"reply\", reply)?;\n    \
                   let book = book.map_err(|number| refused(number, \"book: cannot be read\".to_string()))?;»"),
    ("lawful.rs", "offer::sets(offered)«.find(|offered| offered[0].number == set)→.next()»"),
    ("lawful.rs", "offered.transforms()«.find(|offered| offered.number == transform.number)→.next()»"),
    ("lawful.rs", "«for proposal in reply {\n        \
                   let (of_set, count) = (of_set(proposal), proposal.transforms().count());\n        \
                   tell_if(count > 1, || format!(\"{of_set} has {count} transforms\"))?;\n    }\n    \
                   let mut taken = Vec::new();\n    for (proposal, offered) in reply.iter().zip(offered) {\
                   →let mut taken = Vec::new();\n    for (proposal, offered) in reply.iter().zip(offered) {\n        \
                   let (of_set, count) = (of_set(proposal), proposal.transforms().count());\n        \
                   tell_if(count > 1, || format!(\"{of_set} has {count} transforms\"))?;»"),
    ("lawful.rs", "offered.id))?;\n«    }\n    for (name, transform, offered) in &taken {\n→»        let differ"),
    ("lawful.rs", "«transform.attribute_bytes() != offered.attribute_bytes()\
                   →transform.attribute_bytes().len() != offered.attribute_bytes().len()»"),
    ("lawful.rs", "choice«.filter(|choice| choice.set == set)→»"),
    ("lines.rs", "«.filter(|&size| size <= LARGEST_ROOM)→»"),
    ("message.rs", "bytes.iter().«all→any»("),
    ("message.rs", "payloads.«iter().any→last().is_some_and»(|before| before.kind == SA)"),
    ("offer.rs", "«before.contains(&this)→(before.last() == Some(&this))»"),
    ("offer.rs", "«before.iter().any→before.last().is_some_and»(is_repeated)"),
    ("offer.rs", "«other.digits() == this.digits()→other.number() as u32 == this.number() as u32»"),
    ("offer.rs", "proposals«.chunk_by(|one, next| one.number == next.number)→.chunks(1)»"),
    ("offer.rs", "more_proposals: «false→true»"),
    ("offer.rs", "more_proposals: «true→false»"),
    ("offer.rs", "protocols: &[«AH, ESP→AH»]"),
    ("offer.rs", "protocols: &[«AH, ESP→ESP»]"),
    ("offer.rs", "protocols: &[«AH, ESP→ISAKMP, AH, ESP»]"),
    ("offer.rs", "protocols: &[«ISAKMP→ISAKMP, AH»]"),
    ("plain_window.rs", "self.accepted.«iter().copied().max()→last().copied()».unwrap_or(0)"),
    ("plain_window.rs", "self.accepted.«iter().copied().max()→first().copied()».unwrap_or(0)"),
    ("plain_window.rs", "self.accepted.iter()«→.rev().take(63)».copied().max().unwrap_or(0)"),
    ("plain_window.rs", "refuse_if(«self.accepted.contains(&number)\
                         →self.accepted.iter().rev().take(64).any(|&before| before == number)», refusal::ACCEPTED_BEFORE)"),
    ("plain_window.rs", "refuse_if(«self.accepted.contains(&number)\
                         →self.accepted.iter().take(4_095).any(|&before| before == number)», refusal::ACCEPTED_BEFORE)"),
    ("plain_window.rs", "«refuse_if(self.accepted.contains(&number), refusal::ACCEPTED_BEFORE)?;\n        \
                         refuse_if(!integrity, refusal::INTEGRITY)?;\n        \
                         refuse_if(self.accepted.len() == MOST_NUMBERS, refusal::LIST_FULL)?;\
                         →refuse_if(self.accepted.len() == MOST_NUMBERS, refusal::LIST_FULL)?;\n        \
                         refuse_if(self.accepted.contains(&number), refusal::ACCEPTED_BEFORE)?;\n        \
                         refuse_if(!integrity, refusal::INTEGRITY)?;»"),
    ("plain_window.rs", "«let before = self.highest();\n        refuse_if(number\
                         →refuse_if(self.accepted.len() == MOST_NUMBERS, refusal::LIST_FULL)?;\n        \
                         let before = self.highest();\n        refuse_if(number»"),
    ("plain_window.rs", "«refuse_if(self.accepted.len() == MOST_NUMBERS, refusal::LIST_FULL)?;\n        \
                         self.accepted.push(number);\
                         →self.accepted.push(number);\n        \
                         refuse_if(self.accepted.len() == MOST_NUMBERS, refusal::LIST_FULL)?;»"),
    ("plain_window.rs", "«refuse_if(self.accepted.len() == MOST_NUMBERS, refusal::LIST_FULL)?;\n        \
                         self.accepted.push(number);\
                         →self.accepted.push(number);\n        \
                         refuse_if(self.accepted.len() > MOST_NUMBERS, refusal::LIST_FULL)?;»"),
    ("plain_window.rs", "«refuse_if(self.accepted.len() == MOST_NUMBERS, refusal::LIST_FULL)?;\
                         →if self.accepted.len() == MOST_NUMBERS { self.accepted.remove(0); }»"),
    ("plain_window.rs", "«refuse_if(self.accepted.len() == MOST_NUMBERS, refusal::LIST_FULL)?;\
                         →if self.accepted.len() == MOST_NUMBERS { self.accepted.clear(); return Err(refusal::LIST_FULL); }»"),
    ("plain_window.rs", "refuse_if(self.accepted.len() == MOST_NUMBERS«→ && number > before», refusal::LIST_FULL)"),
    ("plain_window.rs", "refuse_if(self.accepted.len() == MOST_NUMBERS«→ && number < before», refusal::LIST_FULL)"),
    ("plain_window.rs", "«refuse_if(!integrity, refusal::INTEGRITY)?;→if !integrity { self.accepted.push(number); return Err(refusal::INTEGRITY); }»"),
    ("plain_window.rs", "Ok((«self.highest() - before→number»).into())"),
    ("plain_window.rs", "Ok((«self.highest() - before→self.highest()»).into())"),
    ("plain_window.rs", "Ok((«self.highest() - before→number.abs_diff(before)»).into())"),
    ("plain_window.rs", "Ok((«self.highest() - before→(self.highest() - before).saturating_sub(1)»).into())"),
    ("plain_window.rs", "Ok((«self.highest() - before→(self.highest() - before).min(SPAN)»).into())"),
    ("plain_window.rs", "Ok((«self.highest() - before→(self.highest() - before).min(u32::MAX - 1)»).into())"),
    ("plain_window.rs", "Ok((«self.highest() - before→(self.highest() - before) as u16»).into())"),
    ("plain_window.rs", "Ok((«self.highest() - before→if before == 0 { 1 } else { self.highest() - before }»).into())"),
    ("plain_window.rs", "last.filter(|number| «self.accepted.contains(number)\
                         →self.accepted.iter().rev().take(64).any(|before| before == number)»).count()"),
    ("plain_window.rs", "last.filter(|number| «self.accepted.contains(number)\
                         →self.accepted.iter().take(4_095).any(|before| before == number)»).count()"),
    ("plain_window.rs", "count: «last.filter(|number| self.accepted.contains(number)).count()→self.accepted.len().min(span as usize)»"),
    ("policy.rs", "transforms()«.find(|transform| line.wants(protocol).suits(transform))\
                   →.filter(|transform| line.wants(protocol).suits(transform)).last()»"),
    ("policy.rs", "attributes.iter().«all→any»(is_there)"),
    ("policy.rs", "wholes.iter().«all→any»(is_wanted)"),
    ("policy.rs", "(Some(duration), KILOBYTES) => duration >= 1,\n            (Some(_), _) => «false→true»"),
    ("policy.rs", "«MODES→(0..=5)».contains(&bytes[1])"),
    ("policy.rs", "«MAIN_SECONDS.contains(&seconds).then_some(Line::Main { seconds })→Some(Line::Main { seconds })»"),
    ("policy.rs", "«for set in offer::sets(&proposals) {\n        \
                   for (line, place) in book.lines(reading.exchange).iter().zip(1..) {\
                   →for (line, place) in book.lines(reading.exchange).iter().zip(1..) {\n        \
                   for set in offer::sets(&proposals) {»"),
    ("port4500.rs", "«[u8; 4] = [0; 4]→[u8; 3] = [0; 3]»"),
    ("port4500.rs", "«[u8; 4] = [0; 4]→[u8; 5] = [0; 5]»"),
    ("quick.rs", "[«self.sent, →»self.got, self.output]"),
    ("quick.rs", "[self.sent, «self.got, →»self.output]"),
    ("quick.rs", "[self.sent, self.got«, self.output→»]"),
    ("quick.rs", "bodies.iter().«all→any»("),
    ("quick.rs", "«cookies.contains(&[0; 8])→(cookies[0] == [0; 8])»"),
    ("quick.rs", "«cookies.contains(&[0; 8])→(cookies[1] == [0; 8])»"),
    ("quick.rs", "message.starts_with(&self.cookies«→[..8]»)"),
    ("quick.rs", "«message.starts_with(&self.cookies)→(message[8..16] == self.cookies[8..])»"),
    ("quick.rs", "«self.got.put(message);→»"),
    ("quick.rs", "«self.sent.put(&message);→»"),
    ("quick.rs", "«self.message_id = message_id;→»"),
    ("quick.rs", "«self.message_id = id;→»"),
    ("quick.rs", "self.state = State::«Half→Open»;"),
    ("quick.rs", "self.state = State::«Sent→Open»;"),
    ("quick.rs", "self.state = State::GivenUp;«→ self.agreed = None;»"),
    ("quick.rs", "(Role::Responder, State::Open, Shape::HashAlone) => Ok(«Step::Nothing→self.send_again()»)"),
    ("quick.rs", "State::Open | State::GivenUp => Ok(«Step::Nothing→self.send_again()»)"),
    ("quick_messages.rs", "«without_hash(one) == without_hash(other)→one == other»"),
    ("quick_messages.rs", "«.filter(|reading| reading.exchange == QUICK_MODE)→»"),
    ("quick_messages.rs", "(«proposal.number, →»proposal.protocol, transforms)"),
    ("quick_messages.rs", "(proposal.number, «proposal.protocol, →»transforms)"),
    ("quick_messages.rs", "(proposal.number, proposal.protocol«, transforms→»)"),
    ("quick_messages.rs", "«.filter(|proposal| proposal.number == set)→»"),
    ("record.rs", "format!(\"accepted« {rise}→»\")"),
    ("record.rs", "table.add(Key { destination, protocol, spi })?;\n            \
                   table.packet(destination, protocol, true, packet)«→.map(|_| 0)»"),
    ("reply.rs", "«&[NONE_NEXT]→&taken.transform.bytes[..1]», &taken.transform.bytes[1..]"),
    ("sequence.rs", "«refuse_if(!integrity, refusal::INTEGRITY)?;\n        self.accepted.insert(number);\
                     →self.accepted.insert(number);\n        refuse_if(!integrity, refusal::INTEGRITY)?;»"),
    ("sequence.rs", "self.accepted.insert(number);«→ let before = self.highest();»"),
    ("sequence.rs", "Ok(u64::from(«self.highest() - before→number»))"),
    ("sequence.rs", "Ok(u64::from(self.highest()« - before→»))"),
    ("sequence.rs", "Ok(u64::from(«self.highest() - before→number.abs_diff(before)»))"),
    ("sequence.rs", "Ok(u64::from(«self.highest() - before→(self.highest() - before).saturating_sub(1)»))"),
    ("sequence.rs", "Ok(u64::from(«self.highest() - before→(self.highest() - before).min(SPAN)»))"),
    ("sequence.rs", "Ok(u64::from(«self.highest() - before→(self.highest() - before).min(u32::MAX - 1)»))"),
    ("sequence.rs", "Ok(u64::from(«self.highest() - before→(self.highest() - before) as u16»))"),
    ("sequence.rs", "Ok(u64::from(«self.highest() - before→if before == 0 { 1 } else { self.highest() - before }»))"),
    ("sequence.rs", "Ok(u64::from(self.highest() - before)«→ + 1»)"),
    ("sequence.rs", "«self.life(Key { destination, protocol, spi })?.received.step(number, integrity)\
                     →let of_all = self.lives.values().map(|life| life.received.highest()).max().unwrap_or(0);\n        \
                     let verdict = self.life(Key { destination, protocol, spi })?.received.step(number, integrity);\n        \
                     verdict.map(|_| u64::from(number.saturating_sub(of_all)))»"),
    ("sequence.rs", "«→.or(Some(()))».ok_or(refusal::SPI)\n    }\n\n    /// The rise"),
    ("sequence.rs", "self.lives.«remove→get»(&key)"),
    ("sequence.rs", "self.lives«.insert(key, Life::default())→.entry(key).or_default()»;"),
    ("sequence.rs", "«life.sent.checked_add(1)→Some(life.sent.wrapping_add(1))»"),
    ("verdict.rs", "«input.take(COUNTED).read_to_end(&mut bytes)→{ let mut input = input; input.read_to_end(&mut bytes) }»"),
    ("why.rs", "into_iter().«min→max»()"),
    ("why.rs", "«Missing { among_wanted: usize, kind: u16 }→Missing { kind: u16, among_wanted: usize }»"),
    ("why.rs", "«Surplus { in_offer: usize, kind: u16, life_type: Option<u64> }\
                →Surplus { kind: u16, in_offer: usize, life_type: Option<u64> }»"),
    ("why.rs", "«Id { found: u8, wanted: u8 },\n    Missing { among_wanted: usize, kind: u16 },\
                →Missing { among_wanted: usize, kind: u16 },\n    Id { found: u8, wanted: u8 },»"),
    ("why.rs", "«Missing { among_wanted: usize, kind: u16 },\n    \
                Value { among_wanted: usize, kind: u16, found: u64, wanted: u64 },\
                →Value { among_wanted: usize, kind: u16, found: u64, wanted: u64 },\n    \
                Missing { among_wanted: usize, kind: u16 },»"),
    ("why.rs", "«Value { among_wanted: usize, kind: u16, found: u64, wanted: u64 },\n    \
                Surplus { in_offer: usize, kind: u16, life_type: Option<u64> },\
                →Surplus { in_offer: usize, kind: u16, life_type: Option<u64> },\n    \
                Value { among_wanted: usize, kind: u16, found: u64, wanted: u64 },»"),
    ("why.rs", "«Surplus { in_offer: usize, kind: u16, life_type: Option<u64> },\n    Seconds { found: u64, most: u64 },\
                →Seconds { found: u64, most: u64 },\n    Surplus { in_offer: usize, kind: u16, life_type: Option<u64> },»"),
    ("why.rs", "«Seconds { found: u64, most: u64 },\n    Kilobytes { found: u64 },\
                →Kilobytes { found: u64 },\n    Seconds { found: u64, most: u64 },»"),
    ("why.rs", "life_type: «Some(life_type)→None» })"),
    ("why.rs", "«protocols.sort();→»"),
    ("why.rs", "«whole.duration.is_none() || →»whole.value == value"),
    ("why.rs", "«for set in offer::sets(&proposals) {\n        \
                for (line, place) in book.lines(exchange).iter().zip(1..) {\
                →for (line, place) in book.lines(exchange).iter().zip(1..) {\n        \
                for set in offer::sets(&proposals) {»"),
];

/// All of them for a source, at each place of the text; a text that is not there is an error, as then nothing is tried.
pub fn mutations(source: &Source) -> Result<Vec<Mutation>, String> {
    let mut found = Vec::new();
    for (_, marked) in NAMED.iter().filter(|(file, _)| *file == source.file) {
        let [front, before, after, back] = parts(marked).ok_or(format!("without its marks: {marked}"))?;
        let text = [front, before, back].concat();
        let places = source.text.match_indices(&text).map(|(at, _)| at).filter(|&at| source.is_before_tests(at));
        let of_text = places.map(|at| at + front.len()).map(|at| Mutation::new(source, at, at + before.len(), after));
        let found_before = found.len();
        found.extend(of_text);
        if found.len() == found_before {
            return Err(format!("{} has no `{text}`", source.file));
        }
    }
    Ok(found)
}

fn parts(marked: &str) -> Option<[&str; 4]> {
    let (front, rest) = marked.split_once('«')?;
    let (before, rest) = rest.split_once('→')?;
    let (after, back) = rest.split_once('»')?;
    Some([front, before, after, back])
}

#[cfg(test)]
mod tests {
    use super::*;

    #[test]
    fn every_named_mutation_has_its_marks() {
        assert!(NAMED.iter().all(|(_, marked)| parts(marked).is_some()));
        assert_eq!(parts("a«b→»c"), Some(["a", "b", "", "c"]));
    }
}
