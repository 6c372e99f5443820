//! Feeds the same lines to `bench` and to the second program, the same books and messages to `verdict`, `why` and `lawful` and
//! the same captures to `capture` and to the second program's own, and compares every answer; see ../README.md.

use differential::cases::{Case, LINE_END_SHOWN};
use differential::compare::{compare, Breach, Comparison, Difference};
use differential::groups::{self, Group};
use differential::programs::Programs;
use differential::DEFAULT_SEED;
use std::collections::BTreeMap;
use std::path::PathBuf;
use std::sync::atomic::{AtomicUsize, Ordering};
use std::sync::Mutex;
use std::thread;
use std::time::Instant;

/// So many groups are compared at once.
const AT_ONCE: usize = 2;

/// So many differences of a group are shown; one mistake can bring thousands.
const DIFFERENCES_SHOWN: usize = 5;
/// A longer line is shortened in its middle, down to so many characters at each end.
const ENDS_SHOWN: usize = 100;

/// What the command line asks for.
struct Request {
    programs: Programs,
    seed: u64,
    groups: Vec<&'static Group>,
    case: Option<usize>,
}

fn request(mut arguments: impl Iterator<Item = String>) -> Option<Request> {
    let mut program = || arguments.next().map(PathBuf::from);
    let programs = Programs::new([program()?, program()?, program()?, program()?, program()?, program()?]);
    let groups = groups::ALL.iter().collect();
    let mut request = Request { programs, seed: DEFAULT_SEED, groups, case: None };
    while let Some(option) = arguments.next() {
        let value = arguments.next()?;
        match option.as_str() {
            "--seed" => request.seed = value.parse().ok()?,
            "--only" => {
                let (names, case) = match value.split_once(':') {
                    Some((group, case)) => (group, Some(case.parse().ok()?)),
                    None => (value.as_str(), None),
                };
                let known = |name| groups::ALL.iter().find(|group| group.name == name);
                request.groups = names.split(',').map(known).collect::<Option<_>>()?;
                request.case = case;
            }
            _ => return None,
        }
    }
    Some(request)
}

fn usage() -> ! {
    let names: Vec<_> = groups::ALL.iter().map(|group| group.name).collect();
    eprintln!(
        "usage: differential BENCH SECOND VERDICT CAPTURE WHY LAWFUL [--seed N] [--only GROUP,.. | --only GROUP:CASE]"
    );
    eprintln!("groups: {}", names.join(", "));
    std::process::exit(2)
}

/// What a group counts and has to say.
#[derive(Default)]
struct Tally {
    passed: usize,
    failed: usize,
    said: String,
}

impl Tally {
    fn say(&mut self, line: &str) {
        self.said += line;
        self.said += "\n";
    }

    /// Counts one test, which passed if there are no faults to show.
    fn count<Fault>(&mut self, test: &str, faults: &[Fault], show: impl Fn(&Fault) -> String) {
        if faults.is_empty() {
            self.passed += 1;
            return;
        }
        self.failed += 1;
        self.say(&format!("FAILED {test}"));
        for fault in faults.iter().take(DIFFERENCES_SHOWN) {
            self.say(&format!("  {}", show(fault)));
        }
        if faults.len() > DIFFERENCES_SHOWN {
            self.say(&format!("  and {} more", faults.len() - DIFFERENCES_SHOWN));
        }
    }
}

fn main() {
    let Some(request) = request(std::env::args().skip(1)) else { usage() };
    let tallies: Vec<_> = request.groups.iter().map(|_| Mutex::new(Tally::default())).collect();
    // From the last group on, which takes longest; what they say stands in their order.
    let left = AtomicUsize::new(tallies.len());
    thread::scope(|scope| {
        for _ in 0..AT_ONCE {
            scope.spawn(|| {
                while let Ok(last) = left.fetch_update(Ordering::Relaxed, Ordering::Relaxed, |left| left.checked_sub(1))
                {
                    let mut tally = tallies[last - 1].lock().expect("no other group counts here");
                    run(&request, request.groups[last - 1], &mut tally);
                }
            });
        }
    });
    let [mut passed, mut failed] = [0, 0];
    for tally in tallies {
        let tally = tally.into_inner().expect("every group ran to its end");
        print!("{}", tally.said);
        passed += tally.passed;
        failed += tally.failed;
    }
    println!("{passed} passed, {failed} failed");
    std::process::exit((failed > 0).into());
}

fn run(request: &Request, group: &Group, tally: &mut Tally) {
    match request.case {
        Some(number) => run_case(request, group, number, tally),
        None => run_group(request, group, tally),
    }
}

fn run_group(request: &Request, group: &Group, tally: &mut Tally) {
    let started = Instant::now();
    let cases = group.cases(request.seed);
    let mut counts = Counts::new(group);
    let comparison = compare(&request.programs, &cases, group.in_order, group.law, &mut |case, answers| {
        counts.add(group, case, answers)
    });

    tally.say(&format!(
        "{}: {} cases of {} kinds in {:.1} s; {}",
        group.name,
        cases.len(),
        group.kinds.len(),
        started.elapsed().as_secs_f64(),
        counts.show(group)
    ));

    count_comparison(request, group, &cases, &comparison, tally);
    count_occurrences(group, &cases, &counts, tally);
}

/// How often each kind of answer and each occasion of a group occurred.
struct Counts {
    kinds: BTreeMap<String, usize>,
    occasions: Vec<usize>,
}

impl Counts {
    fn new(group: &Group) -> Counts {
        Counts { kinds: BTreeMap::new(), occasions: vec![0; group.wanted_occasions().count()] }
    }

    fn add(&mut self, group: &Group, case: &Case, answers: &[String]) {
        for kind in answers.iter().flat_map(|answer| kinds_of(group, answer)) {
            *self.kinds.entry(kind).or_default() += 1;
        }
        for (count, (_, _, occurs)) in self.occasions.iter_mut().zip(group.wanted_occasions()) {
            *count += usize::from(occurs(case, answers));
        }
    }

    fn of(&self, kind: &str) -> usize {
        self.kinds.get(kind).copied().unwrap_or(0)
    }

    fn show(&self, group: &Group) -> String {
        let answers = group.wanted().map(|kind| format!("{} {kind}", self.of(kind)));
        let occasions = self.occasions.iter().zip(group.wanted_occasions());
        let occasions = occasions.map(|(count, (name, ..))| format!("{count} {name}"));
        answers.chain(occasions).collect::<Vec<_>>().join(", ")
    }
}

fn count_occurrences(group: &Group, cases: &[Case], counts: &Counts, tally: &mut Tally) {
    let name = group.name;
    let rare: Vec<_> = group.wanted().filter(|kind| counts.of(kind) < group.at_least).collect();
    tally.count(&format!("{name}: every kind of answer occurred often enough"), &rare, |kind| {
        format!("`{kind}` occurred {} times, not {}", counts.of(kind), group.at_least)
    });

    let foreign: Vec<_> = counts.kinds.keys().filter(|kind| !group.knows(kind)).collect();
    tally.count(&format!("{name}: no other kind of answer occurred"), &foreign, |kind| format!("`{kind}`"));

    let unmade = |kind: &&str| !cases.iter().any(|case| case.kind == *kind);
    let unmade: Vec<_> = group.kinds.iter().map(|(kind, _)| *kind).filter(unmade).collect();
    tally.count(&format!("{name}: every kind of case was made"), &unmade, |kind| {
        format!("no case of the kind \"{kind}\"")
    });

    if !counts.occasions.is_empty() {
        let occasions = group.wanted_occasions().zip(&counts.occasions);
        let rare = occasions.filter(|((_, at_least, _), count)| *count < at_least);
        let test = format!("{name}: everything else that is asked for occurred often enough");
        tally.count(&test, &rare.collect::<Vec<_>>(), |((occasion, at_least, _), count)| {
            format!("\"{occasion}\" occurred {count} times, not {at_least}")
        });
    }
}

/// Runs one case and shows it whole: by itself, or behind all that come before it where its answer hangs on them.
fn run_case(request: &Request, group: &Group, number: usize, tally: &mut Tally) {
    let mut cases = group.cases(request.seed);
    if number >= cases.len() {
        tally.say(&format!("{} has the cases 0 to {}", group.name, cases.len() - 1));
        tally.failed += 1;
        return;
    }
    cases.truncate(number + 1);
    if !group.in_order {
        cases.drain(..number);
    }
    for case in &cases {
        tally.say(&case.input.escape_ascii().to_string());
        case.book.iter().for_each(|book| tally.say(&format!("book {}", book.escape_ascii())));
    }
    let mut agreed = Vec::new();
    let comparison =
        compare(&request.programs, &cases, group.in_order, group.law, &mut |_, answers| agreed = answers.to_vec());
    tally.say(&format!("agreed: {}", agreed.join(", ")));
    count_comparison(request, group, &cases, &comparison, tally);
}

fn count_comparison(request: &Request, group: &Group, cases: &[Case], comparison: &Comparison, tally: &mut Tally) {
    let name = group.name;
    tally.count(
        &format!("{name}: both programs ran to their end and gave as many answers as they owe"),
        &comparison.failures,
        String::clone,
    );
    let show = |difference: &&Difference| show(request, group, &cases[difference.case], difference);
    let differences = comparison.differences.iter();
    let disagreements: Vec<_> = differences.clone().filter(|each| each.programs_disagree()).collect();
    tally.count(&format!("{name}: both programs give the same answers"), &disagreements, show);
    let both_wrong: Vec<_> = differences.filter(|each| each.programs_agree_on_a_wrong_answer()).collect();
    tally.count(&format!("{name}: where they agree, a known answer is the one given"), &both_wrong, show);
    if let Some(law) = group.law {
        tally.count(&format!("{name}: {}", law.says), &comparison.breaches, |Breach { case, what }| {
            [cases[*case].title(), format!("  {what}"), again(request, group, *case)].join("\n  ")
        });
    }
}

fn show(request: &Request, group: &Group, case: &Case, difference: &Difference) -> String {
    let answer = |answer: &Option<String>| answer.clone().unwrap_or("(no answer)".to_string());
    let known = difference.known.clone().unwrap_or("(only that both agree)".to_string());
    [
        format!("{}, answer {} of {}", case.title(), difference.answer, case.answers.len()),
        format!("  input   {}", shortened(&asked(case, difference.answer).escape_ascii().to_string())),
        format!("  bench   {}", shortened(&answer(&difference.bench))),
        format!("  second  {}", shortened(&answer(&difference.second))),
        format!("  known   {known}"),
        again(request, group, difference.case),
    ]
    .join("\n  ")
}

/// How a case is run once more.
fn again(request: &Request, group: &Group, case: usize) -> String {
    let number = request.case.filter(|_| !group.in_order).unwrap_or(case);
    let what = if group.in_order { "all lines up to this one" } else { "this case alone and whole" };
    let programs = request.programs.shown();
    format!("  {what}: differential {programs} --seed {} --only {}:{number}", request.seed, group.name)
}

/// The line that the answer is for, where every line of the case gets one; all of the input otherwise.
fn asked(case: &Case, answer: usize) -> &[u8] {
    let lines: Vec<_> = case.input.split_inclusive(|&byte| byte == b'\n').collect();
    if lines.len() == case.answers.len() {
        return lines[answer - 1];
    }
    &case.input
}

fn shortened(line: &str) -> String {
    if line.len() <= 3 * ENDS_SHOWN {
        return line.to_string();
    }
    let (front, back) = (&line[..ENDS_SHOWN], &line[line.len() - ENDS_SHOWN..]);
    format!("{front} ... {} characters left out ... {back}", line.len() - 2 * ENDS_SHOWN)
}

/// The kinds that an answer counts for: of a listing each line's, of other answers that of the last line.
fn kinds_of(group: &Group, answer: &str) -> Vec<String> {
    let mut kinds: Vec<_> = answer.split(LINE_END_SHOWN).filter(|line| !line.is_empty()).map(kind_of).collect();
    if group.listings {
        return kinds;
    }
    kinds.split_off(kinds.len().saturating_sub(1))
}

/// What a line says without its numbers, bytes, places, addresses and stops; a refusal keeps its number. What is said of
/// every set and line has no end of kinds, and is one.
fn kind_of(line: &str) -> String {
    if line.split(' ').next() == Some("why") {
        return "why".to_string();
    }
    let (said, refusal) = line.split_at(line.find("refused ").unwrap_or(line.len()));
    let is_of_value = |byte: u8| matches!(byte, b'0'..=b'9' | b'a'..=b'f' | b'@' | b'+' | b'-');
    // All bytes are looked at, which is faster for long words than to stop at the first that is none.
    let is_value = |word: &str| word.bytes().fold(true, |all, byte| all & is_of_value(byte));
    let mut words = without_place_and_addresses(said).split(' ').map(|word| word.trim_end_matches([':', ',', ';']));
    let verb = words.next();
    let kept = verb.into_iter().chain(words.filter(|word| !is_value(word))).chain([refusal]);
    kept.filter(|word| !word.is_empty()).collect::<Vec<_>>().join(" ")
}

/// What a line of a listing says of its record; any other line as it is.
fn without_place_and_addresses(line: &str) -> &str {
    let is_passed =
        |word: &str| matches!(word, "at" | ">") || word.bytes().all(|byte| byte.is_ascii_digit() || byte == b'.');
    let mut what = line;
    while let Some((_, behind)) = what.split_once(' ').filter(|(word, _)| is_passed(word)) {
        what = behind;
    }
    what
}

#[cfg(test)]
mod tests {
    use super::*;

    fn named(name: &str) -> &'static Group {
        groups::ALL.iter().find(|group| group.name == name).expect("it is there")
    }

    /// How many tests of a group's counts fail where these are all answers.
    fn failed(name: &str, answers: &[&str]) -> usize {
        let group = named(name);
        let cases = group.cases(DEFAULT_SEED);
        let mut counts = Counts::new(group);
        let answers: Vec<_> = answers.iter().map(|answer| answer.to_string()).collect();
        counts.add(group, &cases[0], &answers);
        let mut tally = Tally::default();
        count_occurrences(group, &cases, &counts, &mut tally);
        tally.failed
    }

    #[test]
    fn answers_that_are_rare_or_foreign_fail() {
        assert_eq!(failed("port", &["keepalive", "key-exchange 4 1", "esp 4", "refused 16"]), 0);
        assert_eq!(failed("port", &["keepalive", "key-exchange 4 1", "esp 4"]), 1);
        assert_eq!(failed("port", &["keepalive", "key-exchange 4 1", "esp 4", "refused 15"]), 2);
    }

    #[test]
    fn occasions_that_are_rare_fail_also_where_a_group_has_none_of_its_own() {
        let rare_answers = failed("sequence-lines", &[]);
        assert_eq!(failed("sequence-window", &[]), rare_answers + 1);
    }

    #[test]
    fn a_refusal_keeps_its_number_and_other_answers_lose_their_values() {
        assert_eq!(kind_of("key-exchange 4 1"), "key-exchange");
        assert_eq!(kind_of("read 2 1 1@28+52"), "read");
        assert_eq!(kind_of("reply 0000abcd"), "reply");
        assert_eq!(kind_of("kept - ff"), "kept");
        assert_eq!(kind_of("accepted 65"), "accepted");
        assert_eq!(kind_of("refused 16"), "refused 16");
        assert_eq!(kind_of("bad line"), "bad line");
        assert_eq!(
            kind_of("reply: set 1: ESP transform 2 has ID 3, offered 4"),
            "reply set ESP transform has ID offered"
        );
        assert_eq!(kind_of("reply: takes set 2; the book chooses nothing"), "reply takes set the book chooses nothing");
        assert_eq!(kind_of("why set 1 line 2 protocols"), "why");
        assert_eq!(kind_of("set 1 line 2 of 2+3 mode 1 to 3600 protocols 3"), "set line of mode to protocols");
        assert_eq!(kind_of("payload 1 at 28 length 52"), "payload at length");
        assert_eq!(kind_of("  chosen set 1 line 2 transforms 3 4"), "chosen set line transforms");
        assert_eq!(kind_of("1 at 24 cut short"), "cut short");
        assert_eq!(kind_of("10.0.0.1 > 10.0.0.2 exchange 2 payloads 1 1@28+52"), "exchange payloads");
        assert_eq!(kind_of("1 at 24 1.000000 10.0.0.1 > 10.0.0.2 other ports 5 > 6"), "other ports >");
        assert_eq!(kind_of("10.0.0.1 > 10.0.0.2 refused 16"), "refused 16");
        assert_eq!(kind_of("1.0.0.1 > 1.0.0.2 ESP 00000100 number 1 refused 8194"), "ESP number refused 8194");
        assert_eq!(kind_of("1.0.0.1 > 1.0.0.2 ESP 00000100 number 1 accepted 1"), "ESP number accepted");
        assert_ne!(kind_of("name (without a line end)"), "name");
    }

    #[test]
    fn every_line_of_a_listing_counts_and_the_last_one_of_other_answers() {
        let answer = "exchange 2 payloads 1 / payload 1 at 28 length 52 / refused 14";
        assert_eq!(kinds_of(named("verdicts"), answer), ["refused 14"]);
        let listing = "1 at 24 0.000000 not IPv4 / 2 at 54 cut short";
        assert_eq!(kinds_of(named("captures"), listing), ["not IPv4", "cut short"]);
        assert!(kinds_of(named("captures"), "").is_empty());
    }
}
