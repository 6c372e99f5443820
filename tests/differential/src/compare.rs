//! Lays the answers of both programs beside each other and beside those known by construction, and those of `bench` beside
//! its own where a law says what they have to do with each other.

use crate::cases::{Case, ProgramsOf, LINE_END_SHOWN};
use crate::programs::{Programs, Run};

/// An answer that is missing is `None`, on either side.
pub struct Difference {
    pub case: usize,
    /// Which answer of the case, counted from 1.
    pub answer: usize,
    pub bench: Option<String>,
    pub second: Option<String>,
    pub known: Option<String>,
}

impl Difference {
    pub fn programs_disagree(&self) -> bool {
        self.bench != self.second
    }

    pub fn programs_agree_on_a_wrong_answer(&self) -> bool {
        !self.programs_disagree() && self.known.is_some() && self.bench != self.known
    }
}

/// What the answers of `bench` to a case must hold among themselves, whatever the second program says.
#[derive(Clone, Copy)]
pub struct Law {
    pub says: &'static str,
    /// What breaks it, if something does.
    pub broken_by: fn(&Case, &[String]) -> Option<String>,
}

/// What of a case breaks the law.
pub struct Breach {
    pub case: usize,
    pub what: String,
}

#[derive(Default)]
pub struct Comparison {
    pub differences: Vec<Difference>,
    pub breaches: Vec<Breach>,
    /// Programs that ended badly, or gave more or fewer answers than they owe.
    pub failures: Vec<String>,
}

/// Gets every case with those of its answers on which both programs agree; all answers of a group would be too much to
/// keep.
pub type Agreed<'a> = dyn FnMut(&Case, &[String]) + 'a;

/// A run of the programs ends with the case that brings its input to so many bytes, unless lines hang on each other. The
/// answers to short lines may be long.
const INPUT_OF_A_RUN: usize = 1 << 20;

/// Runs all cases and compares every answer.
pub fn compare(
    programs: &Programs,
    cases: &[Case],
    in_order: bool,
    law: Option<Law>,
    agreed: &mut Agreed,
) -> Comparison {
    let mut comparison = Comparison::default();
    for run in runs_of(cases, in_order) {
        match run[0].1.programs {
            ProgramsOf::Lines | ProgramsOf::LinesAlone => compare_run(programs, &run, law, &mut comparison, agreed),
            _ => compare_whole_outputs(programs, run[0], &mut comparison, agreed),
        }
    }
    comparison
}

/// The cases of each run of the programs, with their numbers.
pub fn runs_of(cases: &[Case], in_order: bool) -> Vec<Vec<(usize, &Case)>> {
    let is_together = |(_, case): &(usize, &Case)| case.programs == ProgramsOf::Lines;
    let (together, alone): (Vec<_>, Vec<_>) = cases.iter().enumerate().partition(is_together);
    let most_input = if in_order { usize::MAX } else { INPUT_OF_A_RUN };
    runs(&together, most_input).into_iter().chain(alone.chunks(1)).map(<[_]>::to_vec).collect()
}

/// What the programs of a run get to read, in the pieces in which it comes.
pub fn input_of(run: &[(usize, &Case)]) -> Vec<Vec<u8>> {
    match run[0].1.programs {
        ProgramsOf::Verdicts { piece }
        | ProgramsOf::Captures { piece }
        | ProgramsOf::Whys { piece, .. }
        | ProgramsOf::Lawfuls { piece, .. } => run[0].1.input.chunks(piece).map(<[u8]>::to_vec).collect(),
        ProgramsOf::Lines | ProgramsOf::LinesAlone => {
            vec![run.iter().map(|(_, case)| case.input.as_slice()).collect::<Vec<_>>().concat()]
        }
    }
}

fn runs<'a, 'b>(cases: &'b [(usize, &'a Case)], most_input: usize) -> Vec<&'b [(usize, &'a Case)]> {
    let mut runs = Vec::new();
    let (mut start, mut input) = (0, 0);
    for (at, (_, case)) in cases.iter().enumerate() {
        input += case.input.len();
        if input >= most_input || at + 1 == cases.len() {
            runs.push(&cases[start..=at]);
            (start, input) = (at + 1, 0);
        }
    }
    runs
}

fn compare_run(
    programs: &Programs,
    cases: &[(usize, &Case)],
    law: Option<Law>,
    comparison: &mut Comparison,
    agreed: &mut Agreed,
) {
    let [bench, second] = programs.run(input_of(cases));
    let owed = cases.iter().map(|(_, case)| case.answers.len()).sum();
    for (name, run) in [("bench", &bench), ("second", &second)] {
        if let Some(failure) = failure(run, owed) {
            let first = cases[0].0;
            comparison.failures.push(format!("{name}, in the run that begins with case {first}: {failure}"));
        }
    }
    compare_answers(cases, &bench.output, &second.output, comparison, agreed);
    if let Some(law) = law {
        comparison.breaches.extend(breaches(law, cases, &bench.output));
    }
}

/// What `bench` gave to each case, held to the law.
fn breaches<'a>(law: Law, cases: &'a [(usize, &Case)], bench: &'a [u8]) -> impl Iterator<Item = Breach> + 'a {
    let mut answers = lines(bench).map(shown);
    cases.iter().filter_map(move |&(number, case)| {
        let of_case: Vec<_> = answers.by_ref().take(case.answers.len()).collect();
        (law.broken_by)(case, &of_case).map(|what| Breach { case: number, what })
    })
}

/// The whole output is one answer.
fn compare_whole_outputs(programs: &Programs, case: (usize, &Case), comparison: &mut Comparison, agreed: &mut Agreed) {
    let pieces = input_of(&[case]);
    let ([core, second], name) = match case.1.programs {
        ProgramsOf::Captures { .. } => (programs.run_captures(pieces, case.1.book.as_deref()), "capture"),
        ProgramsOf::Whys { book_size, .. } => (programs.run_whys(pieces, book_size), "why"),
        ProgramsOf::Lawfuls { sizes, .. } => (programs.run_lawfuls(pieces, sizes), "lawful"),
        _ => (programs.run_verdicts(pieces), "verdict"),
    };
    for (owner, run) in [("", &core), ("second ", &second)] {
        let failure = run.failure.as_ref().map(|failure| format!("{owner}{name}, in case {}: {failure}", case.0));
        comparison.failures.extend(failure);
    }
    let whole = |output: &[u8]| lines(output).map(shown).collect::<Vec<_>>().join(LINE_END_SHOWN) + "\n";
    let [core, second] = [core, second].map(|run| whole(&run.output).into_bytes());
    compare_answers(&[case], &core, &second, comparison, agreed);
}

fn failure(run: &Run, owed: usize) -> Option<String> {
    let given = lines(&run.output).count();
    let miscounted = || (given != owed).then(|| format!("{given} answers where {owed} are owed"));
    run.failure.clone().or_else(miscounted)
}

fn compare_answers(
    cases: &[(usize, &Case)],
    bench: &[u8],
    second: &[u8],
    comparison: &mut Comparison,
    agreed: &mut Agreed,
) {
    let (mut bench, mut second) = (lines(bench), lines(second));
    for &(number, case) in cases {
        let mut agreed_here = Vec::with_capacity(case.answers.len());
        for (answer, known) in (1..).zip(&case.answers) {
            let (bench, second) = (bench.next(), second.next());
            let shown = bench.map(shown);
            if bench == second && (known.is_none() || shown == *known) {
                agreed_here.extend(shown);
                continue;
            }
            let second = second.map(self::shown);
            comparison.differences.push(Difference {
                case: number,
                answer,
                bench: shown,
                second,
                known: known.clone(),
            });
        }
        agreed(case, &agreed_here);
    }
}

/// The answers in an output, with their line ends.
fn lines(output: &[u8]) -> impl Iterator<Item = &[u8]> {
    output.split_inclusive(|&byte| byte == b'\n')
}

/// An answer as it is shown. One that lacks its line end is spoiled here, so that it equals no right answer.
fn shown(line: &[u8]) -> String {
    match line.strip_suffix(b"\n") {
        Some(answer) => printable(answer),
        None => format!("{} (without a line end)", printable(line)),
    }
}

/// Escaped only where that changes something, since answers may be long.
fn printable(answer: &[u8]) -> String {
    let is_plain = |byte: u8| (b' '..=b'~').contains(&byte) & (byte != b'"') & (byte != b'\'') & (byte != b'\\');
    match std::str::from_utf8(answer) {
        Ok(text) if answer.iter().fold(true, |plain, &byte| plain & is_plain(byte)) => text.to_string(),
        _ => answer.escape_ascii().to_string(),
    }
}

#[cfg(test)]
mod tests {
    use super::*;

    fn case(input: &[u8], known: &[Option<&str>]) -> Case {
        Case {
            kind: "made up",
            detail: String::new(),
            input: input.to_vec(),
            answers: known.iter().map(|answer| answer.map(str::to_string)).collect(),
            programs: ProgramsOf::Lines,
            book: None,
            offer: None,
            said: None,
        }
    }

    fn compared(known: &[Option<&str>], bench: &[u8], second: &[u8]) -> Comparison {
        let mut comparison = Comparison::default();
        compare_answers(&[(0, &case(b"", known))], bench, second, &mut comparison, &mut |_, _| ());
        comparison
    }

    #[test]
    fn equal_answers_agree() {
        let mut comparison = Comparison::default();
        let mut agreed = Vec::new();
        let output = b"name\nnone\n";
        let case = case(b"", &[Some("name"), None]);
        compare_answers(&[(0, &case)], output, output, &mut comparison, &mut |_, answers| agreed = answers.to_vec());
        assert_eq!(agreed, ["name", "none"]);
        assert!(comparison.differences.is_empty());
    }

    #[test]
    fn every_case_is_in_one_run() {
        let cases = [b"123".as_slice(), b"4", b"56", b"7"].map(|input| case(input, &[]));
        let cases: Vec<_> = cases.iter().enumerate().collect();
        let sizes = |most| runs(&cases, most).iter().map(|run| run.len()).collect::<Vec<_>>();
        assert_eq!(sizes(usize::MAX), [4]);
        assert_eq!(sizes(3), [1, 2, 1]);
        assert_eq!(sizes(1), [1, 1, 1, 1]);
        assert!(runs(&[], 3).is_empty());
    }

    #[test]
    fn another_answer_of_either_program_is_a_difference() {
        for (bench, second) in [(b"name\n", b"none\n"), (b"none\n", b"name\n")] {
            let comparison = compared(&[None], bench, second);
            assert!(comparison.differences[0].programs_disagree());
        }
    }

    #[test]
    fn agreement_on_a_wrong_answer_is_a_difference() {
        let comparison = compared(&[Some("none")], b"name\n", b"name\n");
        assert!(comparison.differences[0].programs_agree_on_a_wrong_answer());
    }

    #[test]
    fn a_missing_answer_or_line_end_is_a_difference() {
        assert!(compared(&[None], b"name\n", b"").differences[0].programs_disagree());
        assert!(compared(&[None], b"name\n", b"name").differences[0].programs_disagree());
        assert!(compared(&[Some("name")], b"name", b"name").differences[0].programs_agree_on_a_wrong_answer());
    }

    #[test]
    fn a_law_is_asked_of_each_case_whatever_is_known_of_it() {
        let law = Law { says: "all alike", broken_by: |_, bench| (bench[0] != bench[1]).then(|| bench.join(" ")) };
        let cases = [case(b"", &[None, None]), case(b"", &[Some("name"), Some("none")]), case(b"", &[None, None])];
        let cases: Vec<_> = cases.iter().enumerate().collect();
        let broken: Vec<_> = breaches(law, &cases, b"name\nname\nname\nnone\nnone\nname\n").collect();
        assert_eq!(broken.iter().map(|breach| breach.case).collect::<Vec<_>>(), [1, 2]);
        assert_eq!(broken[1].what, "none name");
    }

    #[test]
    fn a_surplus_answer_is_a_failure() {
        let run = |output: &[u8]| Run { output: output.to_vec(), failure: None };
        assert!(failure(&run(b"name\nname\n"), 1).is_some());
        assert!(failure(&run(b"name\n"), 1).is_none());
    }
}
