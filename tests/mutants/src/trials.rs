//! The runs of the ordinary differential run, each with the answers that the core gave to it. A mutant is noticed by the
//! first run to which it gives other answers, or in which it ends badly or not at all.

use differential::cases::ProgramsOf;
use differential::compare::{input_of, runs_of};
use differential::programs::{run, BookFile, Run};
use differential::{groups, words, DEFAULT_SEED};
use std::hash::{DefaultHasher, Hasher};
use std::path::Path;
use std::process::{Command, Stdio};
use std::sync::Arc;
use std::time::Duration;

/// Long enough on a machine that does much else.
const PATIENCE: Duration = Duration::from_secs(600);
/// In seconds of processor time. A run of an unchanged second program takes a second or two; one without an end is stopped.
const MOST_TIME: &str = "40";
/// In KiB. A mutant that never stops keeping something is stopped by this.
const MOST_MEMORY: &str = "1000000";

pub struct Trial {
    pub group: &'static str,
    pub programs: ProgramsOf,
    input: Arc<Vec<Vec<u8>>>,
    book: Option<BookFile>,
    answers: Digest,
}

/// Stands for the whole output of a run: its length and a hash.
#[derive(PartialEq)]
struct Digest(usize, u64);

fn digest(output: &[u8]) -> Digest {
    let mut hasher = DefaultHasher::new();
    hasher.write(output);
    Digest(output.len(), hasher.finish())
}

/// All runs with the seed of the ordinary run.
pub fn all([bench, verdict, capture, why, lawful]: [&Path; 5]) -> Result<Vec<Trial>, String> {
    let mut trials = Vec::new();
    for group in groups::ALL {
        let cases = group.cases(DEFAULT_SEED);
        for cases in runs_of(&cases, group.in_order) {
            let (_, case) = cases[0];
            let input = Arc::new(input_of(&cases));
            let book = case.book.as_deref().map(BookFile::new);
            let mut core = Command::new(match case.programs {
                ProgramsOf::Lines | ProgramsOf::LinesAlone => bench,
                ProgramsOf::Verdicts { .. } => verdict,
                ProgramsOf::Captures { .. } => capture,
                ProgramsOf::Whys { .. } => why,
                ProgramsOf::Lawfuls { .. } => lawful,
            });
            core.args(book.iter().map(|file| &file.0)).args(sizes(case.programs)).stderr(Stdio::null());
            let Run { mut output, failure } = run(core, &input, PATIENCE);
            if let Some(failure) = failure {
                return Err(format!("{}: the core failed: {failure}", group.name));
            }
            if let ProgramsOf::Whys { .. } = case.programs {
                output = words::read_back(&output);
            }
            let (programs, answers) = (case.programs, digest(&output));
            trials.push(Trial { group: group.name, programs, input, book, answers });
        }
    }
    Ok(trials)
}

/// What a program is told of the sizes of its inputs.
fn sizes(programs: ProgramsOf) -> Vec<String> {
    match programs {
        ProgramsOf::Whys { book_size, .. } => book_size.iter().map(usize::to_string).collect(),
        ProgramsOf::Lawfuls { sizes, .. } => sizes.arguments(),
        _ => Vec::new(),
    }
}

impl Trial {
    /// How this run notices that the program is not the core's equal, if it does.
    pub fn notices(&self, program: &Path) -> Option<String> {
        let mut limited = Command::new("sh");
        let limits = "ulimit -v \"$0\"; ulimit -t \"$1\"; shift; exec \"$@\"";
        limited.args(["-c", limits, MOST_MEMORY, MOST_TIME]).arg(program).stderr(Stdio::null());
        match self.programs {
            ProgramsOf::Lines | ProgramsOf::LinesAlone => &mut limited,
            ProgramsOf::Verdicts { .. } => limited.arg("verdict"),
            ProgramsOf::Captures { .. } => limited.arg("capture").args(self.book.iter().map(|file| &file.0)),
            ProgramsOf::Whys { .. } => limited.arg("why").args(sizes(self.programs)),
            ProgramsOf::Lawfuls { .. } => limited.arg("lawful").args(sizes(self.programs)),
        };
        let Run { output, failure } = run(limited, &self.input, PATIENCE);
        let unlike = || (digest(&output) != self.answers).then(|| "other answers".to_string());
        failure.or_else(unlike)
    }
}
