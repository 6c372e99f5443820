//! Takes each check out of the second program in turn, moves each limit by one, and lets the ordinary differential run
//! look for a difference between that mutant and the core; see ../README.md. What is changed is said in scan.rs, which
//! finds it by rules, and in named.rs.
//!
//! `mutants BENCH VERDICT CAPTURE WHY LAWFUL SOURCES PAGE FOLDER [TEXT..]`: the core's programs, the folder of the second program's
//! sources, the page with the table of mutants that no input could show, and a folder to build in. With texts only the mutants
//! whose file and change hold one of them are tried.

mod equivalents;
mod mutation;
mod named;
mod scan;
mod source;
mod trials;
mod workshop;

use differential::cases::ProgramsOf;
use mutation::Mutation;
use source::Source;
use std::collections::BTreeMap;
use std::fs::{self, File};
use std::io::Write;
use std::path::{Path, PathBuf};
use std::process::ExitCode;
use std::time::Instant;
use trials::Trial;
use workshop::{Build, Workshop};

/// Which groups are tried first for a source, as they are made for its rules.
const FIRST_GROUPS: &[(&str, &[&str])] = &[
    (
        "bench.rs",
        &["lines", "sequence-lines", "port", "identities", "choices", "why", "lawful", "frames", "plain-window"],
    ),
    ("capture.rs", &["captures"]),
    ("der.rs", &["der-small", "der-lengths", "der-trees", "der-damage"]),
    ("frame.rs", &["frames"]),
    ("identity.rs", &["identities"]),
    ("lawful.rs", &["lawful", "lawful-words"]),
    ("lines.rs", &["lines", "sequence-lines", "ends", "replies"]),
    ("main.rs", &["port", "verdicts", "captures", "why-words", "lawful-words"]),
    ("message.rs", &["message-checks", "messages", "message-damage", "ends"]),
    ("offer.rs", &["offer-checks", "lifetimes", "offer-damage", "choices", "why", "lawful"]),
    ("plain_window.rs", &["engines", "plain-window"]),
    ("policy.rs", &["books", "choices", "lifetimes", "why"]),
    ("port4500.rs", &["port", "frames"]),
    ("quick.rs", &["ends", "deliveries", "exchanges"]),
    ("quick_lines.rs", &["ends", "deliveries", "exchanges"]),
    ("quick_messages.rs", &["ends", "deliveries", "exchanges"]),
    ("record.rs", &["frames", "captures"]),
    ("refusal.rs", &["message-checks", "sequence-table", "books", "replies", "ends", "captures", "plain-window"]),
    ("reply.rs", &["replies", "ends"]),
    ("sequence.rs", &["sequence-packets", "sequence-window", "sequence-table"]),
    ("verdict.rs", &["verdicts", "why-words", "lawful-words"]),
    ("why.rs", &["why", "why-words"]),
    ("wire.rs", &["message-checks", "sequence-packets"]),
    ("write.rs", &["replies", "ends", "deliveries"]),
];

/// The sources that none of `second verdict`, `second capture`, `second why` and `second lawful` comes to: there their many
/// runs could show nothing.
const OF_LINES_ALONE: &[&str] = &[
    "bench.rs",
    "lines.rs",
    "plain_window.rs",
    "quick.rs",
    "quick_lines.rs",
    "quick_messages.rs",
    "reply.rs",
    "write.rs",
];

/// Those that of these only `second capture` comes to.
const OF_CAPTURES: &[&str] = &["capture.rs", "frame.rs", "port4500.rs", "record.rs", "sequence.rs"];

/// Those that of these only `second why` comes to.
const OF_WHYS: &[&str] = &["why.rs"];

/// Those that of these only `second lawful` comes to.
const OF_LAWFULS: &[&str] = &["lawful.rs"];

/// So many runs are tried with a program that is built soon; one that is still unnoticed is built for all of them.
const RUNS_OF_A_SOON_BUILD: usize = 12;

struct Request {
    bench: PathBuf,
    verdict: PathBuf,
    capture: PathBuf,
    why: PathBuf,
    lawful: PathBuf,
    sources: PathBuf,
    page: PathBuf,
    folder: PathBuf,
    texts: Vec<String>,
}

impl Request {
    /// The file counts with a slash before it, so that `/lines.rs` is not `quick_lines.rs`.
    fn asks_for(&self, mutation: &Mutation) -> bool {
        let shown = format!("/{}", show(mutation));
        self.texts.is_empty() || self.texts.iter().any(|text| shown.contains(text.as_str()))
    }
}

fn request(arguments: &[String]) -> Option<Request> {
    let [bench, verdict, capture, why, lawful, sources, page, folder, texts @ ..] = arguments else { return None };
    let [bench, verdict, capture, why, lawful] = [bench, verdict, capture, why, lawful].map(PathBuf::from);
    let [sources, page, folder] = [sources, page, folder].map(PathBuf::from);
    Some(Request { bench, verdict, capture, why, lawful, sources, page, folder, texts: texts.to_vec() })
}

fn main() -> ExitCode {
    let arguments: Vec<String> = std::env::args().skip(1).collect();
    let Some(request) = request(&arguments) else {
        eprintln!("usage: mutants BENCH VERDICT CAPTURE WHY LAWFUL SOURCES PAGE FOLDER [TEXT..]");
        return ExitCode::from(2);
    };
    match try_all(&request) {
        Ok(all_noticed) => ExitCode::from(u8::from(!all_noticed)),
        Err(error) => {
            eprintln!("mutants: {error}");
            ExitCode::from(2)
        }
    }
}

fn read(path: &Path) -> Result<String, String> {
    fs::read_to_string(path).map_err(|error| format!("{}: {error}", path.display()))
}

fn sources(folder: &Path) -> Result<Vec<Source>, String> {
    let entries = fs::read_dir(folder).map_err(|error| format!("{}: {error}", folder.display()))?;
    let mut files: Vec<_> = entries.flatten().map(|entry| entry.file_name().to_string_lossy().into_owned()).collect();
    files.sort();
    files.into_iter().map(|file| Ok(Source::new(file.clone(), read(&folder.join(file))?))).collect()
}

/// What became of a mutant.
enum Fate {
    Refused,
    Noticed(String),
    Survived,
}

/// Whether every mutant that an input could show was noticed, and the table names no others.
fn try_all(request: &Request) -> Result<bool, String> {
    let sources = sources(&request.sources)?;
    let entries = equivalents::entries(&read(&request.page)?);
    let mut mutants = Vec::new();
    for source in &sources {
        let named = named::mutations(source)?;
        mutants.extend(scan::mutations(source).into_iter().chain(named).map(|mutation| (source, mutation)));
    }
    let stale = entries.iter().filter(|entry| !mutants.iter().any(|(_, mutation)| entry.is_of(mutation)));
    let stale: Vec<String> = stale.map(|entry| format!("not in the sources: {}", entry.show())).collect();
    stale.iter().for_each(|line| println!("{line}"));

    let workshop = Workshop::new(request.folder.clone(), &sources)?;
    let Request { bench, verdict, capture, why, lawful, .. } = request;
    let mut trier = Trier::new(trials::all([bench, verdict, capture, why, lawful])?, workshop)?;
    let mut log = File::create(request.folder.join("log")).map_err(|error| error.to_string())?;
    let mut tally = Tally { wrong_entries: stale.len(), ..Tally::default() };
    for (source, mutation) in mutants.iter().filter(|(_, mutation)| request.asks_for(mutation)) {
        let started = Instant::now();
        let is_listed = entries.iter().any(|entry| entry.is_of(mutation));
        let fate = trier.fate(source, mutation, is_listed)?;
        let line = tally.count(mutation, &fate, is_listed);
        let _ = writeln!(log, "{:.1} s, {line}", started.elapsed().as_secs_f64());
    }
    println!("{}", tally.show());
    Ok(tally.missed + tally.wrong_entries == 0)
}

fn show(mutation: &Mutation) -> String {
    format!("{}:{}: {}", mutation.file, mutation.line, mutation.shown)
}

#[derive(Default)]
struct Tally {
    noticed: usize,
    equivalent: usize,
    refused: usize,
    missed: usize,
    wrong_entries: usize,
}

impl Tally {
    /// Counts a mutant, and prints it if it shows that something is amiss; a line for the log.
    fn count(&mut self, mutation: &Mutation, fate: &Fate, is_listed: bool) -> String {
        let said = match fate {
            Fate::Refused => "refused by the compiler".to_string(),
            Fate::Noticed(how) => format!("noticed by {how}"),
            Fate::Survived if is_listed => "equivalent".to_string(),
            Fate::Survived => "missed".to_string(),
        };
        let line = format!("{said}: {}", show(mutation));
        match fate {
            Fate::Refused => self.refused += 1,
            Fate::Noticed(_) => self.noticed += 1,
            Fate::Survived if is_listed => self.equivalent += 1,
            Fate::Survived => {
                self.missed += 1;
                println!("{line}");
            }
        }
        if is_listed && !matches!(fate, Fate::Survived) {
            self.wrong_entries += 1;
            println!("listed as one that no input could show, but {line}");
        }
        line
    }

    fn show(&self) -> String {
        let Tally { noticed, equivalent, refused, missed, wrong_entries } = self;
        let counts = format!(
            "{noticed} mutants noticed, {equivalent} equivalent, {refused} refused by the compiler, {missed} missed"
        );
        match wrong_entries {
            0 => counts,
            _ => format!("{counts}, {wrong_entries} wrong entries in the table"),
        }
    }
}

fn first_groups(file: &str) -> &'static [&'static str] {
    FIRST_GROUPS.iter().find(|(name, _)| *name == file).map_or(&[], |(_, groups)| groups)
}

struct Trier {
    trials: Vec<Trial>,
    workshop: Workshop,
    /// For each file the runs that noticed a mutant of it, the latest last: they are tried first.
    noticed_by: BTreeMap<String, Vec<usize>>,
}

impl Trier {
    /// A second program without a change must not be noticed.
    fn new(trials: Vec<Trial>, workshop: Workshop) -> Result<Trier, String> {
        let program = workshop.unchanged(Build::Fast).ok_or("the second program does not build")?;
        match trials.iter().find_map(|trial| Some((trial.group, trial.notices(&program)?))) {
            Some((group, how)) => Err(format!("the second program is unlike the core already: {group}, {how}")),
            None => Ok(Trier { trials, workshop, noticed_by: BTreeMap::new() }),
        }
    }

    /// One that is listed as equivalent gets the runs of the groups that are made for its source, any other gets all.
    fn fate(&mut self, source: &Source, mutation: &Mutation, is_listed: bool) -> Result<Fate, String> {
        let mut order = self.order(&source.file);
        if is_listed {
            order.retain(|&run| first_groups(&source.file).contains(&self.trials[run].group));
        }
        let (soon, later) = order.split_at(RUNS_OF_A_SOON_BUILD.min(order.len()));
        for (build, runs) in [(Build::Soon, soon), (Build::Fast, later)] {
            let Some(program) = self.workshop.mutant(source, mutation, build)? else {
                return Ok(Fate::Refused);
            };
            let noticed = runs.iter().find_map(|&run| Some((run, self.trials[run].notices(&program)?)));
            if let Some((run, how)) = noticed {
                self.remember(&source.file, run);
                return Ok(Fate::Noticed(format!("{} ({how})", self.trials[run].group)));
            }
        }
        Ok(Fate::Survived)
    }

    fn remember(&mut self, file: &str, run: usize) {
        let runs = self.noticed_by.entry(file.to_string()).or_default();
        runs.retain(|&before| before != run);
        runs.push(run);
    }

    /// All runs that come to this file: those that noticed a mutant of it, those of the groups that are made for it, all
    /// others.
    fn order(&self, file: &str) -> Vec<usize> {
        let groups = first_groups(file);
        let rank = |run: &usize| {
            let latest = self.noticed_by.get(file).and_then(|runs| runs.iter().rev().position(|before| before == run));
            let group = groups.iter().position(|group| *group == self.trials[*run].group);
            (latest.unwrap_or(usize::MAX), group.unwrap_or(usize::MAX))
        };
        let is_reached = |run: &usize| match self.trials[*run].programs {
            ProgramsOf::Lines | ProgramsOf::LinesAlone => true,
            ProgramsOf::Verdicts { .. } => ![OF_LINES_ALONE, OF_CAPTURES, OF_WHYS, OF_LAWFULS].concat().contains(&file),
            ProgramsOf::Captures { .. } => ![OF_LINES_ALONE, OF_WHYS, OF_LAWFULS].concat().contains(&file),
            ProgramsOf::Whys { .. } => ![OF_LINES_ALONE, OF_CAPTURES, OF_LAWFULS].concat().contains(&file),
            ProgramsOf::Lawfuls { .. } => ![OF_LINES_ALONE, OF_CAPTURES, OF_WHYS].concat().contains(&file),
        };
        let mut order: Vec<usize> = (0..self.trials.len()).filter(is_reached).collect();
        order.sort_by_key(rank);
        order
    }
}
