//! What the house keeps, checked from the sources. Every public function has a contract, a row in docs/CONTRACTS.md, a must-fail edit and
//! a theorem that it has one answer, and every row is of something that its crate declares; a static library's function has an edit, and the
//! name and the clauses of a library's. That page's column of edits and the diagram in
//! docs/ARCHITECTURE.md are as they are made from the sources. The edits of tests/wrong-cores name a definition. No axiom is declared. The
//! pages name only files that exist, and where they lay out definitions only names that the sources declare. Each sample answers as its page
//! says, and README.md shows what it does. Header, archives and that page have the same exported functions.
//! `house ROOT BENCH VERDICT CAPTURE WHY LAWFUL LIBRARY`; the last line is `N passed, M failed`. `house --write ROOT` makes column and diagram
//! anew (tools/pages).

mod diagram;
mod edits;
mod library;
mod sources;

use std::collections::BTreeSet;
use std::fs;
use std::io::Write;
use std::path::{Path, PathBuf};
use std::process::{Command, ExitCode, Stdio};

use diagram::families;
use sources::{below, declared_names, public_functions, PublicFunction};

const CONTRACTS: &str = "docs/CONTRACTS.md";
const ARCHITECTURE: &str = "docs/ARCHITECTURE.md";
const RULES: &str = "docs/RULES.md";

const PAGES: &[&str] = &[
    "README.md",
    RULES,
    ARCHITECTURE,
    CONTRACTS,
    "docs/DECISIONS.md",
    "docs/NUMBERS.md",
    "tests/README.md",
    "samples/README.md",
    "benchmarks/README.md",
    "bindings/c/README.md",
    "bindings/rust/README.md",
    "bindings/jvm/README.md",
];

/// Counts the facts, and says which does not hold.
#[derive(Default)]
struct Tally {
    passed: usize,
    failed: usize,
}

impl Tally {
    fn fact(&mut self, holds: bool, otherwise: impl FnOnce() -> String) {
        if holds {
            self.passed += 1;
        } else {
            self.failed += 1;
            println!("house: {}", otherwise());
        }
    }
}

fn main() -> ExitCode {
    let arguments: Vec<String> = std::env::args().collect();
    if let [_, write, root] = &arguments[..] {
        if write == "--write" {
            return ExitCode::from(u8::from(!write_pages(Path::new(root))));
        }
    }
    let [_, root, bench, verdict, capture, why, lawful, library] = &arguments[..] else {
        eprintln!("house ROOT BENCH VERDICT CAPTURE WHY LAWFUL LIBRARY, or house --write ROOT");
        return ExitCode::from(2);
    };
    let root = Path::new(root);
    let mut tally = Tally::default();
    contracts(root, &mut tally);
    rows_declared(root, &mut tally);
    edits_named(root, &mut tally);
    wrong_cores(root, &mut tally);
    made(root, &mut tally);
    crates(root, &mut tally);
    axioms(root, &mut tally);
    named_files(root, &mut tally);
    named_definitions(root, &mut tally);
    scripts(root, bench, &mut tally);
    verdicts(root, verdict, &mut tally);
    listings(root, capture, &mut tally);
    causes(root, why, &mut tally);
    replies(root, lawful, &mut tally);
    shown(root, &mut tally);
    exports(root, Path::new(library), &mut tally);
    println!("{} passed, {} failed", tally.passed, tally.failed);
    ExitCode::from(u8::from(tally.failed > 0))
}

fn text(path: &Path) -> String {
    fs::read_to_string(path).unwrap_or_default()
}

fn contracts(root: &Path, tally: &mut Tally) {
    let page = text(&root.join(CONTRACTS));
    let rows = edits::rows(&page);
    let edits = edits::edits(&root.join("crates"));
    let theorems = one_answer(root);
    let functions = public_functions(&root.join("crates"));
    let linked = static_libraries(root);
    tally.fact(!functions.is_empty(), || "no public function was found".into());
    for function in &functions {
        let PublicFunction { krate, name, contract } = function;
        tally.fact(contract.contains("ensures"), || format!("{krate}::{name} ensures nothing"));
        tally.fact(!contract.contains("requires"), || format!("{krate}::{name} requires something"));
        let edited = || edits.iter().any(|edit| edit.krate == *krate && edit.names.contains(name));
        if linked.contains(krate) {
            let same = functions.iter().any(|other| !linked.contains(&other.krate) && function.says_the_same(other));
            tally.fact(same, || format!("no library's function has the name and the clauses of {krate}::{name}"));
            tally.fact(edited(), || format!("no must-fail edit names {krate}::{name}"));
            continue;
        }
        tally.fact(rows.contains(&(krate.clone(), name.clone())), || {
            format!("{CONTRACTS} has no row for {krate}::{name}")
        });
        if excepted(&page, krate, name) {
            continue;
        }
        let theorem = format!("{krate}-{name}");
        tally.fact(theorems.contains(&format!("pub {theorem} :")), || format!("there is no theorem {theorem}"));
        tally.fact(edited(), || format!("no must-fail edit names {krate}::{name}"));
    }
}

/// The crates that other languages link. The rows of their functions are those of the libraries that have the same.
fn static_libraries(root: &Path) -> Vec<String> {
    let crates = families(&text(&root.join("crates.txt"))).into_iter().flat_map(|family| family.crates);
    crates.filter(|krate| krate.is_static).map(|krate| krate.name).collect()
}

/// The theorems that a contract has one answer, of all families.
fn one_answer(root: &Path) -> String {
    let files = below(&root.join("crates/promises/specs"), "antt");
    let of_answers =
        |path: &&PathBuf| path.file_name().is_some_and(|name| name.to_string_lossy().starts_with("OneAnswer"));
    files.iter().filter(of_answers).map(|path| text(path)).collect()
}

/// Whether the page's part "Exceptions" names this function, whose contract need then not have one answer alone.
fn excepted(page: &str, krate: &str, name: &str) -> bool {
    let part = page.split("\n## Exceptions\n").nth(1).and_then(|rest| rest.split("\n## ").next());
    part.is_some_and(|part| part.contains(&format!("`{krate}::{name}`")))
}

/// A row below a crate's heading is of something that this crate declares.
fn rows_declared(root: &Path, tally: &mut Tally) {
    for (krate, name) in edits::rows(&text(&root.join(CONTRACTS))) {
        let declared = declared_names(&root.join("crates").join(&krate));
        tally.fact(declared.contains(&name), || {
            format!("{CONTRACTS} has a row for {name}, which {krate} does not declare")
        });
    }
}

fn edits_named(root: &Path, tally: &mut Tally) {
    let rows = edits::rows(&text(&root.join(CONTRACTS)));
    let linked = static_libraries(root);
    for edit in edits::edits(&root.join("crates")) {
        let label = format!("crates/{}/must-fail/{}.edit", edit.krate, edit.label);
        tally.fact(!edit.names.is_empty(), || {
            format!("a part of {label} does not begin with `# NAME: what it gets wrong`")
        });
        for name in edit.names {
            let has_row = rows.iter().any(|row| (row.0 == edit.krate || linked.contains(&edit.krate)) && row.1 == name);
            tally.fact(has_row, || {
                format!("{label} names {name}, for which {CONTRACTS} has no row under {}", edit.krate)
            });
        }
    }
}

/// An edit of definition and code names the definition that it gets wrong.
fn wrong_cores(root: &Path, tally: &mut Tally) {
    let declared = declared_names(&root.join("crates"));
    for edit in edits::edits(&root.join("tests/wrong-cores")) {
        let named = !edit.names.is_empty() && edit.names.iter().all(|name| declared.contains(name));
        tally.fact(named, || {
            format!("tests/wrong-cores/{}.edit does not begin with `# DEFINITION: what it gets wrong`", edit.label)
        });
    }
}

/// The pages that have made parts, each as it stands and as it is made.
fn made_pages(root: &Path) -> [(&'static str, String, String); 2] {
    let contracts = text(&root.join(CONTRACTS));
    let architecture = text(&root.join(ARCHITECTURE));
    let column = edits::written(&contracts, &edits::edits(&root.join("crates")));
    let diagram = diagram::written(&architecture, &families(&text(&root.join("crates.txt"))));
    [(CONTRACTS, contracts, column), (ARCHITECTURE, architecture, diagram)]
}

fn made(root: &Path, tally: &mut Tally) {
    for (page, stands, made) in made_pages(root) {
        tally.fact(stands == made, || format!("{page} is not as it is made: run tools/pages"));
    }
    let drawn = text(&root.join(ARCHITECTURE)).contains("```mermaid\nflowchart");
    tally.fact(drawn, || format!("{ARCHITECTURE} has no diagram"));
}

/// Writes the pages that are not as they are made; whether that could be done.
fn write_pages(root: &Path) -> bool {
    let old = made_pages(root).into_iter().filter(|(_, stands, made)| stands != made);
    let failed = old.filter_map(|(page, _, made)| Some((page, fs::write(root.join(page), made).err()?)));
    failed.inspect(|(page, why)| eprintln!("house: cannot write {page}: {why}")).count() == 0
}

/// Every crate has a row in docs/ARCHITECTURE.md that says what it is for.
fn crates(root: &Path, tally: &mut Tally) {
    let page = text(&root.join(ARCHITECTURE));
    for krate in families(&text(&root.join("crates.txt"))).iter().flat_map(|family| &family.crates) {
        tally.fact(page.contains(&format!("\n| `{}` | ", krate.name)), || {
            format!("{ARCHITECTURE} has no row for the crate {}", krate.name)
        });
    }
}

fn axioms(root: &Path, tally: &mut Tally) {
    for path in below(&root.join("crates"), "antt") {
        let declares =
            text(&path).lines().any(|line| line.trim_start().trim_start_matches("pub ").starts_with("axiom "));
        tally.fact(!declares, || format!("{} declares an axiom", path.display()));
    }
}

/// What a page has between backticks and begins like a place of the repository must be there.
fn named_files(root: &Path, tally: &mut Tally) {
    for page in PAGES {
        let text = text(&root.join(page));
        tally.fact(!text.is_empty(), || format!("{page} is missing or empty"));
        for named in text.split('`').skip(1).step_by(2) {
            let place = named.split([' ', ':']).next().unwrap_or("");
            let begins = ["crates/", "docs/", "tests/", "samples/", "tools/", "benchmarks/"]
                .iter()
                .any(|p| place.starts_with(p));
            let pattern =
                place.contains("NAME") || place.contains("LABEL") || place.contains('*') || place.contains("/target/");
            if begins && !pattern {
                tally.fact(root.join(place).exists(), || format!("{page} names {place}, which is not there"));
            }
        }
    }
}

/// What stands between backticks in the last column of docs/RULES.md, and in the table of docs/ARCHITECTURE.md on what requests will touch,
/// and is no file, begins with a name that the sources declare. The table of notation, whose rows quote no sentence, is passed over.
fn named_definitions(root: &Path, tally: &mut Tally) {
    let declared = declared_names(&root.join("crates"));
    let rules = text(&root.join(RULES));
    let sentences = rules.lines().filter(|line| line.starts_with("| \"") || line.starts_with("| demand"));
    let definitions = sentences.filter_map(|row| row.trim_end_matches([' ', '|']).rsplit(" | ").next());
    let architecture = text(&root.join(ARCHITECTURE));
    let requests = architecture.split("\n| request |").nth(1).and_then(|rest| rest.split("\n\n").next());
    for (page, texts) in [(RULES, definitions.collect()), (ARCHITECTURE, Vec::from_iter(requests))] {
        let named = texts.iter().flat_map(|text| text.split('`').skip(1).step_by(2));
        let named: Vec<&str> = named.filter(|named| !named.contains('/')).collect();
        tally.fact(!named.is_empty(), || format!("{page} names no definition"));
        for named in named {
            let name = named.split(' ').next().unwrap_or("");
            tally.fact(declared.contains(name), || format!("{page} names {named}, which no source declares"));
        }
    }
}

/// samples/X.lines is a script for bench, and samples/X.answers what it answers.
fn scripts(root: &Path, bench: &str, tally: &mut Tally) {
    let scripts = below(&root.join("samples"), "lines");
    tally.fact(!scripts.is_empty(), || "samples/ has no script".into());
    for script in scripts {
        answers(&mut Command::new(bench), &content(&script), &script.with_extension("answers"), tally);
    }
}

/// samples/X.book and samples/X.message are for verdict, and samples/X.verdict is what it prints.
fn verdicts(root: &Path, verdict: &str, tally: &mut Tally) {
    let messages = below(&root.join("samples"), "message");
    tally.fact(!messages.is_empty(), || "samples/ has no message".into());
    for message in messages {
        let input = [content(&message.with_extension("book")), content(&message)].concat();
        answers(&mut Command::new(verdict), &input, &message.with_extension("verdict"), tally);
    }
}

/// Where there is a samples/X.why, it is what why prints of samples/X.book and samples/X.message.
fn causes(root: &Path, why: &str, tally: &mut Tally) {
    let pages = below(&root.join("samples"), "why");
    tally.fact(!pages.is_empty(), || "samples/ says of no offer why it does not suit".into());
    for page in pages {
        let input = [content(&page.with_extension("book")), content(&page.with_extension("message"))].concat();
        answers(&mut Command::new(why), &input, &page, tally);
    }
}

/// samples/X.pcap is for capture, and samples/X.listing is what it prints; where there is a samples/X.book, samples/X.choices is what it prints
/// with that.
fn listings(root: &Path, capture: &str, tally: &mut Tally) {
    let captures = below(&root.join("samples"), "pcap");
    tally.fact(!captures.is_empty(), || "samples/ has no capture".into());
    for file in captures {
        let mut list = Command::new(capture);
        // What it advises on standard error is no part of the listing.
        list.stderr(Stdio::null());
        answers(&mut list, &content(&file), &file.with_extension("listing"), tally);
        let book = file.with_extension("book");
        if book.exists() {
            answers(list.arg(book), &content(&file), &file.with_extension("choices"), tally);
        }
    }
}

/// samples/X.offer and samples/X.reply are for lawful, and samples/X.lawful is what it prints; where there is a samples/X.book, samples/X.booked
/// is what it prints with that. Its arguments are how many bytes each has.
fn replies(root: &Path, lawful: &str, tally: &mut Tally) {
    let offers = below(&root.join("samples"), "offer");
    tally.fact(!offers.is_empty(), || "samples/ has no offer with a reply".into());
    for offer in offers {
        let [reply, book] = ["reply", "book"].map(|kind| offer.with_extension(kind));
        let mut input = [content(&offer), content(&reply)].concat();
        let mut judge = Command::new(lawful);
        judge.args([size(&offer), size(&reply)]);
        answers(&mut judge, &input, &offer.with_extension("lawful"), tally);
        if book.exists() {
            input.extend(content(&book));
            answers(judge.arg(size(&book)), &input, &offer.with_extension("booked"), tally);
        }
    }
}

/// A run of ./verdict, ./why, ./lawful or ./capture in README.md is one on a sample, and shows what that sample's page says.
fn shown(root: &Path, tally: &mut Tally) {
    let readme = text(&root.join("README.md"));
    for program in ["verdict", "why", "lawful", "capture"] {
        let runs: Vec<&str> = readme.split(&format!("\n$ ./{program} ")).skip(1).collect();
        tally.fact(!runs.is_empty(), || format!("README.md shows no run of ./{program}"));
        for run in runs {
            let (files, rest) = run.split_once('\n').unwrap_or_default();
            let shown = rest.split("```").next().unwrap_or("");
            let said = page_of(program, files).map(|page| text(&root.join(page)));
            tally.fact(said.as_deref() == Some(shown), || {
                format!("README.md does not show what ./{program} {files} prints")
            });
        }
    }
}

/// Where it is said what a program prints of files that are a sample.
fn page_of(program: &str, files: &str) -> Option<String> {
    let name = files.split('.').next()?;
    let kind = match (program, &files.replace(name, "X")[..]) {
        ("verdict" | "why", "X.policy X.message") => program,
        ("lawful", "X.offer X.reply") => "lawful",
        ("lawful", "X.offer X.reply X.policy") => "booked",
        ("capture", "X.pcap") => "listing",
        ("capture", "X.pcap X.policy") => "choices",
        _ => return None,
    };
    Some(format!("{name}.{kind}"))
}

/// The header, each archive, the rows of docs/CONTRACTS.md and the table of README.md have the same exported functions.
fn exports(root: &Path, folder: &Path, tally: &mut Tally) {
    let declared = library::declared(&text(&folder.join("include/tallowbrim.h")));
    let page = edits::rows(&text(&root.join(CONTRACTS)));
    let rows = page.into_iter().map(|(_, name)| name).filter(|name| name.starts_with(library::PREFIX)).collect();
    tally.fact(!declared.is_empty(), || format!("{} has no header with functions", folder.display()));
    tally.fact(declared == rows, || format!("{CONTRACTS} and the header differ in {}", unlike(&declared, &rows)));
    let readme = text(&root.join("README.md"));
    for name in &declared {
        tally.fact(readme.contains(&format!("`{name}`")), || format!("README.md does not name {name}"));
    }
    for (place, processor) in library::ARCHIVES {
        let archive = library::archive(&folder.join(place).join("libtallowbrim.a")).unwrap_or_default();
        let library::Archive { functions, asked, processors } = archive;
        let differ = || format!("the archive {place} and the header differ in {}", unlike(&declared, &functions));
        tally.fact(functions == declared, differ);
        tally.fact(processors == [processor].into(), || format!("the archive {place} is for {processors:?}"));
        let known = |name: &&String| library::ASKED.contains(&name.as_str());
        tally.fact(asked.iter().all(|name| known(&name)), || format!("the archive {place} asks for {asked:?}"));
    }
}

fn unlike(one: &BTreeSet<String>, other: &BTreeSet<String>) -> String {
    one.symmetric_difference(other).map(String::as_str).collect::<Vec<_>>().join(", ")
}

fn content(path: &Path) -> Vec<u8> {
    fs::read(path).unwrap_or_default()
}

/// How many bytes a file has, as a word.
fn size(path: &Path) -> String {
    content(path).len().to_string()
}

/// A call prints for this input just what the page says.
fn answers(call: &mut Command, input: &[u8], page: &Path, tally: &mut Tally) {
    let printed = printed(call, input);
    let expected = fs::read(page).ok();
    tally.fact(printed.is_some() && printed == expected, || {
        format!("{} does not print what {} says", call.get_program().to_string_lossy(), page.display())
    });
}

fn printed(call: &mut Command, input: &[u8]) -> Option<Vec<u8>> {
    let mut child = call.stdin(Stdio::piped()).stdout(Stdio::piped()).spawn().ok()?;
    // Samples are far smaller than a pipe, so writing all before reading cannot wait for ever.
    child.stdin.take()?.write_all(input).ok()?;
    child.wait_with_output().ok().map(|output| output.stdout)
}
