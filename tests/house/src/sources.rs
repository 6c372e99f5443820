//! Finding public functions and declared names in the Rattle sources, as text.

use std::collections::HashSet;
use std::fs;
use std::path::{Path, PathBuf};

pub struct PublicFunction {
    pub krate: String,
    pub name: String,
    /// What stands between the name and the body.
    pub contract: String,
}

impl PublicFunction {
    /// Whether another function has the same name, parameters and clauses, however they are laid out.
    pub fn says_the_same(&self, other: &PublicFunction) -> bool {
        let words = |contract: &str| contract.split_whitespace().collect::<String>().replace(",)", ")");
        self.name == other.name && words(&self.contract) == words(&other.contract)
    }
}

/// Every file below a folder with this ending, in the order of their names. What rt keeps of a crate, its folder out, is passed over.
pub fn below(folder: &Path, ending: &str) -> Vec<PathBuf> {
    let mut found = Vec::new();
    let mut folders = vec![folder.to_path_buf()];
    while let Some(next) = folders.pop() {
        for entry in fs::read_dir(next).into_iter().flatten().flatten() {
            let path = entry.path();
            if path.is_dir() {
                if !path.ends_with("out") {
                    folders.push(path);
                }
            } else if path.extension().is_some_and(|e| e == ending) {
                found.push(path);
            }
        }
    }
    found.sort();
    found
}

/// The public functions of every library below a folder of crates. A program's functions are nobody else's to call.
pub fn public_functions(crates: &Path) -> Vec<PublicFunction> {
    let mut found = Vec::new();
    for path in below(crates, "rt") {
        let krate =
            path.strip_prefix(crates).unwrap().components().next().unwrap().as_os_str().to_string_lossy().into_owned();
        if !crates.join(&krate).join("src/lib.rt").exists() {
            continue;
        }
        let text = fs::read_to_string(&path).unwrap_or_default();
        for part in text.split("pub fn ").skip(1).chain(text.split("pub extern \"C\" fn ").skip(1)) {
            let name = part.split(['(', '<']).next().unwrap_or("").trim().to_string();
            let contract = part.split("\n{").next().unwrap_or("").to_string();
            found.push(PublicFunction { krate: krate.clone(), name, contract });
        }
    }
    found
}

/// Every name that the sources below a folder declare: definitions, theorems, types and their parts, functions, constants.
pub fn declared_names(folder: &Path) -> HashSet<String> {
    let mut found = HashSet::new();
    for path in below(folder, "antt") {
        let text = fs::read_to_string(&path).unwrap_or_default();
        found.extend(text.lines().filter_map(declared_in_proofs).map(String::from));
    }
    for path in below(folder, "rt") {
        let text = fs::read_to_string(&path).unwrap_or_default();
        for word in ["fn ", "struct ", "enum ", "const "] {
            let names = text.split(word).skip(1).filter_map(|part| part.split(['(', '<', ' ', ':', ';']).next());
            found.extend(names.map(String::from));
        }
    }
    found
}

/// The name that a line of definitions or proofs declares: `pub NAME : ..`, `data NAME ..`, `record NAME ..`.
fn declared_in_proofs(line: &str) -> Option<&str> {
    let mut words = line.split_whitespace().skip_while(|word| ["abbrev", "unfoldable", "pub"].contains(word));
    match words.next()? {
        "data" | "record" => words.next(),
        name => (words.next() == Some(":")).then_some(name),
    }
}

#[cfg(test)]
mod tests {
    use super::*;

    #[test]
    fn a_line_declares_what_stands_before_its_colon() {
        assert_eq!(declared_in_proofs("abbrev pub quickId : (protocol : ℕ) → ℕ"), Some("quickId"));
        assert_eq!(declared_in_proofs("  pub record FullSize (p : Party) : Type 0 where"), Some("FullSize"));
        assert_eq!(declared_in_proofs("quickId protocol = 20"), None);
    }
}
