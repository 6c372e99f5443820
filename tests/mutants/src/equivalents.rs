//! The table of mutants that no input could show, as a page has it: source, change, reason.

use crate::mutation::Mutation;

const HEADING: &str = "## Mutants that no input could show";

pub struct Entry {
    file: String,
    shown: String,
}

impl Entry {
    pub fn is_of(&self, mutation: &Mutation) -> bool {
        self.file == mutation.file && self.shown == mutation.shown
    }

    pub fn show(&self) -> String {
        format!("{}: {}", self.file, self.shown)
    }
}

/// A row is `| FILE | CHANGE | REASON |`, with file and change in backticks; a bar in the change is written `\|`.
pub fn entries(page: &str) -> Vec<Entry> {
    let behind = page.split(HEADING).nth(1).unwrap_or("");
    let section = behind.split("\n## ").next().unwrap_or("");
    section.lines().filter_map(entry).collect()
}

fn entry(line: &str) -> Option<Entry> {
    let mut quoted = line.strip_prefix("| `")?.split('`');
    let (file, shown) = (quoted.next()?, quoted.nth(1)?);
    Some(Entry { file: file.to_string(), shown: shown.replace("\\|", "|") })
}

#[cfg(test)]
mod tests {
    use super::*;

    #[test]
    fn rows_below_the_heading_are_read() {
        let page =
            "| `x` | `y` | z |\n## Mutants that no input could show\n\n| source | change | why |\n|---|---|---|\n\
                    | `a.rs` | `b [\\|\\| => &&] c` | `d` is so |\n\n## More\n| `x` | `y` | z |\n";
        let entries: Vec<_> = entries(page).iter().map(Entry::show).collect();
        assert_eq!(entries, ["a.rs: b [|| => &&] c"]);
    }
}
