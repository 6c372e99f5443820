//! The must-fail edits, and their column in docs/CONTRACTS.md. An edit has one part or several with an empty line between them. The first line
//! of a part is `# NAME, ..: what it gets wrong`, each NAME that of a row below the heading of its crate; the row's last cell is made of the
//! parts that name it.

use std::fs;
use std::path::{Path, PathBuf};

use crate::sources::below;

/// A part of an edit.
pub struct Edit {
    pub krate: String,
    pub label: String,
    /// The functions or theorems whose row has it.
    pub names: Vec<String>,
    pub wrong: String,
}

/// The edits of every crate, part by part, in the order of their names.
pub fn edits(crates: &Path) -> Vec<Edit> {
    let read = |path: &PathBuf| {
        let krate = path.strip_prefix(crates).ok()?.components().next()?.as_os_str().to_string_lossy().into_owned();
        let label = path.file_stem()?.to_string_lossy().into_owned();
        Some(parts(&krate, &label, &fs::read_to_string(path).unwrap_or_default()))
    };
    below(crates, "edit").iter().filter_map(read).flatten().collect()
}

fn parts(krate: &str, label: &str, text: &str) -> Vec<Edit> {
    let part = |part: &str| {
        let (names, wrong) = first_line(part);
        Edit { krate: krate.into(), label: label.into(), names, wrong }
    };
    text.split("\n\n").map(part).collect()
}

fn first_line(text: &str) -> (Vec<String>, String) {
    let line = text.lines().next().and_then(|line| line.strip_prefix("# ")).unwrap_or("");
    let (names, wrong) = line.split_once(": ").unwrap_or(("", line));
    let names = names.split(", ").filter(|name| !name.is_empty()).map(String::from).collect();
    (names, wrong.into())
}

/// The rows of the page, as (heading, name): a row begins with a name between backticks, or with a call of it.
pub fn rows(page: &str) -> Vec<(String, String)> {
    let mut heading = "";
    let mut found = Vec::new();
    for line in page.lines() {
        heading = line.strip_prefix("## ").unwrap_or(heading);
        found.extend(row_name(line).map(|name| (heading.to_string(), name.to_string())));
    }
    found
}

fn row_name(line: &str) -> Option<&str> {
    line.strip_prefix("| `")?.split(['(', '`']).next()
}

/// The page with its column of edits made anew: the last cell of each row below the heading of a crate that has edits.
pub fn written(page: &str, edits: &[Edit]) -> String {
    let mut heading = "";
    let mut made = String::new();
    for line in page.lines() {
        heading = line.strip_prefix("## ").unwrap_or(heading);
        match row_name(line) {
            Some(name) if edits.iter().any(|edit| edit.krate == heading) => {
                made.push_str(&with_last_cell(line, &cell(heading, name, edits)))
            }
            _ => made.push_str(line),
        }
        made.push('\n');
    }
    made
}

fn cell(krate: &str, name: &str, edits: &[Edit]) -> String {
    let of_row = edits.iter().filter(|edit| edit.krate == krate && edit.names.iter().any(|named| named == name));
    of_row.map(|edit| format!("`{}`: {}", edit.label, edit.wrong)).collect::<Vec<_>>().join("; ")
}

fn with_last_cell(row: &str, cell: &str) -> String {
    let cells = row.trim_end().trim_end_matches('|');
    let before = &cells[..=cells.rfind('|').unwrap_or(0)];
    if cell.is_empty() {
        format!("{before} |")
    } else {
        format!("{before} {cell} |")
    }
}

#[cfg(test)]
mod tests {
    use super::*;

    fn edit(label: &str, text: &str) -> Vec<Edit> {
        parts("wire_read", label, text)
    }

    #[test]
    fn the_first_line_of_a_part_names_rows_and_says_what_is_wrong() {
        let edit = edit("ends", "# front, after: one byte: the last\n# more\nfile: src/lib.rt\n\n# byte: another\n");
        assert_eq!(edit[0].names, ["front", "after"]);
        assert_eq!(edit[0].wrong, "one byte: the last");
        assert_eq!(edit[1].names, ["byte"]);
        assert_eq!(edit.len(), 2);
    }

    #[test]
    fn a_first_line_without_a_name_names_no_row() {
        assert!(edit("byte", "# one byte late\n")[0].names.is_empty());
    }

    #[test]
    fn the_column_is_made_below_the_crates_own_heading() {
        let page = |of_byte: &str| {
            let of_wire =
                format!("## wire_read\n\n| `byte(s, at)` | the byte | {of_byte} |\n| `front(s, n)` | so many | |\n");
            format!("{of_wire}\n## der\n\n| `byte(s)` | x | own |\n")
        };
        let edits: Vec<Edit> = [edit("byte", "# byte: 1 past the end"), edit("late", "# byte: one byte late")]
            .into_iter()
            .flatten()
            .collect();
        let made = page("`byte`: 1 past the end; `late`: one byte late");
        assert_eq!(written(&page("old"), &edits), made);
        assert_eq!(written(&made, &edits), made);
        assert_eq!(rows(&made)[2], ("der".into(), "byte".into()));
    }
}
