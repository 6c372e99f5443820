//! One change of a source text.

use crate::source::Source;

#[derive(Clone, PartialEq)]
pub struct Mutation {
    pub file: String,
    pub line: usize,
    /// The changed line, or the lines where there are several, with the change in it: `[before => after]`.
    pub shown: String,
    /// The whole text of the file with the change.
    pub text: String,
}

impl Mutation {
    /// The bytes from `start` to `end` become `after`.
    pub fn new(source: &Source, start: usize, end: usize, after: &str) -> Mutation {
        let text = &source.text;
        let line_start = text[..start].rfind('\n').map_or(0, |at| at + 1);
        let line_end = text[end..].find('\n').map_or(text.len(), |at| end + at);
        let change = format!("[{} => {}]", &text[start..end], after);
        let shown = [&text[line_start..start], &change, &text[end..line_end]].concat();
        Mutation {
            file: source.file.clone(),
            line: source.line_number(start),
            shown: shown.split_whitespace().collect::<Vec<_>>().join(" "),
            text: [&text[..start], after, &text[end..]].concat(),
        }
    }
}
