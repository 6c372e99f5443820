//! A source text, and the same text with all that is no code made blank, so that both have every byte at the same place.

const TESTS: &str = "#[cfg(test)]";

pub struct Source {
    pub file: String,
    pub text: String,
    /// Comments, attributes, `use` lines and the tests at the end are spaces here, strings and characters tildes.
    pub code: String,
}

impl Source {
    pub fn new(file: String, text: String) -> Source {
        let code = blank_lines(&blank_words(&text));
        Source { file, text, code }
    }

    /// Whether what stands at a place is before the tests.
    pub fn is_before_tests(&self, at: usize) -> bool {
        self.text.find(TESTS).is_none_or(|tests| at < tests)
    }

    /// The number of the line that holds a place, counted from 1.
    pub fn line_number(&self, at: usize) -> usize {
        self.text[..at].matches('\n').count() + 1
    }
}

/// Where the text of a comment, a string or a character that begins at this place ends, if one does.
fn end_of_word(rest: &str) -> Option<usize> {
    if rest.starts_with("//") {
        return Some(rest.find('\n').unwrap_or(rest.len()));
    }
    if rest.starts_with('"') {
        return Some(1 + end_of_quotes(&rest[1..], '"'));
    }
    // A lifetime has no second quote behind its first letter.
    let is_character = rest.starts_with("'\\") || rest.starts_with('\'') && rest[1..].chars().nth(1) == Some('\'');
    is_character.then(|| 1 + end_of_quotes(&rest[1..], '\''))
}

fn end_of_quotes(rest: &str, quote: char) -> usize {
    let mut escaped = false;
    for (at, character) in rest.char_indices() {
        if character == quote && !escaped {
            return at + 1;
        }
        escaped = character == '\\' && !escaped;
    }
    rest.len()
}

fn blank(text: &str) -> String {
    filled(text, ' ')
}

fn filled(text: &str, with: char) -> String {
    text.bytes().map(|byte| if byte == b'\n' { '\n' } else { with }).collect()
}

fn blank_words(text: &str) -> String {
    let end = text.find(TESTS).unwrap_or(text.len());
    let mut code = String::with_capacity(text.len());
    while code.len() < end {
        let rest = &text[code.len()..end];
        if let Some(length) = end_of_word(rest) {
            code += &filled(&rest[..length], if rest.starts_with('/') { ' ' } else { '~' });
        } else {
            code.extend(rest.chars().next());
        }
    }
    code + &blank(&text[end..])
}

fn blank_lines(code: &str) -> String {
    let is_blank = |line: &str| ["use ", "pub use ", "#", "mod ", "pub mod "].iter().any(|word| line.starts_with(word));
    let line = |line: &str| if is_blank(line.trim_start()) { blank(line) } else { line.to_string() };
    code.split_inclusive('\n').map(line).collect()
}

#[cfg(test)]
mod tests {
    use super::*;

    #[test]
    fn only_code_is_left_and_it_stays_at_its_place() {
        let text = "use x::Y;\nfn a<'a>() { b(\"1 \\\" 2\", '3', '\\'', 4) } // 5\n#[cfg(test)]\nmod tests {}\n";
        let source = Source::new("a.rs".to_string(), text.to_string());
        let code = "         \nfn a<'a>() { b(~~~~~~~~, ~~~, ~~~~, 4) }     \n            \n            \n";
        assert_eq!(source.code, code);
        assert_eq!(source.line_number(text.find('4').unwrap()), 2);
    }
}
