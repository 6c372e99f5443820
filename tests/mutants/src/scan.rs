//! Finds mutations in the text of a source, without its comments, strings and tests. The rules:
//!
//! 1. A check is taken out: in `refuse_if(CONDITION, NUMBER)` the condition becomes `false`.
//! 2. A call is taken out: a line `CALL(..)?;` that keeps no value, other than `refuse_if`, becomes empty.
//! 3. Two checks change places: neighbouring lines `refuse_if(..)?;` with different numbers.
//! 4. A side is taken out: of `A || B` and of `A && B` only `A` is left, or only `B`.
//! 5. A branch is always or never taken: the condition of `if`, of a match arm's `if` and of `else if` becomes `true`, and
//!    `false`; that of `while` becomes `false`.
//! 6. A comparison moves by one or turns round: `<` and `<=`, `>` and `>=`, `==` and `!=` stand for each other.
//! 7. A range loses its last value: `..=` becomes `..`.
//! 8. A number is raised and lowered by one, wherever it stands; 0 is only raised.
//! 9. A limit that has a name is raised and lowered by one: what stands behind `<`, `<=`, `>`, `>=` and `..=`, if it begins
//!    with a small letter.
//! 10. A constant is raised and lowered by one where it is used, each use by itself; not in a pattern, where it names a
//!     value and rule 8 changes that, and not as a refusal's number.
//!
//! Several rules can bring the same text; it counts once.

use crate::mutation::Mutation;
use crate::source::Source;
use std::ops::Range;

const CHECK: &str = "refuse_if(";

pub fn mutations(source: &Source) -> Vec<Mutation> {
    let rules = [
        checks,
        calls,
        neighbouring_checks,
        sides,
        branches,
        comparisons,
        range_ends,
        numbers,
        named_limits,
        constants_where_used,
    ];
    let mut found: Vec<Mutation> = Vec::new();
    for mutation in rules.iter().flat_map(|rule| rule(source)) {
        if found.iter().all(|before| before.text != mutation.text) {
            found.push(mutation);
        }
    }
    found
}

fn replace(source: &Source, place: Range<usize>, after: &str) -> Mutation {
    Mutation::new(source, place.start, place.end, after)
}

/// Every place where a text stands in the code.
fn places<'a>(code: &'a str, text: &'a str) -> impl Iterator<Item = usize> + 'a {
    code.match_indices(text).map(|(at, _)| at)
}

/// Where the condition of the check that begins here ends, and where the check itself does.
fn ends_of_check(code: &str, at: usize) -> (usize, usize) {
    let start = at + CHECK.len();
    let end = start + to_close(&code[start..]);
    let comma = code[start..end].rfind(", ").expect("a check has a number");
    (start + comma, end)
}

fn is_definition(code: &str, at: usize) -> bool {
    code[..at].ends_with("fn ")
}

fn checks(source: &Source) -> Vec<Mutation> {
    let found = places(&source.code, CHECK).filter(|&at| !is_definition(&source.code, at));
    found.map(|at| replace(source, at + CHECK.len()..ends_of_check(&source.code, at).0, "false")).collect()
}

/// The lines of the code, each with its place and without the blanks around it.
fn lines(code: &str) -> Vec<(usize, &str)> {
    let mut at = 0;
    let mut lines = Vec::new();
    for line in code.split_inclusive('\n') {
        let indent = line.len() - line.trim_start().len();
        lines.push((at + indent.min(line.len() - 1), line.trim()));
        at += line.len();
    }
    lines
}

fn calls(source: &Source) -> Vec<Mutation> {
    let is_call = |line: &str| line.ends_with(")?;") && !line.contains(" = ") && !line.starts_with(CHECK);
    let found = lines(&source.code).into_iter().filter(|(_, line)| is_call(line));
    found.map(|(at, line)| replace(source, at..at + line.len(), "")).collect()
}

fn neighbouring_checks(source: &Source) -> Vec<Mutation> {
    let code = &source.code;
    let is_check = |line: &str| line.starts_with(CHECK) && line.ends_with(")?;");
    let number = |at: usize| {
        let (comma, end) = ends_of_check(code, at);
        &code[comma..end]
    };
    let mut found = Vec::new();
    for pair in lines(code).windows(2) {
        let [(one_at, one), (other_at, other)] = [pair[0], pair[1]];
        if is_check(one) && is_check(other) && number(one_at) != number(other_at) {
            let end = other_at + other.len();
            let text = |place: Range<usize>| &source.text[place];
            let swapped = [text(other_at..end), text(one_at + one.len()..other_at), text(one_at..one_at + one.len())];
            found.push(replace(source, one_at..end, &swapped.concat()));
        }
    }
    found
}

/// How many bytes stand before the bracket that closes what is open here.
fn to_close(rest: &str) -> usize {
    to_end(rest, |_| false)
}

/// How many bytes stand before the closing bracket, or before the first place outside of brackets that ends it too.
fn to_end(rest: &str, ends: impl Fn(&str) -> bool) -> usize {
    let mut depth = 0;
    for (at, character) in rest.char_indices() {
        if depth == 0 && (matches!(character, ')' | ']' | '}') || ends(&rest[at..])) {
            return at;
        }
        match character {
            '(' | '[' | '{' => depth += 1,
            ')' | ']' | '}' => depth -= 1,
            _ => {}
        }
    }
    rest.len()
}

/// The place behind the opening bracket, or behind the last place outside of brackets that begins it too.
fn to_begin(before: &str, begins: impl Fn(&str) -> bool) -> usize {
    let mut depth = 0;
    for (at, character) in before.char_indices().rev() {
        let behind = at + character.len_utf8();
        if depth == 0 && (matches!(character, '(' | '[' | '{') || begins(&before[..behind])) {
            return behind;
        }
        match character {
            ')' | ']' | '}' => depth += 1,
            '(' | '[' | '{' => depth -= 1,
            _ => {}
        }
    }
    0
}

fn sides(source: &Source) -> Vec<Mutation> {
    let code = &source.code;
    let mut found = Vec::new();
    for operator in ["||", "&&"] {
        for at in places(code, operator) {
            // An `||` binds less than an `&&`, which is then part of its sides.
            let is_end = |rest: &str| {
                let ends = [",", ";", "||", "=>", " {"];
                ends.iter().any(|end| rest.starts_with(end)) || operator == "&&" && rest.starts_with("&&")
            };
            let is_begin = |before: &str| {
                let begins = [",", ";", "||", " = ", "=>", "| ", "if ", "return "];
                begins.iter().any(|begin| before.ends_with(begin)) || operator == "&&" && before.ends_with("&&")
            };
            let behind = at + operator.len();
            let left = trimmed(code, to_begin(&code[..at], is_begin)..at);
            let right = trimmed(code, behind..behind + to_end(&code[behind..], is_end));
            // A closure without arguments has nothing before its `||`.
            if left.is_empty() || right.is_empty() {
                continue;
            }
            for kept in [&left, &right] {
                found.push(replace(source, left.start..right.end, &source.text[kept.clone()]));
            }
        }
    }
    found
}

fn trimmed(code: &str, place: Range<usize>) -> Range<usize> {
    let text = &code[place.clone()];
    let start = place.start + text.len() - text.trim_start().len();
    start..(start + text.trim().len())
}

fn branches(source: &Source) -> Vec<Mutation> {
    let code = &source.code;
    let mut found = Vec::new();
    for (word, values) in [("if ", ["true", "false"].as_slice()), ("while ", &["false"])] {
        for at in places(code, word).filter(|&at| is_word_start(code, at)) {
            let start = at + word.len();
            let condition =
                start..start + to_end(&code[start..], |rest| rest.starts_with(" {") || rest.starts_with(" =>"));
            if !code[condition.clone()].starts_with("let ") {
                found.extend(values.iter().map(|value| replace(source, condition.clone(), value)));
            }
        }
    }
    found
}

fn is_of_name(byte: u8) -> bool {
    byte.is_ascii_alphanumeric() || byte == b'_'
}

fn is_word_start(code: &str, at: usize) -> bool {
    at == 0 || !is_of_name(code.as_bytes()[at - 1])
}

fn comparisons(source: &Source) -> Vec<Mutation> {
    let pairs = [(" < ", " <= "), (" > ", " >= "), (" == ", " != ")];
    let both_ways = pairs.into_iter().flat_map(|(one, other)| [(one, other), (other, one)]);
    let replaced = |(before, after): (&'static str, &'static str)| {
        let place = move |at: usize| at + 1..at + before.len() - 1;
        places(&source.code, before).map(move |at| replace(source, place(at), after.trim()))
    };
    both_ways.flat_map(replaced).collect()
}

fn range_ends(source: &Source) -> Vec<Mutation> {
    places(&source.code, "..=").map(|at| replace(source, at..at + 3, "..")).collect()
}

/// The words of letters, digits and underscores that begin with such a byte.
fn words(code: &str, begins: fn(u8) -> bool) -> Vec<Range<usize>> {
    let bytes = code.as_bytes();
    let starts = (0..bytes.len()).filter(|&at| begins(bytes[at]) && is_word_start(code, at));
    starts.map(|at| at..at + bytes[at..].iter().take_while(|&&byte| is_of_name(byte)).count()).collect()
}

fn value(word: &str) -> Option<u64> {
    let digits = word.replace('_', "");
    digits.strip_prefix("0x").map_or_else(|| digits.parse().ok(), |hex| u64::from_str_radix(hex, 16).ok())
}

fn numbers(source: &Source) -> Vec<Mutation> {
    let code = &source.code;
    // A dot before it makes it a field's number; two dots make a range.
    let is_field = |place: &Range<usize>| code[..place.start].ends_with('.') && !code[..place.start].ends_with("..");
    let mut found = Vec::new();
    for place in words(code, |byte| byte.is_ascii_digit()).into_iter().filter(|place| !is_field(place)) {
        let Some(value) = value(&code[place.clone()]) else { continue };
        let values = [Some(value + 1), value.checked_sub(1)];
        found.extend(values.into_iter().flatten().map(|value| replace(source, place.clone(), &value.to_string())));
    }
    found
}

fn named_limits(source: &Source) -> Vec<Mutation> {
    let code = &source.code;
    let mut found = Vec::new();
    for operator in [" < ", " <= ", " > ", " >= ", "..="] {
        for start in places(code, operator).map(|at| at + operator.len()) {
            let end = start + to_call_end(&code[start..]);
            if code[start..].starts_with(|first: char| first.is_ascii_lowercase()) {
                let changed = ["+", "-"].map(|sign| format!("{} {sign} 1", &code[start..end]));
                found.extend(changed.iter().map(|after| replace(source, start..end, after)));
            }
        }
    }
    found
}

/// How many bytes a name has, with its fields and calls.
fn to_call_end(rest: &str) -> usize {
    let mut at = 0;
    while let Some(&byte) = rest.as_bytes().get(at) {
        match byte {
            b'(' => at += 1 + to_close(&rest[at + 1..]) + 1,
            b'.' | b':' => at += 1,
            _ if is_of_name(byte) => at += 1,
            _ => break,
        }
    }
    at
}

fn constants_where_used(source: &Source) -> Vec<Mutation> {
    let code = &source.code;
    let mut found = Vec::new();
    for place in words(code, |byte| byte.is_ascii_uppercase()) {
        let name = &code[place.clone()];
        let is_constant = name.len() > 1 && !name.bytes().any(|byte| byte.is_ascii_lowercase());
        let start = to_path_begin(code, place.start);
        if !is_constant || code[..start].ends_with("const ") || code[start..].starts_with("refusal::") {
            continue;
        }
        if !is_in_pattern(code, &place) {
            let path = &code[start..place.end];
            let changed = ["+", "-"].map(|sign| format!("({path} {sign} 1)"));
            found.extend(changed.iter().map(|after| replace(source, start..place.end, after)));
        }
    }
    found
}

/// Where the path that ends with this name begins.
fn to_path_begin(code: &str, at: usize) -> usize {
    let is_of_path = |byte: &u8| is_of_name(*byte) || *byte == b':';
    let before = code[..at].bytes().rev().take_while(is_of_path).count();
    if code[..at].ends_with("::") {
        at - before
    } else {
        at
    }
}

fn is_in_pattern(code: &str, place: &Range<usize>) -> bool {
    let line_start = code[..place.start].rfind('\n').map_or(0, |at| at + 1);
    let before = &code[line_start..place.start];
    let line_rest = code[place.end..].lines().next().unwrap_or("");
    before.contains("matches!(") && !before.contains("),") || line_rest.contains("=>")
}

#[cfg(test)]
mod tests {
    use super::*;

    fn shown(rule: fn(&Source) -> Vec<Mutation>, text: &str) -> Vec<String> {
        let source = Source::new("a.rs".to_string(), format!("{text}\n"));
        rule(&source).into_iter().map(|mutation| mutation.shown).collect()
    }

    #[test]
    fn checks_and_calls_are_taken_out_and_neighbours_change_places() {
        assert_eq!(shown(checks, "refuse_if(a(b, c), N)?;"), ["refuse_if([a(b, c) => false], N)?;"]);
        assert_eq!(shown(calls, "a(b)?;\nlet c = d(e)?;\nrefuse_if(f, N)?;"), ["[a(b)?; => ]"]);
        let both = "refuse_if(a, N)?;\nrefuse_if(b, M)?;";
        assert_eq!(
            shown(neighbouring_checks, both),
            ["[refuse_if(a, N)?; refuse_if(b, M)?; => refuse_if(b, M)?; refuse_if(a, N)?;]"]
        );
        assert!(shown(neighbouring_checks, "refuse_if(a, N)?;\nrefuse_if(b, N)?;").is_empty());
    }

    #[test]
    fn either_side_is_taken_out() {
        let expected = ["f([a || b && c => a], d)", "f([a || b && c => b && c], d)", "f(a || [b && c => b], d)"];
        let found = shown(sides, "f(a || b && c, d)");
        assert_eq!(found[..3], expected);
        assert_eq!(found.len(), 4);
        assert!(shown(sides, "let f = || g;").is_empty());
        assert_eq!(shown(sides, "x.all(|y| y && z)").len(), 2);
        assert_eq!(shown(sides, "if a || b == b'#' {")[1], "if [a || b == b'#' => b == b'#'] {");
    }

    #[test]
    fn branches_are_always_or_never_taken() {
        assert_eq!(shown(branches, "if a {"), ["if [a => true] {", "if [a => false] {"]);
        assert_eq!(shown(branches, "A if b(c) => d"), ["A if [b(c) => true] => d", "A if [b(c) => false] => d"]);
        assert!(shown(branches, "if let a = b {").is_empty());
        assert_eq!(shown(branches, "while a {"), ["while [a => false] {"]);
    }

    #[test]
    fn limits_move_by_one() {
        assert_eq!(shown(comparisons, "a < b"), ["a [< => <=] b"]);
        assert!(shown(comparisons, "fn a<'a>() -> B<C> {}").is_empty());
        assert_eq!(shown(range_ends, "1..=2"), ["1[..= => ..]2"]);
        assert_eq!(
            shown(numbers, "a.0 + 0x1f..8_192"),
            [
                "a.0 + [0x1f => 32]..8_192",
                "a.0 + [0x1f => 30]..8_192",
                "a.0 + 0x1f..[8_192 => 8193]",
                "a.0 + 0x1f..[8_192 => 8191]",
            ]
        );
        assert_eq!(
            shown(named_limits, "if a > b::c(d.e()).len() || f < 4 {"),
            [
                "if a > [b::c(d.e()).len() => b::c(d.e()).len() + 1] || f < 4 {",
                "if a > [b::c(d.e()).len() => b::c(d.e()).len() - 1] || f < 4 {"
            ]
        );
        assert_eq!(shown(numbers, "u16 == 0"), ["u16 == [0 => 1]"]);
        assert_eq!(
            shown(constants_where_used, "a < b::MOST"),
            ["a < [b::MOST => (b::MOST + 1)]", "a < [b::MOST => (b::MOST - 1)]",]
        );
        assert!(shown(constants_where_used, "const MOST: A = 1;\nMOST => 1\nrefusal::MOST").is_empty());
    }
}
