//! The words of `why`, read back by the forms of request three: into the answer of the line `why`, and for each line of
//! words one with the values that it names, as `second why` has them.

use crate::offer::{AH, ESP, ISAKMP};

/// The English names of the rows of Tables 6 and 7.
#[rustfmt::skip]
const TABLE_6: &[(u64, &str)] = &[
    (1, "encryption algorithm"), (2, "hash algorithm"), (3, "authentication method"), (4, "group description"),
    (5, "group type"), (6, "group prime/irreducible polynomial"), (7, "group generator one"), (8, "group generator two"),
    (9, "group curve A"), (10, "group curve B"), (LIFE_TYPE_6, "life type"), (12, "life duration"),
    (13, "pseudorandom function"), (14, "key length"), (15, "field size"), (16, "group order"), (17, "block size"),
    (20, "asymmetric algorithm type"),
];
#[rustfmt::skip]
const TABLE_7: &[(u64, &str)] = &[
    (LIFE_TYPE_7, "life type"), (2, "life duration"), (3, "group description"), (MODE, "encapsulation mode"),
    (5, "authentication algorithm"), (6, "key length"), (7, "key rounds"), (8, "compress dictionary size"),
    (9, "compress private algorithm"),
];
const LIFE_TYPE_6: u64 = 11;
const LIFE_TYPE_7: u64 = 1;
const MODE: u64 = 4;

const MODES: &[(&str, u64)] =
    &[("tunnel", 1), ("transport", 2), ("tunnel through NAT", 3), ("transport through NAT", 4)];
const PROTOCOLS: &[(&str, u8)] = &[("AH", AH), ("ESP", ESP)];
const OF_A_LINE: &[(&str, &str)] = &[("ESP alone", "3"), ("AH with ESP", "2+3")];
const OF_A_SET: &[(&str, &str)] = &[("AH alone", "2"), ("ESP alone", "3"), ("AH with ESP", "2+3")];

/// What a program printed: the answer of the line `why`, and the values of each line. What is in none of the forms comes
/// back by itself, and equals no right answer.
pub fn read_back(printed: &[u8]) -> Vec<u8> {
    let printed = String::from_utf8_lossy(printed);
    let not_understood = |line: &str| format!("not understood: {}", line.escape_debug());
    let Some(lines) = printed.strip_suffix('\n') else { return not_understood(&printed).into_bytes() };
    let told = match lines {
        "the book has no main lines" => "why\nno main lines".to_string(),
        "the book has no quick lines" => "why\nno quick lines".to_string(),
        refusal if is_refusal(refusal) => refusal.to_string(),
        _ => {
            let said: Result<Vec<Said>, &str> = lines.split('\n').map(|line| said(line).ok_or(line)).collect();
            said.map_or_else(not_understood, |said| told(&said))
        }
    };
    (told + "\n").into_bytes()
}

fn is_refusal(line: &str) -> bool {
    let mut rest = Rest(line);
    rest.pass("refused ").and_then(|()| rest.number()).is_some() && rest.0.is_empty()
}

/// A line of words.
struct Said {
    set: u64,
    line: u64,
    /// What the line is: protocols, mode and seconds.
    of: String,
    shown: Shown,
}

/// As the line `why` has it, and the values that the words name beside that.
struct Shown {
    named: String,
    values: String,
}

fn told(said: &[Said]) -> String {
    let mut answer = "why".to_string();
    for pair in said.chunk_by(|one, next| (one.set, one.line) == (next.set, next.line)) {
        answer += &format!(" set {} line {}", pair[0].set, pair[0].line);
        pair.iter().for_each(|said| answer += &said.shown.named);
    }
    let values = said.iter().map(|Said { set, line, of, shown: Shown { named, values } }| {
        format!("\nset {set} line {line} of {of}{named}{values}")
    });
    answer + &values.collect::<String>()
}

/// What is left of a line of words.
struct Rest<'a>(&'a str);

impl Rest<'_> {
    fn pass(&mut self, text: &str) -> Option<()> {
        self.0 = self.0.strip_prefix(text)?;
        Some(())
    }

    /// In decimal, without zeros in front.
    fn number(&mut self) -> Option<u64> {
        let end = self.0.find(|character: char| !character.is_ascii_digit()).unwrap_or(self.0.len());
        let (digits, rest) = self.0.split_at(end);
        let number: u64 = digits.parse().ok()?;
        self.0 = rest;
        (number.to_string() == digits).then_some(number)
    }

    /// What the longest of these texts that stands here means.
    fn one_of<Meaning: Copy>(&mut self, texts: &[(&str, Meaning)]) -> Option<Meaning> {
        let here = texts.iter().filter(|(text, _)| self.0.starts_with(text));
        let &(text, meaning) = here.max_by_key(|(text, _)| text.len())?;
        self.pass(text)?;
        Some(meaning)
    }

    /// Nothing more may stand here.
    fn end(&self) -> Option<()> {
        self.0.is_empty().then_some(())
    }
}

fn said(words: &str) -> Option<Said> {
    let mut rest = Rest(words);
    rest.pass("set ")?;
    let set = rest.number()?;
    rest.pass(", line ")?;
    let line = rest.number()?;
    rest.pass(" (")?;
    let is_main = rest.pass("main mode, to ").is_some();
    let of = if is_main { ISAKMP.to_string() } else { quick_line(&mut rest)? };
    let of = format!("{of} to {}", rest.number()?);
    rest.pass(" s): ")?;
    let shown = shown(&mut rest, is_main)?;
    rest.end()?;
    Some(Said { set, line, of, shown })
}

fn quick_line(rest: &mut Rest) -> Option<String> {
    let protocols = rest.one_of(OF_A_LINE)?;
    rest.pass(", ")?;
    let mode = rest.one_of(MODES)?;
    rest.pass(", to ")?;
    Some(format!("{protocols} mode {mode}"))
}

fn shown(rest: &mut Rest, is_main: bool) -> Option<Shown> {
    if rest.pass("suits").is_some() {
        return Some(Shown { named: " suits".to_string(), values: String::new() });
    }
    if rest.pass("protocols: the set has ").is_some() {
        let values = format!(" {}", rest.one_of(OF_A_SET)?);
        return Some(Shown { named: " protocols".to_string(), values });
    }
    let protocol = if is_main { ISAKMP } else { protocol_before_transform(rest)? };
    rest.pass("transform ")?;
    let transform = rest.number()?;
    let (cause, values) = if rest.pass(" would do, but none of ").is_some() {
        let lacking = rest.one_of(PROTOCOLS)?;
        rest.pass(" does")?;
        ("suits".to_string(), format!(" without {lacking}"))
    } else {
        rest.pass(": ")?;
        cause(rest, is_main)?
    };
    Some(Shown { named: format!(" protocol {protocol} transform {transform} {cause}"), values })
}

fn protocol_before_transform(rest: &mut Rest) -> Option<u8> {
    let protocol = rest.one_of(PROTOCOLS)?;
    rest.pass(" ")?;
    Some(protocol)
}

/// As the line `why` names it, and its values.
fn cause(rest: &mut Rest, is_main: bool) -> Option<(String, String)> {
    if rest.pass("ID ").is_some() {
        let found = rest.number()?;
        rest.pass(", wanted ")?;
        return Some(("id".to_string(), format!(" found {found} wanted {}", rest.number()?)));
    }
    if rest.pass("no lifetime in seconds").is_some() {
        return Some((format!("missing {}", life_type(is_main)), String::new()));
    }
    if rest.pass("lifetime of ").is_some() {
        let found = rest.number()?;
        let what = rest.one_of(&[(" seconds", "seconds"), (" kilobytes", "kilobytes")])?;
        let limit = rest.one_of(&[(", at most ", "most"), (", at least ", "least")])?;
        return Some((what.to_string(), format!(" found {found} {limit} {}", rest.number()?)));
    }
    rest.pass("attribute ")?;
    let kind = rest.number()?;
    rest.pass(&format!(" ({})", name(is_main, kind)))?;
    of_attribute(rest, is_main, kind)
}

fn of_attribute(rest: &mut Rest, is_main: bool, kind: u64) -> Option<(String, String)> {
    let is_life_type = kind == life_type(is_main);
    let surplus = format!("surplus {kind}");
    if rest.pass(" is missing").is_some() {
        // The words for seconds are others.
        return (!is_life_type).then(|| (format!("missing {kind}"), String::new()));
    }
    if rest.pass(" is not wanted").is_some() {
        return Some((surplus, String::new()));
    }
    if is_life_type {
        rest.pass(" of ")?;
        let value = rest.number()?;
        rest.pass(" is not wanted")?;
        return Some((surplus, format!(" found {value}")));
    }
    let is_mode = !is_main && kind == MODE;
    rest.pass(" is ")?;
    let found = value(rest, is_mode)?;
    rest.pass(", wanted ")?;
    let wanted = value(rest, is_mode)?;
    Some((format!("value {kind}"), format!(" found {found} wanted {wanted}")))
}

/// A mode has its name behind it, if it has one.
fn value(rest: &mut Rest, is_mode: bool) -> Option<u64> {
    let value = rest.number()?;
    let mode = MODES.iter().find(|(_, mode)| is_mode && *mode == value);
    mode.map_or(Some(()), |(name, _)| rest.pass(&format!(" ({name})")))?;
    Some(value)
}

fn life_type(is_main: bool) -> u64 {
    if is_main {
        LIFE_TYPE_6
    } else {
        LIFE_TYPE_7
    }
}

fn name(is_main: bool, kind: u64) -> &'static str {
    let (table, foreign) = if is_main { (TABLE_6, "not in Table 6") } else { (TABLE_7, "not in Table 7") };
    table.iter().find(|(row, _)| *row == kind).map_or(foreign, |(_, name)| name)
}

#[cfg(test)]
mod tests {
    use super::*;

    fn back(printed: &str) -> String {
        String::from_utf8(read_back(printed.as_bytes())).unwrap()
    }

    /// What is read back of one line about the first line of a book, without what is before a cause in both.
    fn cause_of(words: &str) -> String {
        let said = back(&format!("set 1, line 1 (ESP alone, tunnel, to 3600 s): ESP transform 1: {words}\n"));
        let lines: Vec<_> = said.split('\n').collect();
        let Some(named) = lines[0].strip_prefix("why set 1 line 1 protocol 3 transform 1 ") else { return said };
        let values = format!("set 1 line 1 of 3 mode 1 to 3600 protocol 3 transform 1 {named}");
        format!("{named};{}", lines[1].strip_prefix(&values).expect("the same cause"))
    }

    #[test]
    fn the_forms_of_request_three_are_read_back() {
        assert_eq!(cause_of("ID 20, wanted 129"), "id; found 20 wanted 129");
        assert_eq!(cause_of("attribute 5 (authentication algorithm) is missing"), "missing 5;");
        assert_eq!(cause_of("no lifetime in seconds"), "missing 1;");
        assert_eq!(
            cause_of("attribute 4 (encapsulation mode) is 2 (transport), wanted 1 (tunnel)"),
            "value 4; found 2 wanted 1"
        );
        assert_eq!(cause_of("attribute 6 (key length) is not wanted"), "surplus 6;");
        assert_eq!(cause_of("lifetime of 7200 seconds, at most 3600"), "seconds; found 7200 most 3600");
        assert_eq!(cause_of("lifetime of 0 kilobytes, at least 1"), "kilobytes; found 0 least 1");
        assert_eq!(cause_of("lifetime of 0 seconds, at least 1"), "seconds; found 0 least 1");
        assert_eq!(cause_of("attribute 1 (life type) of 3 is not wanted"), "surplus 1; found 3");
    }

    #[test]
    fn whole_pairs_and_halves_are_read_back() {
        let printed = "set 1, line 1 (ESP alone, tunnel, to 3600 s): protocols: the set has AH with ESP\n\
                       set 3, line 2 (AH with ESP, tunnel, to 3600 s): AH transform 1: no lifetime in seconds\n\
                       set 3, line 2 (AH with ESP, tunnel, to 3600 s): ESP transform 1 would do, but none of AH does\n\
                       set 4, line 1 (ESP alone, transport through NAT, to 3600 s): suits\n";
        let told = "why set 1 line 1 protocols set 3 line 2 protocol 2 transform 1 missing 1 \
                    protocol 3 transform 1 suits set 4 line 1 suits\n\
                    set 1 line 1 of 3 mode 1 to 3600 protocols 2+3\n\
                    set 3 line 2 of 2+3 mode 1 to 3600 protocol 2 transform 1 missing 1\n\
                    set 3 line 2 of 2+3 mode 1 to 3600 protocol 3 transform 1 suits without 2\n\
                    set 4 line 1 of 3 mode 4 to 3600 suits\n";
        assert_eq!(back(printed), told);
    }

    #[test]
    fn main_mode_has_no_protocols_and_no_mode() {
        let printed =
            "set 1, line 1 (main mode, to 86400 s): transform 1: attribute 2 (hash algorithm) is 2, wanted 20\n";
        let told = "why set 1 line 1 protocol 1 transform 1 value 2\n\
                    set 1 line 1 of 1 to 86400 protocol 1 transform 1 value 2 found 2 wanted 20\n";
        assert_eq!(back(printed), told);
    }

    #[test]
    fn refusals_and_books_without_lines_are_read_back() {
        assert_eq!(back("refused 8193\n"), "refused 8193\n");
        assert_eq!(back("the book has no quick lines\n"), "why\nno quick lines\n");
        assert_eq!(back("the book has no main lines\n"), "why\nno main lines\n");
    }

    #[test]
    fn names_are_those_of_the_exchanges_own_table() {
        let of_main = |words: &str| back(&format!("set 1, line 1 (main mode, to 1 s): transform 1: {words}\n"));
        assert!(of_main("attribute 18 (not in Table 6) is not wanted").starts_with("why "));
        assert!(of_main("attribute 6 (key length) is not wanted").starts_with("not understood"));
        assert_eq!(cause_of("attribute 12 (not in Table 7) is not wanted"), "surplus 12;");
        assert!(cause_of("attribute 12 (life duration) is not wanted").starts_with("not understood"));
        assert!(cause_of("attribute 4 (not in Table 7) is missing").starts_with("not understood"));
    }

    #[test]
    fn a_mode_has_its_name_and_no_other() {
        let mode = |values: &str| cause_of(&format!("attribute 4 (encapsulation mode) is {values}"));
        assert_eq!(mode("7, wanted 1 (tunnel)"), "value 4; found 7 wanted 1");
        assert_eq!(mode("3 (tunnel through NAT), wanted 1 (tunnel)"), "value 4; found 3 wanted 1");
        for wrong in
            ["2, wanted 1 (tunnel)", "2 (tunnel), wanted 1 (tunnel)", "2 (transport), wanted 1", "7 (7), wanted 1"]
        {
            assert!(mode(wrong).starts_with("not understood"), "{wrong}");
        }
    }

    #[test]
    fn other_words_are_not_understood() {
        for wrong in [
            "suits",
            "attribute 1 (life type) is missing",
            "lifetime of 7200 seconds",
            "lifetime of 07200 seconds, at most 3600",
            "ID 20, wanted 129.",
            "",
        ] {
            assert!(cause_of(wrong).starts_with("not understood"), "{wrong}");
        }
        for wrong in ["", "\n", "refused 16", "refused \n", "refused 16\nrefused 16\n", "the book has no lines\n"] {
            assert!(back(wrong).starts_with("not understood"), "{wrong}");
        }
        let pair = "set 1, line 1 (ESP alone, tunnel, to 3600 s): suits";
        for wrong in [pair.to_string(), format!("{pair} \n"), format!("{pair}\n\n"), format!("{pair}\r\n")] {
            assert!(back(&wrong).starts_with("not understood"), "{wrong}");
        }
    }
}
