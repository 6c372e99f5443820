//! What a call answers beside its values: that it is done, or the number of a refusal.

use std::error::Error;
use std::fmt::{self, Debug, Display, Formatter};

/// The page that says what each number means.
const NUMBERS: &str = include_str!("../../../docs/NUMBERS.md");

/// The number of a refusal: the first check that failed. It shows itself as `refused 14: ..` with its sentence.
#[derive(Clone, Copy, PartialEq, Eq, Hash)]
pub struct Refusal(u32);

impl Refusal {
    /// The number alone.
    pub fn number(self) -> u32 {
        self.0
    }

    /// What the number says, as docs/NUMBERS.md has it, but for the scripts that it names there.
    pub fn sentence(self) -> &'static str {
        let row = NUMBERS.lines().find_map(|line| line.strip_prefix(&format!("| {} |", self.0)));
        let said = row.and_then(|row| row.trim_end_matches(" |").split("| ").nth(1));
        let said = said.unwrap_or_else(|| unreachable!("docs/NUMBERS.md has no number {}", self.0));
        said.split(": `./").next().unwrap_or(said)
    }
}

impl Display for Refusal {
    fn fmt(&self, to: &mut Formatter) -> fmt::Result {
        write!(to, "refused {}: {}", self.0, self.sentence())
    }
}

/// The same, since this is what a program prints that ends with a refusal.
impl Debug for Refusal {
    fn fmt(&self, to: &mut Formatter) -> fmt::Result {
        Display::fmt(self, to)
    }
}

impl Error for Refusal {}

/// What a call answered: 0 is done.
pub(crate) fn done(number: u32) -> Result<(), Refusal> {
    match number {
        0 => Ok(()),
        number => Err(Refusal(number)),
    }
}

/// The same of a call that is never refused.
pub(crate) fn always_done(number: u32) {
    if let Err(refusal) = done(number) {
        unreachable!("{refusal}");
    }
}

/// A refusal that is a value of an answer, not the answer itself.
pub(crate) fn refusal(word: u64) -> Refusal {
    Refusal(small(word))
}

/// A word of an answer that is no larger than its type.
pub(crate) fn small<Small: TryFrom<u64>>(word: u64) -> Small {
    Small::try_from(word).unwrap_or_else(|_| unreachable!("the core answered {word}"))
}

#[cfg(test)]
mod tests {
    use super::*;

    #[test]
    fn a_refusal_says_its_sentence() {
        let said = |number| Refusal(number).to_string();
        assert_eq!(
            said(14),
            "refused 14: the offer is sound, and no set of it suits any line of the book, or a reply takes another choice than \
             the book's"
        );
        assert_eq!(said(8_193), "refused 8193: the policy book is unlawful");
        assert_eq!(
            said(8_197),
            "refused 8197: the number is zero or behind the window: 64 or more below the highest accepted one"
        );
    }

    #[test]
    fn every_number_of_the_page_has_a_sentence() {
        let numbers = NUMBERS.lines().filter_map(|line| line.split(' ').nth(1)?.parse().ok());
        let sentences: Vec<_> = numbers.map(|number| Refusal(number).sentence()).collect();
        assert_eq!(sentences.len(), 32);
        assert!(sentences.iter().all(|said| !said.is_empty() && !said.contains(['`', '|'])));
    }
}
