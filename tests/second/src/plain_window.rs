//! Request five, "A plain window to compare with": the accepted numbers of one life as a list of up to 4,096, looked through at
//! every step.

use crate::refusal::{self, refuse_if, Refusal};
use crate::sequence::{Loss, OneLife, SPAN};

const MOST_NUMBERS: usize = 4_096;

#[derive(Default)]
pub struct PlainWindow {
    accepted: Vec<u32>,
}

impl PlainWindow {
    fn highest(&self) -> u32 {
        self.accepted.iter().copied().max().unwrap_or(0)
    }
}

impl OneLife for PlainWindow {
    fn step(&mut self, number: u32, integrity: bool) -> Result<u64, Refusal> {
        let before = self.highest();
        refuse_if(number == 0 || before.saturating_sub(number) >= SPAN, refusal::ZERO_OR_BEHIND)?;
        refuse_if(self.accepted.contains(&number), refusal::ACCEPTED_BEFORE)?;
        refuse_if(!integrity, refusal::INTEGRITY)?;
        refuse_if(self.accepted.len() == MOST_NUMBERS, refusal::LIST_FULL)?;
        self.accepted.push(number);
        Ok((self.highest() - before).into())
    }

    fn loss(&self) -> Loss {
        let highest = self.highest();
        let span = highest.min(SPAN);
        let last = highest - span + 1..=highest;
        Loss { highest, span, count: last.filter(|number| self.accepted.contains(number)).count() }
    }
}

#[cfg(test)]
mod tests {
    use super::*;

    /// A list that took 1 to 4,096.
    fn full() -> PlainWindow {
        let mut list = PlainWindow::default();
        assert!((1..=4_096).all(|number| list.step(number, true) == Ok(1)));
        list
    }

    fn shown(list: &PlainWindow) -> (u32, u32, usize) {
        let Loss { highest, span, count } = list.loss();
        (highest, span, count)
    }

    #[test]
    fn a_4097th_acceptance_is_8202_and_changes_nothing() {
        let mut list = full();
        for _ in 0..2 {
            assert_eq!([4_097, 4_161, 4_294_967_295].map(|number| list.step(number, true)), [Err(8_202); 3]);
            assert_eq!(shown(&list), (4_096, 64, 64));
        }
    }

    #[test]
    fn all_other_refusals_come_before_8202() {
        let mut list = full();
        let asked = [(0, true), (4_032, false), (4_033, false), (4_096, true), (4_097, false)];
        let verdicts = asked.map(|(number, integrity)| list.step(number, integrity));
        assert_eq!(verdicts, [8_197, 8_197, 8_194, 8_194, 24].map(Err));
    }

    #[test]
    fn verdicts_rises_and_loss_lines_are_those_of_the_rule() {
        let mut list = PlainWindow::default();
        assert_eq!(shown(&list), (0, 0, 0));
        let verdicts = [5, 3, 5, 70, 6, 7, 0].map(|number| list.step(number, true));
        assert_eq!(verdicts, [Ok(5), Ok(0), Err(8_194), Ok(65), Err(8_197), Ok(0), Err(8_197)]);
        assert_eq!(shown(&list), (70, 64, 2));
        assert_eq!(list.step(4_294_967_295, false), Err(24));
        assert_eq!(list.step(4_294_967_295, true), Ok(4_294_967_225));
        assert_eq!(shown(&list), (4_294_967_295, 64, 1));
    }

    /// M9, M10 and M11.
    #[test]
    fn the_marked_examples_hold_of_the_list() {
        let verdicts = |numbers: &[u32]| {
            let mut list = PlainWindow::default();
            let verdicts = numbers.iter().map(|&number| list.step(number, true)).collect::<Vec<_>>();
            (verdicts, shown(&list))
        };
        assert_eq!(verdicts(&[0, 1, 1]).0, [Err(8_197), Ok(1), Err(8_194)]);
        assert_eq!(verdicts(&[64, 1]).0, [Ok(64), Ok(0)]);
        assert_eq!(verdicts(&[65, 1]).0, [Ok(65), Err(8_197)]);
        assert_eq!(verdicts(&[1, 2, 4]).1, (4, 4, 3));
    }
}
