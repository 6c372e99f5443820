//! Times choosing over an offer of eight sets against eight lines, AH with ESP each: the core and the second program.

use crate::raw;
use crate::samples;
use crate::timing;
use second::policy::{self, Choice};
use std::hint::black_box;

const CHOICES_A_ROUND: usize = 100;

/// The refusal, or 0 with set, line, how many transforms, and both of them or one and a 0.
type Answer = (u32, [u64; 5]);

type Choose = fn(&[u8], &[u8]) -> Answer;

/// The core's time over the second program's, where only the last set suits, and it only the last line.
pub fn ratio() -> f64 {
    samples::over_choices(compare)
}

fn compare(name: &str, book: &[u8], message: &[u8]) -> f64 {
    let answer = second(book, message);
    assert_eq!(core(book, message), answer, "{name}: the two choose unlike");
    let (_, [set, line, ..]) = answer;
    timing::ratio(
        &format!("{name} ({} bytes, chosen {set} {line})", message.len()),
        [&|| choose(core, book, message), &|| choose(second, book, message)],
        CHOICES_A_ROUND,
    )
}

fn choose(contender: Choose, book: &[u8], message: &[u8]) {
    let contender = black_box(contender);
    for _ in 0..CHOICES_A_ROUND {
        black_box(contender(black_box(book), black_box(message)));
    }
}

fn core(book: &[u8], message: &[u8]) -> Answer {
    let mut out = [0; 5];
    // SAFETY: these are those of slices that outlive the call, and the core asks no more.
    let refusal =
        unsafe { raw::tallowbrim_choose(book.as_ptr(), book.len(), message.as_ptr(), message.len(), &mut out) };
    (refusal, out)
}

fn second(book: &[u8], message: &[u8]) -> Answer {
    match policy::choose(book, message) {
        Ok(Choice { set, line, taken }) => {
            let [first, last] = [0, 1].map(|place| taken.get(place).map_or(0, |taken| taken.transform.number.into()));
            (0, [set.into(), line as u64, taken.len() as u64, first, last])
        }
        Err(number) => (number.into(), [0; 5]),
    }
}
