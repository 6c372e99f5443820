//! Times replying to an offer of eight sets by a book of eight lines, AH with ESP each: the core and the second program.

use crate::raw;
use crate::samples;
use crate::timing;
use second::reply::{self, Spis};
use std::hint::black_box;

const REPLIES_A_ROUND: usize = 100;

const AH: u32 = 0x1000_0001;
const ESP: u32 = 0x1000_0002;
const BUFFER: usize = 2_048;

/// The core's time over the second program's, where only the last set suits, and it only the last line.
pub fn ratio() -> f64 {
    samples::over_choices(compare)
}

fn compare(name: &str, book: &[u8], message: &[u8]) -> f64 {
    let reply = second(book, message).unwrap_or_else(|number| panic!("{name}: the second program refused {number}"));
    let mut buffer = [0; BUFFER];
    assert_eq!(core(book, message, &mut buffer), (0, [reply.len() as u64]), "{name}: the two reply unlike");
    assert!(buffer.starts_with(&reply), "{name}: the two write replies unlike");
    timing::ratio(
        &format!("{name} ({} bytes, a reply of {})", message.len(), reply.len()),
        [&|| core_round(book, message), &|| second_round(book, message)],
        REPLIES_A_ROUND,
    )
}

fn core_round(book: &[u8], message: &[u8]) {
    let mut buffer = [0; BUFFER];
    for _ in 0..REPLIES_A_ROUND {
        black_box(core(black_box(book), black_box(message), &mut buffer));
    }
}

fn second_round(book: &[u8], message: &[u8]) {
    for _ in 0..REPLIES_A_ROUND {
        let _ = black_box(second(black_box(book), black_box(message)));
    }
}

/// The refusal, or 0 with the size of the reply.
fn core(book: &[u8], message: &[u8], buffer: &mut [u8; BUFFER]) -> (u32, [u64; 1]) {
    let mut out = [0];
    // SAFETY: these are those of slices that outlive the call, the lent one overlaps no other, and the core asks no more.
    let refusal = unsafe {
        raw::tallowbrim_reply(
            book.as_ptr(),
            book.len(),
            message.as_ptr(),
            message.len(),
            AH,
            ESP,
            buffer.as_mut_ptr(),
            BUFFER,
            &mut out,
        )
    };
    (refusal, out)
}

fn second(book: &[u8], message: &[u8]) -> Result<Vec<u8>, u16> {
    reply::alone(book, Spis { ah: AH, esp: ESP }, BUFFER, message)
}
