//! Times the reading of a message: the core and the second program.

use crate::raw;
use crate::samples;
use crate::timing;
use second::message;
use std::hint::black_box;

const READINGS_A_ROUND: usize = 500;

/// The refusal, or 0 with exchange and count.
type Answer = (u32, [u64; 2]);

/// The core's time over the second program's, on a quick mode message of four sets.
pub fn ratio() -> f64 {
    let ratio = compare("quick mode, four sets", &samples::quick_mode());
    compare("main mode, one proposal", &samples::main_mode());
    compare("quick mode, refused at its last byte", &samples::refused_at_its_last_byte());
    ratio
}

fn compare(name: &str, message: &[u8]) -> f64 {
    let answer = second(message);
    assert_eq!(core(message), answer, "{name}: the two answer unlike");
    timing::ratio(
        &format!("{name} ({} bytes, {})", message.len(), said(answer)),
        [&|| read(core, message), &|| read(second, message)],
        READINGS_A_ROUND,
    )
}

fn said((refusal, [exchange, count]): Answer) -> String {
    match refusal {
        0 => format!("read {exchange} {count}"),
        _ => format!("refused {refusal}"),
    }
}

fn read(reader: fn(&[u8]) -> Answer, message: &[u8]) {
    let reader = black_box(reader);
    for _ in 0..READINGS_A_ROUND {
        black_box(reader(black_box(message)));
    }
}

fn core(message: &[u8]) -> Answer {
    let mut out = [0; 2];
    // SAFETY: the two are those of a slice that outlives the call, and the core asks no more.
    let refusal = unsafe { raw::tallowbrim_message(message.as_ptr(), message.len(), &mut out) };
    (refusal, out)
}

fn second(message: &[u8]) -> Answer {
    match message::read(message) {
        Ok(reading) => (0, [reading.exchange.into(), reading.payloads.len() as u64]),
        Err(number) => (number.into(), [0; 2]),
    }
}
