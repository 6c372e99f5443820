//! Times the plain window's step and loss line beside the window's, and beside a plain list in Rust and one in C, on the same packets.

use crate::list::List;
use crate::places::{self, PLACES};
use crate::sequence::{self, Answer, ORDERS};
use crate::streams::{self, Order, Packet};
use crate::window::Window;
use std::cell::Cell;

const CONTENDERS: [&str; 4] = ["plain", "window", "rust", "c"];
const ALL: usize = PLACES * CONTENDERS.len();

/// Far fewer than of windows alone: one that goes through lists takes up to a thousand times as long.
const ROUNDS: usize = 51;

/// How many packets of a stream are a life. The last fills a list, if it is in order.
const LIVES: [usize; 3] = [64, 512, 4096];

const LOSS_LINES_A_ROUND: usize = 16;

/// A window or a plain list, so that all contenders are called from one loop.
#[repr(C)]
#[derive(Clone, Copy)]
union Record {
    window: Window,
    list: List,
}

/// The last word is for the rise.
type Step = unsafe extern "C" fn(*mut Record, u32, bool, &mut u64) -> u32;

type LossLine = unsafe extern "C" fn(&Record, &mut [u64; 3]) -> u32;

/// The plain window's time over the window's, and over that of the list in Rust and of the one in C.
type Ratios = [f64; 3];

/// Of a step in lives of each length, each the greater one of the two orders, and of the loss line of a full list.
pub fn ratios() -> Vec<(String, Ratios)> {
    // SAFETY: each takes what `Step` says.
    let calls: [Step; ALL] = unsafe {
        places::calls(&[
            ("core", "tallowbrim_plain_step"),
            ("core", "tallowbrim_step"),
            ("rust-list", "rust_plain_step"),
            ("c-list", "c_plain_step"),
        ])
    };
    let steps = LIVES.map(|packets| {
        let what = format!("step, life of {packets}");
        let ratios = step(&what, calls, packets);
        (what, ratios)
    });
    steps.into_iter().chain([("loss line, full list".into(), loss_line(calls))]).collect()
}

fn step(what: &str, calls: [Step; ALL], packets: usize) -> Ratios {
    let record = &empty();
    sequence::greatest(ORDERS.map(|(order_name, order)| {
        let stream = &streams::packets(order, 1);
        let lives = |call| stream.chunks(packets).flat_map(move |life| steps(call, record, life));
        let contenders = std::array::from_fn(|i| move || (0..repeats(i, 64)).flat_map(move |_| lives(calls[i])));
        compare(&format!("{what}, {order_name}"), contenders)
    }))
}

/// After a life in order that fills the list.
fn loss_line(step_calls: [Step; ALL]) -> Ratios {
    // SAFETY: each takes what `LossLine` says.
    let calls: [LossLine; ALL] = unsafe {
        places::calls(&[
            ("core", "tallowbrim_plain_loss_line"),
            ("core", "tallowbrim_loss_line"),
            ("rust-list", "rust_plain_loss_line"),
            ("c-list", "c_plain_loss_line"),
        ])
    };
    let stream = streams::packets(Order::InOrder, 1);
    let records: [Record; CONTENDERS.len()] = std::array::from_fn(|i| {
        let record = empty();
        steps(step_calls[i], &record, &stream).for_each(drop);
        record.into_inner()
    });
    let records = &records;
    let lines =
        |i: usize| (0..repeats(i, 1024) * LOSS_LINES_A_ROUND).map(move |_| line(calls[i], &records[i % records.len()]));
    compare("loss line, full list", std::array::from_fn(|i| move || lines(i)))
}

/// How often a contender does in a round what a list does once. The window begins with caches that the lists have filled: it does so more
/// often, so that this does not count.
fn repeats(contender: usize, of_the_window: usize) -> usize {
    match CONTENDERS[contender % CONTENDERS.len()] {
        "window" => of_the_window,
        _ => 1,
    }
}

fn empty() -> Cell<Record> {
    Cell::new(Record { list: List::EMPTY })
}

/// The verdicts of a life's steps. The record is lent, since to clear a whole list for each life would be timed too.
fn steps<'a>(call: Step, record: &'a Cell<Record>, life: &'a [Packet]) -> impl Iterator<Item = Answer<1>> + 'a {
    let record = record.as_ptr();
    // SAFETY: lives are gone through one after the other. A window begins with two words of 0, a list with one, its count.
    unsafe { (*record).window = Window::default() };
    let mut rise = 0;
    life.iter().map(move |packet| {
        // SAFETY: each contender takes any record and any number.
        let verdict = unsafe { call(record, packet.number, packet.integrity, &mut rise) };
        (verdict, [rise])
    })
}

fn line(call: LossLine, record: &Record) -> Answer<3> {
    let mut out = [0; 3];
    // SAFETY: each contender takes any record.
    let refusal = unsafe { call(record, &mut out) };
    (refusal, out)
}

fn compare<Answers: Iterator<Item = Answer<WORDS>>, const WORDS: usize>(
    what: &str,
    contenders: [impl Fn() -> Answers; ALL],
) -> Ratios {
    let [plain, window, rust, c] = sequence::compare(what, CONTENDERS, contenders, ROUNDS);
    [plain / window, plain / rust, plain / c]
}
