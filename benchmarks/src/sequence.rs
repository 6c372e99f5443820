//! Times one packet into a table of 64 lives, and one step of the record lent alone: the core, the peer in Rust and the one in C.

use crate::places::{self, PLACES};
use crate::raw::{self, TABLE};
use crate::streams::{self, Order, Packet};
use crate::timing;
use crate::window::{Life, Window, ACCEPTED, LIVES};
use std::hint::black_box;

/// The core's record is two words, as a window is. The last word is for the rise.
type Step = unsafe extern "C" fn(&mut Window, u32, bool, &mut u64) -> u32;

/// The table, destination, protocol, integrity, a slice of bytes (where it begins, and its length), and a word for the rise.
type PacketInto = unsafe extern "C" fn(&mut Table, u32, u8, bool, *const u8, usize, &mut u64) -> u32;

/// 0 or a refusal, and then the words that were lent for values: a step's and a packet's one is for the rise. A refusal leaves them as
/// they were.
pub type Answer<const WORDS: usize> = (u32, [u64; WORDS]);

/// The core's table or the peers', so that all contenders are called from one loop.
#[repr(C)]
#[derive(Clone, Copy)]
union Table {
    words: [u64; TABLE],
    lives: [Life; LIVES],
}

const CONTENDERS: [&str; 3] = ["core", "rust", "c"];
const ALL: usize = PLACES * CONTENDERS.len();

pub const ORDERS: [(&str, Order); 2] = [("in order", Order::InOrder), ("mixed", Order::Mixed)];

/// The core's time over the peer's in Rust and over that in C, each the greater one of the two orders.
type Ratios = [f64; 2];

pub fn record() -> Ratios {
    // SAFETY: each takes what `Step` says.
    let calls: [Step; ALL] =
        unsafe { places::calls(&[("core", "tallowbrim_step"), ("rust", "rust_step"), ("c", "c_step")]) };
    greatest(ORDERS.map(|(order_name, order)| {
        let stream = &streams::packets(order, 1);
        ratios(&format!("step, {order_name}"), calls.map(|call| move || steps(call, stream)))
    }))
}

pub fn table() -> Ratios {
    // SAFETY: each takes a table of its own and what `PacketInto` says.
    let calls: [PacketInto; ALL] =
        unsafe { places::calls(&[("core", "tallowbrim_packet"), ("rust", "rust_packet"), ("c", "c_packet")]) };
    let tables = [core_table(), peers_table(), peers_table()];
    let contenders: [(PacketInto, Table); ALL] = std::array::from_fn(|i| (calls[i], tables[i % tables.len()]));
    greatest(ORDERS.map(|(order_name, order)| {
        let stream = &streams::packets(order, LIVES);
        ratios(&format!("packet, {order_name}"), contenders.map(|(call, table)| move || into(call, table, stream)))
    }))
}

/// The verdicts of a record's steps, from its beginning.
fn steps(call: Step, stream: &[Packet]) -> impl Iterator<Item = Answer<1>> + '_ {
    let mut record = Window::default();
    let mut rise = 0;
    stream.iter().map(move |packet| {
        // SAFETY: each contender takes any record and any number.
        let verdict = unsafe { call(&mut record, packet.number, packet.integrity, &mut rise) };
        (verdict, [rise])
    })
}

/// The verdicts of packets into a table.
fn into(call: PacketInto, mut table: Table, stream: &[Packet]) -> impl Iterator<Item = Answer<1>> + '_ {
    let mut rise = 0;
    stream.iter().map(move |packet| {
        // SAFETY: the bytes are those of a slice that outlives the call.
        let verdict = unsafe {
            call(
                &mut table,
                packet.destination,
                packet.protocol,
                packet.integrity,
                packet.bytes.as_ptr(),
                packet.bytes.len(),
                &mut rise,
            )
        };
        (verdict, [rise])
    })
}

/// The 64 lives in the core's table, each at its beginning.
fn core_table() -> Table {
    let mut words = [0; TABLE];
    for key in streams::keys() {
        // SAFETY: the core takes any table and any key.
        let refusal = unsafe { raw::tallowbrim_add(&mut words, key.destination, key.protocol, key.spi) };
        assert_eq!(refusal, 0, "a life of 64 that was not added");
    }
    Table { words }
}

/// The same lives as the peers'.
fn peers_table() -> Table {
    let lives = streams::keys().map(|key| Life {
        spi: key.spi,
        destination: key.destination,
        protocol: key.protocol,
        used: true,
        window: Window::default(),
    });
    Table { lives }
}

fn ratios<Answers: Iterator<Item = Answer<1>>>(what: &str, contenders: [impl Fn() -> Answers; ALL]) -> Ratios {
    let [core, rust, c] = compare(what, CONTENDERS, contenders, timing::ROUNDS);
    [core / rust, core / c]
}

/// Nanoseconds of each contender, the mean over its places, once all answer alike, number for number and word for word: as the first
/// one does, or so again and again. The rounds that are timed add up both. The first one's ratio to each other one is printed too.
pub fn compare<Answers, const WORDS: usize, const NAMES: usize, const AT_PLACES: usize>(
    what: &str,
    names: [&str; NAMES],
    contenders: [impl Fn() -> Answers; AT_PLACES],
    rounds: usize,
) -> [f64; NAMES]
where
    Answers: Iterator<Item = Answer<WORDS>>,
{
    let answers: Vec<Answer<WORDS>> = contenders[0]().collect();
    assert!(
        contenders.iter().all(|answer| answer().zip(answers.iter().cycle()).all(|(said, first)| said == *first)),
        "{what}: the contenders answer unlike"
    );
    let counts = contenders.each_ref().map(|answer| answer().count());
    let timed = contenders.map(|answer| {
        move || {
            black_box(sum(answer()));
        }
    });
    let times = timing::medians(timed.each_ref().map(|round| round as &dyn Fn()), counts, rounds);
    let refused = answers.iter().filter(|&&(number, _)| number != ACCEPTED).count();
    println!("{what} ({refused} of {} refused): the mean, and the times at its places", answers.len());
    let means = means(names, times);
    for (name, mean) in names.into_iter().zip(means).skip(1) {
        println!("  ratio to {name} {:.2}", means[0] / mean);
    }
    means
}

fn sum<const WORDS: usize>(answers: impl Iterator<Item = Answer<WORDS>>) -> u64 {
    answers.fold(0, |sum: u64, (number, words)| sum.wrapping_add(u64::from(number) + words.iter().sum::<u64>()))
}

fn means<const NAMES: usize, const AT_PLACES: usize>(names: [&str; NAMES], times: [f64; AT_PLACES]) -> [f64; NAMES] {
    std::array::from_fn(|contender| {
        let at_places: Vec<f64> = times.into_iter().skip(contender).step_by(NAMES).collect();
        let mean = at_places.iter().sum::<f64>() / at_places.len() as f64;
        println!("  {:<7}{mean:.2} {at_places:.2?}", names[contender]);
        mean
    })
}

/// Of two rows of ratios, each time the greater one.
pub fn greatest<const RATIOS: usize>([a, b]: [[f64; RATIOS]; 2]) -> [f64; RATIOS] {
    std::array::from_fn(|i| a[i].max(b[i]))
}
