//! Times contenders in turn, so that what else the machine does falls on all of them alike.

use std::time::Instant;

pub const ROUNDS: usize = 2_001;

/// The core's time over the second program's, which are also printed.
pub fn ratio(what: &str, core_and_second: [&dyn Fn(); 2], calls_a_round: usize) -> f64 {
    let [core, second] = medians(core_and_second, [calls_a_round; 2], ROUNDS);
    let ratio = core / second;
    println!("{what}: core {core:.0}, second {second:.0}, ratio {ratio:.2}");
    ratio
}

/// Nanoseconds a call for each contender: the median of so many rounds, of its number of calls each.
pub fn medians<const CONTENDERS: usize>(
    contenders: [&dyn Fn(); CONTENDERS],
    calls_a_round: [usize; CONTENDERS],
    rounds: usize,
) -> [f64; CONTENDERS] {
    let timed: Vec<[f64; CONTENDERS]> =
        (0..rounds).map(|_| std::array::from_fn(|i| round(contenders[i], calls_a_round[i]))).collect();
    std::array::from_fn(|contender| {
        let mut times: Vec<f64> = timed.iter().map(|round| round[contender]).collect();
        times.sort_by(f64::total_cmp);
        times[rounds / 2]
    })
}

fn round(contender: &dyn Fn(), calls: usize) -> f64 {
    let start = Instant::now();
    contender();
    start.elapsed().as_nanos() as f64 / calls as f64
}
