//! Times the proved core from one caller: reading, choosing, replying and a whole exchange against the second program, steps and packets
//! against a window in Rust and one in C, and the plain window against the window and a plain list in each.

mod choosing;
mod exchange;
mod list;
mod places;
mod plain;
mod reading;
mod replying;
mod samples;
mod sequence;
mod streams;
mod timing;
mod window;

/// The core over the boundary that other languages use, of which some calls are timed.
#[allow(dead_code)]
#[path = "../../bindings/rust/src/raw.rs"]
mod raw;

fn main() {
    println!("Nanoseconds a step or a packet, from a record or a table at its beginning.");
    let step = sequence::record();
    let packet = sequence::table();
    println!("Nanoseconds a step or a loss line of the plain window, beside those of the window.");
    let plain = plain::ratios();
    println!("Nanoseconds a message. Buffers are warm: a message is read again and again where it lies.");
    let reading = reading::ratio();
    println!("Nanoseconds a choice, book and message read each time.");
    let choosing = choosing::ratio();
    println!("Nanoseconds a reply, book and message read each time.");
    let replying = replying::ratio();
    println!("Nanoseconds an exchange, from two fresh ends to both open.");
    let exchange = exchange::ratio();
    println!("{:<10}{:>15}{:>7}{:>7}{:>7}", "core to", "second program", "Rust", "C", "limit");
    for (what, ratio) in [("reading", reading), ("choosing", choosing), ("replying", replying), ("exchange", exchange)]
    {
        println!("{what:<10}{ratio:>15.2}{:>7}{:>7}{:>7.1}", "", "", 1.5);
    }
    for (what, [rust, c], limit) in [("step", step, 1.3), ("packet", packet, 1.5)] {
        println!("{what:<10}{:>15}{rust:>7.2}{c:>7.2}{limit:>7.1}", "");
    }
    println!("{:<20}{:>9}{:>7}{:>7}", "plain window to", "window", "Rust", "C");
    for (what, [window, rust, c]) in plain {
        println!("{what:<20}{window:>9.1}{rust:>7.2}{c:>7.2}");
    }
}
