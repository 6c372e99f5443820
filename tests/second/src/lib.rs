//! The second program, written from document 01 and the requests alone. Each rule has a room of its own; `bench`, `verdict`,
//! `capture`, `why` and `lawful` are what a caller sees of them. It is a library so that the makers of test lines can use what it
//! writes.

pub mod bench;
pub mod capture;
mod der;
mod frame;
mod identity;
pub mod lawful;
mod lines;
mod message;
mod offer;
mod plain_window;
mod policy;
mod port4500;
mod quick;
mod quick_lines;
mod quick_messages;
mod record;
mod refusal;
mod reply;
mod sequence;
pub mod verdict;
pub mod why;
mod wire;
mod write;
