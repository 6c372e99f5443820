//! The values of each cause, which the lines of `bench` leave out: the offer of samples/reasons.lines that has every cause.

use tallowbrim::{cause, place, Cause, Place, Places, Why, ESP};

const SCRIPT: &str = include_str!("../../../samples/reasons.lines");

fn bytes(word: &str) -> Vec<u8> {
    (0..word.len()).step_by(2).map(|at| u8::from_str_radix(&word[at..at + 2], 16).unwrap()).collect()
}

/// The book and the message of the script's longest line.
fn every_cause() -> (Vec<u8>, Vec<u8>) {
    let line = SCRIPT.lines().max_by_key(|line| line.len()).unwrap();
    let words: Vec<_> = line.split(' ').collect();
    (bytes(words[1]), bytes(words[2]))
}

#[test]
fn causes_have_their_values() {
    let (book, message) = every_cause();
    let told =
        |set, line, proposal, transform| cause(&book, &message, Places { set, line, proposal, transform }).unwrap();
    assert_eq!(told(0, 0, 0, 0), Some(Why::Protocols));
    let of_pair = [told(0, 1, 0, 0), told(0, 1, 1, 0)];
    assert_eq!(of_pair, [Cause::Seconds { found: 3_601, longest: 3_600 }, Cause::Suits].map(Why::Transform).map(Some));
    let of_set_2 = [
        Cause::Id { found: 20, wanted: 129 },
        Cause::Missing(5),
        Cause::Missing(1),
        Cause::Value { kind: 4, found: 2, wanted: 1 },
        Cause::Surplus { kind: 6, found: 128 },
        Cause::Seconds { found: 7_200, longest: 3_600 },
        Cause::Kilobytes,
        Cause::Seconds { found: 0, longest: 3_600 },
    ];
    for (transform, cause) in (0..).zip(of_set_2) {
        assert_eq!(told(1, 0, 0, transform), Some(Why::Transform(cause)));
    }
    assert_eq!(told(2, 0, 0, 0), Some(Why::Transform(Cause::Surplus { kind: 1, found: 3 })));
    assert_eq!([told(3, 0, 0, 0), told(0, 2, 0, 0), told(1, 0, 1, 0), told(1, 0, 0, 8)], [None; 4]);
}

#[test]
fn places_have_what_stands_there() {
    let (_, message) = every_cause();
    assert_eq!(place(&message, 1, 0, 7), Ok(Some(Place { set: 2, protocol: ESP, transform: 8 })));
    assert_eq!(place(&message, 1, 0, 8), Ok(None));
    assert_eq!(place(&[], 0, 0, 0).map_err(|refusal| refusal.number()), Err(30));
}
