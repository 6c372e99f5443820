//! Each kind of damage at every place of many sound trees. Some kinds always spoil a tree and some never do; where it
//! hangs on the bytes around, the two programs must agree.

use super::{Group, DER_ANSWERS, PLAIN};
use crate::cases::Cases;
use crate::random::Random;
use crate::tree::{constructed, random_tree, sound_answer, Inside, Place, Tree, CONSTRUCTED, DEEPEST, NAME_TAG};

pub const GROUP: Group = Group {
    name: "der-damage",
    answers: DER_ANSWERS,
    at_least: 1,
    kinds: &[
        ("byte changed", byte_changed),
        ("byte removed", byte_removed),
        ("byte inserted", byte_inserted),
        ("cut short", cut_short),
        ("extended", extended),
        ("length one more or less", length_one_more_or_less),
        ("tag with low five bits 31", tag_with_low_five_bits_31),
        ("constructed bit flipped", constructed_bit_flipped),
        ("longer form of a length", longer_form_of_a_length),
        ("pushed to depth 9", pushed_to_depth_9),
        ("byte removed from a list, lengths put right", byte_removed_from_a_list),
        ("byte inserted into a list, lengths put right", byte_inserted_into_a_list),
    ],
    ..PLAIN
};

/// Sound and lawful trees of every depth, most of them short.
fn lawful_trees(random: &mut Random, of_each_depth: usize) -> Vec<Tree> {
    let depths = (1..=DEEPEST).flat_map(|depth| vec![depth; of_each_depth]);
    depths.map(|depth| random_tree(random, depth, 3)).collect()
}

/// Every element of many trees: the tree, which one of its places it is, and the place.
fn for_every_element(
    random: &mut Random,
    of_each_depth: usize,
    mut damage: impl FnMut(&mut Random, &Tree, usize, &Place),
) {
    for tree in lawful_trees(random, of_each_depth) {
        for (number, place) in tree.places().iter().enumerate() {
            damage(random, &tree, number, place);
        }
    }
}

fn byte_changed(random: &mut Random, cases: &mut Cases) {
    for tree in lawful_trees(random, 8) {
        let (bytes, places) = (tree.encode(), tree.places());
        for (at, &byte) in bytes.iter().enumerate() {
            let near = [byte ^ CONSTRUCTED, byte.wrapping_add(1), byte.wrapping_sub(1)];
            let far = [0x00, NAME_TAG, 0x80, 0x81, 0xff, random.byte()];
            for changed in near.into_iter().chain(far).filter(|&changed| changed != byte) {
                let mut damaged = bytes.clone();
                damaged[at] = changed;
                cases.der(&damaged, answer_after_change(&places, at, &bytes, &damaged));
            }
        }
    }
}

fn answer_after_change(places: &[Place], at: usize, before: &[u8], after: &[u8]) -> Option<&'static str> {
    // The innermost element that holds the byte is the last whose tag stands at or before it.
    let place = places.iter().rfind(|place| place.tag_at <= at)?;
    if at == place.tag_at {
        answer_after_tag_change(place, before[at], after)
    } else if at >= place.inside_at {
        // Free bytes inside a primitive element.
        Some(sound_answer(after[0]))
    } else if place.tag_at == 0 && place.inside_at == 2 && after[at] < 128 {
        // The outermost length is no longer true.
        Some("none")
    } else {
        None
    }
}

fn answer_after_tag_change(place: &Place, before: u8, after: &[u8]) -> Option<&'static str> {
    let tag = after[place.tag_at];
    let length = place.end - place.inside_at;
    let becomes_constructed = before & CONSTRUCTED == 0 && tag & CONSTRUCTED != 0;
    if tag % 32 == 31 {
        Some("none")
    } else if !becomes_constructed || length == 0 {
        Some(sound_answer(after[0]))
    } else if length == 1 || place.depth == DEEPEST {
        // One byte is no element, and any element inside would lie at depth 9.
        Some("none")
    } else {
        None
    }
}

/// Behind the outermost head a byte less or more always makes the outermost length untrue.
fn answer_to_other_size(tree: &Tree, at: usize) -> Option<&'static str> {
    (at >= tree.places()[0].inside_at).then_some("none")
}

fn byte_removed(random: &mut Random, cases: &mut Cases) {
    for tree in lawful_trees(random, 30) {
        let bytes = tree.encode();
        for at in 0..bytes.len() {
            let damaged = [&bytes[..at], &bytes[at + 1..]].concat();
            cases.der(&damaged, answer_to_other_size(&tree, at));
        }
    }
}

fn byte_inserted(random: &mut Random, cases: &mut Cases) {
    for tree in lawful_trees(random, 10) {
        let bytes = tree.encode();
        for at in 0..bytes.len() {
            for byte in [0x00, NAME_TAG, 0x81, random.byte()] {
                let damaged = [&bytes[..at], &[byte], &bytes[at..]].concat();
                cases.der(&damaged, answer_to_other_size(&tree, at));
            }
        }
    }
}

fn cut_short(random: &mut Random, cases: &mut Cases) {
    for tree in lawful_trees(random, 20) {
        let bytes = tree.encode();
        for length in 0..bytes.len() {
            cases.der(&bytes[..length], Some("none"));
        }
    }
}

fn extended(random: &mut Random, cases: &mut Cases) {
    for tree in lawful_trees(random, 30) {
        let bytes = tree.encode();
        let byte = [random.byte()];
        let more: [&[u8]; 5] = [&[0], &[0, 0], &[NAME_TAG, 0], &byte, &bytes];
        for more in more {
            cases.der(&[&bytes, more].concat(), Some("none"));
        }
    }
}

/// The last byte of one length is one more or one less, and nothing else changes.
fn length_one_more_or_less(random: &mut Random, cases: &mut Cases) {
    for_every_element(random, 50, |_, tree, _, place| {
        let bytes = tree.encode();
        let at = place.inside_at - 1;
        for changed in [bytes[at].checked_add(1), bytes[at].checked_sub(1)].into_iter().flatten() {
            let mut damaged = bytes.clone();
            damaged[at] = changed;
            // A constructed element is left with one byte or an element cut short, and so is the list behind which
            // its last element ends; a primitive one may yet hand a sound rest to its list.
            let spoiled = place.constructed || place.last;
            cases.der(&damaged, spoiled.then_some("none"));
        }
    });
}

fn tag_with_low_five_bits_31(random: &mut Random, cases: &mut Cases) {
    for_every_element(random, 50, |_, tree, number, _| {
        let mut damaged = tree.clone();
        damaged.element_mut(number).tag |= 31;
        cases.der(&damaged.encode(), Some("none"));
    });
}

fn constructed_bit_flipped(random: &mut Random, cases: &mut Cases) {
    for_every_element(random, 50, |_, tree, number, place| {
        let before = tree.clone().element_mut(number).tag;
        let mut damaged = tree.clone();
        damaged.element_mut(number).tag ^= CONSTRUCTED;
        let bytes = damaged.encode();
        cases.der(&bytes, answer_after_tag_change(place, before, &bytes));
    });
}

/// The lengths around it are put right.
fn longer_form_of_a_length(random: &mut Random, cases: &mut Cases) {
    for_every_element(random, 30, |_, tree, number, _| {
        for longer in 1..=3 {
            let mut damaged = tree.clone();
            damaged.element_mut(number).longer = longer;
            cases.der(&damaged.encode(), Some("none"));
        }
    });
}

/// An element goes into so many others that the deepest in it lies at depth 8, and then at depth 9.
fn pushed_to_depth_9(random: &mut Random, cases: &mut Cases) {
    for_every_element(random, 30, |_, tree, number, place| {
        let own_depth = tree.clone().element_mut(number).depth();
        for reached in [DEEPEST, DEEPEST + 1] {
            let mut pushed = tree.clone();
            let element = pushed.element_mut(number);
            for _ in place.depth + own_depth - 1..reached {
                let inner = element.clone();
                *element = constructed(inner.tag | CONSTRUCTED, vec![inner]);
            }
            cases.der(&pushed.encode(), Some(pushed.answer()));
        }
    });
}

/// The list in that element with other bytes in its place, and all lengths right.
fn with_list(tree: &Tree, number: usize, list: Vec<u8>) -> Vec<u8> {
    let mut damaged = tree.clone();
    damaged.element_mut(number).inside = Inside::Bytes(list);
    damaged.encode()
}

fn byte_removed_from_a_list(random: &mut Random, cases: &mut Cases) {
    for_every_element(random, 6, |_, tree, number, place| {
        let list = tree.clone().element_mut(number).encode_inside();
        for at in (0..list.len()).filter(|_| place.constructed) {
            // Without its last byte, the last element of the list runs past the end.
            let spoiled = at + 1 == list.len();
            let damaged = [&list[..at], &list[at + 1..]].concat();
            cases.der(&with_list(tree, number, damaged), spoiled.then_some("none"));
        }
    });
}

fn byte_inserted_into_a_list(random: &mut Random, cases: &mut Cases) {
    for_every_element(random, 6, |random, tree, number, place| {
        let list = tree.clone().element_mut(number).encode_inside();
        for at in (0..=list.len()).filter(|_| place.constructed) {
            // One byte behind the last element is no element.
            let spoiled = at == list.len();
            let byte = random.one_of(&[0x00, 0x01, 0x02, NAME_TAG, 0x81]);
            let damaged = [&list[..at], &[byte], &list[at..]].concat();
            cases.der(&with_list(tree, number, damaged), spoiled.then_some("none"));
        }
    });
}
