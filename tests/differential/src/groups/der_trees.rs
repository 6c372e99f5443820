//! Sound trees of every depth from 1 to 9, narrow, wide and long; only the depth decides which are lawful.

use super::{Group, DER_ANSWERS, MOST_DER_BYTES, PLAIN};
use crate::cases::Cases;
use crate::random::Random;
use crate::tree::{
    constructed, filling, primitive, random_tree, sound_answer, wrapped, Tree, CONSTRUCTED, DEEPEST, NAME_TAG,
};

pub const GROUP: Group = Group {
    name: "der-trees",
    answers: DER_ANSWERS,
    at_least: 1,
    kinds: &[
        ("random tree", random_trees),
        ("every tag at every depth", every_tag_at_every_depth),
        ("many empty elements side by side", many_empty_elements),
        ("one element too deep among many", one_too_deep_among_many),
        ("long list at every depth", long_list_at_every_depth),
        ("one long element at every depth", one_long_element_at_every_depth),
        ("longest tree", longest_tree),
    ],
    ..PLAIN
};

fn add(cases: &mut Cases, tree: &Tree) {
    cases.der(&tree.encode(), Some(tree.answer()));
}

fn random_trees(random: &mut Random, cases: &mut Cases) {
    for depth in 1..=DEEPEST + 1 {
        for round in 0..3_000 {
            add(cases, &random_tree(random, depth, 1 + round % 4));
        }
    }
}

/// An empty element with any byte for its tag, the outermost or inside others.
fn every_tag_at_every_depth(_: &mut Random, cases: &mut Cases) {
    for depth in 1..=DEEPEST + 1 {
        for tag in 0..=255 {
            let tree = wrapped(primitive(tag, Vec::new()), depth - 1);
            let answer = if tag % 32 == 31 || depth > DEEPEST { "none" } else { sound_answer(tree.tag) };
            cases.der(&tree.encode(), Some(answer));
        }
    }
}

fn empty_elements(random: &mut Random, count: usize) -> Vec<Tree> {
    (0..count)
        .map(|_| {
            let tag = random.one_of(&[0x00, 0x05, 0x9e, NAME_TAG, 0xbe]);
            if tag & CONSTRUCTED == 0 {
                primitive(tag, Vec::new())
            } else {
                constructed(tag, Vec::new())
            }
        })
        .collect()
}

fn many_empty_elements(random: &mut Random, cases: &mut Cases) {
    for count in [1, 2, 63, 64, 127, 128, 1_000, 4_000, 8_190, 16_300] {
        for levels in 0..=DEEPEST {
            let list = constructed(random.one_of(&[NAME_TAG, 0x31]), empty_elements(random, count));
            add(cases, &wrapped(list, levels));
        }
    }
}

/// Empty elements at depth 8, one of which is not quite empty, at the front, in the middle or at the end.
fn one_too_deep_among_many(random: &mut Random, cases: &mut Cases) {
    for count in [1, 2, 3, 100, 4_000] {
        for at in [0, count / 2, count - 1] {
            for levels in [DEEPEST - 3, DEEPEST - 2] {
                let mut elements = empty_elements(random, count);
                elements[at] = constructed(NAME_TAG, vec![primitive(0x05, Vec::new())]);
                add(cases, &wrapped(constructed(NAME_TAG, elements), levels));
            }
        }
    }
}

fn long_list_at_every_depth(random: &mut Random, cases: &mut Cases) {
    for length in [126, 127, 128, 255, 256, 2_000, 8_192, 16_384] {
        for levels in 0..=DEEPEST {
            let list = constructed(NAME_TAG, filling(random, length));
            add(cases, &wrapped(list, levels));
        }
    }
}

fn one_long_element_at_every_depth(random: &mut Random, cases: &mut Cases) {
    for length in [126, 127, 128, 255, 256, 2_000, 8_192, 16_384] {
        for levels in 0..=DEEPEST {
            let element = primitive(random.one_of(&[0x04, 0x10, 0xde]), random.bytes(length));
            add(cases, &wrapped(element, levels));
        }
    }
}

/// As long as a line can hold.
fn longest_tree(random: &mut Random, cases: &mut Cases) {
    const HEAD: usize = 4;
    for levels in 0..=DEEPEST {
        let length = MOST_DER_BYTES - HEAD * (levels + 1);
        add(cases, &wrapped(primitive(0x04, random.bytes(length)), levels));
        add(cases, &wrapped(constructed(NAME_TAG, filling(random, length)), levels));
        add(cases, &wrapped(constructed(0x31, filling(random, length)), levels));
    }
}
