//! DER elements as trees, made sound, so that a maker of cases knows what a damage does to them.

use crate::random::Random;

pub const NAME_TAG: u8 = 0x30;
pub const CONSTRUCTED: u8 = 0x20;
pub const DEEPEST: usize = 8;

/// In a sound tree the tag's constructed bit says whether elements or bytes are inside, and no length is longer.
#[derive(Clone)]
pub struct Tree {
    pub tag: u8,
    /// So many bytes are in the length beyond its shortest form.
    pub longer: usize,
    pub inside: Inside,
}

#[derive(Clone)]
pub enum Inside {
    Bytes(Vec<u8>),
    Elements(Vec<Tree>),
}

/// Where an element of a sound tree lies in its bytes.
pub struct Place {
    pub tag_at: usize,
    pub inside_at: usize,
    pub end: usize,
    pub depth: usize,
    pub constructed: bool,
    /// The last one in its list; so is the outermost.
    pub last: bool,
}

pub fn primitive(tag: u8, bytes: Vec<u8>) -> Tree {
    Tree { tag, longer: 0, inside: Inside::Bytes(bytes) }
}

pub fn constructed(tag: u8, elements: Vec<Tree>) -> Tree {
    Tree { tag, longer: 0, inside: Inside::Elements(elements) }
}

/// The tree inside `levels` more elements.
pub fn wrapped(tree: Tree, levels: usize) -> Tree {
    (0..levels).fold(tree, |tree, _| constructed(NAME_TAG, vec![tree]))
}

/// A length in so many bytes, at least those of its shortest form.
pub fn length_in(length: usize, size: usize) -> Vec<u8> {
    assert!(size >= shortest_size(length));
    if size == 1 {
        return vec![length as u8];
    }
    let number = length.to_be_bytes();
    let mut bytes = vec![0x80 + (size - 1) as u8];
    bytes.extend(&number[number.len() - (size - 1)..]);
    bytes
}

pub fn shortest_size(length: usize) -> usize {
    match length {
        0..=127 => 1,
        128..=255 => 2,
        256..=65_535 => 3,
        _ => panic!("no lawful form holds {length}"),
    }
}

impl Tree {
    pub fn depth(&self) -> usize {
        1 + self.elements().iter().map(Tree::depth).max().unwrap_or(0)
    }

    /// The answer to a tree that is sound but perhaps too deep.
    pub fn answer(&self) -> &'static str {
        if self.depth() > DEEPEST {
            "none"
        } else {
            sound_answer(self.tag)
        }
    }

    pub fn encode(&self) -> Vec<u8> {
        let mut bytes = Vec::with_capacity(self.size());
        self.write(&mut bytes);
        bytes
    }

    pub fn encode_inside(&self) -> Vec<u8> {
        match &self.inside {
            Inside::Bytes(bytes) => bytes.clone(),
            Inside::Elements(elements) => elements.iter().flat_map(Tree::encode).collect(),
        }
    }

    /// Every element, outer ones first, in the order of their tags.
    pub fn places(&self) -> Vec<Place> {
        let mut places = Vec::new();
        self.place(0, 1, true, &mut places);
        places
    }

    /// The element at that place in the order of `places`.
    pub fn element_mut(&mut self, number: usize) -> &mut Tree {
        self.find(number).expect("a tree has as many elements as places")
    }

    fn elements(&self) -> &[Tree] {
        match &self.inside {
            Inside::Bytes(_) => &[],
            Inside::Elements(elements) => elements,
        }
    }

    fn count(&self) -> usize {
        1 + self.elements().iter().map(Tree::count).sum::<usize>()
    }

    fn find(&mut self, number: usize) -> Option<&mut Tree> {
        if number == 0 {
            return Some(self);
        }
        let Inside::Elements(elements) = &mut self.inside else {
            return None;
        };
        let mut left = number - 1;
        for element in elements {
            let count = element.count();
            if left < count {
                return element.find(left);
            }
            left -= count;
        }
        None
    }

    fn length(&self) -> usize {
        match &self.inside {
            Inside::Bytes(bytes) => bytes.len(),
            Inside::Elements(elements) => elements.iter().map(Tree::size).sum(),
        }
    }

    pub fn size(&self) -> usize {
        let length = self.length();
        self.head_size(length) + length
    }

    fn head_size(&self, length: usize) -> usize {
        1 + shortest_size(length) + self.longer
    }

    fn write(&self, bytes: &mut Vec<u8>) {
        let length = self.length();
        bytes.push(self.tag);
        bytes.extend(length_in(length, self.head_size(length) - 1));
        match &self.inside {
            Inside::Bytes(inside) => bytes.extend(inside),
            Inside::Elements(elements) => elements.iter().for_each(|element| element.write(bytes)),
        }
    }

    fn place(&self, tag_at: usize, depth: usize, last: bool, places: &mut Vec<Place>) {
        let length = self.length();
        let inside_at = tag_at + self.head_size(length);
        places.push(Place {
            tag_at,
            inside_at,
            end: inside_at + length,
            depth,
            constructed: matches!(self.inside, Inside::Elements(_)),
            last,
        });
        let mut at = inside_at;
        for (index, element) in self.elements().iter().enumerate() {
            element.place(at, depth + 1, index + 1 == self.elements().len(), places);
            at += element.size();
        }
    }
}

/// The answer to one lawful element with that tag.
pub fn sound_answer(tag: u8) -> &'static str {
    if tag == NAME_TAG {
        "name"
    } else {
        "element"
    }
}

/// A lawful tag; every second constructed one is that of a name.
fn random_tag(random: &mut Random, constructed: bool) -> u8 {
    if constructed && random.once_in(2) {
        return NAME_TAG;
    }
    let class = random.below(4) as u8 * 64;
    let number = random.below(31) as u8;
    class + number + if constructed { CONSTRUCTED } else { 0 }
}

fn random_leaf(random: &mut Random) -> Tree {
    if random.once_in(3) {
        return constructed(random_tag(random, true), Vec::new());
    }
    let length = match random.below(60) {
        0 => random.between(254, 258),
        1..=4 => random.between(124, 130),
        _ => random.below(6),
    };
    primitive(random_tag(random, false), random.bytes(length))
}

/// A sound tree of exactly that depth, with lists of at most `widest` elements.
pub fn random_tree(random: &mut Random, depth: usize, widest: usize) -> Tree {
    if depth == 1 {
        return random_leaf(random);
    }
    let width = random.between(1, widest);
    let deep = random.below(width);
    let mut elements = Vec::new();
    for index in 0..width {
        let element_depth = if index == deep { depth - 1 } else { random.between(1, 3.min(depth - 1)) };
        elements.push(random_tree(random, element_depth, widest));
    }
    constructed(random_tag(random, true), elements)
}

/// Elements that fill exactly so many bytes; one byte cannot be filled.
pub fn filling(random: &mut Random, length: usize) -> Vec<Tree> {
    let mut left = length;
    let mut elements = Vec::new();
    while left > 0 {
        let size = if left <= 3 { left } else { random.between(2, 9.min(left - 2)) };
        elements.push(if size == 2 && random.once_in(2) {
            constructed(random_tag(random, true), Vec::new())
        } else {
            primitive(random_tag(random, false), random.bytes(size - 2))
        });
        left -= size;
    }
    elements
}

#[cfg(test)]
mod tests {
    use super::*;

    #[test]
    fn bytes_are_written_by_the_rules_of_der() {
        let tree = constructed(0x30, vec![primitive(0x04, vec![7]), constructed(0xa1, vec![primitive(0x05, vec![])])]);
        assert_eq!(tree.encode(), [0x30, 7, 0x04, 1, 7, 0xa1, 2, 0x05, 0]);
        assert_eq!(primitive(4, vec![9; 128]).encode()[..4], [4, 0x81, 128, 9]);
        assert_eq!(primitive(4, vec![9; 256]).encode()[..5], [4, 0x82, 1, 0, 9]);
        assert_eq!(Tree { longer: 2, ..primitive(4, vec![9]) }.encode(), [4, 0x82, 0, 1, 9]);
    }

    #[test]
    fn places_lie_where_the_bytes_are_and_name_the_same_elements() {
        let mut random = Random::new(1, "places");
        for depth in 1..=DEEPEST {
            let mut tree = random_tree(&mut random, depth, 4);
            let bytes = tree.encode();
            for (number, place) in tree.places().iter().enumerate() {
                assert_eq!(bytes[place.tag_at..place.end], tree.element_mut(number).encode());
                assert_eq!(bytes[place.inside_at..place.end], tree.element_mut(number).encode_inside());
            }
        }
    }

    #[test]
    fn trees_have_the_depth_and_fillings_the_length_asked_for() {
        let mut random = Random::new(1, "depth");
        for depth in 1..=9 {
            assert_eq!(random_tree(&mut random, depth, 4).depth(), depth);
        }
        for length in (0..300).filter(|&length| length != 1) {
            let size: usize = filling(&mut random, length).iter().map(Tree::size).sum();
            assert_eq!(size, length);
        }
    }
}
