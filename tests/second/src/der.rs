//! Document 01, "Identities": whether bytes are exactly one DER element, and whether it is a name.
//! Elements are read from left to right with a list of the ends that are still ahead, not by calls within calls.

const NAME_TAG: u8 = 0x30;
const CONSTRUCTED: u8 = 0x20;
const LOW_FIVE_BITS: u8 = 31;
const DEEPEST: usize = 8;

pub fn answer(bytes: &[u8]) -> &'static str {
    if is_name(bytes) {
        "name"
    } else if is_one_element(bytes) {
        "element"
    } else {
        "none"
    }
}

pub fn is_name(bytes: &[u8]) -> bool {
    bytes.first() == Some(&NAME_TAG) && is_one_element(bytes)
}

pub fn is_one_element(bytes: &[u8]) -> bool {
    // Where each constructed element around `at` ends, the outermost first.
    let mut ends = Vec::with_capacity(DEEPEST);
    let mut at = 0;
    loop {
        let depth = ends.len() + 1;
        let list_end = ends.last().copied().unwrap_or(bytes.len());
        let Some(head) = head(&bytes[at..list_end]) else {
            return false;
        };
        let inside = at + head.size;
        let end = inside + head.length;
        if depth > DEEPEST || end > list_end {
            return false;
        }
        if head.constructed {
            ends.push(end);
            at = inside;
        } else {
            at = end;
        }
        while ends.last() == Some(&at) {
            ends.pop();
        }
        if ends.is_empty() {
            return at == bytes.len();
        }
    }
}

/// Tag and length of an element: their size, and how many bytes are said to follow them.
struct Head {
    constructed: bool,
    size: usize,
    length: usize,
}

fn head(bytes: &[u8]) -> Option<Head> {
    let tag = *bytes.first()?;
    if tag & LOW_FIVE_BITS == LOW_FIVE_BITS {
        return None;
    }
    let (length_size, length) = shortest_length(&bytes[1..])?;
    Some(Head { constructed: tag & CONSTRUCTED != 0, size: 1 + length_size, length })
}

/// "Length in the shortest form of at most three bytes": its size and the length.
fn shortest_length(bytes: &[u8]) -> Option<(usize, usize)> {
    match *bytes {
        [length @ 0..=127, ..] => Some((1, length.into())),
        [0x81, length @ 128..=255, ..] => Some((2, length.into())),
        [0x82, high @ 1..=255, low, ..] => Some((3, u16::from_be_bytes([high, low]).into())),
        _ => None,
    }
}
