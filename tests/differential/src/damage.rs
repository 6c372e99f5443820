//! Damage to written messages: fields set, bytes changed, cut out and put in, with lengths mended or not.

use crate::layout::{get, set, Field, Layout};
use crate::message::{padding, HEADER_SIZE};

/// How many of the lengths around a damage are put right, the outermost first.
#[derive(Clone, Copy)]
pub enum Mending {
    None,
    Outermost,
    AllButInnermost,
    All,
}

pub const MENDINGS: [Mending; 4] = [Mending::None, Mending::Outermost, Mending::AllButInnermost, Mending::All];

/// The values at which a field of that size turns, and those beside its present one.
pub fn limits(layout: &Layout, field: &Field) -> Vec<u64> {
    let fixed: &[u64] = match field.size {
        1 => &[0, 1, 2, 3, 4, 5, 8, 9, 16, 17, 32, 33, 127, 128, 254, 255],
        2 => &[0, 1, 3, 4, 7, 8, 12, 255, 256, 0x7fff, 0x8000, 0xffff],
        4 => &[0, 1, 2, 27, 28, 255, 256, 8_192, 8_193, 0x8000_0000, 0xffff_ffff],
        _ => &[0, 1, 1 << 56, u64::MAX],
    };
    let most = u64::MAX >> (64 - 8 * field.size);
    let present = get(&layout.bytes, field.at, field.size);
    let beside = [1, 2, 4, 8].into_iter().flat_map(|step| [present.wrapping_add(step), present.wrapping_sub(step)]);
    let high = present ^ 1 << (8 * field.size - 1);
    let mut limits: Vec<_> = fixed.iter().copied().chain(beside.map(|value| value & most)).chain([high]).collect();
    limits.sort();
    limits.dedup();
    limits.retain(|&value| value != present);
    limits
}

pub fn with_field(layout: &Layout, field: &Field, value: u64) -> Vec<u8> {
    let mut bytes = layout.bytes.clone();
    set(&mut bytes, field.at, field.size, value);
    bytes
}

/// So many bytes cut out at a place, and others put in there. The message has no padding yet and gets it afterwards
/// where it is padded at all and its own length is mended.
pub fn replaced(layout: &Layout, at: usize, cut: usize, put: &[u8], mending: Mending, padded: bool) -> Vec<u8> {
    let mut bytes = layout.bytes.clone();
    let around = layout.spans.iter().filter(|span| span.length_at + span.length_size <= at && at + cut <= span.end);
    let around: Vec<_> = around.collect();
    let mended = match mending {
        Mending::None => 0,
        Mending::Outermost => 1.min(around.len()),
        Mending::AllButInnermost => around.len().saturating_sub(1),
        Mending::All => around.len(),
    };
    for span in &around[..mended] {
        let length = get(&bytes, span.length_at, span.length_size) + put.len() as u64 - cut as u64;
        set(&mut bytes, span.length_at, span.length_size, length);
    }
    bytes.splice(at..at + cut, put.iter().copied());
    if padded && mended > 0 && bytes.len() > HEADER_SIZE {
        let padding = padding(bytes.len());
        bytes.extend(padding);
        let length = bytes.len() as u64;
        set(&mut bytes, 24, 4, length);
    }
    bytes
}

#[cfg(test)]
mod tests {
    use super::*;
    use crate::message::{message_of, Rest, HASH, NONCE, QUICK_MODE, SA};
    use crate::offer::SMALL;
    use crate::random::Random;

    #[test]
    fn lengths_around_a_damage_are_mended_as_far_as_asked() {
        let mut random = Random::new(1, "mending");
        let mut message = message_of(&mut random, QUICK_MODE, 1, &[HASH, SA, NONCE], SMALL);
        message.rest = Rest::Is(Vec::new());
        let layout = message.layout();
        let nonce = layout.spans.iter().rfind(|span| span.name == "payload's length").unwrap();
        let length = |bytes: &[u8], at, size| get(bytes, at, size) as usize;
        let mended = replaced(&layout, nonce.end, 0, &[1], Mending::All, false);
        assert_eq!(length(&mended, 24, 4), mended.len());
        assert_eq!(length(&mended, nonce.length_at, 2), nonce.end - nonce.start + 1);
        let outermost = replaced(&layout, nonce.end - 1, 1, &[], Mending::Outermost, false);
        assert_eq!(length(&outermost, 24, 4), outermost.len());
        assert_eq!(length(&outermost, nonce.length_at, 2), nonce.end - nonce.start);
        let unmended = replaced(&layout, nonce.end - 1, 1, &[], Mending::None, true);
        assert_eq!(length(&unmended, 24, 4), unmended.len() + 1);
        let padded = replaced(&layout, nonce.end - 1, 1, &[], Mending::All, true);
        assert_eq!((padded.len() - HEADER_SIZE) % 16, 0);
    }
}
