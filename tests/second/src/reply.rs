//! Document 01, "Policy book and choice": the reply, by itself an SA payload.

use crate::offer::{AH, ESP, LOWEST_SPI, NONE_NEXT};
use crate::policy::{self, Choice};
use crate::refusal::{self, refuse_if, Refusal};
use crate::write::{self, Proposal};

/// A lent buffer has at least so many bytes.
pub const LEAST_ROOM: usize = 2_048;

/// An end's own SPIs.
#[derive(Clone, Copy)]
pub struct Spis {
    pub ah: u32,
    pub esp: u32,
}

impl Spis {
    /// The SPI that goes with a protocol; in exchange 2 there is none.
    pub fn of(&self, protocol: u8) -> Option<u32> {
        match protocol {
            AH => Some(self.ah),
            ESP => Some(self.esp),
            _ => None,
        }
    }
}

/// "8192, the checks above, then a used own SPI below 256: 11."
pub fn alone(book: &[u8], own: Spis, room: usize, message: &[u8]) -> Result<Vec<u8>, Refusal> {
    refuse_if(room < LEAST_ROOM, refusal::ROOM)?;
    let choice = policy::choose(book, message)?;
    let mut used = choice.taken.iter().filter_map(|taken| own.of(taken.protocol));
    refuse_if(used.any(|spi| spi < LOWEST_SPI), refusal::SPI)?;
    Ok(write::payload(NONE_NEXT, &body(&choice, own)))
}

/// "The reply repeats numbers and transform bytes as offered, one transform each, next fields and lengths set anew, own
/// SPIs."
pub fn body(choice: &Choice, own: Spis) -> Vec<u8> {
    let proposals = choice.taken.iter().map(|taken| Proposal {
        number: choice.set,
        protocol: taken.protocol,
        spi: own.of(taken.protocol).map_or(Vec::new(), |spi| spi.to_be_bytes().to_vec()),
        transform: [&[NONE_NEXT], &taken.transform.bytes[1..]].concat(),
    });
    write::sa_body(&proposals.collect::<Vec<_>>())
}

#[cfg(test)]
mod tests {
    use crate::bench::Bench;

    const MAIN_BOOK: &str = "0100000e1000";
    const BOTH_BOOK: &str = "0001020100000e10";
    /// Document 01's example behind its header.
    const EXAMPLE_SA: &str = "000000340000000100000001 0000002801010001 0000002001010000 \
                              80010081 80020014 8003000a 80140002 800b0001 800c0e10";

    fn reply(book: &str, ah: u32, esp: u32, room: usize, message: &str) -> String {
        let line = format!("reply {book} {ah} {esp} {room} {}", message.replace(' ', ""));
        Bench::default().answer(line.as_bytes()).unwrap()
    }

    fn example() -> String {
        format!("01010101010101010202020202020202 01110200 00000000 00000050 {EXAMPLE_SA}")
    }

    /// Set 5 is ESP before AH. ESP has the transforms 2 and 7, the first of them with that lifetime.
    fn both(lifetime: &str) -> String {
        format!(
            "01010101010101010202020202020202 01112000 00000009 00000082 000000660000000100000001 \
             0200003605030402 00001000 0300001402810000 80040001 80010001 8002{lifetime} \
             0000001607810000 80040001 80010001 000200020e10 \
             0000002405020401 00002000 0000001801140000 80040001 80050014 80010001 80020001"
        )
    }

    fn of_both(esp: &str) -> String {
        let ah = "0000002405020401 00000100 0000001801140000 80040001 80050014 80010001 80020001";
        format!("reply {}", format!("{esp} {ah}").replace(' ', ""))
    }

    #[test]
    fn a_main_offer_of_one_transform_is_repeated_whole_and_uses_no_spi() {
        let expected = format!("reply {}", EXAMPLE_SA.replace(' ', ""));
        assert_eq!(reply(MAIN_BOOK, 0, 255, 2_048, &example()), expected);
    }

    #[test]
    fn one_transform_each_with_next_fields_and_lengths_anew_and_own_spis() {
        let seventh = "000000520000000100000001 0200002205030401 ffffffff \
                       0000001607810000 80040001 80010001 000200020e10";
        assert_eq!(reply(BOTH_BOOK, 256, u32::MAX, 2_048, &both("0e11")), of_both(seventh));
        let second = "000000500000000100000001 0200002005030401 ffffffff 0000001402810000 80040001 80010001 80020e10";
        assert_eq!(reply(BOTH_BOOK, 256, u32::MAX, 4_096, &both("0e10")), of_both(second));
    }

    #[test]
    fn checks_come_in_their_order() {
        assert_eq!(reply("-", 0, 0, 2_047, "-"), "refused 8192");
        assert_eq!(reply("-", 0, 0, 2_048, "-"), "refused 8193");
        assert_eq!(reply(BOTH_BOOK, 0, 0, 2_048, "-"), "refused 30");
        assert_eq!(reply("0000", 0, 0, 2_048, &both("0e10")), "refused 14");
        assert_eq!(reply(BOTH_BOOK, 255, 256, 2_048, &both("0e10")), "refused 11");
        assert_eq!(reply(BOTH_BOOK, 256, 255, 2_048, &both("0e10")), "refused 11");
        assert_eq!(reply(BOTH_BOOK, 256, 256, 4_097, &both("0e10")), "bad line");
    }
}
