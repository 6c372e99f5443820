//! Document 01, "Numbers an answer can carry", and requests one and five: those that this program gives.

pub type Refusal = u16;

pub const PAYLOAD_TYPE: Refusal = 1;
pub const DOI: Refusal = 2;
pub const SITUATION: Refusal = 3;
pub const COOKIE: Refusal = 4;
pub const MAJOR_VERSION: Refusal = 5;
pub const MINOR_VERSION: Refusal = 6;
pub const EXCHANGE_TYPE: Refusal = 7;
pub const FLAG: Refusal = 8;
pub const MESSAGE_ID: Refusal = 9;
pub const PROTOCOL: Refusal = 10;
pub const SPI: Refusal = 11;
pub const ATTRIBUTE: Refusal = 13;
pub const NOTHING_SUITS: Refusal = 14;
pub const SA_SYNTAX: Refusal = 15;
pub const MALFORMED: Refusal = 16;
pub const IDENTITY: Refusal = 18;
pub const CERTIFICATE_ENCODING: Refusal = 19;
pub const HASH: Refusal = 23;
pub const INTEGRITY: Refusal = 24;
pub const EXCHANGE_1_OR_3: Refusal = 29;
pub const LENGTHS: Refusal = 30;
pub const ROOM: Refusal = 8_192;
pub const BOOK: Refusal = 8_193;
pub const ACCEPTED_BEFORE: Refusal = 8_194;
pub const UNEXPECTED: Refusal = 8_195;
pub const GIVEN_UP: Refusal = 8_196;
pub const ZERO_OR_BEHIND: Refusal = 8_197;
pub const COUNTER_AT_END: Refusal = 8_198;
pub const TABLE_FULL: Refusal = 8_199;
pub const ENTRY_PRESENT: Refusal = 8_200;
pub const CAPTURE: Refusal = 8_201;
pub const LIST_FULL: Refusal = 8_202;

/// One check: its number if the test finds something wrong.
pub fn refuse_if(wrong: bool, number: Refusal) -> Result<(), Refusal> {
    if wrong {
        Err(number)
    } else {
        Ok(())
    }
}
