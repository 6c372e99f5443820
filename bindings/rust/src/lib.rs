//! The core of Tallowbrim, which tells why an IPSec tunnel by GB/T 36968-2018 did not come up: safe functions over the calls of
//! include/tallowbrim.h, in the parts of that header. A call gives its values, or the [`Refusal`] by which it changed nothing.

#![warn(missing_docs)]

mod capture;
mod policy;
mod quick;
mod raw;
mod reading;
mod refusal;
mod sequence;

pub use capture::{
    carried, file_header, header_cause, record, record_header, Addresses, Carried, HeaderCause, Listed, Order, Ports,
    RecordHeader,
};
pub use policy::{
    book, cause, choose, difference, lawful, place, reply, Book, Cause, Choice, Difference, OfSet, Place, Places,
    Transforms, Why,
};
pub use quick::{nonce, Agreed, End, EndRecord, Lent, Own, Role, Spis, Standing, State, Step, BUFFER};
pub use reading::{datagram, element, identity, message, name, payload, Datagram, Message, Part, Payload};
pub use refusal::Refusal;
pub use sequence::{Key, LossLine, PlainList, Receive, Table};

/// The exchange type of main mode.
pub const MAIN_MODE: u8 = 2;
/// The exchange type of an informational message.
pub const INFORMATIONAL: u8 = 5;
/// The exchange type of quick mode.
pub const QUICK_MODE: u8 = 32;

/// The protocol number of AH.
pub const AH: u8 = 2;
/// The protocol number of ESP.
pub const ESP: u8 = 3;

/// The type of an SA payload, the offer.
pub const OFFER: u8 = 1;
