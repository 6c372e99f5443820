//! The second program's rooms that read a message, choose, reply, and play the ends of quick mode, taken in as they stand.

#[path = "../../tests/second/src/der.rs"]
pub mod der;
#[path = "../../tests/second/src/identity.rs"]
pub mod identity;
#[path = "../../tests/second/src/lines.rs"]
pub mod lines;
#[path = "../../tests/second/src/message.rs"]
pub mod message;
#[path = "../../tests/second/src/offer.rs"]
pub mod offer;
#[path = "../../tests/second/src/policy.rs"]
pub mod policy;
#[path = "../../tests/second/src/quick.rs"]
pub mod quick;
#[path = "../../tests/second/src/quick_messages.rs"]
pub mod quick_messages;
#[path = "../../tests/second/src/refusal.rs"]
pub mod refusal;
#[path = "../../tests/second/src/reply.rs"]
pub mod reply;
#[path = "../../tests/second/src/wire.rs"]
pub mod wire;
#[path = "../../tests/second/src/write.rs"]
pub mod write;
