//! The calls of include/tallowbrim.h. Bytes are lent as a pointer and their length; the words of `out` and the records as what they
//! are, so that the compiler knows their sizes.
//!
//! Each call of this crate hands over slices that live while it runs, and none but the one that writes to them has those that it
//! writes to. The header asks for no more, and that is why each `unsafe` block around a call is sound.

/// The sizes of the records: words of a receive record, of a plain list and of a table, bytes of an end.
pub const RECEIVE: usize = 2;
pub const PLAIN_LIST: usize = 4097;
pub const TABLE: usize = 384;
pub const END: usize = 398;

extern "C" {
    pub fn tallowbrim_datagram(datagram: *const u8, length: usize, out: &mut [u64; 3]) -> u32;
    pub fn tallowbrim_message(message: *const u8, length: usize, out: &mut [u64; 2]) -> u32;
    pub fn tallowbrim_payload(message: *const u8, length: usize, place: u8, out: &mut [u64; 3]) -> u32;
    pub fn tallowbrim_identity(exchange: u8, body: *const u8, length: usize) -> u32;
    pub fn tallowbrim_name(bytes: *const u8, length: usize) -> u32;
    pub fn tallowbrim_element(bytes: *const u8, length: usize) -> u32;

    pub fn tallowbrim_book(book: *const u8, length: usize, out: &mut [u64; 2]) -> u32;
    pub fn tallowbrim_choose(
        book: *const u8,
        book_length: usize,
        message: *const u8,
        message_length: usize,
        out: &mut [u64; 5],
    ) -> u32;
    pub fn tallowbrim_reply(
        book: *const u8,
        book_length: usize,
        message: *const u8,
        message_length: usize,
        ah: u32,
        esp: u32,
        buffer: *mut u8,
        buffer_length: usize,
        out: &mut [u64; 1],
    ) -> u32;
    pub fn tallowbrim_cause(
        book: *const u8,
        book_length: usize,
        message: *const u8,
        message_length: usize,
        set: u8,
        line: u8,
        proposal: u8,
        transform: u8,
        out: &mut [u64; 5],
    ) -> u32;
    pub fn tallowbrim_place(
        message: *const u8,
        length: usize,
        set: u8,
        proposal: u8,
        transform: u8,
        out: &mut [u64; 4],
    ) -> u32;
    pub fn tallowbrim_lawful(
        offer: *const u8,
        offer_length: usize,
        reply: *const u8,
        reply_length: usize,
        booked: bool,
        book: *const u8,
        book_length: usize,
    ) -> u32;
    pub fn tallowbrim_difference(
        offer: *const u8,
        offer_length: usize,
        reply: *const u8,
        reply_length: usize,
        booked: bool,
        book: *const u8,
        book_length: usize,
        out: &mut [u64; 5],
    ) -> u32;

    pub fn tallowbrim_fresh(
        end: &mut [u8; END],
        initiator: bool,
        initiator_cookie: u64,
        responder_cookie: u64,
        book: *const u8,
        book_length: usize,
        ah: u32,
        esp: u32,
        nonce: *const u8,
        nonce_length: usize,
    ) -> u32;
    pub fn tallowbrim_begin(
        end: &mut [u8; END],
        id: u32,
        first: *const u8,
        first_length: usize,
        second: *const u8,
        second_length: usize,
        sent: *mut u8,
        sent_length: usize,
        got: *const u8,
        got_length: usize,
        output: *mut u8,
        output_length: usize,
        out: &mut [u64; 2],
    ) -> u32;
    pub fn tallowbrim_deliver(
        end: &mut [u8; END],
        hash_holds: bool,
        message: *const u8,
        message_length: usize,
        sent: *mut u8,
        sent_length: usize,
        got: *mut u8,
        got_length: usize,
        output: *mut u8,
        output_length: usize,
        out: &mut [u64; 2],
    ) -> u32;
    pub fn tallowbrim_tick(
        end: &mut [u8; END],
        sent: *const u8,
        sent_length: usize,
        got: *const u8,
        got_length: usize,
        output: *mut u8,
        output_length: usize,
        out: &mut [u64; 2],
    ) -> u32;
    pub fn tallowbrim_state(end: &[u8; END], out: &mut [u64; 4]) -> u32;
    pub fn tallowbrim_agreed(end: &[u8; END], out: &mut [u64; 10]) -> u32;
    pub fn tallowbrim_nonce(
        initiator: bool,
        initiators: *const u8,
        initiators_length: usize,
        responders: *const u8,
        responders_length: usize,
        nonce: &mut [u8; 256],
        out: &mut [u64; 1],
    ) -> u32;

    pub fn tallowbrim_step(receive: &mut [u64; RECEIVE], number: u32, integrity: bool, out: &mut [u64; 1]) -> u32;
    pub fn tallowbrim_loss_line(receive: &[u64; RECEIVE], out: &mut [u64; 3]) -> u32;
    pub fn tallowbrim_plain_step(list: &mut [u64; PLAIN_LIST], number: u32, integrity: bool, out: &mut [u64; 1])
        -> u32;
    pub fn tallowbrim_plain_loss_line(list: &[u64; PLAIN_LIST], out: &mut [u64; 3]) -> u32;
    pub fn tallowbrim_add(table: &mut [u64; TABLE], destination: u32, protocol: u8, spi: u32) -> u32;
    pub fn tallowbrim_remove(table: &mut [u64; TABLE], destination: u32, protocol: u8, spi: u32) -> u32;
    pub fn tallowbrim_packet(
        table: &mut [u64; TABLE],
        destination: u32,
        protocol: u8,
        integrity: bool,
        packet: *const u8,
        length: usize,
        out: &mut [u64; 1],
    ) -> u32;
    pub fn tallowbrim_send(
        table: &mut [u64; TABLE],
        destination: u32,
        protocol: u8,
        spi: u32,
        out: &mut [u64; 1],
    ) -> u32;
    pub fn tallowbrim_loss(table: &[u64; TABLE], destination: u32, protocol: u8, spi: u32, out: &mut [u64; 3]) -> u32;

    pub fn tallowbrim_file_header(header: *const u8, length: usize, out: &mut [u64; 1]) -> u32;
    pub fn tallowbrim_header_cause(header: *const u8, length: usize, out: &mut [u64; 3]) -> u32;
    pub fn tallowbrim_record_header(order: u64, header: *const u8, length: usize, out: &mut [u64; 5]) -> u32;
    pub fn tallowbrim_carried(original: u32, record: *const u8, length: usize, out: &mut [u64; 5]) -> u32;
    pub fn tallowbrim_record(
        table: &mut [u64; TABLE],
        original: u32,
        record: *const u8,
        length: usize,
        out: &mut [u64; 8],
    ) -> u32;
}
