/*
 * Tallowbrim: why an IPSec tunnel by GB/T 36968-2018 did not come up.
 *
 * One convention for every call:
 *
 * - It answers 0 for done, or the number of a refusal (docs/NUMBERS.md); its comment says which numbers it can answer.
 * - Its values are left in the words of `out`. A word that has no value in an answer is 0.
 * - After a refusal nothing that was lent has changed.
 * - Nothing is allocated, kept or called back, and there is no global state: any call may run on any thread with its own memory.
 * - Bytes are lent as a pointer and their length. No pointer is null, also where the length is 0.
 * - What a call writes to overlaps nothing else that it is lent.
 * - The records below are lent as plain words or bytes, and any contents at all get an answer. What stands in them is theirs, but
 *   for the plain list, which is there to be read.
 *
 * Every call is proved to answer, and to leave each lent word and byte, as its definition says: docs/CONTRACTS.md, exports_reading and on.
 */
#ifndef TALLOWBRIM_H
#define TALLOWBRIM_H

#include <stdbool.h>
#include <stddef.h>
#include <stdint.h>

#ifdef __cplusplus
extern "C" {
#endif

/* What arrived of one life of an SA; all zero is a life that begins. */
typedef struct tallowbrim_receive {
    uint64_t words[2];
} tallowbrim_receive;

/*
 * The accepted numbers of one life of an SA as a plain list: first how many there are, then the numbers in the order of their acceptance.
 * A count above 4,096 is read as 4,096; all zero is a life that begins.
 */
typedef struct tallowbrim_plain_list {
    uint64_t words[4097];
} tallowbrim_plain_list;

/* 64 SA entries, by IPv4 destination, protocol (2 AH, 3 ESP) and SPI; all zero is the empty table. */
typedef struct tallowbrim_table {
    uint64_t words[384];
} tallowbrim_table;

/* One end of quick mode, made by tallowbrim_fresh. Its two kept buffers lie beside it. */
typedef struct tallowbrim_end {
    uint8_t bytes[398];
} tallowbrim_end;

/* The least size of the two kept buffers and of the output of an end, and of the buffer of a reply. */
#define TALLOWBRIM_BUFFER 2048

/* ---- Reading ---------------------------------------------------------------------------------------------------------------- */

/*
 * What a datagram of port 4500 is.
 * out: 1 a keepalive; 2 a key exchange, with start and length of its message; 3 an ESP packet, with its length.
 * Answers 0, or 16.
 */
uint32_t tallowbrim_datagram(const uint8_t *datagram, size_t length, uint64_t out[3]);

/*
 * Reads a key exchange message, from its header on and deciphered.
 * out: its exchange (2 main mode, 5 informational, 32 quick mode); how many payloads it has.
 * Answers 0, or 1 to 11, 13, 15, 16, 18, 19, 29, 30.
 */
uint32_t tallowbrim_message(const uint8_t *message, size_t length, uint64_t out[2]);

/*
 * A payload of a message, the first being 0.
 * out: its type (1 is the offer); the byte of the message where it begins; how many bytes it has.
 * Answers as tallowbrim_message does, and 16 where the message has no such payload.
 */
uint32_t tallowbrim_payload(const uint8_t *message, size_t length, uint8_t place, uint64_t out[3]);

/* Whether the body of an identification payload is lawful in exchange 2 or 32. Answers 0, or 18. */
uint32_t tallowbrim_identity(uint8_t exchange, const uint8_t *body, size_t length);

/* Whether bytes are one DER name: exactly one element, with tag 0x30. Answers 0, or 18. */
uint32_t tallowbrim_name(const uint8_t *bytes, size_t length);

/* Whether bytes are exactly one DER element. Answers 0, or 18. */
uint32_t tallowbrim_element(const uint8_t *bytes, size_t length);

/* ---- Policy ----------------------------------------------------------------------------------------------------------------- */

/*
 * Reads a policy book.
 * out: how many main lines it has; how many quick lines.
 * Answers 0, or 8193.
 */
uint32_t tallowbrim_book(const uint8_t *book, size_t length, uint64_t out[2]);

/*
 * What a book chooses of a message.
 * out: the set, by its proposal number; the line, counted from 1; how many transforms, 1 or 2; the first, the second, by their numbers.
 * Answers 0, or 8193, as tallowbrim_message does, 14.
 */
uint32_t tallowbrim_choose(
    const uint8_t *book, size_t book_length,
    const uint8_t *message, size_t message_length,
    uint64_t out[5]);

/*
 * Chooses, and writes the reply, an SA payload with the own SPIs of AH and ESP, at the start of a lent buffer.
 * out: how many bytes it has; no others of the buffer change.
 * Answers 0, or 8192, as tallowbrim_choose does, 11.
 */
uint32_t tallowbrim_reply(
    const uint8_t *book, size_t book_length,
    const uint8_t *message, size_t message_length,
    uint32_t ah, uint32_t esp,
    uint8_t *buffer, size_t buffer_length,
    uint64_t out[1]);

/*
 * Why a transform does not suit a line, by places counted from 0: of a set of the offer, of a line of the book, of a proposal in the set
 * and of a transform in the proposal.
 * out: 1 there is no such place; 2 the set's protocols are not the line's; 3 and a cause:
 *   1 it suits
 *   2 its ID: found, wanted
 *   3 an attribute is missing: type
 *   4 an attribute has another value: type, found, wanted
 *   5 an attribute is not wanted: type, found
 *   6 its lifetime in seconds: found, longest
 *   7 its lifetime is no kilobyte
 * A set suits a line where each of its proposals has a transform that suits.
 * Answers 0, or as tallowbrim_choose does, but never 14.
 */
uint32_t tallowbrim_cause(
    const uint8_t *book, size_t book_length,
    const uint8_t *message, size_t message_length,
    uint8_t set, uint8_t line, uint8_t proposal, uint8_t transform,
    uint64_t out[5]);

/*
 * What stands at places of the offer, counted as in tallowbrim_cause.
 * out: 1 there is no such place; 2 and the set's number, the proposal's protocol, the transform's number.
 * Answers 0, or as tallowbrim_message does, and 16 where the message has no offer.
 */
uint32_t tallowbrim_place(
    const uint8_t *message, size_t length,
    uint8_t set, uint8_t proposal, uint8_t transform,
    uint64_t out[4]);

/*
 * Whether a gateway's reply is lawful beside the offer that it answers: it repeats one offered set, with one offered transform in each
 * proposal, unaltered and in the offer's order; with a book, it is also what that chooses of the offer. Offer and reply are messages, as
 * tallowbrim_message reads them. The book is looked at only where booked says that there is one: an empty book is one too, and unlawful.
 * Where there is none, lend any bytes or none; the pointer is not null even so.
 * Answers 0, lawful; or as tallowbrim_message does of the offer, and 16 where it has no SA payload; 8193; the same of the reply; 15 where
 * it does not repeat the offer so; 14 where the book chooses something else, or nothing.
 */
uint32_t tallowbrim_lawful(
    const uint8_t *offer, size_t offer_length,
    const uint8_t *reply, size_t reply_length,
    bool booked, const uint8_t *book, size_t book_length);

/*
 * What differs first, of the same offer, reply and book.
 * out: what it is, and then
 *   1 nothing: the reply is lawful
 *   2 the offer, 3 the book, 4 the reply cannot be read: the refusal
 *   5 the reply has several sets: how many
 *   6 its set's number is not offered: the number
 *   7 its set has other protocols than the offered one
 *   8 its set has them in another order
 *   9 a proposal has several transforms: protocol, how many
 *   10 a transform's number is not offered: protocol, the number
 *   11 a transform has another ID: protocol, its number, found, offered
 *   12 a transform has other attributes: protocol, its number
 *   13 the book chooses another set: found, chosen
 *   14 the book chooses another transform: protocol, found, chosen
 *   15 the book chooses nothing
 * A protocol is that of the proposal (2 AH, 3 ESP, 1 in main mode); sets and transforms are told by their numbers. tallowbrim_lawful
 * answers 15 where this is one of 5 to 12, and 14 where it is one of 13 to 15.
 * Answers 0, whatever it is.
 */
uint32_t tallowbrim_difference(
    const uint8_t *offer, size_t offer_length,
    const uint8_t *reply, size_t reply_length,
    bool booked, const uint8_t *book, size_t book_length,
    uint64_t out[5]);

/* ---- Quick mode ------------------------------------------------------------------------------------------------------------- */

/*
 * An end starts anew: its role, both cookies, its book, its own SPIs of AH and ESP, its nonce (8 to 256 bytes).
 * Lend it the same two kept buffers at each call from then on, as the last call left them.
 * Answers 0, or 4, 8193, 11, 16.
 */
uint32_t tallowbrim_fresh(
    tallowbrim_end *end, bool initiator,
    uint64_t initiator_cookie, uint64_t responder_cookie,
    const uint8_t *book, size_t book_length,
    uint32_t ah, uint32_t esp,
    const uint8_t *nonce, size_t nonce_length);

/*
 * The initiator begins, with a message ID and two identity bodies, both empty for none.
 * out: 1, and how many bytes at the start of the output are the message to send. Fill in the hash in that copy.
 * Answers 0, or 8192, 8196, 8195, 9, 18, 14.
 */
uint32_t tallowbrim_begin(
    tallowbrim_end *end, uint32_t id,
    const uint8_t *first, size_t first_length,
    const uint8_t *second, size_t second_length,
    uint8_t *sent, size_t sent_length,
    const uint8_t *got, size_t got_length,
    uint8_t *output, size_t output_length,
    uint64_t out[2]);

/*
 * A message arrives; the caller says whether its hash holds.
 * out: 1 and the size of the message to send, as in tallowbrim_begin; or 0, nothing to send.
 * Answers 0, or 8192, 23, 8196, as tallowbrim_message does, 8195, 14.
 */
uint32_t tallowbrim_deliver(
    tallowbrim_end *end, bool hash_holds,
    const uint8_t *message, size_t message_length,
    uint8_t *sent, size_t sent_length,
    uint8_t *got, size_t got_length,
    uint8_t *output, size_t output_length,
    uint64_t out[2]);

/*
 * Time has passed without an answer.
 * out: as in tallowbrim_deliver.
 * Answers 0, or 8192, 8196, 8195.
 */
uint32_t tallowbrim_tick(
    tallowbrim_end *end,
    const uint8_t *sent, size_t sent_length,
    const uint8_t *got, size_t got_length,
    uint8_t *output, size_t output_length,
    uint64_t out[2]);

/*
 * Where an end stands.
 * out: its state, 0 Idle, 1 Sent, 2 Half, 3 Open, 4 GivenUp; how often its message was sent; how many bytes at the start of its kept
 * buffers are the message that it sent, and the one that it got.
 * Answers 0.
 */
uint32_t tallowbrim_state(const tallowbrim_end *end, uint64_t out[4]);

/*
 * What the ends agreed on, once a message was got.
 * out: the set; how many transforms, 1 or 2, the first, the second; how many SPIs the initiator has, the first, the second; how many the
 * responder has, the first, the second. All in the order of the set's proposals.
 * Answers 0, or 8195.
 */
uint32_t tallowbrim_agreed(const tallowbrim_end *end, uint64_t out[10]);

/*
 * The nonce of the initiator's or of the responder's message, of which both are given, into the start of a lent buffer.
 * out: how many bytes it has, 0 where that message has none.
 * Answers 0.
 */
uint32_t tallowbrim_nonce(
    bool initiator,
    const uint8_t *initiators, size_t initiators_length,
    const uint8_t *responders, size_t responders_length,
    uint8_t nonce[256],
    uint64_t out[1]);

/* ---- Sequence numbers ------------------------------------------------------------------------------------------------------- */

/*
 * A packet's number arrives at a lent record; the caller says whether its integrity holds.
 * out: by how much the highest accepted number rose, 0 where it did not.
 * Answers 0, accepted, or 8197, 8194, 24.
 */
uint32_t tallowbrim_step(tallowbrim_receive *receive, uint32_t number, bool integrity, uint64_t out[1]);

/*
 * The loss line of a lent record.
 * out: the highest accepted number; how many of the last numbers are looked at; how many of those were accepted.
 * Answers 0.
 */
uint32_t tallowbrim_loss_line(const tallowbrim_receive *receive, uint64_t out[3]);

/*
 * A packet's number arrives at a lent plain list. The plain window is the engine to read and to compare with, not the fast one: it keeps
 * every accepted number, and each step looks through all of them.
 * From the beginning of a life up to 4,096 acceptances, verdicts, rises and loss lines are proved to be those of a receive record that gets
 * the same packets. From the first 8202 on the two part: the record then has a number that the list lacks.
 * out: as in tallowbrim_step.
 * Answers 0, accepted, or 8197, 8194, 24, and 8202 where it would be accepted but the list has 4,096 numbers already.
 */
uint32_t tallowbrim_plain_step(tallowbrim_plain_list *list, uint32_t number, bool integrity, uint64_t out[1]);

/*
 * The loss line of a lent plain list. A number that stands in it twice counts once.
 * out: as in tallowbrim_loss_line.
 * Answers 0.
 */
uint32_t tallowbrim_plain_loss_line(const tallowbrim_plain_list *list, uint64_t out[3]);

/* A life begins. Answers 0, or 10, 11, 8200, 8199. */
uint32_t tallowbrim_add(tallowbrim_table *table, uint32_t destination, uint8_t protocol, uint32_t spi);

/* A life ends. Answers 0, or 11. */
uint32_t tallowbrim_remove(tallowbrim_table *table, uint32_t destination, uint8_t protocol, uint32_t spi);

/*
 * An AH or ESP packet arrives; the caller says whether its integrity holds.
 * out: as in tallowbrim_step, of the packet's life.
 * Answers 0, accepted, or 10, 16, 11, 8197, 8194, 24.
 */
uint32_t tallowbrim_packet(
    tallowbrim_table *table, uint32_t destination, uint8_t protocol, bool integrity,
    const uint8_t *packet, size_t length,
    uint64_t out[1]);

/*
 * The next number for a packet that is sent.
 * out: the number.
 * Answers 0, or 11, 8198.
 */
uint32_t tallowbrim_send(tallowbrim_table *table, uint32_t destination, uint8_t protocol, uint32_t spi, uint64_t out[1]);

/*
 * The loss line of a life.
 * out: as in tallowbrim_loss_line.
 * Answers 0, or 11.
 */
uint32_t tallowbrim_loss(const tallowbrim_table *table, uint32_t destination, uint8_t protocol, uint32_t spi, uint64_t out[3]);

/* ---- Captures --------------------------------------------------------------------------------------------------------------- */

/*
 * The first 24 bytes of a capture file.
 * out: its byte order, 1 big-endian, 2 little-endian.
 * Answers 0, or 8201.
 */
uint32_t tallowbrim_file_header(const uint8_t *header, size_t length, uint64_t out[1]);

/*
 * What a file is whose header is refused.
 * out: 1 nothing is wrong; or the first that holds: 2 too short; 3 pcapng; 4 nanosecond stamps; 5 another version: major, minor;
 * 6 frames with check sequences; 7 another link type: its number, the low 16 bits of the word; 8 no capture.
 * Answers 0.
 */
uint32_t tallowbrim_header_cause(const uint8_t *header, size_t length, uint64_t out[3]);

/*
 * The 16 bytes in front of a record, in the file's byte order: 1 big-endian, anything else little-endian.
 * out: 1 and the stamp's seconds, its microseconds, how many bytes of the record follow, how many it had; or 2, the file ends inside it.
 * Answers 0, or 8201.
 */
uint32_t tallowbrim_record_header(uint64_t order, const uint8_t *header, size_t length, uint64_t out[5]);

/*
 * What a record carries that had `original` bytes, and where in it.
 * out: what it is; then, but for 1 and 2, source and destination address; then
 *   1 cut short
 *   2 not IPv4
 *   3 a fragment
 *   4 another protocol: its number
 *   5 other ports: source, destination
 *   6 a key exchange message, 7 a datagram of port 4500, 8 an AH packet, 9 an ESP packet: start, length
 * Answers 0.
 */
uint32_t tallowbrim_carried(uint32_t original, const uint8_t *record, size_t length, uint64_t out[5]);

/*
 * A record into a table: its packets are judged as by a receiver that takes every packet's integrity for good, and a life begins with
 * its first packet.
 * out: what it is; then, but for 1 and 2, source and destination address; then
 *   1 cut short
 *   2 not IPv4
 *   3 a fragment
 *   4 another protocol: its number
 *   5 other ports: source, destination
 *   6 a keepalive
 *   7 an enciphered message: exchange, message ID
 *   8 a message that reads: exchange, how many payloads
 *   9 a message or datagram that does not: the refusal
 *   10 a packet too short for an SPI and a number: protocol, the refusal
 *   11 a packet: protocol, SPI, number, the refusal or 0, and behind a 0 by how much the highest number rose
 * Answers 0, whatever it is.
 */
uint32_t tallowbrim_record(tallowbrim_table *table, uint32_t original, const uint8_t *record, size_t length, uint64_t out[8]);

#ifdef __cplusplus
}
#endif

#endif
