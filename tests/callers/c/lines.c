/* Answers the lines of ./bench (README.md, "Lines") through the library, from standard input to standard output.
   lines verdict BOOK MESSAGE: prints what ./verdict prints of these two files, the book in bytes.
   lines capture FILE..: prints of each file its name and what its header is, and then what ./capture prints of it. */
#include <inttypes.h>
#include <stdio.h>
#include <string.h>

#include "tallowbrim.h"

enum { LONGEST_LINE = 65535, MOST_WORDS = 8, MOST_LENT = 4096, LENT_AT_FIRST = 2048, LONGEST_NONCE = 256 };

struct word {
    const char *at;
    size_t length;
};

struct bytes {
    uint8_t at[LONGEST_LINE / 2 + 1];
    size_t length;
};

/* An end, its buffers, how much of each is lent to it, and the nonce that it was made with. */
struct seat {
    bool made;
    tallowbrim_end end;
    uint8_t sent[MOST_LENT], got[MOST_LENT], output[MOST_LENT];
    uint32_t sent_room, got_room, output_room;
    struct bytes nonce;
};

/* A byte more than the longest line has: one that is too long fills it. */
static char line[LONGEST_LINE + 1];
static struct word words[MOST_WORDS];
static struct bytes first, second, third;
static tallowbrim_table table;
static tallowbrim_receive lent;
static tallowbrim_plain_list plain;
static struct seat initiator_seat = {.sent_room = LENT_AT_FIRST, .got_room = LENT_AT_FIRST, .output_room = LENT_AT_FIRST};
static struct seat responder_seat = {.sent_room = LENT_AT_FIRST, .got_room = LENT_AT_FIRST, .output_room = LENT_AT_FIRST};

/* ---- What a word says. Each answers false where the word is none of its kind. */

static bool is(struct word word, const char *text)
{
    return word.length == strlen(text) && memcmp(word.at, text, word.length) == 0;
}

/* The value of a digit; 16 for any other character. */
static unsigned digit(char c)
{
    if ('0' <= c && c <= '9')
        return c - '0';
    if ('a' <= c && c <= 'f')
        return c - 'a' + 10;
    return 'A' <= c && c <= 'F' ? c - 'A' + 10 : 16;
}

static bool read_bytes(struct word word, struct bytes *to)
{
    to->length = 0;
    if (is(word, "-"))
        return true;
    if (word.length == 0 || word.length % 2 != 0)
        return false;
    for (size_t i = 0; i < word.length; i += 2) {
        unsigned high = digit(word.at[i]), low = digit(word.at[i + 1]);
        if (high > 15 || low > 15)
            return false;
        to->at[to->length++] = high << 4 | low;
    }
    return true;
}

static bool read_two(struct word one, struct word other)
{
    return read_bytes(one, &first) && read_bytes(other, &second);
}

/* A number in decimal. One of more than ten digits is above any that is lawful. */
static bool read_number(struct word word, uint32_t most, uint32_t *number)
{
    uint64_t value = 0;
    if (word.length == 0 || word.length > 10 || (word.length > 1 && word.at[0] == '0'))
        return false;
    for (size_t i = 0; i < word.length; i++) {
        if (digit(word.at[i]) > 9)
            return false;
        value = value * 10 + digit(word.at[i]);
    }
    *number = value;
    return value <= most;
}

/* A number of so many bytes in hex, no fewer and no more. */
static bool read_fixed(struct word word, size_t size, uint64_t *number)
{
    *number = 0;
    for (size_t i = 0; i < word.length; i++) {
        if (digit(word.at[i]) > 15)
            return false;
        *number = *number << 4 | digit(word.at[i]);
    }
    return word.length == 2 * size;
}

static bool read_yes(struct word word, bool *yes)
{
    *yes = is(word, "yes");
    return *yes || is(word, "no");
}

static bool read_role(struct word word, bool *initiator)
{
    *initiator = is(word, "i");
    return *initiator || is(word, "r");
}

/* ---- What is said. */

static void put(const char *text)
{
    fputs(text, stdout);
}

/* A text, a space and a number. */
static void put_number(const char *text, uint64_t number)
{
    printf("%s %" PRIu64, text, number);
}

/* A refusal, or a text and so many values behind it. */
static void put_answer(uint32_t refusal, const char *text, const uint64_t *values, size_t count)
{
    if (refusal != 0) {
        put_number("refused", refusal);
        return;
    }
    put(text);
    for (size_t i = 0; i < count; i++)
        put_number("", values[i]);
}

static void put_bytes(const uint8_t *bytes, size_t length)
{
    if (length == 0)
        putchar('-');
    for (size_t i = 0; i < length; i++) {
        putchar("0123456789abcdef"[bytes[i] >> 4]);
        putchar("0123456789abcdef"[bytes[i] & 15]);
    }
}

static void put_payloads(const uint8_t *message, size_t length, uint64_t count)
{
    uint64_t out[3];
    for (uint64_t place = 0; place < count; place++) {
        tallowbrim_payload(message, length, place, out);
        printf(" %" PRIu64 "@%" PRIu64 "+%" PRIu64, out[0], out[1], out[2]);
    }
}

/* ---- Reading and policy. What answers a verb is false where the line is bad, and says nothing then. */

static bool port(void)
{
    static const char *const kinds[] = {"", "keepalive", "key-exchange", "esp"};
    uint64_t out[3] = {0};
    if (!read_bytes(words[1], &first))
        return false;
    uint32_t refusal = tallowbrim_datagram(first.at, first.length, out);
    put_answer(refusal, kinds[out[0]], out + 1, out[0] == 1 ? 0 : out[0] == 2 ? 2 : 1);
    return true;
}

static bool der(void)
{
    if (!read_bytes(words[1], &first))
        return false;
    bool name = tallowbrim_name(first.at, first.length) == 0;
    bool element = tallowbrim_element(first.at, first.length) == 0;
    put(name ? "name" : element ? "element" : "none");
    return true;
}

static bool message(void)
{
    uint64_t out[2] = {0};
    if (!read_bytes(words[1], &first))
        return false;
    put_answer(tallowbrim_message(first.at, first.length, out), "read", out, 2);
    put_payloads(first.at, first.length, out[1]);
    return true;
}

static bool identity(void)
{
    uint32_t exchange;
    if (!read_number(words[1], 32, &exchange) || (exchange != 2 && exchange != 32) || !read_bytes(words[2], &first))
        return false;
    put_answer(tallowbrim_identity(exchange, first.at, first.length), "done", NULL, 0);
    return true;
}

static bool book(void)
{
    uint64_t out[2];
    if (!read_bytes(words[1], &first))
        return false;
    put_answer(tallowbrim_book(first.at, first.length, out), "book", out, 2);
    return true;
}

static bool choose(void)
{
    uint64_t out[5] = {0};
    if (!read_two(words[1], words[2]))
        return false;
    put_answer(tallowbrim_choose(first.at, first.length, second.at, second.length, out), "chosen", out, 2);
    for (uint64_t i = 0; i < out[2]; i++)
        put_number("", out[3 + i]);
    return true;
}

static bool reply(void)
{
    uint32_t ah, esp, room;
    uint64_t out[1];
    uint8_t buffer[MOST_LENT];
    if (!read_number(words[2], UINT32_MAX, &ah) || !read_number(words[3], UINT32_MAX, &esp) ||
        !read_number(words[4], MOST_LENT, &room) || !read_two(words[1], words[5]))
        return false;
    uint32_t refusal = tallowbrim_reply(first.at, first.length, second.at, second.length, ah, esp, buffer, room, out);
    put_answer(refusal, "reply ", NULL, 0);
    if (refusal == 0)
        put_bytes(buffer, out[0]);
    return true;
}

/* ---- Why, by places of the book and the message that were read. */

static bool place(unsigned set, unsigned proposal, unsigned transform, uint64_t out[4])
{
    return tallowbrim_place(second.at, second.length, set, proposal, transform, out) == 0 && out[0] == 2;
}

static uint32_t cause(unsigned set, unsigned of_book, unsigned proposal, unsigned transform, uint64_t out[5])
{
    return tallowbrim_cause(first.at, first.length, second.at, second.length, set, of_book, proposal, transform, out);
}

/* Whether each proposal of a set has a transform that suits. */
static bool suits(unsigned set, unsigned of_book)
{
    uint64_t at[4], why[5];
    bool all = true;
    for (unsigned proposal = 0; place(set, proposal, 0, at); proposal++) {
        bool some = false;
        for (unsigned transform = 0; place(set, proposal, transform, at); transform++) {
            cause(set, of_book, proposal, transform, why);
            some = some || (why[0] == 3 && why[1] == 1);
        }
        all = all && some;
    }
    return all;
}

static void put_transforms(unsigned set, unsigned of_book)
{
    static const char *const causes[] = {" none", " suits", " id", " missing", " value", " surplus", " seconds", " kilobytes"};
    uint64_t at[4], why[5];
    for (unsigned proposal = 0; place(set, proposal, 0, at); proposal++) {
        for (unsigned transform = 0; place(set, proposal, transform, at); transform++) {
            cause(set, of_book, proposal, transform, why);
            put_number(" protocol", at[2]);
            put_number(" transform", at[3]);
            put(causes[why[1]]);
            if (3 <= why[1] && why[1] <= 5)
                put_number("", why[2]);
        }
    }
}

static bool why(void)
{
    uint64_t read[2], lines[2], at[4], out[5];
    if (!read_two(words[1], words[2]))
        return false;
    uint32_t refusal = cause(0, 0, 0, 0, out);
    put_answer(refusal, "why", NULL, 0);
    if (refusal != 0)
        return true;
    tallowbrim_message(second.at, second.length, read);
    tallowbrim_book(first.at, first.length, lines);
    for (unsigned set = 0; place(set, 0, 0, at); set++) {
        for (unsigned of_book = 0; of_book < lines[read[0] == 2 ? 0 : 1]; of_book++) {
            cause(set, of_book, 0, 0, out);
            put_number(" set", at[1]);
            put_number(" line", of_book + 1);
            if (out[0] == 2)
                put(" protocols");
            else if (suits(set, of_book))
                put(" suits");
            else
                put_transforms(set, of_book);
        }
    }
    return true;
}

/* ---- Whether a reply is lawful, without a book and with one. */

/* The number that belongs to what differs. */
static uint64_t number_of(const uint64_t difference[5])
{
    if (difference[0] <= 4)
        return difference[0] == 1 ? 0 : difference[1];
    return difference[0] <= 12 ? 15 : 14;
}

/* Without a book that of a line before is lent, at which nothing may look. Both calls have to say the same. */
static bool lawful(bool booked)
{
    uint64_t out[5];
    if (!read_two(words[1], words[2]) || (booked && !read_bytes(words[3], &third)))
        return false;
    uint32_t refusal = tallowbrim_lawful(first.at, first.length, second.at, second.length, booked, third.at, third.length);
    tallowbrim_difference(first.at, first.length, second.at, second.length, booked, third.at, third.length, out);
    if (number_of(out) != refusal)
        put_number("two answers:", number_of(out));
    else
        put_answer(refusal, "lawful", NULL, 0);
    return true;
}

static bool lawful_alone(void)
{
    return lawful(false);
}

static bool lawful_by_book(void)
{
    return lawful(true);
}

/* ---- Sequence numbers. */

/* add, remove, send and loss, with DST PROTOCOL SPI. */
static bool life(void)
{
    uint64_t destination, spi, out[3];
    uint32_t protocol;
    if (!read_fixed(words[1], 4, &destination) || !read_number(words[2], UINT8_MAX, &protocol) || !read_fixed(words[3], 4, &spi))
        return false;
    if (is(words[0], "add"))
        put_answer(tallowbrim_add(&table, destination, protocol, spi), "done", NULL, 0);
    else if (is(words[0], "remove"))
        put_answer(tallowbrim_remove(&table, destination, protocol, spi), "done", NULL, 0);
    else if (is(words[0], "send"))
        put_answer(tallowbrim_send(&table, destination, protocol, spi, out), "number", out, 1);
    else
        put_answer(tallowbrim_loss(&table, destination, protocol, spi, out), "loss", out, 3);
    return true;
}

static bool packet(void)
{
    uint64_t destination, out[1];
    uint32_t protocol;
    bool integrity;
    if (!read_fixed(words[1], 4, &destination) || !read_number(words[2], UINT8_MAX, &protocol) ||
        !read_yes(words[3], &integrity) || !read_bytes(words[4], &first))
        return false;
    put_answer(tallowbrim_packet(&table, destination, protocol, integrity, first.at, first.length, out), "accepted", out, 1);
    return true;
}

/* lent and plain, with new or loss. */
static bool new_or_loss(void)
{
    bool of_plain = is(words[0], "plain");
    uint64_t out[3];
    if (is(words[1], "new")) {
        if (of_plain)
            memset(&plain, 0, sizeof plain);
        else
            memset(&lent, 0, sizeof lent);
        put("done");
        return true;
    }
    if (!is(words[1], "loss"))
        return false;
    put_answer(of_plain ? tallowbrim_plain_loss_line(&plain, out) : tallowbrim_loss_line(&lent, out), "loss", out, 3);
    return true;
}

/* lent and plain, with NUMBER yes|no. */
static bool step(void)
{
    uint32_t number;
    uint64_t out[1];
    bool integrity;
    if (!read_number(words[1], UINT32_MAX, &number) || !read_yes(words[2], &integrity))
        return false;
    uint32_t refusal = is(words[0], "plain") ? tallowbrim_plain_step(&plain, number, integrity, out)
                                             : tallowbrim_step(&lent, number, integrity, out);
    put_answer(refusal, "accepted", out, 1);
    return true;
}

/* ---- Captures. */

static void put_address(uint64_t address)
{
    for (int shift = 24; shift >= 0; shift -= 8)
        printf("%" PRIu64 "%s", address >> shift & 255, shift > 0 ? "." : "");
}

/* The payloads of the message that a record carries, which is the one that was read. */
static void put_carried_payloads(uint32_t original, uint64_t count)
{
    uint64_t carried[5], datagram[3];
    tallowbrim_carried(original, first.at, first.length, carried);
    uint64_t start = carried[3], length = carried[4];
    if (carried[0] == 7) {
        tallowbrim_datagram(first.at + start, length, datagram);
        start += datagram[1];
        length = datagram[2];
    }
    put_payloads(first.at + start, length, count);
}

/* What stands behind the addresses. */
static void put_listed(uint32_t original, const uint64_t out[8])
{
    const char *protocol = out[3] == 2 ? " AH" : " ESP";
    switch (out[0]) {
    case 3: put(" fragment"); break;
    case 4: put_number(" other protocol", out[3]); break;
    case 5: printf(" other ports %" PRIu64 " > %" PRIu64, out[3], out[4]); break;
    case 6: put(" keepalive"); break;
    case 7: printf(" enciphered exchange %" PRIu64 " id %08" PRIx64, out[3], out[4]); break;
    case 8:
        printf(" exchange %" PRIu64 " payloads %" PRIu64, out[3], out[4]);
        put_carried_payloads(original, out[4]);
        break;
    case 9: put_number(" refused", out[3]); break;
    case 10: printf("%s refused %" PRIu64, protocol, out[4]); break;
    default:
        printf("%s %08" PRIx64 " number %" PRIu64 " ", protocol, out[4], out[5]);
        put_answer(out[6], "accepted", out + 7, 1);
    }
}

/* What is listed of the record in `first`. */
static void put_frame(uint32_t original)
{
    uint64_t out[8];
    tallowbrim_record(&table, original, first.at, first.length, out);
    if (out[0] <= 2) {
        put(out[0] == 1 ? "cut short" : "not IPv4");
        return;
    }
    put_address(out[1]);
    put(" > ");
    put_address(out[2]);
    put_listed(original, out);
}

static bool frame(void)
{
    uint32_t original;
    if (!read_number(words[1], UINT32_MAX, &original) || !read_bytes(words[2], &first))
        return false;
    put_frame(original);
    return true;
}

/* ---- Quick mode. */

static bool fresh(void)
{
    bool initiator;
    uint64_t cookies[2];
    uint32_t ah, esp;
    if (!read_role(words[1], &initiator) || !read_fixed(words[2], 8, &cookies[0]) || !read_fixed(words[3], 8, &cookies[1]) ||
        !read_number(words[5], UINT32_MAX, &ah) || !read_number(words[6], UINT32_MAX, &esp) || !read_two(words[4], words[7]))
        return false;
    struct seat *seat = initiator ? &initiator_seat : &responder_seat;
    uint32_t refusal = tallowbrim_fresh(&seat->end, initiator, cookies[0], cookies[1], first.at, first.length, ah, esp,
        second.at, second.length);
    put_answer(refusal, "fresh", NULL, 0);
    if (refusal == 0) {
        seat->made = true;
        seat->nonce = second;
        memset(seat->sent, 0, sizeof seat->sent);
        memset(seat->got, 0, sizeof seat->got);
    }
    return true;
}

/* The seat of an end that was made; where it was not, says so. */
static struct seat *made(bool initiator)
{
    struct seat *seat = initiator ? &initiator_seat : &responder_seat;
    if (seat->made)
        return seat;
    put("none");
    return NULL;
}

static bool room(void)
{
    bool initiator;
    uint32_t sent, got, output;
    if (!read_role(words[1], &initiator) || !read_number(words[2], MOST_LENT, &sent) ||
        !read_number(words[3], MOST_LENT, &got) || !read_number(words[4], MOST_LENT, &output))
        return false;
    struct seat *seat = made(initiator);
    if (seat == NULL)
        return true;
    seat->sent_room = sent;
    seat->got_room = got;
    seat->output_room = output;
    put("room");
    return true;
}

static void put_step(const struct seat *seat, uint32_t refusal, const uint64_t out[2])
{
    bool sends = refusal == 0 && out[0] == 1;
    put_answer(refusal, sends ? "send " : "nothing", NULL, 0);
    if (sends)
        put_bytes(seat->output, out[1]);
}

static bool begin(void)
{
    uint32_t id;
    uint64_t out[2] = {0};
    if (!read_number(words[1], UINT32_MAX, &id) || !read_two(words[2], words[3]))
        return false;
    struct seat *seat = made(true);
    if (seat != NULL)
        put_step(seat, tallowbrim_begin(&seat->end, id, first.at, first.length, second.at, second.length,
            seat->sent, seat->sent_room, seat->got, seat->got_room, seat->output, seat->output_room, out), out);
    return true;
}

static bool deliver(void)
{
    bool initiator, hash_holds;
    uint64_t out[2] = {0};
    if (!read_role(words[1], &initiator) || !read_yes(words[2], &hash_holds) || !read_bytes(words[3], &first))
        return false;
    struct seat *seat = made(initiator);
    if (seat != NULL)
        put_step(seat, tallowbrim_deliver(&seat->end, hash_holds, first.at, first.length,
            seat->sent, seat->sent_room, seat->got, seat->got_room, seat->output, seat->output_room, out), out);
    return true;
}

static bool tick(void)
{
    bool initiator;
    uint64_t out[2] = {0};
    if (!read_role(words[1], &initiator))
        return false;
    struct seat *seat = made(initiator);
    if (seat != NULL)
        put_step(seat, tallowbrim_tick(&seat->end,
            seat->sent, seat->sent_room, seat->got, seat->got_room, seat->output, seat->output_room, out), out);
    return true;
}

static void put_spis(const char *text, const uint64_t *counted)
{
    put(text);
    for (uint64_t i = 1; i <= counted[0]; i++)
        printf(" %08" PRIx64, counted[i]);
}

/* The own nonce is the one that the end was made with, the other's stands in the message that it got. */
static void put_nonces(const struct seat *seat, bool initiator, size_t got)
{
    static struct bytes theirs;
    uint64_t out[1];
    tallowbrim_nonce(!initiator, seat->got, got, seat->got, got, theirs.at, out);
    theirs.length = out[0];
    const struct bytes *of_initiator = initiator ? &seat->nonce : &theirs, *of_responder = initiator ? &theirs : &seat->nonce;
    put(" initiator-nonce ");
    put_bytes(of_initiator->at, of_initiator->length);
    put(" responder-nonce ");
    put_bytes(of_responder->at, of_responder->length);
}

static bool state(void)
{
    static const char *const names[] = {"idle", "sent", "half", "open", "given-up"};
    bool initiator;
    uint64_t out[4], agreed[10];
    if (!read_role(words[1], &initiator))
        return false;
    const struct seat *seat = made(initiator);
    if (seat == NULL)
        return true;
    tallowbrim_state(&seat->end, out);
    put(names[out[0]]);
    put_number(" sends", out[1]);
    if (tallowbrim_agreed(&seat->end, agreed) != 0)
        return true;
    put_number(" set", agreed[0]);
    put_answer(0, " transforms", agreed + 2, agreed[1]);
    put_spis(" initiator-spis", agreed + 4);
    put_spis(" responder-spis", agreed + 7);
    put_nonces(seat, initiator, out[3]);
    return true;
}

static bool kept(void)
{
    bool initiator;
    if (!read_role(words[1], &initiator))
        return false;
    const struct seat *seat = made(initiator);
    if (seat == NULL)
        return true;
    put("kept ");
    put_bytes(seat->sent, seat->sent_room);
    put(" ");
    put_bytes(seat->got, seat->got_room);
    return true;
}

static bool nonce(void)
{
    bool initiator;
    uint8_t found[LONGEST_NONCE];
    uint64_t out[1];
    if (!read_role(words[1], &initiator) || !read_two(words[2], words[3]))
        return false;
    tallowbrim_nonce(initiator, first.at, first.length, second.at, second.length, found, out);
    put("nonce ");
    put_bytes(found, out[0]);
    return true;
}

/* ---- Lines. */

/* A verb, how many words its lines have, and what answers them. */
static const struct {
    const char *name;
    size_t words;
    bool (*answers)(void);
} verbs[] = {
    {"port", 2, port}, {"der", 2, der}, {"read", 2, message}, {"identity", 3, identity},
    {"book", 2, book}, {"choose", 3, choose}, {"reply", 6, reply}, {"why", 3, why},
    {"lawful", 3, lawful_alone}, {"lawful", 4, lawful_by_book},
    {"add", 4, life}, {"remove", 4, life}, {"send", 4, life}, {"loss", 4, life}, {"packet", 5, packet},
    {"lent", 2, new_or_loss}, {"lent", 3, step}, {"plain", 2, new_or_loss}, {"plain", 3, step}, {"frame", 3, frame},
    {"fresh", 8, fresh}, {"room", 5, room}, {"begin", 4, begin}, {"deliver", 4, deliver}, {"tick", 2, tick},
    {"state", 2, state}, {"kept", 2, kept}, {"nonce", 4, nonce},
};

/* Parts the line into words, and answers how many it has; no verb asks for more than are kept. */
static size_t part(size_t length)
{
    size_t count = 0, start = 0;
    for (size_t i = 0; i <= length; i++) {
        if (i < length && line[i] != ' ')
            continue;
        if (count < MOST_WORDS)
            words[count] = (struct word){line + start, i - start};
        count++;
        start = i + 1;
    }
    return count;
}

static bool answered(size_t length)
{
    if (length > LONGEST_LINE)
        return false;
    size_t count = part(length);
    for (size_t i = 0; i < sizeof verbs / sizeof verbs[0]; i++)
        if (count == verbs[i].words && is(words[0], verbs[i].name))
            return verbs[i].answers();
    return false;
}

static void answer(size_t length)
{
    if (length == 0 || line[0] == '#')
        return;
    if (!answered(length))
        put("bad line");
    putchar('\n');
}

static void answer_all(void)
{
    size_t length = 0;
    for (int c = getchar(); c != EOF; c = getchar()) {
        if (c == '\n') {
            answer(length);
            length = 0;
        } else if (length < sizeof line) {
            line[length++] = c;
        }
    }
    answer(length);
}

/* ---- Verdicts. */

static bool read_file(const char *path, struct bytes *to)
{
    FILE *file = fopen(path, "rb");
    if (file == NULL)
        return false;
    to->length = fread(to->at, 1, sizeof to->at, file);
    bool whole = !ferror(file);
    fclose(file);
    return whole;
}

/* Of a message that reads, 16 says that it has no offer: then nothing is chosen, and nothing said. */
static void put_choice(void)
{
    uint64_t out[5] = {0};
    uint32_t refusal = tallowbrim_choose(first.at, first.length, second.at, second.length, out);
    if (refusal == 16)
        return;
    if (refusal == 0)
        printf("chosen set %" PRIu64 " line %" PRIu64, out[0], out[1]);
    put_answer(refusal, " transforms", out + 3, out[2]);
    putchar('\n');
}

static void verdict(void)
{
    uint64_t read[2], out[3];
    uint32_t refusal = tallowbrim_book(first.at, first.length, read);
    if (refusal == 0)
        refusal = tallowbrim_message(second.at, second.length, read);
    if (refusal != 0) {
        printf("refused %" PRIu32 "\n", refusal);
        return;
    }
    printf("exchange %" PRIu64 " payloads %" PRIu64 "\n", read[0], read[1]);
    for (uint64_t i = 0; i < read[1]; i++) {
        tallowbrim_payload(second.at, second.length, i, out);
        printf("payload %" PRIu64 " at %" PRIu64 " length %" PRIu64 "\n", out[0], out[1], out[2]);
    }
    put_choice();
}

/* What the header of the file in `second` is. */
static void put_header_cause(void)
{
    static const char *const causes[] = {
        "", "nothing wrong", "too short", "pcapng", "nanoseconds", "version", "check sequences", "link type", "no capture"};
    uint64_t out[3];
    tallowbrim_header_cause(second.at, second.length, out);
    put_answer(0, causes[out[0]], out + 1, out[0] == 5 ? 2 : out[0] == 7 ? 1 : 0);
}

/* What ./capture prints of the file in `second`. */
static void capture(void)
{
    uint64_t order[1], header[5];
    memset(&table, 0, sizeof table);
    size_t at = 24;
    uint32_t refusal = tallowbrim_file_header(second.at, second.length, order);
    for (unsigned number = 1; refusal == 0 && at < second.length; number++) {
        refusal = tallowbrim_record_header(order[0], second.at + at, second.length - at, header);
        if (refusal != 0)
            break;
        printf("%u at %zu", number, at);
        if (header[0] == 1)
            printf(" %" PRIu64 ".%06" PRIu64, header[1], header[2]);
        at += 16;
        if (header[0] == 2 || second.length - at < header[3]) {
            put(" cut short\n");
            return;
        }
        first.length = header[3];
        memcpy(first.at, second.at + at, first.length);
        putchar(' ');
        put_frame(header[4]);
        putchar('\n');
        at += first.length;
    }
    if (refusal != 0) {
        put_number("refused", refusal);
        putchar('\n');
    }
}

int main(int count, char **arguments)
{
    if (count == 4 && strcmp(arguments[1], "verdict") == 0) {
        if (!read_file(arguments[2], &first) || !read_file(arguments[3], &second)) {
            fprintf(stderr, "lines: cannot read %s or %s\n", arguments[2], arguments[3]);
            return 1;
        }
        verdict();
    } else if (count >= 3 && strcmp(arguments[1], "capture") == 0) {
        for (int i = 2; i < count; i++) {
            if (!read_file(arguments[i], &second)) {
                fprintf(stderr, "lines: cannot read %s\n", arguments[i]);
                return 1;
            }
            printf("%s: ", arguments[i]);
            put_header_cause();
            putchar('\n');
            capture();
        }
    } else if (count == 1) {
        answer_all();
    } else {
        fputs("usage: lines [verdict BOOK MESSAGE | capture FILE..]\n", stderr);
        return 2;
    }
    return fflush(stdout) == 0 && !ferror(stdin) ? 0 : 1;
}
