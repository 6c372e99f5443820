/* A program in C over the library. Given the folder samples/, it judges the message of four sets by its book, as ./verdict does, and then
   plays an exchange of quick mode between two ends, of which the first message is lost. */
#include <inttypes.h>
#include <stdio.h>
#include <stdlib.h>

#include "tallowbrim.h"

/* The bytes of a file: a book or a message. No message has more. */
struct file {
    uint8_t bytes[8192];
    size_t length;
};

/* An end with its two kept buffers, and its output, of which so many bytes are to be sent. */
struct end {
    tallowbrim_end record;
    uint8_t sent[TALLOWBRIM_BUFFER];
    uint8_t got[TALLOWBRIM_BUFFER];
    uint8_t output[TALLOWBRIM_BUFFER];
    size_t to_send;
};

static struct file read_file(const char *folder, const char *name)
{
    char path[4096];
    struct file file;
    snprintf(path, sizeof path, "%s/%s", folder, name);
    FILE *from = fopen(path, "rb");
    if (from == NULL) {
        fprintf(stderr, "example: cannot read %s\n", path);
        exit(1);
    }
    file.length = fread(file.bytes, 1, sizeof file.bytes, from);
    fclose(from);
    return file;
}

/* Ends the program where a call is refused. */
static void expect_done(uint32_t refusal)
{
    if (refusal != 0) {
        printf("refused %" PRIu32 "\n", refusal);
        exit(1);
    }
}

static void judge(const struct file *book, const struct file *message)
{
    uint64_t read[2], payload[3], chosen[5];
    expect_done(tallowbrim_message(message->bytes, message->length, read));
    printf("exchange %" PRIu64 " payloads %" PRIu64 "\n", read[0], read[1]);
    for (uint8_t place = 0; place < read[1]; place++) {
        expect_done(tallowbrim_payload(message->bytes, message->length, place, payload));
        printf("payload %" PRIu64 " at %" PRIu64 " length %" PRIu64 "\n", payload[0], payload[1], payload[2]);
    }
    expect_done(tallowbrim_choose(book->bytes, book->length, message->bytes, message->length, chosen));
    printf("chosen set %" PRIu64 " line %" PRIu64 " transforms", chosen[0], chosen[1]);
    for (uint64_t i = 0; i < chosen[2]; i++)
        printf(" %" PRIu64, chosen[3 + i]);
    printf("\n");
}

static struct end fresh(bool initiator, uint32_t ah, uint32_t esp, const uint8_t *nonce, size_t length)
{
    /* No main lines; one quick line: AH with ESP, tunnel, to 3,600 seconds. */
    static const uint8_t book[] = {0, 1, 2, 1, 0, 0, 0x0e, 0x10};
    struct end end = {.to_send = 0};
    expect_done(tallowbrim_fresh(
        &end.record, initiator, 0x1122334455667788, 0x99aabbccddeeff00, book, sizeof book, ah, esp, nonce, length));
    return end;
}

static void begin(struct end *end, uint32_t id)
{
    static const uint8_t no_identity[1];
    uint64_t out[2];
    expect_done(tallowbrim_begin(&end->record, id, no_identity, 0, no_identity, 0, end->sent, sizeof end->sent,
        end->got, sizeof end->got, end->output, sizeof end->output, out));
    end->to_send = out[1];
}

static void tick(struct end *end)
{
    uint64_t out[2];
    expect_done(tallowbrim_tick(&end->record, end->sent, sizeof end->sent, end->got, sizeof end->got,
        end->output, sizeof end->output, out));
    end->to_send = out[1];
}

/* A program fills in the hash of what it sends and checks that of what arrives: here every hash is said to hold. */
static void deliver(const struct end *from, struct end *to)
{
    uint64_t out[2];
    expect_done(tallowbrim_deliver(&to->record, true, from->output, from->to_send, to->sent, sizeof to->sent,
        to->got, sizeof to->got, to->output, sizeof to->output, out));
    to->to_send = out[1];
}

static const char *state(const struct end *end)
{
    static const char *const names[] = {"Idle", "Sent", "Half", "Open", "GivenUp"};
    uint64_t out[4];
    expect_done(tallowbrim_state(&end->record, out));
    return names[out[0]];
}

static void tell(const char *step, size_t sent, const struct end *initiator, const struct end *responder)
{
    printf("%s: %zu bytes; initiator %s, responder %s\n", step, sent, state(initiator), state(responder));
}

static void tell_agreed(const struct end *end)
{
    uint64_t out[10];
    expect_done(tallowbrim_agreed(&end->record, out));
    printf("agreed set %" PRIu64 " transforms", out[0]);
    for (uint64_t i = 0; i < out[1]; i++)
        printf(" %" PRIu64, out[2 + i]);
    printf(" initiator's SPIs");
    for (uint64_t i = 0; i < out[4]; i++)
        printf(" %08" PRIx64, out[5 + i]);
    printf(" responder's SPIs");
    for (uint64_t i = 0; i < out[7]; i++)
        printf(" %08" PRIx64, out[8 + i]);
    printf("\n");
}

static void exchange(void)
{
    static const uint8_t nonces[2][8] = {{1, 2, 3, 4, 5, 6, 7, 8}, {11, 12, 13, 14, 15, 16, 17, 18}};
    struct end initiator = fresh(true, 0x1001, 0x1002, nonces[0], sizeof nonces[0]);
    struct end responder = fresh(false, 0x2001, 0x2002, nonces[1], sizeof nonces[1]);
    begin(&initiator, 7);
    tell("initiator begins, message 1 is lost", initiator.to_send, &initiator, &responder);
    tick(&initiator);
    tell("initiator ticks, sends message 1 again", initiator.to_send, &initiator, &responder);
    deliver(&initiator, &responder);
    tell("responder gets message 1, sends message 2", responder.to_send, &initiator, &responder);
    deliver(&responder, &initiator);
    tell("initiator gets message 2, sends message 3", initiator.to_send, &initiator, &responder);
    deliver(&initiator, &responder);
    tell("responder gets message 3, sends nothing", responder.to_send, &initiator, &responder);
    tell_agreed(&initiator);
    tell_agreed(&responder);
}

int main(int count, char **arguments)
{
    if (count != 2) {
        fputs("usage: example SAMPLES\n", stderr);
        return 2;
    }
    struct file book = read_file(arguments[1], "four-sets.book");
    struct file message = read_file(arguments[1], "four-sets.message");
    judge(&book, &message);
    exchange();
    return 0;
}
