/*
 * The native methods of tallowbrim.Native: each lends its arrays to the call of the same name and returns what that answers. Arrays are
 * taken and given back within the method, and nothing is kept. What is lent was checked in Java.
 */
#include "tallowbrim.h"
#include "tallowbrim_Native.h"

/* An array of Java's for the time of a call. */
typedef struct lent {
    jarray array;
    jint release; /* 0 where the call may change it, JNI_ABORT where it only reads it */
    size_t length;
    void *start;
} lent;

#define READ(array) {array, JNI_ABORT, 0, NULL}
#define CHANGED(array) {array, 0, 0, NULL}

static void give_back(JNIEnv *env, const lent *all, size_t count)
{
    while (count-- > 0)
        (*env)->ReleasePrimitiveArrayCritical(env, all[count].array, all[count].start, all[count].release);
}

static void throw_out_of_memory(JNIEnv *env)
{
    if ((*env)->ExceptionCheck(env))
        return;
    jclass error = (*env)->FindClass(env, "java/lang/OutOfMemoryError");
    if (error != NULL)
        (*env)->ThrowNew(env, error, "cannot lend an array");
}

/* The lengths come first: once an array is taken, JNI allows no call but taking and giving back. */
static bool take(JNIEnv *env, lent *all, size_t count)
{
    for (size_t i = 0; i < count; i++)
        all[i].length = (size_t)(*env)->GetArrayLength(env, all[i].array);
    for (size_t i = 0; i < count; i++) {
        all[i].start = (*env)->GetPrimitiveArrayCritical(env, all[i].array, NULL);
        if (all[i].start == NULL) {
            give_back(env, all, i);
            throw_out_of_memory(env);
            return false;
        }
    }
    return true;
}

static jint answered(JNIEnv *env, const lent *all, size_t count, uint32_t number)
{
    give_back(env, all, count);
    return (jint)number;
}

/* A native method says what it lends, in the order of the call, and calls: BYTES is a pointer and its length, WHOLE a pointer alone. */
#define NATIVE(name, ...) JNIEXPORT jint JNICALL Java_tallowbrim_Native_##name(JNIEnv *env, jclass type, __VA_ARGS__)
#define LEND(...)               \
    (void)type;                 \
    lent all[] = {__VA_ARGS__}; \
    const size_t count = sizeof all / sizeof *all
#define BYTES(place) all[place].start, all[place].length
#define WHOLE(place) all[place].start
#define CALL(call) (take(env, all, count) ? answered(env, all, count, call) : 0)

/* ---- Reading ---------------------------------------------------------------------------------------------------------------- */

NATIVE(datagram, jbyteArray datagram, jlongArray out)
{
    LEND(READ(datagram), CHANGED(out));
    return CALL(tallowbrim_datagram(BYTES(0), WHOLE(1)));
}

NATIVE(message, jbyteArray message, jlongArray out)
{
    LEND(READ(message), CHANGED(out));
    return CALL(tallowbrim_message(BYTES(0), WHOLE(1)));
}

NATIVE(payload, jbyteArray message, jint place, jlongArray out)
{
    LEND(READ(message), CHANGED(out));
    return CALL(tallowbrim_payload(BYTES(0), (uint8_t)place, WHOLE(1)));
}

NATIVE(identity, jint exchange, jbyteArray body)
{
    LEND(READ(body));
    return CALL(tallowbrim_identity((uint8_t)exchange, BYTES(0)));
}

NATIVE(name, jbyteArray bytes)
{
    LEND(READ(bytes));
    return CALL(tallowbrim_name(BYTES(0)));
}

NATIVE(element, jbyteArray bytes)
{
    LEND(READ(bytes));
    return CALL(tallowbrim_element(BYTES(0)));
}

/* ---- Policy ----------------------------------------------------------------------------------------------------------------- */

NATIVE(book, jbyteArray book, jlongArray out)
{
    LEND(READ(book), CHANGED(out));
    return CALL(tallowbrim_book(BYTES(0), WHOLE(1)));
}

NATIVE(choose, jbyteArray book, jbyteArray message, jlongArray out)
{
    LEND(READ(book), READ(message), CHANGED(out));
    return CALL(tallowbrim_choose(BYTES(0), BYTES(1), WHOLE(2)));
}

NATIVE(reply, jbyteArray book, jbyteArray message, jlong ah, jlong esp, jbyteArray buffer, jlongArray out)
{
    LEND(READ(book), READ(message), CHANGED(buffer), CHANGED(out));
    return CALL(tallowbrim_reply(BYTES(0), BYTES(1), (uint32_t)ah, (uint32_t)esp, BYTES(2), WHOLE(3)));
}

NATIVE(cause, jbyteArray book, jbyteArray message, jint set, jint line, jint proposal, jint transform, jlongArray out)
{
    LEND(READ(book), READ(message), CHANGED(out));
    return CALL(tallowbrim_cause(
        BYTES(0), BYTES(1), (uint8_t)set, (uint8_t)line, (uint8_t)proposal, (uint8_t)transform, WHOLE(2)));
}

NATIVE(place, jbyteArray message, jint set, jint proposal, jint transform, jlongArray out)
{
    LEND(READ(message), CHANGED(out));
    return CALL(tallowbrim_place(BYTES(0), (uint8_t)set, (uint8_t)proposal, (uint8_t)transform, WHOLE(1)));
}

NATIVE(lawful, jbyteArray offer, jbyteArray reply, jboolean booked, jbyteArray book)
{
    LEND(READ(offer), READ(reply), READ(book));
    return CALL(tallowbrim_lawful(BYTES(0), BYTES(1), booked, BYTES(2)));
}

NATIVE(difference, jbyteArray offer, jbyteArray reply, jboolean booked, jbyteArray book, jlongArray out)
{
    LEND(READ(offer), READ(reply), READ(book), CHANGED(out));
    return CALL(tallowbrim_difference(BYTES(0), BYTES(1), booked, BYTES(2), WHOLE(3)));
}

/* ---- Quick mode ------------------------------------------------------------------------------------------------------------- */

NATIVE(fresh, jbyteArray end, jboolean initiator, jlong initiator_cookie, jlong responder_cookie, jbyteArray book, jlong ah, jlong esp,
       jbyteArray nonce)
{
    LEND(CHANGED(end), READ(book), READ(nonce));
    return CALL(tallowbrim_fresh(
        WHOLE(0), initiator, (uint64_t)initiator_cookie, (uint64_t)responder_cookie, BYTES(1), (uint32_t)ah, (uint32_t)esp, BYTES(2)));
}

NATIVE(begin, jbyteArray end, jlong id, jbyteArray first, jbyteArray second, jbyteArray sent, jbyteArray got, jbyteArray output,
       jlongArray out)
{
    LEND(CHANGED(end), READ(first), READ(second), CHANGED(sent), READ(got), CHANGED(output), CHANGED(out));
    return CALL(tallowbrim_begin(WHOLE(0), (uint32_t)id, BYTES(1), BYTES(2), BYTES(3), BYTES(4), BYTES(5), WHOLE(6)));
}

NATIVE(deliver, jbyteArray end, jboolean hash_holds, jbyteArray message, jbyteArray sent, jbyteArray got, jbyteArray output,
       jlongArray out)
{
    LEND(CHANGED(end), READ(message), CHANGED(sent), CHANGED(got), CHANGED(output), CHANGED(out));
    return CALL(tallowbrim_deliver(WHOLE(0), hash_holds, BYTES(1), BYTES(2), BYTES(3), BYTES(4), WHOLE(5)));
}

NATIVE(tick, jbyteArray end, jbyteArray sent, jbyteArray got, jbyteArray output, jlongArray out)
{
    LEND(CHANGED(end), READ(sent), READ(got), CHANGED(output), CHANGED(out));
    return CALL(tallowbrim_tick(WHOLE(0), BYTES(1), BYTES(2), BYTES(3), WHOLE(4)));
}

NATIVE(state, jbyteArray end, jlongArray out)
{
    LEND(READ(end), CHANGED(out));
    return CALL(tallowbrim_state(WHOLE(0), WHOLE(1)));
}

NATIVE(agreed, jbyteArray end, jlongArray out)
{
    LEND(READ(end), CHANGED(out));
    return CALL(tallowbrim_agreed(WHOLE(0), WHOLE(1)));
}

NATIVE(nonce, jboolean initiator, jbyteArray initiators, jbyteArray responders, jbyteArray nonce, jlongArray out)
{
    LEND(READ(initiators), READ(responders), CHANGED(nonce), CHANGED(out));
    return CALL(tallowbrim_nonce(initiator, BYTES(0), BYTES(1), WHOLE(2), WHOLE(3)));
}

/* ---- Sequence numbers ------------------------------------------------------------------------------------------------------- */

NATIVE(step, jlongArray receive, jlong number, jboolean integrity, jlongArray out)
{
    LEND(CHANGED(receive), CHANGED(out));
    return CALL(tallowbrim_step(WHOLE(0), (uint32_t)number, integrity, WHOLE(1)));
}

NATIVE(lossLine, jlongArray receive, jlongArray out)
{
    LEND(READ(receive), CHANGED(out));
    return CALL(tallowbrim_loss_line(WHOLE(0), WHOLE(1)));
}

NATIVE(plainStep, jlongArray list, jlong number, jboolean integrity, jlongArray out)
{
    LEND(CHANGED(list), CHANGED(out));
    return CALL(tallowbrim_plain_step(WHOLE(0), (uint32_t)number, integrity, WHOLE(1)));
}

NATIVE(plainLossLine, jlongArray list, jlongArray out)
{
    LEND(READ(list), CHANGED(out));
    return CALL(tallowbrim_plain_loss_line(WHOLE(0), WHOLE(1)));
}

NATIVE(add, jlongArray table, jlong destination, jint protocol, jlong spi)
{
    LEND(CHANGED(table));
    return CALL(tallowbrim_add(WHOLE(0), (uint32_t)destination, (uint8_t)protocol, (uint32_t)spi));
}

NATIVE(remove, jlongArray table, jlong destination, jint protocol, jlong spi)
{
    LEND(CHANGED(table));
    return CALL(tallowbrim_remove(WHOLE(0), (uint32_t)destination, (uint8_t)protocol, (uint32_t)spi));
}

NATIVE(packet, jlongArray table, jlong destination, jint protocol, jboolean integrity, jbyteArray packet, jlongArray out)
{
    LEND(CHANGED(table), READ(packet), CHANGED(out));
    return CALL(tallowbrim_packet(WHOLE(0), (uint32_t)destination, (uint8_t)protocol, integrity, BYTES(1), WHOLE(2)));
}

NATIVE(send, jlongArray table, jlong destination, jint protocol, jlong spi, jlongArray out)
{
    LEND(CHANGED(table), CHANGED(out));
    return CALL(tallowbrim_send(WHOLE(0), (uint32_t)destination, (uint8_t)protocol, (uint32_t)spi, WHOLE(1)));
}

NATIVE(loss, jlongArray table, jlong destination, jint protocol, jlong spi, jlongArray out)
{
    LEND(READ(table), CHANGED(out));
    return CALL(tallowbrim_loss(WHOLE(0), (uint32_t)destination, (uint8_t)protocol, (uint32_t)spi, WHOLE(1)));
}

/* ---- Captures --------------------------------------------------------------------------------------------------------------- */

NATIVE(fileHeader, jbyteArray header, jlongArray out)
{
    LEND(READ(header), CHANGED(out));
    return CALL(tallowbrim_file_header(BYTES(0), WHOLE(1)));
}

NATIVE(headerCause, jbyteArray header, jlongArray out)
{
    LEND(READ(header), CHANGED(out));
    return CALL(tallowbrim_header_cause(BYTES(0), WHOLE(1)));
}

NATIVE(recordHeader, jlong order, jbyteArray header, jlongArray out)
{
    LEND(READ(header), CHANGED(out));
    return CALL(tallowbrim_record_header((uint64_t)order, BYTES(0), WHOLE(1)));
}

NATIVE(carried, jlong original, jbyteArray record, jlongArray out)
{
    LEND(READ(record), CHANGED(out));
    return CALL(tallowbrim_carried((uint32_t)original, BYTES(0), WHOLE(1)));
}

NATIVE(record, jlongArray table, jlong original, jbyteArray record, jlongArray out)
{
    LEND(CHANGED(table), READ(record), CHANGED(out));
    return CALL(tallowbrim_record(WHOLE(0), (uint32_t)original, BYTES(1), WHOLE(2)));
}
