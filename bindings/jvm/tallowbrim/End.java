package tallowbrim;

import java.util.Arrays;
import java.util.List;
import java.util.Optional;
import java.util.stream.LongStream;

/** One end of quick mode, with its two kept buffers and its output. For one thread at a time. */
public final class End {
    /** The least size of the buffers; a step with a smaller one is refused. */
    public static final int BUFFER = 2048;

    private static final int RECORD = 398;

    private static final byte[] NONE = {};

    private final byte[] record;
    private final byte[] sent;
    private final byte[] got;
    private final byte[] output;

    /** An end as it stood, by its {@link #record} and its kept buffers. It works in these three arrays from now on, not in copies. */
    public End(byte[] record, byte[] sent, byte[] got, byte[] output) {
        this.record = Lent.record(record, RECORD).clone();
        this.sent = Lent.bytes(sent);
        this.got = Lent.bytes(got);
        this.output = Lent.bytes(output);
        Lent.apart(sent, got, output);
        Lent.apart(got, output);
    }

    /** An end that starts anew: its role, both cookies (64 bits each), its book, its own SPIs of AH and ESP, its nonce (8 to 256 bytes). */
    public static End fresh(Role role, long initiatorCookie, long responderCookie, byte[] book, long ah, long esp, byte[] nonce)
            throws Refusal {
        byte[] record = new byte[RECORD];
        Lent.done(Native.fresh(
            record, initiator(role), initiatorCookie, responderCookie,
            Lent.bytes(book), Lent.number32(ah), Lent.number32(esp), Lent.bytes(nonce)));
        return new End(record, new byte[BUFFER], new byte[BUFFER], new byte[BUFFER]);
    }

    public byte[] record() {
        return record.clone();
    }

    /** The initiator begins without identities: the message to send, in which the caller fills in the hash. */
    public byte[] begin(long id) throws Refusal {
        return begin(id, NONE, NONE);
    }

    /** The initiator begins, with a message ID and two identity bodies. */
    public byte[] begin(long id, byte[] first, byte[] second) throws Refusal {
        Lent.apart(sent, first, second);
        Lent.apart(output, first, second);
        long[] out = new long[2];
        Lent.done(Native.begin(record, Lent.number32(id), Lent.bytes(first), Lent.bytes(second), sent, got, output, out));
        return front(output, out[1]);
    }

    /** A message arrives, its hash holding or not: the message to send, if there is one. */
    public Optional<byte[]> deliver(boolean hashHolds, byte[] message) throws Refusal {
        Lent.apart(Lent.bytes(message), sent, got, output);
        long[] out = new long[2];
        Lent.done(Native.deliver(record, hashHolds, message, sent, got, output, out));
        return toSend(out);
    }

    /** Time has passed without an answer: the message to send, if there is one. */
    public Optional<byte[]> tick() throws Refusal {
        long[] out = new long[2];
        Lent.done(Native.tick(record, sent, got, output, out));
        return toSend(out);
    }

    public Standing standing() {
        long[] out = new long[4];
        Native.state(record, out);
        return new Standing(Standing.State.values()[(int) out[0]], (int) out[1], (int) out[2], (int) out[3]);
    }

    /** The message that it sent; empty where there is none. */
    public byte[] sent() {
        return front(sent, standing().sent());
    }

    /** The message that it got; empty where there is none. */
    public byte[] got() {
        return front(got, standing().got());
    }

    /** What the ends agreed on, once a message was got. */
    public Agreed agreed() throws Refusal {
        long[] out = new long[10];
        Lent.done(Native.agreed(record, out));
        List<Integer> transforms = counted(out, 1).mapToObj(number -> (int) number).toList();
        return new Agreed((int) out[0], transforms, counted(out, 4).boxed().toList(), counted(out, 7).boxed().toList());
    }

    static boolean initiator(Role role) {
        return switch (role) {
            case INITIATOR -> true;
            case RESPONDER -> false;
        };
    }

    private Optional<byte[]> toSend(long[] out) {
        return out[0] == 0 ? Optional.empty() : Optional.of(front(output, out[1]));
    }

    /** As many bytes from the start on; fewer where a lent buffer is shorter than what was kept in another. */
    private static byte[] front(byte[] buffer, long size) {
        return Arrays.copyOf(buffer, (int) Math.min(size, buffer.length));
    }

    /** The words behind a count of them. */
    private static LongStream counted(long[] out, int at) {
        return Arrays.stream(out, at + 1, at + 1 + (int) out[at]);
    }
}
