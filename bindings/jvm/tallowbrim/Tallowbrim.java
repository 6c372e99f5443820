package tallowbrim;

import java.nio.ByteOrder;
import java.util.ArrayList;
import java.util.Arrays;
import java.util.List;
import java.util.Objects;
import java.util.Optional;

/**
 * The calls that keep nothing: reading, policy and captures. {@link End}, {@link Receive}, {@link PlainList} and {@link Table} have the
 * others.
 */
public final class Tallowbrim {
    private static final int LONGEST_NONCE = 256;

    /** What is lent for a book where there is none; it is not looked at. */
    private static final byte[] NO_BOOK = {};

    private Tallowbrim() {}

    /** What a datagram of port 4500 is. */
    public static Datagram datagram(byte[] datagram) throws Refusal {
        long[] out = new long[3];
        Lent.done(Native.datagram(Lent.bytes(datagram), out));
        return switch ((int) out[0]) {
            case 1 -> new Datagram.Keepalive();
            case 2 -> new Datagram.KeyExchange((int) out[1], (int) out[2]);
            case 3 -> new Datagram.Esp((int) out[1]);
            default -> throw Lent.unknown(out[0]);
        };
    }

    /** Reads a key exchange message, from its header on and deciphered. */
    public static Message message(byte[] message) throws Refusal {
        long[] out = new long[2];
        Lent.done(Native.message(Lent.bytes(message), out));
        return new Message((int) out[0], (int) out[1]);
    }

    /** A payload of a message, the first being 0. */
    public static Payload payload(byte[] message, int place) throws Refusal {
        long[] out = new long[3];
        Lent.done(Native.payload(Lent.bytes(message), Lent.number8(place), out));
        return new Payload((int) out[0], (int) out[1], (int) out[2]);
    }

    /** All payloads of a message in their order. */
    public static List<Payload> payloads(byte[] message) throws Refusal {
        int count = message(message).payloads();
        List<Payload> payloads = new ArrayList<>(count);
        for (int place = 0; place < count; place++) {
            payloads.add(payload(message, place));
        }
        return List.copyOf(payloads);
    }

    /** Refuses the body of an identification payload that is not lawful in exchange 2 or 32. */
    public static void identity(int exchange, byte[] body) throws Refusal {
        Lent.done(Native.identity(Lent.number8(exchange), Lent.bytes(body)));
    }

    /** Whether bytes are one DER name: exactly one element, with tag 0x30. */
    public static boolean isName(byte[] bytes) {
        return Native.name(Lent.bytes(bytes)) == 0;
    }

    /** Whether bytes are exactly one DER element. */
    public static boolean isElement(byte[] bytes) {
        return Native.element(Lent.bytes(bytes)) == 0;
    }

    /** Reads a policy book. */
    public static Book book(byte[] book) throws Refusal {
        long[] out = new long[2];
        Lent.done(Native.book(Lent.bytes(book), out));
        return new Book((int) out[0], (int) out[1]);
    }

    /** What a book chooses of a message. */
    public static Choice choose(byte[] book, byte[] message) throws Refusal {
        long[] out = new long[5];
        Lent.done(Native.choose(Lent.bytes(book), Lent.bytes(message), out));
        List<Integer> transforms = Arrays.stream(out, 3, 3 + (int) out[2]).mapToObj(number -> (int) number).toList();
        return new Choice((int) out[0], (int) out[1], transforms);
    }

    /** Chooses, and gives the reply, an SA payload with the own SPIs of AH and ESP. */
    public static byte[] reply(byte[] book, byte[] message, long ah, long esp) throws Refusal {
        byte[] buffer = new byte[End.BUFFER];
        return Arrays.copyOf(buffer, reply(book, message, ah, esp, buffer));
    }

    /** The same at the start of a lent buffer: how many bytes it has. */
    public static int reply(byte[] book, byte[] message, long ah, long esp, byte[] buffer) throws Refusal {
        Lent.apart(Lent.bytes(buffer), book, message);
        long[] out = new long[1];
        Lent.done(Native.reply(Lent.bytes(book), Lent.bytes(message), Lent.number32(ah), Lent.number32(esp), buffer, out));
        return (int) out[0];
    }

    /**
     * Why a transform does not suit a line, by places counted from 0: of a set of the offer, of a line of the book, of a proposal in
     * the set and of a transform in the proposal. A set suits a line where each of its proposals has a transform that suits.
     */
    public static Why cause(byte[] book, byte[] message, int set, int line, int proposal, int transform) throws Refusal {
        long[] out = new long[5];
        Lent.done(Native.cause(
            Lent.bytes(book), Lent.bytes(message),
            Lent.number8(set), Lent.number8(line), Lent.number8(proposal), Lent.number8(transform),
            out));
        return switch ((int) out[0]) {
            case 1 -> new Why.NoPlace();
            case 2 -> new Why.Protocols();
            case 3 -> transformCause(out);
            default -> throw Lent.unknown(out[0]);
        };
    }

    private static Why transformCause(long[] out) {
        return switch ((int) out[1]) {
            case 1 -> new Why.Suits();
            case 2 -> new Why.Id(out[2], out[3]);
            case 3 -> new Why.Missing((int) out[2]);
            case 4 -> new Why.Value((int) out[2], out[3], out[4]);
            case 5 -> new Why.Surplus((int) out[2], out[3]);
            case 6 -> new Why.Seconds(out[2], out[3]);
            case 7 -> new Why.Kilobytes();
            default -> throw Lent.unknown(out[1]);
        };
    }

    /** What stands at places of the offer, counted as in {@link #cause}; empty where there is no such place. */
    public static Optional<Place> place(byte[] message, int set, int proposal, int transform) throws Refusal {
        long[] out = new long[4];
        Lent.done(Native.place(Lent.bytes(message), Lent.number8(set), Lent.number8(proposal), Lent.number8(transform), out));
        return out[0] == 1 ? Optional.empty() : Optional.of(new Place((int) out[1], (int) out[2], (int) out[3]));
    }

    /**
     * Refuses a gateway's reply that is not lawful beside the offer that it answers: lawful is what repeats one offered set, with one
     * offered transform in each proposal, unaltered and in the offer's order.
     */
    public static void lawful(byte[] offer, byte[] reply) throws Refusal {
        Lent.done(Native.lawful(Lent.bytes(offer), Lent.bytes(reply), false, NO_BOOK));
    }

    /** The same with a book: lawful is then only what the book chooses of the offer. */
    public static void lawful(byte[] offer, byte[] reply, byte[] book) throws Refusal {
        Lent.done(Native.lawful(Lent.bytes(offer), Lent.bytes(reply), true, Lent.bytes(book)));
    }

    /** What differs first of a reply; it is lawful where nothing does. */
    public static Difference difference(byte[] offer, byte[] reply) {
        return difference(offer, reply, false, NO_BOOK);
    }

    /** The same with a book. */
    public static Difference difference(byte[] offer, byte[] reply, byte[] book) {
        return difference(offer, reply, true, book);
    }

    private static Difference difference(byte[] offer, byte[] reply, boolean booked, byte[] book) {
        long[] out = new long[5];
        Native.difference(Lent.bytes(offer), Lent.bytes(reply), booked, Lent.bytes(book), out);
        int first = (int) out[1];
        int second = (int) out[2];
        int third = (int) out[3];
        return switch ((int) out[0]) {
            case 1 -> new Difference.Nothing();
            case 2 -> new Difference.OfferRefused(first);
            case 3 -> new Difference.BookRefused(first);
            case 4 -> new Difference.ReplyRefused(first);
            case 5 -> new Difference.SeveralSets(first);
            case 6 -> new Difference.SetNotOffered(first);
            case 7 -> new Difference.Protocols();
            case 8 -> new Difference.Order();
            case 9 -> new Difference.SeveralTransforms(first, second);
            case 10 -> new Difference.TransformNotOffered(first, second);
            case 11 -> new Difference.Id(first, second, third, (int) out[4]);
            case 12 -> new Difference.Attributes(first, second);
            case 13 -> new Difference.OtherSet(first, second);
            case 14 -> new Difference.OtherTransform(first, second, third);
            case 15 -> new Difference.NothingChosen();
            default -> throw Lent.unknown(out[0]);
        };
    }

    /** The nonce of the initiator's or of the responder's message, of which both are given; empty where that message has none. */
    public static byte[] nonce(Role role, byte[] initiators, byte[] responders) {
        byte[] nonce = new byte[LONGEST_NONCE];
        long[] out = new long[1];
        Native.nonce(End.initiator(role), Lent.bytes(initiators), Lent.bytes(responders), nonce, out);
        return Arrays.copyOf(nonce, (int) out[0]);
    }

    /** The byte order of a capture file, by its first 24 bytes. */
    public static ByteOrder fileHeader(byte[] header) throws Refusal {
        long[] out = new long[1];
        Lent.done(Native.fileHeader(Lent.bytes(header), out));
        return out[0] == 1 ? ByteOrder.BIG_ENDIAN : ByteOrder.LITTLE_ENDIAN;
    }

    /** What a file is whose header is refused. */
    public static HeaderCause headerCause(byte[] header) {
        long[] out = new long[3];
        Native.headerCause(Lent.bytes(header), out);
        return switch ((int) out[0]) {
            case 1 -> new HeaderCause.NothingWrong();
            case 2 -> new HeaderCause.TooShort();
            case 3 -> new HeaderCause.Pcapng();
            case 4 -> new HeaderCause.Nanoseconds();
            case 5 -> new HeaderCause.OtherVersion((int) out[1], (int) out[2]);
            case 6 -> new HeaderCause.CheckSequences();
            case 7 -> new HeaderCause.OtherLinkType(out[1]);
            case 8 -> new HeaderCause.NoCapture();
            default -> throw Lent.unknown(out[0]);
        };
    }

    /** The 16 bytes in front of a record, in the file's byte order; empty where the file ends inside it. */
    public static Optional<RecordHeader> recordHeader(ByteOrder order, byte[] header) throws Refusal {
        long big = Objects.requireNonNull(order) == ByteOrder.BIG_ENDIAN ? 1 : 2;
        long[] out = new long[5];
        Lent.done(Native.recordHeader(big, Lent.bytes(header), out));
        return out[0] == 2 ? Optional.empty() : Optional.of(new RecordHeader(out[1], out[2], (int) out[3], out[4]));
    }

    /** What a record of a capture carries that had {@code original} bytes, and where in it. */
    public static Carried carried(long original, byte[] record) {
        long[] out = new long[5];
        Native.carried(Lent.number32(original), Lent.bytes(record), out);
        Addresses addresses = new Addresses(out[1], out[2]);
        int first = (int) out[3];
        int second = (int) out[4];
        return switch ((int) out[0]) {
            case 1 -> new Carried.CutShort();
            case 2 -> new Carried.NotIpv4();
            case 3 -> new Carried.Fragment(addresses);
            case 4 -> new Carried.OtherProtocol(addresses, first);
            case 5 -> new Carried.OtherPorts(addresses, first, second);
            case 6 -> new Carried.KeyExchange(addresses, first, second);
            case 7 -> new Carried.Port4500(addresses, first, second);
            case 8 -> new Carried.Ah(addresses, first, second);
            case 9 -> new Carried.Esp(addresses, first, second);
            default -> throw Lent.unknown(out[0]);
        };
    }
}
