package tallowbrim;

/** 64 SA entries, by IPv4 destination, protocol (2 AH, 3 ESP) and SPI. For one thread at a time. */
public final class Table {
    private static final int WORDS = 384;

    private final long[] words;

    /** The empty table. */
    public Table() {
        this(new long[WORDS]);
    }

    /** A table as it was, by its {@link #words}. */
    public Table(long[] words) {
        this.words = Lent.record(words, WORDS).clone();
    }

    public long[] words() {
        return words.clone();
    }

    /** A life begins. */
    public void add(long destination, int protocol, long spi) throws Refusal {
        Lent.done(Native.add(words, Lent.number32(destination), Lent.number8(protocol), Lent.number32(spi)));
    }

    /** A life ends. */
    public void remove(long destination, int protocol, long spi) throws Refusal {
        Lent.done(Native.remove(words, Lent.number32(destination), Lent.number8(protocol), Lent.number32(spi)));
    }

    /**
     * An AH or ESP packet arrives, its integrity holding or not: accepted, where it is not refused. Gives what {@link Receive#step} does,
     * of the packet's life.
     */
    public long packet(long destination, int protocol, boolean integrity, byte[] packet) throws Refusal {
        long[] out = new long[1];
        Lent.done(Native.packet(words, Lent.number32(destination), Lent.number8(protocol), integrity, Lent.bytes(packet), out));
        return out[0];
    }

    /** The next number for a packet that is sent. */
    public long send(long destination, int protocol, long spi) throws Refusal {
        long[] out = new long[1];
        Lent.done(Native.send(words, Lent.number32(destination), Lent.number8(protocol), Lent.number32(spi), out));
        return out[0];
    }

    public LossLine loss(long destination, int protocol, long spi) throws Refusal {
        long[] out = new long[3];
        Lent.done(Native.loss(words, Lent.number32(destination), Lent.number8(protocol), Lent.number32(spi), out));
        return LossLine.of(out);
    }

    /**
     * A record of a capture that had {@code original} bytes. Its packets are judged as by a receiver that takes every packet's integrity
     * for good, and a life begins with its first packet.
     */
    public Listed record(long original, byte[] record) {
        long[] out = new long[8];
        Native.record(words, Lent.number32(original), Lent.bytes(record), out);
        Addresses addresses = new Addresses(out[1], out[2]);
        int first = (int) out[3];
        int second = (int) out[4];
        return switch ((int) out[0]) {
            case 1 -> new Listed.CutShort();
            case 2 -> new Listed.NotIpv4();
            case 3 -> new Listed.Fragment(addresses);
            case 4 -> new Listed.OtherProtocol(addresses, first);
            case 5 -> new Listed.OtherPorts(addresses, first, second);
            case 6 -> new Listed.Keepalive(addresses);
            case 7 -> new Listed.Enciphered(addresses, first, out[4]);
            case 8 -> new Listed.Read(addresses, new Message(first, second));
            case 9 -> new Listed.Refused(addresses, first);
            case 10 -> new Listed.ShortPacket(addresses, first, second);
            case 11 -> new Listed.Packet(addresses, first, out[4], out[5], verdict((int) out[6], out[7]));
            default -> throw Lent.unknown(out[0]);
        };
    }

    private static Verdict verdict(int refusal, long rise) {
        return refusal == 0 ? new Verdict.Accepted(rise) : new Verdict.Refused(refusal);
    }
}
