package tallowbrim;

/**
 * The plain window, which keeps the accepted numbers of one life of an SA as a plain list, of up to 4,096: the engine to read and to compare
 * with, not the fast one, since each step looks through the whole list. From a life's beginning until it refuses a packet with 8202 it gives
 * what a {@link Receive} gives of the same packets; from then on the two part, since the list lacks a number that the other has. For one
 * thread at a time.
 */
public final class PlainList {
    private static final int WORDS = 4097;

    private final long[] words;

    /** A life that begins. */
    public PlainList() {
        this(new long[WORDS]);
    }

    /** A life as it was, by its {@link #words}. */
    public PlainList(long[] words) {
        this.words = Lent.record(words, WORDS).clone();
    }

    /** How many numbers the list has, then the numbers in the order of their acceptance, then what is not looked at. */
    public long[] words() {
        return words.clone();
    }

    /** As {@link Receive#step}; and refused with 8202 where it would be accepted but the list is full. */
    public long step(long number, boolean integrity) throws Refusal {
        long[] out = new long[1];
        Lent.done(Native.plainStep(words, Lent.number32(number), integrity, out));
        return out[0];
    }

    public LossLine lossLine() {
        long[] out = new long[3];
        Native.plainLossLine(words, out);
        return LossLine.of(out);
    }
}
