package tallowbrim;

/** What arrived of one life of an SA. For one thread at a time. */
public final class Receive {
    private static final int WORDS = 2;

    private final long[] words;

    /** A life that begins. */
    public Receive() {
        this(new long[WORDS]);
    }

    /** A life as it was, by its {@link #words}. */
    public Receive(long[] words) {
        this.words = Lent.record(words, WORDS).clone();
    }

    public long[] words() {
        return words.clone();
    }

    /**
     * A packet's number arrives, its integrity holding or not: accepted, where it is not refused. Gives by how much the highest accepted
     * number rose, 0 where it did not.
     */
    public long step(long number, boolean integrity) throws Refusal {
        long[] out = new long[1];
        Lent.done(Native.step(words, Lent.number32(number), integrity, out));
        return out[0];
    }

    public LossLine lossLine() {
        long[] out = new long[3];
        Native.lossLine(words, out);
        return LossLine.of(out);
    }
}
