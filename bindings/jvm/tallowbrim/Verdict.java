package tallowbrim;

/** Whether a packet of a capture is accepted. */
public sealed interface Verdict {
    /** With the rise that {@link Table#packet} gives. */
    record Accepted(long rise) implements Verdict {}

    record Refused(int refusal) implements Verdict {}
}
