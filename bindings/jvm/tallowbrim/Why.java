package tallowbrim;

/** Why a transform of an offer does not suit a line of a book, or that it does. */
public sealed interface Why {
    /** There is no such place. */
    record NoPlace() implements Why {}

    /** The set's protocols are not the line's. */
    record Protocols() implements Why {}

    record Suits() implements Why {}

    /** It has another ID. */
    record Id(long found, long wanted) implements Why {}

    /** An attribute is missing. */
    record Missing(int type) implements Why {}

    /** An attribute has another value. */
    record Value(int type, long found, long wanted) implements Why {}

    /** An attribute is not wanted. */
    record Surplus(int type, long found) implements Why {}

    /** Its lifetime in seconds is none or too long. */
    record Seconds(long found, long longest) implements Why {}

    /** Its lifetime is no kilobyte. */
    record Kilobytes() implements Why {}
}
