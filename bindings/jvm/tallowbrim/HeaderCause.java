package tallowbrim;

/** What a file is whose header is refused as that of a capture. */
public sealed interface HeaderCause {
    /** It is not refused. */
    record NothingWrong() implements HeaderCause {}

    record TooShort() implements HeaderCause {}

    record Pcapng() implements HeaderCause {}

    record Nanoseconds() implements HeaderCause {}

    record OtherVersion(int major, int minor) implements HeaderCause {}

    /** Its frames have check sequences. */
    record CheckSequences() implements HeaderCause {}

    record OtherLinkType(long number) implements HeaderCause {}

    record NoCapture() implements HeaderCause {}
}
