package tallowbrim;

/** The header of a record of a capture: its stamp, how many bytes of the record follow, and how many it had. */
public record RecordHeader(long seconds, long microseconds, int length, long original) {}
