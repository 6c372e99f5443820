package tallowbrim;

/** A key exchange message that reads: its exchange (2 main mode, 5 informational, 32 quick mode), and how many payloads it has. */
public record Message(int exchange, int payloads) {}
