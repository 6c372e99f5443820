package tallowbrim;

/** A payload of a message: its type (1 is the offer), the byte of the message where it begins, and how many bytes it has. */
public record Payload(int type, int start, int length) {}
