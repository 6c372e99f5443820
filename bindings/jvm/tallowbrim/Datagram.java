package tallowbrim;

/** What a datagram of port 4500 is. */
public sealed interface Datagram {
    record Keepalive() implements Datagram {}

    /** With the place of its message in the datagram. */
    record KeyExchange(int start, int length) implements Datagram {}

    record Esp(int length) implements Datagram {}
}
