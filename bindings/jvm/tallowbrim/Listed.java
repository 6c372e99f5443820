package tallowbrim;

/** What is listed of a record of a capture. */
public sealed interface Listed {
    record CutShort() implements Listed {}

    record NotIpv4() implements Listed {}

    record Fragment(Addresses addresses) implements Listed {}

    record OtherProtocol(Addresses addresses, int protocol) implements Listed {}

    record OtherPorts(Addresses addresses, int source, int destination) implements Listed {}

    record Keepalive(Addresses addresses) implements Listed {}

    record Enciphered(Addresses addresses, int exchange, long id) implements Listed {}

    /** A message that reads. */
    record Read(Addresses addresses, Message message) implements Listed {}

    /** A message or a datagram that does not. */
    record Refused(Addresses addresses, int refusal) implements Listed {}

    /** A packet too short for an SPI and a number. */
    record ShortPacket(Addresses addresses, int protocol, int refusal) implements Listed {}

    record Packet(Addresses addresses, int protocol, long spi, long number, Verdict verdict) implements Listed {}
}
