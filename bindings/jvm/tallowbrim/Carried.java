package tallowbrim;

/** What a record of a capture carries, and where in it. */
public sealed interface Carried {
    record CutShort() implements Carried {}

    record NotIpv4() implements Carried {}

    record Fragment(Addresses addresses) implements Carried {}

    record OtherProtocol(Addresses addresses, int protocol) implements Carried {}

    record OtherPorts(Addresses addresses, int source, int destination) implements Carried {}

    record KeyExchange(Addresses addresses, int start, int length) implements Carried {}

    /** A datagram of port 4500. */
    record Port4500(Addresses addresses, int start, int length) implements Carried {}

    record Ah(Addresses addresses, int start, int length) implements Carried {}

    record Esp(Addresses addresses, int start, int length) implements Carried {}
}
