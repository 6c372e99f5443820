package tallowbrim;

/** The calls of include/tallowbrim.h under their names, by tallowbrim_jni.c. Who calls one has checked what it lends ({@link Lent}). */
final class Native {
    static {
        System.loadLibrary("tallowbrim_jni");
    }

    private Native() {}

    // Reading
    static native int datagram(byte[] datagram, long[] out);
    static native int message(byte[] message, long[] out);
    static native int payload(byte[] message, int place, long[] out);
    static native int identity(int exchange, byte[] body);
    static native int name(byte[] bytes);
    static native int element(byte[] bytes);

    // Policy
    static native int book(byte[] book, long[] out);
    static native int choose(byte[] book, byte[] message, long[] out);
    static native int reply(byte[] book, byte[] message, long ah, long esp, byte[] buffer, long[] out);
    static native int cause(byte[] book, byte[] message, int set, int line, int proposal, int transform, long[] out);
    static native int place(byte[] message, int set, int proposal, int transform, long[] out);
    static native int lawful(byte[] offer, byte[] reply, boolean booked, byte[] book);
    static native int difference(byte[] offer, byte[] reply, boolean booked, byte[] book, long[] out);

    // Quick mode
    static native int fresh(
        byte[] end, boolean initiator, long initiatorCookie, long responderCookie, byte[] book, long ah, long esp, byte[] nonce);
    static native int begin(byte[] end, long id, byte[] first, byte[] second, byte[] sent, byte[] got, byte[] output, long[] out);
    static native int deliver(byte[] end, boolean hashHolds, byte[] message, byte[] sent, byte[] got, byte[] output, long[] out);
    static native int tick(byte[] end, byte[] sent, byte[] got, byte[] output, long[] out);
    static native int state(byte[] end, long[] out);
    static native int agreed(byte[] end, long[] out);
    static native int nonce(boolean initiator, byte[] initiators, byte[] responders, byte[] nonce, long[] out);

    // Sequence numbers
    static native int step(long[] receive, long number, boolean integrity, long[] out);
    static native int lossLine(long[] receive, long[] out);
    static native int plainStep(long[] list, long number, boolean integrity, long[] out);
    static native int plainLossLine(long[] list, long[] out);
    static native int add(long[] table, long destination, int protocol, long spi);
    static native int remove(long[] table, long destination, int protocol, long spi);
    static native int packet(long[] table, long destination, int protocol, boolean integrity, byte[] packet, long[] out);
    static native int send(long[] table, long destination, int protocol, long spi, long[] out);
    static native int loss(long[] table, long destination, int protocol, long spi, long[] out);

    // Captures
    static native int fileHeader(byte[] header, long[] out);
    static native int headerCause(byte[] header, long[] out);
    static native int recordHeader(long order, byte[] header, long[] out);
    static native int carried(long original, byte[] record, long[] out);
    static native int record(long[] table, long original, byte[] record, long[] out);
}
