package tallowbrim;

/** Source and destination of an IPv4 packet. */
public record Addresses(long source, long destination) {
    /** Both dotted, as in {@code 192.0.2.10 > 198.51.100.1}. */
    @Override
    public String toString() {
        return dotted(source) + " > " + dotted(destination);
    }

    private static String dotted(long address) {
        return (address >> 24) + "." + (address >> 16 & 255) + "." + (address >> 8 & 255) + "." + (address & 255);
    }
}
