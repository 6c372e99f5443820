package tallowbrim;

import java.util.Objects;

/** What is checked before a call of {@link Native}, and after it. */
final class Lent {
    private Lent() {}

    static byte[] bytes(byte[] lent) {
        return Objects.requireNonNull(lent);
    }

    static byte[] record(byte[] lent, int size) {
        sized(lent.length, size);
        return lent;
    }

    static long[] record(long[] lent, int size) {
        sized(lent.length, size);
        return lent;
    }

    private static void sized(int length, int size) {
        if (length != size) {
            throw new IllegalArgumentException("a record of " + length + " where one of " + size + " is lent");
        }
    }

    /** What a call writes to overlaps nothing else that it is lent: here, that it is not the same array. */
    static void apart(byte[] written, byte[]... others) {
        for (byte[] other : others) {
            if (written == other) {
                throw new IllegalArgumentException("the same array is lent twice, and written to");
            }
        }
    }

    static int number8(int number) {
        return (int) upTo(0xff, number);
    }

    static long number32(long number) {
        return upTo(0xffff_ffffL, number);
    }

    private static long upTo(long most, long number) {
        if (number < 0 || most < number) {
            throw new IllegalArgumentException(number + " is not within 0 to " + most);
        }
        return number;
    }

    static void done(int number) throws Refusal {
        if (number != 0) {
            throw new Refusal(number);
        }
    }

    /** For a kind of answer that the header does not have: the library is another than this binding was written for. */
    static IllegalStateException unknown(long kind) {
        return new IllegalStateException("the library answers " + kind + ", which has no meaning here");
    }
}
