// Calls every public method of bindings/jvm with a null, a number that does not fit, a record of another size or an array lent twice:
// each must be turned away in Java, before the glue. The last line counts: N passed, M failed.
import java.lang.reflect.*;
import java.nio.ByteOrder;
import java.util.*;
import tallowbrim.*;

public final class Guards {
    private static final byte[] BOOK = HexFormat.of().parseHex("0001020100000e10");
    private static final int END = 398;
    private static final int TABLE = 384;
    private static final int RECEIVE = 2;
    private static final int PLAIN_LIST = 4097;

    private int passed;
    private int failed;

    public static void main(String[] words) throws Exception {
        Guards guards = new Guards();
        guards.tryAll();
        guards.tryRecords();
        guards.tryTwice();
        System.out.println(guards.passed + " passed, " + guards.failed + " failed");
        System.exit(guards.failed == 0 ? 0 : 1);
    }

    private interface Call {
        void call() throws Exception;
    }

    /** A call must end with this exception, or with none of ours where none is expected. */
    private void expect(String what, Class<?> expected, Call call) {
        Throwable thrown = null;
        try {
            call.call();
        } catch (InvocationTargetException e) {
            thrown = e.getCause();
        } catch (Exception e) {
            thrown = e;
        }
        Class<?> got = thrown == null || thrown instanceof Refusal ? null : thrown.getClass();
        if (got == expected) {
            passed++;
        } else {
            failed++;
            System.out.println(what + ": " + thrown);
        }
    }

    private static End end() throws Refusal {
        return End.fresh(Role.INITIATOR, 1, 2, BOOK, 256, 257, new byte[8]);
    }

    // ---- every parameter of every method

    private void tryAll() throws Exception {
        for (Object on : new Object[] {null, end(), new Table(), new Receive(), new PlainList()}) {
            for (Method method : (on == null ? Tallowbrim.class : on.getClass()).getDeclaredMethods()) {
                if (Modifier.isPublic(method.getModifiers()) && !method.isSynthetic()) {
                    tryMethod(on, method);
                }
            }
        }
    }

    private void tryMethod(Object on, Method method) {
        Class<?>[] types = method.getParameterTypes();
        expect(method + " as it should be", null, () -> method.invoke(on, lawful(types)));
        for (int i = 0; i < types.length; i++) {
            boolean cookie = method.getName().equals("fresh") && (i == 1 || i == 2);
            for (Object wrong : cookie ? List.of() : wrong(types[i])) {
                Object[] arguments = lawful(types);
                arguments[i] = wrong;
                Class<?> expected = wrong == null ? NullPointerException.class : IllegalArgumentException.class;
                expect(method + " with " + wrong + " at " + i, expected, () -> method.invoke(on, arguments));
            }
        }
    }

    private static Object[] lawful(Class<?>[] types) {
        return Arrays.stream(types).map(Guards::lawful).toArray();
    }

    private static Object lawful(Class<?> type) {
        if (type == byte[].class) {
            return new byte[0];
        } else if (type == Role.class) {
            return Role.RESPONDER;
        } else if (type == ByteOrder.class) {
            return ByteOrder.BIG_ENDIAN;
        } else if (type == boolean.class) {
            return true;
        }
        return type == int.class ? (Object) 255 : (Object) 0xffff_ffffL;
    }

    private static List<Object> wrong(Class<?> type) {
        if (type == int.class) {
            return List.of(-1, 256, Integer.MIN_VALUE, Integer.MAX_VALUE);
        } else if (type == long.class) {
            return List.of(-1L, 1L << 32, Long.MIN_VALUE, Long.MAX_VALUE);
        }
        return type == boolean.class ? List.of() : Collections.singletonList(null);
    }

    // ---- records and buffers

    private void tryRecords() {
        expect("null words of a table", NullPointerException.class, () -> new Table(null));
        expect("null words of a receive record", NullPointerException.class, () -> new Receive(null));
        expect("null words of a plain list", NullPointerException.class, () -> new PlainList(null));
        for (int by : new int[] {-1, 1}) {
            expect("a table of another size", IllegalArgumentException.class, () -> new Table(new long[TABLE + by]));
            expect("a receive record of another size", IllegalArgumentException.class, () -> new Receive(new long[RECEIVE + by]));
            expect("a plain list of another size", IllegalArgumentException.class, () -> new PlainList(new long[PLAIN_LIST + by]));
            expect("an end of another size", IllegalArgumentException.class, () -> end(END + by, 0, 0, 0));
        }
        expect("an end with no buffers", null, () -> end(END, 0, 0, 0));
        for (int i = 0; i < 4; i++) {
            int[] sizes = {END, 0, 0, 0};
            sizes[i] = -1;
            expect("a null as " + i + " of an end", NullPointerException.class, () -> end(sizes));
        }
    }

    /** An end with a record and buffers of these sizes, null for -1. */
    private static End end(int... sizes) {
        byte[][] lent = Arrays.stream(sizes).mapToObj(size -> size < 0 ? null : new byte[size]).toArray(byte[][]::new);
        return new End(lent[0], lent[1], lent[2], lent[3]);
    }

    // ---- an array that is written to, lent twice

    private void tryTwice() throws Refusal {
        byte[] sent = new byte[End.BUFFER];
        byte[] got = new byte[End.BUFFER];
        byte[] output = new byte[End.BUFFER];
        byte[] record = end().record();
        Class<?> expected = IllegalArgumentException.class;
        expect("sent as got", expected, () -> new End(record, sent, sent, output));
        expect("sent as output", expected, () -> new End(record, sent, got, sent));
        expect("got as output", expected, () -> new End(record, sent, got, got));
        End end = new End(record, sent, got, output);
        for (byte[] buffer : new byte[][] {sent, got, output}) {
            expect("a buffer as the message", expected, () -> end.deliver(true, buffer));
        }
        for (byte[] buffer : new byte[][] {sent, output}) {
            expect("a buffer as the first identity", expected, () -> end.begin(7, buffer, new byte[0]));
            expect("a buffer as the second identity", expected, () -> end.begin(7, new byte[0], buffer));
        }
        expect("the book as the reply", expected, () -> Tallowbrim.reply(sent, got, 256, 257, sent));
        expect("the message as the reply", expected, () -> Tallowbrim.reply(sent, got, 256, 257, got));
    }
}
