// What differs first of a reply, with its values, of which the line `lawful` of ./bench prints a number alone: replies to an offer of two
// sets, AH with ESP and ESP alone, over bindings/jvm. The last line counts: N passed, M failed.
import java.io.ByteArrayOutputStream;
import java.util.*;
import tallowbrim.*;

public final class Differences {
    private static final int AH = 2;
    private static final int ESP = 3;

    // The IDs that suit.
    private static final int AH_ID = 20;
    private static final int ESP_ID = 129;

    // The attributes that suit, tunnel to 3600 seconds, with authentication at the end; an ESP that goes with AH has none.
    private static final String ALL = "80040001" + "80010001" + "80020e10" + "80050014";
    private static final String NO_AUTHENTICATION = ALL.substring(0, 24);

    // Books of one line: quick, AH with ESP, tunnel, to 3600 seconds; main, to 3600 seconds.
    private static final byte[] PAIR = bytes("0001020100000e10");
    private static final byte[] MAIN = bytes("0100000e1000");
    private static final byte[] NONE = {};

    private static final byte[] AH_OFFERED = proposal(1, AH, transform(1, AH_ID, ALL), transform(4, AH_ID, ALL));
    private static final byte[] ESP_OFFERED =
        proposal(1, ESP, transform(2, ESP_ID, NO_AUTHENTICATION), transform(5, ESP_ID, NO_AUTHENTICATION));
    private static final byte[] ALONE_OFFERED = proposal(4, ESP, transform(1, ESP_ID, ALL));
    private static final byte[] OFFER = message(AH_OFFERED, ESP_OFFERED, ALONE_OFFERED);

    private int passed;
    private int failed;

    public static void main(String[] words) {
        Differences differences = new Differences();
        differences.tryAll();
        System.out.println(differences.passed + " passed, " + differences.failed + " failed");
        System.exit(differences.failed == 0 ? 0 : 1);
    }

    // ---- messages

    private static byte[] bytes(String hex) {
        return HexFormat.of().parseHex(hex);
    }

    private static byte[] joined(byte[]... parts) {
        ByteArrayOutputStream all = new ByteArrayOutputStream();
        for (byte[] part : parts) {
            all.writeBytes(part);
        }
        return all.toByteArray();
    }

    /** Parts one behind the other, in front of each what is next, which is 0 at the last, a zero byte and its length. */
    private static byte[] chain(int next, byte[]... parts) {
        byte[] all = NONE;
        for (int i = 0; i < parts.length; i++) {
            byte[] head = bytes(String.format("%02x00%04x", i + 1 == parts.length ? 0 : next, parts[i].length + 4));
            all = joined(all, head, parts[i]);
        }
        return all;
    }

    private static byte[] transform(int number, int id, String attributes) {
        return bytes(String.format("%02x%02x0000", number, id) + attributes);
    }

    private static byte[] proposal(int set, int protocol, byte[]... transforms) {
        return joined(bytes(String.format("%02x%02x04%02x00000100", set, protocol, transforms.length)), chain(3, transforms));
    }

    /** A quick mode message whose only payload is an SA payload of these proposals. */
    private static byte[] message(byte[]... proposals) {
        byte[] payload = chain(0, joined(bytes("0000000100000001"), chain(2, proposals)));
        String header = "01".repeat(8) + "02".repeat(8) + "01112000" + "00000007" + String.format("%08x", 28 + payload.length);
        return joined(bytes(header), payload);
    }

    private static byte[] ah(int set, int number) {
        return proposal(set, AH, transform(number, AH_ID, ALL));
    }

    private static byte[] esp(int set, int number) {
        return proposal(set, ESP, transform(number, ESP_ID, NO_AUTHENTICATION));
    }

    // ---- differences

    private void tryAll() {
        byte[] lawful = message(ah(1, 1), esp(1, 2));
        expect(0, new Difference.Nothing(), OFFER, lawful);
        expect(0, new Difference.Nothing(), OFFER, lawful, PAIR);

        expect(30, new Difference.OfferRefused(30), NONE, NONE, NONE);
        expect(8193, new Difference.BookRefused(8193), OFFER, NONE, NONE);
        expect(30, new Difference.ReplyRefused(30), OFFER, NONE, PAIR);
        expect(30, new Difference.ReplyRefused(30), OFFER, NONE);

        notRepeated(new Difference.SeveralSets(2), AH_OFFERED, ESP_OFFERED, ALONE_OFFERED);
        notRepeated(new Difference.SetNotOffered(3), ah(3, 1), esp(3, 2));
        notRepeated(new Difference.Protocols(), esp(1, 2));
        notRepeated(new Difference.Order(), esp(1, 2), ah(1, 1));
        notRepeated(new Difference.SeveralTransforms(ESP, 2), ah(1, 1), ESP_OFFERED);
        notRepeated(new Difference.TransformNotOffered(AH, 7), ah(1, 7), esp(1, 2));
        notRepeated(new Difference.Id(ESP, 5, 12, ESP_ID), ah(1, 1), proposal(1, ESP, transform(5, 12, NO_AUTHENTICATION)));
        notRepeated(new Difference.Attributes(AH, 4), proposal(1, AH, transform(4, AH_ID, NO_AUTHENTICATION)), esp(1, 2));

        notChosen(new Difference.OtherSet(4, 1), PAIR, ALONE_OFFERED);
        notChosen(new Difference.OtherTransform(ESP, 5, 2), PAIR, ah(1, 1), esp(1, 5));
        notChosen(new Difference.NothingChosen(), MAIN, ALONE_OFFERED);
    }

    private void notRepeated(Difference expected, byte[]... reply) {
        expect(15, expected, OFFER, message(reply));
        expect(15, expected, OFFER, message(reply), PAIR);
    }

    private void notChosen(Difference expected, byte[] book, byte[]... reply) {
        expect(14, expected, OFFER, message(reply), book);
        expect(0, new Difference.Nothing(), OFFER, message(reply));
    }

    /** What differs first is this, and the reply is lawful, for 0, or refused with this number. A book stands behind the two, or none. */
    private void expect(int number, Difference expected, byte[] offer, byte[] reply, byte[]... book) {
        Difference found = book.length == 0 ? Tallowbrim.difference(offer, reply) : Tallowbrim.difference(offer, reply, book[0]);
        int refused = refused(offer, reply, book);
        if (found.equals(expected) && refused == number) {
            passed++;
        } else {
            failed++;
            System.out.println(found + " and " + refused + ", expected " + expected + " and " + number);
        }
    }

    private static int refused(byte[] offer, byte[] reply, byte[]... book) {
        try {
            if (book.length == 0) {
                Tallowbrim.lawful(offer, reply);
            } else {
                Tallowbrim.lawful(offer, reply, book[0]);
            }
            return 0;
        } catch (Refusal e) {
            return e.number();
        }
    }
}
