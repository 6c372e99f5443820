// Judges the sample of four sets, and then plays a whole exchange of quick mode between two ends, of which the first message is lost once.
import java.io.IOException;
import java.nio.file.Files;
import java.nio.file.Path;
import java.util.HexFormat;
import java.util.List;
import java.util.stream.Collectors;
import tallowbrim.Agreed;
import tallowbrim.Choice;
import tallowbrim.End;
import tallowbrim.Message;
import tallowbrim.Payload;
import tallowbrim.Refusal;
import tallowbrim.Role;
import tallowbrim.Standing;
import tallowbrim.Tallowbrim;

public final class Example {
    private Example() {}

    /** Given the folder of samples. */
    public static void main(String[] arguments) throws IOException {
        Path samples = Path.of(arguments[0]);
        try {
            judge(Files.readAllBytes(samples.resolve("four-sets.book")), Files.readAllBytes(samples.resolve("four-sets.message")));
            exchange();
        } catch (Refusal refusal) {
            System.out.println("refused " + refusal.getMessage());
        }
    }

    private static void judge(byte[] book, byte[] bytes) throws Refusal {
        Message message = Tallowbrim.message(bytes);
        System.out.println("exchange " + message.exchange() + " payloads " + message.payloads());
        for (Payload payload : Tallowbrim.payloads(bytes)) {
            System.out.println("payload " + payload.type() + " at " + payload.start() + " length " + payload.length());
        }
        Choice choice = Tallowbrim.choose(book, bytes);
        System.out.println("chosen set " + choice.set() + " line " + choice.line() + " transforms " + words(choice.transforms()));
    }

    // The hashes that a program fills in and checks are left out: each message is said to have one that holds.
    private static void exchange() throws Refusal {
        // No main lines, and one quick line: AH with ESP, tunnel, to 3600 seconds.
        byte[] book = HexFormat.of().parseHex("0001020100000e10");
        long initiatorCookie = 0x1122334455667788L;
        long responderCookie = 0x99aabbccddeeff00L;
        End initiator = End.fresh(Role.INITIATOR, initiatorCookie, responderCookie, book, 0x1001, 0x1002, "initiator's".getBytes());
        End responder = End.fresh(Role.RESPONDER, initiatorCookie, responderCookie, book, 0x2001, 0x2002, "responder's".getBytes());

        byte[] lost = initiator.begin(7);
        tell("initiator begins, message 1 is lost", lost.length, initiator, responder);
        byte[] first = initiator.tick().orElseThrow();
        tell("initiator ticks, message 1 again", first.length, initiator, responder);
        byte[] second = responder.deliver(true, first).orElseThrow();
        tell("responder gets message 1, sends message 2", second.length, initiator, responder);
        byte[] third = initiator.deliver(true, second).orElseThrow();
        tell("initiator gets message 2, sends message 3", third.length, initiator, responder);
        int nothing = responder.deliver(true, third).map(message -> message.length).orElse(0);
        tell("responder gets message 3, sends nothing", nothing, initiator, responder);

        Agreed agreed = initiator.agreed();
        System.out.println("agreed set " + agreed.set() + " transforms " + words(agreed.transforms())
            + " initiator's SPIs " + hex(agreed.initiatorSpis()) + " responder's SPIs " + hex(agreed.responderSpis()));
        System.out.println(agreed.equals(responder.agreed()) ? "both ends agree" : "the ends do not agree");
    }

    private static void tell(String step, int sent, End initiator, End responder) {
        System.out.println(step + ": " + sent + " bytes; initiator " + state(initiator) + ", responder " + state(responder));
    }

    private static Standing.State state(End end) {
        return end.standing().state();
    }

    private static String words(List<Integer> numbers) {
        return numbers.stream().map(String::valueOf).collect(Collectors.joining(" "));
    }

    private static String hex(List<Long> spis) {
        return spis.stream().map(spi -> String.format("%08x", spi)).collect(Collectors.joining(" "));
    }
}
