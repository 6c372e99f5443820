// Answers the lines of ./bench (README.md, "Lines") over bindings/jvm. With `verdict BOOK MESSAGE` it prints what ./verdict prints of these
// two files, the book in bytes, and with `capture FILE..` of each file its name and what its header is, and then what ./capture prints
// of it.
import java.io.*;
import java.nio.ByteOrder;
import java.nio.charset.StandardCharsets;
import java.nio.file.*;
import java.util.*;
import java.util.stream.Collectors;
import tallowbrim.*;

public final class Lines {
    /** A line that cannot be understood. */
    private static final class BadLine extends RuntimeException {
        private static final long serialVersionUID = 1;
    }

    // A line has at most so many bytes.
    private static final int LONGEST = 65535;

    private static final long LARGEST = 0xffff_ffffL;

    // The most that `room` and `reply` lend.
    private static final int ROOM = 4096;

    private final Table table = new Table();
    private Receive lent = new Receive();
    private PlainList plain = new PlainList();
    private final Seat initiator = new Seat(Role.INITIATOR);
    private final Seat responder = new Seat(Role.RESPONDER);

    public static void main(String[] words) throws IOException {
        OutputStream out = new BufferedOutputStream(new FileOutputStream(FileDescriptor.out), 1 << 16);
        if (words.length == 3 && words[0].equals("verdict")) {
            say(out, verdict(Files.readAllBytes(Path.of(words[1])), Files.readAllBytes(Path.of(words[2]))));
        } else if (words.length > 1 && words[0].equals("capture")) {
            for (int i = 1; i < words.length; i++) {
                byte[] file = Files.readAllBytes(Path.of(words[i]));
                say(out, words[i] + ": " + cause(Tallowbrim.headerCause(file)) + "\n" + new Lines().capture(file));
            }
        } else if (words.length == 0) {
            new Lines().answerAll(out);
        } else {
            System.err.println("usage: lines [verdict BOOK MESSAGE | capture FILE..]");
            System.exit(2);
        }
        out.flush();
    }

    private static void say(OutputStream out, String text) throws IOException {
        out.write(text.getBytes(StandardCharsets.ISO_8859_1));
    }

    // ---- lines

    private void answerAll(OutputStream out) throws IOException {
        byte[] piece = new byte[1 << 16];
        ByteArrayOutputStream line = new ByteArrayOutputStream();
        for (int size; (size = System.in.read(piece)) > 0; out.flush()) {
            for (int i = 0; i < size; i++) {
                if (piece[i] == '\n') {
                    say(out, ended(line));
                } else if (line.size() <= LONGEST) {
                    line.write(piece[i]);
                }
            }
        }
        say(out, ended(line));
    }

    /** The answer to a line with its line end, or nothing; the next line begins. */
    private String ended(ByteArrayOutputStream bytes) {
        String line = bytes.toString(StandardCharsets.ISO_8859_1);
        bytes.reset();
        if (line.isEmpty() || line.startsWith("#")) {
            return "";
        }
        try {
            return (line.length() > LONGEST ? "bad line" : answer(line.split(" ", -1))) + "\n";
        } catch (BadLine e) {
            return "bad line\n";
        } catch (Refusal e) {
            return "refused " + e.number() + "\n";
        }
    }

    /** By the verb and the number of words. Every word is read before anything changes. */
    private String answer(String[] w) throws Refusal {
        return switch (w[0] + "/" + w.length) {
            case "port/2" -> port(bytes(w[1]));
            case "read/2" -> read(bytes(w[1]));
            case "identity/3" -> identity(w[1], bytes(w[2]));
            case "der/2" -> der(bytes(w[1]));
            case "book/2" -> book(bytes(w[1]));
            case "choose/3" -> choose(bytes(w[1]), bytes(w[2]));
            case "why/3" -> why(bytes(w[1]), bytes(w[2]));
            case "lawful/3" -> lawful(bytes(w[1]), bytes(w[2]));
            case "lawful/4" -> lawful(bytes(w[1]), bytes(w[2]), bytes(w[3]));
            case "reply/6" -> reply(bytes(w[1]), number(w[2], LARGEST), number(w[3], LARGEST), size(w[4]), bytes(w[5]));
            case "lent/2", "plain/2" -> newOrLoss(w[0] + " " + w[1]);
            case "lent/3" -> "accepted " + lent.step(number(w[1], LARGEST), yes(w[2]));
            case "plain/3" -> "accepted " + plain.step(number(w[1], LARGEST), yes(w[2]));
            case "add/4", "remove/4", "send/4", "loss/4" -> entry(w[0], number32(w[1]), protocol(w[2]), number32(w[3]));
            case "packet/5" -> packet(number32(w[1]), protocol(w[2]), yes(w[3]), bytes(w[4]));
            case "frame/3" -> frame(number(w[1], LARGEST), bytes(w[2]));
            case "fresh/8" -> seat(w[1]).fresh(
                number64(w[2]), number64(w[3]), bytes(w[4]), number(w[5], LARGEST), number(w[6], LARGEST), bytes(w[7]));
            case "room/5" -> seat(w[1]).room(size(w[2]), size(w[3]), size(w[4]));
            case "begin/4" -> initiator.begin(number(w[1], LARGEST), bytes(w[2]), bytes(w[3]));
            case "deliver/4" -> seat(w[1]).deliver(yes(w[2]), bytes(w[3]));
            case "tick/2" -> seat(w[1]).tick();
            case "state/2" -> seat(w[1]).state();
            case "kept/2" -> seat(w[1]).kept();
            case "nonce/4" -> "nonce " + word(Tallowbrim.nonce(seat(w[1]).role, bytes(w[2]), bytes(w[3])));
            default -> throw new BadLine();
        };
    }

    // ---- words

    private static byte[] bytes(String word) {
        if (word.equals("-")) {
            return new byte[0];
        }
        if (word.isEmpty() || word.length() % 2 != 0 || !word.chars().allMatch(HexFormat::isHexDigit)) {
            throw new BadLine();
        }
        return HexFormat.of().parseHex(word);
    }

    private static long number(String word, long most) {
        if (!word.matches("0|[1-9][0-9]{0,9}") || Long.parseLong(word) > most) {
            throw new BadLine();
        }
        return Long.parseLong(word);
    }

    private static int size(String word) {
        return (int) number(word, ROOM);
    }

    private static int protocol(String word) {
        return (int) number(word, 255);
    }

    private static long number32(String word) {
        return hexNumber(word, 8);
    }

    private static long number64(String word) {
        return hexNumber(word, 16);
    }

    private static long hexNumber(String word, int digits) {
        if (!word.matches("[0-9a-fA-F]{" + digits + "}")) {
            throw new BadLine();
        }
        return Long.parseUnsignedLong(word, 16);
    }

    private static boolean yes(String word) {
        return switch (word) {
            case "yes" -> true;
            case "no" -> false;
            default -> throw new BadLine();
        };
    }

    private Seat seat(String word) {
        return switch (word) {
            case "i" -> initiator;
            case "r" -> responder;
            default -> throw new BadLine();
        };
    }

    private static String word(byte[] bytes) {
        return bytes.length == 0 ? "-" : HexFormat.of().formatHex(bytes);
    }

    private static String hex32(long number) {
        return String.format("%08x", number);
    }

    /** A space and a number for each. */
    private static String numbers(List<Integer> numbers) {
        return numbers.stream().map(number -> " " + number).collect(Collectors.joining());
    }

    // ---- reading and policy

    private static String port(byte[] bytes) throws Refusal {
        Datagram datagram = Tallowbrim.datagram(bytes);
        if (datagram instanceof Datagram.KeyExchange message) {
            return "key-exchange " + message.start() + " " + message.length();
        }
        return datagram instanceof Datagram.Esp esp ? "esp " + esp.length() : "keepalive";
    }

    private static String read(byte[] bytes) throws Refusal {
        Message message = Tallowbrim.message(bytes);
        return "read " + message.exchange() + " " + message.payloads() + payloads(bytes);
    }

    private static String payloads(byte[] message) throws Refusal {
        StringBuilder text = new StringBuilder();
        for (Payload payload : Tallowbrim.payloads(message)) {
            text.append(" " + payload.type() + "@" + payload.start() + "+" + payload.length());
        }
        return text.toString();
    }

    private static String identity(String exchange, byte[] body) throws Refusal {
        if (!exchange.equals("2") && !exchange.equals("32")) {
            throw new BadLine();
        }
        Tallowbrim.identity(Integer.parseInt(exchange), body);
        return "done";
    }

    private static String der(byte[] bytes) {
        return Tallowbrim.isName(bytes) ? "name" : Tallowbrim.isElement(bytes) ? "element" : "none";
    }

    private static String book(byte[] bytes) throws Refusal {
        Book book = Tallowbrim.book(bytes);
        return "book " + book.main() + " " + book.quick();
    }

    private static String choose(byte[] book, byte[] message) throws Refusal {
        Choice choice = Tallowbrim.choose(book, message);
        return "chosen " + choice.set() + " " + choice.line() + numbers(choice.transforms());
    }

    private static String reply(byte[] book, long ah, long esp, int room, byte[] message) throws Refusal {
        byte[] buffer = new byte[room];
        int size = Tallowbrim.reply(book, message, ah, esp, buffer);
        return "reply " + word(Arrays.copyOf(buffer, size));
    }

    private static String why(byte[] book, byte[] message) throws Refusal {
        Tallowbrim.cause(book, message, 0, 0, 0, 0);
        Book lines = Tallowbrim.book(book);
        int count = Tallowbrim.message(message).exchange() == 2 ? lines.main() : lines.quick();
        StringBuilder text = new StringBuilder("why");
        Optional<Place> place;
        for (int set = 0; (place = Tallowbrim.place(message, set, 0, 0)).isPresent(); set++) {
            for (int line = 0; line < count; line++) {
                text.append(" set " + place.get().set() + " line " + (line + 1) + pair(book, message, set, line));
            }
        }
        return text.toString();
    }

    private static String pair(byte[] book, byte[] message, int set, int line) throws Refusal {
        if (Tallowbrim.cause(book, message, set, line, 0, 0) instanceof Why.Protocols) {
            return " protocols";
        }
        StringBuilder text = new StringBuilder();
        boolean setSuits = true;
        for (int proposal = 0; Tallowbrim.place(message, set, proposal, 0).isPresent(); proposal++) {
            boolean proposalSuits = false;
            Optional<Place> place;
            for (int transform = 0; (place = Tallowbrim.place(message, set, proposal, transform)).isPresent(); transform++) {
                Why why = Tallowbrim.cause(book, message, set, line, proposal, transform);
                text.append(" protocol " + place.get().protocol() + " transform " + place.get().transform() + " " + cause(why));
                proposalSuits |= why instanceof Why.Suits;
            }
            setSuits &= proposalSuits;
        }
        return setSuits ? " suits" : text.toString();
    }

    private static String cause(Why why) {
        if (why instanceof Why.Suits) {
            return "suits";
        } else if (why instanceof Why.Id) {
            return "id";
        } else if (why instanceof Why.Missing missing) {
            return "missing " + missing.type();
        } else if (why instanceof Why.Value value) {
            return "value " + value.type();
        } else if (why instanceof Why.Surplus surplus) {
            return "surplus " + surplus.type();
        } else if (why instanceof Why.Seconds) {
            return "seconds";
        }
        return why instanceof Why.Kilobytes ? "kilobytes" : "none";
    }

    private static String lawful(byte[] offer, byte[] reply) throws Refusal {
        Tallowbrim.lawful(offer, reply);
        return "lawful";
    }

    private static String lawful(byte[] offer, byte[] reply, byte[] book) throws Refusal {
        Tallowbrim.lawful(offer, reply, book);
        return "lawful";
    }

    // ---- sequence numbers and captures

    private String newOrLoss(String line) {
        switch (line) {
            case "lent loss":
                return loss(lent.lossLine());
            case "plain loss":
                return loss(plain.lossLine());
            case "lent new":
                lent = new Receive();
                return "done";
            case "plain new":
                plain = new PlainList();
                return "done";
            default:
                throw new BadLine();
        }
    }

    private static String loss(LossLine line) {
        return "loss " + line.highest() + " " + line.span() + " " + line.count();
    }

    private String entry(String verb, long destination, int protocol, long spi) throws Refusal {
        switch (verb) {
            case "send":
                return "number " + table.send(destination, protocol, spi);
            case "loss":
                return loss(table.loss(destination, protocol, spi));
            case "add":
                table.add(destination, protocol, spi);
                return "done";
            default:
                table.remove(destination, protocol, spi);
                return "done";
        }
    }

    private String packet(long destination, int protocol, boolean integrity, byte[] packet) throws Refusal {
        return "accepted " + table.packet(destination, protocol, integrity, packet);
    }

    private String frame(long original, byte[] record) throws Refusal {
        Listed listed = table.record(original, record);
        if (listed instanceof Listed.CutShort) {
            return "cut short";
        } else if (listed instanceof Listed.NotIpv4) {
            return "not IPv4";
        } else if (listed instanceof Listed.Fragment l) {
            return l.addresses() + " fragment";
        } else if (listed instanceof Listed.OtherProtocol l) {
            return l.addresses() + " other protocol " + l.protocol();
        } else if (listed instanceof Listed.OtherPorts l) {
            return l.addresses() + " other ports " + l.source() + " > " + l.destination();
        } else if (listed instanceof Listed.Keepalive l) {
            return l.addresses() + " keepalive";
        } else if (listed instanceof Listed.Enciphered l) {
            return l.addresses() + " enciphered exchange " + l.exchange() + " id " + hex32(l.id());
        } else if (listed instanceof Listed.Read l) {
            String counted = " exchange " + l.message().exchange() + " payloads " + l.message().payloads();
            return l.addresses() + counted + payloads(carriedMessage(original, record));
        } else if (listed instanceof Listed.Refused l) {
            return l.addresses() + " refused " + l.refusal();
        } else if (listed instanceof Listed.ShortPacket l) {
            return named(l.addresses(), l.protocol()) + " refused " + l.refusal();
        }
        Listed.Packet packet = (Listed.Packet) listed;
        String numbered = " " + hex32(packet.spi()) + " number " + packet.number();
        return named(packet.addresses(), packet.protocol()) + numbered + " " + verdict(packet.verdict());
    }

    private static String named(Addresses addresses, int protocol) {
        return addresses + (protocol == 2 ? " AH" : " ESP");
    }

    private static String verdict(Verdict verdict) {
        if (verdict instanceof Verdict.Accepted accepted) {
            return "accepted " + accepted.rise();
        }
        return "refused " + ((Verdict.Refused) verdict).refusal();
    }

    /** The message of a record that is listed as one that reads. */
    private static byte[] carriedMessage(long original, byte[] record) throws Refusal {
        Carried carried = Tallowbrim.carried(original, record);
        if (carried instanceof Carried.KeyExchange part) {
            return part(record, part.start(), part.length());
        }
        Carried.Port4500 part = (Carried.Port4500) carried;
        byte[] datagram = part(record, part.start(), part.length());
        Datagram.KeyExchange message = (Datagram.KeyExchange) Tallowbrim.datagram(datagram);
        return part(datagram, message.start(), message.length());
    }

    private static byte[] part(byte[] bytes, int start, int length) {
        return Arrays.copyOfRange(bytes, start, start + length);
    }

    // ---- quick mode

    /** An end, and its kept buffers, of which it is lent the fronts. */
    private static final class Seat {
        final Role role;
        private final byte[] sent = new byte[ROOM];
        private final byte[] got = new byte[ROOM];
        private byte[] lentSent = new byte[End.BUFFER];
        private byte[] lentGot = new byte[End.BUFFER];
        private byte[] output = new byte[End.BUFFER];
        private byte[] nonce;
        private Optional<End> end = Optional.empty();

        Seat(Role role) {
            this.role = role;
        }

        String fresh(long initiatorCookie, long responderCookie, byte[] book, long ah, long esp, byte[] nonce) throws Refusal {
            End made = End.fresh(role, initiatorCookie, responderCookie, book, ah, esp, nonce);
            this.nonce = nonce;
            Arrays.fill(sent, (byte) 0);
            Arrays.fill(got, (byte) 0);
            lend(made, lentSent.length, lentGot.length, output.length);
            return "fresh";
        }

        String room(int sentRoom, int gotRoom, int outputRoom) {
            if (end.isEmpty()) {
                return "none";
            }
            keep();
            lend(end.get(), sentRoom, gotRoom, outputRoom);
            return "room";
        }

        private void lend(End stood, int sentRoom, int gotRoom, int outputRoom) {
            lentSent = Arrays.copyOf(sent, sentRoom);
            lentGot = Arrays.copyOf(got, gotRoom);
            output = new byte[outputRoom];
            end = Optional.of(new End(stood.record(), lentSent, lentGot, output));
        }

        private void keep() {
            System.arraycopy(lentSent, 0, sent, 0, lentSent.length);
            System.arraycopy(lentGot, 0, got, 0, lentGot.length);
        }

        String begin(long id, byte[] first, byte[] second) throws Refusal {
            return end.isEmpty() ? "none" : "send " + word(end.get().begin(id, first, second));
        }

        String deliver(boolean hashHolds, byte[] message) throws Refusal {
            return end.isEmpty() ? "none" : sending(end.get().deliver(hashHolds, message));
        }

        String tick() throws Refusal {
            return end.isEmpty() ? "none" : sending(end.get().tick());
        }

        private static String sending(Optional<byte[]> message) {
            return message.map(bytes -> "send " + word(bytes)).orElse("nothing");
        }

        String state() throws Refusal {
            if (end.isEmpty()) {
                return "none";
            }
            Standing standing = end.get().standing();
            String name = standing.state().name().toLowerCase(Locale.ROOT).replace('_', '-');
            String text = name + " sends " + standing.sends();
            return standing.got() == 0 ? text : text + values(end.get().agreed(), standing.got());
        }

        private String values(Agreed agreed, int size) {
            keep();
            byte[] message = Arrays.copyOf(got, size);
            boolean own = role == Role.INITIATOR;
            byte[] other = Tallowbrim.nonce(own ? Role.RESPONDER : Role.INITIATOR, message, message);
            return " set " + agreed.set() + " transforms" + numbers(agreed.transforms())
                + " initiator-spis" + spis(agreed.initiatorSpis()) + " responder-spis" + spis(agreed.responderSpis())
                + " initiator-nonce " + word(own ? nonce : other) + " responder-nonce " + word(own ? other : nonce);
        }

        private static String spis(List<Long> spis) {
            return spis.stream().map(spi -> " " + hex32(spi)).collect(Collectors.joining());
        }

        String kept() {
            return end.isEmpty() ? "none" : "kept " + word(lentSent) + " " + word(lentGot);
        }
    }

    // ---- capture

    private static String cause(HeaderCause cause) {
        if (cause instanceof HeaderCause.NothingWrong) {
            return "nothing wrong";
        } else if (cause instanceof HeaderCause.TooShort) {
            return "too short";
        } else if (cause instanceof HeaderCause.Pcapng) {
            return "pcapng";
        } else if (cause instanceof HeaderCause.Nanoseconds) {
            return "nanoseconds";
        } else if (cause instanceof HeaderCause.OtherVersion other) {
            return "version " + other.major() + " " + other.minor();
        } else if (cause instanceof HeaderCause.CheckSequences) {
            return "check sequences";
        }
        return cause instanceof HeaderCause.OtherLinkType other ? "link type " + other.number() : "no capture";
    }

    private String capture(byte[] file) {
        StringJoiner lines = new StringJoiner("\n", "", "\n").setEmptyValue("");
        try {
            list(file, lines);
        } catch (Refusal refusal) {
            lines.add("refused " + refusal.number());
        }
        return lines.toString();
    }

    private void list(byte[] file, StringJoiner lines) throws Refusal {
        ByteOrder order = Tallowbrim.fileHeader(file);
        int at = 24;
        for (int number = 1; at < file.length; number++) {
            Optional<RecordHeader> header = Tallowbrim.recordHeader(order, Arrays.copyOfRange(file, at, file.length));
            String line = number + " at " + at;
            if (header.isEmpty()) {
                lines.add(line + " cut short");
                return;
            }
            RecordHeader record = header.get();
            line += " %d.%06d ".formatted(record.seconds(), record.microseconds());
            at += 16;
            if (file.length - at < record.length()) {
                lines.add(line + "cut short");
                return;
            }
            lines.add(line + frame(record.original(), Arrays.copyOfRange(file, at, at + record.length())));
            at += record.length();
        }
    }

    // ---- verdict

    /** What stands behind a book in its file is the message's first, as for ./verdict. */
    private static String verdict(byte[] bookFile, byte[] messageFile) {
        byte[] both = Arrays.copyOf(bookFile, bookFile.length + messageFile.length);
        System.arraycopy(messageFile, 0, both, bookFile.length, messageFile.length);
        int size = Math.min(bookSize(both), both.length);
        byte[] message = Arrays.copyOfRange(both, size, both.length);
        StringBuilder text = new StringBuilder();
        try {
            byte[] book = Arrays.copyOf(both, size);
            Tallowbrim.book(book);
            Message read = Tallowbrim.message(message);
            text.append("exchange " + read.exchange() + " payloads " + read.payloads() + "\n");
            for (Payload payload : Tallowbrim.payloads(message)) {
                text.append("payload " + payload.type() + " at " + payload.start() + " length " + payload.length() + "\n");
            }
            Choice choice = Tallowbrim.choose(book, message);
            text.append("chosen set " + choice.set() + " line " + choice.line() + " transforms" + numbers(choice.transforms()) + "\n");
        } catch (Refusal e) {
            // Behind payloads 16 says that there is no offer, of which nothing is said.
            if (text.isEmpty() || e.number() != 16) {
                text.append("refused " + e.number() + "\n");
            }
        }
        return text.toString();
    }

    /** By its two counts: four bytes for each main line, six for each quick line. */
    private static int bookSize(byte[] bytes) {
        int mainLines = bytes.length == 0 ? 0 : 1 + 4 * (bytes[0] & 255);
        return mainLines < bytes.length ? mainLines + 1 + 6 * (bytes[mainLines] & 255) : bytes.length;
    }
}
