package tallowbrim;

import java.io.IOException;
import java.io.InputStreamReader;
import java.io.Reader;
import java.io.UncheckedIOException;
import java.nio.charset.StandardCharsets;
import java.util.Properties;

/** The answer of a call that is refused; nothing that was lent to it has changed. The message is the number and what it says. */
public final class Refusal extends Exception {
    private static final long serialVersionUID = 1;

    private final int number;

    Refusal(int number) {
        super(number + ": " + Sentences.ALL.getProperty(Integer.toString(number), "no sentence"));
        this.number = number;
    }

    /** Its number in docs/NUMBERS.md. */
    public int number() {
        return number;
    }

    /** The sentences of docs/NUMBERS.md, which the build puts beside the classes. */
    private static final class Sentences {
        static final Properties ALL = new Properties();

        static {
            try (Reader text = new InputStreamReader(Refusal.class.getResourceAsStream("numbers.properties"), StandardCharsets.UTF_8)) {
                ALL.load(text);
            } catch (IOException e) {
                throw new UncheckedIOException(e);
            }
        }
    }
}
