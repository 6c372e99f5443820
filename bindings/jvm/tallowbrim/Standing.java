package tallowbrim;

/** Where an end stands: its state, how often its message was sent, and how many bytes the messages have that it sent and got. */
public record Standing(State state, int sends, int sent, int got) {
    public enum State {
        IDLE,
        SENT,
        HALF,
        OPEN,
        GIVEN_UP
    }
}
