package tallowbrim;

/** A loss line: the highest accepted number, how many of the last numbers are looked at, and how many of those were accepted. */
public record LossLine(long highest, long span, long count) {
    static LossLine of(long[] out) {
        return new LossLine(out[0], out[1], out[2]);
    }
}
