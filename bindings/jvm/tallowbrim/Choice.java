package tallowbrim;

import java.util.List;

/** What a book chooses of a message: a set by its proposal number, a line, counted from 1, and for each proposal of the set a transform. */
public record Choice(int set, int line, List<Integer> transforms) {}
