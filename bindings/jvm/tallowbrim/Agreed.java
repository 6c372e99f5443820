package tallowbrim;

import java.util.List;

/** What the two ends agreed on: a set, and for each of its proposals a transform and an SPI of either end. */
public record Agreed(int set, List<Integer> transforms, List<Long> initiatorSpis, List<Long> responderSpis) {}
