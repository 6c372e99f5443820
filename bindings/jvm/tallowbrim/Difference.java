package tallowbrim;

/**
 * What differs first between a reply and the offer that it answers, or what a book chooses of that. Sets and transforms are told by their
 * numbers; a protocol is that of the proposal (2 AH, 3 ESP, 1 in main mode).
 */
public sealed interface Difference {
    /** Nothing does: the reply is lawful. */
    record Nothing() implements Difference {}

    /** The offer cannot be read. */
    record OfferRefused(int refusal) implements Difference {}

    /** The book cannot be read. */
    record BookRefused(int refusal) implements Difference {}

    /** The reply cannot be read. */
    record ReplyRefused(int refusal) implements Difference {}

    /** The reply has so many sets. */
    record SeveralSets(int count) implements Difference {}

    /** The number of its set is not offered. */
    record SetNotOffered(int number) implements Difference {}

    /** Its set has other protocols than the offered one. */
    record Protocols() implements Difference {}

    /** Its set has them in another order. */
    record Order() implements Difference {}

    /** A proposal has so many transforms. */
    record SeveralTransforms(int protocol, int count) implements Difference {}

    /** The number of a transform is not offered. */
    record TransformNotOffered(int protocol, int number) implements Difference {}

    /** A transform has another ID. */
    record Id(int protocol, int number, int found, int offered) implements Difference {}

    /** A transform has other attributes. */
    record Attributes(int protocol, int number) implements Difference {}

    /** The book chooses another set. */
    record OtherSet(int found, int chosen) implements Difference {}

    /** The book chooses another transform. */
    record OtherTransform(int protocol, int found, int chosen) implements Difference {}

    /** The book chooses nothing. */
    record NothingChosen() implements Difference {}
}
