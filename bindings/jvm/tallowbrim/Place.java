package tallowbrim;

/** What stands at a place of an offer: the set's number, the proposal's protocol (2 AH, 3 ESP) and the transform's number. */
public record Place(int set, int protocol, int transform) {}
