package tallowbrim;

/** Of the two ends of quick mode, which. */
public enum Role {
    INITIATOR,
    RESPONDER
}
