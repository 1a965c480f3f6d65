package rendezvous;

/**
 * A client number that nobody else has, until it is given back, and the incarnation that it is used in.
 *
 * @param client the number
 * @param incarnation the incarnation, above each that this process used
 * @param end what gives the number back
 */
record Lease(long client, long incarnation, Runnable end) {
    /** Gives the number back; the second time it does nothing. */
    void giveBack() {
        end.run();
    }
}
