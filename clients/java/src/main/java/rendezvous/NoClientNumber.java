package rendezvous;

/**
 * There is no client number for one more session: each of the range is leased by a program of this host, or its place is
 * bound by one, or it is leased by this program, whose calls all run. Nothing was sent. Choose a greater range, or let fewer programs or calls run at a time.
 */
public final class NoClientNumber extends IllegalStateException {
    private static final long serialVersionUID = 1;

    NoClientNumber(String words) {
        super(words);
    }
}
