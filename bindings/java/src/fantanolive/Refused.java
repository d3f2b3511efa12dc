package fantanolive;

/** A call answered a refusal; nothing was written. */
public final class Refused extends RuntimeException {
    private static final long serialVersionUID = 1;

    private final String call;
    private final long number;
    private final long place;

    Refused(String call, long number, long place) {
        super(message(call, number, place));
        this.call = call;
        this.number = number;
        this.place = place;
    }

    private static String message(String call, long number, long place) {
        Refusal refusal = Refusal.of(number);
        String at = number == Refusal.NO_COUNTERPART.number() ? " (at byte " + place + ")" : "";
        String words = refusal == null ? "unknown refusal" : refusal.wrong() + at + "; " + refusal.where() + "; " + refusal.mend();
        return call + ": refusal " + number + ": " + words;
    }

    /** The call's name, without fantanolive_. */
    public String call() {
        return call;
    }

    /** The refusal; null where the library answered a number that this class doesn't know. */
    public Refusal refusal() {
        return Refusal.of(number);
    }

    /** The refusal's number. */
    public long number() {
        return number;
    }

    /** With refusal 16 the place of the byte, the first being 0; else -1. */
    public long place() {
        return number == Refusal.NO_COUNTERPART.number() ? place : -1;
    }
}
