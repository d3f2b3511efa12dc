package fantanolive;

/** What is checked of the arguments and the answer of a call. */
final class Checks {
    private Checks() {}

    static void notNegative(String name, long number) {
        if (number < 0) {
            throw new IllegalArgumentException(name + " must not be negative");
        }
    }

    static void atLeast(String name, int length, int wanted) {
        if (length < wanted) {
            throw new IllegalArgumentException(name + " must have room for " + wanted + " numbers");
        }
    }

    static void done(String call, long answer, long place) {
        if (answer != 0) {
            throw new Refused(call, answer, place);
        }
    }
}
