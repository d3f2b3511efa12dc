package fantanolive;

import java.util.EnumSet;

/** The exclusions in the set of a row, the lowest bit first. Written by bin/generate-layouts from package/layouts.json; not to be edited. */
public enum Exclusion {
    ADM, RET, VEN, SAL, TAX, PAS, FIN, DCK;

    /** Its bit. */
    public int bit() {
        return 1 << ordinal();
    }

    /** The exclusions of a set. */
    public static EnumSet<Exclusion> of(int set) {
        EnumSet<Exclusion> found = EnumSet.noneOf(Exclusion.class);
        for (Exclusion exclusion : values()) {
            if ((set & exclusion.bit()) != 0) {
                found.add(exclusion);
            }
        }
        return found;
    }
}
