package org.example.fowharimu;

import java.util.Optional;
import java.util.OptionalInt;

/**
 * What became of a signature.
 *
 * @param state its state
 * @param fault of {@link State#BARRED} why; else empty
 * @param key of {@link State#VERIFIED} the number, from 0, of the key that verified it; else empty
 */
public record SignatureState(State state, Optional<String> fault, OptionalInt key) {
    /** The states of a signature. */
    public enum State {
        /** No key was tried on it, for a fault. */
        BARRED,
        /** No key is eligible. */
        NO_KEY,
        /** Each eligible key was tried, and none verified it. */
        BAD_SIGNATURE,
        /** A key verified it, the first that is eligible and does. */
        VERIFIED,
        /** The run ended before it. */
        NOT_REACHED,
        /** The run stopped at one of its pairs. */
        STOPPED
    }
}
