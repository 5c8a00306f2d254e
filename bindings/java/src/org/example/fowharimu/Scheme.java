package org.example.fowharimu;

import java.util.Set;

/** A scheme of the header {@code Authorization}. */
public enum Scheme {
    /** RFC 6750. */
    BEARER(1),
    /** RFC 9449, section 7.1: the request has a proof of possession beside the token. */
    DPOP(2);

    private final int number;

    Scheme(int number) {
        this.number = number;
    }

    /** The number of several, their sum. */
    static int number(Set<Scheme> schemes) {
        return schemes.stream().mapToInt(it -> it.number).sum();
    }
}
