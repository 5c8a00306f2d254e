package org.example.fowharimu;

import java.util.Objects;

/**
 * How claims are issued.
 *
 * @param algorithm the algorithm
 * @param form the form of the token
 * @param key the number, from 0, of the key that signs; it isn't looked at for {@link Form#GENERAL}, in which each key signs
 * @param type the {@code typ} of the protected header, such as {@code at+jwt}; where it is empty, there is none
 */
public record Issuing(Algorithm algorithm, Form form, int key, String type) {
    /** The algorithms of HMAC. */
    public enum Algorithm {
        /** HMAC with SHA-256. */
        HS256,
        /** HMAC with SHA-384. */
        HS384,
        /** HMAC with SHA-512. */
        HS512
    }

    /** The forms of a token (RFC 7515, section 7). */
    public enum Form {
        /** Three texts with periods between them. */
        COMPACT,
        /** A JSON text with a list of signatures. */
        GENERAL,
        /** A JSON text with one signature. */
        FLATTENED
    }

    /**
     * Looks at what it is given.
     *
     * @param algorithm the algorithm
     * @param form the form of the token
     * @param key the number of the key that signs
     * @param type the {@code typ} of the protected header
     * @throws IllegalArgumentException for a key's number below 0
     */
    public Issuing {
        Objects.requireNonNull(algorithm, "algorithm");
        Objects.requireNonNull(form, "form");
        Objects.requireNonNull(type, "type");
        if (key < 0) {
            throw new IllegalArgumentException("a key's number has to be 0 or more");
        }
    }

    /** HS256, compact, by key 0, with no {@code typ}. */
    public Issuing() {
        this(Algorithm.HS256, Form.COMPACT, 0, "");
    }
}
