package org.example.fowharimu;

import java.nio.charset.StandardCharsets;
import java.time.Duration;
import java.time.Instant;

/**
 * The nonces that a service asks of proofs (RFC 9449, section 8), by a secret and the time: each is good for the period in which it is given and for the next one. Nothing is kept of
 * them, and processes that share a secret ask for the same. Threads share an object.
 */
public final class Nonces {
    private static final int LEAST = 32;

    private final byte[] secret;
    private final int period;

    /**
     * Nonces of a secret.
     *
     * @param secret at least 32 random octets
     * @param period for how long a nonce is given, in whole seconds
     * @throws IllegalArgumentException for a shorter secret, and for a period that isn't from 1 to 2,147,483,647 whole seconds
     */
    public Nonces(byte[] secret, Duration period) {
        boolean isWhole = period.getNano() == 0 && period.getSeconds() >= 1 && period.getSeconds() <= Integer.MAX_VALUE;
        if (secret.length < LEAST || !isWhole) {
            throw new IllegalArgumentException("a secret of nonces has at least 32 octets, and their period is from 1 to 2147483647 whole seconds");
        }
        Native.check();
        this.secret = secret.clone();
        this.period = (int) period.getSeconds();
    }

    /**
     * The nonce of now, the value of a header {@code DPoP-Nonce}.
     *
     * @return the nonce
     */
    public String now() {
        return at(Instant.now());
    }

    /**
     * The nonce of a moment.
     *
     * @param now the moment
     * @return the nonce
     */
    public String at(Instant now) {
        return new String(Native.nonce(secret, period, now.getEpochSecond()), StandardCharsets.US_ASCII);
    }

    /** What a policy for proofs says of the proof that it has accepted just now, at that moment: FOW_OK where it has one of these nonces. */
    int fresh(Seats.Seat accepted, long now) {
        return Native.freshProof(accepted.at, secret, period, now);
    }
}
