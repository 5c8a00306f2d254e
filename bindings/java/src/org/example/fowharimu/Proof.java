package org.example.fowharimu;

import java.util.Objects;

/**
 * A proof of possession (DPoP, RFC 9449), and the request that it comes with. Threads may share an object.
 *
 * <pre>{@code
 * Proof proof = new Proof(proofs, request.getHeader("DPoP"), request.getMethod(), "https://api.example/things");
 * String claims = validator.validate(token, new Asking().proof(proof));
 * }</pre>
 */
public final class Proof {
    private static final byte[] NOT_ASKED = {};
    /** {@code FOW_PROOF_OTHER_NONCE} */
    private static final int OTHER_NONCE = 1303;

    private final Proofs proofs;
    private final byte[] value;
    private final byte[] method;
    private final byte[] uri;
    private final byte[] nonce;
    private final Nonces nonces;

    /**
     * A proof to a request.
     *
     * @param proofs the policy by which it is judged, and the memory in which it is taken
     * @param value the value of the request's only header {@code DPoP}: a request that has none, or several, is refused before
     * @param method the request's method, by case
     * @param uri what the client sees, with scheme and host, which behind a proxy come from the configuration; its query and fragment aren't looked at
     */
    public Proof(Proofs proofs, String value, String method, String uri) {
        this(Objects.requireNonNull(proofs, "proofs"), Text.octets(value), Text.octets(method), Text.octets(uri), NOT_ASKED, null);
    }

    private Proof(Proofs proofs, byte[] value, byte[] method, byte[] uri, byte[] nonce, Nonces nonces) {
        this.proofs = proofs;
        this.value = value;
        this.method = method;
        this.uri = uri;
        this.nonce = nonce;
        this.nonces = nonces;
    }

    /**
     * The same where the service asked for a nonce.
     *
     * @param nonce the nonce
     * @return the proof that has to have it
     * @throws IllegalArgumentException for one that is empty: where none was asked for, this isn't called
     */
    public Proof nonce(String nonce) {
        if (nonce.isEmpty()) {
            throw new IllegalArgumentException("a nonce isn't empty: where none was asked for, it is left out");
        }
        return new Proof(proofs, value, method, uri, Text.octets(nonce), nonces);
    }

    /**
     * The same where the proof has to have one of these nonces.
     *
     * @param nonces the nonces
     * @return the proof that has to have one of them
     */
    public Proof nonces(Nonces nonces) {
        return new Proof(proofs, value, method, uri, nonce, Objects.requireNonNull(nonces, "nonces"));
    }

    /** Judges it beside the token that this seat of a validator has accepted just now, at that moment. What is given is closed when the call ends. */
    Shown judge(Seats.Seat accepted, long now) throws Refused {
        Shown shown = new Shown(proofs, proofs.take());
        int[] fault = new int[1];
        try {
            int status = Native.judgeProof(shown.seat.at, accepted.at, value, method, uri, nonce, now, fault);
            if (status == Native.OK && nonces != null) {
                status = nonces.fresh(shown.seat, now);
                fault[0] = OTHER_NONCE;
            }
            if (status == Native.REFUSED || status == Native.NOT_EXPECTED) {
                throw new Refused(Refused.Kind.NOT_HELD, Native.faultName(fault[0]), Outcome.ofProof(status, fault[0]));
            }
            if (status != Native.OK) {
                throw new OutOfMemoryError("fowharimu: an allocation was refused");
            }
            return shown;
        } catch (Throwable e) {
            shown.close();
            throw e;
        }
    }

    /** A proof that was accepted, in the policy that keeps it. Closing it gives that back. */
    record Shown(Proofs proofs, Seats.Seat seat) implements AutoCloseable {
        /** Takes it, at the moment at which it was judged. */
        void take(long now) throws Refused {
            proofs.take(seat, now);
        }

        @Override
        public void close() {
            proofs.give(seat);
        }
    }
}
