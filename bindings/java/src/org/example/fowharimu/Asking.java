package org.example.fowharimu;

import java.time.Instant;
import java.util.ArrayList;
import java.util.List;
import java.util.Objects;

/**
 * What one call asks of a token beside its validator: an access rule, what this login or this request knows of its claims, that its sender holds the key that it is bound to,
 * another moment than the clock's. Each method gives another object, and leaves this one as it is. The rule is held first, then the expectations in their order, then the
 * sender; a proof and a token that counts once are taken last ({@link Proofs}, {@link Once}).
 *
 * <pre>{@code
 * String claims = validator.validate(token, new Asking().text("nonce", sent).halfHash("at_hash", accessToken));
 * }</pre>
 *
 * <p>Claims are named as in an access rule: by their name, or by a JSON Pointer (RFC 6901), which begins with {@code /}. Threads may share an object.
 */
public final class Asking {
    /** The names of enum fow_unmet. */
    private static final String[] WHY = {"Other", "Absent", "Other"};

    private final Instant now;
    private final Access access;
    private final List<Expectation> expected;
    private final Sender sender;

    /** Asks for nothing beside. */
    public Asking() {
        this(null, null, List.of(), new Sender(false, null, null));
    }

    private Asking(Instant now, Access access, List<Expectation> expected, Sender sender) {
        this.now = now;
        this.access = access;
        this.expected = expected;
        this.sender = sender;
    }

    /**
     * Judges at another moment than the clock's.
     *
     * @param now the moment, of which a fraction of a second is left out
     * @return what is asked then
     */
    public Asking at(Instant now) {
        return new Asking(Objects.requireNonNull(now, "now"), access, expected, sender);
    }

    /**
     * Has the claims meet an access rule.
     *
     * @param access the access rule
     * @return what is asked then
     */
    public Asking access(Access access) {
        return new Asking(now, Objects.requireNonNull(access, "access"), expected, sender);
    }

    /**
     * Expects a claim to be this very text, octet by octet, as the {@code nonce} that was sent with a login, or the subject of a session. A list that holds the
     * text isn't the text.
     *
     * @param claim the claim
     * @param text the text
     * @return what is asked then
     */
    public Asking text(String claim, String text) {
        return expecting(new Expectation(claim, Text.octets(claim), Text.octets(text), false));
    }

    /**
     * Expects a claim to be the half of a text's hash, by the algorithm of the signature that was verified: {@code at_hash} is of the access token beside an ID
     * token, and {@code c_hash} of the code (OpenID Connect Core 1.0, sections 3.1.3.8 and 3.3.2.11).
     *
     * @param claim the claim
     * @param text the text
     * @return what is asked then
     */
    public Asking halfHash(String claim, String text) {
        return expecting(new Expectation(claim, Text.octets(claim), Text.octets(text), true));
    }

    private Asking expecting(Expectation one) {
        List<Expectation> all = new ArrayList<>(expected);
        all.add(one);
        return new Asking(now, access, List.copyOf(all), sender);
    }

    /**
     * Asks that the sender holds the key that the token is bound to, by a proof of possession (DPoP, RFC 9449). Where that isn't shown, the token is refused by the kind
     * {@link Refused.Kind#NOT_HELD}, and where the proof was taken before by {@link Refused.Kind#NOT_TAKEN}.
     *
     * @param proof the proof, and the request that it comes with
     * @return what is asked then
     */
    public Asking proof(Proof proof) {
        return new Asking(now, access, expected, new Sender(sender.unbound, sender.der, Objects.requireNonNull(proof, "proof")));
    }

    /**
     * Asks that the token is bound to the certificate of the client, by {@code x5t#S256} in its {@code cnf} (RFC 8705, section 3). Where it isn't, it is refused by the kind
     * {@link Refused.Kind#NOT_HELD}, as {@code OtherCertificate}.
     *
     * @param der the certificate in DER, as whoever ended TLS has it
     * @return what is asked then
     */
    public Asking certificate(byte[] der) {
        return new Asking(now, access, expected, new Sender(sender.unbound, der.clone(), sender.proof));
    }

    /**
     * Asks that the token is bound to nothing, as a service does that takes tokens of bearers: else whoever stole it could use it (RFC 9449, section 7.2). Where it is bound, it
     * is refused by the kind {@link Refused.Kind#NOT_HELD}, as {@code Bound}. Without this, and without a proof or a certificate, nothing is asked of the sender.
     *
     * @return what is asked then
     */
    public Asking unbound() {
        return new Asking(now, access, expected, new Sender(true, sender.der, sender.proof));
    }

    /** The moment at which a token is judged, in seconds since 1970-01-01T00:00:00Z. */
    long moment() {
        return (now == null ? Instant.now() : now).getEpochSecond();
    }

    /** Holds what is asked against the token that this seat of a validator has accepted just now. */
    void hold(Seats.Seat accepted) throws Refused, Denied {
        if (access != null) {
            access.hold(accepted);
        }
        for (Expectation it : expected) {
            it.hold(accepted);
        }
        sender.hold(accepted);
    }

    /**
     * The proof that was accepted beside that token, at the moment of its verdict, and is to be taken; null where none is asked for. Each way in which the token is bound is shown by it and
     * by the certificate that is asked for.
     */
    Proof.Shown shown(Seats.Seat accepted, long moment) throws Refused {
        Proof.Shown shown = sender.proof == null ? null : sender.proof.judge(accepted, moment);
        try {
            sender.show(accepted, shown);
        } catch (Throwable e) {
            if (shown != null) {
                shown.close();
            }
            throw e;
        }
        return shown;
    }

    /** What is asked of the sender: that the token isn't bound, that it is bound to a certificate, or null, and a proof, or null. */
    private record Sender(boolean unbound, byte[] der, Proof proof) {
        /** {@code FOW_BOUND_CERTIFICATE} */
        private static final int BY_CERTIFICATE = 2;
        private static final byte[] NO_CERTIFICATE = {};

        void hold(Seats.Seat accepted) throws Refused {
            if (unbound && ways(accepted, 0, NO_CERTIFICATE, new int[2]) < 0) {
                throw new Refused(Refused.Kind.NOT_HELD, "Bound", null, 0, 0);
            }
        }

        void show(Seats.Seat accepted, Proof.Shown shown) throws Refused {
            if (der == null && shown == null) {
                return;
            }
            int[] said = new int[2];
            int ways = ways(accepted, shown == null ? 0 : shown.seat().at, der == null ? NO_CERTIFICATE : der, said);
            if (ways < 0) {
                throw new Refused(Refused.Kind.NOT_HELD, Native.faultName(said[1]), null, 0, 0);
            }
            if (der != null && (ways & BY_CERTIFICATE) == 0) {
                throw new Refused(Refused.Kind.NOT_HELD, "OtherCertificate", null, 0, 0);
            }
        }

        /** How the token is bound, where each way is shown; below 0 where one isn't, and the fault is written. */
        private static int ways(Seats.Seat accepted, long proofs, byte[] der, int[] said) {
            return switch (Native.shown(accepted.at, proofs, der, said)) {
                case Native.OK -> said[0];
                case Native.REFUSED -> -1;
                default -> throw new OutOfMemoryError("fowharimu: an allocation was refused");
            };
        }
    }

    /** What is expected of a claim: a text, or that of which it is the half hash. */
    private record Expectation(String name, byte[] claim, byte[] text, boolean isHashed) {
        void hold(Seats.Seat accepted) throws Refused {
            int[] unmet = new int[1];
            int status = isHashed
                    ? Native.expectHalfHash(accepted.at, (int) accepted.report[Native.SIGNATURE], claim, text, unmet)
                    : Native.expectText(accepted.at, claim, text, unmet);
            switch (status) {
                case Native.OK -> { }
                case Native.NOT_EXPECTED -> throw new Refused(Refused.Kind.NOT_EXPECTED, WHY[unmet[0]], name, 0, 0);
                case Native.REFUSED -> throw new IllegalArgumentException("what is expected has to be a text without lone surrogates");
                default -> throw new OutOfMemoryError("fowharimu: an allocation was refused");
            }
        }
    }
}
