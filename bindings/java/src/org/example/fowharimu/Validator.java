package org.example.fowharimu;

import java.lang.ref.Cleaner;
import java.lang.ref.Reference;
import java.time.Instant;
import java.util.ArrayList;
import java.util.List;
import java.util.Objects;
import java.util.Optional;
import java.util.OptionalInt;
import java.util.function.Function;

/**
 * A policy and a key set, by which JSON Web Tokens (RFC 7519) are judged. What is said of a token is proved.
 *
 * <p>Threads share it, and judge side by side. {@link #close} frees what it holds, and else that is freed some time after the object is
 * unreachable. A call on a closed validator throws IllegalStateException; one for which memory is refused throws OutOfMemoryError. A thread that
 * calls has at least 128 KiB of stack.
 *
 * <pre>{@code
 * try (Validator validator = new Validator(policy, keys)) {
 *     String claims = validator.validate(token);
 * } catch (Refused refusal) {
 *     ... refusal.fault() ...
 * }
 * }</pre>
 */
public final class Validator implements Judging {
    private static final String[] CLAIMS = {null, "iss", "sub", "aud", "exp", "nbf", "iat", "jti"};
    private static final String[] PARTS = {null, "payload", "protected", "signature"};

    private final Seats seats;
    private final Cleaner.Cleanable cleanable;
    /** Where tokens are taken that count once; null where none are. */
    private final Once once;
    private final String issuer;
    private final int limit;
    private final boolean isPublic;

    /**
     * Reads a policy and a key set.
     *
     * @param policy a JSON text, as the program {@code jwt} takes it
     * @param keys a JSON Web Key Set (RFC 7517, section 5)
     * @throws Refused where one is refused
     * @throws UnsatisfiedLinkError where there is no library for this machine, or one of another interface
     */
    public Validator(byte[] policy, byte[] keys) throws Refused {
        this(policy, keys, new Remember());
    }

    /**
     * Reads a policy and a key set, and remembers accepted tokens.
     *
     * @param policy a JSON text, as the program {@code jwt} takes it
     * @param keys a JSON Web Key Set (RFC 7517, section 5)
     * @param remember how many tokens of how many octets are remembered
     * @throws Refused where one is refused
     * @throws UnsatisfiedLinkError where there is no library for this machine, or one of another interface
     */
    public Validator(byte[] policy, byte[] keys, Remember remember) throws Refused {
        this(policy, keys, remember, Optional.empty());
    }

    /**
     * Reads a policy and a key set, and lets each token in once.
     *
     * @param policy a JSON text, as the program {@code jwt} takes it
     * @param keys a JSON Web Key Set (RFC 7517, section 5)
     * @param once where tokens are taken
     * @throws Refused where one is refused
     * @throws UnsatisfiedLinkError where there is no library for this machine, or one of another interface
     */
    public Validator(byte[] policy, byte[] keys, Once once) throws Refused {
        this(policy, keys, new Remember(), once);
    }

    /**
     * Reads a policy and a key set, remembers accepted tokens, and lets each token in once.
     *
     * @param policy a JSON text, as the program {@code jwt} takes it
     * @param keys a JSON Web Key Set (RFC 7517, section 5)
     * @param remember how many tokens of how many octets are remembered
     * @param once where tokens are taken
     * @throws Refused where one is refused
     * @throws UnsatisfiedLinkError where there is no library for this machine, or one of another interface
     */
    public Validator(byte[] policy, byte[] keys, Remember remember, Once once) throws Refused {
        this(policy, keys, remember, Optional.of(Objects.requireNonNull(once, "once")));
    }

    /** As the others, with a memory of tokens that count once, where there is one. */
    Validator(byte[] policy, byte[] keys, Remember remember, Optional<Once> once) throws Refused {
        Objects.requireNonNull(remember, "remember");
        this.once = once.orElse(null);
        Native.check();
        // (arrays that another thread changes meanwhile are copied in C before they are read)
        int[] fault = new int[1];
        long documents = Native.open(Objects.requireNonNull(policy, "policy"), Objects.requireNonNull(keys, "keys"), fault);
        if (documents == 0) {
            throw documentRefused(fault[0], policy);
        }
        try {
            issuer = Text.of(Native.soleIssuer(documents));
            limit = Native.tokenLimit(documents);
            isPublic = Native.isPublic(documents);
            seats = new Documents(documents, remember);
            cleanable = Seats.CLEANER.register(this, seats);
        } catch (Throwable e) {
            Native.close(documents);
            throw e;
        }
    }

    /**
     * The claims of a token that is accepted at the clock's moment.
     *
     * @param token the token
     * @return the payload: a JSON text
     * @throws Refused where the token isn't accepted
     */
    @Override
    public String validate(String token) throws Refused {
        return validate(token, Instant.now());
    }

    /**
     * The claims of a token that is accepted at a moment.
     *
     * @param token the token
     * @param now the moment, of which a fraction of a second is left out
     * @return the payload: a JSON text
     * @throws Refused where the token isn't accepted
     */
    @Override
    public String validate(String token, Instant now) throws Refused {
        return validate(Text.octets(token), now.getEpochSecond());
    }

    /**
     * The claims of a token that is accepted at a moment.
     *
     * @param token the token's octets
     * @param now the moment, in seconds since 1970-01-01T00:00:00Z
     * @return the payload: a JSON text
     * @throws Refused where the token isn't accepted
     */
    @Override
    public String validate(byte[] token, long now) throws Refused {
        Seats.Seat seat = seats.take();
        try {
            accept(seat, token, now);
            return taken(seat, now, null);
        } finally {
            give(seat);
        }
    }

    /**
     * The claims of a token that is accepted at the clock's moment, and whose claims meet an access rule.
     *
     * @param token the token
     * @param access the access rule
     * @return the payload: a JSON text
     * @throws Refused where the token isn't accepted
     * @throws Denied where it is accepted, and its claims don't meet the rule
     */
    @Override
    public String validate(String token, Access access) throws Refused, Denied {
        return validate(token, Instant.now(), access);
    }

    /**
     * The claims of a token that is accepted at a moment, and whose claims meet an access rule.
     *
     * @param token the token
     * @param now the moment, of which a fraction of a second is left out
     * @param access the access rule
     * @return the payload: a JSON text
     * @throws Refused where the token isn't accepted
     * @throws Denied where it is accepted, and its claims don't meet the rule
     */
    @Override
    public String validate(String token, Instant now, Access access) throws Refused, Denied {
        return validate(Text.octets(token), now.getEpochSecond(), access);
    }

    /**
     * The claims of a token that is accepted at a moment, and whose claims meet an access rule.
     *
     * @param token the token's octets
     * @param now the moment, in seconds since 1970-01-01T00:00:00Z
     * @param access the access rule
     * @return the payload: a JSON text
     * @throws Refused where the token isn't accepted
     * @throws Denied where it is accepted, and its claims don't meet the rule
     */
    @Override
    public String validate(byte[] token, long now, Access access) throws Refused, Denied {
        Objects.requireNonNull(access, "access");
        Seats.Seat seat = seats.take();
        try {
            accept(seat, token, now);
            access.hold(seat);
            return taken(seat, now, null);
        } finally {
            give(seat);
        }
    }

    @Override
    public String validate(byte[] token, Asking asking) throws Refused, Denied {
        long now = asking.moment();
        Seats.Seat seat = seats.take();
        try {
            accept(seat, token, now);
            asking.hold(seat);
            try (Proof.Shown shown = asking.shown(seat, now)) {
                return taken(seat, now, shown);
            }
        } finally {
            give(seat);
        }
    }

    /**
     * All that is said of a token at the clock's moment.
     *
     * @param token the token
     * @return the verdict: a refusal stands in it
     */
    @Override
    public Verdict judge(String token) {
        return judge(token, Instant.now());
    }

    /**
     * All that is said of a token at a moment.
     *
     * @param token the token
     * @param now the moment, of which a fraction of a second is left out
     * @return the verdict: a refusal stands in it
     */
    @Override
    public Verdict judge(String token, Instant now) {
        return judge(Text.octets(token), now.getEpochSecond());
    }

    /**
     * All that is said of a token at a moment.
     *
     * @param token the token's octets
     * @param now the moment, in seconds since 1970-01-01T00:00:00Z
     * @return the verdict: a refusal stands in it
     */
    @Override
    public Verdict judge(byte[] token, long now) {
        Seats.Seat seat = seats.take();
        try {
            Optional<Refused> refusal = Optional.ofNullable(judge(seat, token, now));
            Optional<String> claims = refusal.isEmpty() ? Optional.of(payload(seat)) : Optional.empty();
            long[] said = seat.report;
            boolean remembered = Native.remembered(seat.at);
            return new Verdict(
                    refusal, claims, (int) said[Native.SIGNATURE], (int) said[Native.KEY], said[Native.WORK], states(seat), tries(seat), remembered);
        } finally {
            give(seat);
        }
    }

    /**
     * The protected header of a signature. Anyone may have written it.
     *
     * @param token the token
     * @param signature the signature's number, from 0
     * @return a JSON text, which is empty where a token in JSON form has none; nothing where the octets are no token, or have no such signature
     */
    public Optional<String> unverifiedHeader(String token, int signature) {
        byte[] octets = Text.octets(token);
        if (signature < 0) {
            throw new IllegalArgumentException("a signature's number has to be 0 or more");
        }
        return Optional.ofNullable(Text.of(header(octets, signature)));
    }

    /** As {@link #unverifiedHeader}, by a token's octets; null for nothing. */
    byte[] header(byte[] token, int signature) {
        return with(seat -> Native.header(seat.at, token, signature));
    }

    @Override
    public Optional<String> issuer() {
        return Optional.ofNullable(issuer);
    }

    @Override
    public int limit() {
        return limit;
    }

    /**
     * Whether everyone may read the keys: no algorithm of the policy is HMAC, and no key a shared secret (RFC 8725, section 2.1).
     *
     * @return whether that is so
     */
    public boolean isPublic() {
        return isPublic;
    }

    @Override
    public Optional<String> unverifiedIssuer(byte[] token) throws Refused {
        int[] status = new int[1];
        Seats.Seat seat = seats.take();
        try {
            String named = Text.of(Native.named(seat.at, Objects.requireNonNull(token, "token"), status));
            if (status[0] == Native.ABSENT) {
                // (what is no token is refused for its form, whatever the moment is)
                accept(seat, token, 0);
            }
            return Optional.ofNullable(named);
        } finally {
            give(seat);
        }
    }

    /**
     * Issues claims as a token, signed by HMAC.
     *
     * @param claims a JSON text
     * @param how the algorithm, the form, the key and the header's {@code typ}
     * @return the token
     * @throws Refused where nothing is issued
     */
    public String issue(String claims, Issuing how) throws Refused {
        return issue(Text.octets(claims), how);
    }

    /**
     * Issues claims as a token, signed by HMAC.
     *
     * @param claims a JSON text in UTF-8
     * @param how the algorithm, the form, the key and the header's {@code typ}
     * @return the token
     * @throws Refused where nothing is issued
     */
    public String issue(byte[] claims, Issuing how) throws Refused {
        Objects.requireNonNull(claims, "claims");
        byte[] type = Text.octets(how.type());
        Seats.Seat seat = seats.take();
        try {
            byte[] token = Native.issue(
                    seat.at, how.algorithm().ordinal() + 1, how.form().ordinal() + 1, how.key(), type, claims, seat.report);
            if (token == null) {
                throw notIssued(seat.report);
            }
            return Text.of(token);
        } finally {
            give(seat);
        }
    }

    /** Frees what is held. It may be called twice. Calls that are under way end as if it weren't closed. */
    @Override
    public void close() {
        cleanable.clean();
    }

    private <T> T with(Function<Seats.Seat, T> call) {
        Seats.Seat seat = seats.take();
        try {
            return call.apply(seat);
        } finally {
            give(seat);
        }
    }

    /** Gives a seat back. Until then this object isn't cleaned, though nothing else may refer to it. */
    private void give(Seats.Seat seat) {
        seats.give(seat);
        Reference.reachabilityFence(this);
    }

    private static void accept(Seats.Seat seat, byte[] token, long now) throws Refused {
        Refused refusal = judge(seat, token, now);
        if (refusal != null) {
            throw refusal;
        }
    }

    /** Why a token isn't accepted; null where it is. */
    private static Refused judge(Seats.Seat seat, byte[] token, long now) {
        int verdict = Native.judge(seat.at, Objects.requireNonNull(token, "token"), now, seat.report);
        if (verdict == Native.OK) {
            return null;
        }
        if (verdict != Native.REFUSED) {
            throw lackMemory();
        }
        return refusal(seat);
    }

    private static Refused refusal(Seats.Seat seat) {
        int fault = (int) seat.report[Native.FAULT];
        int signature = (int) seat.report[Native.SIGNATURE];
        String name = Native.faultName(fault);
        return switch (fault / 100) {
            case 3 -> new Refused(Refused.Kind.TOO_LONG, name, null, 0, 0);
            case 4 -> new Refused(Refused.Kind.FORM, name, PARTS[(int) seat.report[Native.PART]], signature, 0);
            case 5 -> new Refused(Refused.Kind.CEILING, name, null, signature, (int) seat.report[Native.KEY]);
            case 6 -> new Refused(Refused.Kind.SIGNATURE, name, null, signature, 0);
            default -> new Refused(Refused.Kind.CLAIMS, name, claim(seat), 0, 0);
        };
    }

    private static String claim(Seats.Seat seat) {
        int claim = (int) seat.report[Native.CLAIM];
        return claim < CLAIMS.length ? CLAIMS[claim] : Text.of(Native.refusedClaim(seat.at));
    }

    /**
     * The payload of the token that was accepted just now, with this proof, or null. They are taken last, so that nothing which fails has used them up; a client makes another
     * proof, and no other token.
     */
    private String taken(Seats.Seat seat, long now, Proof.Shown shown) throws Refused {
        String claims = payload(seat);
        if (shown != null) {
            shown.take(now);
        }
        if (once != null) {
            once.take(seat, now);
        }
        return claims;
    }

    private static String payload(Seats.Seat seat) {
        byte[] payload = Native.payload(seat.at);
        if (payload == null) {
            throw lackMemory();
        }
        return Text.of(payload);
    }

    private static List<SignatureState> states(Seats.Seat seat) {
        List<SignatureState> states = new ArrayList<>();
        int[] said = new int[3];
        while (Native.state(seat.at, states.size(), said)) {
            SignatureState.State state = SignatureState.State.values()[said[0] - 1];
            Optional<String> fault = state == SignatureState.State.BARRED ? Optional.of(Native.faultName(said[1])) : Optional.empty();
            OptionalInt key = state == SignatureState.State.VERIFIED ? OptionalInt.of(said[2]) : OptionalInt.empty();
            states.add(new SignatureState(state, fault, key));
        }
        return List.copyOf(states);
    }

    private static List<Try> tries(Seats.Seat seat) {
        List<Try> tries = new ArrayList<>();
        long[] said = new long[3];
        while (tries.size() < seat.report[Native.TRIES] && Native.tried(seat.at, tries.size(), said)) {
            tries.add(new Try((int) said[0], (int) said[1], said[2]));
        }
        return List.copyOf(tries);
    }

    private static Refused notIssued(long[] report) {
        if (report[0] == Native.OUT_OF_MEMORY) {
            throw lackMemory();
        }
        if (report[0] != Native.REFUSED) {
            throw new IllegalArgumentException("the type has to be a text without lone surrogates");
        }
        int claim = (int) report[Native.CLAIM];
        String about = claim < CLAIMS.length ? CLAIMS[claim] : null;
        return new Refused(Refused.Kind.ISSUE, Native.faultName((int) report[Native.FAULT]), about, (int) report[Native.SIGNATURE], 0);
    }

    /** Why a policy or a key set is refused. Throws OutOfMemoryError where it isn't. */
    static Refused documentRefused(int fault, byte[] policy) {
        if (fault == 0) {
            throw lackMemory();
        }
        String name = Native.faultName(fault);
        return fault / 100 == 2
                ? new Refused(Refused.Kind.KEYS, name, null, 0, 0)
                : new Refused(Refused.Kind.POLICY, name, Text.of(Native.refusedMember(policy)), 0, 0);
    }

    private static OutOfMemoryError lackMemory() {
        return new OutOfMemoryError("fowharimu: an allocation was refused");
    }

    /** What a validator holds: its documents, and the handles on them. */
    private static final class Documents extends Seats {
        private final long at;
        private final Remember remember;

        Documents(long at, Remember remember) {
            super("the validator is closed");
            this.at = at;
            this.remember = remember;
        }

        @Override
        long another() {
            long seat = Native.openBeside(at);
            if (seat != 0 && Native.remember(seat, remember.tokens(), remember.octets()) != Native.OK) {
                Native.close(seat);
                return 0;
            }
            return seat;
        }

        @Override
        void end() {
            Native.close(at);
        }

        @Override
        void free(long seat) {
            Native.close(seat);
        }
    }
}
