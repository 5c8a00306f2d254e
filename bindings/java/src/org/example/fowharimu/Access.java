package org.example.fowharimu;

import java.lang.ref.Cleaner;
import java.lang.ref.Reference;
import java.util.ArrayList;
import java.util.List;
import java.util.Objects;

/**
 * An access rule: which scopes and which values of claims an accepted token has to have. {@link Validator#validate(String, Access)} holds it against
 * a token's claims. One policy may stand for a service, and one rule for each of its parts. Which claims meet a rule is proved.
 *
 * <p>Threads share it, and are answered side by side. {@link #close} frees what it holds, and else that is freed some time after the object is
 * unreachable. A call with a closed rule throws IllegalStateException; one for which memory is refused throws OutOfMemoryError.
 *
 * <pre>{@code
 * Access access = new Access("{\"scopes\":[\"read\"]}");
 * try {
 *     String claims = validator.validate(token, access);
 * } catch (Refused refusal) {
 *     ... 401 ...
 * } catch (Denied denial) {
 *     ... 403, with String.join(" ", denial.scopes()) in the challenge ...
 * }
 * }</pre>
 */
public final class Access implements AutoCloseable {
    private final Rule rule;
    private final Cleaner.Cleanable cleanable;
    private final List<String> scopes;

    /**
     * Reads an access rule.
     *
     * @param rule a JSON text of at most 65,536 octets in UTF-8, as the program {@code jwt} takes it
     * @throws Refused where it is refused, of {@link Refused.Kind#ACCESS}
     * @throws UnsatisfiedLinkError where there is no library for this machine, or one of another interface
     */
    public Access(String rule) throws Refused {
        this(Text.octets(rule));
    }

    /**
     * Reads an access rule.
     *
     * @param rule a JSON text of at most 65,536 octets in UTF-8, as the program {@code jwt} takes it; it isn't looked at after this
     * @throws Refused where it is refused, of {@link Refused.Kind#ACCESS}
     * @throws UnsatisfiedLinkError where there is no library for this machine, or one of another interface
     */
    public Access(byte[] rule) throws Refused {
        Native.check();
        byte[] document = Objects.requireNonNull(rule, "rule").clone();
        int[] fault = new int[1];
        long first = Native.openAccess(document, fault);
        if (first == 0) {
            throw ruleRefused(fault[0], document);
        }
        this.rule = new Rule(document);
        this.rule.give(new Seats.Seat(first));
        cleanable = Seats.CLEANER.register(this, this.rule);
        scopes = scopesOf(first);
        Reference.reachabilityFence(this);
    }

    /**
     * The scopes that have to be granted.
     *
     * @return the scopes, in the order of the rule
     */
    public List<String> scopes() {
        return scopes;
    }

    /** Frees what is held. It may be called twice. Calls that are under way end as if it weren't closed. */
    @Override
    public void close() {
        cleanable.clean();
    }

    /** Holds the rule against the claims of the token that this seat of a validator has accepted just now. */
    void hold(Seats.Seat accepted) throws Denied {
        Seats.Seat seat = rule.take();
        try {
            int status = Native.denied(accepted.at, seat.at, seat.report);
            if (status == Native.DENIED) {
                throw denial(accepted, seat);
            }
            if (status != Native.OK) {
                throw new IllegalStateException("no token was accepted");
            }
        } finally {
            rule.give(seat);
            Reference.reachabilityFence(this);
        }
    }

    private Denied denial(Seats.Seat accepted, Seats.Seat seat) {
        int fault = (int) seat.report[0];
        String name = Text.of(Native.deniedName(accepted.at, seat.at));
        boolean isScope = fault == Native.SCOPE_MISSING;
        return new Denied(Native.faultName(fault), isScope ? name : null, isScope ? null : name, scopes);
    }

    private static List<String> scopesOf(long at) {
        List<String> scopes = new ArrayList<>();
        for (byte[] scope = Native.accessScope(at, 0); scope != null; scope = Native.accessScope(at, scopes.size())) {
            scopes.add(Text.of(scope));
        }
        return List.copyOf(scopes);
    }

    private static Refused ruleRefused(int fault, byte[] document) {
        if (fault == 0) {
            throw new OutOfMemoryError("fowharimu: an allocation was refused");
        }
        return new Refused(Refused.Kind.ACCESS, Native.faultName(fault), Text.of(Native.accessRefused(document)), 0, 0);
    }

    /** A rule's document, and the handles on it. */
    private static final class Rule extends Seats {
        private final byte[] document;

        Rule(byte[] document) {
            super("the access rule is closed");
            this.document = document;
        }

        @Override
        long another() {
            return Native.openAccess(document, new int[1]);
        }

        @Override
        void end() {}

        @Override
        void free(long at) {
            Native.closeAccess(at);
        }
    }
}
