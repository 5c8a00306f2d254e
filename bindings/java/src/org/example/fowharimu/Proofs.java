package org.example.fowharimu;

import java.lang.ref.Cleaner;
import java.lang.ref.Reference;
import java.util.Objects;

/**
 * A policy for proofs of possession (DPoP, RFC 9449; docs/POSSESSION.md of the repository), and the memory in which each is taken that is accepted, since it counts once (section
 * 11.1). {@link Asking#proof} has a call ask for a proof by it.
 *
 * <p>Threads share it, and are answered side by side. {@link #close} frees what it holds, the memory aside, and else that is freed some time after the object is unreachable. A
 * call with a closed one throws IllegalStateException; one for which memory is refused throws OutOfMemoryError.
 */
public final class Proofs implements AutoCloseable {
    private final Policy policy;
    private final Once once;
    private final Cleaner.Cleanable cleanable;

    /**
     * Reads a policy for proofs. Room in the memory is needed for as many proofs as are accepted within the policy's {@code max_age} and its leeway.
     *
     * @param policy a JSON text of at most 65,536 octets in UTF-8; it isn't looked at after this
     * @param once where proofs are taken; several may share it, and tokens that count once too
     * @throws Refused where it isn't a policy for proofs, of {@link Refused.Kind#POLICY}
     * @throws UnsatisfiedLinkError where there is no library for this machine, or one of another interface
     */
    public Proofs(byte[] policy, Once once) throws Refused {
        byte[] document = Objects.requireNonNull(policy, "policy").clone();
        this.once = Objects.requireNonNull(once, "once");
        Native.check();
        int[] fault = new int[1];
        long first = Native.openProofs(document, fault);
        if (first == 0) {
            throw Validator.documentRefused(fault[0], document);
        }
        this.policy = new Policy(document);
        this.policy.give(new Seats.Seat(first));
        cleanable = Seats.CLEANER.register(this, this.policy);
    }

    /** Frees what is held; what was taken stays in the memory. It may be called twice. Calls that are under way end as if it weren't closed. */
    @Override
    public void close() {
        cleanable.clean();
    }

    /**
     * The names of the algorithms of the policy, with a space between two: what a challenge names.
     *
     * @return the names
     */
    public String algs() {
        Seats.Seat seat = take();
        try {
            return Text.of(Native.proofAlgs(seat.at, policy.document.length));
        } finally {
            give(seat);
        }
    }

    /** A policy that no other call has. */
    Seats.Seat take() {
        return policy.take();
    }

    /** Gives it back. Until then this object isn't cleaned, though nothing else may refer to it. */
    void give(Seats.Seat seat) {
        policy.give(seat);
        Reference.reachabilityFence(this);
    }

    /** Takes the proof that this policy has accepted just now, at that moment. */
    void take(Seats.Seat accepted, long now) throws Refused {
        once.takeProof(accepted, now);
    }

    /** A policy's document, and the handles on it. */
    private static final class Policy extends Seats {
        private final byte[] document;

        Policy(byte[] document) {
            super("the policy for proofs is closed");
            this.document = document;
        }

        @Override
        long another() {
            return Native.openProofs(document, new int[1]);
        }

        @Override
        void end() {}

        @Override
        void free(long at) {
            Native.closeProofs(at);
        }
    }
}
