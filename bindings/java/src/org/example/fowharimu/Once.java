package org.example.fowharimu;

import java.lang.ref.Cleaner;
import java.lang.ref.Reference;
import java.time.Instant;

/**
 * A memory of tokens that count once, by their issuer and {@code jti}, each until its {@code exp} and the policy's leeway. A {@link Validator} that is opened
 * with it takes what it accepts and what meets the access rule, as its last step: so each token is let in once, and refused after that by the kind
 * {@link Refused.Kind#NOT_TAKEN}. Whoever calls answers a request by one call of {@code validate}; {@code judge} takes nothing. The moment is then the
 * clock's: one far in the future closes the memory.
 *
 * <p>Validators may share it, whatever their policies, and threads, under a lock. A token is let in once a memory: several processes or machines
 * need one store that they share, which says in one step that issuer and {@code jti} are new, and holds them from then on. {@link #close} frees what it holds,
 * and else that is freed some time after the object is unreachable. A call on a validator over a closed memory throws IllegalStateException; one for which
 * memory is refused throws OutOfMemoryError.
 */
public final class Once implements AutoCloseable {
    /** What became of a token that isn't taken, by the numbers of enum fow_taken. */
    private static final String[] WHY = {null, null, "Seen", "Late", "Full", "NoId", "NoEnd", "Ahead", "OwnFull", "Before"};

    private final Memory memory;
    private final Cleaner.Cleanable cleanable;

    /**
     * Makes an empty memory. Room is needed for as many tokens as are accepted within the lifetime of one: where it is too small, good tokens are refused. Of one owner, an
     * issuer with a {@code sub}, it takes a sixteenth at most. What was issued up to this second is refused, so that a restart refuses some tokens and lets none in
     * twice.
     *
     * @param tokens for how many tokens there is room, each of which takes some 190 octets, 310 with a {@code sub}
     * @throws IllegalArgumentException for a number below 1
     * @throws UnsatisfiedLinkError where there is no library for this machine, or one of another interface
     */
    public Once(int tokens) {
        this(tokens, Math.max(1, tokens / 16), Instant.now().plusSeconds(1));
    }

    /**
     * Makes an empty memory that knows everything from a moment on.
     *
     * @param tokens for how many tokens there is room
     * @param share how many one owner may have, an issuer with a {@code sub}
     * @param opened the moment: what was issued before, by its {@code iat} and the leeway, is refused, and so is a token without {@code iat}. With {@link Instant#EPOCH} it lets in
     *     each token once more
     * @throws IllegalArgumentException for a number below 1, and for a moment before 1970
     * @throws UnsatisfiedLinkError where there is no library for this machine, or one of another interface
     */
    public Once(int tokens, int share, Instant opened) {
        if (tokens < 1 || share < 1) {
            throw new IllegalArgumentException("tokens and share have to be 1 or more");
        }
        if (opened.getEpochSecond() < 0) {
            throw new IllegalArgumentException("opened has to be a moment from 1970 on");
        }
        Native.check();
        long at = Native.openOnce(tokens, share, opened.getEpochSecond());
        if (at == 0) {
            throw new OutOfMemoryError("fowharimu: an allocation was refused");
        }
        memory = new Memory(at);
        cleanable = Seats.CLEANER.register(this, memory);
    }

    /** Frees what is held, and forgets what was taken. It may be called twice. */
    @Override
    public void close() {
        cleanable.clean();
    }

    /** Takes the token that this seat of a validator has accepted just now, at that moment. */
    void take(Seats.Seat accepted, long now) throws Refused {
        take(false, (at, taken) -> Native.takeOnce(at, accepted.at, now, taken));
    }

    /** Takes the proof that this seat of a policy for proofs has accepted just now, at that moment. */
    void takeProof(Seats.Seat accepted, long now) throws Refused {
        take(true, (at, taken) -> Native.takeProof(at, accepted.at, now, taken));
    }

    /** Takes by this call of the library. */
    private void take(boolean isProof, Taking call) throws Refused {
        int[] taken = new int[1];
        int status = memory.take(call, taken);
        Reference.reachabilityFence(this);
        if (status == Native.REFUSED) {
            throw new Refused(Refused.Kind.NOT_TAKEN, WHY[taken[0]], Outcome.ofTaken(isProof, status, taken[0]));
        }
        if (status != Native.OK) {
            throw new OutOfMemoryError("fowharimu: an allocation was refused");
        }
    }

    /** A call of the library that takes something in a memory. */
    private interface Taking {
        int in(long at, int[] taken);
    }

    /** What the library holds, of which one call at a time is made. Running it frees that. */
    private static final class Memory implements Runnable {
        private long at;

        Memory(long at) {
            this.at = at;
        }

        synchronized int take(Taking call, int[] taken) {
            if (at == 0) {
                throw new IllegalStateException("the memory of tokens that count once is closed");
            }
            return call.in(at, taken);
        }

        @Override
        public synchronized void run() {
            if (at != 0) {
                Native.closeOnce(at);
            }
            at = 0;
        }
    }
}
