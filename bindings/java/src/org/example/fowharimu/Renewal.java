package org.example.fowharimu;

import java.time.Duration;

/**
 * When keys by URL are fetched, until when they are used, and who waits for a fetch: the library decides, by {@code fow_renewal_ask} and the calls beside it. Its
 * calls are made under a lock, by one monotonic clock that is read under it.
 */
final class Renewal {
    /** How many numbers {@code fow_renewal} has. */
    private static final int NUMBERS = 15;

    /** {@code enum fow_fetch} */
    private static final int NO_FETCH = 0;

    private static final int BEGINS = 1;

    private static final long NANOS = 1_000_000;

    private final long start = System.nanoTime();
    private final long[] state = new long[NUMBERS];

    Renewal(Fetching how) {
        // (a fetch has its whole timeout)
        long timeout = millis(how.timeout().plusNanos(NANOS - 1));
        Native.renewalBegin(state, millis(how.refreshAfter()), millis(how.cooldown()), millis(how.maxAge()), timeout, now());
    }

    /** Who asks: {@code enum fow_asker}. */
    enum Asker {
        TOKEN,
        REFUSED,
        OWNER,
        WAITED
    }

    /**
     * What is answered.
     *
     * @param hasKeys whether there are keys to be used
     * @param keys their ticket
     * @param until the moment until which nobody need ask
     * @param begins whether a fetch begins, which whoever asked makes
     * @param isUnderWay whether that fetch or another is under way
     * @param ticket the ticket of the fetch
     */
    record Answer(boolean hasKeys, long keys, long until, boolean begins, boolean isUnderWay, long ticket) {}

    private static long millis(Duration time) {
        return time.toMillis();
    }

    /** The moment, in milliseconds. */
    long now() {
        return (System.nanoTime() - start) / NANOS;
    }

    /** Which keys are to be used, and whether a fetch begins; for a token that was refused, by the keys of this ticket. */
    Answer ask(Asker asker, long keys) {
        long now = now();
        long[] said = new long[5];
        Native.renewalAsk(state, now, asker.ordinal(), keys, said);
        long until = said[4] > Long.MAX_VALUE - now ? Long.MAX_VALUE : now + said[4];
        return new Answer(said[0] != 0, said[1], until, said[2] == BEGINS, said[2] != NO_FETCH, said[3]);
    }

    /** Whether the keys of that fetch count; else they are to be dropped. */
    boolean took(long ticket) {
        return Native.renewalTook(state, now(), ticket);
    }

    /** That fetch gave no keys. */
    void failed(long ticket) {
        Native.renewalFailed(state, now(), ticket);
    }

    /** Whether a token of this {@code kid} may wait for that fetch. */
    boolean await(long ticket, String kid) {
        return Native.renewalWait(state, now(), ticket, kid.hashCode());
    }
}
