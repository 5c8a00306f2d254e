package org.example.fowharimu;

import java.lang.ref.Cleaner;
import java.util.concurrent.ConcurrentLinkedDeque;
import java.util.concurrent.atomic.AtomicReferenceArray;

/**
 * Handles of the library on the same documents, each of which is used by one call at a time. A call takes the seat that its thread had last, or else
 * one that is free, or opens another, and gives it back: so there are at most one for each place, and one for each call beyond these that was under
 * way at once. Running it frees all, what calls under way have when they end.
 */
abstract class Seats implements Runnable {
    /** A handle of the library, and room for what it says. */
    static final class Seat {
        final long at;
        final long[] report = new long[Native.NUMBERS];

        Seat(long at) {
            this.at = at;
        }
    }

    /** Frees what objects held that are unreachable. */
    static final Cleaner CLEANER = Cleaner.create();

    /** How many places there are by which threads come back to the seat that they had last: a power of two, two to four for each processor. */
    private static final int PLACES = 4 * Integer.highestOneBit(Runtime.getRuntime().availableProcessors());
    /** So many references apart no two places lie in one line of a cache, nor in two that a processor fetches together. */
    private static final int APART = 32;

    private final AtomicReferenceArray<Seat> places = new AtomicReferenceArray<>((PLACES + 1) * APART);
    /** The seats of calls that found their place taken when they ended. */
    private final ConcurrentLinkedDeque<Seat> free = new ConcurrentLinkedDeque<>();
    private final String closed;
    private volatile boolean isClosed;

    /** {@code closed} is what a call is told that comes too late. */
    Seats(String closed) {
        this.closed = closed;
    }

    /** The address of another handle; 0 where memory is refused. It is called under a lock, and not after {@link #end}. */
    abstract long another();

    /** Frees what handles are opened of. It is called once, under that lock. */
    abstract void end();

    /** Frees a handle. */
    abstract void free(long at);

    /** A seat that no other call has. Throws IllegalStateException where all is closed, and OutOfMemoryError. */
    final Seat take() {
        if (isClosed) {
            throw new IllegalStateException(closed);
        }
        Seat seat = places.getAndSet(place(), null);
        if (seat == null) {
            seat = free.pollFirst();
        }
        return seat == null ? open() : seat;
    }

    /** The place of this thread, which shares it with others where there are more threads than places. */
    private static int place() {
        return ((int) Thread.currentThread().getId() & PLACES - 1) * APART + APART;
    }

    /** Gives a seat back. Where all was closed meanwhile, it is freed. */
    final void give(Seat seat) {
        if (!places.compareAndSet(place(), null, seat)) {
            free.addFirst(seat);
        }
        if (isClosed) {
            closeFree();
        }
    }

    @Override
    public final void run() {
        synchronized (this) {
            if (!isClosed) {
                end();
            }
            isClosed = true;
        }
        closeFree();
    }

    private synchronized Seat open() {
        if (isClosed) {
            throw new IllegalStateException(closed);
        }
        long at = another();
        if (at == 0) {
            throw new OutOfMemoryError("fowharimu: an allocation was refused");
        }
        return new Seat(at);
    }

    private void closeFree() {
        for (int place = 0; place < places.length(); place++) {
            Seat seat = places.getAndSet(place, null);
            if (seat != null) {
                free(seat.at);
            }
        }
        for (Seat seat = free.pollFirst(); seat != null; seat = free.pollFirst()) {
            free(seat.at);
        }
    }
}
