import java.io.IOException;
import java.io.UncheckedIOException;
import java.nio.file.Files;
import java.nio.file.Path;
import java.time.Instant;
import java.util.ArrayList;
import java.util.HashMap;
import java.util.List;
import java.util.Map;
import java.util.concurrent.ExecutionException;
import java.util.concurrent.ExecutorService;
import java.util.concurrent.Executors;
import java.util.concurrent.Future;
import java.util.concurrent.TimeUnit;

/** Bursts of calls by threads: a burst begins where the clock is a multiple of a burst and a pause, so that threads and processes begin together. */
final class Bursts {
    private static final long PAUSE = 20_000_000;
    private static final int CALLS = 16;
    private static final int WARMING = 60_000;
    private static final long LONGEST_WARMING = 3_000_000_000L;

    private Bursts() {}

    /** A call that is measured. */
    interface Call {
        void make() throws Exception;
    }

    /**
     * Prints how many calls a second so many threads made in a burst in which none of them was switched out or began late, the median of these bursts, and
     * how many there were.
     *
     * @param burst how long a burst is, in nanoseconds, as {@code length} is of all
     */
    static void print(int threads, long length, long burst, Call call) throws Exception {
        long warm = clock() + LONGEST_WARMING;
        for (int n = 0; n < WARMING && clock() < warm; n++) {
            call.make();
        }
        long end = clock() + length;
        ExecutorService pool = Executors.newFixedThreadPool(threads);
        List<Future<Map<Long, Double>>> made = new ArrayList<>();
        for (int n = 0; n < threads; n++) {
            made.add(pool.submit(() -> rates(burst, end, call)));
        }
        pool.shutdown();
        List<Double> calm = calm(made);
        System.out.printf("%.0f %d%n", calm.isEmpty() ? 0 : calm.get(calm.size() / 2), calm.size());
    }

    /** The rates of all threads together in the bursts in which none was disturbed, in ascending order. */
    private static List<Double> calm(List<Future<Map<Long, Double>>> made) throws InterruptedException, ExecutionException {
        Map<Long, Double> sums = new HashMap<>(made.get(0).get());
        for (Future<Map<Long, Double>> others : made.subList(1, made.size())) {
            Map<Long, Double> rates = others.get();
            sums.keySet().retainAll(rates.keySet());
            sums.replaceAll((n, rate) -> rate + rates.get(n));
        }
        return sums.values().stream().sorted().toList();
    }

    /** Calls in bursts until this moment, and gives the calls a second of each in which the thread wasn't disturbed, by the number of the burst. */
    private static Map<Long, Double> rates(long burst, long end, Call call) throws Exception {
        Map<Long, Double> rates = new HashMap<>();
        long period = burst + PAUSE;
        for (long n = clock() / period + 1; n * period < end; n++) {
            // (read before the pause, since reading it takes part of a burst)
            long before = switchedOut();
            TimeUnit.NANOSECONDS.sleep(n * period - clock());
            double rate = rate(n * period, before, burst, call);
            if (rate > 0) {
                rates.put(n, rate);
            }
        }
        return rates;
    }

    /** The calls a second of a burst that begins at this moment; 0 where the thread was disturbed, which had been switched out so often before. */
    private static double rate(long start, long before, long burst, Call call) throws Exception {
        long late = clock() - start, began = System.nanoTime(), took = 0;
        int calls = 0;
        while (took < burst - late) {
            for (int n = 0; n < CALLS; n++) {
                call.make();
            }
            calls += CALLS;
            took = System.nanoTime() - began;
        }
        return late > burst / 8 || switchedOut() != before ? 0 : calls * 1e9 / took;
    }

    /** How often this thread was switched out. */
    private static long switchedOut() {
        try {
            String last = Files.readString(Path.of("/proc/thread-self/status")).stripTrailing();
            return Long.parseLong(last.substring(last.lastIndexOf('\t') + 1));
        } catch (IOException e) {
            throw new UncheckedIOException(e);
        }
    }

    private static long clock() {
        Instant now = Instant.now();
        return now.getEpochSecond() * 1_000_000_000 + now.getNano();
    }
}
