package org.example.fowharimu;

import java.io.ByteArrayOutputStream;
import java.io.IOException;
import java.io.InterruptedIOException;
import java.lang.ref.WeakReference;
import java.net.URI;
import java.net.http.HttpClient;
import java.net.http.HttpHeaders;
import java.net.http.HttpRequest;
import java.net.http.HttpResponse;
import java.net.http.HttpTimeoutException;
import java.nio.ByteBuffer;
import java.security.NoSuchAlgorithmException;
import java.time.Duration;
import java.util.List;
import java.util.Map;
import java.util.Optional;
import java.util.Set;
import java.util.WeakHashMap;
import java.util.concurrent.CancellationException;
import java.util.concurrent.CompletableFuture;
import java.util.concurrent.CountDownLatch;
import java.util.concurrent.ExecutionException;
import java.util.concurrent.Flow;
import java.util.concurrent.TimeUnit;
import java.util.concurrent.TimeoutException;
import java.util.stream.Stream;
import javax.net.ssl.SSLContext;
import javax.net.ssl.SSLParameters;

/** One fetch, which ends at its deadline. */
final class Fetch {
    /** The clients by what they trust, as long as somebody holds them: each has threads and descriptors of its own. */
    private static final Map<SSLContext, WeakReference<HttpClient>> CLIENTS = new WeakHashMap<>();

    private final long ends;
    private final CountDownLatch over = new CountDownLatch(1);
    private volatile CompletableFuture<?> answer;
    private volatile boolean isDropped;
    /** Whether it went well; it is written before it is over. */
    private volatile boolean isGood;
    /** Its number. */
    final long ticket;

    Fetch(Duration timeout, long ticket) {
        this.ticket = ticket;
        ends = System.nanoTime() + timeout.toNanos();
    }

    /** A client that uses no proxy, and follows no redirection by itself: the one that others have who trust the same. */
    static HttpClient client(Fetching how) {
        SSLContext tls = how.tls().orElseGet(Fetch::system);
        synchronized (CLIENTS) {
            WeakReference<HttpClient> held = CLIENTS.get(tls);
            HttpClient client = held == null ? null : held.get();
            if (client == null) {
                client = client(tls);
                CLIENTS.put(tls, new WeakReference<>(client));
            }
            return client;
        }
    }

    private static HttpClient client(SSLContext tls) {
        // (properties of the system may change what is checked where nothing is said of it)
        SSLParameters checks = tls.getDefaultSSLParameters();
        List<String> supported = List.of(tls.getSupportedSSLParameters().getProtocols());
        checks.setProtocols(Stream.of("TLSv1.3", "TLSv1.2").filter(supported::contains).toArray(String[]::new));
        checks.setEndpointIdentificationAlgorithm("HTTPS");
        return HttpClient.newBuilder()
                .version(HttpClient.Version.HTTP_1_1)
                .followRedirects(HttpClient.Redirect.NEVER)
                .proxy(HttpClient.Builder.NO_PROXY)
                .sslContext(tls)
                .sslParameters(checks)
                .build();
    }

    /** What trusts the authorities of the system. */
    private static SSLContext system() {
        try {
            return SSLContext.getDefault();
        } catch (NoSuchAlgorithmException e) {
            throw new IllegalStateException("the system has no TLS", e);
        }
    }

    /** What stands at a URL, with redirections followed; empty where the other metadata are to be asked for. */
    Optional<byte[]> get(HttpClient client, URI from, Urls.Asked asked) throws IOException {
        URI at = from;
        for (int followed = 0; ; followed++) {
            HttpResponse<byte[]> response = answer(client, at, asked, followed);
            switch (Urls.next(asked, response.statusCode(), followed).step()) {
                case TAKE -> {
                    checkLengths(response.headers());
                    return Optional.of(response.body());
                }
                case FOLLOW -> at = Urls.redirected(at, response.headers().firstValue("Location"));
                case ASK_OAUTH -> {
                    return Optional.empty();
                }
                case TOO_OFTEN -> throw new IOException("it redirects too often");
                default -> throw new IOException("its status is " + response.statusCode());
            }
        }
    }

    /** Says that it is over, and whether it went well. */
    void end(boolean isGood) {
        this.isGood = isGood;
        over.countDown();
    }

    /** Drops it: what it waits for is let go. */
    void drop() {
        isDropped = true;
        CompletableFuture<?> waited = answer;
        if (waited != null) {
            waited.cancel(true);
        }
    }

    /** Waits until it is over, and no longer than its deadline, and says whether it went well. A thread that is interrupted waits no longer. */
    boolean await() {
        try {
            return over.await(left(), TimeUnit.NANOSECONDS) && isGood;
        } catch (InterruptedException e) {
            Thread.currentThread().interrupt();
            return false;
        }
    }

    private long left() {
        return Math.max(0, ends - System.nanoTime());
    }

    /** Refuses an answer with two lengths, or one that is none (RFC 9110, section 8.6): who else reads it may read another one. */
    private static void checkLengths(HttpHeaders headers) throws IOException {
        List<String> lengths = headers.allValues("Content-Length");
        if (Set.copyOf(lengths).size() > 1 || !lengths.stream().allMatch(it -> it.matches("[0-9]+"))) {
            throw new IOException("it has lengths that are none");
        }
    }

    /** One answer, whole, before the deadline. */
    private HttpResponse<byte[]> answer(HttpClient client, URI at, Urls.Asked asked, int followed) throws IOException {
        HttpRequest request = HttpRequest.newBuilder(at)
                .header("Accept", "application/jwk-set+json, application/json")
                .header("Accept-Encoding", "identity")
                .build();
        Untaken untaken = new Untaken();
        CompletableFuture<HttpResponse<byte[]>> begun = client.sendAsync(request, it -> {
            Urls.Next next = Urls.next(asked, it.statusCode(), followed);
            return next.step() == Urls.Step.TAKE ? new Octets(next.most()) : untaken;
        });
        answer = begun;
        if (isDropped) {
            begun.cancel(true);
        }
        try {
            return begun.get(left(), TimeUnit.NANOSECONDS);
        } catch (TimeoutException e) {
            begun.cancel(true);
            throw new HttpTimeoutException("it takes too long");
        } catch (InterruptedException e) {
            begun.cancel(true);
            Thread.currentThread().interrupt();
            throw new InterruptedIOException("its thread was interrupted");
        } catch (CancellationException e) {
            throw new IOException("it was dropped", e);
        } catch (ExecutionException e) {
            throw e.getCause() instanceof IOException why ? why : new IOException(e.getCause());
        } finally {
            untaken.letGo();
        }
    }

    /**
     * Takes nothing of a body, which may be of any length. Its connection is let go when the answer is complete, and not before: the client
     * may else say that the answer failed.
     */
    private static final class Untaken implements HttpResponse.BodySubscriber<byte[]> {
        private Flow.Subscription subscription;
        private boolean isLetGo;

        @Override
        public CompletableFuture<byte[]> getBody() {
            return CompletableFuture.completedFuture(new byte[0]);
        }

        @Override
        public void onSubscribe(Flow.Subscription subscription) {
            synchronized (this) {
                this.subscription = subscription;
                if (!isLetGo) {
                    return;
                }
            }
            subscription.cancel();
        }

        /** Lets the connection go, where there is a body, or once there is one. */
        void letGo() {
            Flow.Subscription held;
            synchronized (this) {
                isLetGo = true;
                held = subscription;
            }
            if (held != null) {
                held.cancel();
            }
        }

        @Override
        public void onNext(List<ByteBuffer> parts) {}

        @Override
        public void onError(Throwable error) {}

        @Override
        public void onComplete() {}
    }

    /** Keeps octets as they come, and no more than are taken. */
    private static final class Octets implements HttpResponse.BodySubscriber<byte[]> {
        private final CompletableFuture<byte[]> body = new CompletableFuture<>();
        private final ByteArrayOutputStream octets = new ByteArrayOutputStream();
        private final int most;
        private Flow.Subscription subscription;

        Octets(int most) {
            this.most = most;
        }

        @Override
        public CompletableFuture<byte[]> getBody() {
            return body;
        }

        @Override
        public void onSubscribe(Flow.Subscription subscription) {
            this.subscription = subscription;
            subscription.request(Long.MAX_VALUE);
        }

        @Override
        public void onNext(List<ByteBuffer> parts) {
            for (ByteBuffer part : parts) {
                if (part.remaining() > most - octets.size()) {
                    subscription.cancel();
                    body.completeExceptionally(new IOException("it has more than " + most + " octets"));
                    return;
                }
                byte[] copy = new byte[part.remaining()];
                part.get(copy);
                octets.writeBytes(copy);
            }
        }

        @Override
        public void onError(Throwable error) {
            body.completeExceptionally(error);
        }

        @Override
        public void onComplete() {
            body.complete(octets.toByteArray());
        }
    }
}
