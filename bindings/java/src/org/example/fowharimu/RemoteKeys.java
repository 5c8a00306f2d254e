package org.example.fowharimu;

import java.io.IOException;
import java.net.URI;
import java.net.http.HttpClient;
import java.nio.charset.StandardCharsets;
import java.time.Duration;
import java.util.Objects;
import java.util.Optional;

/**
 * A policy, and a key set at a URL, which is fetched at once, and again as {@code docs/REMOTE-KEYS.md} says: in the background; where a token is refused for
 * want of a key or by a bad signature, at most once a cool-down. For a fetch at most four tokens wait, one for each {@code kid}; the others are refused at once.
 * Where a fetch fails, the keys stay until they are too old: from then on each token is refused by the kind {@link Refused.Kind#KEYS_TOO_OLD}. Threads share
 * it. A call on closed keys throws IllegalStateException.
 *
 * <pre>{@code
 * try (RemoteKeys keys = new RemoteKeys(policy, "https://issuer.example/keys")) {
 *     String claims = keys.validate(token);
 * }
 * }</pre>
 */
public final class RemoteKeys implements Judging {
    private static final byte[] NO_KEYS = "{\"keys\":[]}".getBytes(StandardCharsets.UTF_8);

    private final byte[] policy;
    private final URI address;
    private final Fetching how;
    private final Remember remember;
    /** One memory of tokens that count once for all key sets that come. */
    private final Optional<Once> once;
    private final HttpClient client;
    private volatile Validator validator;
    /** What a token is judged by until it has to ask again: so no lock is taken for each. Null where it has to. */
    private volatile Used quiet;
    // What follows is guarded by this object's lock.
    private final Renewal renewal;
    private Fetch fetch;
    private boolean isClosed;
    private Exception error;

    /**
     * Fetches a key set, as {@link Fetching#Fetching()} says.
     *
     * @param policy a JSON text, as the program {@code jwt} takes it
     * @param url where the key set stands
     * @throws Refused where the policy is refused
     * @throws KeysUnavailable where the keys can't be fetched
     * @throws IllegalArgumentException for a URL that isn't https, has no host, or has a name, a password or a fragment in it, and for a policy with an HMAC
     *     algorithm, since what is fetched is public
     */
    public RemoteKeys(byte[] policy, String url) throws Refused, KeysUnavailable {
        this(policy, url, new Fetching());
    }

    /**
     * Fetches a key set.
     *
     * @param policy a JSON text, as the program {@code jwt} takes it
     * @param url where the key set stands
     * @param how how it is fetched
     * @throws Refused where the policy is refused
     * @throws KeysUnavailable where the keys can't be fetched
     * @throws IllegalArgumentException as of {@link #RemoteKeys(byte[], String)}
     */
    public RemoteKeys(byte[] policy, String url, Fetching how) throws Refused, KeysUnavailable {
        this(policy, url, how, new Remember());
    }

    /**
     * Fetches a key set, and remembers accepted tokens. New keys begin a new memory.
     *
     * @param policy a JSON text, as the program {@code jwt} takes it
     * @param url where the key set stands
     * @param how how it is fetched
     * @param remember how many tokens of how many octets are remembered
     * @throws Refused where the policy is refused
     * @throws KeysUnavailable where the keys can't be fetched
     * @throws IllegalArgumentException as of {@link #RemoteKeys(byte[], String)}
     */
    public RemoteKeys(byte[] policy, String url, Fetching how, Remember remember) throws Refused, KeysUnavailable {
        this(policy, url, how, remember, Optional.empty());
    }

    /**
     * Fetches a key set, and lets each token in once. What was taken stays so under new keys.
     *
     * @param policy a JSON text, as the program {@code jwt} takes it
     * @param url where the key set stands
     * @param how how it is fetched
     * @param once where tokens are taken
     * @throws Refused where the policy is refused
     * @throws KeysUnavailable where the keys can't be fetched
     * @throws IllegalArgumentException as of {@link #RemoteKeys(byte[], String)}
     */
    public RemoteKeys(byte[] policy, String url, Fetching how, Once once) throws Refused, KeysUnavailable {
        this(policy, url, how, new Remember(), once);
    }

    /**
     * Fetches a key set, remembers accepted tokens, and lets each token in once. New keys begin a new memory of accepted tokens; what was taken stays so.
     *
     * @param policy a JSON text, as the program {@code jwt} takes it
     * @param url where the key set stands
     * @param how how it is fetched
     * @param remember how many tokens of how many octets are remembered
     * @param once where tokens are taken
     * @throws Refused where the policy is refused
     * @throws KeysUnavailable where the keys can't be fetched
     * @throws IllegalArgumentException as of {@link #RemoteKeys(byte[], String)}
     */
    public RemoteKeys(byte[] policy, String url, Fetching how, Remember remember, Once once) throws Refused, KeysUnavailable {
        this(policy, url, how, remember, Optional.of(Objects.requireNonNull(once, "once")));
    }

    private RemoteKeys(byte[] policy, String url, Fetching how, Remember remember, Optional<Once> once)
            throws Refused, KeysUnavailable {
        this.policy = publicPolicy(policy, null);
        this.address = Urls.checked(url, how.allowsHttp());
        this.how = how;
        this.remember = Objects.requireNonNull(remember, "remember");
        this.once = once;
        this.client = Fetch.client(how);
        this.renewal = new Renewal(how);
        if (!refresh()) {
            throw new KeysUnavailable(error().orElseGet(() -> new IOException("it takes too long")));
        }
    }

    /**
     * Fetches the keys of an issuer, whose URL its metadata tell (OpenID Connect Discovery 1.0, section 4; where there is none, RFC 8414, section 3). The
     * metadata are read once, under the same rules: their {@code issuer} has to be that very text, and the policy's {@code issuers} exactly that one.
     *
     * @param policy a JSON text, as the program {@code jwt} takes it
     * @param issuer the issuer
     * @param how how it is fetched
     * @return the keys
     * @throws Refused where the policy is refused
     * @throws KeysUnavailable where the metadata or the keys can't be fetched, or are of another issuer
     * @throws IllegalArgumentException for an issuer from which nothing is fetched, and for a policy with an HMAC algorithm or other issuers
     */
    public static RemoteKeys discover(byte[] policy, String issuer, Fetching how) throws Refused, KeysUnavailable {
        return discover(policy, issuer, how, Optional.empty());
    }

    /**
     * Fetches the keys of an issuer, as {@link #discover(byte[], String, Fetching)} does, and lets each token in once.
     *
     * @param policy a JSON text, as the program {@code jwt} takes it
     * @param issuer the issuer
     * @param how how it is fetched
     * @param once where tokens are taken
     * @return the keys
     * @throws Refused where the policy is refused
     * @throws KeysUnavailable where the metadata or the keys can't be fetched, or are of another issuer
     * @throws IllegalArgumentException for an issuer from which nothing is fetched, and for a policy with an HMAC algorithm or other issuers
     */
    public static RemoteKeys discover(byte[] policy, String issuer, Fetching how, Once once) throws Refused, KeysUnavailable {
        return discover(policy, issuer, how, Optional.of(Objects.requireNonNull(once, "once")));
    }

    private static RemoteKeys discover(byte[] policy, String issuer, Fetching how, Optional<Once> once) throws Refused, KeysUnavailable {
        publicPolicy(policy, issuer);
        Urls.checked(issuer, how.allowsHttp());
        URI metadata = Urls.metadata(Urls.Asked.OPENID, issuer);
        String url;
        try {
            url = keysUrl(issuer, metadata, how);
        } catch (IOException | IllegalArgumentException e) {
            throw new KeysUnavailable(e);
        }
        return new RemoteKeys(policy, url, how, new Remember(), once);
    }

    /** As {@link Validator#validate(byte[], long)}. The refusal may be of the kind {@link Refused.Kind#KEYS_TOO_OLD} too. */
    @Override
    public String validate(byte[] token, long now) throws Refused {
        return by(token, (Validator it) -> it.validate(token, now));
    }

    /** As {@link Validator#validate(byte[], long, Access)}. The refusal may be of the kind {@link Refused.Kind#KEYS_TOO_OLD} too. */
    @Override
    public String validate(byte[] token, long now, Access access) throws Refused, Denied {
        Call<String, Denied> call = it -> it.validate(token, now, access);
        return by(token, call);
    }

    /** As {@link Validator#validate(byte[], Asking)}. The refusal may be of the kind {@link Refused.Kind#KEYS_TOO_OLD} too. */
    @Override
    public String validate(byte[] token, Asking asking) throws Refused, Denied {
        Call<String, Denied> call = it -> it.validate(token, asking);
        return by(token, call);
    }

    /** As {@link Validator#judge(byte[], long)}. Where the keys are too old and none can be fetched, the verdict has that refusal and nothing else. */
    @Override
    public Verdict judge(byte[] token, long now) {
        Call<Verdict, RuntimeException> call = it -> it.judge(token, now);
        try {
            Used used = current(token);
            Verdict verdict = onceMore(used.validator(), call);
            Validator newer = verdict.accepted() ? null : newer(used, verdict.refusal().get(), token);
            return newer == null ? verdict : onceMore(newer, call);
        } catch (Refused tooOld) {
            return Issuers.refused(tooOld);
        }
    }

    @Override
    public Optional<String> issuer() {
        return held().issuer();
    }

    @Override
    public int limit() {
        return held().limit();
    }

    /** As {@link Validator#unverifiedIssuer(byte[])}, however old the keys are. */
    @Override
    public Optional<String> unverifiedIssuer(byte[] token) throws Refused {
        return onceMore(held(), (Validator it) -> it.unverifiedIssuer(token));
    }

    /**
     * Fetches the key set now, whatever the cool-down. Where a fetch is under way it waits for that one.
     *
     * @return whether that went well
     */
    public boolean refresh() {
        return ask(Renewal.Asker.OWNER, 0).under().await();
    }

    /**
     * Why the last fetch failed.
     *
     * @return the error; empty where it went well
     */
    public synchronized Optional<Exception> error() {
        return Optional.ofNullable(error);
    }

    /** Frees what is held, and drops a fetch that is under way. It may be called twice. Calls that are under way end as if it weren't closed. */
    @Override
    public synchronized void close() {
        isClosed = true;
        quiet = null;
        if (fetch != null) {
            fetch.drop();
        }
        if (validator != null) {
            validator.close();
            validator = null;
        }
    }

    /** A call on a validator. */
    private interface Call<T, E extends Exception> {
        T by(Validator it) throws Refused, E;
    }

    /** What comes of a call on the keys, and on newer ones where these may change it and can be had. */
    private <T, E extends Exception> T by(byte[] token, Call<T, E> call) throws Refused, E {
        Used used = current(token);
        try {
            return onceMore(used.validator(), call);
        } catch (Refused refusal) {
            Validator newer = newer(used, refusal, token);
            if (newer == null) {
                throw refusal;
            }
            return onceMore(newer, call);
        }
    }

    /** What comes of a call on these keys, and on newer ones where they were exchanged, and the old ones closed, before the call took them. */
    private <T, E extends Exception> T onceMore(Validator used, Call<T, E> call) throws Refused, E {
        for (Validator it = used; ; ) {
            try {
                return call.by(it);
            } catch (IllegalStateException e) {
                Validator newer = held();
                if (newer == it) {
                    throw e;
                }
                it = newer;
            }
        }
    }

    /** The validator that is held, however old its keys are. */
    private Validator held() {
        Validator it = validator;
        if (it == null) {
            throw closed();
        }
        return it;
    }

    /** What tokens are judged by, the ticket of its keys, and until when nobody need ask. */
    private record Used(Validator validator, long keys, long until) {}

    /** What is to be used, null where the keys are too old; and the fetch that whoever asked may wait for, null where there is none. */
    private record Asked(Used used, Fetch under) {}

    /** Has the library say what is to be used, and begins a fetch where it says so. */
    private synchronized Asked ask(Renewal.Asker asker, long keys) {
        if (isClosed) {
            throw closed();
        }
        Renewal.Answer said = renewal.ask(asker, keys);
        // (before a fetch begins, so that it is the old one)
        Used used = said.hasKeys() && validator != null ? new Used(validator, said.keys(), said.until()) : null;
        quiet = used;
        if (said.begins()) {
            begin(said.ticket());
        }
        return new Asked(used, said.isUnderWay() ? fetch : null);
    }

    /** What a token is judged by first. */
    private Used current(byte[] token) throws Refused {
        Used known = quiet;
        if (known != null && renewal.now() < known.until()) {
            return known;
        }
        Used used = ask(Renewal.Asker.TOKEN, 0).used();
        if (used != null) {
            return used;
        }
        await(Renewal.Asker.TOKEN, 0, token);
        Used newer = ask(Renewal.Asker.WAITED, 0).used();
        if (newer == null) {
            throw new Refused(Refused.Kind.KEYS_TOO_OLD, "KeysTooOld", null, 0, 0);
        }
        return newer;
    }

    /** Another validator than the one that was used, where newer keys may change the refusal and are there or can be fetched; else null. */
    private Validator newer(Used used, Refused refusal, byte[] token) {
        boolean asks = refusal.kind() == Refused.Kind.SIGNATURE && (refusal.fault().equals("NoKey") || refusal.fault().equals("BadSignature"));
        if (!asks) {
            return null;
        }
        await(Renewal.Asker.REFUSED, used.keys(), token);
        Validator it = validator;
        return it == used.validator() ? null : it;
    }

    /** Waits for a fetch, where there is one for which this token may wait. */
    private void await(Renewal.Asker asker, long keys, byte[] token) {
        Fetch under = ask(asker, keys).under();
        if (under != null && mayWait(under, kid(held(), token))) {
            under.await();
        }
    }

    private synchronized boolean mayWait(Fetch under, String kid) {
        return renewal.await(under.ticket, kid);
    }

    /** The {@code kid} of a token, for which nobody vouches; empty where there is none. */
    private static String kid(Validator it, byte[] token) {
        try {
            byte[] header = it.header(Objects.requireNonNull(token, "token"), 0);
            return header == null ? "" : Objects.requireNonNullElse(member(header, "kid"), "");
        } catch (IllegalStateException e) {
            // (newer keys are there already)
            return "";
        }
    }

    /** Begins a fetch, in a thread of its own, so that nobody waits for it past its deadline. The lock is held. */
    private void begin(long ticket) {
        Fetch under = new Fetch(how.timeout(), ticket);
        fetch = under;
        Thread thread = new Thread(() -> run(under), "fowharimu-keys");
        thread.setDaemon(true);
        try {
            thread.start();
        } catch (OutOfMemoryError e) {
            // (the system gives no more threads)
            exchange(under, null, new IOException(e));
            under.end(false);
        }
    }

    private void run(Fetch under) {
        byte[] keys = {};
        Validator newer = null;
        Exception failure = null;
        try {
            keys = under.get(client, address, Urls.Asked.KEYS).orElseThrow();
            newer = open(keys);
        } catch (IOException | Refused | RuntimeException e) {
            failure = e;
        } catch (Error e) {
            // (else no other fetch would begin)
            failure = new IOException(e);
        }
        failure = exchange(under, newer, failure);
        under.end(failure == null);
        how.listener().fetched(shown(), keys.length, Optional.ofNullable(failure));
    }

    /** Takes the new validator, where there is one whose keys count, in place of the old one, and ends the fetch. Gives why it failed; null where it didn't. */
    private synchronized Exception exchange(Fetch under, Validator newer, Exception failure) {
        Exception why = newer != null && !renewal.took(under.ticket) ? new IOException("it takes too long") : failure;
        renewal.failed(under.ticket);
        if (fetch == under) {
            fetch = null;
            error = why;
        }
        if (newer == null) {
            return why;
        }
        if (why != null || isClosed) {
            newer.close();
            return why;
        }
        Validator old = validator;
        quiet = null;
        validator = newer;
        if (old != null) {
            // (calls that are under way end as if it weren't closed)
            old.close();
        }
        return null;
    }

    /** The policy over keys that were fetched, among which there may be no secret (RFC 8725, section 2.1). */
    private Validator open(byte[] keys) throws Refused, IOException {
        Validator it = new Validator(policy, keys, remember, once);
        if (!it.isPublic()) {
            it.close();
            throw new IOException("it has a key of kty oct in it, which everyone may read");
        }
        return it;
    }

    /** The URL for those who are told of a fetch: without its query, in which a service may have a secret. */
    private String shown() {
        return address.toString().split("\\?", 2)[0];
    }

    /** A copy of a policy for keys by URL, and for exactly this issuer, where there is one. */
    private static byte[] publicPolicy(byte[] policy, String issuer) throws Refused {
        byte[] copy = policy.clone();
        try (Validator it = new Validator(copy, NO_KEYS)) {
            if (!it.isPublic()) {
                throw new IllegalArgumentException("a policy with an HMAC algorithm has no keys by URL, since what is fetched is public");
            }
            if (issuer != null && !it.issuer().equals(Optional.of(issuer))) {
                throw new IllegalArgumentException("the policy has to name the issuer in issuers, and no other");
            }
        }
        return copy;
    }

    /** The URL of an issuer's keys, which its metadata tell. */
    private static String keysUrl(String issuer, URI at, Fetching how) throws IOException {
        Fetch under = new Fetch(how.timeout(), 0);
        HttpClient client = Fetch.client(how);
        Optional<byte[]> metadata = under.get(client, at, Urls.Asked.OPENID);
        if (metadata.isEmpty()) {
            metadata = under.get(client, Urls.metadata(Urls.Asked.OAUTH, issuer), Urls.Asked.OAUTH);
        }
        String url = Urls.keys(metadata.orElseThrow(), issuer);
        Urls.checked(url, how.allowsHttp());
        return url;
    }

    /** The text of a member of a JSON object, as the library reads it; null where there is none. */
    private static String member(byte[] document, String name) {
        return Text.of(Native.textMember(document, name.getBytes(StandardCharsets.UTF_8)));
    }

    private static IllegalStateException closed() {
        return new IllegalStateException("the keys are closed");
    }
}
