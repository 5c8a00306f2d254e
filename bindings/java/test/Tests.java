import java.io.ByteArrayInputStream;
import java.io.ByteArrayOutputStream;
import java.io.ObjectInputStream;
import java.io.ObjectOutputStream;
import java.io.RandomAccessFile;
import java.net.InetAddress;
import java.net.InetSocketAddress;
import java.nio.charset.StandardCharsets;
import java.nio.file.Files;
import java.nio.file.Path;
import java.time.Duration;
import java.time.Instant;
import java.time.temporal.ChronoUnit;
import java.util.ArrayList;
import java.util.Collections;
import java.util.List;
import java.util.Map;
import java.util.Optional;
import java.util.concurrent.Callable;
import java.util.concurrent.ExecutorService;
import java.util.concurrent.Executors;
import java.util.concurrent.Future;
import java.util.concurrent.atomic.AtomicInteger;
import java.util.concurrent.atomic.AtomicReference;
import java.util.stream.Collectors;
import java.util.stream.Stream;

import com.sun.net.httpserver.HttpServer;
import org.example.fowharimu.Access;
import org.example.fowharimu.Asking;
import org.example.fowharimu.Denied;
import org.example.fowharimu.Fetching;
import org.example.fowharimu.Issuers;
import org.example.fowharimu.Issuing;
import org.example.fowharimu.Judging;
import org.example.fowharimu.Once;
import org.example.fowharimu.Refused;
import org.example.fowharimu.Remember;
import org.example.fowharimu.RemoteKeys;
import org.example.fowharimu.SignatureState;
import org.example.fowharimu.Try;
import org.example.fowharimu.Validator;
import org.example.fowharimu.Verdict;

/**
 * Tests TOP: the tests of this package, over the tokens of the repository at TOP. Tests TOP another NUMBER: over a library of another interface,
 * which has this number. Tests TOP refused FILE: with refuse.c of bindings/nginx preloaded, which refuses the allocation whose number stands in FILE.
 */
final class Tests {
    private static final Instant NOW = Instant.ofEpochSecond(1300819379);
    private static final String HS256 = "{\"algs\":[\"HS256\"]}";

    private final Path top;
    private final Path hmac;
    private int passed;

    private Tests(Path top) {
        this.top = top;
        this.hmac = top.resolve("examples/rfc7515-a1");
    }

    public static void main(String[] words) throws Exception {
        Tests tests = new Tests(Path.of(words[0]));
        if (words.length > 1 && words[1].equals("refused")) {
            tests.memoryRefused(Path.of(words[2]));
        } else if (words.length > 1) {
            tests.anotherLibrary(Integer.parseInt(words[2]));
        } else {
            tests.all();
        }
        System.out.println("Java: " + tests.passed + " tests passed");
    }

    interface Test {
        void run() throws Exception;
    }

    private void all() throws Exception {
        for (Test it : new Test[] {
            this::eachToken, this::ed448, this::clock, this::verdict, this::remembering, this::seats, this::refusals, this::surrogates, this::documents,
            this::mistakes, this::closing, this::issuing, this::freeing, this::threads, this::closingMeanwhile, this::ruleMet, this::denials,
            this::denialIsNoRefusal, this::rulesRefused, this::rulesOfTheDocuments, this::ruleMistakes, this::ruleClosing, this::ruleFreeing,
            this::ruleThreads, this::ruleClosingMeanwhile, this::terms, this::issuers, this::urls, this::times,
            this::longestTimes, this::clients, this::once, this::whyNotTaken, this::memories, this::onceByThreads,
            this::expected, this::halfHashes, this::expectedByMistake, this::expectedOfIssuers
        }) {
            it.run();
            passed++;
        }
    }

    /** The access token of OpenID Connect Core 1.0, appendix A.4, whose {@code at_hash} a token of the profile has, and the {@code nonce} of all. */
    private static final String ACCESS_TOKEN = "jHkWEdUXMU1BwAsC4vtUsZwnNvTIxEl0z9K3vx5KF0Y";
    private static final String NONCE = "n-0S6_WzA2Mj";

    /** A file of the profile of ID tokens. */
    private byte[] ofLogins(String name) throws Exception {
        return Files.readAllBytes(top.resolve("examples/profiles/id-token").resolve(name));
    }

    private Validator logins(Remember remember) throws Exception {
        return new Validator(ofLogins("policy.json"), ofLogins("keys.json"), remember);
    }

    /** An accepted token that isn't the one that was expected, for this reason. */
    private void notExpected(Judging it, byte[] token, Asking asking, String fault, String claim) throws Exception {
        Refused refusal = refused(() -> it.validate(token, asking.at(NOW)));
        String said = "the token isn't what was expected: " + fault + ", " + claim;
        equal(List.of(refusal.kind(), refusal.fault(), refusal.about().get(), refusal.getMessage()), List.of(Refused.Kind.NOT_EXPECTED, fault, claim, said));
    }

    private void expected() throws Exception {
        byte[] token = ofLogins("tokens/good.jwt");
        Asking login = new Asking().text("nonce", NONCE);
        try (Validator it = logins(new Remember()); Access denies = new Access("{\"scopes\":[\"read\"]}")) {
            check(it.validate(new String(token, StandardCharsets.UTF_8), login.text("/nonce", NONCE).at(NOW)).contains(NONCE), "other claims");
            check(it.validate(token, new Asking().at(NOW)).contains(NONCE), "other claims");
            for (String other : List.of("", "n-", NONCE + " ", NONCE.substring(1))) {
                notExpected(it, token, new Asking().text("nonce", other), "Other", "nonce");
            }
            notExpected(it, token, new Asking().text("exp", "1300819979"), "Other", "exp");
            notExpected(it, token, login.text("sid", "s").text("iss", ""), "Absent", "sid");
            notExpected(it, token, login.text("/nonce/a", "s"), "Absent", "/nonce/a");
            notExpected(it, ofLogins("tokens/other-nonce.jwt"), login, "Other", "nonce");
            // (behind the verdict, and behind the rule)
            equal(refused(() -> it.validate(token, new Asking().text("nonce", ""))).kind(), Refused.Kind.CLAIMS);
            thrown(Denied.class, () -> it.validate(token, new Asking().text("nonce", "").access(denies).at(NOW)));
        }
    }

    private void halfHashes() throws Exception {
        byte[] token = ofLogins("tokens/other-access-token.jwt");
        try (Validator it = logins(new Remember(2, 4096))) {
            for (int n = 0; n < 2; n++) {
                it.validate(token, new Asking().halfHash("at_hash", ACCESS_TOKEN).at(NOW));
            }
            check(it.judge(token, NOW.getEpochSecond()).remembered(), "it isn't remembered");
            notExpected(it, token, new Asking().halfHash("at_hash", "another access token"), "Other", "at_hash");
            notExpected(it, token, new Asking().halfHash("c_hash", ACCESS_TOKEN), "Absent", "c_hash");
        }
    }

    /** What is expected is there; and a token that isn't the one that was expected isn't taken. */
    private void expectedByMistake() throws Exception {
        for (Callable<?> it : List.<Callable<?>>of(
                () -> new Asking().text("nonce", null), () -> new Asking().text(null, NONCE), () -> new Asking().halfHash("at_hash", null),
                () -> new Asking().access(null), () -> new Asking().at(null))) {
            thrown(NullPointerException.class, it);
        }
        byte[] token = ofLogins("tokens/good.jwt");
        try (Once once = new Once(10, 10, Instant.EPOCH); Validator it = new Validator(ofLogins("policy.json"), ofLogins("keys.json"), once)) {
            thrown(IllegalArgumentException.class, () -> it.validate(token, new Asking().text("nonce", "\ud800").at(NOW)));
            thrown(IllegalArgumentException.class, () -> it.validate(token, new Asking().text("\ud800", NONCE).at(NOW)));
            thrown(NullPointerException.class, () -> it.validate(token, (Asking) null));
            notExpected(it, token, new Asking().text("nonce", "n"), "Other", "nonce");
            // (it has no jti, and so is asked for last)
            Refused refusal = refused(() -> it.validate(token, new Asking().text("nonce", NONCE).at(NOW)));
            equal(List.of(refusal.kind(), refusal.fault()), List.of(Refused.Kind.NOT_TAKEN, "NoId"));
        }
    }

    private void expectedOfIssuers() throws Exception {
        try (Issuers it = new Issuers(Map.of("https://server.example.com", logins(new Remember())))) {
            check(it.validate(ofLogins("tokens/good.jwt"), new Asking().text("nonce", NONCE).at(NOW)).contains(NONCE), "other claims");
            notExpected(it, ofLogins("tokens/good.jwt"), new Asking().text("nonce", "n"), "Other", "nonce");
        }
    }

    /** A validator that takes tokens in a memory, which it issues too. */
    private Validator taking(Once once) throws Exception {
        return new Validator(octets("{\"algs\":[\"HS256\"],\"leeway\":60}"), read(hmac, "keys"), once);
    }

    static byte[] issued(Validator it, String claims) throws Exception {
        return octets(it.issue(claims, new Issuing()));
    }

    /** An accepted token that isn't taken, for this reason. */
    private void notTaken(Validator it, byte[] token, long now, String fault) throws Exception {
        Refused refusal = refused(() -> it.validate(token, now));
        equal(List.of(refusal.kind(), refusal.fault(), refusal.getMessage()), List.of(Refused.Kind.NOT_TAKEN, fault, "the token counts once, and isn't taken: " + fault));
    }

    /** A token is let in once; what judges, is denied or is refused takes nothing. */
    private void once() throws Exception {
        try (Once once = new Once(10, 10, Instant.EPOCH); Validator it = taking(once); Access denies = new Access("{\"scopes\":[\"read\"]}"); Access grants = new Access("{}")) {
            byte[] token = issued(it, "{\"iss\":\"i\",\"jti\":\"a\",\"exp\":1000}");
            check(it.judge(token, 900).accepted(), "it isn't accepted");
            thrown(Denied.class, () -> it.validate(token, 900, denies));
            equal(refused(() -> it.validate(token, 1060)).kind(), Refused.Kind.CLAIMS);
            check(it.validate(token, 900, grants).contains("\"a\""), "other claims");
            notTaken(it, token, 900, "Seen");
            equal(refused(() -> it.validate(token, 900, grants)).kind(), Refused.Kind.NOT_TAKEN);
            notTaken(it, issued(it, "{\"iss\":\"i\",\"jti\":\"a\",\"exp\":1001}"), 1060, "Seen");
            it.validate(issued(it, "{\"jti\":\"a\",\"exp\":1000}"), 900);
        }
    }

    private void whyNotTaken() throws Exception {
        try (Once once = new Once(1, 1, Instant.EPOCH); Validator it = taking(once)) {
            notTaken(it, issued(it, "{\"iss\":\"i\",\"exp\":1000}"), 900, "NoId");
            notTaken(it, issued(it, "{\"iss\":\"i\",\"jti\":\"a\"}"), 900, "NoEnd");
            notTaken(it, issued(it, "{\"jti\":\"a\",\"exp\":1000,\"iat\":961}"), 900, "Ahead");
            it.validate(issued(it, "{\"jti\":\"a\",\"exp\":1000}"), 900);
            notTaken(it, issued(it, "{\"jti\":\"b\",\"exp\":2000}"), 900, "Full");
            it.validate(issued(it, "{\"jti\":\"b\",\"exp\":2000}"), 1061);
            notTaken(it, issued(it, "{\"jti\":\"a\",\"exp\":1000}"), 900, "Late");
        }
    }

    /** Validators share a memory, and none is asked that isn't there. */
    private void memories() throws Exception {
        for (int tokens : new int[] {0, -1, Integer.MIN_VALUE}) {
            thrown(IllegalArgumentException.class, () -> new Once(tokens));
        }
        thrown(NullPointerException.class, () -> taking(null));
        Once once = new Once(Integer.MAX_VALUE, Integer.MAX_VALUE, Instant.EPOCH);
        try (Validator first = taking(once); Validator second = taking(once)) {
            byte[] token = issued(first, "{\"jti\":\"a\",\"exp\":1000}");
            first.validate(token, 900);
            notTaken(second, token, 900, "Seen");
            once.close();
            once.close();
            thrown(IllegalStateException.class, () -> first.validate(token, 900));
            check(first.judge(token, 900).accepted(), "it isn't accepted");
        }
    }

    /** Of many threads one is let in. */
    private void onceByThreads() throws Exception {
        AtomicInteger letIn = new AtomicInteger();
        try (Once once = new Once(10, 10, Instant.EPOCH); Validator it = taking(once)) {
            byte[] token = issued(it, "{\"jti\":\"a\",\"exp\":1000}");
            List<Thread> threads = new ArrayList<>();
            for (int n = 0; n < 8; n++) {
                threads.add(new Thread(() -> {
                    for (int call = 0; call < 50; call++) {
                        try {
                            it.validate(token, 900);
                            letIn.incrementAndGet();
                        } catch (Refused refusal) {
                            // (it isn't taken)
                        }
                    }
                }));
            }
            threads.forEach(Thread::start);
            for (Thread thread : threads) {
                thread.join();
            }
        }
        equal(letIn.get(), 1);
    }

    private static final String SECRET = "{\"keys\":[{\"kty\":\"oct\",\"k\":\"AAAAAAAAAAAAAAAAAAAAAAAAAAAAAAAAAAAAAAAAAAA\"}]}";

    /** What a validator tells of its policy and its keys. */
    private void terms() throws Exception {
        String none = "{\"keys\":[]}";
        String longest = "a".repeat(60_000);
        Object[][] rows = {
            {"{\"algs\":[\"RS256\"]}", none, Optional.empty(), 8192, true},
            {"{\"algs\":[\"RS256\"],\"issuers\":[\"a\",\"b\"],\"limit\":7}", none, Optional.empty(), 7, true},
            {"{\"algs\":[\"RS256\"],\"issuers\":[\"" + longest + "\"]}", none, Optional.of(longest), 8192, true},
            {"{\"algs\":[\"RS256\"],\"issuers\":[\"\"]}", SECRET, Optional.of(""), 8192, false},
            {"{\"algs\":[\"RS256\",\"HS512\"]}", none, Optional.empty(), 8192, false},
        };
        for (Object[] row : rows) {
            try (Validator it = new Validator(octets((String) row[0]), octets((String) row[1]))) {
                equal(List.of(it.issuer(), it.limit(), it.isPublic()), List.of(row[2], row[3], row[4]));
            }
        }
    }

    /** Several issuers: tests/issuers has the table of what is answered. */
    private void issuers() throws Exception {
        String policy = "{\"algs\":[\"HS256\"],\"issuers\":[\"%s\"],\"limit\":%d}";
        Validator one = new Validator(octets(String.format(policy, "a", 400)), octets(SECRET));
        Validator other = new Validator(octets(String.format(policy, "b", 300)), octets(SECRET));
        Issuers both = new Issuers(Map.of("a", one, "b", other));
        equal(both.limit(), 300);
        try (Access access = new Access("{\"scopes\":[\"read\"]}")) {
            for (String claims : List.of("{\"iss\":\"a\"}", "{\"iss\":\"b\"}")) {
                String token = one.issue(claims, new Issuing());
                equal(both.validate(token), claims);
                equal(both.judge(token).claims(), Optional.of(claims));
                thrown(Denied.class, () -> both.validate(token, access));
            }
        }
        String unknown = one.issue("{\"iss\":\"c\"}", new Issuing());
        for (Map.Entry<String, String> it : Map.of(unknown, "Issuer", "x", "Segments", "x".repeat(301), "TooLong").entrySet()) {
            equal(refused(() -> both.validate(it.getKey())).fault(), it.getValue());
            equal(both.judge(it.getKey()).refusal().get().fault(), it.getValue());
        }
        for (Map<String, Judging> it : List.of(Map.<String, Judging>of(), Map.<String, Judging>of("a", other), Map.<String, Judging>of("a", both))) {
            thrown(IllegalArgumentException.class, () -> new Issuers(it));
        }
        equal(one.unverifiedIssuer(octets(unknown)), Optional.of("c"));
        equal(one.unverifiedIssuer(octets("e30.e30.AA")), Optional.empty());
        equal(refused(() -> one.unverifiedIssuer(octets("x"))).kind(), Refused.Kind.FORM);
        for (int i = 0; i < 2; i++) {
            both.close();
            thrown(IllegalStateException.class, () -> both.validate(unknown));
            thrown(IllegalStateException.class, () -> other.unverifiedIssuer(octets(unknown)));
        }
    }

    /** URLs from which no keys are fetched: what a query may hide is told by no error. */
    private void urls() throws Exception {
        byte[] policy = octets("{\"algs\":[\"RS256\"]}");
        for (String url : List.of("https://issuer.example/ ?secret", "https://[?secret", "keys?secret", "https:///keys?secret", "ftp://a/keys?secret")) {
            for (Callable<?> call : List.<Callable<?>>of(() -> new RemoteKeys(policy, url), () -> RemoteKeys.discover(policy, url, new Fetching()))) {
                for (Throwable it = thrown(IllegalArgumentException.class, call); it != null; it = it.getCause()) {
                    check(!it.toString().contains("secret"), it.toString());
                }
            }
        }
    }

    /** Times that aren't taken: else each token would meet an ArithmeticException. */
    private void times() throws Exception {
        Duration most = Duration.ofDays(36_500);
        for (Duration it : List.of(Duration.ofNanos(-1), most.plusNanos(1), ChronoUnit.FOREVER.getDuration())) {
            for (int at = 0; at < 4; at++) {
                List<Duration> all = new ArrayList<>(Collections.nCopies(4, most));
                all.set(at, it);
                thrown(IllegalArgumentException.class, () -> fetching(all));
            }
        }
        fetching(Collections.nCopies(4, Duration.ZERO));
    }

    /** A server on the loopback that has these keys under /keys. */
    static HttpServer serving(byte[] keys) throws Exception {
        return serving(keys, new AtomicInteger());
    }

    /** The same, which counts how often they are fetched. */
    static HttpServer serving(byte[] keys, AtomicInteger count) throws Exception {
        HttpServer server = HttpServer.create(new InetSocketAddress(InetAddress.getLoopbackAddress(), 0), 0);
        server.createContext("/keys", exchange -> {
            count.incrementAndGet();
            exchange.sendResponseHeaders(200, keys.length);
            exchange.getResponseBody().write(keys);
            exchange.close();
        });
        server.start();
        return server;
    }

    /** Keys by URL that trust the same share what fetches them: one thread waits for all their connections. */
    private void clients() throws Exception {
        Path name = top.resolve("tests/tokens/RS256");
        HttpServer server = serving(read(name, "keys"));
        Fetching how = fetching(Collections.nCopies(4, Duration.ofDays(1)));
        String url = "http://127.0.0.1:" + server.getAddress().getPort() + "/keys";
        List<RemoteKeys> all = new ArrayList<>();
        for (int n = 0; n < 20; n++) {
            all.add(new RemoteKeys(read(name, "policy"), url, how));
        }
        long waiting = Thread.getAllStackTraces().keySet().stream().filter(it -> it.getName().contains("SelectorManager")).count();
        check(waiting <= 2, waiting + " threads wait");
        for (RemoteKeys it : all) {
            check(it.judge(token(name), NOW).accepted(), "by a shared client");
            it.close();
        }
        server.stop(0);
    }

    /** By the longest times that are taken, keys are fetched and tokens are judged, also one that asks for a fetch. */
    private void longestTimes() throws Exception {
        Path name = top.resolve("tests/tokens/RS256");
        HttpServer server = serving(read(name, "keys"));
        Fetching how = fetching(Collections.nCopies(4, Duration.ofDays(36_500)));
        String url = "http://127.0.0.1:" + server.getAddress().getPort() + "/keys";
        try (RemoteKeys it = new RemoteKeys(read(name, "policy"), url, how)) {
            check(it.judge(token(name), NOW).accepted(), "by the longest times");
            equal(refused(() -> it.validate(token(name).replaceFirst(".....$", "AAAAA"), NOW)).fault(), "BadSignature");
        } finally {
            server.stop(0);
        }
    }

    static Fetching fetching(List<Duration> times) {
        return new Fetching(times.get(0), times.get(1), times.get(2), times.get(3), true, Optional.empty(), (url, octets, error) -> {});
    }

    private void eachToken() throws Exception {
        List<Path> names = new ArrayList<>();
        for (String folder : List.of("examples", "tests/tokens")) {
            try (Stream<Path> files = Files.list(top.resolve(folder))) {
                files.filter(it -> it.toString().endsWith(".jwt")).forEach(it -> names.add(Path.of(it.toString().replaceAll("\\.jwt$", ""))));
            }
        }
        check(names.size() >= 15, "tokens");
        for (Path name : names) {
            if (!name.endsWith("Ed448")) {
                oneToken(name);
            }
        }
    }

    private void oneToken(Path name) throws Exception {
        String token = token(name);
        try (Validator it = open(name)) {
            Verdict said = it.judge(token, NOW);
            if (name.endsWith("rfc8037-a4")) {
                equal(said.refusal().get().kind(), Refused.Kind.CLAIMS);
            } else {
                check(said.accepted() && said.claims().get().contains("\"joe\""), "" + name);
                equal(it.validate(token, NOW), said.claims().get());
            }
            int at = token.lastIndexOf('.') + 1;
            String changed = token.substring(0, at) + (token.charAt(at) == 'A' ? 'B' : 'A') + token.substring(at + 1);
            Refused refusal = it.judge(changed, NOW).refusal().get();
            equal(refusal.kind(), Refused.Kind.SIGNATURE);
            equal(refusal.fault(), "BadSignature");
        }
    }

    private void ed448() throws Exception {
        Path name = top.resolve("tests/tokens/Ed448");
        try (Validator it = open(name)) {
            equal(it.judge(token(name), NOW).refusal().get().fault(), "BadSignature");
        }
    }

    private void clock() throws Exception {
        try (Validator it = open(hmac)) {
            equal(refused(() -> it.validate(token(hmac))).fault(), "Expired");
            equal(it.judge(token(hmac)).refusal().get().fault(), "Expired");
        }
    }

    private void remembering() throws Exception {
        byte[] policy = Files.readAllBytes(Path.of(hmac + ".policy"));
        byte[] keys = Files.readAllBytes(Path.of(hmac + ".keys"));
        int length = token(hmac).length();
        for (Remember remember : List.of(new Remember(10, 4096), new Remember(1, length), new Remember(10, length - 1), new Remember())) {
            boolean is = remember.tokens() > 0 && remember.octets() >= length;
            try (Validator it = new Validator(policy, keys, remember)) {
                Verdict first = it.judge(token(hmac), NOW);
                check(first.accepted() && !first.remembered(), "the first time");
                Verdict again = it.judge(token(hmac), NOW);
                check(again.accepted() && again.remembered() == is, "the second time");
                equal(again.claims(), first.claims());
                Verdict later = it.judge(token(hmac), NOW.plusSeconds(1));
                check(later.remembered() == is && later.refusal().get().fault().equals("Expired"), "a second later");
                for (Verdict said : List.of(again, later)) {
                    equal(List.of(said.work(), said.tries(), said.states()), List.of(first.work(), first.tries(), first.states()));
                }
                equal(it.validate(token(hmac), NOW), first.claims().get());
                equal(refused(() -> it.validate(token(hmac).substring(1), NOW)).kind(), Refused.Kind.FORM);
            }
        }
        thrown(IllegalArgumentException.class, () -> new Remember(-1, 1));
        thrown(IllegalArgumentException.class, () -> new Remember(1, -1));
        thrown(NullPointerException.class, () -> new Validator(policy, keys, (Remember) null));
    }

    private void verdict() throws Exception {
        try (Validator it = open(hmac)) {
            Verdict said = it.judge(token(hmac), NOW);
            equal(said.states().get(0).state(), SignatureState.State.VERIFIED);
            equal(said.states().get(0).key().getAsInt(), 0);
            equal(said.tries(), List.of(new Try(0, 0, said.work())));
        }
    }

    /** A thread comes back to the seat that it had last, which remembers its tokens, as long as no other thread has its place. */
    private void seats() throws Exception {
        String token = token(hmac);
        try (Validator it = new Validator(read(hmac, "policy"), read(hmac, "keys"), new Remember(10, 4096))) {
            equal(it.judge(token, NOW).remembered(), false);
            AtomicReference<List<Boolean>> other = new AtomicReference<>();
            Runnable twice = () -> other.set(List.of(it.judge(token, NOW).remembered(), it.judge(token, NOW).remembered()));
            Thread thread;
            do {
                thread = new Thread(twice);
                // (there are at least four places)
            } while ((thread.getId() - Thread.currentThread().getId()) % 4 == 0);
            thread.start();
            thread.join();
            equal(other.get(), List.of(false, true));
            equal(it.judge(token, NOW).remembered(), true);
        }
    }

    private void refusals() throws Exception {
        String token = token(hmac);
        Object[][] cases = {
            {HS256.replace("}", ",\"limit\":100}"), token, Refused.Kind.TOO_LONG, "TooLong", null},
            {HS256, "a.b", Refused.Kind.FORM, "Segments", null},
            {HS256, "", Refused.Kind.FORM, "Empty", null},
            {HS256, "e30.*.AA", Refused.Kind.FORM, "Base64", "payload"},
            {HS256.replace("}", ",\"work\":10}"), token, Refused.Kind.CEILING, "WorkExceeded", null},
            {"{\"algs\":[\"HS384\"]}", token, Refused.Kind.SIGNATURE, "AlgNotAllowed", null},
            {HS256.replace("}", ",\"required\":[\"röle\"]}"), token, Refused.Kind.CLAIMS, "ClaimMissing", "röle"},
            {HS256.replace("}", ",\"required\":[\"sub\"]}"), token, Refused.Kind.CLAIMS, "ClaimMissing", "sub"},
            {HS256.replace("}", ",\"issuers\":[\"eve\"]}"), token, Refused.Kind.CLAIMS, "Issuer", null},
        };
        for (Object[] it : cases) {
            try (Validator validator = new Validator(octets((String) it[0]), read(hmac, "keys"))) {
                Refused refusal = refused(() -> validator.validate((String) it[1], NOW));
                equal(refusal.kind(), it[2]);
                equal(refusal.fault(), it[3]);
                if (it[3] != "Issuer") {
                    equal(refusal.about(), Optional.ofNullable(it[4]));
                }
            }
        }
    }

    /** A surrogate that stands alone isn't taken for another text. */
    private void surrogates() throws Exception {
        try (Validator it = open(hmac)) {
            for (String text : List.of("é€\ud83d\ude00", "\ufffd", "?")) {
                String claims = "{\"iss\":\"" + text + "\",\"exp\":1300819380}";
                equal(it.issue(claims, new Issuing()).length() > 0, true);
            }
            for (String text : List.of("\ud800", "\udc00\ud800", "é\ud800€")) {
                equal(refused(() -> it.issue("{\"iss\":\"" + text + "\"}", new Issuing())).fault(), "ClaimsShape");
                equal(it.judge(text, NOW).refusal().get().kind(), Refused.Kind.FORM);
                thrown(IllegalArgumentException.class, () -> it.issue("{}", new Issuing(Issuing.Algorithm.HS256, Issuing.Form.COMPACT, 0, text)));
            }
        }
    }

    private void documents() throws Exception {
        byte[] keys = read(hmac, "keys");
        Refused member = refused(() -> new Validator(octets(HS256.replace("}", ",\"audience\":\"me\"}")), keys));
        equal(List.of(member.kind(), member.fault(), member.about().get()), List.of(Refused.Kind.POLICY, "Member", "audience"));
        equal(refused(() -> new Validator(octets("{\"algs\":[]}"), keys)).fault(), "NoAlgorithm");
        Refused set = refused(() -> new Validator(octets(HS256), octets("{}")));
        equal(List.of(set.kind(), set.fault()), List.of(Refused.Kind.KEYS, "NotKeySet"));
    }

    private void mistakes() throws Exception {
        try (Validator it = open(hmac)) {
            thrown(NullPointerException.class, () -> it.judge((byte[]) null, 0));
            thrown(NullPointerException.class, () -> it.validate((String) null));
            thrown(NullPointerException.class, () -> it.issue((byte[]) null, new Issuing()));
            thrown(IllegalArgumentException.class, () -> it.unverifiedHeader("a.b.c", -1));
            equal(it.judge(octets(token(hmac)), Long.MAX_VALUE).accepted(), false);
            check(it.judge(token(hmac), NOW).accepted(), "seats are given back");
        }
        thrown(NullPointerException.class, () -> new Validator(null, new byte[0]));
        thrown(IllegalArgumentException.class, () -> new Issuing(Issuing.Algorithm.HS256, Issuing.Form.COMPACT, -1, ""));
    }

    private void closing() throws Exception {
        Validator it = open(hmac);
        check(it.judge(token(hmac), NOW).accepted(), "open");
        it.close();
        it.close();
        thrown(IllegalStateException.class, () -> it.judge("a.b.c", NOW));
        thrown(IllegalStateException.class, () -> it.validate("a.b.c", NOW));
        thrown(IllegalStateException.class, () -> it.issue("{}", new Issuing()));
        thrown(IllegalStateException.class, () -> it.unverifiedHeader("a.b.c", 0));
    }

    private void issuing() throws Exception {
        String claims = "{\"iss\":\"joe\",\"exp\":1300819380}";
        try (Validator it = open(hmac)) {
            for (Issuing.Form form : Issuing.Form.values()) {
                equal(it.validate(it.issue(claims, new Issuing(Issuing.Algorithm.HS256, form, 0, "")), NOW), claims);
            }
            Refused none = refused(() -> it.issue(claims, new Issuing(Issuing.Algorithm.HS256, Issuing.Form.COMPACT, 7, "")));
            equal(List.of(none.kind(), none.fault()), List.of(Refused.Kind.ISSUE, "NoKey"));
            equal(refused(() -> it.issue("{\"iss\":7}", new Issuing())).about(), Optional.of("iss"));
            String token = it.issue("{}", new Issuing(Issuing.Algorithm.HS256, Issuing.Form.COMPACT, 0, "at+jwt"));
            check(it.unverifiedHeader(token, 0).get().contains("\"at+jwt\""), "typ");
            equal(it.unverifiedHeader(token, 1), Optional.empty());
            equal(it.unverifiedHeader("a.b", 0), Optional.empty());
        }
    }

    /** What isn't closed is freed: else this takes some gigabytes. */
    private void freeing() throws Exception {
        byte[] policy = read(hmac, "policy");
        byte[] keys = read(hmac, "keys");
        for (int n = 0; n < 20_000; n++) {
            new Validator(policy, keys).judge("a.b.c", NOW);
            if (n % 1_000 == 0) {
                System.gc();
            }
        }
        check(resident() < 1_000_000, "resident: " + resident() + " KiB");
    }

    private void threads() throws Exception {
        Path name = top.resolve("tests/tokens/ES256");
        String token = token(name);
        try (Validator shared = open(name)) {
            for (int it : together(8, () -> accepted(shared, token, 20))) {
                equal(it, 20);
            }
        }
    }

    /** A validator that is closed while threads judge: each call is answered or told that it is closed. */
    private void closingMeanwhile() throws Exception {
        String token = token(hmac);
        for (int n = 0; n < 20; n++) {
            Validator shared = open(hmac);
            together(4, () -> {
                try {
                    accepted(shared, token, 50);
                } catch (IllegalStateException e) {
                    return 0;
                } finally {
                    shared.close();
                }
                return 1;
            });
        }
    }

    private void ruleMet() throws Exception {
        String all = "{\"scopes\":[\"joe\"],\"scope_claim\":\"iss\",\"claims\":"
                + "{\"iss\":[\"joe\",\"ann\"],\"exp\":[1300819380],\"http://example.com/is_root\":[true]}}";
        String token = token(hmac);
        try (Validator it = open(hmac)) {
            for (String rule : List.of("{}", all)) {
                try (Access text = new Access(rule); Access octets = new Access(octets(rule))) {
                    equal(it.validate(token, NOW, text), it.validate(token, NOW));
                    equal(it.validate(octets(token), NOW.getEpochSecond(), octets), it.validate(token, NOW));
                }
            }
            String lasting = it.issue("{\"iss\":\"joe\",\"exp\":99999999999,\"scope\":\"read write\"}", new Issuing());
            try (Access read = new Access("{\"scopes\":[\"write\",\"read\"]}"); Access other = new Access("{\"scopes\":[\"rea\"]}")) {
                equal(read.scopes(), List.of("write", "read"));
                check(it.validate(lasting, read).contains("read write"), "at the clock's moment");
                equal(denied(() -> it.validate(lasting, other)).scope(), Optional.of("rea"));
            }
        }
    }

    private void denials() throws Exception {
        String many = "/" + "a".repeat(5000);
        String most = "é".repeat(32_000);
        Object[][] cases = {
            {"{\"scopes\":[\"read\",\"write\"],\"claims\":{\"iss\":[\"ann\"]}}", "ScopeMissing", "read", null, List.of("read", "write")},
            {"{\"claims\":{\"iss\":[\"ann\"],\"sub\":[\"x\"]}}", "ClaimNotAllowed", null, "iss", List.of()},
            {"{\"claims\":{\"http://example.com/is_root\":[1]}}", "ClaimNotAllowed", null, "http://example.com/is_root", List.of()},
            {"{\"claims\":{\"\":[\"x\"]}}", "ClaimMissing", null, "", List.of()},
            {"{\"claims\":{\"röle\\u20ac\":[\"x\"]}}", "ClaimMissing", null, "röle€", List.of()},
            {"{\"claims\":{\"" + many + "\":[1]}}", "ClaimMissing", null, many, List.of()},
            {"{\"claims\":{\"" + most + "\":[1]}}", "ClaimMissing", null, most, List.of()},
        };
        for (Object[] it : cases) {
            try (Validator validator = open(hmac); Access access = new Access((String) it[0])) {
                Denied denial = denied(() -> validator.validate(token(hmac), NOW, access));
                equal(denial.fault(), it[1]);
                equal(denial.scope(), Optional.ofNullable(it[2]));
                equal(denial.claim(), Optional.ofNullable(it[3]));
                equal(denial.scopes(), it[4]);
                equal(access.scopes(), it[4]);
                equal(denial.getMessage(), "the token is denied: " + it[1] + ", " + (it[2] == null ? it[3] : it[2]));
                equal(denial.getStackTrace().length, 0);
            }
        }
    }

    /** A token that isn't accepted is refused, whatever the rule; one that is denied can be judged, and its exception can be written. */
    private void denialIsNoRefusal() throws Exception {
        check(!Refused.class.isAssignableFrom(Denied.class), "a denial is a refusal");
        try (Validator it = open(hmac); Access access = new Access("{\"scopes\":[\"read\"]}")) {
            equal(refused(() -> it.validate(token(hmac), NOW.plusSeconds(3600), access)).fault(), "Expired");
            equal(refused(() -> it.validate(token(hmac), access)).fault(), "Expired");
            equal(refused(() -> it.validate("a.b", NOW, access)).fault(), "Segments");
            Denied denial = denied(() -> it.validate(token(hmac), NOW, access));
            check(it.judge(token(hmac), NOW).accepted(), "the token is accepted");
            ByteArrayOutputStream written = new ByteArrayOutputStream();
            new ObjectOutputStream(written).writeObject(denial);
            Denied read = (Denied) new ObjectInputStream(new ByteArrayInputStream(written.toByteArray())).readObject();
            equal(List.of(read.fault(), read.scope(), read.claim()), List.of("ScopeMissing", Optional.of("read"), Optional.empty()));
            equal(read.scopes(), List.of("read"));
        }
    }

    private void rulesRefused() throws Exception {
        String[][] cases = {
            {"", "Json", null},
            {"\ud800", "Json", null},
            {"[]", "Json", null},
            {"{\"scopes\":[],\"scopes\":[]}", "NameTwice", null},
            {"{\"scope\":\"read\"}", "Member", "scope"},
            {"{\"scopes\":[\"read write\"]}", "Range", "scopes"},
            {"{\"claims\":{\"röle\":[1.5]}}", "Claim", "röle"},
            {"{\"claims\":{\"\":[]}}", "ClaimRange", ""},
            {"{\"claims\":{\"/~2\":[1]}}", "ClaimRange", "/~2"},
            {" ".repeat(65537), "TooLong", null},
        };
        for (String[] it : cases) {
            Refused refusal = refused(() -> new Access(it[0]));
            equal(refusal.kind(), Refused.Kind.ACCESS);
            equal(refusal.fault(), it[1]);
            equal(refusal.about(), Optional.ofNullable(it[2]));
            equal(refusal.getMessage(), "the access rule is refused: " + it[1] + (it[2] == null ? "" : ", " + it[2]));
        }
        equal(refused(() -> new Access(new byte[] {(byte) 0xff})).fault(), "Json");
    }

    /** Those of docs/ACCESS.md, which stand in examples/access, with what is expected there of the claims beside them. */
    private void rulesOfTheDocuments() throws Exception {
        List<String> said = new ArrayList<>();
        List<Path> rules;
        try (Stream<Path> files = Files.list(top.resolve("examples/access"))) {
            rules = files.filter(it -> it.toString().endsWith(".access")).sorted().collect(Collectors.toList());
        }
        for (Path path : rules) {
            Path name = Path.of(path.toString().replaceAll("\\.access$", ""));
            said.add("" + name.getFileName());
            try (Validator validator = new Validator(read(name, "policy"), read(hmac, "keys")); Access access = new Access(read(name, "access"))) {
                for (String claims : Files.readAllLines(Path.of(name + ".claims"))) {
                    said.add(underRule(validator, claims, access));
                }
            }
        }
        equal(said, Files.readAllLines(top.resolve("examples/access/expected.txt")));
    }

    /** What `jwt verify` prints of a token with these claims. */
    private static String underRule(Validator validator, String claims, Access access) throws Exception {
        String token = validator.issue(claims, new Issuing(Issuing.Algorithm.HS256, Issuing.Form.COMPACT, 0, "at+jwt"));
        Instant now = Instant.ofEpochSecond(1639528911);
        String rest = " sig=0 key=0 tries=1 work=" + validator.judge(token, now).work();
        try {
            equal(validator.validate(token, now, access), claims);
            return "accepted" + rest;
        } catch (Denied e) {
            String name = e.scope().map(it -> "scope=\"" + it + "\"").orElseGet(() -> "claim=\"" + e.claim().get() + "\"");
            return "denied " + e.fault() + " " + name + rest;
        }
    }

    private void ruleMistakes() throws Exception {
        thrown(NullPointerException.class, () -> new Access((String) null));
        thrown(NullPointerException.class, () -> new Access((byte[]) null));
        byte[] rule = octets("{\"scopes\":[\"read\"]}");
        try (Validator it = open(hmac); Access access = new Access(rule); Access all = new Access("{}")) {
            thrown(NullPointerException.class, () -> it.validate("a.b", NOW, (Access) null));
            thrown(NullPointerException.class, () -> it.validate((byte[]) null, 0, access));
            // (the rule is that which was handed in, also for threads that come later)
            java.util.Arrays.fill(rule, (byte) ' ');
            String token = token(hmac);
            for (int count : together(8, () -> heldOften(it, token, all, access, 200))) {
                equal(count, 200);
            }
            thrown(UnsupportedOperationException.class, () -> access.scopes().set(0, "x"));
        }
    }

    /** A rule that is closed lets nothing through, nor does one for a validator that is closed. */
    private void ruleClosing() throws Exception {
        Access access = new Access("{\"scopes\":[\"a\",\"b\"]}");
        Access open = new Access("{}");
        Validator it = open(hmac);
        access.close();
        access.close();
        equal(access.scopes(), List.of("a", "b"));
        equal(thrown(IllegalStateException.class, () -> it.validate(token(hmac), NOW, access)).getMessage(), "the access rule is closed");
        equal(it.validate(token(hmac), NOW, open), it.validate(token(hmac), NOW));
        it.close();
        equal(thrown(IllegalStateException.class, () -> it.validate(token(hmac), NOW, open)).getMessage(), "the validator is closed");
        open.close();
    }

    /** What isn't closed is freed: else this takes some gigabytes. */
    private void ruleFreeing() throws Exception {
        byte[] rule = octets("{\"claims\":{\"" + "a".repeat(60_000) + "\":[1]}}");
        try (Validator it = open(hmac)) {
            for (int n = 0; n < 40_000; n++) {
                Access access = new Access(rule);
                if (n % 1_000 == 0) {
                    denied(() -> it.validate(token(hmac), NOW, access));
                    System.gc();
                }
            }
        }
        check(resident() < 1_000_000, "resident: " + resident() + " KiB");
    }

    private void ruleThreads() throws Exception {
        String token = token(hmac);
        try (Validator it = open(hmac);
                Access grants = new Access("{\"claims\":{\"iss\":[\"joe\"]}}");
                Access denies = new Access("{\"scopes\":[\"read\"]}")) {
            for (int count : together(8, () -> heldOften(it, token, grants, denies, 200))) {
                equal(count, 200);
            }
        }
    }

    /** How often, of so many times, one rule is met and the other isn't. */
    private static int heldOften(Validator it, String token, Access grants, Access denies, int times) throws Exception {
        int count = 0;
        for (int n = 0; n < times; n++) {
            boolean isMet = it.validate(token, NOW, grants).contains("\"joe\"");
            boolean isDenied = denied(() -> it.validate(token, NOW, denies)).scope().equals(Optional.of("read"));
            count += isMet && isDenied ? 1 : 0;
        }
        return count;
    }

    /** A rule that is closed while threads hold it: each call is answered or told that it is closed. */
    private void ruleClosingMeanwhile() throws Exception {
        String token = token(hmac);
        try (Validator it = open(hmac)) {
            for (int n = 0; n < 20; n++) {
                Access grants = new Access("{}");
                Access denies = new Access("{\"scopes\":[\"read\"]}");
                together(4, () -> {
                    try {
                        return heldOften(it, token, grants, denies, 50);
                    } catch (IllegalStateException e) {
                        return 0;
                    } finally {
                        denies.close();
                        grants.close();
                    }
                });
            }
        }
    }

    /** The package refuses a library of another interface, each time. */
    private void anotherLibrary(int loaded) throws Exception {
        for (int n = 0; n < 2; n++) {
            Throwable error = thrown(UnsatisfiedLinkError.class, () -> open(hmac));
            String message = "fowharimu: the library another has interface " + loaded + ", and this package was made for " + (loaded - 1);
            equal(error.getMessage(), message);
            equal(thrown(UnsatisfiedLinkError.class, () -> new Access("{}")).getMessage(), message);
            equal(thrown(UnsatisfiedLinkError.class, () -> new Once(1, 1, Instant.EPOCH)).getMessage(), message);
        }
        passed++;
    }

    /** Where a constructor is refused memory when the documents are open, they are freed: else this takes some 150 MB. */
    private void memoryRefused(Path number) throws Exception {
        byte[] policy = octets(HS256);
        String key = "{\"kty\":\"oct\",\"k\":\"" + "A".repeat(1_000) + "\"}";
        byte[] keys = octets("{\"keys\":[" + String.join(",", Collections.nCopies(1_000, key)) + "]}");
        long many = 1_000_000;
        put(number, many);
        new Validator(policy, keys).close();
        // (the last is that of the issuer which the policy names)
        long count = many - put(number, 0);
        long before = resident();
        for (int n = 0; n < 150; n++) {
            put(number, count);
            thrown(OutOfMemoryError.class, () -> new Validator(policy, keys));
        }
        check(resident() < before + 70_000, "resident: " + resident() + " KiB, and " + before + " before");
        equal(put(number, 0), 0L);
        new Validator(policy, keys).close();
        passed++;
    }

    /** Puts a number into a file of eight octets, the least of which stands first, and gives the one that was there. */
    private static long put(Path file, long number) throws Exception {
        try (RandomAccessFile octets = new RandomAccessFile(file.toFile(), "rw")) {
            long old = Long.reverseBytes(octets.readLong());
            octets.seek(0);
            octets.writeLong(Long.reverseBytes(number));
            return old;
        }
    }

    private static int accepted(Validator validator, String token, int calls) {
        int count = 0;
        for (int n = 0; n < calls; n++) {
            count += validator.judge(token, NOW).accepted() ? 1 : 0;
        }
        return count;
    }

    static <T> List<T> together(int threads, Callable<T> call) throws Exception {
        ExecutorService pool = Executors.newFixedThreadPool(threads);
        try {
            List<T> all = new ArrayList<>();
            for (Future<T> it : pool.invokeAll(Collections.nCopies(threads, call))) {
                all.add(it.get());
            }
            return all;
        } finally {
            pool.shutdown();
        }
    }

    /** The resident memory of this process, in KiB. */
    static long resident() throws Exception {
        try (Stream<String> lines = Files.lines(Path.of("/proc/self/status"))) {
            String line = lines.filter(it -> it.startsWith("VmRSS:")).collect(Collectors.toList()).get(0);
            return Long.parseLong(line.replaceAll("[^0-9]", ""));
        }
    }

    static Refused refused(Callable<?> call) throws Exception {
        try {
            call.call();
        } catch (Refused e) {
            return e;
        }
        throw new AssertionError("it isn't refused");
    }

    private static Denied denied(Callable<?> call) throws Exception {
        try {
            call.call();
        } catch (Denied e) {
            return e;
        }
        throw new AssertionError("it isn't denied");
    }

    static Throwable thrown(Class<? extends Throwable> kind, Callable<?> call) throws Exception {
        try {
            call.call();
        } catch (Throwable e) {
            check(kind.isInstance(e), "another error: " + e);
            return e;
        }
        throw new AssertionError("nothing is thrown");
    }

    private static Validator open(Path name) throws Exception {
        return new Validator(read(name, "policy"), read(name, "keys"));
    }

    private static byte[] read(Path name, String end) throws Exception {
        return Files.readAllBytes(Path.of(name + "." + end));
    }

    private static String token(Path name) throws Exception {
        return new String(read(name, "jwt"), StandardCharsets.UTF_8);
    }

    static byte[] octets(String text) {
        return text.getBytes(StandardCharsets.UTF_8);
    }

    static void equal(Object one, Object other) {
        check(one.equals(other), one + " and not " + other);
    }

    static void check(boolean holds, String what) {
        if (!holds) {
            throw new AssertionError(what);
        }
    }
}
