import java.nio.ByteBuffer;
import java.nio.charset.StandardCharsets;
import java.nio.file.Files;
import java.nio.file.Path;
import java.security.KeyPairGenerator;
import java.security.MessageDigest;
import java.security.PrivateKey;
import java.security.Signature;
import java.security.interfaces.ECPublicKey;
import java.security.spec.ECGenParameterSpec;
import java.time.Duration;
import java.time.Instant;
import java.util.ArrayList;
import java.util.Base64;
import java.util.Collections;
import java.util.List;
import java.util.Map;
import java.util.UUID;
import java.util.concurrent.Callable;
import java.util.concurrent.atomic.AtomicInteger;
import java.util.regex.Matcher;
import java.util.regex.Pattern;

import javax.crypto.Mac;
import javax.crypto.spec.SecretKeySpec;

import com.sun.net.httpserver.HttpServer;
import org.example.fowharimu.Access;
import org.example.fowharimu.Asking;
import org.example.fowharimu.Denied;
import org.example.fowharimu.Issuers;
import org.example.fowharimu.Issuing;
import org.example.fowharimu.Judging;
import org.example.fowharimu.Nonces;
import org.example.fowharimu.Once;
import org.example.fowharimu.Proof;
import org.example.fowharimu.Proofs;
import org.example.fowharimu.Refused;
import org.example.fowharimu.RemoteKeys;
import org.example.fowharimu.Validator;

/** Possessions TOP: the tests of who holds the key of a token, over the proofs of the repository at TOP. Without their table those over it are left out, which is said. */
final class Possessions {
    private static final Instant NOW = Instant.ofEpochSecond(1300819379);
    private static final String THINGS = "https://api.example/things";

    private final Path top;
    private int passed;

    private Possessions(Path top) {
        this.top = top;
    }

    public static void main(String[] words) throws Exception {
        Possessions tests = new Possessions(Path.of(words[0]));
        tests.run(tests::profile);
        Path table = tests.top.resolve("tests/possession/cases.jsonl");
        if (Files.exists(table)) {
            tests.overTable(Files.readAllLines(table, StandardCharsets.UTF_8));
        } else {
            System.out.println("Java, possession: left out, since " + table + " isn't here");
        }
        System.out.println("Java, possession: " + tests.passed + " tests passed");
    }

    private void run(Tests.Test test) throws Exception {
        test.run();
        passed++;
    }

    private void overTable(List<String> lines) throws Exception {
        try (Table table = new Table(lines)) {
            for (Tests.Test it : new Tests.Test[] {
                () -> rows(table), () -> once(table), () -> last(table), () -> countOnce(table), () -> nonces(table), () -> noncesByTime(table), () -> unbound(table), () -> certificates(table),
                () -> byUrl(table), () -> policies(table), () -> mistakes(table), () -> closing(table), () -> freeing(table), () -> threads(table),
                () -> closingMeanwhile(table)
            }) {
                run(it);
            }
        }
    }

    /** The table, with what accepts its access tokens. Its first row has a proof that is held. */
    private static final class Table implements AutoCloseable {
        final byte[] policy;
        final Validator validator;
        final List<Row> rows = new ArrayList<>();

        Table(List<String> lines) throws Exception {
            String first = lines.get(0);
            policy = object(first, "policy");
            validator = new Validator(object(first, "access_policy"), object(first, "access_keys"));
            for (String line : lines.subList(1, lines.size())) {
                rows.add(Row.of(line));
            }
        }

        Row good() {
            return rows.get(0);
        }

        @Override
        public void close() {
            validator.close();
        }
    }

    /** A request with an access token, and what is said of its proof; null for a nonce or a token that isn't there. */
    private record Row(String name, String answer, String proof, String method, String uri, String nonce, String token, long now) {
        static Row of(String line) {
            String[] texts = List.of("name", "answer", "proof", "method", "uri", "nonce", "token").stream().map(it -> text(line, it)).toArray(String[]::new);
            Matcher now = Pattern.compile("\"now\": (-?[0-9]+)").matcher(line);
            Tests.check(now.find(), "no moment");
            return new Row(texts[0], texts[1], texts[2], texts[3], texts[4], texts[5], texts[6], Long.parseLong(now.group(1)));
        }

        Proof by(Proofs proofs) {
            Proof proof = new Proof(proofs, this.proof, method, uri);
            return nonce == null ? proof : proof.nonce(nonce);
        }

        /** At its moment, with its proof. */
        Asking asking(Proofs proofs) {
            return at().proof(by(proofs));
        }

        Asking at() {
            return new Asking().at(Instant.ofEpochSecond(now));
        }
    }

    /** The text of a member of a line; null where it is null. */
    private static String text(String line, String name) {
        Matcher it = Pattern.compile("\"" + name + "\": (?:null|\"((?:[^\"\\\\]|\\\\.)*+)\")").matcher(line);
        Tests.check(it.find(), "no " + name);
        return it.group(1) == null ? null : unescaped(it.group(1));
    }

    private static String unescaped(String text) {
        StringBuilder out = new StringBuilder();
        for (int at = 0; at < text.length(); at++) {
            char it = text.charAt(at);
            if (it != '\\') {
                out.append(it);
                continue;
            }
            char escape = text.charAt(++at);
            if (escape == 'u') {
                out.append((char) Integer.parseInt(text.substring(at + 1, at + 5), 16));
                at += 4;
            } else {
                int known = "bfnrt".indexOf(escape);
                out.append(known < 0 ? escape : "\b\f\n\r\t".charAt(known));
            }
        }
        return out.toString();
    }

    /** An object that is a member of a line, in whose texts no braces stand. */
    private static byte[] object(String line, String name) {
        int from = line.indexOf("\"" + name + "\": {");
        Tests.check(from >= 0, "no " + name);
        int begin = line.indexOf('{', from);
        int depth = 0;
        for (int at = begin;; at++) {
            char it = line.charAt(at);
            depth += it == '{' ? 1 : it == '}' ? -1 : 0;
            if (depth == 0) {
                return Tests.octets(line.substring(begin, at + 1));
            }
        }
    }

    /** A call whose sender hasn't shown the key, for this reason. */
    private static void notHeld(Callable<?> call, String fault) throws Exception {
        Refused refusal = Tests.refused(call);
        String said = "the sender of the token doesn't hold its key: " + fault;
        Tests.equal(List.of(refusal.kind(), refusal.fault(), refusal.about().isEmpty(), refusal.getMessage()), List.of(Refused.Kind.NOT_HELD, fault, true, said));
    }

    private static void notTaken(Callable<?> call, String fault) throws Exception {
        Refused refusal = Tests.refused(call);
        Tests.equal(List.of(refusal.kind(), refusal.fault()), List.of(Refused.Kind.NOT_TAKEN, fault));
    }

    /** Each row is answered as the table says. */
    private void rows(Table table) throws Exception {
        int judged = 0;
        for (Row row : table.rows) {
            byte[] token = Tests.octets(row.token == null ? "" : row.token);
            if (!table.validator.judge(token, row.now).accepted()) {
                continue; // (there is no access token, or the standard's own, which is none)
            }
            judged++;
            try (Once once = new Once(1, 1, Instant.EPOCH); Proofs proofs = new Proofs(table.policy, once)) {
                Tests.equal(row.name + ": " + said(() -> table.validator.validate(token, row.asking(proofs))), row.name + ": " + row.answer);
            }
        }
        Tests.check(2 * judged > table.rows.size(), judged + " are judged");
    }

    /** What is said of a call: {@code held}, or the name of the fault. */
    private static String said(Callable<?> call) throws Exception {
        try {
            call.call();
            return "held";
        } catch (Refused refusal) {
            Tests.equal(refusal.kind(), Refused.Kind.NOT_HELD);
            return refusal.fault();
        }
    }

    private void once(Table table) throws Exception {
        Row good = table.good();
        Validator it = table.validator;
        try (Once once = new Once(2, 2, Instant.EPOCH); Proofs first = new Proofs(table.policy, once); Proofs second = new Proofs(table.policy, once)) {
            Tests.check(it.validate(good.token, good.asking(first)).contains("user"), "other claims");
            notTaken(() -> it.validate(good.token, good.asking(second).at(Instant.ofEpochSecond(good.now + 1))), "Seen");
        }
        // (a token that was taken leaves no room)
        try (Once full = new Once(1, 1, Instant.EPOCH); Proofs proofs = new Proofs(table.policy, full); Validator taking = new Validator(HS256, SECRET, full)) {
            taking.validate(Tests.issued(taking, "{\"jti\":\"a\",\"exp\":" + (good.now + 100) + "}"), good.now);
            notTaken(() -> it.validate(good.token, good.asking(proofs)), "Full");
        }
    }

    private static final byte[] HS256 = Tests.octets("{\"algs\":[\"HS256\"]}");
    private static final byte[] SECRET = Tests.octets("{\"keys\":[{\"kty\":\"oct\",\"k\":\"AAAAAAAAAAAAAAAAAAAAAAAAAAAAAAAAAAAAAAAAAAA\"}]}");

    /** A proof is taken behind all else. */
    private void last(Table table) throws Exception {
        Row good = table.good();
        Validator it = table.validator;
        try (Once once = new Once(1, 1, Instant.EPOCH); Proofs proofs = new Proofs(table.policy, once); Access denies = new Access("{\"scopes\":[\"read\"]}")) {
            Asking asking = good.asking(proofs);
            Tests.equal(Tests.refused(() -> it.validate(good.token, asking.text("sub", "nobody"))).kind(), Refused.Kind.NOT_EXPECTED);
            Tests.thrown(Denied.class, () -> it.validate(good.token, asking.access(denies)));
            Tests.equal(Tests.refused(() -> it.validate(good.token + "A", asking)).kind(), Refused.Kind.SIGNATURE);
            notHeld(() -> it.validate(good.token, asking.unbound()), "Bound");
            notHeld(() -> it.validate(good.token, asking.certificate(new byte[1])), "OtherCertificate");
            notHeld(() -> it.validate(good.token, asking.proof(new Proof(proofs, good.proof, "get", good.uri))), "OtherMethod");
            Tests.check(it.validate(good.token, asking.text("sub", "user")).contains("user"), "other claims");
            notTaken(() -> it.validate(good.token, asking), "Seen");
        }
    }

    /** A token that counts once isn't taken where its proof is refused. */
    private void countOnce(Table table) throws Exception {
        Key client = new Key();
        long now = table.good().now;
        try (Once once = new Once(4, 4, Instant.EPOCH); Proofs proofs = new Proofs(table.policy, once); Validator it = new Validator(HS256, SECRET, once)) {
            String token = it.issue("{\"jti\":\"a\",\"exp\":" + (now + 100) + ",\"cnf\":{\"jkt\":\"" + client.thumbprint() + "\"}}", new Issuing());
            Asking at = table.good().at();
            notHeld(() -> it.validate(token, at.proof(new Proof(proofs, client.proof(token, now, ""), "PUT", THINGS))), "OtherMethod");
            it.validate(token, at.proof(new Proof(proofs, client.proof(token, now, ""), "GET", THINGS)));
            notTaken(() -> it.validate(token, at.proof(new Proof(proofs, client.proof(token, now, ""), "GET", THINGS))), "Seen");
        }
    }

    private void nonces(Table table) throws Exception {
        Key client = new Key();
        long now = table.good().now;
        Validator it = table.validator;
        try (Once once = new Once(4, 4, Instant.EPOCH); Proofs proofs = new Proofs(table.policy, once)) {
            String token = it.issue("{\"cnf\":{\"jkt\":\"" + client.thumbprint() + "\"}}", new Issuing());
            Asking at = table.good().at();
            Proof proof = new Proof(proofs, client.proof(token, now, ",\"nonce\":\"n-1\""), "GET", THINGS + "?page=2#end");
            for (String nonce : List.of("n-2", "n-", "\ud800")) {
                notHeld(() -> it.validate(token, at.proof(proof.nonce(nonce))), "OtherNonce");
            }
            notHeld(() -> it.validate(token, at.proof(new Proof(proofs, client.proof(token, now, ""), "GET", THINGS).nonce("n-1"))), "OtherNonce");
            it.validate(token, at.proof(proof.nonce("n-1")));
            Tests.thrown(IllegalArgumentException.class, () -> proof.nonce(""));
        }
    }

    /** The secret of the row nonce-by-time, or one of another length. */
    private static byte[] secret(int length) {
        byte[] octets = new byte[length];
        for (int at = 0; at < length; at++) {
            octets[at] = (byte) at;
        }
        return octets;
    }

    private void noncesByTime(Table table) throws Exception {
        Nonces nonces = new Nonces(secret(32), Duration.ofMinutes(5));
        Mac mac = Mac.getInstance("HmacSHA256");
        mac.init(new SecretKeySpec(secret(32), "HmacSHA256"));
        for (long[] row : new long[][] {{-1, 0}, {0, 0}, {299, 0}, {300, 1}, {1_700_000_000, 5_666_666}}) {
            byte[] digest = mac.doFinal(ByteBuffer.allocate(8).putLong(row[1]).array());
            Tests.equal(nonces.at(Instant.ofEpochSecond(row[0])), Base64.getUrlEncoder().withoutPadding().encodeToString(digest));
        }
        Row row = table.rows.stream().filter(it -> it.name.equals("nonce-by-time")).findFirst().orElseThrow();
        try (Once once = new Once(4, 4, Instant.EPOCH); Proofs proofs = new Proofs(table.policy, once)) {
            Nonces others = new Nonces(secret(33), Duration.ofMinutes(5));
            notHeld(() -> table.validator.validate(row.token, row.at().proof(row.by(proofs).nonces(others))), "OtherNonce");
            notHeld(() -> table.validator.validate(row.token, row.at().proof(table.good().by(proofs).nonces(nonces))), "OtherNonce");
            table.validator.validate(row.token, row.at().proof(row.by(proofs).nonces(nonces)));
            Tests.equal(proofs.algs(), "ES256 ES384 ES512 RS256 PS256 EdDSA");
            Tests.thrown(NullPointerException.class, () -> row.by(proofs).nonces(null));
        }
        for (Duration period : List.of(Duration.ZERO, Duration.ofSeconds(-1), Duration.ofMillis(1500), Duration.ofSeconds(1L << 31))) {
            Tests.thrown(IllegalArgumentException.class, () -> new Nonces(secret(32), period));
        }
        Tests.thrown(IllegalArgumentException.class, () -> new Nonces(secret(31), Duration.ofMinutes(5)));
    }

    private void unbound(Table table) throws Exception {
        Row good = table.good();
        Validator it = table.validator;
        Tests.check(it.validate(good.token, good.at()).contains("user"), "other claims");
        notHeld(() -> it.validate(good.token, good.at().unbound()), "Bound");
        for (String claims : List.of("{\"cnf\":{}}", "{\"cnf\":null}", "{\"cnf\":\"a\"}")) {
            byte[] bound = Tests.issued(it, claims);
            notHeld(() -> it.validate(bound, new Asking().unbound()), "Bound");
        }
        Tests.equal(it.validate(Tests.issued(it, "{\"sub\":\"user\"}"), new Asking().unbound()), "{\"sub\":\"user\"}");
    }

    private void certificates(Table table) throws Exception {
        byte[] der = Tests.octets("a certificate");
        Validator it = table.validator;
        byte[] token = Tests.issued(it, "{\"cnf\":{\"x5t#S256\":\"" + digest(der) + "\"}}");
        byte[] given = der.clone();
        Asking asking = new Asking().certificate(given);
        given[0] = 0;
        it.validate(token, asking);
        for (byte[] other : List.of(Tests.octets("a certificate."), new byte[0], given)) {
            notHeld(() -> it.validate(token, new Asking().certificate(other)), "OtherCertificate");
        }
        notHeld(() -> it.validate(Tests.issued(it, "{}"), asking), "OtherCertificate");
        notHeld(() -> it.validate(table.good().token, asking), "OtherKey");
        notHeld(() -> it.validate(Tests.issued(it, "{\"cnf\":{}}"), asking), "Unknown");
    }

    /** The tokens of a profile, by one validator, by keys by URL and by several issuers. */
    private void profile() throws Exception {
        Path folder = top.resolve("examples/profiles/fapi2");
        byte[] policy = Files.readAllBytes(folder.resolve("policy.json"));
        byte[] keys = Files.readAllBytes(folder.resolve("keys.json"));
        HttpServer server = Tests.serving(keys);
        try (Validator one = new Validator(policy, keys);
                RemoteKeys remote = new RemoteKeys(policy, url(server), Tests.fetching(Collections.nCopies(4, Duration.ofDays(1))));
                Issuers issuers = new Issuers(Map.of(remote.issuer().get(), remote))) {
            int rows = 0;
            for (String line : Files.readAllLines(folder.resolve("steps.tsv"))) {
                String[] cells = line.split("\t");
                if (!cells[2].startsWith("who holds the key")) {
                    continue;
                }
                rows++;
                byte[] token = Files.readAllBytes(folder.resolve("tokens/" + cells[3] + ".jwt"));
                Asking at = new Asking().at(NOW);
                Asking asking = cells[3].contains("certificate") ? at.certificate(Tests.octets("another certificate")) : at.unbound();
                for (Judging it : List.of(one, remote, issuers)) {
                    notHeld(() -> it.validate(token, asking), cells[4].substring("not held ".length()));
                }
            }
            Tests.equal(rows, 2);
        } finally {
            server.stop(0);
        }
    }

    private static String url(HttpServer server) {
        return "http://127.0.0.1:" + server.getAddress().getPort() + "/keys";
    }

    /** Keys by URL ask for proofs. A proof whose signature is bad has none fetched: a token whose own is bad would. */
    private void byUrl(Table table) throws Exception {
        Key issuer = new Key();
        Key client = new Key();
        String token = issuer.sign("{\"alg\":\"ES256\"}", "{\"cnf\":{\"jkt\":\"" + client.thumbprint() + "\"}}");
        String proof = client.proof(token, NOW.getEpochSecond(), "");
        AtomicInteger fetches = new AtomicInteger();
        HttpServer server = Tests.serving(Tests.octets("{\"keys\":[" + issuer.jwk() + "]}"), fetches);
        byte[] policy = Tests.octets("{\"algs\":[\"ES256\"]}");
        try (Once once = new Once(2, 2, Instant.EPOCH); Proofs proofs = new Proofs(table.policy, once);
                RemoteKeys it = new RemoteKeys(policy, url(server), Tests.fetching(List.of(Duration.ofDays(1), Duration.ZERO, Duration.ofDays(2), Duration.ofSeconds(5))))) {
            Asking at = new Asking().at(NOW);
            String changed = proof.replaceFirst(".....$", "AAAAA");
            notHeld(() -> it.validate(token, at.proof(new Proof(proofs, changed, "GET", THINGS))), "BadSignature");
            Tests.equal(fetches.get(), 1);
            it.validate(token, at.proof(new Proof(proofs, proof, "GET", THINGS)));
            notTaken(() -> it.validate(token, at.proof(new Proof(proofs, proof, "GET", THINGS))), "Seen");
            notHeld(() -> it.validate(token, at.proof(new Proof(proofs, issuer.proof(token, NOW.getEpochSecond(), ""), "GET", THINGS))), "OtherKey");
        } finally {
            server.stop(0);
        }
    }

    private void policies(Table table) throws Exception {
        String required = "\"required\":[\"jti\",\"htm\",\"htu\",\"iat\"]";
        String[][] rows = {
            {"{\"algs\":[\"ES256\"],\"typ\":\"at+jwt\"," + required + ",\"max_age\":60}", "Typ", ""},
            {"{\"algs\":[\"ES256\",\"HS256\"],\"typ\":\"dpop+jwt\"," + required + ",\"max_age\":60}", "SharedSecret", ""},
            {"{\"algs\":[\"ES256\"],\"typ\":\"dpop+jwt\",\"max_age\":60}", "Required", ""},
            {"{\"algs\":[\"ES256\"],\"typ\":\"dpop+jwt\"," + required + "}", "MaxAge", ""},
            {"{\"algs\":[\"ES256\"],\"more\":1}", "Member", "more"},
            {"", "Json", ""},
        };
        try (Once once = new Once(1, 1, Instant.EPOCH)) {
            for (String[] row : rows) {
                Refused refusal = Tests.refused(() -> new Proofs(Tests.octets(row[0]), once));
                Tests.equal(List.of(refusal.kind(), refusal.fault(), refusal.about().orElse("")), List.of(Refused.Kind.POLICY, row[1], row[2]));
            }
            Tests.thrown(NullPointerException.class, () -> new Proofs(null, once));
        }
        Tests.thrown(NullPointerException.class, () -> new Proofs(table.policy, null));
    }

    /** Nothing is left out by mistake. */
    private void mistakes(Table table) throws Exception {
        Row good = table.good();
        try (Once once = new Once(1, 1, Instant.EPOCH); Proofs proofs = new Proofs(table.policy, once)) {
            for (Callable<?> it : List.<Callable<?>>of(
                    () -> new Proof(null, good.proof, "GET", THINGS), () -> new Proof(proofs, null, "GET", THINGS), () -> new Proof(proofs, good.proof, null, THINGS),
                    () -> new Proof(proofs, good.proof, "GET", null), () -> good.by(proofs).nonce(null), () -> new Asking().proof(null),
                    () -> new Asking().certificate(null))) {
                Tests.thrown(NullPointerException.class, it);
            }
        }
    }

    private void closing(Table table) throws Exception {
        Row good = table.good();
        Once once = new Once(1, 1, Instant.EPOCH);
        Proofs closed = new Proofs(table.policy, once);
        try (Proofs proofs = new Proofs(table.policy, once)) {
            for (int n = 0; n < 2; n++) {
                closed.close();
                Tests.thrown(IllegalStateException.class, () -> table.validator.validate(good.token, good.asking(closed)));
            }
            once.close();
            Tests.thrown(IllegalStateException.class, () -> table.validator.validate(good.token, good.asking(proofs)));
        }
    }

    private void freeing(Table table) throws Exception {
        try (Once once = new Once(1, 1, Instant.EPOCH)) {
            for (int n = 0; n < 40_000; n++) {
                new Proofs(table.policy, once);
                if (n % 1_000 == 0) {
                    System.gc();
                }
            }
        }
        Tests.check(Tests.resident() < 1_000_000, "resident: " + Tests.resident() + " KiB");
    }

    /** Of many threads one has its proof taken, and each is told what is wrong with another. */
    private void threads(Table table) throws Exception {
        Row good = table.good();
        try (Once once = new Once(8, 8, Instant.EPOCH); Proofs proofs = new Proofs(table.policy, once)) {
            Asking other = good.at().proof(new Proof(proofs, good.proof, good.method, "https://a/"));
            List<Integer> held = Tests.together(8, () -> {
                int count = 0;
                for (int n = 0; n < 50; n++) {
                    notHeld(() -> table.validator.validate(good.token, other), "OtherUri");
                    try {
                        table.validator.validate(good.token, good.asking(proofs));
                        count++;
                    } catch (Refused refusal) {
                        Tests.equal(refusal.kind(), Refused.Kind.NOT_TAKEN);
                    }
                }
                return count;
            });
            Tests.equal(held.stream().mapToInt(it -> it).sum(), 1);
        }
    }

    /** Proofs that are closed while threads show theirs: each call is answered or told that they are closed. */
    private void closingMeanwhile(Table table) throws Exception {
        Row good = table.good();
        for (int n = 0; n < 20; n++) {
            try (Once once = new Once(8, 8, Instant.EPOCH)) {
                Proofs proofs = new Proofs(table.policy, once);
                AtomicInteger closers = new AtomicInteger();
                Tests.together(4, () -> {
                    for (int call = 0; call < 20; call++) {
                        if (call == 10 && closers.getAndIncrement() == 0) {
                            proofs.close();
                        }
                        try {
                            table.validator.validate(good.token, good.asking(proofs));
                        } catch (Refused refusal) {
                            Tests.equal(refusal.kind(), Refused.Kind.NOT_TAKEN);
                        } catch (IllegalStateException closed) {
                            Tests.equal(closed.getMessage(), "the policy for proofs is closed");
                        }
                    }
                    return 0;
                });
            }
        }
    }

    private static String base64url(byte[] octets) {
        return Base64.getUrlEncoder().withoutPadding().encodeToString(octets);
    }

    /** The SHA-256 digest of octets. */
    private static String digest(byte[] octets) throws Exception {
        return base64url(MessageDigest.getInstance("SHA-256").digest(octets));
    }

    /** A key of a client, or of an issuer, for ES256. */
    private static final class Key {
        private final PrivateKey secret;
        private final ECPublicKey key;

        Key() throws Exception {
            KeyPairGenerator generator = KeyPairGenerator.getInstance("EC");
            generator.initialize(new ECGenParameterSpec("secp256r1"));
            var pair = generator.generateKeyPair();
            secret = pair.getPrivate();
            key = (ECPublicKey) pair.getPublic();
        }

        /** The public key, as its thumbprint is of it (RFC 7638). */
        String jwk() {
            return "{\"crv\":\"P-256\",\"kty\":\"EC\",\"x\":\"" + number(key.getW().getAffineX().toByteArray()) + "\",\"y\":\"" + number(key.getW().getAffineY().toByteArray()) + "\"}";
        }

        /** A number of 32 octets. */
        private static String number(byte[] octets) {
            byte[] out = new byte[32];
            int count = Math.min(octets.length, out.length);
            System.arraycopy(octets, octets.length - count, out, out.length - count, count);
            return base64url(out);
        }

        String thumbprint() throws Exception {
            return digest(Tests.octets(jwk()));
        }

        String sign(String header, String claims) throws Exception {
            String signed = base64url(Tests.octets(header)) + "." + base64url(Tests.octets(claims));
            Signature it = Signature.getInstance("SHA256withECDSAinP1363Format");
            it.initSign(secret);
            it.update(Tests.octets(signed));
            return signed + "." + base64url(it.sign());
        }

        /** A proof for GET of the things by a token, with these members beside. */
        String proof(String token, long now, String more) throws Exception {
            String header = "{\"typ\":\"dpop+jwt\",\"alg\":\"ES256\",\"jwk\":" + jwk() + "}";
            String claims = "{\"jti\":\"" + UUID.randomUUID() + "\",\"htm\":\"GET\",\"htu\":\"" + THINGS + "\",\"iat\":" + now + ",\"ath\":\"" + digest(Tests.octets(token)) + "\"";
            return sign(header, claims + more + "}");
        }
    }
}
