import java.io.IOException;
import java.nio.charset.StandardCharsets;
import java.nio.file.Files;
import java.nio.file.Path;
import java.time.Duration;
import java.util.Optional;

import org.example.fowharimu.Credentials;
import org.example.fowharimu.Fetching;
import org.example.fowharimu.Judging;
import org.example.fowharimu.Remember;
import org.example.fowharimu.RemoteKeys;
import org.example.fowharimu.Validator;

/** Bench HMAC RSA URL: prints the least time of a call, in microseconds, on a token by HMAC and one by RS256, whose keys stand at a URL too. */
final class Bench {
    private static final int ROUNDS = 600;
    private static final long NOW = 1300819379;
    private static final Remember REMEMBER = new Remember(10, 4096);

    /** What is measured. */
    private interface Call {
        void make() throws Exception;
    }

    private Bench() {}

    public static void main(String[] words) throws Exception {
        String hmac = words[0], rsa = words[1];
        try (Validator validator = open(hmac, new Remember())) {
            measure("HS256 claims", 100, validating(validator, hmac));
        }
        try (Validator validator = open(rsa, new Remember())) {
            measure("RS256 claims", 20, validating(validator, rsa));
        }
        try (Validator validator = open(hmac, REMEMBER)) {
            measure("HS256 claims, remembered", 200, validating(validator, hmac));
        }
        try (Validator validator = open(rsa, REMEMBER)) {
            measure("RS256 claims, remembered", 200, validating(validator, rsa));
        }
        Fetching plain = new Fetching();
        Fetching how = new Fetching(
                plain.refreshAfter(), plain.cooldown(), plain.maxAge(), Duration.ofSeconds(5), true, Optional.empty(), plain.listener());
        try (RemoteKeys keys = new RemoteKeys(read(rsa, "policy"), words[2], how, REMEMBER)) {
            measure("RS256 claims, remembered, keys by URL", 200, validating(keys, rsa));
        }
        String value = "Bearer " + new String(read(rsa, "jwt"), StandardCharsets.US_ASCII);
        measure("Authorization", 200, () -> Credentials.of(value));
    }

    private static void measure(String label, int calls, Call call) throws Exception {
        double least = Double.MAX_VALUE;
        for (int round = 0; round < ROUNDS; round++) {
            long begun = System.nanoTime();
            for (int n = 0; n < calls; n++) {
                call.make();
            }
            least = Math.min(least, (System.nanoTime() - begun) / 1000.0 / calls);
        }
        System.out.printf("%s %.3f%n", label, least);
    }

    private static Call validating(Judging by, String name) throws IOException {
        byte[] token = read(name, "jwt");
        return () -> by.validate(token, NOW);
    }

    private static Validator open(String name, Remember remember) throws Exception {
        return new Validator(read(name, "policy"), read(name, "keys"), remember);
    }

    private static byte[] read(String name, String end) throws IOException {
        return Files.readAllBytes(Path.of(name + "." + end));
    }
}
