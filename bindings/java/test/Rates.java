import java.nio.file.Files;
import java.nio.file.Path;

import org.example.fowharimu.Remember;
import org.example.fowharimu.Validator;

/** Rates THREADS SECONDS NAME BURST [remember]: prints how many calls a second so many threads make on one validator. */
final class Rates {
    private static final long NOW = 1300819379;

    private Rates() {}

    public static void main(String[] words) throws Exception {
        int threads = Integer.parseInt(words[0]);
        String name = words[2];
        Remember remember = words.length == 5 ? new Remember(100, 4096) : new Remember();
        byte[] policy = Files.readAllBytes(Path.of(name + ".policy")), keys = Files.readAllBytes(Path.of(name + ".keys"));
        byte[] token = Files.readAllBytes(Path.of(name + ".jwt"));
        try (Validator validator = new Validator(policy, keys, remember)) {
            Bursts.print(threads, nanoseconds(words[1]), nanoseconds(words[3]), () -> validator.validate(token, NOW));
        }
    }

    private static long nanoseconds(String seconds) {
        return (long) (Double.parseDouble(seconds) * 1e9);
    }
}
