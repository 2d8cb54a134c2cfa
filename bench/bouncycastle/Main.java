import java.lang.reflect.Field;
import java.util.ArrayList;
import java.util.List;
import java.util.Locale;
import org.bouncycastle.crypto.digests.SHA256Digest;
import org.bouncycastle.pqc.crypto.lms.LMOtsParameters;
import org.bouncycastle.pqc.crypto.lms.LMSPrivateKeyParameters;
import org.bouncycastle.pqc.crypto.lms.LMSPublicKeyParameters;
import org.bouncycastle.pqc.crypto.lms.LMSSigner;
import org.bouncycastle.pqc.crypto.lms.LMSigParameters;

/**
 * Measures SHA-256 and LMS of BouncyCastle. Prints one line
 * `bc_NAME nanoseconds` for each measure, with the same inputs, the same leaf
 * and the same rounds as the C benchmarks (see measure.h).
 */
public final class Main {
    private static final String I = "215f83b7ccb9acbcd08db97b0d04dc2b";
    private static final String SEED =
        "a1c4696e2608035a886100d05cd99945eb3370731884a8235e2fb3d4d71f2547";
    private static final int LEAF = 4;
    private static final int LONG_LEN = 1 << 20;
    private static final double ROUND_NS = 50e6;
    private static final double WARM_NS = 500e6;

    /** A piece of work: do the thing `repeats` times. */
    private interface Work {
        void run(long repeats) throws Exception;
    }

    private static final class Measure {
        final String name;
        final Work work;
        final double parts;
        long repeats = 1;
        double best;

        Measure(String name, double parts, Work work) {
            this.name = name;
            this.parts = parts;
            this.work = work;
        }

        double timed() throws Exception {
            long start = System.nanoTime();
            work.run(repeats);
            return System.nanoTime() - start;
        }

        /**
         * The first round. Work shorter than the warm-up is done for that long,
         * which lets the virtual machine compile it, and then the number of
         * repeats that fill a round is found.
         */
        void first() throws Exception {
            double spent = timed();
            if (spent < WARM_NS) {
                for (double warm = spent; warm < WARM_NS; ) {
                    warm += timed();
                }
                while ((spent = timed()) < ROUND_NS / 2) {
                    repeats *= 2;
                }
            }
            best = spent / repeats / parts;
        }

        /**
         * A further round. One repeat comes first that is not timed: a private
         * key of height 10 keeps most nodes of its tree only until the next
         * garbage collection, and the first signature after it computes some of
         * them again.
         */
        void again() throws Exception {
            if (repeats > 1) {
                work.run(1);
            }
            best = Math.min(best, timed() / repeats / parts);
        }
    }

    private static final List<Measure> measures = new ArrayList<>();

    private static void add(String name, double parts, Work work) {
        measures.add(new Measure(name, parts, work));
    }

    /** How many rounds: 5, or what the environment variable BENCH_ROUNDS says. */
    private static int countRounds() {
        String text = System.getenv("BENCH_ROUNDS");
        return text == null || !text.matches("[1-9][0-9]{0,3}") ? 5 : Integer.parseInt(text);
    }

    /** Goes through all measures once for every round, as the C benchmarks do. */
    private static void measureAll() throws Exception {
        for (Measure m : measures) {
            m.first();
        }
        int rounds = countRounds();
        for (int r = 1; r < rounds; r++) {
            for (Measure m : measures) {
                m.again();
            }
        }
        for (Measure m : measures) {
            System.out.printf(Locale.ROOT, "bc_%s %.4f%n", m.name, m.best);
        }
    }

    private static void printHex(String name, byte[] bytes) {
        StringBuilder hex = new StringBuilder();
        for (byte b : bytes) {
            hex.append(String.format(Locale.ROOT, "%02x", b));
        }
        System.out.println("bc_" + name + " " + hex);
    }

    private static byte[] unhex(String hex) {
        byte[] bytes = new byte[hex.length() / 2];
        for (int i = 0; i < bytes.length; i++) {
            bytes[i] = (byte) Integer.parseInt(hex.substring(2 * i, 2 * i + 2), 16);
        }
        return bytes;
    }

    private static byte[] counting(int len) {
        byte[] bytes = new byte[len];
        for (int i = 0; i < len; i++) {
            bytes[i] = (byte) i;
        }
        return bytes;
    }

    private static void must(boolean good, String what) {
        if (!good) {
            System.err.println("FAILED: " + what);
            System.exit(1);
        }
    }

    /** One hash after another; the first byte of each is mixed into the next input. */
    private static Work hashing(byte[] input) {
        SHA256Digest sha = new SHA256Digest();
        byte[] digest = new byte[32];
        return n -> {
            while (n-- > 0) {
                sha.update(input, 0, input.length);
                sha.doFinal(digest, 0);
                input[0] ^= digest[0];
            }
        };
    }

    private static byte[] sha256(byte[] data) {
        SHA256Digest sha = new SHA256Digest();
        byte[] digest = new byte[32];
        sha.update(data, 0, data.length);
        sha.doFinal(digest, 0);
        return digest;
    }

    private static LMSPrivateKeyParameters makeKey(LMSigParameters type) {
        LMSPrivateKeyParameters key = new LMSPrivateKeyParameters(type,
            LMOtsParameters.sha256_n32_w8, LEAF, unhex(I), 1 << type.getH(),
            unhex(SEED));
        // The tree is computed, and its nodes kept, when the root is asked for.
        key.getPublicKey();
        return key;
    }

    private static byte[] sign(LMSPrivateKeyParameters key, byte[] message) {
        LMSSigner signer = new LMSSigner();
        signer.init(true, key);
        return signer.generateSignature(message);
    }

    private static boolean check(LMSPublicKeyParameters key, byte[] message, byte[] sig) {
        LMSSigner signer = new LMSSigner();
        signer.init(false, key);
        return signer.verifySignature(message, sig);
    }

    private static void tree(String name, LMSigParameters type) throws Exception {
        // A key signs only once with a leaf. For every repeat to do the same
        // work, the number of the next leaf is set back.
        Field next = LMSPrivateKeyParameters.class.getDeclaredField("q");
        next.setAccessible(true);

        byte[] message = counting(64);
        LMSPrivateKeyParameters key = makeKey(type);
        LMSPublicKeyParameters open = key.getPublicKey();
        byte[] sig = sign(key, message);
        must(key.getIndex() == LEAF + 1, "the next leaf is not counted");
        must(check(open, message, sig), "a good signature was refused");
        byte[] damaged = sig.clone();
        damaged[damaged.length - 1] ^= 1;
        must(!check(open, message, damaged), "a damaged signature was taken");

        printHex("root" + name, open.getT1());
        printHex("sig" + name, sha256(sig));
        add("lms" + name + "_key", 1, n -> {
            while (n-- > 0) {
                makeKey(type);
            }
        });
        add("lms" + name + "_sign", 1, n -> {
            while (n-- > 0) {
                next.setInt(key, LEAF);
                sign(key, message);
            }
        });
        add("lms" + name + "_check", 1, n -> {
            while (n-- > 0) {
                must(check(open, message, sig), "a good signature was refused");
            }
        });
    }

    public static void main(String[] args) throws Exception {
        add("hash55", 1, hashing(counting(55)));
        add("hash_long", LONG_LEN, hashing(counting(LONG_LEN)));
        tree("5", LMSigParameters.lms_sha256_n32_h5);
        tree("10", LMSigParameters.lms_sha256_n32_h10);
        measureAll();
    }
}
