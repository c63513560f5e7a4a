import java.nio.charset.StandardCharsets;
import java.nio.file.Files;
import java.nio.file.Path;
import java.util.HexFormat;
import org.bouncycastle.pqc.crypto.lms.HSSPublicKeyParameters;
import org.bouncycastle.pqc.crypto.lms.HSSSigner;

/** Reads lines KEY MESSAGE SIGNATURE in hexadecimal from a file, and prints `good` or `bad` for each. */
class Verify {
    static boolean isGood(byte[] key, byte[] message, byte[] signature) throws Exception {
        HSSSigner verifier = new HSSSigner();
        verifier.init(false, HSSPublicKeyParameters.getInstance(key));
        return verifier.verifySignature(message, signature);
    }

    public static void main(String[] words) throws Exception {
        HexFormat hex = HexFormat.of();
        for (String line : Files.readAllLines(Path.of(words[0]), StandardCharsets.US_ASCII)) {
            String[] fields = line.split(" ");
            boolean good = isGood(hex.parseHex(fields[0]), hex.parseHex(fields[1]), hex.parseHex(fields[2]));
            System.out.println(good ? "good" : "bad");
        }
    }
}
