import java.security.SecureRandom;
import org.bouncycastle.pqc.crypto.lms.*;
import org.bouncycastle.crypto.AsymmetricCipherKeyPair;

/** Prints lines WORK WIDTH NANOSECONDS COUNT for keys of height 10. */
class Bench {
    static final LMOtsParameters[] WIDTHS = {LMOtsParameters.sha256_n32_w1, LMOtsParameters.sha256_n32_w2,
        LMOtsParameters.sha256_n32_w4, LMOtsParameters.sha256_n32_w8};

    static long now() {
        return java.lang.management.ManagementFactory.getThreadMXBean().getCurrentThreadCpuTime();
    }

    static void measured(int width, LMOtsParameters ots, boolean printed) throws Exception {
        LMSKeyPairGenerator maker = new LMSKeyPairGenerator();
        maker.init(new LMSKeyGenerationParameters(new LMSParameters(LMSigParameters.lms_sha256_n32_h10, ots), new SecureRandom()));
        long start = now();
        AsymmetricCipherKeyPair pair = maker.generateKeyPair();
        ((LMSPrivateKeyParameters) pair.getPrivate()).getPublicKey().getEncoded();
        long made = now() - start;
        LMSSigner signer = new LMSSigner();
        LMSSigner verifier = new LMSSigner();
        signer.init(true, pair.getPrivate());
        verifier.init(false, pair.getPublic());
        long sign = 0, check = 0;
        for (int i = 0; i < 500; i++) {
            byte[] message = {(byte) (i >> 8), (byte) i};
            start = now();
            byte[] signature = signer.generateSignature(message);
            long middle = now();
            if (!verifier.verifySignature(message, signature)) throw new Exception("does not verify");
            sign += middle - start;
            check += now() - middle;
        }
        if (printed) System.out.printf("make %d %d 1%nsign %d %d 500%nverify %d %d 500%n", width, made, width, sign, width, check);
    }

    public static void main(String[] words) throws Exception {
        measured(4, WIDTHS[2], false);
        int[] widths = {1, 2, 4, 8};
        for (int i = 0; i < 4; i++) measured(widths[i], WIDTHS[i], true);
    }
}
