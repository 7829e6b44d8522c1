import java.security.MessageDigest;
import java.security.SecureRandom;
import java.util.HexFormat;
import java.util.Scanner;
import org.bouncycastle.crypto.generators.MLDSAKeyPairGenerator;
import org.bouncycastle.crypto.params.MLDSAKeyGenerationParameters;
import org.bouncycastle.crypto.params.MLDSAParameters;
import org.bouncycastle.crypto.params.MLDSAPrivateKeyParameters;
import org.bouncycastle.crypto.params.MLDSAPublicKeyParameters;
import org.bouncycastle.crypto.signers.HashMLDSASigner;

/** HashML-DSA with SHA-512: `hash_make` prints keys, messages and signatures, `hash_judge` reads them. */
class BouncyCastle {
    public static void main(String[] words) throws Exception {
        MLDSAParameters set = switch (words[0]) {
            case "44" -> MLDSAParameters.ml_dsa_44_with_sha512;
            case "65" -> MLDSAParameters.ml_dsa_65_with_sha512;
            default -> MLDSAParameters.ml_dsa_87_with_sha512;
        };
        HexFormat hex = HexFormat.of();
        if (words[1].equals("hash_judge")) {
            Scanner in = new Scanner(System.in);
            while (in.hasNext()) {
                HashMLDSASigner judge = new HashMLDSASigner();
                judge.init(false, new MLDSAPublicKeyParameters(set, hex.parseHex(in.next())));
                byte[] message = hex.parseHex(in.next());
                judge.update(message, 0, message.length);
                System.out.println(judge.verifySignature(hex.parseHex(in.next())) ? 1 : 0);
            }
            return;
        }
        SecureRandom random = new SecureRandom();
        MLDSAKeyPairGenerator generator = new MLDSAKeyPairGenerator();
        generator.init(new MLDSAKeyGenerationParameters(random, set));
        for (int i = 0; i < Integer.parseInt(words[2]); i++) {
            var pair = generator.generateKeyPair();
            byte[] message = new byte[i];
            random.nextBytes(message);
            HashMLDSASigner signer = new HashMLDSASigner();
            signer.init(true, (MLDSAPrivateKeyParameters) pair.getPrivate());
            signer.update(message, 0, message.length);
            byte[] signature = signer.generateSignature();
            byte[] digest = MessageDigest.getInstance("SHA-512").digest(message);
            System.out.println(hex.formatHex(((MLDSAPublicKeyParameters) pair.getPublic()).getEncoded()) + " "
                    + hex.formatHex(digest) + " " + hex.formatHex(signature));
        }
    }
}
