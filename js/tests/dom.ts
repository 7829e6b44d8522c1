// Each array that a call returns, where the web's own calls take bytes.
import { load, oids } from "mldsa";
import type { Bytes, MlDsa } from "mldsa";
import { readPrivateJwk, readPrivateKey, readPublicJwk, readPublicKey, writePrivateJwk, writePublicJwk } from "mldsa/keys";

/** All that the calls of a set return. */
function returned(set: MlDsa, random: Uint8Array, message: Uint8Array): Bytes[] {
    const { publicKey, privateKey } = set.keygen(random);
    const mu = set.messageHasher(publicKey).update(message).mu();
    const signatures = [set.sign(privateKey, message), set.hashSign(privateKey, message, oids["SHA-256"]), set.signMu(privateKey, mu)];
    const written = [set.publicKeyToDer(publicKey), set.seedToDer(random), set.privateKeyToDer(privateKey), set.bothToDer(random)];
    const read = [set.publicKeyFromDer(random), set.privateKeyFromDer(random), set.seedFromDer(random)];
    return [publicKey, privateKey, set.publicKey(privateKey), mu, oids["SHA-256"], ...signatures, ...written, ...read];
}

export async function uses(file: string, message: Uint8Array, socket: WebSocket): Promise<void> {
    const sets = await load();
    const { publicKey, privateKey, seed } = readPrivateKey(sets, file);
    const jwk = await crypto.subtle.exportKey("jwk", {} as CryptoKey);
    const ofJwk = [readPublicJwk(sets, jwk).publicKey, readPrivateJwk(sets, jwk).seed, readPrivateJwk(sets, jwk).privateKey];
    await crypto.subtle.importKey("jwk", writePublicJwk(sets.mlDsa65, publicKey), "ML-DSA-65", true, ["verify"]);
    await crypto.subtle.importKey("jwk", writePrivateJwk(sets.mlDsa65, message), "ML-DSA-65", true, ["sign"]);
    const read = [readPublicKey(sets, file).publicKey, publicKey, privateKey, sets.mlDsa65.keygen().seed, ...ofJwk];
    const bytes = [...returned(sets.mlDsa65, message, message), ...read];
    new Blob(bytes);
    for (const it of bytes) {
        await crypto.subtle.digest("SHA-256", it);
        await fetch("/", { method: "POST", body: it });
        socket.send(it);
    }
    await crypto.subtle.digest("SHA-256", seed ?? publicKey);
}
