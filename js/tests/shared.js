// What the tests share: recorded values of the repository.
import { createHash, webcrypto } from "node:crypto";
import { readFileSync } from "node:fs";

const top = new URL("../../", import.meta.url);
export const text = (name) => readFileSync(new URL(name, top), "utf8");
export const hex = (digits) => new Uint8Array(Buffer.from(digits, "hex"));
export const sha256 = (bytes) => createHash("sha256").update(bytes).digest("hex");
export const shake = (name, bytes, length) => new Uint8Array(createHash(name, { outputLength: length }).update(bytes).digest());
export const utf8 = (words) => new TextEncoder().encode(words);

/** Keys and signatures that OpenSSL 4.0.0 wrote: the public key of the seed 00 01 .. 1F as PEM, and its signature of `message` under
 * the context `context`. */
export function ofOpenssl(number) {
    const file = (name) => readFileSync(new URL(`crates/mlsign_session/data/${name}`, top));
    return { pem: file(`public-${number}.pem`).toString(), signature: new Uint8Array(file(`signature-${number}`)) };
}

/** Whether the WebCrypto of this node has ML-DSA. */
export function hasMlDsa() {
    return webcrypto.subtle.generateKey("ML-DSA-65", true, ["sign", "verify"]).then(() => true, () => false);
}

/** The numbers from 0 to 31. */
export const SEED = Uint8Array.from({ length: 32 }, (_, i) => i);
