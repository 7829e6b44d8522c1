const { subtle } = globalThis.crypto;
const message = new TextEncoder().encode("a message");
const context = new TextEncoder().encode("a context");

const { publicKey, privateKey } = await subtle.generateKey("ML-DSA-65", true, ["sign", "verify"]);
const jwk = await subtle.exportKey("jwk", privateKey);
const signature = await subtle.sign({ name: "ML-DSA-65", context }, privateKey, message);
console.log(jwk.alg, await subtle.verify({ name: "ML-DSA-65", context }, publicKey, signature, message));
