import { ml_dsa65 } from "@noble/post-quantum/ml-dsa.js";

const seed = crypto.getRandomValues(new Uint8Array(32));
const message = new TextEncoder().encode("a message");
const context = new TextEncoder().encode("a context");

const { publicKey, secretKey } = ml_dsa65.keygen(seed);
const signature = ml_dsa65.sign(message, secretKey, { context });
console.log(ml_dsa65.verify(signature, message, publicKey, { context }));
