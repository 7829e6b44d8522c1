import { load } from "./mldsa.js";

const { mlDsa65 } = await load();
const { publicKey, privateKey } = mlDsa65.keygen();
const message = new TextEncoder().encode("a message");
const context = new TextEncoder().encode("a context");

const signature = mlDsa65.sign(privateKey, message, { context });
console.log(mlDsa65.verify(publicKey, message, signature, { context }));
