import { load } from "mldsa";

const { mlDsa65 } = await load();
const message = new TextEncoder().encode("a message");
const context = new TextEncoder().encode("a context");

const { publicKey, privateKey, seed } = mlDsa65.keygen();
const signature = mlDsa65.sign(privateKey, message, { context });
console.log(mlDsa65.verify(publicKey, message, signature, { context }));
