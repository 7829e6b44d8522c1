import { load } from "mldsa";
import { writePrivateJwk } from "mldsa/keys";

const { mlDsa65 } = await load();
const message = new TextEncoder().encode("a message");
const context = new TextEncoder().encode("a context");

const { publicKey, privateKey, seed } = mlDsa65.keygen();
const jwk = writePrivateJwk(mlDsa65, seed);
const signature = mlDsa65.sign(privateKey, message, { context });
console.log(jwk.alg, mlDsa65.verify(publicKey, message, signature, { context }));
