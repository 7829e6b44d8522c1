// Makes the calls that standard input asks for, a line each: the number of a set, the name of a call, and its arrays in hex, with a tab between.
// Prints a line for each: what was made in hex, with a tab between; yes or no; or the text of an error. The argument is the module of the library;
// beside it is keys.js.
import { createInterface } from "node:readline";
import { pathToFileURL } from "node:url";

const module = pathToFileURL(process.argv[2]);
const { load, MlDsaError } = await import(module);
const keys = await import(new URL("keys.js", module));
const library = await load();
const hex = (bytes) => Buffer.from(bytes).toString("hex");

/** A part of a key that was read of a file, which has to be of the set. */
function part(set, read, name) {
    if (library[`mlDsa${read.set}`] !== set) {
        throw new Error(`a key of ML-DSA-${read.set}`);
    }
    return [read[name]];
}

const CALLS = {
    keygen: (set, seed) => {
        const { publicKey, privateKey } = set.keygen(seed);
        return [publicKey, privateKey];
    },
    sign: (set, key, message, context, random) => [set.sign(key, message, { context, random })],
    verify: (set, key, message, context, signature) => set.verify(key, message, signature, { context }),
    hash_sign: (set, key, digest, context, oid, random) => [set.hashSign(key, digest, oid, { context, random })],
    hash_verify: (set, key, digest, context, oid, signature) => set.hashVerify(key, digest, oid, signature, { context }),
    sign_mu: (set, key, mu, random) => [set.signMu(key, mu, { random })],
    verify_mu: (set, key, mu, signature) => set.verifyMu(key, mu, signature),
    public_key_from_der: (set, file) => [set.publicKeyFromDer(file)],
    public_key_from_pem: (set, file) => part(set, keys.readPublicKey(library, file), "publicKey"),
    public_key_to_der: (set, key) => [set.publicKeyToDer(key)],
    public_key_to_pem: (set, key) => [Buffer.from(keys.writePublicKey(set, key))],
    private_key_from_der: (set, file) => [set.privateKeyFromDer(file)],
    private_key_from_pem: (set, file) => part(set, keys.readPrivateKey(library, file), "privateKey"),
    private_key_to_der: (set, key) => [set.privateKeyToDer(key)],
    private_key_to_pem: (set, key) => [Buffer.from(keys.writePrivateKey(set, key))],
    both_to_der: (set, seed) => [set.bothToDer(seed)],
    seed_from_der: (set, file) => [set.seedFromDer(file)],
    seed_from_pem: (set, file) => part(set, keys.readPrivateKey(library, file), "seed"),
    seed_to_der: (set, seed) => [set.seedToDer(seed)],
    seed_to_pem: (set, seed) => [Buffer.from(keys.writePrivateKey(set, seed))],
};

for await (const line of createInterface({ input: process.stdin })) {
    const [number, call, ...fields] = line.split("\t");
    const given = fields.map((digits) => new Uint8Array(Buffer.from(digits, "hex")));
    let said;
    try {
        const answer = CALLS[call](library[`mlDsa${number}`], ...given);
        said = typeof answer === "boolean" ? (answer ? "yes" : "no") : answer.map(hex).join("\t");
    } catch (error) {
        if (!(error instanceof MlDsaError || error instanceof keys.KeyFileError)) {
            throw error;
        }
        said = error.message;
    }
    process.stdout.write(`${said}\n`);
}
