/** The names of errors: `c/exports.py` makes this type from c/mldsa.h. */
export type ErrorCode =
    /** an array has the wrong length */
    | "WRONG_LENGTH"
    /** ML-DSA.Sign: ctx too long */
    | "CONTEXT_TOO_LONG"
    /** HashML-DSA.Sign: ctx too long */
    | "HASH_CONTEXT_TOO_LONG"
    /** HashML-DSA.Sign: OID is empty */
    | "OID_EMPTY"
    /** HashML-DSA.Sign: OID is not DER encoded */
    | "OID_NOT_DER"
    /** Hash of message is too long, should not be more than 1KiB */
    | "DIGEST_TOO_LONG"
    /** HashML-DSA.Sign: digest length does not match the OID */
    | "DIGEST_LENGTH"
    /** ML-DSA.Sign: too many attempts */
    | "TOO_MANY_ATTEMPTS"
    /** the private key is damaged: s1 or s2 is out of range */
    | "KEY_RANGE"
    /** sampling limit reached */
    | "SAMPLING_LIMIT"
    /** the state of a message in pieces is broken */
    | "BROKEN_STATE"
    /** no call has written this prepared key */
    | "NOT_PREPARED"
    /** its DER is cut short */
    | "DER_CUT_SHORT"
    /** more follows behind the end of its DER */
    | "DER_TRAILING"
    /** its DER is damaged */
    | "DER_DAMAGED"
    /** it has a private key of another version */
    | "DER_VERSION"
    /** its key is not one of ML-DSA-44, ML-DSA-65 or ML-DSA-87 */
    | "DER_ALGORITHM"
    /** its key has a wrong length */
    | "DER_KEY_LENGTH"
    /** its key is one of another parameter set */
    | "OTHER_SET"
    /** the private key is not consistent */
    | "INCONSISTENT"
    /** it has no seed: an expanded key does not reveal its seed */
    | "NO_SEED"
    /** it is not in PEM: no line -----BEGIN comes first */
    | "PEM_MISSING"
    /** it is encrypted: decrypt it first */
    | "PEM_ENCRYPTED"
    /** it has a certificate: take the key out of it */
    | "PEM_CERTIFICATE"
    /** it has a key of another kind */
    | "PEM_OTHER_KIND"
    /** it has a key of another kind, or something else than a key */
    | "PEM_OTHER_LABEL"
    /** it is cut short */
    | "PEM_CUT_SHORT"
    /** more follows behind its end */
    | "PEM_TRAILING"
    /** its text is damaged */
    | "PEM_DAMAGED"
    ;

/**
 * An error of the library. `message` begins with the text of the error, as `mldsa_text` of c/mldsa.h gives it. If the
 * error is about an array, its name, its length and the right length follow.
 */
export class MlDsaError extends Error {
    readonly name: "MlDsaError";
    /** The error's name in C without `MLDSA_`. It is undefined only if the module is newer than these files. */
    readonly code: ErrorCode;
    /** The number that the call in C returns. */
    readonly status: number;
}

/**
 * What calls return: `Uint8Array`, or from TypeScript 5.7 `Uint8Array<ArrayBuffer>`, which is what `crypto.subtle`,
 * `fetch` and `Blob` accept.
 */
export type Bytes = ReturnType<typeof Uint8Array.of>;

/**
 * Tells whether this engine can run the library, that is whether its WebAssembly has what the module needs.
 * @example
 * isSupported(); // true
 */
export function isSupported(): boolean;

/**
 * Object identifiers of hash functions in DER, as `hashSign` and `hashVerify` take them: a new array at each look.
 * @example
 * oids["SHA-256"].length; // 11
 */
export const oids: Readonly<
    Record<
        | "SHA-224" | "SHA-256" | "SHA-384" | "SHA-512" | "SHA-512/224" | "SHA-512/256"
        | "SHA3-224" | "SHA3-256" | "SHA3-384" | "SHA3-512" | "SHAKE128" | "SHAKE256",
        Bytes
    >
>;

/** What `keygen` returns; also the seed if it drew one. */
export interface KeyPair {
    publicKey: Bytes;
    privateKey: Bytes;
}

export interface Context {
    /** What the signature is for, at most 255 bytes; by default empty. A signature is valid under its context only. */
    context?: Uint8Array;
}

export interface Random {
    /** 32 secret bytes, used once; by default drawn from `crypto.getRandomValues`. Zeros sign deterministically. */
    random?: Uint8Array;
}

/**
 * A message that is hashed in pieces. Both calls throw a `TypeError` for other arguments, which changes nothing, and a
 * `RangeError` if the module's memory can't grow. After that, or any other error, each call throws an `MlDsaError`
 * `BROKEN_STATE`, because a part of the piece may be hashed already: begin again.
 */
export interface MessageHasher {
    /**
     * Adds the next piece, of any length, and returns the hasher itself. Small pieces are copied, and hashed together.
     * @example
     * mlDsa65.messageHasher(publicKey).update(message).update(message);
     */
    update(piece: Uint8Array): MessageHasher;
    /**
     * The `mu` of all pieces so far, of 64 bytes. More may follow.
     * @example
     * mlDsa65.messageHasher(publicKey).update(message).mu().length; // 64
     */
    mu(): Bytes;
}

/**
 * A parameter set of FIPS 204. Calls are synchronous. When one ends, the module's memory is wiped, and at most 2 MiB of
 * it stay, because long messages are passed in pieces. You wipe the arrays that you pass and those that you get. There
 * are no prepared keys.
 *
 * Each call throws a `TypeError` for an argument that is no `Uint8Array`, for options that are no plain object or have
 * another name, and for too many arguments; an `MlDsaError` `WRONG_LENGTH` for an array of a wrong length, but not for a
 * signature to be verified; and a `RangeError` if the module's memory can't grow. Other errors stand
 * at the calls. `TOO_MANY_ATTEMPTS` comes with a damaged private key; nobody knows an input that
 * gives `SAMPLING_LIMIT`.
 */
export interface MlDsa {
    /** `ML-DSA-44`, `ML-DSA-65` or `ML-DSA-87`. */
    readonly name: string;
    /** The lengths of arrays, in bytes. */
    readonly lengths: Readonly<Record<"seed" | "random" | "mu" | "publicKey" | "privateKey" | "signature", number>>;
    /**
     * Makes the key pair of a seed of 32 bytes (Algorithm 1). If you pass none, `crypto.getRandomValues` draws one, which
     * is returned too. The seed is all of the key that you have to store.
     * @example
     * const { publicKey, privateKey, seed } = mlDsa65.keygen();
     * mlDsa65.keygen(seed).publicKey; // publicKey
     * @throws `MlDsaError` `SAMPLING_LIMIT`; `Error` if you pass no seed and the engine has no `crypto.getRandomValues`.
     */
    keygen(): KeyPair & { seed: Bytes };
    keygen(seed?: Uint8Array): KeyPair;
    /**
     * Computes the public key that belongs to a private one.
     * @example
     * mlDsa65.publicKey(privateKey); // publicKey
     * @throws `MlDsaError` `KEY_RANGE` if the bytes are no private key, or `SAMPLING_LIMIT`.
     */
    publicKey(privateKey: Uint8Array): Bytes;
    /**
     * Does the same as `publicKey`, under its name in noble.
     * @example
     * mlDsa65.getPublicKey(privateKey); // publicKey
     * @throws `MlDsaError` as with `publicKey`.
     */
    getPublicKey(privateKey: Uint8Array): Bytes;
    /**
     * Signs a message (Algorithm 2).
     * @example
     * const signature = mlDsa65.sign(privateKey, message, { context });
     * @throws `MlDsaError` `CONTEXT_TOO_LONG`, `KEY_RANGE` if the bytes are no private key, `TOO_MANY_ATTEMPTS` or
     * `SAMPLING_LIMIT`; `Error` without `random`, as with `keygen` without a seed.
     */
    sign(privateKey: Uint8Array, message: Uint8Array, options?: Context & Random): Bytes;
    /**
     * Tells whether the public key accepts the signature of the message under the context (Algorithm 3). It is also
     * false for a signature of another length, and for a context above 255 bytes.
     * @example
     * mlDsa65.verify(publicKey, message, signature, { context }); // true
     */
    verify(publicKey: Uint8Array, message: Uint8Array, signature: Uint8Array, options?: Context): boolean;
    /**
     * Signs the digest of a message (HashML-DSA, Algorithm 4) that the hash function with the object identifier `oid`
     * made. If the function is one of `oids`, the digest has its length (SHAKE128: 32 bytes, SHAKE256: 64); otherwise it
     * has at most 1,024 bytes.
     * @example
     * const signature = mlDsa65.hashSign(privateKey, digest, oids["SHA-384"], { context });
     * @throws `MlDsaError` `HASH_CONTEXT_TOO_LONG`, `OID_EMPTY`, `OID_NOT_DER`, `DIGEST_TOO_LONG`, `DIGEST_LENGTH`,
     * `KEY_RANGE`, `TOO_MANY_ATTEMPTS` or `SAMPLING_LIMIT`; `Error` as with `sign`.
     */
    hashSign(privateKey: Uint8Array, digest: Uint8Array, oid: Uint8Array, options?: Context & Random): Bytes;
    /**
     * Tells whether the public key accepts the signature of the digest under the context (Algorithm 5). It is also false
     * if `hashSign` would throw for the digest, `oid` or the context.
     * @example
     * const own = mlDsa65.hashSign(privateKey, digest, oids["SHA-384"]);
     * mlDsa65.hashVerify(publicKey, digest, oids["SHA-384"], own); // true
     */
    hashVerify(
        publicKey: Uint8Array, digest: Uint8Array, oid: Uint8Array, signature: Uint8Array, options?: Context,
    ): boolean;
    /**
     * Begins a message in pieces, whose `mu` is for `verifyMu`.
     * @example
     * const mu = mlDsa65.messageHasher(publicKey, { context }).update(message).mu();
     * mlDsa65.verifyMu(publicKey, mu, signature); // true
     * @throws `MlDsaError` `CONTEXT_TOO_LONG` if the context has more than 255 bytes.
     */
    messageHasher(publicKey: Uint8Array, options?: Context): MessageHasher;
    /**
     * Begins a message in pieces, whose `mu` is for `signMu`, with the hash `tr` that the private key keeps.
     * @example
     * const mu = mlDsa65.messageHasherOfPrivate(privateKey, { context }).update(message).mu();
     * @throws `MlDsaError` `CONTEXT_TOO_LONG` if the context has more than 255 bytes.
     */
    messageHasherOfPrivate(privateKey: Uint8Array, options?: Context): MessageHasher;
    /**
     * Signs the message that has this `mu` of 64 bytes (FIPS 204, Algorithm 7, line 6), which a `MessageHasher` makes.
     * @example
     * const signature = mlDsa65.signMu(privateKey, mlDsa65.messageHasherOfPrivate(privateKey).update(message).mu());
     * @throws `MlDsaError` `KEY_RANGE`, `TOO_MANY_ATTEMPTS` or `SAMPLING_LIMIT`; `Error` as with `sign`.
     */
    signMu(privateKey: Uint8Array, mu: Uint8Array, options?: Random): Bytes;
    /**
     * Tells whether the public key accepts the signature of the message that has this `mu`.
     * @example
     * mlDsa65.verifyMu(publicKey, mlDsa65.messageHasher(publicKey).mu(), signature); // false
     */
    verifyMu(publicKey: Uint8Array, mu: Uint8Array, signature: Uint8Array): boolean;
    /**
     * Throws unless the bytes are a private key. Each call with a private key checks this too, but for
     * `messageHasherOfPrivate`.
     * @example
     * mlDsa65.checkPrivateKey(privateKey);
     * @throws `MlDsaError` `KEY_RANGE`.
     */
    checkPrivateKey(privateKey: Uint8Array): void;
    /**
     * Tells whether a private key from elsewhere is consistent: if so, what it signs is accepted under the key that
     * `publicKey` returns.
     * @example
     * mlDsa65.isPair(privateKey); // true
     * @throws `MlDsaError` `KEY_RANGE` if the bytes are no private key, or `SAMPLING_LIMIT`.
     */
    isPair(privateKey: Uint8Array): boolean;
    /**
     * Tells whether the part t0 of a private key belongs to its parts s1 and s2, and ignores its hash `tr`. You want
     * `isPair`, unless you know why not.
     * @example
     * mlDsa65.isWhole(privateKey); // true
     * @throws `MlDsaError` as with `isPair`.
     */
    isWhole(privateKey: Uint8Array): boolean;
    /**
     * Writes a public key in DER (RFC 9881), as files have it; `mldsa/keys` puts PEM around it.
     * @example
     * mlDsa65.publicKeyToDer(publicKey).length; // 1974
     */
    publicKeyToDer(publicKey: Uint8Array): Bytes;
    /**
     * Reads a public key in DER.
     * @example
     * mlDsa65.publicKeyFromDer(mlDsa65.publicKeyToDer(publicKey)).length; // 1952
     * @throws `MlDsaError` `DER_..` for other bytes, `OTHER_SET` for a key of another set.
     */
    publicKeyFromDer(der: Uint8Array): Bytes;
    /**
     * Writes a private key in DER, as its seed. That is all you have to store.
     * @example
     * mlDsa65.seedToDer(new Uint8Array(32).fill(7)).length; // 54
     */
    seedToDer(seed: Uint8Array): Bytes;
    /**
     * Writes a private key in DER, as its expanded key.
     * @example
     * mlDsa65.privateKeyToDer(privateKey).length; // 4060
     * @throws `MlDsaError` `INCONSISTENT` if `isPair` is false for it, or `SAMPLING_LIMIT`.
     */
    privateKeyToDer(privateKey: Uint8Array): Bytes;
    /**
     * Writes a private key in DER, as its seed and the expanded key that the seed generates.
     * @example
     * mlDsa65.bothToDer(new Uint8Array(32).fill(7)).length; // 4098
     * @throws `MlDsaError` `SAMPLING_LIMIT`.
     */
    bothToDer(seed: Uint8Array): Bytes;
    /**
     * Reads the expanded key of a private key in DER, in any of the three forms.
     * @example
     * mlDsa65.privateKeyFromDer(mlDsa65.privateKeyToDer(privateKey)).length; // 4032
     * @throws `MlDsaError` `DER_..` for other bytes, `OTHER_SET` for a key of another set, `INCONSISTENT` if its parts don't
     * belong together, `SAMPLING_LIMIT`.
     */
    privateKeyFromDer(der: Uint8Array): Bytes;
    /**
     * Reads the seed of a private key in DER.
     * @example
     * mlDsa65.seedFromDer(mlDsa65.seedToDer(new Uint8Array(32).fill(7)))[31]; // 7
     * @throws `MlDsaError` as with `privateKeyFromDer`, or `NO_SEED`.
     */
    seedFromDer(der: Uint8Array): Bytes;
    /**
     * Reads a public key in PEM, as `readPublicKey` of `mldsa/keys` does at every set.
     * @example
     * mlDsa65.publicKeyFromPem(new TextEncoder().encode(writePublicKey(mlDsa65, publicKey))).length; // 1952
     * @throws `MlDsaError` `PEM_..` for another text, or as with `publicKeyFromDer`.
     */
    publicKeyFromPem(pem: Uint8Array): Bytes;
    /**
     * Reads the expanded key of a private key in PEM, in any of the three forms.
     * @example
     * mlDsa65.privateKeyFromPem(new TextEncoder().encode(writePrivateKey(mlDsa65, privateKey))).length; // 4032
     * @throws `MlDsaError` `PEM_..` for another text, or as with `privateKeyFromDer`.
     */
    privateKeyFromPem(pem: Uint8Array): Bytes;
    /**
     * Reads the seed of a private key in PEM.
     * @example
     * mlDsa65.seedFromPem(new TextEncoder().encode(writePrivateKey(mlDsa65, new Uint8Array(32).fill(7))))[31]; // 7
     * @throws `MlDsaError` as with `privateKeyFromPem`, or `NO_SEED`.
     */
    seedFromPem(pem: Uint8Array): Bytes;
}

/** A compiled module, if the types of WebAssembly are known. */
export type CompiledModule = typeof globalThis extends { WebAssembly: { Module: { prototype: infer Module } } }
    ? Module & object
    : object;

/**
 * Where the module is: a URL or its text, which may be relative to a page, or in node the path of a file; what `fetch`
 * returns; the module's bytes; or itself.
 */
export type Source =
    | string
    | { readonly href: string }
    | { readonly ok: boolean; arrayBuffer(): Promise<ArrayBuffer> }
    | ArrayBuffer
    | Uint8Array
    | CompiledModule;

/**
 * Loads the WebAssembly module and returns the three parameter sets. By default `mldsa` reads `mldsa.wasm` beside its own
 * file, or has it inside if it is bundled for browsers; `mldsa/inline` has it inside everywhere.
 * @example
 * const { mlDsa44, mlDsa65, mlDsa87 } = await load();
 * @throws `Error` if `isSupported` is false, or the module is not found; `TypeError` for another source, in a page text
 * that is not a URL, a second argument, or from `fetch`; `WebAssembly.CompileError` for bytes that are no module, and where a
 * Content-Security-Policy lacks `'wasm-unsafe-eval'`, which `isSupported` can't see.
 */
export function load(
    source?: Source | Promise<Source>,
): Promise<Readonly<Record<"mlDsa44" | "mlDsa65" | "mlDsa87", MlDsa>>>;
