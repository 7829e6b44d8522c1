// ML-DSA (FIPS 204) at the parameter sets 44, 65 and 87, over a WebAssembly module whose source is proved (docs/SPEC.md).
// This file is ordinary JavaScript over it: it copies arrays into the module's memory and back, and is tested, not
// proved. It says nothing of where the module is: that do mldsa.js and inline.js.
import { atMost, bytesIn, isNode, ofNode, webCrypto } from "./engine.js";

/** The lengths of a set's arrays in bytes. */
const LENGTHS = {
    44: { publicKey: 1312, privateKey: 2560, signature: 2420 },
    65: { publicKey: 1952, privateKey: 4032, signature: 3309 },
    87: { publicKey: 2592, privateKey: 4896, signature: 4627 },
};
const SEED_LENGTH = 32;
const RANDOM_LENGTH = 32;
const MU_LENGTH = 64;
const STATE_LENGTH = 337;
const LONGEST_CONTEXT = 255;
/** How much longer the DER of a key is than the key: of a public one, a seed, an expanded one, and a seed beside it. */
const FRAMES = { public: 22, seed: 22, private: 28, both: 66 };
/** Of a message in pieces so many bytes are gathered, and so many at most hashed by one call. */
const GATHERED = 1 << 16;
const AT_ONCE = 1 << 20;
/** An instance with more memory takes no further call, because the memory of a module never shrinks. */
const MOST_MEMORY = 2 * AT_ONCE;

/** MLDSA_VERSION of c/mldsa.h. */
const VERSION = 0x000200;

/** The results of calls, with their numbers and texts: `c/exports.py` makes this table from c/mldsa.h. */
const STATUSES = {
    DONE: [0, "no error, or the result yes"],
    NO: [2, "no"],
    WRONG_LENGTH: [3, "an array has the wrong length"],
    CONTEXT_TOO_LONG: [4, "ML-DSA.Sign: ctx too long"],
    HASH_CONTEXT_TOO_LONG: [5, "HashML-DSA.Sign: ctx too long"],
    OID_EMPTY: [6, "HashML-DSA.Sign: OID is empty"],
    OID_NOT_DER: [7, "HashML-DSA.Sign: OID is not DER encoded"],
    DIGEST_TOO_LONG: [8, "Hash of message is too long, should not be more than 1KiB"],
    DIGEST_LENGTH: [9, "HashML-DSA.Sign: digest length does not match the OID"],
    TOO_MANY_ATTEMPTS: [10, "ML-DSA.Sign: too many attempts"],
    KEY_RANGE: [11, "the private key is damaged: s1 or s2 is out of range"],
    SAMPLING_LIMIT: [12, "sampling limit reached"],
    BROKEN_STATE: [13, "the state of a message in pieces is broken"],
    NOT_PREPARED: [14, "no call has written this prepared key"],
    DER_CUT_SHORT: [15, "its DER is cut short"],
    DER_TRAILING: [16, "more follows behind the end of its DER"],
    DER_DAMAGED: [17, "its DER is damaged"],
    DER_VERSION: [18, "it has a private key of another version"],
    DER_ALGORITHM: [19, "its key is not one of ML-DSA-44, ML-DSA-65 or ML-DSA-87"],
    DER_KEY_LENGTH: [20, "its key has a wrong length"],
    OTHER_SET: [21, "its key is one of another parameter set"],
    INCONSISTENT: [22, "the private key is not consistent"],
    NO_SEED: [23, "it has no seed: an expanded key does not reveal its seed"],
    PEM_MISSING: [24, "it is not in PEM: no line -----BEGIN comes first"],
    PEM_ENCRYPTED: [25, "it is encrypted: decrypt it first"],
    PEM_CERTIFICATE: [26, "it has a certificate: take the key out of it"],
    PEM_OTHER_KIND: [27, "it has a key of another kind"],
    PEM_OTHER_LABEL: [28, "it has a key of another kind, or something else than a key"],
    PEM_CUT_SHORT: [29, "it is cut short"],
    PEM_TRAILING: [30, "more follows behind its end"],
    PEM_DAMAGED: [31, "its text is damaged"],
};
const [DONE, NO, WRONG_LENGTH, BROKEN_STATE] = ["DONE", "NO", "WRONG_LENGTH", "BROKEN_STATE"].map((code) => STATUSES[code][0]);

/** NIST's hash functions: the last byte of the object identifier of each, and the length of its digests. */
const FUNCTIONS = [
    ["SHA-224", 4, 28], ["SHA-256", 1, 32], ["SHA-384", 2, 48], ["SHA-512", 3, 64],
    ["SHA-512/224", 5, 28], ["SHA-512/256", 6, 32],
    ["SHA3-224", 7, 28], ["SHA3-256", 8, 32], ["SHA3-384", 9, 48], ["SHA3-512", 10, 64],
    ["SHAKE128", 11, 32], ["SHAKE256", 12, 64],
];

const atMostBytes = (most) => () => `at most ${most} are allowed`;

/** The array to which an error belongs, and which lengths it may have, where that is known. */
const ABOUT = {
    CONTEXT_TOO_LONG: ["context", atMostBytes(LONGEST_CONTEXT)],
    HASH_CONTEXT_TOO_LONG: ["context", atMostBytes(LONGEST_CONTEXT)],
    OID_EMPTY: ["oid"],
    OID_NOT_DER: ["oid"],
    DIGEST_TOO_LONG: ["digest", atMostBytes(1024)],
    // The library returns this for FUNCTIONS alone.
    DIGEST_LENGTH: ["digest", ({ oid }) => `not ${FUNCTIONS.find(([, arc]) => arc === oid[oid.length - 1])[2]}`],
};

const UNSUPPORTED = "this engine lacks the vectors (SIMD), bulk memory or sign extension of WebAssembly: a newer one has them";

/** The name of a result in `STATUSES`, with its number and text. */
function codeOf(status) {
    return Object.entries(STATUSES).find(([, [number]]) => number === status);
}

/** A call that the library rejected. */
export class MlDsaError extends Error {
    constructor(status, detail) {
        const [code, [, text]] = codeOf(status) ?? [undefined, [status, "no result of this library"]];
        super(text + (detail === undefined ? "" : `: ${detail}`));
        this.name = "MlDsaError";
        this.code = code;
        this.status = status;
    }
}

/** A module with what the library's has: a memory of 32 bits, memory.fill, i64.extend8_s and i64x2.splat. */
const PROBE = new Uint8Array([
    0, 0x61, 0x73, 0x6d, 1, 0, 0, 0, 1, 4, 1, 0x60, 0, 0, 3, 2, 1, 0, 5, 3, 1, 0, 0,
    10, 19, 1, 17, 0, 0x41, 0, 0x41, 0, 0x41, 0, 0xfc, 11, 0, 0x42, 0, 0xc2, 0xfd, 18, 0x1a, 0x0b,
]);

/** Whether this engine can run the library. */
export function isSupported() {
    return typeof WebAssembly === "object" && WebAssembly.validate(PROBE);
}

/** The object identifiers of FUNCTIONS but for their last byte: 2.16.840.1.101.3.4.2. */
const HASHES = [0x06, 0x09, 0x60, 0x86, 0x48, 0x01, 0x65, 0x03, 0x04, 0x02];

/** Object identifiers of hash functions in DER, as `hashSign` and `hashVerify` take them: each time a new array. */
export const oids = Object.freeze(
    Object.defineProperties(
        {},
        Object.fromEntries(
            FUNCTIONS.map(([name, arc]) => [name, { enumerable: true, get: () => Uint8Array.of(...HASHES, arc) }]),
        ),
    ),
);

/** The module's memory and calls. Calls run one after the other, and each wipes the memory. */
class Library {
    #module;
    #exports;
    #memory;
    #heap;
    #begin;
    #constants;
    /** Whether the last call was cut off, as where the engine's stack ends. The module's stack pointer is then where it
     * was in that call, and its memory may not be wiped: such an instance takes no further call. */
    #isBroken = false;

    constructor(module, instance, random) {
        this.random = random;
        this.#module = module;
        const { mldsa_version, __heap_base } = instance.exports;
        const found = mldsa_version?.();
        // (an older module has places of 64 bits)
        if (found >>> 8 !== VERSION >>> 8 || found < VERSION || typeof __heap_base?.value !== "number") {
            const text = [VERSION >>> 16, (VERSION >>> 8) & 255, VERSION & 255].join(".");
            throw new Error(`the module is not mldsa.wasm of version ${text}, or a later one with the same calls`);
        }
        this.#take(instance);
    }

    /** Takes an instance that no call has used. */
    #take({ exports }) {
        this.#exports = exports;
        this.#memory = exports.memory;
        this.#heap = exports.__heap_base.value;
        // Below the heap lie the stack, which is all zeros at first, and the module's constants.
        const first = new Uint8Array(this.#memory.buffer, 0, this.#heap);
        const begin = first.findIndex((byte) => byte !== 0);
        this.#begin = begin < 0 ? this.#heap : begin;
        this.#constants = first.slice(this.#begin);
    }

    /** Makes a call with arrays that it reads, and then those that it writes: of these the lengths, or the bytes that
     * are there before. Gives its status and what it wrote. Each array lies above the module's own memory. */
    call(name, read, written) {
        if (this.#isBroken) {
            new Uint8Array(this.#memory.buffer).fill(0);
            this.#drop();
            this.#isBroken = false;
        }
        if (this.#exports === undefined) {
            this.#take(new WebAssembly.Instance(this.#module, {}));
        }
        const lengths = [...read, ...written].map((it) => (typeof it === "number" ? it : it.length));
        const places = [];
        let end = this.#heap;
        for (const length of lengths) {
            places.push(end);
            end += 16 * Math.ceil(length / 16);
        }
        this.#reach(end);
        const memory = new Uint8Array(this.#memory.buffer, 0, end);
        this.#isBroken = true;
        let answered;
        try {
            [...read, ...written].forEach((it, i) => typeof it === "number" || memory.set(it, places[i]));
            const words = lengths.flatMap((length, i) => [places[i], length]);
            const status = this.#exports[name](...words);
            const ends = lengths.map((length, i) => places[i] + length);
            answered = [status, ...written.map((_, i) => memory.slice(places[read.length + i], ends[read.length + i]))];
        } finally {
            // The stack has what the call computed.
            memory.fill(0);
            memory.set(this.#constants, this.#begin);
        }
        this.#isBroken = false;
        if (end > MOST_MEMORY) {
            this.#drop();
        }
        return answered;
    }

    /** Lets go of the instance, and so of its memory. */
    #drop() {
        this.#exports = undefined;
        this.#memory = undefined;
    }

    /** Grows the memory until it has so many bytes. */
    #reach(bytes) {
        const pages = Math.ceil((bytes - this.#memory.buffer.byteLength) / 65536);
        if (pages > 0) {
            try {
                this.#memory.grow(pages);
            } catch {
                throw new RangeError(`the arrays do not fit into the module's memory: ${bytes} bytes`);
            }
        }
    }
}

const NOTHING = new Uint8Array(0);

/** The bytes of an array, if it is one of bytes, and has its length where it is to have one. */
function bytes(name, value, length) {
    const found = bytesIn(value);
    if (found === undefined) {
        throw new TypeError(`${name} is not a Uint8Array`);
    }
    if (length !== undefined && found.length !== length) {
        throw new MlDsaError(WRONG_LENGTH, `${name} has ${found.length} bytes, and not ${length}`);
    }
    return found;
}

/** Whether a value is an object as `{}` makes it, in this realm or another. */
function isPlain(value) {
    if (Object.prototype.toString.call(value) !== "[object Object]") {
        return false;
    }
    const prototype = Object.getPrototypeOf(value);
    return prototype === null || Object.getPrototypeOf(prototype) === null;
}

/** The options of a call, which stand behind its arrays: each has one of the names. */
function optionsOf(call, words, arrays, ...names) {
    atMost(call, words, arrays + 1);
    const given = words[arrays];
    const found = Object.create(null);
    if (given === undefined) {
        return found;
    }
    if (!isPlain(given)) {
        throw new TypeError(`the options of ${call} are not a plain object, as { ${names[0]} }`);
    }
    for (const name of Reflect.ownKeys(given)) {
        if (!names.includes(name)) {
            throw new TypeError(`${call} has no option ${String(name)}, but ${names.join(" and ")}`);
        }
        found[name] = given[name];
    }
    return found;
}

/** What a call wrote, or an error about one of the arrays that it read. */
function done([status, ...written], named = {}) {
    if (status === DONE) {
        return written;
    }
    const [name, allowed] = ABOUT[codeOf(status)?.[0]] ?? [];
    const limit = () => (allowed === undefined ? "" : `, and ${allowed(named)}`);
    throw new MlDsaError(status, named[name] && `${name} has ${named[name].length} bytes${limit()}`);
}

/** The result of a question. */
function answer([status]) {
    if (status !== DONE && status !== NO) {
        throw new MlDsaError(status);
    }
    return status === DONE;
}

/** A message that is hashed in pieces. Small ones are gathered, since each call has to wipe the module's memory. */
class MessageHasher {
    #library;
    #state;
    #gathered;
    #held = 0;
    /** Whether a call threw on the way: nobody knows then which pieces are hashed. */
    #isBroken = false;

    constructor(library, state) {
        this.#library = library;
        this.#state = state;
    }

    update(piece) {
        atMost("update", arguments, 1);
        const given = bytes("piece", piece);
        return this.#whole(() => {
            if (this.#held + given.length > GATHERED) {
                this.#flush();
            }
            if (given.length > GATHERED) {
                this.#hash(given);
            } else {
                this.#gathered ??= new Uint8Array(GATHERED);
                this.#gathered.set(given, this.#held);
                this.#held += given.length;
            }
            return this;
        });
    }

    mu() {
        atMost("mu", arguments, 0);
        return this.#whole(() => {
            this.#flush();
            return done(this.#library.call("mldsa_mu_finish", [this.#state], [MU_LENGTH]))[0];
        });
    }

    /** Makes a change, after which nothing else is made where it throws. */
    #whole(change) {
        if (this.#isBroken) {
            throw new MlDsaError(BROKEN_STATE, "a call of this hasher threw");
        }
        this.#isBroken = true;
        const result = change();
        this.#isBroken = false;
        return result;
    }

    /** Hashes what was gathered, and wipes it. */
    #flush() {
        if (this.#held > 0) {
            const held = this.#gathered.subarray(0, this.#held);
            this.#hash(held);
            this.#held = 0;
            held.fill(0);
        }
    }

    #hash(piece) {
        for (let at = 0; at < piece.length; at += AT_ONCE) {
            const part = piece.subarray(at, at + AT_ONCE);
            [this.#state] = done(this.#library.call("mldsa_mu_update", [part], [this.#state]));
        }
    }
}

/** The calls of a parameter set. */
class MlDsa {
    #library;
    #prefix;

    constructor(library, number) {
        this.#library = library;
        this.#prefix = `mldsa${number}_`;
        this.name = `ML-DSA-${number}`;
        this.lengths = Object.freeze({ seed: SEED_LENGTH, random: RANDOM_LENGTH, mu: MU_LENGTH, ...LENGTHS[number] });
        Object.freeze(this);
    }

    #call(name, read, written = []) {
        return this.#library.call(this.#prefix + name, read, written);
    }

    /** An array of a kind that has one length. */
    #fixed(name, value) {
        return bytes(name, value, this.lengths[name]);
    }

    /** Calls with random bytes: those that are given, or else some of the system's generator, which are wiped then. */
    #withRandom(name, given, use) {
        if (given !== undefined) {
            return use(this.#fixed(name, given));
        }
        const drawn = this.#library.random(this.lengths[name]);
        try {
            return use(drawn);
        } finally {
            drawn.fill(0);
        }
    }

    /** A call and its named arrays or, where they have a long message, the call for its hash `mu` and the arrays of that. */
    #shortened(name, read) {
        const { message, context, ...key } = read;
        if (message === undefined || message.length <= AT_ONCE) {
            return [name, read];
        }
        if (context.length > LONGEST_CONTEXT) {
            // The library rejects it whatever the message is, and looks at the key first.
            return [name, { ...key, message: NOTHING, context }];
        }
        const begin = key.privateKey === undefined ? "mu_begin" : "mu_begin_private";
        const hasher = this.#begun(begin, { ...key, context });
        return [`${name}_mu`, { ...key, mu: hasher.update(message).mu() }];
    }

    /** Signs with arrays that are named. */
    #signed(name, read, random) {
        return this.#withRandom("random", random, (drawn) => {
            const [call, given] = this.#shortened(name, read);
            return done(this.#call(call, [...Object.values(given), drawn], [this.lengths.signature]), given)[0];
        });
    }

    /** Whether a signature is accepted. One of another length is not, whatever the rest is. */
    #accepts(name, read, signature) {
        const signed = bytes("signature", signature);
        if (signed.length !== this.lengths.signature) {
            return false;
        }
        const [call, given] = this.#shortened(name, read);
        return answer(this.#call(call, [...Object.values(given), signed]));
    }

    keygen(seed) {
        atMost("keygen", arguments, 1);
        return this.#withRandom("seed", seed, (drawn) => {
            const written = [this.lengths.publicKey, this.lengths.privateKey];
            const [publicKey, privateKey] = done(this.#call("keygen", [drawn], written));
            return seed === undefined ? { publicKey, privateKey, seed: drawn.slice() } : { publicKey, privateKey };
        });
    }

    publicKey(privateKey) {
        atMost("publicKey", arguments, 1);
        return done(this.#call("public_key", [this.#fixed("privateKey", privateKey)], [this.lengths.publicKey]))[0];
    }

    getPublicKey(privateKey) {
        atMost("getPublicKey", arguments, 1);
        return this.publicKey(privateKey);
    }

    sign(privateKey, message) {
        const { context = NOTHING, random } = optionsOf("sign", arguments, 2, "context", "random");
        const key = this.#fixed("privateKey", privateKey);
        const read = { privateKey: key, message: bytes("message", message), context: bytes("context", context) };
        return this.#signed("sign", read, random);
    }

    verify(publicKey, message, signature) {
        const { context = NOTHING } = optionsOf("verify", arguments, 3, "context");
        const key = this.#fixed("publicKey", publicKey);
        const read = { publicKey: key, message: bytes("message", message), context: bytes("context", context) };
        return this.#accepts("verify", read, signature);
    }

    hashSign(privateKey, digest, oid) {
        const { context = NOTHING, random } = optionsOf("hashSign", arguments, 3, "context", "random");
        const key = this.#fixed("privateKey", privateKey);
        const hash = { digest: bytes("digest", digest), context: bytes("context", context), oid: bytes("oid", oid) };
        return this.#signed("hash_sign", { privateKey: key, ...hash }, random);
    }

    hashVerify(publicKey, digest, oid, signature) {
        const { context = NOTHING } = optionsOf("hashVerify", arguments, 4, "context");
        const key = this.#fixed("publicKey", publicKey);
        const hash = { digest: bytes("digest", digest), context: bytes("context", context), oid: bytes("oid", oid) };
        return this.#accepts("hash_verify", { publicKey: key, ...hash }, signature);
    }

    messageHasher(publicKey) {
        const { context = NOTHING } = optionsOf("messageHasher", arguments, 1, "context");
        const read = { publicKey: this.#fixed("publicKey", publicKey), context: bytes("context", context) };
        return this.#begun("mu_begin", read);
    }

    messageHasherOfPrivate(privateKey) {
        const { context = NOTHING } = optionsOf("messageHasherOfPrivate", arguments, 1, "context");
        const read = { privateKey: this.#fixed("privateKey", privateKey), context: bytes("context", context) };
        return this.#begun("mu_begin_private", read);
    }

    #begun(name, read) {
        return new MessageHasher(this.#library, done(this.#call(name, Object.values(read), [STATE_LENGTH]), read)[0]);
    }

    signMu(privateKey, mu) {
        const { random } = optionsOf("signMu", arguments, 2, "random");
        const read = { privateKey: this.#fixed("privateKey", privateKey), mu: this.#fixed("mu", mu) };
        return this.#signed("sign_mu", read, random);
    }

    verifyMu(publicKey, mu, signature) {
        atMost("verifyMu", arguments, 3);
        const read = { publicKey: this.#fixed("publicKey", publicKey), mu: this.#fixed("mu", mu) };
        return this.#accepts("verify_mu", read, signature);
    }

    checkPrivateKey(privateKey) {
        atMost("checkPrivateKey", arguments, 1);
        done(this.#call("check_private_key", [this.#fixed("privateKey", privateKey)]));
    }

    isPair(privateKey) {
        atMost("isPair", arguments, 1);
        return answer(this.#call("is_pair", [this.#fixed("privateKey", privateKey)]));
    }

    isWhole(privateKey) {
        atMost("isWhole", arguments, 1);
        return answer(this.#call("is_whole", [this.#fixed("privateKey", privateKey)]));
    }

    publicKeyToDer(publicKey) {
        atMost("publicKeyToDer", arguments, 1);
        const length = this.lengths.publicKey + FRAMES.public;
        return done(this.#call("public_key_to_der", [this.#fixed("publicKey", publicKey)], [length]))[0];
    }

    publicKeyFromDer(der) {
        atMost("publicKeyFromDer", arguments, 1);
        return done(this.#call("public_key_from_der", [bytes("der", der)], [this.lengths.publicKey]))[0];
    }

    seedToDer(seed) {
        atMost("seedToDer", arguments, 1);
        return done(this.#call("seed_to_der", [this.#fixed("seed", seed)], [SEED_LENGTH + FRAMES.seed]))[0];
    }

    privateKeyToDer(privateKey) {
        atMost("privateKeyToDer", arguments, 1);
        const length = this.lengths.privateKey + FRAMES.private;
        return done(this.#call("private_key_to_der", [this.#fixed("privateKey", privateKey)], [length]))[0];
    }

    bothToDer(seed) {
        atMost("bothToDer", arguments, 1);
        const length = this.lengths.privateKey + FRAMES.both;
        return done(this.#call("both_to_der", [this.#fixed("seed", seed)], [length]))[0];
    }

    privateKeyFromDer(der) {
        atMost("privateKeyFromDer", arguments, 1);
        return done(this.#call("private_key_from_der", [bytes("der", der)], [this.lengths.privateKey]))[0];
    }

    seedFromDer(der) {
        atMost("seedFromDer", arguments, 1);
        return done(this.#call("seed_from_der", [bytes("der", der)], [SEED_LENGTH]))[0];
    }

    publicKeyFromPem(pem) {
        atMost("publicKeyFromPem", arguments, 1);
        return done(this.#call("public_key_from_pem", [bytes("pem", pem)], [this.lengths.publicKey]))[0];
    }

    privateKeyFromPem(pem) {
        atMost("privateKeyFromPem", arguments, 1);
        return done(this.#call("private_key_from_pem", [bytes("pem", pem)], [this.lengths.privateKey]))[0];
    }

    seedFromPem(pem) {
        atMost("seedFromPem", arguments, 1);
        return done(this.#call("seed_from_pem", [bytes("pem", pem)], [SEED_LENGTH]))[0];
    }
}

/** What draws so many random bytes. */
async function generator() {
    const found = await webCrypto();
    return (length) => {
        if (found === undefined) {
            throw new Error("this engine has no crypto.getRandomValues: pass seed and random");
        }
        return found.getRandomValues(new Uint8Array(length));
    };
}

/** The bytes that a URL names. Node's fetch reads no files. */
async function bytesAt(url) {
    if (url.protocol === "file:" && isNode) {
        return (await ofNode("fs/promises")).readFile(url);
    }
    return ofResponse(await fetch(url.href));
}

function ofResponse(response) {
    if (!response.ok) {
        throw new Error(`${response.url}: ${response.status} ${response.statusText}`);
    }
    return response.arrayBuffer();
}

/** The bytes at a place in text: a URL, which may be relative to a page or, where Node has no page, the path of a file. */
async function bytesAtText(text) {
    const page = globalThis.location?.href;
    // (a single letter before the colon is a drive of Windows)
    if (isNode && page === undefined && !/^[a-z][a-z\d+.-]+:/i.test(text)) {
        return (await ofNode("fs/promises")).readFile(text);
    }
    return bytesAt(new URL(text, page));
}

/** The module of what `load` was given: a place or its text, a response, bytes, or a module. */
async function moduleOf(source) {
    if (Object.prototype.toString.call(source) === "[object WebAssembly.Module]") {
        return source;
    }
    const place = typeof source === "string" ? source : source?.href;
    if (typeof place === "string") {
        return WebAssembly.compile(await bytesAtText(place));
    }
    return WebAssembly.compile(typeof source?.arrayBuffer === "function" ? await ofResponse(source) : source);
}

/** The module that lies beside a script. Bundles have no place, or nothing beside it. */
async function besideOf(script) {
    const how = "a bundle takes mldsa/inline, or gives load the module's place or bytes";
    if (script === undefined) {
        throw new Error(`this script does not know where mldsa.wasm is: ${how}`);
    }
    try {
        return await bytesAt(new URL("./mldsa.wasm", script));
    } catch (error) {
        const why = "there is no mldsa.wasm beside this script, or the page's Content-Security-Policy forbids it";
        throw new Error(`${why}: ${how} (${error.message})`);
    }
}

/** The bytes of base64. */
function ofBase64(text) {
    return Uint8Array.from(atob(text), (character) => character.charCodeAt(0));
}

/** A function that loads the module, and gives the three parameter sets. By default it is what lies beside a script, or
 * inside one in base64. */
export function loader({ beside, inside }) {
    const own = () => (inside === undefined ? besideOf(beside()) : ofBase64(inside));
    return async function load(source) {
        atMost("load", arguments, 1);
        if (!isSupported()) {
            throw new Error(UNSUPPORTED);
        }
        const module = await moduleOf(source === undefined ? await own() : await source);
        const library = new Library(module, await WebAssembly.instantiate(module, {}), await generator());
        const [mlDsa44, mlDsa65, mlDsa87] = [44, 65, 87].map((number) => new MlDsa(library, number));
        return Object.freeze({ mlDsa44, mlDsa65, mlDsa87 });
    };
}
