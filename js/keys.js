// Keys in files, as `mlsign` and OpenSSL write them: PEM (RFC 7468) around DER (RFC 9881). The library reads both, in the
// lax form of PEM too, and writes the DER. A file is rejected by the library's sentences but where what was found is named.
import { atMost, bytesIn, webCrypto } from "./engine.js";

const PUBLIC = "PUBLIC KEY";
const PRIVATE = "PRIVATE KEY";
const LINE = 64;
/** The parameter sets. */
const NUMBERS = [44, 65, 87];
/** What reads the DER of each kind. */
const BY_DER = { [PUBLIC]: "publicKeyFromDer", [PRIVATE]: "privateKeyFromDer or seedFromDer" };

/** Why a file is no key. `message` is a sentence about "it", the file. */
export class KeyFileError extends Error {
    constructor(message) {
        super(message);
        this.name = "KeyFileError";
    }
}

/** Rejects more than two arguments, and other sets than those that `load` gives. */
function checkSets(call, words) {
    atMost(call, words, 2);
    if (!NUMBERS.every((it) => words[0]?.[`mlDsa${it}`]?.name === `ML-DSA-${it}`)) {
        throw new TypeError("sets is not what load gives: await load()");
    }
}

/** The file, a text or bytes. Rejects other arguments than what `load` gives, and a file. */
function checkReading(call, words) {
    checkSets(call, words);
    const given = words[1];
    const file = typeof given === "string" ? given : bytesIn(given);
    if (file === undefined) {
        throw new TypeError("file is neither a Uint8Array nor a string");
    }
    return file;
}

/** The key. Rejects other arguments than a parameter set, and a key. */
function checkWriting(call, words, name) {
    const [mlDsa, given] = words;
    atMost(call, words, 2);
    if (!NUMBERS.some((it) => mlDsa?.name === `ML-DSA-${it}`)) {
        throw new TypeError("mlDsa is not a parameter set, as mlDsa65");
    }
    const key = bytesIn(given);
    if (key === undefined) {
        throw new TypeError(`${name} is not a Uint8Array`);
    }
    return key;
}

/** Ends reading. */
function refuse(message) {
    throw new KeyFileError(message);
}

/** The codes of a text that has something else than a key of this kind. */
const OTHERS = ["PEM_ENCRYPTED", "PEM_CERTIFICATE", "PEM_OTHER_KIND", "PEM_OTHER_LABEL"];

/** What the bytes of a text have that is not of this kind. */
function otherKind(file, label) {
    const text = Array.from(file, (byte) => String.fromCharCode(byte)).join("");
    const found = text.match(/-----BEGIN (.*)/)?.[1].match(/^([A-Z][A-Z0-9 ]{0,39})-----/)?.[1];
    const a = (name) => `${/^[AEIORX]/.test(name) ? "an" : "a"} ${name}`;
    return found
        ? `it has ${a(found)}, and not ${a(label)}`
        : "it has a key of another kind, or something else than a key";
}

/** The bytes of base64, which has one spelling; undefined for another text. */
function decoded(symbols) {
    if (!/^[A-Za-z0-9+/]*={0,2}$/.test(symbols) || symbols.length % 4 !== 0) {
        return undefined;
    }
    const binary = atob(symbols);
    return btoa(binary) === symbols ? Uint8Array.from(binary, (character) => character.charCodeAt(0)) : undefined;
}

/** Bytes in base64. */
function encoded(bytes) {
    return btoa(Array.from(bytes, (byte) => String.fromCharCode(byte)).join(""));
}

/** Whether bytes begin as the DER of a key does: a sequence, longer than 127 bytes or of all of them. */
function isDer(bytes) {
    return bytes[0] === 0x30 && ([129, 130].includes(bytes[1]) || bytes[1] === bytes.length - 2);
}

/** The bytes of a file, or of its text. */
function bytesOf(file, label) {
    if (file.length === 0) {
        refuse("it is empty");
    }
    if (isDer(file)) {
        refuse(`it seems to be DER: ${BY_DER[label]} of a set reads it`);
    }
    return typeof file === "string" ? new TextEncoder().encode(file) : file;
}

/** The text of DER. */
function pemOf(der, label) {
    const lines = encoded(der).match(new RegExp(`.{1,${LINE}}`, "g"));
    return [`-----BEGIN ${label}-----`, ...lines, `-----END ${label}-----`, ""].join("\n");
}

/** What a call reads of a file, at the set whose key it is: the set's number and the bytes. */
function readBy(sets, call, file, label) {
    for (const set of NUMBERS) {
        try {
            return [set, sets[`mlDsa${set}`][call](file)];
        } catch (error) {
            if (error.code === "NO_SEED") {
                return [set, undefined];
            }
            if (error.name !== "MlDsaError") {
                throw error;
            }
            if (error.code !== "OTHER_SET") {
                refuse(OTHERS.includes(error.code) ? otherKind(file, label) : error.message);
            }
        }
    }
    throw new Error("the key is one of another library");
}

/** Reads a public key: the bytes of a PEM file, or its text. Gives the number of its set and the key's bytes, or throws
 * a `KeyFileError`. */
export function readPublicKey(sets, file) {
    const given = checkReading("readPublicKey", arguments);
    const [set, publicKey] = readBy(sets, "publicKeyFromPem", bytesOf(given, PUBLIC), PUBLIC);
    return { set, publicKey };
}

/** Reads a private key in the same way: its expanded key, its public key, and its seed where it has one. */
export function readPrivateKey(sets, file) {
    const given = bytesOf(checkReading("readPrivateKey", arguments), PRIVATE);
    const [set, seed] = readBy(sets, "seedFromPem", given, PRIVATE);
    const mlDsa = sets[`mlDsa${set}`];
    if (seed !== undefined) {
        return { set, seed, ...mlDsa.keygen(seed) };
    }
    const [, privateKey] = readBy(sets, "privateKeyFromPem", given, PRIVATE);
    return { set, seed, publicKey: mlDsa.publicKey(privateKey), privateKey };
}

/** The text of a public key's file. */
export function writePublicKey(mlDsa, publicKey) {
    const given = checkWriting("writePublicKey", arguments, "publicKey");
    return pemOf(mlDsa.publicKeyToDer(given), PUBLIC);
}

/** The text of a private key's file, not encrypted: of its seed, or of its expanded key. */
export function writePrivateKey(mlDsa, key) {
    const given = checkWriting("writePrivateKey", arguments, "key");
    const { seed, privateKey } = mlDsa.lengths;
    try {
        return pemOf(given.length === seed ? mlDsa.seedToDer(given) : mlDsa.privateKeyToDer(given), PRIVATE);
    } catch (error) {
        if ([seed, privateKey].includes(given.length)) {
            throw error;
        }
        // It has the class of errors of this set's library.
        const detail = `key has ${given.length} bytes, and neither ${seed}, as a seed, nor ${privateKey}`;
        throw new error.constructor(error.status, detail);
    }
}

/** The fingerprint of a public key's file: SHA-256 of its DER, as `mlsign show` prints it. */
export async function fingerprint(sets, file) {
    const given = checkReading("fingerprint", arguments);
    const { set, publicKey } = readPublicKey(sets, given);
    const subtle = (await webCrypto())?.subtle;
    if (!subtle) {
        throw new Error("there is no crypto.subtle: a page has it over https, from localhost or from a file");
    }
    const digest = new Uint8Array(await subtle.digest("SHA-256", sets[`mlDsa${set}`].publicKeyToDer(publicKey)));
    return `SHA256:${encoded(digest).replace(/=+$/, "")}`;
}

/** The bytes of a member of a JWK: base64url without padding. */
function memberOf(jwk, name, length) {
    const text = jwk[name];
    const isText = typeof text === "string" && /^[\w-]*$/.test(text);
    const symbols = isText ? text.replace(/-/g, "+").replace(/_/g, "/") : "";
    const bytes = isText ? decoded(symbols.padEnd(4 * Math.ceil(symbols.length / 4), "=")) : undefined;
    if (bytes === undefined) {
        refuse(`its ${name} is not in base64url`);
    }
    if (bytes.length !== length) {
        refuse(`its ${name} has ${bytes.length} bytes, and not ${length}`);
    }
    return bytes;
}

/** The set and the public key of a JWK, whose key is private for `sign`, and public for `verify`. */
function ofJwk(call, words, use) {
    const [sets, jwk] = words;
    checkSets(call, words);
    if (typeof jwk !== "object" || jwk === null) {
        throw new TypeError("jwk is not an object: of a text JSON.parse gives one");
    }
    const set = NUMBERS.find((it) => jwk.alg === `ML-DSA-${it}`);
    const [found, wanted] = [jwk.priv !== undefined, use === "sign"].map((it) => (it ? "private" : "public"));
    const operations = jwk.key_ops ?? [use];
    const fault =
        jwk.kty !== "AKP" ? "its kty is not AKP"
        : set === undefined ? "its alg is not ML-DSA-44, ML-DSA-65 or ML-DSA-87"
        : found !== wanted ? `it has a ${found} key, and not a ${wanted} key`
        : (jwk.use ?? "sig") !== "sig" ? "its use is not sig"
        : !Array.isArray(operations) || !operations.includes(use) ? `its key_ops do not have ${use}`
        : undefined;
    if (fault !== undefined) {
        refuse(fault);
    }
    return { set, publicKey: memberOf(jwk, "pub", sets[`mlDsa${set}`].lengths.publicKey) };
}

/** Reads a public key in a JWK, as WebCrypto exports it. */
export function readPublicJwk(sets, jwk) {
    return ofJwk("readPublicJwk", arguments, "verify");
}

/** Reads a private key in a JWK: its seed, and the pair that the seed generates. */
export function readPrivateJwk(sets, jwk) {
    const { set, publicKey } = ofJwk("readPrivateJwk", arguments, "sign");
    const mlDsa = sets[`mlDsa${set}`];
    const seed = memberOf(jwk, "priv", mlDsa.lengths.seed);
    const pair = mlDsa.keygen(seed);
    return pair.publicKey.every((byte, i) => byte === publicKey[i])
        ? { set, seed, ...pair }
        : refuse("its pub is not the public key of its priv");
}

/** Bytes in base64url without padding. */
function toMember(bytes) {
    return encoded(bytes).replace(/\+/g, "-").replace(/\//g, "_").replace(/=+$/, "");
}

/** The JWK of a public key. */
export function writePublicJwk(mlDsa, publicKey) {
    const given = checkWriting("writePublicJwk", arguments, "publicKey");
    // (which rejects one of another length)
    mlDsa.publicKeyToDer(given);
    return { kty: "AKP", alg: mlDsa.name, pub: toMember(given) };
}

/** The JWK of a private key: of its seed. */
export function writePrivateJwk(mlDsa, seed) {
    const given = checkWriting("writePrivateJwk", arguments, "seed");
    return { ...writePublicJwk(mlDsa, mlDsa.keygen(given).publicKey), priv: toMember(given) };
}
