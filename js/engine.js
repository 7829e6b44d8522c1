// What core.js and keys.js share: what engines have in different places, and how arguments are looked at.

/** Whether this is Node, or an engine with Node's modules. */
export const isNode = typeof globalThis.process?.versions?.node === "string";

/** A module of Node's own. Its name is no constant, so that what packs scripts for browsers does not look for it. */
export function ofNode(name) {
    return import(/* webpackIgnore: true */ /* @vite-ignore */ ["node", name].join(":"));
}

/** The object `crypto` of the Web, or undefined. Node 18 has it in a module alone. */
export async function webCrypto() {
    return globalThis.crypto ?? (isNode ? (await ofNode("crypto")).webcrypto : undefined);
}

const ofArrays = Object.getPrototypeOf(Uint8Array.prototype);
const [tagOf, bufferOf, placeOf, lengthOf] = [Symbol.toStringTag, "buffer", "byteOffset", "length"].map(
    (name) => Object.getOwnPropertyDescriptor(ofArrays, name).get,
);

/** The bytes of a Uint8Array, of this realm or another, where they are; undefined of any other value. Asks the engine,
 * since properties of the array's own may say something else, as a length that is not its length. */
export function bytesIn(value) {
    if (tagOf.call(value) !== "Uint8Array") {
        return undefined;
    }
    // (a TypeError where its buffer was taken away or is too short by now)
    ofArrays.keys.call(value);
    return new Uint8Array(bufferOf.call(value), placeOf.call(value), lengthOf.call(value));
}

/** Rejects more arguments than a call takes. */
export function atMost(call, words, count) {
    if (words.length > count) {
        const most = `${count} argument${count === 1 ? "" : "s"}`;
        throw new TypeError(`${call} takes at most ${most}, and was given ${words.length}`);
    }
}
