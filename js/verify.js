// The page verify.html: takes a file, a signature and a public key, and says whether the signature is valid.
import { isSupported, load } from "./inline.js";
import { KeyFileError, fingerprint, readPublicKey } from "./keys.js";

const SIGNATURE_LENGTHS = { 44: 2420, 65: 3309, 87: 4627 };
const PARTS = ["message", "signature", "key"];
/** The file is read in pieces of so many bytes. */
const PIECE = 1 << 20;
/** No file of a public key is as long. */
const LONGEST_KEY_FILE = 1 << 16;
const given = {};
const at = (id) => document.getElementById(id);

/** A file's name as an element that leaves the order of the text about it alone. In it what prints nothing, or turns a
 * text round, is spelt out: a tab as \u{9}. */
function named(file) {
    const element = document.createElement("bdi");
    const spelt = (character) => `\\u{${character.codePointAt(0).toString(16)}}`;
    element.textContent = file.name.replace(/[\p{C}\p{Zl}\p{Zp}]|(?! )\s/gu, spelt);
    return element;
}

/** Shows an answer: `kind` is valid, invalid, unknown or waiting; `reason` and `owner`, which says whose key it is, are
 * texts and elements. */
function show(kind, headline, reason, owner = []) {
    at("answer").className = kind;
    at("headline").textContent = headline;
    at("reason").replaceChildren(...reason);
    at("owner").replaceChildren(...owner);
    at("progress").hidden = true;
}

/** Shows how much of a file is read. */
function showProgress(part) {
    at("progress").hidden = false;
    at("progress").value = part;
}

/** The bytes of a part of a file. */
async function bytesOf(file, from, to) {
    return new Uint8Array(await file.slice(from, to).arrayBuffer());
}

/** The set, the bytes and the fingerprint of a public key's file, or null and why not. */
async function keyOf(sets, file) {
    const content = await bytesOf(file, 0, LONGEST_KEY_FILE);
    try {
        const key = readPublicKey(sets, content);
        return [{ ...key, mark: await fingerprint(sets, content).catch((error) => `not known, since ${error.message}`) }, ""];
    } catch (error) {
        if (error instanceof KeyFileError) {
            // What reads DER is not on this page.
            return [null, error.message.replace(/ DER: .*/, " DER, and not PEM")];
        }
        throw error;
    }
}

/** Whether a signature is valid and, where it is not, why: null where `isStale` before that is known. */
async function judge(library, { message, signature, key }, context, isStale) {
    const sets = await library;
    const [read, fault] = await keyOf(sets, key);
    if (!read) {
        return ["unknown", "No answer", [named(key), ` is not a public key that can be read: ${fault}.`]];
    }
    const { set, publicKey, mark } = read;
    const owner = [
        "The key in ", named(key), ` is one of ML-DSA-${set}, and its fingerprint is ${mark}. `,
        "Whose it is, you know if you have this fingerprint from them.",
    ];
    if (signature.size !== SIGNATURE_LENGTHS[set]) {
        const wanted = `The key is one of ML-DSA-${set}, whose signatures have ${SIGNATURE_LENGTHS[set]}.`;
        return ["invalid", "Not valid", [named(signature), ` has ${signature.size} bytes. ${wanted}`], owner];
    }
    if (context.length > 255) {
        const fault = `The context has ${context.length} bytes, and no signature has one of more than 255.`;
        return ["invalid", "Not valid", [fault], owner];
    }
    const signed = await bytesOf(signature);
    const mlDsa = sets[`mlDsa${set}`];
    const hasher = mlDsa.messageHasher(publicKey, { context });
    for (let from = 0; from < message.size; from += PIECE) {
        hasher.update(await bytesOf(message, from, from + PIECE));
        if (isStale()) {
            return null;
        }
        showProgress(Math.min(1, (from + PIECE) / message.size));
    }
    const by = [" by the key in ", named(key), ` (ML-DSA-${set})`];
    if (mlDsa.verifyMu(publicKey, hasher.mu(), signed)) {
        const under = context.length ? ", under this context." : ".";
        return ["valid", "Valid", [named(signature), " is a signature of ", named(message), ...by, under], owner];
    }
    const what = [named(signature), " is not a signature of ", named(message), ", as it is now,"];
    const under = context.length ? " under this context." : " under the empty context.";
    return ["invalid", "Not valid", [...what, ...by, under], owner];
}

/** How often an answer was begun. Only the newest is shown. */
let newest = 0;

/** Says what is missing, or judges. */
async function update(library) {
    const mine = ++newest;
    for (const part of PARTS) {
        at(`${part}-name`).replaceChildren(...(given[part] ? [named(given[part]), `, ${given[part].size} bytes`] : []));
    }
    const missing = PARTS.filter((part) => !given[part]);
    if (missing.length > 0) {
        const names = { message: "the file", signature: "its signature", key: "the public key" };
        show("waiting", "Waiting", [`Still needed: ${missing.map((part) => names[part]).join(", ")}.`]);
        return;
    }
    show("waiting", "Checking", ["The file is read."]);
    let answer;
    try {
        answer = await judge(library, given, new TextEncoder().encode(at("context").value), () => mine !== newest);
    } catch (error) {
        answer = ["unknown", "No answer", [`The check could not be made: ${error.message}.`]];
    }
    if (mine === newest) {
        show(...answer);
    }
}

/** Which part each of three files is: the key by its first line, the signature by its length; null where that does not
 * tell. */
async function sorted(files) {
    const begin = "-----BEGIN ";
    const first = async (file) => new TextDecoder().decode(await bytesOf(file, 0, begin.length));
    const firsts = await Promise.all(files.map(first));
    const keys = files.filter((_, i) => firsts[i] === begin);
    const others = files.filter((it) => !keys.includes(it));
    const signatures = others.filter((it) => Object.values(SIGNATURE_LENGTHS).includes(it.size));
    if (keys.length !== 1 || signatures.length !== 1) {
        return null;
    }
    return { key: keys[0], signature: signatures[0], message: others.find((it) => it !== signatures[0]) };
}

/** Ends the answer that is being made, and says why there is none. */
function refuse(reason) {
    newest++;
    show("unknown", "No answer", [reason]);
}

/** Takes three files that were dropped at once. */
async function takeThree(library, files) {
    const mine = ++newest;
    let found;
    let fault = "It is not clear which of the three is the key and which the signature. Put each into its place.";
    try {
        found = await sorted(files);
    } catch (error) {
        fault = `A file could not be read: ${error.message}.`;
    }
    if (mine !== newest) {
        return;
    }
    if (!found) {
        refuse(fault);
        return;
    }
    Object.assign(given, found);
    await update(library);
}

/** Makes the page do what it says. */
function start() {
    if (!isSupported()) {
        show("unknown", "No answer", [
            "This browser cannot run the check, because it lacks the vectors (SIMD), bulk memory or sign ",
            "extension of WebAssembly. A newer one has them. Nothing was checked.",
        ]);
        for (const input of document.querySelectorAll("input")) {
            input.disabled = true;
        }
        return;
    }
    const library = load();
    library.catch(() => {});
    for (const part of PARTS) {
        at(part).addEventListener("change", () => {
            given[part] = at(part).files[0] ?? given[part];
            update(library);
        });
    }
    at("context").addEventListener("input", () => update(library));
    document.addEventListener("dragover", (event) => event.preventDefault());
    document.addEventListener("drop", (event) => {
        event.preventDefault();
        const files = [...event.dataTransfer.files];
        const part = event.target.closest?.("[data-part]")?.dataset.part;
        if (files.length === 1 && part) {
            given[part] = files[0];
            update(library);
        } else if (files.length === 3) {
            takeThree(library, files);
        } else {
            refuse("Drop all three files at once, or one onto its place.");
        }
    });
    update(library);
}

start();
