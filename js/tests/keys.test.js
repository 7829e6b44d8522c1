// Keys in files.
import assert from "node:assert/strict";
import { createHash, webcrypto } from "node:crypto";
import test from "node:test";
import {
    KeyFileError, fingerprint, readPrivateJwk, readPrivateKey, readPublicJwk, readPublicKey, writePrivateJwk,
    writePrivateKey, writePublicJwk, writePublicKey,
} from "../keys.js";
import { SEED, hasMlDsa, ofOpenssl, text, utf8 } from "./shared.js";
import { MlDsaError, load } from "../mldsa.js";

const sets = await load();

/** The text of these bytes. */
function pem(der, ending = "\n", label = "PUBLIC KEY") {
    const lines = Buffer.from(der).toString("base64").match(/.{1,64}/g) ?? [];
    return [`-----BEGIN ${label}-----`, ...lines, `-----END ${label}-----`, ""].join(ending);
}

/** A SubjectPublicKeyInfo, written another way than it is read: from its end. */
function info(arc, key, unused = 0) {
    const element = (tag, inside) => [tag, ...(inside.length < 128 ? [] : inside.length < 256 ? [129] : [130, inside.length >> 8]), inside.length & 255, ...inside];
    const identifier = [0x30, 11, 6, 9, 0x60, 0x86, 0x48, 1, 0x65, 3, 4, 3, arc];
    return element(0x30, [...identifier, ...element(3, [unused, ...key])]);
}

const says = (message) => (error) => error instanceof KeyFileError && error.message === message;

test("keys that OpenSSL wrote", () => {
    for (const number of [44, 65, 87]) {
        const { pem: text } = ofOpenssl(number);
        const { publicKey } = sets[`mlDsa${number}`].keygen(SEED);
        for (const file of [text, utf8(text), text.replaceAll("\n", "\r\n")]) {
            assert.deepEqual(readPublicKey(sets, file), { set: number, publicKey });
        }
        assert.equal(pem(info({ 44: 17, 65: 18, 87: 19 }[number], publicKey)), text);
    }
});

test("each cut and each changed byte of a file is refused, or is another key", () => {
    const { pem: text } = ofOpenssl(44);
    const { publicKey } = readPublicKey(sets, text);
    const reasons = new Map([[0, "it is empty"]]);
    // (without its last line feed it is the key)
    for (let end = 0; end < text.length - 1; end++) {
        assert.throws(() => readPublicKey(sets, text.slice(0, end)), says(reasons.get(end) ?? "it is cut short"));
    }
    const bytes = utf8(text);
    for (let at = 0; at < bytes.length; at++) {
        for (const value of [bytes[at] ^ 1, bytes[at] ^ 32, 10, 13, 32, 45, 61, 65, 200]) {
            const changed = bytes.slice();
            changed[at] = value;
            if (value === bytes[at]) {
                continue;
            }
            let read;
            try {
                read = readPublicKey(sets, changed);
            } catch (error) {
                assert.ok(error instanceof KeyFileError);
                continue;
            }
            assert.equal(read.set, 44);
            // What spells the same key differs in white space alone, or behind the last line.
            const symbols = (it) => Buffer.from(it).toString("latin1").split("-----").slice(0, 4).join("-----").replace(/[ \t\n\f\r]/g, "");
            const isSame = Buffer.from(read.publicKey).equals(Buffer.from(publicKey));
            assert.equal(symbols(changed) === symbols(bytes), isSame);
            assert.equal(symbols(utf8(pem(info(17, read.publicKey)))), symbols(changed));
        }
    }
});

test("text around a key counts for nothing, nor does white space within", () => {
    for (const number of [44, 65, 87]) {
        const mlDsa = sets[`mlDsa${number}`];
        const { publicKey } = mlDsa.keygen(SEED);
        for (const [text, read, wanted] of [
            [ofOpenssl(number).pem, (it) => readPublicKey(sets, it).publicKey, publicKey],
            [writePrivateKey(mlDsa, SEED), (it) => readPrivateKey(sets, it).seed, SEED],
        ]) {
            const [first, ...lines] = text.trimEnd().split("\n");
            const last = lines.pop();
            for (const lax of [
                text.slice(0, -1), text.replaceAll("\n", "\r\n"), text.replaceAll("\n", "\r"), `\n\n${text}\n`,
                `Subject: you \u00FC\r\n${text}`, `\uFEFF${text}`, `${text}with regards\n`, `-----BEGIN${text}`,
                text.replaceAll("\n", "\n \t"), `${first}${lines.join("")}${last}`,
                `${first}\f \t\r\n${[...lines.join("")].join(" ")}\n${last}`,
            ]) {
                assert.deepEqual(read(lax), wanted, lax.slice(0, 80));
                assert.deepEqual(read(utf8(lax)), wanted, lax.slice(0, 80));
            }
        }
    }
});

test("why a file is refused", () => {
    const { publicKey: key } = sets.mlDsa44.keygen(SEED);
    const der = info(17, key);
    const text = pem(der);
    const changed = (place, value) => pem(der.map((byte, i) => (i === place ? value : byte)));
    const rows = [
        ["", "it is empty"],
        [new Uint8Array(0), "it is empty"],
        [Uint8Array.from(der), "it seems to be DER: publicKeyFromDer of a set reads it"],
        [Uint8Array.from([0x30, 129, 5]), "it seems to be DER: publicKeyFromDer of a set reads it"],
        [sets.mlDsa44.seedToDer(SEED), "it seems to be DER: publicKeyFromDer of a set reads it"],
        [utf8("0 is no key"), "it is not in PEM: no line -----BEGIN comes first"],
        ["a message", "it is not in PEM: no line -----BEGIN comes first"],
        [pem(der, "\n", "PRIVATE KEY"), "it has a PRIVATE KEY, and not a PUBLIC KEY"],
        [utf8(pem(der, "\n", "ENCRYPTED PRIVATE KEY")), "it has an ENCRYPTED PRIVATE KEY, and not a PUBLIC KEY"],
        [pem(der, "\n", "RSA PRIVATE KEY").slice(0, 40), "it has an RSA PRIVATE KEY, and not a PUBLIC KEY"],
        ["-----BEGIN CERTIFICATE-----", "it has a CERTIFICATE, and not a PUBLIC KEY"],
        ["-----BEGIN PRIVATE", "it has a key of another kind, or something else than a key"],
        [pem(der, "\n", "public key"), "it has a key of another kind, or something else than a key"],
        [pem(der, "\n", "\u202EKEY"), "it has a key of another kind, or something else than a key"],
        [pem(der, "\n", "K".repeat(41)), "it has a key of another kind, or something else than a key"],
        [text.slice(1), "it is not in PEM: no line -----BEGIN comes first"],
        [`${text}${text}`, "more follows behind its end"],
        [`${text}a comment\n-----BEGIN `, "more follows behind its end"],
        [`a comment\n${pem(der, "\n", "PRIVATE KEY")}${text}`, "it has a PRIVATE KEY, and not a PUBLIC KEY"],
        [text.replace(/\n(.)/, "\n\v$1"), "its text is damaged"],
        [text.replace(/\n(.)/, "\n\u00A0$1"), "its text is damaged"],
        [text.replace("-----END PUBLIC", "-----END PRIVATE"), "its text is damaged"],
        [pem([]), "its DER is cut short"],
        [pem([0x30]), "its DER is cut short"],
        [pem([0x30, 130, 5]), "its DER is cut short"],
        [pem(der.slice(0, -1)), "its DER is cut short"],
        [pem([...der, 0]), "more follows behind the end of its DER"],
        [changed(0, 0x31), "its DER is damaged"],
        [pem([0x30, 128, ...der.slice(4)]), "its DER is damaged"],
        [pem([0x30, 131, 0, ...der.slice(2)]), "its DER is damaged"],
        [pem([0x30, 129, 5, 1, 2, 3, 4, 5]), "its DER is damaged"],
        [pem(info(20, key)), "its key is not one of ML-DSA-44, ML-DSA-65 or ML-DSA-87"],
        [pem(info(16, key)), "its key is not one of ML-DSA-44, ML-DSA-65 or ML-DSA-87"],
        [changed(8, 0x61), "its key is not one of ML-DSA-44, ML-DSA-65 or ML-DSA-87"],
        [pem(info(17, key, 1)), "its DER is damaged"],
        [pem(info(18, key)), "its key has a wrong length"],
        [pem(info(17, key.slice(1))), "its key has a wrong length"],
        [pem(info(17, [])), "its key has a wrong length"],
    ];
    for (const [file, message] of rows) {
        assert.throws(() => readPublicKey(sets, file), says(message), message);
    }
});

test("the fingerprint is that of the DER, as mlsign prints it", async () => {
    for (const number of [44, 65, 87]) {
        const { pem: text } = ofOpenssl(number);
        const der = Buffer.from(text.split("\n").slice(1, -2).join(""), "base64");
        const wanted = `SHA256:${createHash("sha256").update(der).digest("base64").replace(/=/g, "")}`;
        assert.equal(await fingerprint(sets, text), wanted);
        assert.equal(await fingerprint(sets, utf8(text)), wanted);
        await assert.rejects(fingerprint(sets, text.slice(1)), KeyFileError);
    }
});

test("private keys that OpenSSL wrote, in each form, and those that are refused", () => {
    for (const number of [44, 65, 87]) {
        const mlDsa = sets[`mlDsa${number}`];
        const file = text(`crates/mlsign_session/data/private-${number}.pem`);
        const pair = mlDsa.keygen(SEED);
        assert.deepEqual(readPrivateKey(sets, file), { set: number, seed: SEED, ...pair });
        assert.equal(writePrivateKey(mlDsa, SEED), file);
        assert.equal(writePublicKey(mlDsa, pair.publicKey), ofOpenssl(number).pem);
        const expanded = text(`crates/mlsign_session/data/expanded-${number}.pem`);
        assert.equal(writePrivateKey(mlDsa, pair.privateKey), expanded);
        assert.deepEqual(readPrivateKey(sets, utf8(expanded)), { set: number, seed: undefined, ...pair });
        const both = mlDsa.bothToDer(SEED);
        assert.deepEqual(readPrivateKey(sets, pem(both, "\n", "PRIVATE KEY")), { set: number, seed: SEED, ...pair });
        both[both.length - 1] ^= 1;
        assert.throws(() => readPrivateKey(sets, pem(both, "\n", "PRIVATE KEY")), says("the private key is not consistent"));
        assert.throws(() => readPrivateKey(sets, ofOpenssl(number).pem), says("it has a PUBLIC KEY, and not a PRIVATE KEY"));
        assert.throws(() => readPrivateKey(sets, mlDsa.seedToDer(SEED)), says("it seems to be DER: privateKeyFromDer or seedFromDer of a set reads it"));
        assert.throws(() => mlDsa.privateKeyToDer(new Uint8Array(pair.privateKey.length).fill(255)), { name: "MlDsaError", code: "INCONSISTENT" });
        assert.throws(() => mlDsa.seedFromDer(mlDsa.privateKeyToDer(pair.privateKey)), { name: "MlDsaError", code: "NO_SEED" });
        for (const other of [44, 65, 87].filter((it) => it !== number)) {
            assert.throws(() => sets[`mlDsa${other}`].publicKeyFromDer(mlDsa.publicKeyToDer(pair.publicKey)), { code: "OTHER_SET" });
        }
    }
});

const typeError = (message) => ({ name: "TypeError", message });

test("other arguments than a call has are refused as such", async () => {
    const { pem: file } = ofOpenssl(65);
    const { publicKey } = sets.mlDsa65.keygen(SEED);
    /** Reads by each of the calls, which have to say this. */
    const reading = async (message, ...words) => {
        assert.throws(() => readPublicKey(...words), typeError(message));
        assert.throws(() => readPrivateKey(...words), typeError(message));
        await assert.rejects(fingerprint(...words), typeError(message));
    };
    const bytes = utf8(file);
    for (const it of [undefined, null, 5, new ArrayBuffer(4), bytes.buffer, new DataView(bytes.buffer), new Blob([file]), Promise.resolve(bytes), [...bytes], new Uint16Array(4), new String(file)]) {
        await reading("file is neither a Uint8Array nor a string", sets, it);
    }
    await reading("file is neither a Uint8Array nor a string", sets);
    const { mlDsa44, mlDsa65 } = sets;
    for (const it of [undefined, null, file, sets.mlDsa65, Promise.resolve(sets), load(), load, {}, { mlDsa44, mlDsa65 }, { mlDsa44, mlDsa65, mlDsa87: mlDsa65 }]) {
        await reading("sets is not what load gives: await load()", it, file);
    }
    await reading("sets is not what load gives: await load()");
    for (const call of [readPublicKey, readPrivateKey]) {
        assert.throws(() => call(sets, file, {}), typeError(`${call.name} takes at most 2 arguments, and was given 3`));
    }
    await assert.rejects(fingerprint(sets, file, undefined), typeError("fingerprint takes at most 2 arguments, and was given 3"));
    for (const [call, name, key] of [[writePublicKey, "publicKey", publicKey], [writePrivateKey, "key", SEED]]) {
        call(sets.mlDsa65, key);
        for (const it of [undefined, null, sets, Promise.resolve(sets.mlDsa65), 65, "ML-DSA-65", key, { name: "ML-DSA-66" }]) {
            assert.throws(() => call(it, key), typeError("mlDsa is not a parameter set, as mlDsa65"));
        }
        for (const it of [undefined, null, file, key.buffer, [...key], Promise.resolve(key)]) {
            assert.throws(() => call(sets.mlDsa65, it), typeError(`${name} is not a Uint8Array`));
        }
        assert.throws(() => call(sets.mlDsa65, key, {}), typeError(`${call.name} takes at most 2 arguments, and was given 3`));
    }
});

test("a public key of another length is refused with the one that it has to have", () => {
    for (const [number, length] of [[44, 1312], [65, 1952], [87, 2592]]) {
        for (const other of [0, length - 1, length + 1]) {
            const message = `an array has the wrong length: publicKey has ${other} bytes, and not ${length}`;
            const isRight = (error) => error instanceof MlDsaError && error.code === "WRONG_LENGTH" && error.message === message;
            assert.throws(() => writePublicKey(sets[`mlDsa${number}`], new Uint8Array(other)), isRight);
        }
    }
});

test("a private key of another length is refused with those that it may have", () => {
    for (const [number, length] of [[44, 2560], [65, 4032], [87, 4896]]) {
        for (const other of [0, 31, 33, length - 1, length + 1]) {
            const message = `an array has the wrong length: key has ${other} bytes, and neither 32, as a seed, nor ${length}`;
            const isRight = (error) => error instanceof MlDsaError && error.code === "WRONG_LENGTH" && error.message === message;
            assert.throws(() => writePrivateKey(sets[`mlDsa${number}`], new Uint8Array(other)), isRight);
        }
        assert.throws(() => writePrivateKey(sets[`mlDsa${number}`], new Uint8Array(length).fill(255)), { name: "MlDsaError", code: "INCONSISTENT" });
    }
});

const base64url = (bytes) => Buffer.from(bytes).toString("base64url");

test("a JWK has what WebCrypto writes of the keys that OpenSSL wrote", () => {
    for (const number of [44, 65, 87]) {
        const mlDsa = sets[`mlDsa${number}`];
        const { publicKey, privateKey } = readPrivateKey(sets, text(`crates/mlsign_session/data/private-${number}.pem`));
        const open = { kty: "AKP", alg: `ML-DSA-${number}`, pub: base64url(publicKey) };
        const secret = { ...open, priv: base64url(SEED) };
        assert.deepEqual(writePublicJwk(mlDsa, publicKey), open);
        assert.deepEqual(writePrivateJwk(mlDsa, SEED), secret);
        // WebCrypto adds these; other members mean nothing here.
        for (const more of [{}, { ext: true, kid: "a" }, { use: "sig" }, { key_ops: undefined }]) {
            assert.deepEqual(readPublicJwk(sets, { key_ops: ["verify"], ...more, ...open }), { set: number, publicKey });
            assert.deepEqual(readPrivateJwk(sets, { key_ops: ["sign"], ...more, ...secret }), { set: number, seed: SEED, publicKey, privateKey });
        }
        assert.throws(() => writePublicJwk(mlDsa, publicKey.subarray(1)), { name: "MlDsaError", message: `an array has the wrong length: publicKey has ${publicKey.length - 1} bytes, and not ${publicKey.length}` });
        assert.throws(() => writePrivateJwk(mlDsa, privateKey), { name: "MlDsaError", message: `an array has the wrong length: seed has ${privateKey.length} bytes, and not 32` });
    }
});

test("why a JWK is refused", () => {
    const open = writePublicJwk(sets.mlDsa44, sets.mlDsa44.keygen(SEED).publicKey);
    const secret = writePrivateJwk(sets.mlDsa44, SEED);
    const changed = (name, index, symbol) => secret[name].slice(0, index) + symbol + secret[name].slice(index + 1);
    const both = [
        [{ kty: "OKP" }, "its kty is not AKP"],
        [{ kty: undefined }, "its kty is not AKP"],
        [{ alg: "ML-DSA-45" }, "its alg is not ML-DSA-44, ML-DSA-65 or ML-DSA-87"],
        [{ alg: undefined }, "its alg is not ML-DSA-44, ML-DSA-65 or ML-DSA-87"],
        [{ alg: "ML-DSA-65" }, "its pub has 1312 bytes, and not 1952"],
        [{ pub: secret.pub.slice(4) }, "its pub has 1309 bytes, and not 1312"],
        [{ pub: undefined }, "its pub is not in base64url"],
        [{ pub: [1] }, "its pub is not in base64url"],
        [{ pub: `${secret.pub}==` }, "its pub is not in base64url"],
        [{ pub: secret.pub.slice(1) }, "its pub is not in base64url"],
        ...["+", "/", "=", "\n", " ", "\u0100"].map((symbol) => [{ pub: changed("pub", 5, symbol) }, "its pub is not in base64url"]),
        [{ use: "enc" }, "its use is not sig"],
        [{ key_ops: ["encrypt"] }, /^its key_ops do not have (sign|verify)$/],
        [{ key_ops: "sign verify" }, /^its key_ops do not have (sign|verify)$/],
    ];
    const refusal = (message) => (message instanceof RegExp ? { name: "KeyFileError", message } : says(message));
    for (const [members, message] of both) {
        assert.throws(() => readPublicJwk(sets, { ...open, ...members }), refusal(message), JSON.stringify(members));
        assert.throws(() => readPrivateJwk(sets, { ...secret, ...members }), refusal(message), JSON.stringify(members));
    }
    assert.throws(() => readPublicJwk(sets, { ...secret, key_ops: ["sign"] }), says("it has a private key, and not a public key"));
    assert.throws(() => readPrivateJwk(sets, { ...open, key_ops: ["verify"] }), says("it has a public key, and not a private key"));
    assert.throws(() => readPrivateJwk(sets, { ...secret, key_ops: ["verify"] }), says("its key_ops do not have sign"));
    for (const priv of [`${secret.priv}=`, changed("priv", 42, "9"), "-", 5]) {
        assert.throws(() => readPrivateJwk(sets, { ...secret, priv }), says("its priv is not in base64url"));
    }
    assert.throws(() => readPrivateJwk(sets, { ...secret, priv: base64url(SEED.subarray(1)) }), says("its priv has 31 bytes, and not 32"));
    for (const members of [{ pub: changed("pub", 0, "_") }, { pub: changed("pub", 1700, "_") }, { priv: changed("priv", 0, "_") }]) {
        assert.throws(() => readPrivateJwk(sets, { ...secret, ...members }), says("its pub is not the public key of its priv"));
    }
    for (const it of [undefined, null, 5, JSON.stringify(open), () => {}]) {
        for (const call of [readPublicJwk, readPrivateJwk]) {
            assert.throws(() => call(sets, it), typeError("jwk is not an object: of a text JSON.parse gives one"));
            assert.throws(() => call(sets.mlDsa44, open), typeError("sets is not what load gives: await load()"));
            assert.throws(() => call(sets, open, {}), typeError(`${call.name} takes at most 2 arguments, and was given 3`));
        }
    }
});

test("what WebCrypto of node writes is read, and what is written here it reads", async (t) => {
    const { subtle } = webcrypto;
    if (!(await hasMlDsa())) {
        t.skip("this node has no ML-DSA in WebCrypto: node has it from 24.7 on");
        return;
    }
    const message = utf8("a message");
    const context = utf8("a context");
    for (const number of [44, 65, 87]) {
        const [name, mlDsa] = [`ML-DSA-${number}`, sets[`mlDsa${number}`]];
        const theirs = await subtle.generateKey(name, true, ["sign", "verify"]);
        const exported = async (format) => {
            const [open, secret] = await Promise.all([theirs.publicKey, theirs.privateKey].map((key) => subtle.exportKey(format, key)));
            return format === "jwk" ? [open, secret] : [new Uint8Array(open), new Uint8Array(secret)];
        };
        const [open, secret] = await exported("jwk");
        const ours = readPrivateJwk(sets, secret);
        assert.deepEqual(readPublicJwk(sets, open), { set: number, publicKey: ours.publicKey });
        // The other formats have the same keys.
        assert.deepEqual(new Uint8Array(await subtle.exportKey("raw-seed", theirs.privateKey)), ours.seed);
        assert.deepEqual(new Uint8Array(await subtle.exportKey("raw-public", theirs.publicKey)), ours.publicKey);
        assert.deepEqual(new Uint8Array(await subtle.exportKey("spki", theirs.publicKey)), mlDsa.publicKeyToDer(ours.publicKey));
        assert.deepEqual(new Uint8Array(await subtle.exportKey("pkcs8", theirs.privateKey)), mlDsa.seedToDer(ours.seed));
        // Keys go back in each format, and signatures both ways.
        const publics = [["jwk", writePublicJwk(mlDsa, ours.publicKey)], ["raw-public", ours.publicKey], ["spki", mlDsa.publicKeyToDer(ours.publicKey)]];
        const privates = [["jwk", writePrivateJwk(mlDsa, ours.seed)], ["raw-seed", ours.seed], ["pkcs8", mlDsa.seedToDer(ours.seed)], ["pkcs8", mlDsa.bothToDer(ours.seed)]];
        const signed = mlDsa.sign(ours.privateKey, message, { context });
        for (const [format, key] of publics) {
            const imported = await subtle.importKey(format, key, name, true, ["verify"]);
            assert.equal(await subtle.verify({ name, context }, imported, signed, message), true);
            assert.equal(await subtle.verify(name, imported, signed, message), false);
        }
        for (const [format, key] of privates) {
            const imported = await subtle.importKey(format, key, name, true, ["sign"]);
            const signature = new Uint8Array(await subtle.sign({ name, context }, imported, message));
            assert.equal(mlDsa.verify(ours.publicKey, message, signature, { context }), true);
            assert.equal(mlDsa.verify(ours.publicKey, message, signature), false);
        }
        await assert.rejects(subtle.importKey("pkcs8", mlDsa.privateKeyToDer(ours.privateKey), name, true, ["sign"]));
    }
});

test("what may stand around a key is said where it is read", () => {
    for (const name of ["js/keys.d.ts", "js/README.md"]) {
        const words = text(name).replace(/[\s*`]+/g, " ");
        assert.ok(words.includes("Text may stand around a key, and white space within; a second key behind it is rejected"), name);
    }
});
