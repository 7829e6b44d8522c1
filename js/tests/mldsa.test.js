// The calls, over the files of js/.
import assert from "node:assert/strict";
import { webcrypto } from "node:crypto";
import { readFileSync } from "node:fs";
import { spawnSync } from "node:child_process";
import { relative } from "node:path";
import { fileURLToPath } from "node:url";
import test from "node:test";
import vm from "node:vm";
import * as all from "../mldsa.js";
import { readPublicKey, writePrivateKey, writePublicKey } from "../keys.js";
import { SEED, hex, ofOpenssl, sha256, shake, text, utf8 } from "./shared.js";

const { MlDsaError, isSupported, load, oids } = all;
const place = new URL("../mldsa.wasm", import.meta.url);
const code = readFileSync(place);
const sets = await load();
const ZEROS = new Uint8Array(32);
const of = (number) => sets[`mlDsa${number}`];

/** The sets over an instance of their own, and how often one of its exports was called. */
async function withCounted(t, name) {
    const instantiate = WebAssembly.instantiate;
    let calls = 0;
    t.mock.method(WebAssembly, "instantiate", async (...words) => {
        const { exports } = await instantiate.call(WebAssembly, ...words);
        return { exports: { ...exports, [name]: (...given) => ++calls && exports[name](...given) } };
    });
    return [await load(code), () => calls];
}
/** An error of this name, with its number and text and what follows that. */
const refused = (code, detail) => (error) =>
    error instanceof MlDsaError && error.code === code && error.status === numbers[`MLDSA_${code}`] && error.message === TEXTS[error.status] + (detail ? `: ${detail}` : "");

/** The texts and numbers of the header. */
const header = text("c/mldsa.h");
const numbers = Object.fromEntries([...header.matchAll(/(MLDSA_\w+) = (\d+)/g)].map(([, name, number]) => [name, Number(number)]));
const TEXTS = Object.fromEntries([...header.matchAll(/case (MLDSA_\w+): return "(.*)";/g)].map(([, name, words]) => [numbers[name], words]));

test("72 recorded keys and signatures, and those of digests", () => {
    const rows = text("vectors/recorded.tsv").split("\n").filter((line) => line && line[0] !== "#").map((line) => line.split("\t"));
    assert.equal(rows.filter((row) => row.length === 8).length, 72);
    for (const [number, ...fields] of rows) {
        const set = of(number);
        const [seed, random, context, message] = fields.slice(0, 4).map(hex);
        const { publicKey, privateKey } = set.keygen(seed);
        const oid = fields[7] === undefined ? undefined : hex(fields[7]);
        const signature = oid ? set.hashSign(privateKey, message, oid, { context, random }) : set.sign(privateKey, message, { context, random });
        assert.deepEqual([publicKey, privateKey, signature].map(sha256), fields.slice(4, 7));
        assert.equal(oid ? set.hashVerify(publicKey, message, oid, signature, { context }) : set.verify(publicKey, message, signature, { context }), true);
        assert.deepEqual(set.publicKey(privateKey), publicKey);
        assert.deepEqual(set.getPublicKey(privateKey), publicKey);
        assert.equal(set.isWhole(privateKey), true);
        assert.equal(set.isPair(privateKey), true);
        set.checkPrivateKey(privateKey);
    }
});

/** C2SP's CCTV, "accumulated": the SHAKE128 of 100 public keys and signatures. */
const ACCUMULATED = {
    44: "d51148e1f9f4fa1a723a6cf42e25f2a99eb5c1b378b3d2dbbd561b1203beeae4",
    65: "8358a1843220194417cadbc2651295cd8fc65125b5a5c1a239a16dc8b57ca199",
    87: "8c3ad714777622b8f21ce31bb35f71394f23bc0fcf3c78ace5d608990f3b061b",
};
for (const number in ACCUMULATED) {
    test(`the published value of 100 keys and signatures of ML-DSA-${number}`, () => {
        const set = of(number);
        const seeds = shake("shake128", "", 3200);
        const parts = [];
        for (let at = 0; at < 3200; at += 32) {
            const { publicKey, privateKey } = set.keygen(seeds.subarray(at, at + 32));
            const signature = set.sign(privateKey, utf8(""), { random: ZEROS });
            assert.equal(set.verify(publicKey, utf8(""), signature), true);
            parts.push(publicKey, signature);
        }
        assert.equal(Buffer.from(shake("shake128", Buffer.concat(parts), 32)).toString("hex"), ACCUMULATED[number]);
    });
}

test("keys and signatures of OpenSSL", () => {
    for (const number of [44, 65, 87]) {
        const { pem, signature } = ofOpenssl(number);
        const read = readPublicKey(sets, pem);
        assert.equal(read.set, number);
        assert.deepEqual(of(number).keygen(SEED).publicKey, read.publicKey);
        assert.equal(of(number).verify(read.publicKey, utf8("message"), signature, { context: utf8("context") }), true);
        assert.equal(of(number).verify(read.publicKey, utf8("message"), signature), false);
        assert.equal(of(number).verify(read.publicKey, utf8("massage"), signature, { context: utf8("context") }), false);
    }
});

test("lengths and texts are those of the header", () => {
    for (const number of [44, 65, 87]) {
        const { publicKey, privateKey, signature, seed, random, mu } = of(number).lengths;
        for (const [name, length] of Object.entries({ PUBLIC_KEY: publicKey, PRIVATE_KEY: privateKey, SIGNATURE: signature })) {
            assert.equal(length, Number(header.match(new RegExp(`#define MLDSA${number}_${name}_LEN (\\d+)`))[1]));
        }
        for (const [name, length] of Object.entries({ SEED: seed, RANDOM: random, MU: mu })) {
            assert.equal(length, Number(header.match(new RegExp(`#define MLDSA_${name}_LEN (\\d+)`))[1]));
        }
    }
    for (const [name, number] of Object.entries(numbers)) {
        if (name !== "MLDSA_YES") {
            assert.ok(refused(name.slice(6))(new MlDsaError(number)), name);
        }
    }
    const { code, message } = new MlDsaError(1);
    assert.deepEqual([code, message], [undefined, "no result of this library"]);
});

test("each array of a wrong length is refused by its name, but a signature is not valid", () => {
    for (const number of [44, 65, 87]) {
        const set = of(number);
        const { publicKey, privateKey } = set.keygen(SEED);
        const mu = new Uint8Array(64);
        const message = utf8("m");
        const digest = new Uint8Array(32);
        const oid = oids["SHA-256"];
        const signature = set.signMu(privateKey, mu);
        const wrong = (array) => [array.subarray(1), new Uint8Array([...array, 0]), new Uint8Array(0)];
        const calls = {
            seed: [SEED, (it) => set.keygen(it)],
            privateKey: [
                privateKey,
                ...["publicKey", "getPublicKey", "checkPrivateKey", "isWhole", "isPair", "messageHasherOfPrivate"].map((call) => (it) => set[call](it)),
                (it) => set.sign(it, message), (it) => set.hashSign(it, digest, oid), (it) => set.signMu(it, mu),
            ],
            publicKey: [
                publicKey,
                (it) => set.verify(it, message, signature), (it) => set.hashVerify(it, digest, oid, signature),
                (it) => set.verifyMu(it, mu, signature), (it) => set.messageHasher(it),
            ],
            mu: [mu, (it) => set.signMu(privateKey, it), (it) => set.verifyMu(publicKey, it, signature)],
            random: [
                ZEROS,
                (it) => set.sign(privateKey, message, { random: it }), (it) => set.hashSign(privateKey, digest, oid, { random: it }),
                (it) => set.signMu(privateKey, mu, { random: it }),
            ],
        };
        for (const [name, [array, ...made]] of Object.entries(calls)) {
            for (const it of wrong(array)) {
                for (const call of made) {
                    assert.throws(() => call(it), refused("WRONG_LENGTH", `${name} has ${it.length} bytes, and not ${array.length}`));
                }
            }
        }
        for (const it of wrong(signature)) {
            assert.equal(set.verify(publicKey, message, it), false);
            assert.equal(set.hashVerify(publicKey, digest, oid, it), false);
            assert.equal(set.verifyMu(publicKey, mu, it), false);
            assert.throws(() => set.verify(publicKey.subarray(1), message, it), refused("WRONG_LENGTH", `publicKey has ${publicKey.length - 1} bytes, and not ${publicKey.length}`));
        }
    }
});

test("what signing refuses otherwise", () => {
    for (const number of [44, 65, 87]) {
        const set = of(number);
        const { publicKey, privateKey } = set.keygen(SEED);
        const digest = new Uint8Array(32);
        const oid = oids["SHA-256"];
        const context = new Uint8Array(256);
        const signature = set.sign(privateKey, digest);
        const contextsLength = "context has 256 bytes, and at most 255 are allowed";
        assert.throws(() => set.sign(privateKey, digest, { context }), refused("CONTEXT_TOO_LONG", contextsLength));
        assert.equal(set.verify(publicKey, digest, signature, { context }), false);
        assert.throws(() => set.hashSign(privateKey, digest, oid, { context }), refused("HASH_CONTEXT_TOO_LONG", contextsLength));
        assert.throws(() => set.hashSign(privateKey, digest, new Uint8Array(0)), refused("OID_EMPTY", "oid has 0 bytes"));
        assert.throws(() => set.hashSign(privateKey, digest, oid.subarray(1)), refused("OID_NOT_DER", "oid has 10 bytes"));
        assert.throws(() => set.hashSign(privateKey, new Uint8Array(1025), new Uint8Array([6, 1, 42])), refused("DIGEST_TOO_LONG", "digest has 1025 bytes, and at most 1024 are allowed"));
        assert.throws(() => set.hashSign(privateKey, digest.subarray(1), oid), refused("DIGEST_LENGTH", "digest has 31 bytes, and not 32"));
        const damaged = privateKey.slice();
        damaged[128] = 255; // a coefficient of s1 above eta
        assert.throws(() => set.sign(damaged, digest), refused("KEY_RANGE"));
        assert.throws(() => set.publicKey(damaged), refused("KEY_RANGE"));
        assert.throws(() => set.checkPrivateKey(damaged), refused("KEY_RANGE"));
        const other = privateKey.slice();
        other[other.length - 1] ^= 1; // of t0
        assert.equal(set.isWhole(other), false);
    }
});

test("where a call is cut off, as where the engine's stack ends, the next one works", async (t) => {
    const { instantiate } = WebAssembly;
    for (const number of [44, 65, 87]) {
        const name = `mldsa${number}_sign`;
        let inside = 0;
        t.mock.method(WebAssembly, "instantiate", async (...words) => {
            const { exports } = await instantiate.call(WebAssembly, ...words);
            const sign = (...given) => {
                inside++;
                const status = exports[name](...given);
                inside--;
                return status;
            };
            return { exports: { ...exports, [name]: sign } };
        });
        const set = (await load(code))[`mlDsa${number}`];
        const { publicKey, privateKey } = set.keygen(SEED);
        const wanted = set.sign(privateKey, SEED, { random: ZEROS });
        const walk = (depth) => (depth === 0 ? set.sign(privateKey, SEED, { random: ZEROS }) : walk(depth - 1));
        // Halves what is between a depth that fits and one that does not, until the stack ended within the module.
        for (let round = 0; round < 50 && inside === 0; round++) {
            let [low, high] = [0, 1 << 20];
            while (high - low > 1) {
                const middle = (low + high) >> 1;
                let signature;
                try {
                    signature = walk(middle);
                } catch (error) {
                    assert.ok(error instanceof RangeError, error);
                    high = middle;
                    continue;
                } finally {
                    assert.equal(set.verify(publicKey, SEED, wanted), true);
                }
                assert.deepEqual(signature, wanted);
                low = middle;
            }
        }
        assert.equal(inside, 1, "the stack ended within the module");
    }
    // A call that stands for one which was cut off: the instance that made it makes no other.
    const instances = [];
    t.mock.method(WebAssembly, "instantiate", async (...words) => {
        const { exports } = await instantiate.call(WebAssembly, ...words);
        const cut = () => {
            new Uint8Array(exports.memory.buffer).fill(1);
            throw new WebAssembly.RuntimeError("unreachable");
        };
        instances.push(exports);
        return { exports: { ...exports, mldsa44_keygen: cut, mldsa_mu_update: cut } };
    });
    const set = (await load(code)).mlDsa44;
    assert.throws(() => set.keygen(SEED), WebAssembly.RuntimeError);
    assert.deepEqual(set.keygen(SEED), sets.mlDsa44.keygen(SEED));
    assert.ok(new Uint8Array(instances[0].memory.buffer).every((byte) => byte === 0), "what was cut off is wiped");
});

test("a hasher of which a call threw takes no other", async (t) => {
    const { publicKey } = sets.mlDsa44.keygen(SEED);
    const { instantiate } = WebAssembly;
    let left = 2;
    t.mock.method(WebAssembly, "instantiate", async (...words) => {
        const { exports } = await instantiate.call(WebAssembly, ...words);
        const update = (...given) => {
            if (left-- === 0) {
                throw new RangeError("the stack ended");
            }
            return exports.mldsa_mu_update(...given);
        };
        return { exports: { ...exports, mldsa_mu_update: update } };
    });
    const set = (await load(code)).mlDsa44;
    const hasher = set.messageHasher(publicKey);
    // What is refused before anything is hashed changes nothing.
    assert.throws(() => hasher.update("text"), TypeError);
    assert.throws(() => hasher.update(ZEROS, ZEROS), TypeError);
    // Of this piece two parts of three are hashed.
    assert.throws(() => hasher.update(new Uint8Array(3 << 20)), { name: "RangeError", message: "the stack ended" });
    for (let again = 0; again < 2; again++) {
        assert.throws(() => hasher.update(new Uint8Array(3 << 20)), refused("BROKEN_STATE", "a call of this hasher threw"));
        assert.throws(() => hasher.mu(), refused("BROKEN_STATE", "a call of this hasher threw"));
    }
    const whole = set.messageHasher(publicKey).update(new Uint8Array(3 << 20)).mu();
    assert.deepEqual(whole, sets.mlDsa44.messageHasher(publicKey).update(new Uint8Array(3 << 20)).mu());
});

test("an array whose properties lie is taken as it is", () => {
    const set = sets.mlDsa44;
    const { publicKey, privateKey } = set.keygen(SEED);
    const message = () => Uint8Array.of(1, 2, 3, 4);
    const wanted = set.sign(privateKey, message(), { random: ZEROS });
    for (const length of [-16, 0, 2, 5, 2 ** 40, NaN, "3", 1312]) {
        const lies = (array) => Object.defineProperty(array, "length", { value: length });
        assert.deepEqual(set.sign(privateKey, lies(message()), { random: ZEROS }), wanted);
        assert.equal(set.verify(lies(publicKey.slice()), message(), lies(wanted.slice())), true);
        assert.throws(() => set.verify(lies(new Uint8Array(50000)), message(), wanted), refused("WRONG_LENGTH", "publicKey has 50000 bytes, and not 1312"));
        const mu = set.messageHasher(publicKey).update(lies(message())).mu();
        assert.equal(set.verifyMu(publicKey, mu, wanted), true);
        const file = lies(utf8(writePublicKey(set, lies(publicKey.slice()))));
        assert.deepEqual(readPublicKey(sets, file), { set: 44, publicKey });
    }
    class Other extends Uint8Array {
        subarray() {
            return new Uint8Array(3);
        }
    }
    const long = new Uint8Array(3 << 20).fill(7);
    const mu = set.messageHasher(publicKey).update(long).mu();
    assert.deepEqual(set.messageHasher(publicKey).update(new Other(long)).mu(), mu);
    // Arrays whose buffer went elsewhere, or became too short for them, are none of no bytes.
    const gone = new Uint8Array(4);
    structuredClone(gone.buffer, { transfer: [gone.buffer] });
    const buffer = new ArrayBuffer(8, { maxByteLength: 8 });
    const short = new Uint8Array(buffer, 4, 4);
    buffer.resize?.(6);
    for (const it of buffer.resize ? [gone, short] : [gone]) {
        assert.throws(() => set.sign(privateKey, it), TypeError);
        assert.throws(() => set.messageHasher(publicKey).update(it), TypeError);
    }
});

test("a module of another version is refused when it is loaded", async (t) => {
    const { instantiate } = WebAssembly;
    const version = Number(header.match(/#define MLDSA_VERSION (0x\w+)/)[1]);
    let said;
    let changed = {};
    t.mock.method(WebAssembly, "instantiate", async (...words) => {
        const { exports } = await instantiate.call(WebAssembly, ...words);
        return { exports: { ...exports, mldsa_version: said, ...changed } };
    });
    for (const found of [version, version + 1, version | 255]) {
        said = () => found;
        assert.equal((await load(code)).mlDsa44.keygen(SEED).publicKey.length, 1312);
    }
    const others = [version - 1, version + 256, version - 256, version + 65536, version ^ 0x80000000, 0];
    const refused = () => assert.rejects(load(code), /^Error: the module is not mldsa.wasm of version 0\.2\.0, or a later one with the same calls$/);
    for (const it of [undefined, ...others.map((found) => () => found)]) {
        said = it;
        await refused();
    }
    // Older modules have places of 64 bits.
    said = () => version;
    changed = { __heap_base: new WebAssembly.Global({ value: "i64" }, 196608n) };
    await refused();
});

test("what is no Uint8Array is refused", () => {
    const { publicKey, privateKey } = sets.mlDsa44.keygen(SEED);
    const wrong = ["text", [1, 2], null, new Uint16Array(4), new ArrayBuffer(4), new Uint8ClampedArray(32), { length: 32 }, Object.create(Uint8Array.prototype)];
    for (const it of wrong) {
        assert.throws(() => sets.mlDsa44.keygen(it), TypeError);
        assert.throws(() => sets.mlDsa44.sign(privateKey, it), TypeError);
        assert.throws(() => sets.mlDsa44.sign(privateKey, ZEROS, { context: it }), TypeError);
        assert.throws(() => sets.mlDsa44.verify(publicKey, ZEROS, it), TypeError);
    }
    assert.throws(() => sets.mlDsa44.verify(publicKey, ZEROS), TypeError);
});

/** Each call with its arrays, and the options that it has. */
function everyCall(set) {
    const { publicKey, privateKey } = set.keygen(SEED);
    const [mu, digest, oid, message] = [new Uint8Array(64), new Uint8Array(32), oids["SHA-256"], utf8("m")];
    const signature = set.signMu(privateKey, mu);
    return {
        keygen: [[SEED]],
        publicKey: [[privateKey]],
        getPublicKey: [[privateKey]],
        sign: [[privateKey, message], "context", "random"],
        verify: [[publicKey, message, signature], "context"],
        hashSign: [[privateKey, digest, oid], "context", "random"],
        hashVerify: [[publicKey, digest, oid, signature], "context"],
        messageHasher: [[publicKey], "context"],
        messageHasherOfPrivate: [[privateKey], "context"],
        signMu: [[privateKey, mu], "random"],
        verifyMu: [[publicKey, mu, signature]],
        checkPrivateKey: [[privateKey]],
        isPair: [[privateKey]],
        isWhole: [[privateKey]],
        publicKeyToDer: [[publicKey]],
        publicKeyFromDer: [[set.publicKeyToDer(publicKey)]],
        seedToDer: [[SEED]],
        privateKeyToDer: [[privateKey]],
        bothToDer: [[SEED]],
        privateKeyFromDer: [[set.seedToDer(SEED)]],
        seedFromDer: [[set.seedToDer(SEED)]],
        publicKeyFromPem: [[utf8(writePublicKey(set, publicKey))]],
        privateKeyFromPem: [[utf8(writePrivateKey(set, SEED))]],
        seedFromPem: [[utf8(writePrivateKey(set, SEED))]],
    };
}

test("options that are no plain object, or have another name, are refused by each call, and so are arguments too many", () => {
    const set = sets.mlDsa44;
    const calls = everyCall(set);
    assert.deepEqual(Object.keys(calls).sort(), Object.getOwnPropertyNames(Object.getPrototypeOf(set)).filter((name) => name !== "constructor").sort());
    const elsewhere = vm.runInNewContext("({})");
    for (const [name, [arrays, ...names]] of Object.entries(calls)) {
        const call = (...more) => set[name](...arrays, ...more);
        call();
        const wrong = [
            utf8("test"), "test", null, 1, true, [], new Map(), () => {}, new (class Options {})(), new Date(0), JSON, new ArrayBuffer(4),
            { ctx: ZEROS }, { contxt: ZEROS }, { context: ZEROS, Random: ZEROS }, { [Symbol("context")]: ZEROS }, { publicKey: ZEROS },
            ...["context", "random"].filter((it) => !names.includes(it)).map((it) => ({ [it]: ZEROS })),
        ];
        for (const it of wrong) {
            assert.throws(() => call(it), TypeError, name);
        }
        if (names.length === 0) {
            assert.throws(() => call(undefined), { name: "TypeError", message: `${name} takes at most ${arrays.length} argument${arrays.length > 1 ? "s" : ""}, and was given ${arrays.length + 1}` });
            assert.throws(() => call({}), TypeError);
            continue;
        }
        assert.throws(() => call({ ctx: ZEROS }), { message: `${name} has no option ctx, but ${names.join(" and ")}` });
        assert.throws(() => call(utf8("test")), { message: `the options of ${name} are not a plain object, as { ${names[0]} }` });
        assert.throws(() => call({}, undefined), TypeError);
        for (const it of [undefined, {}, Object.create(null), elsewhere, ...names.map((option) => ({ [option]: undefined }))]) {
            call(it);
        }
    }
    const hasher = set.messageHasher(set.keygen(SEED).publicKey);
    assert.throws(() => hasher.update(ZEROS, ZEROS), TypeError);
    assert.throws(() => hasher.mu(ZEROS), TypeError);
});

test("what Object.prototype has is no option", () => {
    const set = sets.mlDsa44;
    const { privateKey } = set.keygen(SEED);
    const wanted = set.sign(privateKey, SEED, { random: ZEROS });
    Object.prototype.context = utf8("context");
    try {
        assert.deepEqual(set.sign(privateKey, SEED, { random: ZEROS }), wanted);
        assert.equal(set.verify(set.publicKey(privateKey), SEED, wanted), true);
    } finally {
        delete Object.prototype.context;
    }
});

test("arrays of another realm, of shared memory and of a subclass are taken", () => {
    const set = sets.mlDsa44;
    const wanted = set.keygen(SEED);
    const there = vm.runInNewContext("Uint8Array.from({ length: 32 }, (_, i) => i)");
    const shared = new Uint8Array(new SharedArrayBuffer(32));
    shared.set(SEED);
    for (const it of [there, shared, Buffer.from(SEED)]) {
        assert.deepEqual(set.keygen(it), wanted);
    }
});

test("identifiers of hash functions cannot be changed", () => {
    const was = oids["SHA-256"].slice();
    oids["SHA-256"][10] = 3;
    assert.deepEqual(oids["SHA-256"], was);
    assert.throws(() => { oids["SHA-256"] = ZEROS; }, TypeError);
    assert.throws(() => { oids.more = ZEROS; }, TypeError);
});

test("an array of 2 GiB and nearly so is not rounded", async () => {
    // A digest is copied before its length is rejected.
    const { mlDsa44 } = await load(code);
    const { publicKey, privateKey } = mlDsa44.keygen(SEED);
    const signature = mlDsa44.signMu(privateKey, new Uint8Array(64));
    assert.equal(mlDsa44.hashVerify(publicKey, new Uint8Array(2 ** 31 - 15), oids["SHA-256"], signature), false);
    // What does not fit is rejected, and the next call works.
    assert.throws(() => mlDsa44.hashVerify(publicKey, new Uint8Array(2 ** 32 - 1), oids["SHA-256"], signature), /RangeError.*do not fit into the module's memory: 4\d{9} bytes/);
    assert.equal(mlDsa44.verifyMu(publicKey, new Uint8Array(64), signature), true);
});

test("each changed signature, message and key is rejected", () => {
    const set = sets.mlDsa65;
    const { publicKey, privateKey } = set.keygen(SEED);
    const message = utf8("a message");
    const signature = set.sign(privateKey, message);
    for (const array of [publicKey, message, signature]) {
        for (let bit = 0; bit < 8 * array.length; bit += array === message ? 1 : 997) {
            array[bit >> 3] ^= 1 << (bit & 7);
            assert.equal(set.verify(publicKey, message, signature), false);
            array[bit >> 3] ^= 1 << (bit & 7);
        }
    }
    assert.equal(set.verify(publicKey, message, signature), true);
});

test("digests of each hash function", () => {
    const sizes = { "SHA-224": 28, "SHA-256": 32, "SHA-384": 48, "SHA-512": 64, "SHA-512/224": 28, "SHA-512/256": 32, "SHA3-224": 28, "SHA3-256": 32, "SHA3-384": 48, "SHA3-512": 64, SHAKE128: 32, SHAKE256: 64 };
    assert.deepEqual(Object.keys(oids).sort(), Object.keys(sizes).sort());
    const set = sets.mlDsa44;
    const { publicKey, privateKey } = set.keygen(SEED);
    for (const [name, size] of Object.entries(sizes)) {
        const digest = shake("shake256", name, size);
        const signature = set.hashSign(privateKey, digest, oids[name], { context: utf8(name) });
        assert.equal(set.hashVerify(publicKey, digest, oids[name], signature, { context: utf8(name) }), true);
        assert.equal(set.hashVerify(publicKey, digest, oids[name], signature), false);
        assert.equal(set.verify(publicKey, digest, signature, { context: utf8(name) }), false);
        assert.throws(() => set.hashSign(privateKey, new Uint8Array(size + 1), oids[name]), refused("DIGEST_LENGTH", `digest has ${size + 1} bytes, and not ${size}`));
        // M' of FIPS 204, Algorithm 4.
        const tr = shake("shake256", publicKey, 64);
        const mu = shake("shake256", Buffer.concat([tr, Buffer.from([1, name.length]), utf8(name), oids[name], digest]), 64);
        assert.equal(set.verifyMu(publicKey, mu, signature), true);
    }
});

test("a message that was hashed beforehand", () => {
    for (const number of [44, 65, 87]) {
        const set = of(number);
        const { publicKey, privateKey } = set.keygen(SEED);
        const context = utf8("context");
        const mu = shake("shake256", Buffer.concat([shake("shake256", publicKey, 64), Buffer.from([0, context.length]), context, utf8("message")]), 64);
        const signature = set.signMu(privateKey, mu, { random: ZEROS });
        assert.deepEqual(signature, set.sign(privateKey, utf8("message"), { context, random: ZEROS }));
        assert.equal(set.verifyMu(publicKey, mu, signature), true);
        mu[63] ^= 1;
        assert.equal(set.verifyMu(publicKey, mu, signature), false);
    }
});

test("a message in pieces", () => {
    for (const number of [44, 65, 87]) {
        const set = of(number);
        const { publicKey, privateKey } = set.keygen(SEED);
        const context = utf8("context");
        const message = shake("shake256", "pieces", 1000);
        const signature = set.sign(privateKey, message, { context, random: ZEROS });
        for (const cut of [0, 1, 60, 136, 999, 1000]) {
            const hasher = set.messageHasher(publicKey, { context }).update(message.subarray(0, cut));
            hasher.mu();
            const mu = hasher.update(message.subarray(cut)).mu();
            assert.deepEqual(set.messageHasherOfPrivate(privateKey, { context }).update(message.subarray(0, cut)).update(message.subarray(cut)).mu(), mu);
            assert.deepEqual(mu, shake("shake256", Buffer.concat([shake("shake256", publicKey, 64), Buffer.from([0, 7]), context, message]), 64));
            assert.deepEqual(set.signMu(privateKey, mu, { random: ZEROS }), signature);
            assert.equal(set.verifyMu(publicKey, mu, signature), true);
        }
        assert.throws(() => set.messageHasher(publicKey, { context: new Uint8Array(256) }), refused("CONTEXT_TOO_LONG", "context has 256 bytes, and at most 255 are allowed"));
        assert.throws(() => set.messageHasher(publicKey).update("text"), TypeError);
        assert.equal(set.isPair(privateKey), true);
        privateKey[64] ^= 1; // of tr
        assert.deepEqual([set.isWhole(privateKey), set.isPair(privateKey)], [true, false]);
    }
});

test("small pieces are hashed together", async (t) => {
    const [counted, count] = await withCounted(t, "mldsa_mu_update");
    const { publicKey } = counted.mlDsa65.keygen(SEED);
    for (const size of [1, 64, 1000, 40000]) {
        const before = count();
        const hasher = counted.mlDsa65.messageHasher(publicKey);
        const message = shake("shake256", "small pieces", 300000);
        for (let at = 0; at < message.length; at += size) {
            // A piece is copied: what its owner does with it afterwards changes nothing.
            const piece = message.slice(at, at + size);
            hasher.update(piece);
            piece.fill(0);
        }
        assert.deepEqual(hasher.mu(), shake("shake256", Buffer.concat([shake("shake256", publicKey, 64), Buffer.from([0, 0]), message]), 64));
        assert.ok(count() - before <= 8, `${count() - before} calls for 300000 bytes in pieces of ${size}`);
    }
    // Those of which several fit, and those of which none does.
    const message = shake("shake256", "other pieces", 3000000);
    const mu = shake("shake256", Buffer.concat([shake("shake256", publicKey, 64), Buffer.from([0, 0]), message]), 64);
    for (const cuts of [[1], [65535], [65536], [65537], [1, 65536], [1, 65537], [65535, 65537, 65538], [100, 200, 1000000], [2999999]]) {
        const hasher = counted.mlDsa65.messageHasher(publicKey);
        [...cuts, message.length].reduce((from, to) => {
            hasher.update(message.subarray(from, to));
            return to;
        }, 0);
        assert.deepEqual(hasher.mu(), mu);
        assert.deepEqual(hasher.mu(), mu);
    }
});

test("where none is given, random bytes are drawn, used and wiped", (t) => {
    const seen = [];
    const draw = webcrypto.getRandomValues.bind(webcrypto);
    t.mock.method(webcrypto, "getRandomValues", (array) => {
        draw(array);
        seen.push([array, array.slice()]);
        return array;
    });
    const set = sets.mlDsa44;
    const { seed, ...pair } = set.keygen();
    assert.deepEqual(seed, seen[0][1]);
    // Of a seed that is given nothing is returned.
    assert.deepEqual(set.keygen(seed), pair);
    const signature = set.sign(pair.privateKey, utf8("m"));
    assert.deepEqual(set.sign(pair.privateKey, utf8("m"), { random: seen[1][1] }), signature);
    set.hashSign(pair.privateKey, new Uint8Array(32), oids["SHA-256"]);
    set.signMu(pair.privateKey, new Uint8Array(64));
    assert.equal(seen.length, 4);
    for (const [array, was] of seen) {
        assert.equal(was.length, 32);
        assert.notDeepEqual(was, ZEROS);
        assert.deepEqual(array, ZEROS);
    }
    assert.throws(() => set.sign(pair.privateKey, utf8("m"), { context: new Uint8Array(256) }), MlDsaError);
    assert.deepEqual(seen[4][0], ZEROS);
});

test("each call leaves the memory as it was at first", async (t) => {
    const instances = [];
    const instantiate = WebAssembly.instantiate;
    t.mock.method(WebAssembly, "instantiate", async (...words) => {
        const instance = await instantiate.call(WebAssembly, ...words);
        instances.push(instance);
        return instance;
    });
    const { mlDsa87 } = await load(code);
    const { memory, __heap_base, mldsa87_keygen } = instances[0].exports;
    const first = Buffer.from(memory.buffer.slice(0));
    const isClean = () => {
        const now = Buffer.from(memory.buffer);
        return now.subarray(0, first.length).equals(first) && now.subarray(first.length).every((byte) => byte === 0);
    };
    const { publicKey, privateKey } = mlDsa87.keygen(SEED);
    assert.ok(isClean());
    const signature = mlDsa87.sign(privateKey, new Uint8Array(300000));
    assert.ok(memory.buffer.byteLength > first.length);
    assert.ok(isClean());
    assert.equal(mlDsa87.verify(publicKey, new Uint8Array(300000), signature), true);
    assert.ok(isClean());
    assert.throws(() => mlDsa87.sign(privateKey, signature, { context: new Uint8Array(256) }), MlDsaError);
    assert.ok(isClean());
    mlDsa87.isWhole(privateKey);
    assert.ok(isClean());
    // The module itself leaves something.
    const base = __heap_base.value;
    mldsa87_keygen(base, 32, base + 64, 2592, base + 4096, 4896);
    assert.ok(!isClean());
});

test("each call leaves an eighth of the module's stack untouched", async () => {
    const { exports } = await WebAssembly.instantiate(await WebAssembly.compile(code), {});
    const base = exports.__heap_base.value;
    const memory = new Uint8Array(exports.memory.buffer);
    const size = memory.findIndex((byte) => byte !== 0); // constants follow the stack
    assert.equal(size, 192 << 10);
    const [seed, pk, sk, oid] = [[base, 32], [base + 1024, 2592], [base + 4096, 4896], [base + 64, 11]];
    const signature = [base + 10240, 4627];
    memory.set(oids["SHA-256"], oid[0]);
    const calls = { keygen: [seed, pk, sk], hash_sign: [sk, seed, seed, oid, seed, signature], hash_verify: [pk, seed, seed, oid, signature], public_key: [sk, pk], is_whole: [sk] };
    for (const [name, words] of Object.entries(calls)) {
        memory.fill(0xa5, 0, size);
        assert.equal(exports[`mldsa87_${name}`](...words.flat()), 0);
        const used = size - memory.findIndex((byte) => byte !== 0xa5);
        assert.ok(used > 50000 && 9 * used <= 8 * size, `${name} uses ${used}`);
    }
});

test("long messages", () => {
    const set = sets.mlDsa44;
    const { publicKey, privateKey } = set.keygen(SEED);
    const message = shake("shake256", "long", 5 << 20);
    const signature = set.sign(privateKey, message, { random: ZEROS });
    const mu = shake("shake256", Buffer.concat([shake("shake256", publicKey, 64), Buffer.from([0, 0]), message]), 64);
    assert.deepEqual(set.signMu(privateKey, mu, { random: ZEROS }), signature);
    assert.equal(set.verify(publicKey, message, signature), true);
    message[message.length - 1] ^= 1;
    assert.equal(set.verify(publicKey, message, signature), false);
});

test("the module's memory stays small, however long an array was", async (t) => {
    const { instantiate, Instance } = WebAssembly;
    const memories = [];
    const noted = (instance) => {
        memories.push(instance.exports.memory);
        return instance;
    };
    t.mock.method(WebAssembly, "instantiate", async (...words) => noted(await instantiate.call(WebAssembly, ...words)));
    t.mock.method(WebAssembly, "Instance", function (...words) {
        return noted(new Instance(...words));
    });
    for (const [number, length] of [[44, 3 << 20], [65, 64 << 20], [87, (3 << 20) + 5]]) {
        const long = new Uint8Array(length).fill(7);
        const set = (await load(code))[`mlDsa${number}`];
        const [before, made] = [memories.length, set.keygen(SEED)];
        const isSmall = () => memories.at(-1).buffer.byteLength < 1.5 * 2 ** 20;
        const signature = set.sign(made.privateKey, long, { context: SEED });
        assert.ok(isSmall(), "after signing a long message");
        assert.equal(set.verify(made.publicKey, long, signature, { context: SEED }), true);
        assert.equal(set.verify(made.publicKey, long, signature), false);
        set.messageHasher(made.publicKey).update(long).mu();
        assert.ok(isSmall(), "after verifying a long message");
        assert.throws(() => set.sign(made.privateKey, long, { context: long.subarray(0, 256) }), refused("CONTEXT_TOO_LONG", "context has 256 bytes, and at most 255 are allowed"));
        assert.equal(set.verify(made.publicKey, long, signature, { context: long.subarray(0, 256) }), false);
        assert.ok(isSmall(), "after a long message with a context that is too long");
        assert.equal(memories.length, before, "one instance hashed all pieces");
        // Other arrays that are too long take an instance of their own, of which nothing stays.
        const calls = [
            () => assert.throws(() => set.sign(made.privateKey, SEED, { context: long }), { code: "CONTEXT_TOO_LONG" }),
            () => assert.throws(() => set.hashSign(made.privateKey, long, oids["SHA-256"]), { code: "DIGEST_TOO_LONG" }),
            () => assert.equal(set.hashVerify(made.publicKey, long, oids["SHA-256"], signature), false),
            () => assert.throws(() => set.publicKeyFromDer(long), { code: "DER_DAMAGED" }),
        ];
        for (const call of calls) {
            call();
            assert.deepEqual(set.keygen(SEED), made);
            assert.ok(isSmall(), "after another long array");
        }
    }
});

test("messages about as long as a piece are signed and verified as node hashes them", () => {
    for (const number of [44, 65, 87]) {
        const set = of(number);
        const { publicKey, privateKey } = set.keygen(SEED);
        const context = utf8("context");
        const tr = shake("shake256", publicKey, 64);
        for (const length of [2 ** 20 - 1, 2 ** 20, 2 ** 20 + 1, 2 ** 21 - 1, 2 ** 21, 2 ** 21 + 1]) {
            const message = shake("shake128", "as long as a piece", length);
            const mu = shake("shake256", Buffer.concat([tr, Buffer.from([0, 7]), context, message]), 64);
            const signature = set.sign(privateKey, message, { context, random: SEED });
            assert.deepEqual(set.signMu(privateKey, mu, { random: SEED }), signature);
            assert.equal(set.verify(publicKey, message, signature, { context }), true);
            assert.equal(set.verify(publicKey, message, signature), false);
            message[length - 1] ^= 1;
            assert.equal(set.verify(publicKey, message, signature, { context }), false);
        }
        // The hash `tr` that the private key keeps is hashed in both ways.
        const other = privateKey.slice();
        other[64] ^= 1;
        const message = new Uint8Array(2 ** 20 + 1);
        const mu = shake("shake256", Buffer.concat([other.subarray(64, 128), Buffer.from([0, 0]), message]), 64);
        assert.deepEqual(set.sign(other, message, { random: SEED }), set.signMu(other, mu, { random: SEED }));
    }
});

test("a long message is refused as a short one is", () => {
    for (const number of [44, 65, 87]) {
        const set = of(number);
        const { publicKey, privateKey } = set.keygen(SEED);
        const damaged = privateKey.slice();
        damaged[128] = 255; // a coefficient of s1 above eta
        const [short, context] = [privateKey.subarray(1), new Uint8Array(256)];
        const signature = set.signMu(privateKey, new Uint8Array(64));
        const contextsLength = refused("CONTEXT_TOO_LONG", "context has 256 bytes, and at most 255 are allowed");
        const keysLength = (name, array) => refused("WRONG_LENGTH", `${name} has ${array.length} bytes, and not ${array.length + 1}`);
        for (const message of [utf8("m"), new Uint8Array(2 ** 20 + 1)]) {
            // The first of several errors is the same.
            const rows = [
                [contextsLength, privateKey, { context }],
                [refused("KEY_RANGE"), damaged, {}],
                [refused("KEY_RANGE"), damaged, { context }],
                [keysLength("privateKey", short), short, { context, random: SEED.subarray(1) }],
                [keysLength("random", SEED.subarray(1)), damaged, { context, random: SEED.subarray(1) }],
                [{ name: "TypeError", message: "random is not a Uint8Array" }, damaged, { context, random: "" }],
                [{ name: "TypeError", message: "context is not a Uint8Array" }, damaged, { context: "", random: "" }],
                [{ name: "TypeError", message: "sign has no option ctx, but context and random" }, short, { ctx: context }],
            ];
            for (const [error, key, options] of rows) {
                assert.throws(() => set.sign(key, message, options), error);
            }
            assert.equal(set.verify(publicKey, message, signature, { context }), false);
            assert.equal(set.verify(publicKey, message, signature.subarray(1)), false);
            assert.throws(() => set.verify(publicKey, message, "", { context }), { name: "TypeError", message: "signature is not a Uint8Array" });
            assert.throws(() => set.verify(publicKey.subarray(1), message, "", { context }), keysLength("publicKey", publicKey.subarray(1)));
        }
    }
});

test("a set's calls do not disturb another's", () => {
    const pairs = [44, 65, 87].map((number) => [of(number), of(number).keygen(SEED)]);
    const signatures = pairs.map(([set, { privateKey }]) => set.sign(privateKey, SEED, { random: ZEROS }));
    pairs.forEach(([set, { publicKey, privateKey }], i) => {
        assert.deepEqual(set.sign(privateKey, SEED, { random: ZEROS }), signatures[i]);
        assert.equal(set.verify(publicKey, SEED, signatures[i]), true);
    });
});

test("loads from a URL, its text, the path of a file, bytes, a response and a module", async (t) => {
    const wanted = sets.mlDsa44.keygen(SEED);
    const module = await WebAssembly.compile(code);
    const response = () => new Response(code, { headers: { "content-type": "application/wasm" } });
    const file = fileURLToPath(place);
    const below = relative(process.cwd(), file);
    const places = [place, place.href, { href: place.href }, file, below, `./${below}`];
    const sources = [undefined, ...places, code, new Uint8Array(code), new Uint8Array(code).buffer, module, response(), Promise.resolve(response()), Promise.resolve(code)];
    for (const source of sources) {
        assert.deepEqual((await load(source)).mlDsa44.keygen(SEED), wanted);
    }
    await assert.rejects(load(new URL("absent.wasm", place)), { code: "ENOENT" });
    await assert.rejects(load(new Response("", { status: 404, statusText: "Not Found" })), /404 Not Found/);
    await assert.rejects(load(new Uint8Array([0, 1, 2])), WebAssembly.CompileError);
    // A path that is not absolute is one below the working folder, and not beside this script.
    await assert.rejects(load("absent.wasm"), { code: "ENOENT", path: "absent.wasm" });
    await assert.rejects(load(null), TypeError);
    await assert.rejects(load(code, {}), TypeError);
    // Text of two letters and more before a colon is a URL, and one letter a drive of Windows.
    const asked = t.mock.method(globalThis, "fetch", async () => response());
    await load("https://localhost/mldsa.wasm");
    await assert.rejects(load("c:/absent.wasm"), { code: "ENOENT" });
    // Where there is a page, its place is what text is relative to.
    globalThis.location = { href: "https://localhost/folder/page.html" };
    t.after(() => delete globalThis.location);
    await load("./mldsa.wasm");
    await load("/mldsa.wasm");
    assert.deepEqual(asked.mock.calls.map((call) => call.arguments[0]), ["", "folder/", ""].map((it) => `https://localhost/${it}mldsa.wasm`));
});

test("where WebAssembly lacks something loading says so", async (t) => {
    assert.equal(isSupported(), true);
    t.mock.method(WebAssembly, "validate", () => false);
    assert.equal(isSupported(), false);
    await assert.rejects(load(code), /lacks the vectors \(SIMD\), bulk memory or sign extension of WebAssembly/);
});

test("isSupported asks for what the module needs", (t) => {
    const said = spawnSync("wasm-objdump", ["-d", fileURLToPath(place)], { encoding: "utf8", maxBuffer: 2 ** 28 });
    if (said.error) {
        t.skip("there is no wasm-objdump of wabt");
        return;
    }
    const used = new Set([...said.stdout.matchAll(/\| +([a-z]\w+(?:\.\w+)*)(?!\w*\[)/g)].map(([, name]) => name));
    const first = /^(block|loop|if|else|end|br|br_if|br_table|return|call|call_indirect|drop|select|unreachable|nop|(local|global)\.\w+|memory\.(size|grow)|[if](32|64)\.\w+)$/;
    const later = [...used].filter((name) => !first.test(name) || /_sat_|extend(8|16|32)_s$/.test(name));
    // What it needs beside the first version of WebAssembly is of the three groups of which the probe has one instruction each.
    const groups = [/^memory\.(copy|fill)$/, /^i(32|64)\.extend(8|16|32)_s$/, /^(v128|i8x16|i16x8|i32x4|i64x2)\.\w+$/];
    assert.deepEqual(later.filter((name) => !groups.some((group) => group.test(name))), []);
    assert.ok(groups.every((group) => later.some((name) => group.test(name))));
    assert.ok(used.size > 50);
});

test("the module takes nothing from its host, and has each call of the header", async () => {
    const module = await WebAssembly.compile(code);
    assert.deepEqual(WebAssembly.Module.imports(module), []);
    const names = WebAssembly.Module.exports(module).map(({ name }) => name);
    const declared = [...header.matchAll(/^uint32_t (\w+)\(/gm)].map(([, name]) => name);
    assert.deepEqual(names.filter((name) => name.startsWith("mldsa")).sort(), declared.sort());
});

test("the types declare what there is", () => {
    const types = text("js/mldsa.d.ts");
    const exported = [...types.matchAll(/^export (?:class|function|const) (\w+)/gm)].map(([, name]) => name);
    assert.deepEqual(exported.sort(), Object.keys(all).sort());
    const inside = types.match(/export interface MlDsa \{(.*?)^\}/ms)[1];
    const calls = [...new Set([...inside.matchAll(/^ {4}(\w+)\(/gm)].map(([, name]) => name))];
    const prototype = Object.getPrototypeOf(sets.mlDsa44);
    assert.deepEqual(calls.sort(), Object.getOwnPropertyNames(prototype).filter((name) => name !== "constructor").sort());
});
