// The example of the README, and those at each call in the types.
import assert from "node:assert/strict";
import { execFileSync } from "node:child_process";
import { createHash } from "node:crypto";
import { mkdirSync, mkdtempSync, rmSync, statSync, symlinkSync, writeFileSync } from "node:fs";
import { tmpdir } from "node:os";
import { join } from "node:path";
import test from "node:test";
import { fileURLToPath } from "node:url";
import * as keys from "../keys.js";
import * as all from "../mldsa.js";
import { hasMlDsa, ofOpenssl, text, utf8 } from "./shared.js";

test("the example is a file, and prints that the signature is valid", async (t) => {
    const shown = text("js/README.md").match(/^```js\n(.*?)^```$/ms)[1];
    assert.equal(shown.replace('"mldsa"', '"./mldsa.js"'), text("js/example.js"));
    const printed = t.mock.method(console, "log", () => {});
    await import("../example.js");
    assert.deepEqual(printed.mock.calls.map((call) => call.arguments), [[true]]);
});

/** A folder that has the package, until the test ends. */
function roomOf(t) {
    const room = mkdtempSync(join(tmpdir(), "mldsa-"));
    t.after(() => rmSync(room, { recursive: true }));
    mkdirSync(join(room, "node_modules"));
    symlinkSync(fileURLToPath(new URL("..", import.meta.url)), join(room, "node_modules/mldsa"));
    return room;
}

/** What a program prints in a folder. */
function printed(room, name, program) {
    writeFileSync(join(room, name), program);
    return execFileSync(process.execPath, ["--no-warnings", name], { cwd: room, encoding: "utf8" });
}

test("the program of the README that keeps keys in files runs as it stands, and nobody else can read the private key", (t) => {
    const room = roomOf(t);
    const program = [...text("js/README.md").matchAll(/^```js\n(.*?)^```$/gms)][1][1];
    assert.equal(printed(room, "files.mjs", program), "true\n");
    assert.equal(statSync(join(room, "release.pem")).mode & 0o777, 0o600);
});

test("the programs for those who come from noble or WebCrypto print the same as theirs", async (t) => {
    const room = roomOf(t);
    const ours = (name) => printed(room, `${name}.mjs`, text(`js/tests/programs/${name}-here.js`));
    assert.equal(ours("noble"), "true\n");
    assert.equal(ours("webcrypto"), "ML-DSA-65 true\n");
    await t.test("theirs, of noble", (its) => {
        // (the folder node_modules that has it)
        if (process.env.NOBLE === undefined) {
            its.skip("NOBLE does not say where noble is");
            return;
        }
        symlinkSync(join(process.env.NOBLE, "@noble"), join(room, "node_modules/@noble"));
        assert.equal(printed(room, "theirs.mjs", text("js/tests/programs/noble.js")), "true\n");
    });
    await t.test("theirs, of WebCrypto", async (its) => {
        if (!(await hasMlDsa())) {
            its.skip("this node has no ML-DSA in WebCrypto: node has it from 24.7 on");
            return;
        }
        assert.equal(printed(room, "theirs.mjs", text("js/tests/programs/webcrypto.js")), "ML-DSA-65 true\n");
    });
});

/** Each call that a file of types declares, and the lines of its example. A line `CALL; // VALUE` says what it gives. */
function examples(name) {
    const call = /^ *\/\*\*\n((?: *\*.*\n)+?) *\*\/\n *(?:export (?:function|const) )?(\w+)[(:]/gm;
    return [...text(name).matchAll(call)].map(([, comment, declared]) => {
        const lines = comment.match(/@example\n((?: *\*(?! @).*\n)+)/)?.[1].replace(/^ *\* ?/gm, "");
        return [declared, lines?.replace(/^(.*); \/\/ (.*)$/gm, "assert.deepEqual($1, $2);")];
    });
}

test("each call of keys.d.ts names the errors that it throws", () => {
    const declared = [...text("js/keys.d.ts").matchAll(/\/\*\*((?:(?!\*\/).)*)\*\/\nexport function (\w+)/gs)];
    assert.equal(declared.length, Object.keys(keys).length - 1);
    for (const [, comment, call] of declared) {
        assert.match(comment, /@throws `\w+Error`(?:.|\n)*`TypeError`/, call);
    }
});

test("examples sign digests that are as strong as their set", () => {
    const strong = { 44: /256|384|512/, 65: /384|512/, 87: /512/ };
    const pages = ["js/mldsa.d.ts", "js/README.md"].map(text).join("\n");
    const lines = pages.split("\n").filter((line) => /hash(Sign|Verify)\b.*oids\["/.test(line));
    assert.equal(lines.length, 4);
    for (const line of lines) {
        assert.match(line.match(/oids\["(.*?)"\]/)[1], strong[line.match(/mlDsa(\d\d)/)?.[1] ?? 65], line);
    }
});

test("each call in the types has an example, which runs", async () => {
    const sets = await all.load();
    const { mlDsa65 } = sets;
    const pair = mlDsa65.keygen();
    const [message, context] = [utf8("a message"), utf8("a context")];
    const digest = new Uint8Array(createHash("sha384").update(message).digest());
    const signature = mlDsa65.sign(pair.privateKey, message, { context });
    const names = { assert, ...all, ...keys, sets, mlDsa65, ...pair, message, context, digest, signature, text: ofOpenssl(65).pem };
    const found = [...examples("js/mldsa.d.ts"), ...examples("js/keys.d.ts")];
    assert.deepEqual(found.filter(([, lines]) => lines === undefined).map(([call]) => call), []);
    const methods = Object.getOwnPropertyNames(Object.getPrototypeOf(mlDsa65)).filter((it) => it !== "constructor");
    for (const call of [...methods, "update", "mu", "load", "isSupported", "oids", ...Object.keys(keys).filter((it) => it !== "KeyFileError")]) {
        assert.ok(found.some(([declared]) => declared === call), `${call} has no example`);
    }
    const Run = (async () => {}).constructor;
    for (const [call, lines] of found) {
        await assert.doesNotReject(new Run(...Object.keys(names), `{ ${lines} }`)(...Object.values(names)), call);
    }
});
