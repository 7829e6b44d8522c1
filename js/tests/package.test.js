// The package as programs see it that npm installed it for: by name, bundled by esbuild, and its types by tsc.
import assert from "node:assert/strict";
import { spawnSync } from "node:child_process";
import { cpSync, mkdirSync, mkdtempSync, readFileSync, rmSync, writeFileSync } from "node:fs";
import { tmpdir } from "node:os";
import { dirname, join } from "node:path";
import nodeTest, { after } from "node:test";
import { fileURLToPath } from "node:url";
import { CODE } from "../code.js";
import { bundle, installed } from "./bundles.js";
import { SEED, ofOpenssl, text } from "./shared.js";

const room = mkdtempSync(join(tmpdir(), "mldsa-package-"));
after(() => rmSync(room, { recursive: true, force: true }));
const { exports, engines } = JSON.parse(text("js/package.json"));
const files = installed(room);

/** A test of what npm installs. */
const test = (name, tried) => nodeTest(name, { skip: files === null && "there is no npm" }, tried);

/** Runs a program, and gives what it printed. */
function ran(command, words, cwd = room) {
    const { status, stdout, stderr, error } = spawnSync(command, words, { cwd, encoding: "utf8" });
    assert.equal(error, undefined);
    assert.equal(status, 0, stdout + stderr);
    return stdout;
}

function node(name, source, ...flags) {
    writeFileSync(join(room, name), source);
    return ran(process.execPath, [...flags, name]).trim();
}

/** What a program does with the package: prints whether it accepts what OpenSSL signed, the same without its context,
 * and what it signed itself. */
const { pem, signature } = ofOpenssl(65);
const BODY = `
    const signature = Uint8Array.from(${JSON.stringify([...signature])});
    const bytes = (words) => new TextEncoder().encode(words);
    const answers = ({ mlDsa65, ...others }) => {
        const key = readPublicKey({ mlDsa65, ...others }, ${JSON.stringify(pem)}).publicKey;
        const { publicKey, privateKey } = mlDsa65.keygen();
        const own = mlDsa65.verify(publicKey, key, mlDsa65.sign(privateKey, key));
        const [message, context] = [bytes("message"), bytes("context")];
        return [mlDsa65.verify(key, message, signature, { context }), mlDsa65.verify(key, message, signature), own];
    };
    load().then((sets) => console.log(...answers(sets)));
`;
const WANTED = "true false true";
const imported = (entry) => `import { load } from "${entry}";\nimport { readPublicKey } from "mldsa/keys";\n${BODY}`;

test("the package has what it names, and nothing else but its page, its licence and the types", () => {
    const named = JSON.stringify(exports).match(/"\.\/[\w.]+"(?!:)/g).map((it) => JSON.parse(it).slice(2));
    const types = ["mldsa", "inline", "keys"].map((name) => `${name}.d.ts`);
    const others = ["LICENSE", "README.md", "code.js", "core.js", "engine.js", "package.json"];
    assert.deepEqual([...files].sort(), [...new Set([...named, ...types, ...others])].sort());
    assert.ok(Number(process.versions.node.split(".")[0]) >= Number(engines.node.slice(2)));
});

nodeTest("code.js has the bytes of mldsa.wasm, or js/module --text writes it anew", () => {
    assert.equal(CODE, readFileSync(new URL("../mldsa.wasm", import.meta.url)).toString("base64"));
});

test("import, of the package and of the one with the module inside", () => {
    for (const entry of ["mldsa", "mldsa/inline"]) {
        assert.equal(node("program.mjs", imported(entry)), WANTED);
        // As a test runner does that stands for a browser.
        assert.equal(node("program.mjs", imported(entry), "--conditions=browser"), WANTED);
    }
    // The module has a name too.
    const place = `
        import { load } from "mldsa";
        import { createRequire } from "node:module";
        import { pathToFileURL } from "node:url";
        const place = pathToFileURL(createRequire(import.meta.url).resolve("mldsa/mldsa.wasm"));
        load(place).then((sets) => console.log(Object.keys(sets).join()));
    `;
    assert.equal(node("place.mjs", place), "mlDsa44,mlDsa65,mlDsa87");
});

nodeTest("require, by a node that takes modules so", (t) => {
    if (files === null || !process.features.require_module) {
        t.skip("there is no npm, or require takes no module: node has that from 20.19 and 22.12 on");
        return;
    }
    for (const entry of ["mldsa", "mldsa/inline"]) {
        const source = `const { load } = require("${entry}");\nconst { readPublicKey } = require("mldsa/keys");\n${BODY}`;
        assert.equal(node("program.cjs", source, "--no-warnings"), WANTED);
    }
});

test("a folder that npm links", () => {
    const linked = mkdtempSync(join(tmpdir(), "mldsa-linked-"));
    after(() => rmSync(linked, { recursive: true, force: true }));
    ran("npm", ["install", "--offline", "--silent", fileURLToPath(new URL("..", import.meta.url))], linked);
    writeFileSync(join(linked, "program.mjs"), imported("mldsa"));
    assert.equal(ran(process.execPath, ["program.mjs"], linked).trim(), WANTED);
});

test("each module shows what the types declare", () => {
    const printed = `
        for (const name of ["mldsa", "mldsa/inline", "mldsa/keys"]) {
            console.log(Object.keys(await import(name)).sort().join());
        }
    `;
    const [ofPackage, ofInline, ofKeys] = node("names.mjs", printed).split("\n");
    assert.equal(ofPackage, "MlDsaError,isSupported,load,oids");
    assert.equal(ofInline, ofPackage);
    for (const [name, shown] of [["mldsa", ofPackage], ["keys", ofKeys]]) {
        const declared = [...text(`js/${name}.d.ts`).matchAll(/^export (?:class|function|const) (\w+)/gm)];
        assert.equal(declared.map((found) => found[1]).sort().join(), shown);
    }
    assert.match(text("js/inline.d.ts"), /^export \* from "\.\/mldsa\.js";$/m);
});

/** Bundles by esbuild, where it is there. */
function bundled(t, name, source, ...flags) {
    const made = bundle(room, name, source, ...flags);
    if (made === null) {
        t.skip("there is no esbuild");
    }
    return made;
}

test("bundled by esbuild for node, with the module inside", (t) => {
    for (const [format, ending] of [["esm", "mjs"], ["cjs", "cjs"], ["iife", "js"]]) {
        const made = bundled(t, `bundle.${ending}`, imported("mldsa/inline"), "--platform=node", `--format=${format}`);
        if (made === null) {
            return;
        }
        assert.equal(made.said, "");
        // Where there is nothing beside it.
        const alone = mkdtempSync(join(room, "alone-"));
        writeFileSync(join(alone, `bundle.${ending}`), readFileSync(made.file));
        assert.equal(ran(process.execPath, [`bundle.${ending}`], alone).trim(), WANTED);
    }
});

test("bundled for node without the module it is read beside the bundle, and else the error says what to do", (t) => {
    const made = bundled(t, "beside.mjs", imported("mldsa"), "--platform=node", "--format=esm");
    if (made === null) {
        return;
    }
    const alone = mkdtempSync(join(room, "alone-"));
    writeFileSync(join(alone, "beside.mjs"), readFileSync(made.file));
    const { stderr, status } = spawnSync(process.execPath, ["beside.mjs"], { cwd: alone, encoding: "utf8" });
    assert.equal(status, 1);
    assert.match(stderr, /there is no mldsa\.wasm beside this script.*mldsa\/inline/);
    writeFileSync(join(alone, "mldsa.wasm"), readFileSync(join(room, "node_modules/mldsa/mldsa.wasm")));
    assert.equal(ran(process.execPath, ["beside.mjs"], alone).trim(), WANTED);
    // A script that knows no place of its own.
    const flags = ["--platform=node", "--format=cjs", "--log-level=error"];
    const placeless = bundled(t, "placeless.cjs", imported("mldsa"), ...flags);
    const run = spawnSync(process.execPath, [placeless.file], { encoding: "utf8" });
    assert.match(run.stderr, /this script does not know where mldsa\.wasm is.*mldsa\/inline/);
});

/** The compilers of TypeScript and their versions: those that TSC names, each after a colon, or else `tsc`. */
const COMPILERS = (process.env.TSC ?? "tsc").split(":").flatMap((name) => {
    const version = spawnSync(name, ["--version"], { encoding: "utf8" }).stdout?.match(/\d[\d.]+/)[0];
    return version === undefined ? [] : [[name, version]];
});

/** A test of what each of these compilers says. */
function typeTest(name, tried) {
    const versions = COMPILERS.map(([, version]) => version).join(" and ");
    const skip = files === null ? "there is no npm" : versions === "" && "there is no tsc";
    nodeTest(`${name}, by TypeScript ${versions}`, { skip }, () => {
        COMPILERS.forEach(([compiler, version]) => tried(compiler, parseInt(version)));
    });
}

typeTest("types, with old and new ways of finding them, and with those of the DOM or without", (compiler, major) => {
    const typed = join(room, "typed");
    mkdirSync(typed, { recursive: true });
    for (const name of ["types.ts", "dom.ts"]) {
        cpSync(join(dirname(fileURLToPath(import.meta.url)), name), join(typed, name));
    }
    const byVersion = major < 6 ? ["node", "commonjs"] : ["bundler", "es2022"];
    const kinds = [byVersion, ["node16", "node16", "module"]];
    for (const [lib, files] of [[["es2020"], ["types.ts"]], [["es2020", "dom"], ["types.ts", "dom.ts"]]]) {
        for (const [moduleResolution, module, type] of kinds) {
            const strict = { noEmit: true, strict: true, target: "es2020", types: [] };
            const compilerOptions = { ...strict, lib, module, moduleResolution };
            writeFileSync(join(typed, "tsconfig.json"), JSON.stringify({ compilerOptions, files }));
            writeFileSync(join(typed, "package.json"), JSON.stringify({ type }));
            ran(compiler, ["-p", "."], typed);
        }
    }
});

typeTest("the README's line for TypeScript compiles the first program", (compiler) => {
    const readme = text("js/README.md");
    const [, words] = readme.match(/`tsc (--.*? first\.mts)`/);
    writeFileSync(join(room, "first.mts"), readme.match(/^```js\n(.*?)^```$/ms)[1]);
    ran(compiler, words.split(" "));
    assert.equal(ran(process.execPath, ["first.mjs"]).trim(), "true");
    rmSync(join(room, "first.mjs"));
});
