// Writes out/verify.html, the page that verifies, as one file without a server: esbuild bundles its scripts and the module
// into verify.template.html.
import { execFileSync } from "node:child_process";
import { mkdirSync, readFileSync, writeFileSync } from "node:fs";
import { fileURLToPath } from "node:url";

const here = fileURLToPath(new URL(".", import.meta.url));
const words = ["verify.js", "--bundle", "--format=esm", "--charset=utf8", "--log-level=warning"];
const scripts = execFileSync("esbuild", words, { cwd: here, encoding: "utf8" });
const [before, after] = readFileSync(`${here}verify.template.html`, "utf8").split("/* scripts */\n");
mkdirSync(`${here}out`, { recursive: true });
writeFileSync(`${here}out/verify.html`, before + scripts + after);
console.log(`${here}out/verify.html`);
