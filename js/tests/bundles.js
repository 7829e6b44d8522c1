// The package as npm packs and installs it, and bundles of it by esbuild.
import { spawnSync } from "node:child_process";
import { writeFileSync } from "node:fs";
import { join } from "node:path";
import { fileURLToPath } from "node:url";

const QUIET = ["--offline", "--no-audit", "--no-fund", "--silent"];

/** Has npm pack the package, and install what it packed in a folder: the names of the packed files; null where there is no npm. */
export function installed(folder) {
    const ran = (...words) => {
        const { error, status, stdout, stderr } = spawnSync("npm", [...words, ...QUIET], { cwd: folder, encoding: "utf8" });
        if (error?.code !== "ENOENT" && status !== 0) {
            throw new Error(`npm ${words.join(" ")}: ${error ?? ""}${stdout}${stderr}`);
        }
        return error ? null : stdout;
    };
    const said = ran("pack", "--json", fileURLToPath(new URL("..", import.meta.url)));
    if (said === null) {
        return null;
    }
    // (an array, and in npm 12 an object by the packages' names)
    const [packed] = Object.values(JSON.parse(said));
    ran("install", join(folder, packed.filename));
    return packed.files.map(({ path }) => path);
}

/** Bundles a script in a folder: the place of the bundle, and what esbuild said; null where there is no esbuild. */
export function bundle(folder, name, source, ...flags) {
    const file = join(folder, name);
    const entry = file.replace(/\.\w+$/, "-entry.js");
    writeFileSync(entry, source);
    const words = [entry, "--bundle", `--outfile=${file}`, "--log-level=warning", ...flags];
    const { error, status, stdout, stderr } = spawnSync("esbuild", words, { cwd: folder, encoding: "utf8" });
    if (error) {
        return null;
    }
    if (status !== 0) {
        throw new Error(`esbuild ${flags.join(" ")}: ${stdout}${stderr}`);
    }
    return { file, said: stdout + stderr };
}
