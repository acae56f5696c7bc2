// Makes the page, one HTML file with its script, its style, the worker and the WebAssembly module inside:
//
//     node bindings/web/build.mjs FOLDER PAGE.html [LICENCES]
//
// FOLDER is what `make -C bindings js` made, and LICENCES what `make -C bindings licences` made; without it the page
// has those of this repository alone.

import { createHash } from "node:crypto";
import { mkdirSync, readdirSync, readFileSync, writeFileSync } from "node:fs";
import { basename, dirname, join, relative, resolve } from "node:path";
import { fileURLToPath } from "node:url";

const HERE = dirname(fileURLToPath(import.meta.url));
const IMPORT = /^import\s+(\{[^}]*\}|\*\s+as\s+\w+)\s+from\s+"(\.{1,2}\/[^"]+)";$/gm;
const DECLARED = /^export (?:async function|function\*?|const|class) (\w+|\[[\w, ]*\])/gm;
const LISTED = /^export (\{[^}]*\});$/gm;

/** Returns the path of a module that another one imports: those of bindings/js are the ones in the folder. */
function pathOf(from, name, folder) {
    const path = resolve(dirname(from), name);
    return dirname(path) === resolve(HERE, "../js") ? join(folder, basename(path)) : path;
}

/** Returns the names in the braces of an import or export as pairs of the name there and the name here. */
function pairsOf(braces) {
    const words = braces.slice(1, -1).split(",").map((word) => word.trim()).filter(Boolean);
    return words.map((word) => word.split(/\s+as\s+/)).map(([first, second]) => [first, second ?? first]);
}

/** Returns pairs of names as members in braces. */
function membersOf(pairs) {
    return pairs.map(([there, here]) => there === here ? here : `${there}: ${here}`).join(", ");
}

/** Returns the names that a module exports, as pairs of the name in it and the name outside. */
function exportsOf(text) {
    const declared = [...text.matchAll(DECLARED)].flatMap((found) => found[1].match(/\w+/g));
    const listed = [...text.matchAll(LISTED)].flatMap((found) => pairsOf(found[1]));
    return [...declared.map((name) => [name, name]), ...listed];
}

/** Returns an import of a module as a declaration. */
function declaration(what, { variable, names }, path) {
    if (what.startsWith("*")) {
        return `const ${what.split(/\s+/).at(-1)} = ${variable};`;
    }
    const pairs = pairsOf(what);
    const absent = pairs.find(([there]) => !names.some(([, name]) => name === there));
    if (absent) {
        throw new Error(`${path} exports no ${absent[0]}`);
    }
    return `const { ${membersOf(pairs)} } = ${variable};`;
}

/** Returns a module as a function that is called at once and returns what the module exports. */
function wrapped(text, { variable, names }, importOf) {
    const body = text
        .replace(IMPORT, (_, what, name) => importOf(what, name))
        .replace(LISTED, "")
        .replace(/^export (?=async function|function|const|class)/gm, "");
    const unknown = /^(?:import|export)\b.*/m.exec(body);
    if (unknown) {
        throw new Error(`a form of import or export that is not known: ${unknown[0]}`);
    }
    const result = membersOf(names.map(([here, there]) => [there, here]));
    return `const ${variable} = (() => {\n${body}\nreturn { ${result} };\n})();\n`;
}

/** Returns a module and all that it imports, each after those that it imports itself, as one script. */
function bundle(entry, folder) {
    const modules = new Map();
    const parts = [];
    const add = (path) => {
        if (modules.has(path)) {
            if (!modules.get(path)) {
                throw new Error(`${path} imports itself, by others`);
            }
            return;
        }
        modules.set(path, undefined);
        const text = readFileSync(path, "utf8");
        [...text.matchAll(IMPORT)].forEach((found) => add(pathOf(path, found[2], folder)));
        const module = { variable: `module${parts.length}`, names: exportsOf(text) };
        parts.push(wrapped(text, module, (what, name) => {
            const other = pathOf(path, name, folder);
            return declaration(what, modules.get(other), other);
        }));
        modules.set(path, module);
    };
    add(resolve(HERE, entry));
    return `"use strict";\n${parts.join("")}`;
}

/** Returns a script as it may stand in a page. */
function inPage(script) {
    return script.replace(/<\/(?=script)/gi, "<\\/").replace(/<!--/g, "<\\!--");
}

function hashOf(text) {
    return `'sha256-${createHash("sha256").update(text).digest("base64")}'`;
}

/** No network: what may run is the script and the style with these hashes, and the worker that the script makes. */
function policyOf(script, style) {
    return ["default-src 'none'", `script-src ${hashOf(script)} 'wasm-unsafe-eval'`, `style-src ${hashOf(style)}`,
        "worker-src blob:", "img-src data:", "base-uri 'none'", "form-action 'none'",
        "require-trusted-types-for 'script'", "trusted-types worker"].join("; ");
}

/** Returns the paths of all files in a folder. */
function filesIn(folder) {
    const entries = readdirSync(folder, { withFileTypes: true }).sort((one, other) => one.name < other.name ? -1 : 1);
    return entries.flatMap((entry) => {
        const path = join(folder, entry.name);
        return entry.isDirectory() ? filesIn(path) : [path];
    });
}

/** Returns the texts of licences, each once, after their names. */
function licencesOf(folder) {
    const top = join(HERE, "../..");
    const own = ["bindings/NOTICE", "LICENSE-APACHE", "LICENSE-MIT"].map((name) => join(top, name));
    const names = new Map();
    for (const path of folder ? filesIn(resolve(folder)) : own) {
        const text = readFileSync(path, "utf8").trim();
        const name = relative(folder ? resolve(folder) : top, path);
        names.set(text, [...names.get(text) ?? [], name]);
    }
    return [...names].map(([text, all]) => `== ${all.join(", ")}\n\n${text}\n`).join("\n");
}

function main([folder, file, licences]) {
    if (!file) {
        console.error("usage: node build.mjs FOLDER PAGE.html [LICENCES]");
        process.exit(2);
    }
    const version = readFileSync(join(HERE, "../VERSION"), "utf8").trim();
    const script = inPage(bundle("page/main.mjs", resolve(folder)));
    const style = readFileSync(join(HERE, "page/style.css"), "utf8");
    const parts = {
        POLICY: policyOf(script, style), STYLE: style, SCRIPT: script, VERSION: version,
        WORKER: inPage(bundle("worker.mjs", resolve(folder))), LICENCES: inPage(licencesOf(licences)),
    };
    const page = readFileSync(join(HERE, "page/index.html"), "utf8").replace(/@([A-Z]+)@/g, (_, name) => parts[name]);
    mkdirSync(dirname(resolve(file)), { recursive: true });
    writeFileSync(file, page);
    console.log(`${file}: ${page.length} bytes`);
}

main(process.argv.slice(2));
