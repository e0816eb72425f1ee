#!/usr/bin/env node
// Writes the page as one file, which a browser opens from a disk too: `node hosts/browser/one-file.mjs > erasec.html`.
//
// Its modules stand in two scripts, one behind the other without their imports and exports: those of the page, and as a text those of the Worker, which a browser takes from an address
// that the page makes (a blob).
import { readFileSync } from "node:fs";

const text = (name) => readFileSync(new URL(name, import.meta.url), "utf8");

/** Modules as one function: no two of them give one name to two things. */
function joined(...names) {
  const bodies = names.map((it) => text(it).replace(/^import [^;]*;$/gm, "").replace(/^export /gm, ""));
  return `(async () => {\n${bodies.join("\n")}\n})();`;
}

/** A text with one part in another's place, which must be there. */
function replaced(whole, part, other) {
  if (!whole.includes(part)) throw new Error(`no longer there: ${part}`);
  return whole.replace(part, () => other);
}

const worker = JSON.stringify(joined("../javascript/erasec.mjs", "../javascript/notation.mjs", "../javascript/worker.mjs"));
let page = joined("../javascript/erasec.mjs", "../javascript/notation.mjs", "../javascript/limited.mjs", "page.mjs");
page = replaced(page, 'new URL("./worker.mjs", import.meta.url)', `URL.createObjectURL(new Blob([${worker}], { type: "text/javascript" }))`);
page = replaced(page, '{ type: "module" }', "{}");
const whole = replaced(text("index.html"), "script-src 'self' 'wasm-unsafe-eval'; worker-src 'self'; connect-src 'self'", "script-src 'unsafe-inline' 'wasm-unsafe-eval' blob:; worker-src blob:");
// nothing in the texts may end the script
const one = replaced(whole, '<script type="module" src="page.mjs"></script>', `<script>\n${page.replaceAll("</", "<\\/")}\n</script>`);
process.stdout.write(one);
