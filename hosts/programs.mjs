// The programs that the tests of both hosts run: modules that `erasec compile` makes of the dumps of examples/ and of the folders of ERASEC_CASES, with their types and the text of `erasec exec`;
// and the calls of the calculator, with the answers that Coq gives. ERASEC names the program, which else is the one that was proved and built here, and ERASEC_MADE a folder in which what it
// writes is kept, so that the second test finds it made.
import { execFileSync, spawnSync } from "node:child_process";
import { existsSync, readFileSync, readdirSync, writeFileSync } from "node:fs";
import { basename, join } from "node:path";
import { fileURLToPath } from "node:url";

export const TOP = fileURLToPath(new URL("..", import.meta.url));
const ERASEC = process.env.ERASEC ?? join(TOP, "crates/erasec/out/erasec");

/** Why no program is compiled, or false. */
export const skipsPrograms = existsSync(ERASEC) ? false : "the program isn't built";

// main isn't data, or its run needn't end (a false axiom)
const UNANSWERED = [10, 12];

/** What a job of the program ends with. */
export const ran = (job, input) => spawnSync(ERASEC, [job, "--turns", "4294967295", "--steps", "30000000"], { input, maxBuffer: 1 << 28 });

/** What `tools/types-of` says of a dump. */
export const typesOfDump = (file) => execFileSync(join(TOP, "tools/types-of"), [file], { encoding: "utf8" });

/** What the program writes of a dump: module, types and text, or null where main is no data that `exec` answers. */
function made(file) {
  const input = readFileSync(file);
  const { status, stdout, stderr } = ran("exec", input);
  if (UNANSWERED.includes(status)) return null;
  const compiled = ran("compile", input);
  if (status !== 0 || compiled.status !== 0) throw new Error(`${file}: ${stderr}${compiled.stderr}`);
  return { module: compiled.stdout, types: typesOfDump(file), text: stdout.toString().trimEnd() };
}

/** The same, kept in the folder under the dump's name. */
function kept(file, name) {
  if (!process.env.ERASEC_MADE) return made(file);
  const at = (kind) => join(process.env.ERASEC_MADE, `${name}.${kind}`);
  if (!existsSync(at("text"))) {
    const { module = "", types = "", text = "" } = made(file) ?? {};
    writeFileSync(at("wasm"), module);
    writeFileSync(at("types"), types);
    writeFileSync(at("text"), text);
  }
  const text = readFileSync(at("text"), "utf8");
  return text ? { module: readFileSync(at("wasm")), types: readFileSync(at("types"), "utf8"), text } : null;
}

/** The dumps whose main is data that `exec` answers: each one's name, module, types and text. */
export function* programs() {
  const folders = [join(TOP, "examples"), ...(process.env.ERASEC_CASES ?? "").split(":").filter(Boolean)];
  for (const folder of folders) {
    for (const dump of readdirSync(folder).filter((it) => it.endsWith(".dump"))) {
      const name = basename(dump, ".dump");
      const program = kept(join(folder, dump), name);
      if (program) yield { name, ...program };
    }
  }
}

const example = (name) => join(TOP, "examples", name);

/** The calculator of examples/, which is called with a string: its module, its types, the strings that its source calls it with, and Coq's answers to all of them, as one list. */
export const calculator = {
  module: example("calculator.wasm"),
  types: example("calculator.types"),
  dump: example("calculator.dump"),
  strings: readFileSync(join(TOP, "coq-dump/examples/calculator.v"), "utf8").match(/map calculator \[(.*)\]%string/)[1].split(";").map((it) => JSON.parse(it)),
  answers: readFileSync(example("calculator.answers"), "utf8").trimEnd(),
};

/** The text of a list whose items have these texts. */
export const listText = (texts) => texts.reduceRight((rest, it) => `(cons ${it} ${rest})`, "nil");
