// The page: takes a module and its types, runs it in a Worker with a limit of time, and shows the answer or the error.
import { ErasecError, Types } from "../javascript/erasec.mjs";
import { textLimited } from "../javascript/limited.mjs";
import { kindOf } from "../javascript/notation.mjs";

// no module of erasec is longer, and no list of types comes near
const MODULE_BYTES = 16_777_216;
const TYPES_BYTES = 1_048_576;
// more characters of an answer are only saved
const SHOWN = 100_000;

const ADVICE = {
  BadTypes: "The types aren't in the form of tools/types-of.",
  BadModule: "It is no module that erasec compiled, or it is that of a function and its types say data, or the other way round.",
  BadArgument: "The arguments aren't data of main's types.",
  MemoryExhausted: "The program used up the pages of its module. With more of them, by erasec's --pages, it may have an answer.",
  StackExhausted: "The program's recursion is deeper than this browser's stack. It may still have an answer: by erasec itself, or in node with a larger stack.",
  Trapped: "No module that erasec compiled of a program with data as its value does this.",
  NotData: "The types aren't those of the dump from which the module was compiled, or erasec didn't compile it.",
  TooLarge: "So much data isn't read.",
  OutOfTime: "The run was ended; with more seconds it may have an answer.",
};

const FORMS = { nat: "3", positive: "3", N: "3", Z: "-3", bool: "true", ascii: '"a"', string: '"text"', list: "[ .. , .. ]" };

const $ = (id) => document.getElementById(id);
const program = { module: null, types: null, ending: null };

// ------------------------------------------------------------------ files

/** A file is a module or a text of types, whatever its name is. */
async function take(name, bytes) {
  if (bytes.length >= 4 && [0, 0x61, 0x73, 0x6d].every((it, i) => bytes[i] === it)) {
    if (bytes.length > MODULE_BYTES) throw new ErasecError(`${name} has over ${MODULE_BYTES} bytes.`);
    program.module = bytes;
    $("module").textContent = `${name}, ${bytes.length} bytes`;
    return;
  }
  if (bytes.length > TYPES_BYTES) throw new ErasecError(`${name} is neither a module nor a text of types.`);
  const text = new TextDecoder().decode(bytes);
  if (/^\s*(;|\(env\b)/.test(text)) throw new ErasecError(`${name} is a dump: erasec compiles it, and tools/types-of writes its types.`);
  program.types = null;
  $("types").textContent = "none yet";
  const types = new Types(text);
  program.types = types;
  $("types").textContent = `${name}: ${[...types.constructors.keys()].join(", ")}`;
}

async function takeFiles(files) {
  await attempt(async () => {
    for (const file of files) {
      if (file.size > MODULE_BYTES) throw new ErasecError(`${file.name} has over ${MODULE_BYTES} bytes.`);
      await take(file.name, new Uint8Array(await file.arrayBuffer()));
    }
  });
  showMain();
  document.body.dataset.taken = Number(document.body.dataset.taken ?? 0) + 1;
}

/** The files that the address names, as ?module=sort.wasm&types=sort.types. */
async function takeNamed() {
  const asked = new URLSearchParams(location.search);
  await attempt(async () => {
    for (const name of ["module", "types"]) {
      const address = asked.get(name);
      if (!address) continue;
      const got = await fetch(new URL(address, location.href)).catch(() => null);
      if (!got?.ok) throw new ErasecError(`${address} can't be fetched.`);
      await take(address.replace(/^.*\//, ""), new Uint8Array(await got.arrayBuffer()));
    }
  });
  showMain();
}

function showMain() {
  const { module, types, ending } = program;
  $("main").textContent = types ? [...types.args, types.main].join(" → ") : "unknown";
  $("given").hidden = !types?.args.length;
  const forms = [...new Set(types?.args ?? [])].map((it) => [it, FORMS[kindOf(types, it)] ?? "(constructor argument .. )"]);
  $("forms").textContent = `${forms.map(([type, form]) => `${type} as ${form}`).join(", ")}, or as erasec writes data`;
  $("run").disabled = !module || !types || ending !== null;
  $("stop").disabled = ending === null;
}

// ------------------------------------------------------------------ runs

/** Shows the error, if any comes. */
async function attempt(work) {
  for (const id of ["error", "answer"]) $(id).hidden = true;
  try {
    await work();
  } catch (error) {
    $("kind").textContent = error instanceof ErasecError && error.name !== "ErasecError" ? error.name : "";
    $("why").textContent = error.message;
    $("advice").textContent = ADVICE[error.name] ?? "";
    $("error").hidden = false;
  }
}

const cut = (text) => (text.length > SHOWN ? `${text.slice(0, SHOWN)} … and ${text.length - SHOWN} characters more` : text);

function show({ text, notation, count }, milliseconds) {
  $("short").textContent = cut(notation);
  $("text").textContent = cut(text);
  $("figures").textContent = `${count} nodes, ${Math.round(milliseconds)} ms.`;
  URL.revokeObjectURL($("save").href);
  $("save").href = URL.createObjectURL(new Blob([text, "\n"], { type: "text/plain" }));
  $("answer").hidden = false;
}

async function run() {
  const { module, types } = program;
  const milliseconds = 1000 * Math.min(3600, Math.max(1, Number($("seconds").value) || 1));
  program.ending = new AbortController();
  $("running").hidden = false;
  showMain();
  await attempt(async () => {
    const from = performance.now();
    const told = await textLimited(module, types, milliseconds, types.args.length ? $("arguments").value : "", program.ending.signal);
    show(told, performance.now() - from);
  });
  program.ending = null;
  $("running").hidden = true;
  showMain();
}

// ------------------------------------------------------------------ what a person does

// a file that is chosen again may have changed
$("files").addEventListener("click", () => { $("files").value = ""; });
$("files").addEventListener("change", () => takeFiles($("files").files));
$("run").addEventListener("click", run);
$("stop").addEventListener("click", () => program.ending?.abort());
$("arguments").addEventListener("keydown", (it) => { if (it.key === "Enter" && (it.ctrlKey || it.metaKey) && !$("run").disabled) run(); });
for (const kind of ["dragover", "dragenter"]) {
  document.addEventListener(kind, (it) => { it.preventDefault(); $("drop").classList.add("over"); });
}
document.addEventListener("dragleave", () => $("drop").classList.remove("over"));
document.addEventListener("drop", (it) => {
  it.preventDefault();
  $("drop").classList.remove("over");
  takeFiles(it.dataTransfer.files);
});
await takeNamed();
document.body.dataset.ready = "yes";
