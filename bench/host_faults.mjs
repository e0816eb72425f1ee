#!/usr/bin/env node
// Gives the host in JavaScript modules, types and arguments that something changed, outside the gate, and looks at each answer.
//
//     node bench/host_faults.mjs [ERASEC] [--runs N] [--seed S]
//
// N (3,000) draws, a third of each kind, on the modules of examples/ that lie there and, with the program ERASEC, on those that it compiles of the small dumps there:
//
//     modules    random changes of a module's bytes. With the program `erasec run` says what comes: the host must give the same data, where it is data of the types, and else the error of
//                that cause; an engine takes some modules that erasec refuses, and its stack may end before
//     types      random changes of the text of types. Where they still fit the data, by a reader of types that stands apart, the same data must come, under the new names; else an error
//     arguments  random changes of arguments and of their text, for addition and for the calculator. Where they are still data of main's types the answer must be that of a sum, and of a
//                calculator, that stand apart; else an error
//
// Each error must be of a class of the host's own that the cause allows. What is wrong is told, and kept in a folder that is named; then the status is 1. The draws come from the seed.
import { spawnSync } from "node:child_process";
import { mkdtempSync, readFileSync, readdirSync, writeFileSync } from "node:fs";
import { tmpdir } from "node:os";
import { join } from "node:path";
import { fileURLToPath } from "node:url";
import { inspect } from "node:util";
import * as erasec from "../hosts/javascript/erasec.mjs";
import { runLimited } from "../hosts/javascript/limited.mjs";
import { parseArguments } from "../hosts/javascript/notation.mjs";

const EXAMPLES = fileURLToPath(new URL("../examples", import.meta.url));
const TYPES_OF = fileURLToPath(new URL("../tools/types-of", import.meta.url));
const MILLISECONDS = 3_000;
const { Data, nat, string } = erasec;

// ------------------------------------------------------------------ draws

/** Random numbers of a seed (mulberry32). */
function drawOf(seed) {
  let state = seed >>> 0;
  const next = () => {
    state = (state + 0x6d2b79f5) >>> 0;
    let it = Math.imul(state ^ (state >>> 15), state | 1);
    it ^= it + Math.imul(it ^ (it >>> 7), it | 61);
    return (it ^ (it >>> 14)) >>> 0;
  };
  const below = (n) => next() % n;
  const choice = (list) => list[below(list.length)];
  return { below, choice };
}

// bytes of instructions that take and give the same, so that a change of one to another mostly leaves a module valid
const ALIKE = [[0x46, 0x47, 0x48, 0x49, 0x4a, 0x4b, 0x4c, 0x4d, 0x4e, 0x4f, 0x6a, 0x6b, 0x6c, 0x71, 0x72, 0x73, 0x74, 0x75, 0x76], [0x00, 0x01, 0x0f], [0x02, 0x03], [0x20, 0x23], [0x21, 0x24], [0x0c, 0x0d]];

function changedBytes(draw, bytes) {
  const out = [...bytes];
  for (let left = draw.choice([1, 1, 1, 2, 3]); left; left--) {
    const at = draw.below(out.length);
    const alike = ALIKE.find((it) => it.includes(out[at]));
    const near = () => { out[at] = alike ? draw.choice(alike) : (out[at] & 128) | ((out[at] + draw.choice([1, 2, 126, 127])) & 127); };
    draw.choice([
      near, near, near, near, near,
      () => { out[at] = draw.below(256); },
      () => { out[at] ^= 1 << draw.below(8); },
      () => { out.splice(at, draw.below(4)); },
      () => { out.splice(at, 0, ...Array.from({ length: draw.below(4) }, () => draw.below(256))); },
      () => { out.length = at; },
    ])();
    if (!out.length) out.push(draw.below(256));
  }
  return Uint8Array.from(out);
}

function changedText(draw, text, words) {
  let out = text;
  for (let left = 1 + draw.below(2); left; left--) {
    const parts = out.split(/([^A-Za-z0-9_.'-])/);
    const at = draw.below(parts.length);
    draw.choice([
      () => { parts[at] = draw.choice(words); },
      () => { parts[at] = draw.choice(parts); },
      () => { parts.splice(at, 1 + draw.below(3)); },
      () => { parts.splice(at, 0, draw.choice(parts), draw.choice(words)); },
      () => { const other = draw.below(parts.length); [parts[at], parts[other]] = [parts[other], parts[at]]; },
      () => { parts[at] = parts[at].slice(0, draw.below(parts[at].length + 1)); },
    ])();
    out = parts.join("");
  }
  return out;
}

// ------------------------------------------------------------------ what stands apart: readers of texts, a sum, a calculator

/** Data by numbers alone, as nested arrays [number, ..arguments]. */
const numbersOf = (data) => [data.number, ...data.args.map(numbersOf)];

/** The same of the text that `erasec run` writes. */
function numbersOfRun(text) {
  const open = [[]];
  for (const word of text.match(/[()]|[0-9]+/g)) {
    if (word === "(") open.push([]);
    else if (word === ")") { const it = open.pop(); open.at(-1).push(it); } else if (open.length > 1 && !open.at(-1).length) open.at(-1).push(Number(word));
    else open.at(-1).push([Number(word)]);
  }
  return open[0][0];
}

const same = (a, b) => JSON.stringify(a) === JSON.stringify(b);

/** A text of types: the signature, and for each type the types of each constructor's arguments; null where it is none. */
function readTypes(text) {
  const lines = text.split(/\s+/).filter(Boolean);
  const types = {};
  const signature = lines[0]?.includes("->") ? lines.shift() : undefined;
  for (const line of lines) {
    if (!/^[^=]+=[^=]*$/.test(line)) return null;
    const [name, body] = line.split("=");
    if (Object.hasOwn(types, name)) return null;
    types[name] = body === "" ? [] : body.split(",").map((it) => it.split(":"));
    if (types[name].some((it) => it.length > 2 || it.includes(""))) return null;
    types[name] = types[name].map((it) => (it[1] ?? "").split("+").slice(it.length === 1 ? 1 : 0));
  }
  if (!lines.length) return null;
  const [, args, answer] = signature?.match(/^(.*?)->(.*)$/s) ?? [undefined, undefined, lines[0].split("=")[0]];
  const read = { types, args: args === undefined ? [] : args.split("+"), answer };
  return [...read.args, answer, ...Object.values(types).flat(2)].every((it) => Object.hasOwn(types, it)) ? read : null;
}

const fits = ([number, ...args], type, types) => types[type][number]?.length === args.length && args.every((it, i) => fits(it, types[type][number][i], types));

const stuck = (rest) => `(stuck_at ${erasec.bytes.data(Array.from(rest, (it) => it.charCodeAt(0)))})`;

/** What the calculator of examples/ answers to a text, a character for each byte: its value, or the rest from where it stops. */
function calculated(text) {
  const stack = [{ sum: 0n, sign: 1n, product: null }];
  let operand = null, digits = false;
  const close = (it) => { it.product = it.product === null ? operand : it.product * operand; };
  for (let at = 0; at < text.length; at++) {
    const it = text[at], top = stack.at(-1);
    if (it >= "0" && it <= "9" && (operand === null || digits)) { operand = (digits ? operand : 0n) * 10n + BigInt(it); digits = true; continue; }
    digits = false;
    if (it === " ") continue;
    if (it === "(" && operand === null) { stack.push({ sum: 0n, sign: 1n, product: null }); continue; }
    if (operand === null || !"+-*)".includes(it) || (it === ")" && stack.length === 1)) return stuck(text.slice(at));
    close(top);
    operand = null;
    if (it === "*") continue;
    top.sum += top.sign * top.product;
    if (it === ")") { stack.pop(); operand = top.sum; } else { top.product = null; top.sign = it === "+" ? 1n : -1n; }
  }
  if (operand === null || stack.length > 1) return stuck("");
  close(stack[0]);
  return `(equals ${erasec.Z.data(stack[0].sum + stack[0].sign * stack[0].product)})`;
}

// ------------------------------------------------------------------ the parts

/** How the host ends: with data, or with an error. */
async function endOf(work) {
  try {
    return { data: await work() };
  } catch (error) {
    return { error };
  }
}

const kindOf = ({ data, error }) => (data ? "answer" : error instanceof erasec.ErasecError ? error.name : `no error of the host: ${error?.stack ?? error}`);

/** Which ends a run of `erasec` allows. */
function allowed({ status, stdout, stderr }, types, answer) {
  const line = stderr.trim();
  if (status === 0) {
    const given = numbersOfRun(stdout);
    if (!fits(given, types.answer, types.types)) return (end) => ["NotData", "StackExhausted", "TooLarge"].includes(kindOf(end));
    return (end) => kindOf(end) === "StackExhausted" || (end.data && same(numbersOf(end.data), given));
  }
  // steps are no time, and an engine takes modules beyond the profile
  if ([7, 12, 13, 14].includes(status)) return (end) => !kindOf(end).startsWith("no error");
  if (status === 11) return (end) => ["MemoryExhausted", "StackExhausted"].includes(kindOf(end));
  if (/^no entry|^element past/.test(line)) return (end) => kindOf(end) === "BadModule";
  if (/^no value/.test(line)) return (end) => ["NotData", "StackExhausted"].includes(kindOf(end));
  return (end) => ["Trapped", "StackExhausted", "BadModule"].includes(kindOf(end));
}

async function changedModule(draw, { programs, program }) {
  const it = draw.choice(programs);
  const module = changedBytes(draw, it.module);
  const end = await endOf(() => runLimited(module, it.types, MILLISECONDS, ...it.given));
  let isRight = (came) => !kindOf(came).startsWith("no error") && !["BadTypes", "BadArgument"].includes(kindOf(came));
  if (program && !it.given.length) {
    const ran = spawnSync(program, ["run", "--steps", "1000000"], { input: module, encoding: "utf8" });
    isRight = allowed(ran, readTypes(it.types));
  }
  return { end, right: isRight(end), kept: { module, types: it.types } };
}

async function changedTypes(draw, { programs }) {
  const it = draw.choice(programs);
  const text = changedText(draw, it.types, ["=", ",", ":", "+", "->", " ", "nat", "O", "S", "list", "x", "\n", "string", "bool"]);
  const end = await endOf(async () => new erasec.Program(it.compiled, text).run(...it.given));
  const types = readTypes(text);
  const isData = types && types.args.length === it.given.length && it.given.every((data, i) => fits(numbersOf(data), types.args[i], types.types)) && fits(numbersOf(it.answer), types.answer, types.types);
  const right = isData ? end.data && same(numbersOf(end.data), numbersOf(it.answer)) : (types ? ["NotData", "BadArgument", "BadModule"] : ["BadTypes"]).includes(kindOf(end));
  return { end, right, kept: { module: it.module, types: text } };
}

/** Arguments in which something is changed that may be data no more. */
function changedData(draw, args) {
  const copied = (it) => new Data(it.name, it.number, it.args.map(copied));
  const list = args.map(copied);
  const nodes = [];
  const walk = (it, put) => { nodes.push({ it, put }); it.args.forEach((arg, i) => walk(arg, (other) => { it.args[i] = other; })); };
  list.forEach((it, i) => walk(it, (other) => { list[i] = other; }));
  const { it, put } = draw.choice(nodes);
  draw.choice([
    () => { it.number = draw.choice([0, 1, 2, 3, -1, 0.5, 2 ** 32, 65536, NaN, "1", "length", undefined]); },
    () => { it.args.splice(draw.below(it.args.length + 1), draw.below(2), draw.choice(nodes).it); },
    () => { it.args.pop(); },
    () => put(draw.choice([undefined, null, 5, "O", [], { number: 0, args: [] }, Object.create(null), new Data("x", 0, null), new Data("x", 1, { length: 1 }), nat.data(2), new Data("x", 0), new Data("x", 1, [nat.data(0), nat.data(0)])])),
    () => { list.splice(draw.below(list.length), 1); },
    () => { list.push(nat.data(1)); },
    () => { it.name = "renamed"; },
  ])();
  return list;
}

/** Numbers of data as by numbersOf, or null where it is none at the type, or where it is a circle. */
function checked(data, type, types, depth = 0) {
  if (!(data instanceof Data) || depth > 1_000 || typeof data.number !== "number" || !Array.isArray(data.args)) return null;
  const args = types[type][data.number];
  if (args?.length !== data.args.length) return null;
  const numbers = data.args.map((it, i) => checked(it, args[i], types, depth + 1));
  return numbers.includes(null) ? null : [data.number, ...numbers];
}

/** What main's own function answers to arguments by numbers. */
const answered = {
  add: ([a, b]) => String(nat.data(heightOf(a) + heightOf(b))),
  calculator: ([text]) => calculated(textOf(text)),
};
const heightOf = (it) => (it.length > 1 ? 1 + heightOf(it[1]) : 0);
const textOf = (it) => (it.length > 1 ? String.fromCharCode(it[1].slice(1).reduceRight((byte, [bit]) => 2 * byte + (bit === 0 ? 1 : 0), 0)) + textOf(it[2]) : "");

const PIECES = ["1", "23", "+", "-", "*", "(", ")", " ", "0", "7*", "(2)", "x", "1+1"];

async function changedArguments(draw, { functions }) {
  const it = draw.choice(functions);
  const { types, args: due } = readTypes(it.types);
  const whole = it.name === "add" ? [nat.data(draw.below(6)), nat.data(draw.below(40))] : [string.data(Array.from({ length: draw.below(9) }, () => draw.choice(PIECES)).join(""))];
  let given = null;
  let text = null;
  if (draw.below(3)) given = draw.below(4) ? changedData(draw, whole) : whole;
  else text = changedText(draw, whole.map(String).join(" "), ["(", ")", " ", "O", "S", "true", "false", "EmptyString", ";", "x", "3", '"1+2"']);
  const program = new erasec.Program(it.compiled, it.types);
  const end = await endOf(async () => program.run(...(given ??= parseArguments(text, it.types))));
  const numbers = given?.length === due.length ? given.map((data, i) => checked(data, due[i], types)) : [null];
  const right = !numbers.includes(null) ? String(end.data) === answered[it.name](numbers) : ["BadArgument", "TooLarge"].includes(kindOf(end));
  return { end, right, kept: { module: it.module, types: it.types, arguments: text ?? inspect(given, { depth: 50 }) } };
}

const PARTS = { modules: changedModule, types: changedTypes, arguments: changedArguments };

// ------------------------------------------------------------------ all of it

async function stored(name, types, ...given) {
  const module = readFileSync(join(EXAMPLES, `${name}.wasm`));
  const compiled = new WebAssembly.Module(module);
  return { name, module, compiled, types, given, answer: new erasec.Program(compiled, types).run(...given) };
}

async function main(words) {
  const option = (name, otherwise) => (words.includes(name) ? Number(words.splice(words.indexOf(name), 2)[1]) : otherwise);
  const runs = option("--runs", 3_000), seed = option("--seed", 1);
  const [program] = words;
  const functions = [await stored("add", "nat+nat->nat nat=O,S:nat", nat.data(3), nat.data(4)), await stored("calculator", readFileSync(join(EXAMPLES, "calculator.types"), "utf8"), string.data("2 + (3 + 1) * 4"))];
  const programs = [await stored("one", "two=a,b"), ...functions];
  for (const name of program ? readdirSync(EXAMPLES).filter((it) => it.endsWith(".dump")) : []) {
    const dump = readFileSync(join(EXAMPLES, name));
    const made = dump.length < 20_000 && name !== "false_axiom.dump" ? spawnSync(program, ["compile"], { input: dump, maxBuffer: 1 << 26 }) : { status: 1 };
    if (made.status !== 0) continue;
    const types = spawnSync(TYPES_OF, [join(EXAMPLES, name)], { encoding: "utf8" }).stdout;
    if (readTypes(types).args.length) continue;
    const compiled = new WebAssembly.Module(made.stdout);
    programs.push({ name, module: made.stdout, compiled, types, given: [], answer: new erasec.Program(compiled, types).run() });
  }
  const folder = mkdtempSync(join(tmpdir(), "erasec-host-faults-"));
  console.log(`seed ${seed}; ${programs.length} modules; inputs with a wrong answer go to ${folder}`);
  let wrong = 0;
  for (const [part, change] of Object.entries(PARTS)) {
    const counts = {};
    const draw = drawOf(seed);
    for (let i = 0; i < runs / 3; i++) {
      const { end, right, kept } = await change(draw, { programs, functions, program });
      const kind = right ? kindOf(end) : "WRONG";
      counts[kind] = (counts[kind] ?? 0) + 1;
      if (right) continue;
      wrong++;
      for (const [name, content] of Object.entries(kept)) writeFileSync(join(folder, `${part}-${i}.${name}`), content);
      console.log(`${part} ${i}: WRONG: ${kindOf(end)} ${end.error?.message ?? end.data}`.slice(0, 2_000));
    }
    const told = Object.entries(counts).sort(([, a], [, b]) => b - a).map(([kind, count]) => `${count} ${kind}`);
    console.log(`${part}: ${Object.values(counts).reduce((a, b) => a + b, 0)} draws: ${told.join(", ")}`);
  }
  process.exit(wrong ? 1 : 0);
}

await main(process.argv.slice(2));
