// Runs modules of erasec, stores the arguments of those whose main is a function, and reads their answers along main's types. Without dependencies, for node and browsers.
// limited.mjs does so in a Worker with a limit of time, notation.mjs reads and writes data as text.
//
// A program's types are those that `tools/types-of` writes of its dump: 'list=nil,cons:nat+list' and 'nat=O,S:nat', main's first; where main is a function, 'nat+list->list' stands before
// them. docs/RUNNING.md has the layout of values and how arguments are stored, README.md beside this file an example of each call, erasec.d.mts the types of TypeScript.

/** Data are read, told and stored up to this many nodes, as by `erasec run`. A part that is shared counts at each place. */
export const MAX_NODES = 4_000_000;

// ------------------------------------------------------------------ errors

/** What the program, its module or its types are refused for; each cause is a class of its own. */
export class ErasecError extends Error {
  constructor(message, options) {
    super(message, options);
    this.name = new.target.name;
  }
}

/** The text of types isn't in the form of `tools/types-of`. */
export class BadTypes extends ErasecError {}

/** The bytes are no module that an engine takes, or one without the entries that a host needs. */
export class BadModule extends ErasecError {}

/** An argument isn't data of its type, or there are more or fewer of them than main takes. */
export class BadArgument extends ErasecError {}

/** The run ended since its memory was used up, or its arguments have no room, or the engine has none for an instance. */
export class MemoryExhausted extends ErasecError {}

/** The run ended since the engine's stack is too small for its recursion: the program may still have an answer. */
export class StackExhausted extends ErasecError {}

/** The run trapped otherwise, which no module of a program with data as its value does. */
export class Trapped extends ErasecError {}

/** What the run left isn't data of the given types: the types aren't this module's, or the module isn't by `erasec compile`. */
export class NotData extends ErasecError {}

/** The answer has more than MAX_NODES nodes, or the arguments have. */
export class TooLarge extends ErasecError {}

/** A value has no data of the type that is asked for, or data isn't of a conversion's form. */
export class NotConvertible extends ErasecError {}

/** The time limit of a run in a Worker was reached. */
export class OutOfTime extends ErasecError {}

// ------------------------------------------------------------------ types

/** The types of an answer and of arguments: each type's constructors by their numbers, with the types of their own arguments. */
export class Types {
  /** Of lines or words in the form of `tools/types-of`: one string, or several. */
  constructor(text) {
    this.text = (Array.isArray(text) ? text : [text]).join("\n");
    const given = this.text.split(/\s+/).filter(Boolean);
    const arrow = given[0]?.indexOf("->") ?? -1;
    const signature = arrow < 0 ? null : given.shift();
    if (!given.length) throw new BadTypes("no type is given");
    this.constructors = new Map();
    for (const line of given) this.#add(line);
    this.args = signature ? signature.slice(0, arrow).split("+") : [];
    this.main = signature ? signature.slice(arrow + 2) : given[0].slice(0, given[0].indexOf("="));
    const lacks = (names) => names.find((it) => !this.constructors.has(it));
    const missing = lacks([...this.args, this.main]);
    if (missing !== undefined) throw new BadTypes(`main's type names the type '${missing}', which isn't given`);
    for (const [type, constructors] of this.constructors) {
      for (const { name, args } of constructors) {
        const other = lacks(args);
        if (other !== undefined) throw new BadTypes(`${name} of ${type} has an argument of the type ${other}, which isn't given`);
      }
    }
  }

  #add(line) {
    const [name, listed, ...further] = line.split("=");
    if (!name || listed === undefined || further.length) throw new BadTypes(`'${line}' isn't NAME=CONSTRUCTOR,..`);
    if (this.constructors.has(name)) throw new BadTypes(`the type ${name} is given twice`);
    const constructors = (listed ? listed.split(",") : []).map((it) => {
      const [constructor, args, ...more] = it.split(":");
      if (!constructor || args === "" || more.length) throw new BadTypes(`'${it}' isn't CONSTRUCTOR or CONSTRUCTOR:TYPE+..`);
      return { name: constructor, args: args ? args.split("+") : [] };
    });
    this.constructors.set(name, constructors);
  }
}

/** The types of a text, or types that were read of one. */
export const typesOf = (types) => (types instanceof Types ? types : new Types(types));

// ------------------------------------------------------------------ data

/** A constructor with its arguments, which are data again. `number` is its place among its type's constructors. */
export class Data {
  constructor(name, number, args = []) {
    this.name = name;
    this.number = number;
    this.args = args;
  }

  /** The text in which erasec writes data. */
  toString() {
    const out = [];
    const todo = [this];
    let nodes = 0;
    while (todo.length) {
      const next = todo.pop();
      if (typeof next === "string") { out.push(next); continue; }
      if (++nodes > MAX_NODES) throw new TooLarge(`more than ${MAX_NODES} nodes`);
      out.push(next.args.length ? `(${next.name}` : next.name);
      if (next.args.length) todo.push(")");
      for (let i = next.args.length; i > 0; i--) todo.push(next.args[i - 1], " ");
    }
    return out.join("");
  }
}

/** Whether a value is Data whose parts have the right form; its arguments may be anything. */
const isData = (it) => it instanceof Data && Number.isInteger(it.number) && Array.isArray(it.args);

/** Reads the data that a word stands for in a memory, along the types. Every block's address, constructor and number of arguments is compared with them; a block lies behind those in it. */
export function readData(buffer, word, types, type) {
  return dataOf(readNodes(buffer, word, types, type), types, type);
}

/** The nodes of that data in preorder: for each its constructor's number and its count of arguments. */
export function readNodes(buffer, word, types, type) {
  const { constructors, main } = typesOf(types);
  const view = new DataView(buffer);
  const todo = [{ word: word >>> 0, type: type ?? main, above: buffer.byteLength }];
  const nodes = [];
  while (todo.length) {
    const { word, type, above } = todo.pop();
    if (nodes.length === 2 * MAX_NODES) throw new TooLarge(`the answer has more than ${MAX_NODES} nodes`);
    const { number, count } = headOf(view, word, above);
    const constructor = constructors.get(type)?.[number];
    if (!constructor) throw new NotData(`constructor ${number} of ${type} is met, which has ${constructors.get(type)?.length || "none"}`);
    if (constructor.args.length !== count) throw new NotData(`${constructor.name} of ${type} is met with ${count} arguments, and has ${constructor.args.length}`);
    nodes.push(number, count);
    for (let i = count; i > 0; i--) todo.push({ word: view.getUint32(word + 4 * i, true), type: constructor.args[i - 1], above: word });
  }
  return Uint32Array.from(nodes);
}

/** The data of such nodes, which were compared with the types. */
export function dataOf(nodes, types, type) {
  const { constructors, main } = typesOf(types);
  const root = [];
  const todo = [{ into: root, at: 0, type: type ?? main }];
  for (let i = 0; todo.length; i += 2) {
    const { into, at, type } = todo.pop();
    const { name, args } = constructors.get(type)[nodes[i]];
    const data = new Data(name, nodes[i], new Array(args.length));
    into[at] = data;
    for (let k = args.length; k > 0; k--) todo.push({ into: data.args, at: k - 1, type: args[k - 1] });
  }
  return root[0];
}

/** The constructor's number and the count of arguments that a word has; a block lies in memory as a whole, and below the block in which it stands. */
function headOf(view, word, above) {
  if (word & 1) return { number: word >>> 1, count: 0 };
  if (word === 0 || word % 4 || word >= above || word + 4 > view.byteLength) throw new NotData(`no value at ${word}`);
  const header = view.getUint32(word, true);
  const count = header >>> 16;
  if (count === 0 || word + 4 + 4 * count > view.byteLength) throw new NotData(`no value at ${word}`);
  return { number: header & 65535, count };
}

// ------------------------------------------------------------------ arguments

/** The nodes of arguments in preorder, for each its constructor's number and its count of arguments; every node is compared with the types. */
function nodesOf(args, { constructors, args: types }) {
  if (args.length !== types.length) throw new BadArgument(`main takes ${types.length} arguments, and not ${args.length}`);
  const todo = args.map((data, i) => ({ data, type: types[i], argument: i + 1 })).reverse();
  const nodes = [];
  while (todo.length) {
    const { data, type, argument } = todo.pop();
    if (nodes.length === 2 * MAX_NODES) throw new TooLarge(`the arguments have more than ${MAX_NODES} nodes`);
    if (!isData(data)) throw new BadArgument(`argument ${argument} holds ${data instanceof Data ? data.name : typeof data}, which isn't data`);
    const constructor = constructors.get(type)[data.number];
    if (!constructor) throw new BadArgument(`argument ${argument} holds constructor ${data.number} of ${type}, which has ${constructors.get(type).length || "none"}`);
    if (constructor.args.length !== data.args.length) throw new BadArgument(`argument ${argument} holds ${constructor.name} of ${type} with ${data.args.length} arguments, and it has ${constructor.args.length}`);
    nodes.push(data.number, data.args.length);
    for (let i = data.args.length; i > 0; i--) todo.push({ data: data.args[i - 1], type: constructor.args[i - 1], argument });
  }
  return Uint32Array.from(nodes);
}

/** Stores arguments behind the end of the heap, each block behind those of its fields, then their words; and tells the module of both. */
function store({ memory, heap, args }, nodes) {
  let words = 0;
  let count = 1;
  for (let i = 0; i < nodes.length; i += 2) {
    if (nodes[i + 1]) words += 1 + nodes[i + 1];
    count += 1 - nodes[i + 1];
  }
  count -= 1;
  const from = heap.value >>> 0;
  if (from % 4 || from > memory.buffer.byteLength) throw new BadModule(`heap is ${from}, which is no address in the module's memory`);
  const end = from + 4 * (words + count);
  makeRoom(memory, end);
  const view = new DataView(memory.buffer);
  let at = from;
  const put = (word) => { view.setUint32(at, word, true); at += 4; };
  const waiting = [];
  for (let i = nodes.length - 2; i >= 0; i -= 2) {
    const [number, fields] = [nodes[i], nodes[i + 1]];
    if (!fields) { waiting.push(2 * number + 1); continue; }
    const block = at;
    put(fields * 65536 + number);
    for (let k = 0; k < fields; k++) put(waiting.pop());
    waiting.push(block);
  }
  args.value = at | 0;
  while (waiting.length) put(waiting.pop());
  heap.value = end | 0;
}

/** Memory grows by the fewest pages with which so many bytes lie in it. */
function makeRoom(memory, bytes) {
  const pages = Math.ceil((bytes - memory.buffer.byteLength) / 65536);
  if (pages <= 0) return;
  try {
    memory.grow(pages);
  } catch (cause) {
    if (!(cause instanceof RangeError)) throw new BadModule(`the module's memory can't grow: ${cause.message}`, { cause });
    throw new MemoryExhausted("the arguments have no room in the program's memory", { cause });
  }
}

// ------------------------------------------------------------------ programs

/** A global of type i32 that can be set: it takes of a number the integer alone, and globals of type i64 take none. */
function isWord(it) {
  if (!(it instanceof WebAssembly.Global) || typeof it.value !== "number") return false;
  const first = it.value;
  try {
    it.value = 0.5;
  } catch {
    return false;
  }
  const taken = it.value;
  it.value = first;
  return taken === 0;
}

const isMain = (it) => typeof it === "function" && it.length === 0;
const isMemory = (it) => it instanceof WebAssembly.Memory && it.buffer instanceof ArrayBuffer;
const ENTRIES = [["main", isMain], ["memory", isMemory], ["result", isWord], ["status", isWord]];
const CALL_ENTRIES = [...ENTRIES, ["heap", isWord], ["args", isWord]];

/** A module of erasec, and the types of its main. */
export class Program {
  constructor(module, types) {
    this.module = module;
    this.types = typesOf(types);
  }

  /** Runs main on the arguments, if it takes any, in a new instance, and reads its answer. */
  run(...args) {
    return this.open().run(...args);
  }

  /** An instance that runs main as often as its memory lasts. */
  open() {
    return new Session(this);
  }

  /** The nodes of arguments, which another instance of this program takes in place of them. */
  nodesOf(args) {
    return nodesOf(args, this.types);
  }
}

/** An instance of a program. A module gives no memory back, so each run leaves less of it; after a run that ended by a trap every further one ends by the same error. */
export class Session {
  #entries;
  #first;
  #ended = null;

  constructor(program) {
    this.program = program;
    this.#entries = instanceOf(program);
    this.#first = this.#entries.result.value;
  }

  /** Runs main on the arguments, if it takes any, and reads its answer. */
  run(...args) {
    return dataOf(this.runNodes(this.program.nodesOf(args)), this.program.types);
  }

  /** Runs main on arguments that `nodesOf` has taken apart, and gives the nodes of its answer. */
  runNodes(nodes) {
    if (this.#ended) throw this.#ended;
    const { main, memory, result, status } = this.#entries;
    if (nodes.length) store(this.#entries, nodes);
    result.value = this.#first;
    let given;
    try {
      given = main();
    } catch (trap) {
      this.#ended = causeOf(trap, status.value);
      throw this.#ended;
    }
    if (given !== undefined) throw new BadModule("main gives a result");
    return readNodes(memory.buffer, result.value, this.program.types);
  }
}

/** The entries of a new instance: those of a module for calls, where main takes arguments. */
function instanceOf({ module, types }) {
  let entries;
  try {
    entries = new WebAssembly.Instance(module, {}).exports;
  } catch (cause) {
    if (cause instanceof RangeError) throw new MemoryExhausted(`the engine has no memory for an instance: ${cause.message}`, { cause });
    throw new BadModule(`the module has no instance: ${cause.message}`, { cause });
  }
  for (const [name, isEntry] of types.args.length ? CALL_ENTRIES : ENTRIES) {
    if (!isEntry(entries[name])) throw new BadModule(`the module has no entry ${name}`);
  }
  if (!types.args.length && "args" in entries) throw new BadModule("the module's main takes arguments, and by its types it takes none");
  return entries;
}

/** Which error a trap of main stands for. */
function causeOf(trap, status) {
  if (status === 1) return new MemoryExhausted("the program's memory is used up", { cause: trap });
  // V8 and JavaScriptCore throw a RangeError, SpiderMonkey an InternalError
  if (trap instanceof RangeError || trap?.name === "InternalError") return new StackExhausted(`the engine's stack is too small: ${trap.message}`, { cause: trap });
  return new Trapped(`the program trapped: ${trap?.message ?? trap}`, { cause: trap });
}

/** A module of one function, which ends in a tail call of itself; nothing runs it. */
const TAIL_CALL = Uint8Array.of(0, 97, 115, 109, 1, 0, 0, 0, 1, 4, 1, 96, 0, 0, 3, 2, 1, 0, 10, 6, 1, 4, 0, 18, 0, 11);

/** Whether the engine takes tail calls, which modules of erasec make: Chrome and Edge since 112, Firefox since 121, Safari since 18.2, node since 20. */
export const takesTailCalls = () => WebAssembly.validate(TAIL_CALL);

/** The program of a module's bytes. */
export async function load(bytes, types) {
  const parsed = typesOf(types);
  try {
    return new Program(await WebAssembly.compile(bytes), parsed);
  } catch (cause) {
    throw new BadModule(`no module: ${cause.message}${takesTailCalls() ? "" : "; this engine takes no tail calls, which modules of erasec make"}`, { cause });
  }
}

// ------------------------------------------------------------------ conversions

const refuse = (what, value) => { throw new NotConvertible(`${value instanceof Data ? value.name : typeof value === "object" ? "an object" : String(value)} isn't ${what}`); };

/** A constructor's number, where the data is one of a type with as many arguments for each constructor as listed. */
function numberOf(data, what, counts) {
  if (!isData(data) || counts[data.number] !== data.args.length) refuse(what, data);
  return data.number;
}

const natural = (value, what) => {
  const big = typeof value === "bigint" ? value : Number.isSafeInteger(value) ? BigInt(value) : refuse(what, value);
  return big >= 0n ? big : refuse(what, value);
};

/** Coq's bool, as true and false. */
export const bool = {
  of: (data) => numberOf(data, "a bool", [0, 0]) === 0,
  data: (value) => (typeof value === "boolean" ? new Data(value ? "true" : "false", value ? 0 : 1) : refuse("a bool", value)),
};

/** Coq's nat, as a number. */
export const nat = {
  of(data) {
    let value = 0;
    for (let at = data; numberOf(at, "a nat", [0, 1]) === 1; at = at.args[0]) value++;
    return value;
  },
  data(value) {
    let left = natural(value, "a nat");
    if (left >= BigInt(MAX_NODES)) throw new TooLarge(`${value} in unary has more than ${MAX_NODES} nodes`);
    let data = new Data("O", 0);
    for (; left > 0n; left--) data = new Data("S", 1, [data]);
    return data;
  },
};

/** Coq's positive, as a bigint from 1. */
export const positive = {
  of(data) {
    let bits = "";
    for (let at = data; ; at = at.args[0]) {
      const number = numberOf(at, "a positive", [1, 1, 0]);
      if (number === 2) return BigInt(`0b1${bits ? [...bits].reverse().join("") : ""}`);
      bits += number === 0 ? "1" : "0";
    }
  },
  data(value) {
    const bits = natural(value, "a positive").toString(2);
    if (bits === "0") refuse("a positive", value);
    let data = new Data("xH", 2);
    for (const bit of bits.slice(1)) data = bit === "1" ? new Data("xI", 0, [data]) : new Data("xO", 1, [data]);
    return data;
  },
};

/** Coq's N, as a bigint from 0. */
export const N = {
  of: (data) => (numberOf(data, "an N", [0, 1]) === 0 ? 0n : positive.of(data.args[0])),
  data: (value) => (natural(value, "an N") === 0n ? new Data("N0", 0) : new Data("Npos", 1, [positive.data(value)])),
};

/** Coq's Z, as a bigint. */
export const Z = {
  of(data) {
    const number = numberOf(data, "a Z", [0, 1, 1]);
    return number === 0 ? 0n : number === 1 ? positive.of(data.args[0]) : -positive.of(data.args[0]);
  },
  data(value) {
    const big = typeof value === "bigint" ? value : Number.isSafeInteger(value) ? BigInt(value) : refuse("a Z", value);
    if (big === 0n) return new Data("Z0", 0);
    return big > 0n ? new Data("Zpos", 1, [positive.data(big)]) : new Data("Zneg", 2, [positive.data(-big)]);
  },
};

/** Coq's list of a converted type, as an array. */
export const list = (item) => ({
  of(data) {
    const values = [];
    for (let at = data; numberOf(at, "a list", [0, 2]) === 1; at = at.args[1]) values.push(item.of(at.args[0]));
    return values;
  },
  data(values) {
    if (!Array.isArray(values)) refuse("a list", values);
    return values.reduceRight((rest, value) => new Data("cons", 1, [item.data(value), rest]), new Data("nil", 0));
  },
});

/** Coq's option of a converted type, as { some: value } or null. */
export const option = (item) => ({
  of: (data) => (numberOf(data, "an option", [1, 0]) === 0 ? { some: item.of(data.args[0]) } : null),
  data: (value) => (value === null ? new Data("None", 1) : "some" in Object(value) ? new Data("Some", 0, [item.data(value.some)]) : refuse("an option", value)),
});

/** Coq's pair of converted types, as an array of two. */
export const prod = (first, second) => ({
  of(data) {
    numberOf(data, "a pair", [2]);
    return [first.of(data.args[0]), second.of(data.args[1])];
  },
  data(value) {
    if (!Array.isArray(value) || value.length !== 2) refuse("a pair", value);
    return new Data("pair", 0, [first.data(value[0]), second.data(value[1])]);
  },
});

/** Coq's ascii, as a byte: a number below 256. */
export const ascii = {
  of(data) {
    numberOf(data, "an ascii", [8]);
    return data.args.reduceRight((byte, bit) => 2 * byte + (bool.of(bit) ? 1 : 0), 0);
  },
  data(value) {
    if (!Number.isInteger(value) || value < 0 || value > 255) refuse("an ascii", value);
    return new Data("Ascii", 0, Array.from({ length: 8 }, (_, i) => bool.data(((value >> i) & 1) === 1)));
  },
};

/** Coq's string, as its bytes. */
export const bytes = {
  of(data) {
    const values = [];
    for (let at = data; numberOf(at, "a string", [0, 2]) === 1; at = at.args[1]) values.push(ascii.of(at.args[0]));
    return Uint8Array.from(values);
  },
  data(values) {
    if (!Array.isArray(values) && !(values instanceof Uint8Array)) refuse("bytes", values);
    return values.reduceRight((rest, byte) => new Data("String", 1, [ascii.data(byte), rest]), new Data("EmptyString", 0));
  },
};

/** Coq's string, as the text whose bytes in UTF-8 it has. */
export const string = {
  of(data) {
    try {
      return new TextDecoder("utf-8", { fatal: true, ignoreBOM: true }).decode(bytes.of(data));
    } catch (cause) {
      if (cause instanceof ErasecError) throw cause;
      throw new NotConvertible("the string's bytes aren't UTF-8: use bytes", { cause });
    }
  },
  data(value) {
    // a half of a pair of surrogates has no UTF-8
    if (typeof value !== "string" || /\p{Surrogate}/u.test(value)) refuse("a text", value);
    return bytes.data(new TextEncoder().encode(value));
  },
};
