// Data as text: main's arguments are read of it, and answers written, with numbers, texts and lists of Coq's own types in short.
//
// Read is what erasec writes, `(cons (S O) nil)`, and for these types `2`, `"text"` and `[1, 2]` too. Written is the short form, which is read again as the same data. A type is one of Coq's
// where its constructors have the names and the arguments that Coq's library declares.
import { BadArgument, Data, MAX_NODES, N, NotConvertible, TooLarge, Z, ascii, list, nat, positive, string, typesOf } from "./erasec.mjs";

// ------------------------------------------------------------------ Coq's own types

/** Coq's types by their constructors: a name in place of a type stands for any type, `self` for the type itself, and another type of this table for that one. */
const KINDS = {
  nat: { O: [], S: ["self"] },
  positive: { xI: ["self"], xO: ["self"], xH: [] },
  N: { N0: [], Npos: ["positive"] },
  Z: { Z0: [], Zpos: ["positive"], Zneg: ["positive"] },
  bool: { true: [], false: [] },
  ascii: { Ascii: ["bool", "bool", "bool", "bool", "bool", "bool", "bool", "bool"] },
  string: { EmptyString: [], String: ["ascii", "self"] },
  list: { nil: [], cons: ["any", "self"] },
};

const NUMBERS = { nat, positive, N, Z };

/** Which of Coq's types a type is, or undefined. */
export function kindOf(types, type) {
  return Object.keys(KINDS).find((kind) => isKind(typesOf(types).constructors, type, kind));
}

function isKind(constructors, type, kind) {
  const wanted = Object.entries(KINDS[kind]);
  const given = constructors.get(type);
  const isSo = (it, wants) => wants === "any" || (wants === "self" ? it === type : isKind(constructors, it, wants));
  return given.length === wanted.length && given.every(({ name, args }, i) => name === wanted[i][0] && args.length === wanted[i][1].length && args.every((it, k) => isSo(it, wanted[i][1][k])));
}

/** The kind of each type, looked up once. */
function kindsOf(types) {
  const known = new Map();
  return (type) => {
    if (!known.has(type)) known.set(type, kindOf(types, type));
    return known.get(type);
  };
}

/** The data that a number or a text in short stands for at a type of such a kind, or undefined where it is none. */
function literal(word, kind) {
  if (kind in NUMBERS) return /^-?[0-9]+$/.test(word) ? NUMBERS[kind].data(BigInt(word)) : undefined;
  if (word[0] !== '"') return undefined;
  if (kind === "string") return string.data(JSON.parse(word));
  const character = kind === "ascii" ? JSON.parse(word) : "";
  return character.length === 1 && character < "\x80" ? ascii.data(character.charCodeAt(0)) : undefined;
}

/** That short form of data of such a kind, or undefined where it has none. */
function shortOf(data, kind) {
  if (kind in NUMBERS) return String(NUMBERS[kind].of(data));
  if (kind === "ascii") {
    const byte = ascii.of(data);
    return byte >= 32 && byte < 127 ? JSON.stringify(String.fromCharCode(byte)) : undefined;
  }
  if (kind !== "string") return undefined;
  try {
    return JSON.stringify(string.of(data));
  } catch (error) {
    // bytes that aren't UTF-8
    if (error instanceof NotConvertible) return String(data);
    throw error;
  }
}

// ------------------------------------------------------------------ reading

const TOKEN = /((?:[ \t\n\r,]|;[^\n]*)+)|[()[\]]|"(?:[^"\\]|\\.)*"|[A-Za-z0-9_.'-]+/y;

/** Main's arguments of a text, one behind the other: `(S O) (cons O nil)`, or `1 [0]`. Constructors' names are those of the types. */
export function parseArguments(text, types) {
  return new Reading(text, typesOf(types)).read();
}

class Reading {
  constructor(text, types) {
    this.text = text;
    this.types = types;
    this.kind = kindsOf(types);
    this.at = this.end = 0;
    this.given = [];
    // what is open, the innermost last: the data in it so far, their types (`each` for all of them), and what closes it; or `named`, where a constructor of that type is due
    this.open = [{ items: this.given, due: types.args }];
  }

  read() {
    const { args } = this.types;
    for (let word = this.next(); word !== undefined; word = this.next()) this.take(word);
    if (this.open.length > 1) this.refuse("the text ends early");
    if (this.given.length < args.length) this.refuse(`data of ${args[this.given.length]} is missing`);
    return this.given;
  }

  /** The next word, behind blanks, commas and comments; undefined at the end. */
  next() {
    for (;;) {
      this.at = TOKEN.lastIndex = this.end;
      if (this.at === this.text.length) return undefined;
      const found = TOKEN.exec(this.text) ?? this.refuse("no token");
      this.end = TOKEN.lastIndex;
      if (found[1] === undefined) return found[0];
    }
  }

  refuse(why) {
    throw new BadArgument(`argument at ${this.at}: ${why}`);
  }

  take(word) {
    const top = this.open.at(-1);
    if (top.named !== undefined) return this.name(top, word);
    if (word === top.closing) return this.close(top);
    if (word === ")" || word === "]") this.refuse("a bracket that closes nothing");
    const type = top.each ?? top.due[top.items.length];
    if (type === undefined) this.refuse("one too many");
    if (word === "(") this.open.push({ named: type, into: top.items });
    else if (word === "[") this.list(type, top.items);
    else top.items.push(this.single(word, type));
  }

  /** The constructor's name behind a bracket. */
  name({ named, into }, word) {
    const number = this.numberOf(word, named);
    if (number < 0) this.refuse(/^[A-Za-z0-9_.'-]/.test(word) ? `${word} is no constructor of ${named}` : "a constructor's name is due");
    const data = new Data(word, number);
    into.push(data);
    this.open.splice(-1, 1, { items: data.args, due: this.types.constructors.get(named)[number].args, closing: ")" });
  }

  list(type, into) {
    if (this.kind(type) !== "list") this.refuse(`${type} is no list`);
    this.open.push({ items: [], each: this.types.constructors.get(type)[1].args[0], closing: "]", into });
  }

  close({ items, due, each, into }) {
    if (each !== undefined) into.push(list({ data: (it) => it }).data(items));
    else if (!items.length) this.refuse(due.length ? `data of ${due[0]} is missing` : "a bracket without arguments");
    else if (items.length < due.length) this.refuse(`data of ${due[items.length]} is missing`);
    this.open.pop();
  }

  /** Data of one word: a constructor without arguments, a number or a text. */
  single(word, type) {
    const number = this.numberOf(word, type);
    if (number >= 0) {
      if (this.types.constructors.get(type)[number].args.length) this.refuse(`${word} has arguments`);
      return new Data(word, number);
    }
    try {
      return literal(word, this.kind(type)) ?? this.refuse(`${word} is no constructor of ${type}`);
    } catch (error) {
      if (error instanceof NotConvertible || error instanceof SyntaxError) this.refuse(error.message);
      throw error;
    }
  }

  numberOf(word, type) {
    return this.types.constructors.get(type).findIndex((it) => it.name === word);
  }
}

// ------------------------------------------------------------------ writing

/** The text of data in short: numbers and texts of Coq's types as such, lists in square brackets, all else as erasec writes it. */
export function notation(data, types, type) {
  const { constructors, main } = typesOf(types);
  const kind = kindsOf(typesOf(types));
  const out = [];
  const todo = [{ data, type: type ?? main }];
  let nodes = 0;
  while (todo.length) {
    const next = todo.pop();
    if (typeof next === "string") { out.push(next); continue; }
    if (++nodes > MAX_NODES) throw new TooLarge(`more than ${MAX_NODES} nodes`);
    const parts = partsOf(next.data, constructors.get(next.type), kind(next.type));
    for (let i = parts.length; i > 0; i--) todo.push(parts[i - 1]);
  }
  return out.join("");
}

/** The text of data, as pieces and the data in it with their types. */
function partsOf(data, constructors, kind) {
  const short = shortOf(data, kind);
  if (short !== undefined) return [short];
  if (kind === "list") {
    const [type] = constructors[1].args;
    return ["[", ...list({ of: (it) => it }).of(data).flatMap((it, i) => (i ? [", ", { data: it, type }] : [{ data: it, type }])), "]"];
  }
  const { name, args } = constructors[data.number];
  return args.length ? [`(${name}`, ...args.flatMap((type, i) => [" ", { data: data.args[i], type }]), ")"] : [name];
}
