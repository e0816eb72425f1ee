#!/usr/bin/env node
// Runs a module that `erasec compile` or `erasec export` wrote, and prints the text of its answer.
//
//     node tools/read-answer.mjs PROGRAM.wasm TYPE .. [-- ARGUMENTS]
//
// A TYPE is NAME=CTOR,CTOR:TYPE+TYPE,.. : a name of your own for a type, and its constructors in order, each with the types of its arguments, as tools/types-of writes them. The first is
// main's type: 'nat=O,S:nat', or 'list=nil,cons:nat+list' 'nat=O,S:nat'. Where main is a function ARGUMENT+ARGUMENT->ANSWER comes first, and ARGUMENTS are its arguments' text:
// '(S O) (cons O nil)', or '1 [0]'. docs/RUNNING.md has the layout of values and the statuses; hosts/javascript stores and reads.
import { readFileSync } from "node:fs";
import * as erasec from "../hosts/javascript/erasec.mjs";
import { parseArguments } from "../hosts/javascript/notation.mjs";

// those of `erasec`, and 17 for the engine's own limit
const STATUSES = [[erasec.BadTypes, 2], [erasec.BadArgument, 16], [erasec.TooLarge, 7], [erasec.MemoryExhausted, 11], [erasec.BadModule, 13], [erasec.NotData, 15], [erasec.Trapped, 15], [erasec.StackExhausted, 17]];

const words = process.argv.slice(2);
const given = words.includes("--") ? words.splice(words.indexOf("--")).slice(1) : [];
const [file, ...types] = words;
if (!file || !types.length) {
  console.error("usage: read-answer.mjs PROGRAM.wasm TYPE .. [-- ARGUMENTS]");
  process.exit(2);
}
try {
  const program = await erasec.load(readFileSync(file), types);
  console.log(String(program.run(...parseArguments(given.join(" "), program.types))));
} catch (error) {
  console.error(error.message);
  process.exit(STATUSES.find(([kind]) => error instanceof kind)?.[1] ?? 3);
}
