// Tests of the host: `node --test hosts/javascript/test.mjs`. Modules that are written out here show each error; the calculator is called as in its source; with the program, its modules of
// examples/ and of the folders of ERASEC_CASES are run too, and each text is compared with that of `erasec exec` (../programs.mjs).
import { test } from "node:test";
import assert from "node:assert/strict";
import { spawnSync } from "node:child_process";
import { readFileSync } from "node:fs";
import { join } from "node:path";
import * as erasec from "./erasec.mjs";
import { runLimited, textLimited } from "./limited.mjs";
import { kindOf, notation, parseArguments } from "./notation.mjs";
import { CALLABLE, CALL_ITSELF, EXHAUSTED, FOREVER, ONE_IN_A_LIST, SHARED_TREE, TREE, UNREACHABLE, answersArgument, constant, written } from "../written.mjs";
import { TOP, calculator, listText, programs, ran, skipsPrograms, typesOfDump } from "../programs.mjs";

const { Data, N, Z, ascii, bool, bytes, list, load, nat, option, positive, prod, readData, string } = erasec;
const NAT = "nat=O,S:nat";
const LIST = `list=nil,cons:nat+list ${NAT}`;

// ------------------------------------------------------------------ modules written out

const answerOf = async (module, types, ...args) => (await load(written(module), types)).run(...args);

test("an answer is read along its types", async () => {
  const answer = await answerOf(ONE_IN_A_LIST, LIST);
  assert.equal(String(answer), "(cons (S O) nil)");
  assert.deepEqual(list(nat).of(answer), [1]);
  assert.equal(String(await answerOf({ result: 3 }, "color=red,green,blue")), "green");
});

test("each run has an instance of its own", async () => {
  const program = await load(written(ONE_IN_A_LIST), LIST);
  assert.equal(String(program.run()), String(program.run()));
});

test("types that aren't the module's are found", async () => {
  for (const types of [NAT, "list=nil,cons:list", "list=nil,cons:nat+list nat=O,S:nat+nat", "pair=pair:nat+nat nat=O,S:nat", "list=nil,cons:list+list", "empty="]) {
    await assert.rejects(answerOf(ONE_IN_A_LIST, types), erasec.NotData, types);
  }
});

test("addresses, headers and cycles are looked at", async () => {
  for (const result of [0, 2, 6, 65_532, 65_536, -4]) await assert.rejects(answerOf({ result }, NAT), erasec.NotData, String(result));
  await assert.rejects(answerOf({ words: [1], result: 4 }, NAT), erasec.NotData);
  // a block in itself, and one in front of a block that stands in it
  await assert.rejects(answerOf({ words: [65536 + 1, 4], result: 4 }, NAT), erasec.NotData);
  await assert.rejects(answerOf({ words: [65536 + 1, 12, 65536 + 1, 1], result: 4 }, NAT), erasec.NotData);
  await assert.rejects(answerOf(SHARED_TREE, TREE), erasec.TooLarge);
});

test("each fault of a run has its own error", async () => {
  await assert.rejects(answerOf({ code: EXHAUSTED }, NAT), erasec.MemoryExhausted);
  await assert.rejects(answerOf({ code: CALL_ITSELF }, NAT), erasec.StackExhausted);
  await assert.rejects(answerOf({ code: UNREACHABLE }, NAT), erasec.Trapped);
});

test("other modules are refused", async () => {
  await assert.rejects(load(Uint8Array.of(1, 2, 3), NAT), erasec.BadModule);
  await assert.rejects(answerOf({ entries: ["main", "memory", "result"] }, NAT), erasec.BadModule);
});

const PAIR = "nat+list->list list=nil,cons:nat+list nat=O,S:nat";

test("arguments are stored along their types", async () => {
  const given = [nat.data(3), list(nat).data([2, 0, 1])];
  assert.equal(String(await answerOf(answersArgument(1), PAIR, ...given)), "(cons (S (S O)) (cons O (cons (S O) nil)))");
  assert.equal(String(await answerOf(answersArgument(0), PAIR.replace("->list", "->nat"), ...given)), "(S (S (S O)))");
  // memory grows for them, and the reader asks that a block lies behind those in it
  const numbers = Array.from({ length: 3_000 }, (_, i) => i % 3);
  assert.deepEqual(list(nat).of(await answerOf(answersArgument(1), PAIR, nat.data(1), list(nat).data(numbers))), numbers);
});

test("an engine without tail calls is named in the error", async () => {
  assert.equal(erasec.takesTailCalls(), true);
  const { validate } = WebAssembly;
  WebAssembly.validate = () => false;
  try {
    await assert.rejects(load(Uint8Array.of(0), NAT), (error) => error instanceof erasec.BadModule && error.message.endsWith("this engine takes no tail calls, which modules of erasec make"));
  } finally {
    WebAssembly.validate = validate;
  }
  await assert.rejects(load(Uint8Array.of(0), NAT), (error) => error instanceof erasec.BadModule && !error.message.includes("tail calls"));
});

test("a compiled function adds", async () => {
  const add = await load(readFileSync(join(TOP, "examples/add.wasm")), "nat+nat->nat nat=O,S:nat");
  for (const [a, b] of [[1, 2], [0, 0], [7, 0], [400, 5]]) assert.equal(nat.of(add.run(nat.data(a), nat.data(b))), a + b);
  const session = add.open();
  for (let i = 0; i < 50; i++) assert.equal(nat.of(session.run(nat.data(i), nat.data(100))), i + 100);
  assert.throws(() => add.run(nat.data(200_000), nat.data(0)), erasec.StackExhausted);
  assert.throws(() => add.run(nat.data(1), nat.data(3_999_999)), erasec.TooLarge);
});

test("a compiled function uses its memory up, by arguments or in its run", async () => {
  const add = await load(readFileSync(join(TOP, "examples/add.wasm")), "nat+nat->nat nat=O,S:nat");
  const seen = new Set();
  for (const n of [5_000, 4_700, 4_500, 4_321, 4_000, 3_500]) {
    if (seen.size === 2) break;
    const session = add.open();
    const exhausted = (error) => error instanceof erasec.MemoryExhausted && seen.add(error.message).size > 0;
    assert.throws(() => { for (;;) assert.equal(nat.of(session.run(nat.data(n), nat.data(0))), n); }, exhausted);
  }
  assert.equal(seen.size, 2);
});

test("arguments that aren't main's are found", async () => {
  const program = await load(written(answersArgument(1)), PAIR);
  for (const given of [[], [nat.data(1)], [nat.data(1), list(nat).data([]), nat.data(1)], [bool.data(true), 5], [nat.data(1), nat.data(1)], [nat.data(1), new Data("red", 2)],
    [nat.data(0), new Data("cons", 1, [nat.data(0)])], [nat.data(0), new Data("nil", 0, [nat.data(0)])], [1, list(nat).data([])],
    [new Data("O", "0"), list(nat).data([])], [new Data("O", "length"), list(nat).data([])], [new Data("O", 0, null), list(nat).data([])], [Object.create(null), list(nat).data([])], [new Data("S", 1, new Array(1)), list(nat).data([])]]) {
    assert.throws(() => program.run(...given), erasec.BadArgument);
  }
  await assert.rejects(answerOf(ONE_IN_A_LIST, LIST, nat.data(1)), erasec.BadArgument);
  await assert.rejects(answerOf(answersArgument(0), "nat->nat nat=O,S:nat nat=O"), erasec.BadTypes);
  for (const text of ["nat->list nat=O,S:nat", "->nat nat=O,S:nat", "nat+->nat nat=O,S:nat", "nat->", "nat->nat"]) assert.throws(() => new erasec.Types(text), erasec.BadTypes, text);
});

test("arguments are read of their text", () => {
  for (const text of ["O nil", "(S (S O)) (cons O (cons (S O) nil))"]) assert.equal(parseArguments(text, PAIR).join(" "), text);
  assert.deepEqual(parseArguments(" ( S;x\nO)nil\t", PAIR).map(String), ["(S O)", "nil"]);
  assert.equal(nat.of(parseArguments("(S ".repeat(10_000) + "O" + ")".repeat(10_000), "nat->nat nat=O,S:nat")[0]), 10_000);
  for (const [text, offset] of [["", 0], ["O", 1], ["O nil O", 6], ["S nil", 0], ["(S) nil", 2], ["(O O) nil", 3], ["(S O", 4], ["(S O O) nil", 5], ["(cons O) nil", 1], ["O (cons O)", 9], ["O )", 2], ["O ((", 3], ["O ?", 2], ["O (", 3], ["true nil", 0]]) {
    assert.throws(() => parseArguments(text, PAIR), { name: "BadArgument", message: new RegExp(`^argument at ${offset}:`) }, text);
  }
});

test("an instance runs as often as its memory lasts", async () => {
  const program = await load(written(answersArgument(1)), PAIR);
  const session = program.open();
  const numbers = list(nat).data(new Array(100).fill(5));
  let runs = 0;
  assert.throws(() => { for (;;) { assert.equal(list(nat).of(session.run(nat.data(0), numbers)).length, 100); runs++; } }, erasec.MemoryExhausted);
  // of 131,064 bytes a run takes 100 * (12 + 5 * 8) + 8
  assert.equal(runs, 25);
  assert.equal(String(session.run(nat.data(0), list(nat).data([]))), "nil");
  const ended = (await load(written({ ...answersArgument(0), code: UNREACHABLE }), PAIR)).open();
  for (let i = 0; i < 2; i++) assert.throws(() => ended.run(nat.data(0), numbers), erasec.Trapped);
});

test("entries have the right types", async () => {
  // a result of type f32, a main with a parameter, and one with a result
  const float = written({ result: 1 }), parameter = written({}), result = written({ code: constant(1) });
  const spliced = (module, ...changes) => { for (const [from, to] of changes) { const at = Buffer.from(module).indexOf(Buffer.from(from)); module.splice(at, from.length, ...to); } return Uint8Array.from(module); };
  const FLOAT = spliced([...float], [[0x7f, 1, 0x41, 1, 0x0b], [0x7d, 1, 0x43, 0, 0, 0, 0, 0x0b]], [[6, 21], [6, 24]]);
  const PARAMETER = spliced([...parameter], [[1, 4, 1, 0x60, 0, 0], [1, 5, 1, 0x60, 1, 0x7f, 0]]);
  const RESULT = spliced([...result], [[1, 4, 1, 0x60, 0, 0], [1, 5, 1, 0x60, 0, 1, 0x7f]]);
  for (const module of [FLOAT, PARAMETER, RESULT]) {
    assert.ok(WebAssembly.validate(module));
    assert.throws(() => new erasec.Program(new WebAssembly.Module(module), NAT).run(), erasec.BadModule);
  }
});

test("a module for calls has two more entries", async () => {
  for (const entries of [CALLABLE.slice(0, 4), CALLABLE.slice(0, 5)]) await assert.rejects(answerOf({ ...answersArgument(0), entries }, PAIR, nat.data(0), list(nat).data([])), erasec.BadModule);
  await assert.rejects(answerOf({ mutable: 0 }, NAT), erasec.BadModule);
  await assert.rejects(answerOf(answersArgument(0), NAT), erasec.BadModule);
  for (const heap of [2, 65_540, -4]) await assert.rejects(answerOf({ ...answersArgument(0), heap }, PAIR, nat.data(0), list(nat).data([])), erasec.BadModule);
});

test("a text of types is checked", () => {
  for (const text of ["", "nat", "=O", "nat=O,S:nat nat=O", "nat=O,S:", "nat=O,,S", "list=nil,cons:nat+list", "a=b=c", "nat=O,S:nat:nat"]) {
    assert.throws(() => new erasec.Types(text), erasec.BadTypes, text);
  }
  assert.equal(new erasec.Types(["list=nil,cons:nat+list\n", NAT]).main, "list");
});

test("data in short is read and written", () => {
  const COQ = "list=nil,cons:nat+list nat=O,S:nat positive=xI:positive,xO:positive,xH N=N0,Npos:positive Z=Z0,Zpos:positive,Zneg:positive bool=true,false ascii=Ascii:bool+bool+bool+bool+bool+bool+bool+bool string=EmptyString,String:ascii+string pair=pair:list-2+option list-2=nil,cons:Z+list-2 option=Some:string,None";
  const kinds = ["list", "nat", "positive", "N", "Z", "bool", "ascii", "string"];
  for (const kind of kinds) assert.equal(kindOf(COQ, kind), kind);
  assert.deepEqual([kindOf(COQ, "pair"), kindOf(COQ, "list-2"), kindOf("nat=S:nat,O", "nat"), kindOf("list=nil,cons:list", "list")], [undefined, "list", undefined, undefined]);
  for (const [type, text, long] of [["nat", "2", "(S (S O))"], ["positive", "6", "(xO (xI xH))"], ["N", "0", "N0"], ["Z", "-3", "(Zneg (xI xH))"], ["bool", "true", "true"], ["list", "[0, 1]", "(cons O (cons (S O) nil))"],
    ["list", "[]", "nil"], ["ascii", '"a"', "(Ascii true false false false false true true false)"], ["string", '""', "EmptyString"], ["pair", '(pair [-1, 0] (Some "\\"\u00fc\\n"))', null], ["pair", "(pair [] None)", "(pair nil None)"],
    ["ascii", "(Ascii true false false true false false false false)", undefined], ["string", "(String (Ascii true true true true true true true true) EmptyString)", undefined]]) {
    const [data] = parseArguments(text, `${type}->nat ${COQ}`);
    assert.equal(notation(data, COQ, type), text);
    if (long !== null) assert.equal(String(data), long ?? text);
    assert.deepEqual(parseArguments(String(data), `${type}->nat ${COQ}`), [data]);
  }
  assert.equal(notation(list(nat).data(new Array(200_000).fill(1)), COQ, "list").length, 600_000);
  for (const [type, text, offset] of [["nat", "-1", 0], ["nat", "1.5", 0], ["positive", "0", 0], ["bool", "1", 0], ["string", "a", 0], ["string", '"\\x"', 0], ["string", '"\\ud800"', 0], ["string", '"a', 0], ["ascii", '"ab"', 0],
    ["ascii", '"\u00fc"', 0], ["nat", '"1"', 0], ["nat", "[1]", 0], ["list", "[1", 2], ["list", "[1)", 2], ["list", "(cons 1 ]", 8], ["list", "[nil]", 1], ["list", "()", 1], ["list", "(nil)", 4], ["pair", "pair", 0]]) {
    assert.throws(() => parseArguments(text, `${type}->nat ${COQ}`), { name: "BadArgument", message: new RegExp(`^argument at ${offset}:`) }, text);
  }
});

test("a Worker has a time limit", async () => {
  assert.equal(String(await runLimited(written(ONE_IN_A_LIST), LIST, 10_000)), "(cons (S O) nil)");
  await assert.rejects(runLimited(written({ code: FOREVER }), NAT, 500), erasec.OutOfTime);
  await assert.rejects(runLimited(written({ code: EXHAUSTED }), NAT, 10_000), erasec.MemoryExhausted);
  await assert.rejects(runLimited(written({ code: CALL_ITSELF }), NAT, 60_000), erasec.StackExhausted);
  await assert.rejects(runLimited(written(ONE_IN_A_LIST), NAT, 10_000), erasec.NotData);
  assert.equal(String(await runLimited(written(answersArgument(1)), PAIR, 10_000, nat.data(300), list(nat).data([1]))), "(cons (S O) nil)");
  await assert.rejects(runLimited(written({ ...answersArgument(1), code: FOREVER }), PAIR, 500, nat.data(300), list(nat).data([1])), erasec.OutOfTime);
  await assert.rejects(runLimited(written(answersArgument(1)), PAIR, 10_000, nat.data(300)), erasec.BadArgument);
  await assert.rejects(runLimited(Uint8Array.of(1), NAT, 10_000), erasec.BadModule);
});

test("a Worker reads and writes texts", async () => {
  assert.deepEqual(await textLimited(written(ONE_IN_A_LIST), LIST, 10_000), { count: 4, text: "(cons (S O) nil)", notation: "[1]" });
  assert.equal((await textLimited(written(answersArgument(1)), PAIR, 10_000, "0 [7, 1]")).notation, "[7, 1]");
  for (const [module, types, text, kind] of [[written(answersArgument(1)), PAIR, "0", erasec.BadArgument], [written(answersArgument(1)), "nat->", "0", erasec.BadTypes], [written({ result: 2 }), NAT, "", erasec.NotData],
    [written(SHARED_TREE), TREE, "", erasec.TooLarge], [written({ code: FOREVER }), NAT, "", erasec.OutOfTime]]) {
    await assert.rejects(textLimited(module, types, kind === erasec.OutOfTime ? 500 : 10_000, text), kind);
  }
  const stop = new AbortController();
  setTimeout(() => stop.abort(), 100);
  await assert.rejects(textLimited(written({ code: FOREVER }), NAT, 60_000, "", stop.signal), erasec.OutOfTime);
});

test("conversions go both ways", () => {
  const pairs = [[bool, true, "true"], [bool, false, "false"], [nat, 3, "(S (S (S O)))"], [positive, 6n, "(xO (xI xH))"], [N, 0n, "N0"], [N, 2n, "(Npos (xO xH))"], [Z, 0n, "Z0"], [Z, 1n, "(Zpos xH)"],
    [Z, -3n, "(Zneg (xI xH))"], [list(nat), [1, 0], "(cons (S O) (cons O nil))"], [option(bool), null, "None"], [option(bool), { some: true }, "(Some true)"], [prod(nat, bool), [0, false], "(pair O false)"],
    [ascii, 5, "(Ascii true false true false false false false false)"], [string, "a", "(String (Ascii true false false false false true true false) EmptyString)"]];
  for (const [conversion, value, text] of pairs) {
    const data = conversion.data(value);
    assert.equal(String(data), text);
    assert.deepEqual(conversion.of(data), value);
  }
  for (const value of [1n << 200n, 12_345_678_901_234_567_890n]) {
    assert.equal(N.of(N.data(value)), value);
    assert.equal(Z.of(Z.data(-value)), -value);
  }
  assert.equal(string.of(string.data("grüße, \ud83d\ude42")), "grüße, \ud83d\ude42");
  assert.equal(nat.of(nat.data(300_000)), 300_000);
  assert.equal(list(bool).of(list(bool).data(new Array(100_000).fill(true))).length, 100_000);
});

test("what can't be converted is refused", () => {
  for (const [conversion, value] of [[nat, -1], [nat, 1.5], [positive, 0], [Z, "1"], [ascii, 256], [bool, 1], [list(nat), 1], [prod(nat, nat), [1]], [option(nat), 1], [string, 1], [string, "\ud800"], [bytes, 5], [bytes, "a"], [bytes, null],
    [bytes, [256]], [list(nat), null], [prod(nat, nat), null], [option(nat), undefined]]) {
    assert.throws(() => conversion.data(value), erasec.NotConvertible, String(value));
  }
  for (const [conversion, data] of [[nat, new Data("cons", 1, [nat.data(0), nat.data(0)])], [bool, nat.data(1)], [list(nat), new Data("nil", 2)], [prod(nat, nat), nat.data(1)], [ascii, nat.data(0)], [bool, new Data("x", "length", [nat.data(0), nat.data(0)])],
    [nat, new Data("O", 0, null)], [nat, Object.create(null)], [nat, undefined]]) {
    assert.throws(() => conversion.of(data), erasec.NotConvertible);
  }
  assert.throws(() => string.of(bytes.data([255])), erasec.NotConvertible);
  assert.throws(() => nat.data(4_000_000), erasec.TooLarge);
});

test("the types for TypeScript name what is exported", async () => {
  for (const name of ["erasec", "limited", "notation"]) {
    const text = readFileSync(new URL(`${name}.d.mts`, import.meta.url), "utf8");
    const declared = [...text.matchAll(/^export declare (?:const|function|class) (\w+)/gm)].map((it) => it[1]);
    assert.deepEqual(declared.sort(), Object.keys(await import(`./${name}.mjs`)).sort());
  }
});

const tsc = spawnSync("tsc", ["--version"]).status === 0 ? false : "tsc isn't installed";

test("they are right for a program that uses all of them", { skip: tsc }, () => {
  const words = ["--noEmit", "--strict", "--target", "es2022", "--module", "nodenext", "--moduleResolution", "nodenext", "--lib", "es2022,dom", join(TOP, "hosts/javascript/sample.mts")];
  assert.deepEqual([spawnSync("tsc", words, { encoding: "utf8" }).stdout], [""]);
});

test("tools/read-answer.mjs tells causes by its status", () => {
  const run = (...words) => spawnSync(process.execPath, [join(TOP, "tools/read-answer.mjs"), ...words], { encoding: "utf8" });
  assert.equal(run().status, 2);
  assert.equal(run(join(TOP, "examples/one.wasm"), "nat").status, 2);
  const read = run(join(TOP, "examples/one.wasm"), "two=a,b");
  assert.deepEqual([read.status, read.stdout], [0, "b\n"]);
  assert.equal(run(join(TOP, "examples/one.wasm"), "one=a").status, 15);
  const add = (...words) => run(join(TOP, "examples/add.wasm"), "nat+nat->nat", NAT, "--", ...words);
  assert.deepEqual([add("2", "1").status, add("(S (S O)) 1").stdout, add("2").status, add("500000 0").status, add("1 3999999").status], [0, "(S (S (S O)))\n", 16, 17, 7]);
});

// ------------------------------------------------------------------ modules of the program

test("the calculator answers each call as Coq does", async () => {
  const types = readFileSync(calculator.types, "utf8");
  assert.equal(types, typesOfDump(calculator.dump));
  const program = await load(readFileSync(calculator.module), types);
  const session = program.open();
  for (const run of [(it) => program.run(string.data(it)), (it) => session.run(string.data(it))]) {
    assert.equal(listText(calculator.strings.map((it) => String(run(it)))), calculator.answers);
  }
  const told = async (it) => (await textLimited(readFileSync(calculator.module), types, 10_000, JSON.stringify(it))).notation;
  assert.equal(await told("2 + (3 + 1) * 4"), "(equals 18)");
  assert.equal(await told("100 - 2*-3"), '(stuck_at "-3")');
  // a long text that stops at its last character
  const deep = "(".repeat(20_000) + "7" + ")".repeat(20_000);
  assert.equal(await told(`${deep}\u00fc`), '(stuck_at "\u00fc")');
});

test("a recursion too deep for the main thread has its answer in a Worker of node", async () => {
  const module = readFileSync(join(TOP, "examples/add.wasm"));
  const types = "nat+nat->nat nat=O,S:nat";
  const program = await load(module, types);
  assert.throws(() => program.run(nat.data(100_000), nat.data(1)), erasec.StackExhausted);
  assert.equal((await textLimited(module, types, 60_000, "100000 1")).notation, "100001");
});

test("the program exports these modules, and calls them with the same answers", { skip: skipsPrograms }, (t) => {
  const dump = readFileSync(calculator.dump);
  const exported = ran("export", dump);
  if (exported.status === 2) return t.skip("the program has no such job yet");
  assert.deepEqual(exported.stdout, readFileSync(calculator.module));
  const called = calculator.strings.map((it) => ran("call", `${dump}(args ${string.data(it)})`));
  if (called[0].status !== 2) assert.equal(listText(called.map((it) => it.stdout.toString().trimEnd())), calculator.answers);
});

test("each example and case gives the text of exec", { skip: skipsPrograms }, async () => {
  let answered = 0;
  for (const { name, module, types, text } of programs()) {
    assert.equal(String((await load(module, types)).run()), text, name);
    answered++;
  }
  console.log(`${answered} dumps have an answer`);
});
