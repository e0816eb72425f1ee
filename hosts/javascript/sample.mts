// Each call of the host by a program in TypeScript, for the compiler alone (test.mjs gives it to tsc where that is); nothing runs it.
import { load, list, nat, string, option, prod, Z, N, positive, bool, ascii, bytes, Data, Program, Session, ErasecError, BadTypes, OutOfTime, readData, readNodes, dataOf, typesOf, MAX_NODES, Types } from "./erasec.mjs";
import { runLimited, textLimited, type Told } from "./limited.mjs";
import { notation, parseArguments, kindOf, type Kind } from "./notation.mjs";
const b = new Uint8Array(3);
const p: Program = await load(b, ["nat=O,S:nat"]);
const s: Session = p.open();
const d: Data = s.run(nat.data(3n), list(prod(nat, option(string))).data([[1, { some: "x" }], [2, null]]));
const v: [number, { some: string } | null][] = list(prod(nat, option(string))).of(d);
const z: bigint = Z.of(d) + N.of(d) + positive.of(d); const t: boolean = bool.of(d); const a: number = ascii.of(d);
const u: Uint8Array = bytes.of(bytes.data([1, 2]));
const told: Told = await textLimited(b, new Types("nat=O"), 5, "1", new AbortController().signal);
const e: Data = await runLimited(b, "nat=O", 5, d, d);
const n: string = notation(e, "nat=O") + told.text + told.notation + told.count; const k: Kind | undefined = kindOf("nat=O", "nat");
const args: Data[] = parseArguments("1", p.types);
const r: Data = dataOf(readNodes(new ArrayBuffer(8), 4, typesOf("nat=O")), "nat=O", "nat");
readData(new ArrayBuffer(8), 4, "nat=O"); const m: 4000000 = MAX_NODES;
try { } catch (it) { if (it instanceof OutOfTime) { const x: ErasecError = it; x.message; } }
// @ts-expect-error a text is no nat
nat.data("1");
// @ts-expect-error data is asked for
s.run(1);
