// Modules that are written out byte by byte, for the tests of both hosts and for bench/host_faults.mjs.

const number = (n) => { const out = []; do { out.push((n & 127) | (n > 127 ? 128 : 0)); n >>>= 7; } while (n); return out; };
const signed = (n) => { const out = []; for (;;) { const low = n & 127; n >>= 7; if ((n === 0 && !(low & 64)) || (n === -1 && low & 64)) return [...out, low]; out.push(low | 128); } };
const named = (name) => [name.length, ...new TextEncoder().encode(name)];
const section = (id, items) => { const body = [...number(items.length), ...items.flat()]; return [id, ...number(body.length), ...body]; };
export const constant = (n) => [0x41, ...signed(n)];

/** A module whose main has this code, with words in memory from address 4, and words in result, status, heap and args; memory has one page, and so many at most. */
export function written({ code = [], words = [], result = 1, heap = 8, pages = 2, mutable = 1, entries = ["main", "memory", "result", "status"] }) {
  const exports = { main: [0, 0], memory: [2, 0], result: [3, 0], status: [3, 1], heap: [3, 2], args: [3, 3] };
  const data = words.flatMap((w) => [w & 255, (w >>> 8) & 255, (w >>> 16) & 255, w >>> 24]);
  const body = [0, ...code, 0x0b];
  return Uint8Array.from([0, 0x61, 0x73, 0x6d, 1, 0, 0, 0,
    ...section(1, [[0x60, 0, 0]]), ...section(3, [[0]]), ...section(5, [[1, 1, pages]]),
    ...section(6, [result, 0, heap, 0].map((it) => [0x7f, mutable, ...constant(it), 0x0b])),
    ...section(7, entries.map((it) => [...named(it), ...exports[it]])),
    ...section(10, [[...number(body.length), ...body]]),
    ...section(11, [[0, ...constant(4), 0x0b, ...number(data.length), ...data]])]);
}

export const CALLABLE = ["main", "memory", "result", "status", "heap", "args"];
export const answersArgument = (n) => ({ code: [0x23, 3, 0x28, 2, 4 * n, 0x24, 0], entries: CALLABLE });
export const UNREACHABLE = [0x00], CALL_ITSELF = [0x10, 0], FOREVER = [0x03, 0x40, 0x0c, 0, 0x0b];
export const EXHAUSTED = [...constant(1), 0x24, 1, ...UNREACHABLE];
// S O at 4, and cons of that and nil at 12
export const ONE_IN_A_LIST = { words: [65536 + 1, 1, 2 * 65536 + 1, 4, 1], result: 12 };
// a tree of 2^23 - 1 nodes in 22 blocks, each with the one before twice
export const SHARED_TREE = { words: Array.from({ length: 22 }, (_, i) => [2 * 65536 + 1, i ? 12 * i - 8 : 1, i ? 12 * i - 8 : 1]).flat(), result: 4 + 12 * 21 };
export const TREE = "tree=leaf,node:tree+tree";
