// The types of erasec.mjs.

export declare const MAX_NODES: 4_000_000;

export declare class ErasecError extends Error {}
export declare class BadTypes extends ErasecError {}
export declare class BadModule extends ErasecError {}
export declare class BadArgument extends ErasecError {}
export declare class MemoryExhausted extends ErasecError {}
export declare class StackExhausted extends ErasecError {}
export declare class Trapped extends ErasecError {}
export declare class NotData extends ErasecError {}
export declare class TooLarge extends ErasecError {}
export declare class NotConvertible extends ErasecError {}
export declare class OutOfTime extends ErasecError {}

export interface Constructor {
  readonly name: string;
  readonly args: readonly string[];
}

export declare class Types {
  constructor(text: string | readonly string[]);
  readonly text: string;
  /** The types of main's arguments, none where main is data. */
  readonly args: readonly string[];
  /** The type of main's answer. */
  readonly main: string;
  readonly constructors: ReadonlyMap<string, readonly Constructor[]>;
}

export declare class Data {
  constructor(name: string, number: number, args?: Data[]);
  readonly name: string;
  readonly number: number;
  readonly args: Data[];
  toString(): string;
}

/** Text of types, in the form of `tools/types-of`, or types read of it. */
export type TypesText = Types | string | readonly string[];

export declare function typesOf(types: TypesText): Types;

export declare function readData(buffer: ArrayBuffer, word: number, types: TypesText, type?: string): Data;

/** Nodes in preorder: for each its constructor's number and its count of arguments. */
export declare function readNodes(buffer: ArrayBuffer, word: number, types: TypesText, type?: string): Uint32Array;
export declare function dataOf(nodes: Uint32Array, types: TypesText, type?: string): Data;

export declare class Program {
  constructor(module: WebAssembly.Module | null, types: TypesText);
  readonly module: WebAssembly.Module | null;
  readonly types: Types;
  run(...args: Data[]): Data;
  open(): Session;
  nodesOf(args: readonly Data[]): Uint32Array;
}

export declare class Session {
  constructor(program: Program);
  readonly program: Program;
  run(...args: Data[]): Data;
  runNodes(nodes: Uint32Array): Uint32Array;
}

/** Whether the engine takes tail calls, which modules of erasec make. */
export declare function takesTailCalls(): boolean;

export declare function load(bytes: BufferSource, types: TypesText): Promise<Program>;

/** Between data and values of JavaScript. */
export interface Conversion<Value, Given = Value> {
  of(data: Data): Value;
  data(value: Given): Data;
}

export declare const bool: Conversion<boolean>;
export declare const nat: Conversion<number, number | bigint>;
export declare const positive: Conversion<bigint, number | bigint>;
export declare const N: Conversion<bigint, number | bigint>;
export declare const Z: Conversion<bigint, number | bigint>;
export declare const ascii: Conversion<number>;
export declare const bytes: Conversion<Uint8Array, Uint8Array | readonly number[]>;
export declare const string: Conversion<string>;
export declare function list<V, G>(item: Conversion<V, G>): Conversion<V[], G[]>;
export declare function option<V, G>(item: Conversion<V, G>): Conversion<{ some: V } | null, { some: G } | null>;
export declare function prod<V, G, W, H>(first: Conversion<V, G>, second: Conversion<W, H>): Conversion<[V, W], [G, H]>;
