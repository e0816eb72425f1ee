// The types of limited.mjs.
import type { Data, TypesText } from "./erasec.mjs";

/** An answer as text: as erasec writes it, in short, and how many nodes it has. */
export interface Told {
  readonly text: string;
  readonly notation: string;
  readonly count: number;
}

export declare function runLimited(bytes: BufferSource, types: TypesText, milliseconds: number, ...args: Data[]): Promise<Data>;
export declare function textLimited(bytes: BufferSource, types: TypesText, milliseconds: number, text?: string, signal?: AbortSignal): Promise<Told>;
