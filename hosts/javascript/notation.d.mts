// The types of notation.mjs.
import type { Data, TypesText } from "./erasec.mjs";

export type Kind = "nat" | "positive" | "N" | "Z" | "bool" | "ascii" | "string" | "list";

export declare function kindOf(types: TypesText, type: string): Kind | undefined;
export declare function parseArguments(text: string, types: TypesText): Data[];
export declare function notation(data: Data, types: TypesText, type?: string): string;
