// Runs a program in a Worker that is ended after a time, in node and in browsers.
import { BadArgument, BadModule, BadTypes, ErasecError, MemoryExhausted, NotConvertible, NotData, OutOfTime, Program, StackExhausted, TooLarge, Trapped, dataOf, typesOf } from "./erasec.mjs";

// those that the Worker meets
const ERRORS = { BadArgument, BadModule, BadTypes, MemoryExhausted, NotConvertible, NotData, StackExhausted, TooLarge, Trapped };
const WORKER = new URL("./worker.mjs", import.meta.url);
// megabytes of stack of a Worker in node, which a program's recursion needs; browsers let nobody choose
const STACK = 64;

/** A Worker with one way to listen, as browsers have it. */
async function newWorker() {
  if (typeof Worker === "function") return new Worker(WORKER, { type: "module" });
  const { Worker: NodeWorker } = await import("node:worker_threads");
  const worker = new NodeWorker(WORKER, { resourceLimits: { stackSizeMb: STACK } });
  return {
    postMessage: (it) => worker.postMessage(it),
    terminate: () => worker.terminate(),
    addEventListener: (kind, listen) => worker.on(kind, (it) => listen(kind === "message" ? { data: it } : it)),
  };
}

/** What the Worker sends, or its error; OutOfTime where nothing is there after the milliseconds, or where the signal ends it before. */
async function asked(message, milliseconds, signal) {
  const worker = await newWorker();
  let timer;
  try {
    const told = await new Promise((resolve, reject) => {
      const end = (why) => reject(new OutOfTime(why));
      timer = setTimeout(end, milliseconds, `no answer after ${milliseconds} ms`);
      signal?.addEventListener("abort", () => end("the run was ended"));
      worker.addEventListener("message", (it) => resolve(it.data));
      worker.addEventListener("error", (it) => reject(new ErasecError(`the Worker ended: ${it.message ?? "it can't be loaded"}`)));
      worker.postMessage(message);
    });
    if (!told.error) return told;
    throw new (ERRORS[told.error.name] ?? ErasecError)(told.error.message);
  } finally {
    clearTimeout(timer);
    worker.terminate();
  }
}

/** The answer of a module's bytes, on the arguments if main takes any, or an error; OutOfTime where it isn't there after the milliseconds. */
export async function runLimited(bytes, types, milliseconds, ...args) {
  // the module is made in the Worker alone
  const program = new Program(null, types);
  const { nodes } = await asked({ bytes, types: program.types.text, nodes: program.nodesOf(args) }, milliseconds);
  return dataOf(nodes, program.types);
}

/** The same from text to text: `text` has the arguments as `parseArguments` reads them, and the answer is given as erasec writes it, in short, and with its count of nodes. */
export async function textLimited(bytes, types, milliseconds, text = "", signal = undefined) {
  return asked({ bytes, types: typesOf(types).text, text }, milliseconds, signal);
}
