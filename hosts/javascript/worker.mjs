// The Worker of limited.mjs: it runs the module that comes, on the nodes of arguments that come with it or on arguments that it reads of their text, and sends the nodes of the answer or its
// texts, or the error. So what takes time or memory, reading and writing too, is done here, where it can be ended.
import { dataOf, load } from "./erasec.mjs";
import { notation, parseArguments } from "./notation.mjs";

async function answerOf({ bytes, types, nodes, text }) {
  try {
    const program = await load(bytes, types);
    const answer = program.open().runNodes(nodes ?? program.nodesOf(parseArguments(text, program.types)));
    if (nodes) return { nodes: answer };
    const data = dataOf(answer, program.types);
    return { count: answer.length / 2, text: String(data), notation: notation(data, program.types) };
  } catch (error) {
    return { error: { name: error.name, message: error.message } };
  }
}

const send = (port, answer) => port.postMessage(answer, answer.nodes ? [answer.nodes.buffer] : []);

if (typeof self !== "undefined" && typeof self.postMessage === "function") {
  self.addEventListener("message", async (it) => send(self, await answerOf(it.data)));
} else {
  const { parentPort } = await import("node:worker_threads");
  parentPort.on("message", async (it) => send(parentPort, await answerOf(it)));
}
