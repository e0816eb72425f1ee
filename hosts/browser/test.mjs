// Tests of the page in headless Chromium: `node --test hosts/browser/test.mjs`, skipped where none is installed. The calculator is called as in its source, each error is met, and with the
// program each example and case must give the text of `erasec exec` (../programs.mjs). ERASEC_PICTURE names a file for a picture of the page.
import { after, before, test } from "node:test";
import assert from "node:assert/strict";
import { execFileSync } from "node:child_process";
import { mkdtempSync, readFileSync, rmSync, writeFileSync } from "node:fs";
import { tmpdir } from "node:os";
import { join } from "node:path";
import { pathToFileURL } from "node:url";
import { Page, chromium, served } from "./chromium.mjs";
import { CALL_ITSELF, EXHAUSTED, FOREVER, UNREACHABLE, written } from "../written.mjs";
import { TOP, calculator, listText, programs, skipsPrograms } from "../programs.mjs";

const skip = chromium ? false : "Chromium isn't installed";
const folder = mkdtempSync(join(tmpdir(), "erasec-page-"));
const NAT = "nat=O,S:nat";
let server, page;

before(async () => {
  if (skip) return;
  server = await served(TOP.replace(/\/$/, ""));
  page = await Page.open();
});

after(async () => {
  await page?.close();
  server?.close();
  rmSync(folder, { recursive: true });
});

const fresh = (search = "") => page.go(`${server.address}/hosts/browser/${search}`, "document.body?.dataset.ready === 'yes'");

/** A file with these bytes or this text. */
function file(name, content) {
  const path = join(folder, name);
  writeFileSync(path, content);
  return path;
}

/** Chooses a module and types, gives arguments, runs them, and tells what the page shows. */
async function shown(files, given = "", seconds = 60) {
  const taken = await page.value("document.body.dataset.taken");
  // as the click does that opens the dialog
  await page.value("document.getElementById('files').value = ''");
  await page.choose("#files", files);
  await page.until(`document.body.dataset.taken !== ${JSON.stringify(taken)}`);
  if (await page.value("document.getElementById('run').disabled")) return told();
  await page.value(`document.getElementById("arguments").value = ${JSON.stringify(given)}; document.getElementById("seconds").value = ${seconds}; document.getElementById("run").click()`);
  await page.until("document.getElementById('running').hidden", seconds + 60);
  return told();
}

const told = async () => page.value(`Object.fromEntries(["kind", "why", "short", "text", "figures"].filter((it) => !document.getElementById(it === "kind" || it === "why" ? "error" : "answer").hidden).map((it) => [it, document.getElementById(it).textContent]))`);

test("the page says nothing by itself", { skip }, async () => {
  await fresh();
  assert.deepEqual(await told(), {});
  assert.equal(await page.value("document.getElementById('run').disabled"), true);
});

test("the calculator is called with strings", { skip }, async () => {
  await fresh();
  const texts = [];
  for (const it of calculator.strings) texts.push((await shown([calculator.module, calculator.types], JSON.stringify(it))).text);
  assert.equal(listText(texts), calculator.answers);
  assert.equal((await shown([calculator.module, calculator.types], '"2 + (3 + 1) * 4"')).short, "(equals 18)");
  const picture = await page.picture(760);
  if (process.env.ERASEC_PICTURE) writeFileSync(process.env.ERASEC_PICTURE, picture);
});

test("files are named in the address, or dropped", { skip }, async () => {
  await fresh("?module=../../examples/calculator.wasm&types=../../examples/calculator.types");
  assert.equal(await page.value("document.getElementById('main').textContent"), "string → result");
  await fresh("?module=../../examples/nothing.wasm");
  assert.match((await told()).why, /can't be fetched/);
  await fresh();
  await page.value(`(() => {
    const given = new DataTransfer();
    given.items.add(new File([Uint8Array.from(${JSON.stringify([...readFileSync(join(TOP, "examples/one.wasm"))])})], "one.wasm"));
    given.items.add(new File(["two=a,b"], "two.types"));
    document.dispatchEvent(new DragEvent("drop", { dataTransfer: given, cancelable: true }));
  })()`);
  await page.until("!document.getElementById('run').disabled");
  await page.value("document.getElementById('run').click()");
  await page.until("!document.getElementById('answer').hidden");
  assert.equal((await told()).short, "b");
});

test("each error is shown as its own", { skip }, async () => {
  const one = join(TOP, "examples/one.wasm"), add = join(TOP, "examples/add.wasm");
  const ADD = `nat+nat->nat ${NAT}`;
  const coded = (code) => file("coded.wasm", written({ code }));
  for (const [kind, module, types, given, seconds] of [["BadTypes", one, "nat"], ["NotData", one, "one=a"], ["BadModule", one, ADD, "1 2"], ["BadModule", add, NAT], ["BadModule", file("cut.wasm", readFileSync(one).subarray(0, 20)), NAT],
    ["BadArgument", add, ADD, "1"], ["BadArgument", add, ADD, "1 true"], ["StackExhausted", add, ADD, "1000000 0"], ["TooLarge", add, ADD, "1 3999999"], ["StackExhausted", coded(CALL_ITSELF), NAT]]) {
    await fresh();
    const came = await shown([module, file("some.types", types)], given, seconds);
    assert.deepEqual([came.kind, came.text], [kind, undefined], JSON.stringify(came));
  }
  for (const [kind, code, seconds] of [["MemoryExhausted", EXHAUSTED], ["Trapped", UNREACHABLE], ["OutOfTime", FOREVER, 1]]) {
    await fresh();
    assert.equal((await shown([coded(code), file("some.types", NAT)], "", seconds)).kind, kind);
  }
});

test("a run can be stopped, and the next one goes on", { skip }, async () => {
  await fresh();
  await page.choose("#files", [file("endless.wasm", written({ code: FOREVER })), file("nat.types", NAT)]);
  await page.until("!document.getElementById('run').disabled");
  await page.value("document.getElementById('run').click()");
  assert.equal(await page.value("document.getElementById('run').disabled"), true);
  await page.value("document.getElementById('stop').click()");
  await page.until("document.getElementById('running').hidden");
  assert.equal((await told()).kind, "OutOfTime");
  assert.equal((await shown([join(TOP, "examples/one.wasm"), file("nat.types", "two=a,b")])).short, "b");
});

test("the page is one file too, opened from the disk", { skip }, async () => {
  const whole = file("erasec.html", execFileSync(process.execPath, [join(TOP, "hosts/browser/one-file.mjs")]));
  await page.go(pathToFileURL(whole).href, "document.body?.dataset.ready === 'yes'");
  assert.equal((await shown([calculator.module, calculator.types], '"12*12-200"')).short, "(equals -56)");
  assert.equal((await shown([file("endless.wasm", written({ code: FOREVER })), file("nat.types", NAT)], "", 1)).kind, "OutOfTime");
});

test("a large answer is cut", { skip }, async () => {
  await fresh();
  const came = await shown([calculator.module, calculator.types], JSON.stringify(`1!${"x".repeat(2_000)}`));
  assert.match(came.text, /^\(stuck_at \(String \(Ascii .* and \d+ characters more$/);
  assert.equal(came.short, `(stuck_at "!${"x".repeat(2_000)}")`);
});

test("each example and case shows the text of exec", { skip: skip || skipsPrograms }, async () => {
  await fresh();
  let answered = 0;
  for (const { name, module, types, text } of programs()) {
    const came = await shown([file("it.wasm", module), file("it.types", types)]);
    assert.equal(came.text, text, `${name}: ${came.kind} ${came.why}`);
    answered++;
  }
  console.log(`${answered} dumps have an answer`);
});

test("nothing went wrong unseen", { skip }, () => {
  assert.deepEqual(page.said.filter((it) => !/nothing\.wasm|favicon/.test(it)), []);
});
