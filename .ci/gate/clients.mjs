// The client for Node.js in the conversations of `.ci/gate/clients`, which runs this: each line of standard input is a conversation, and is answered by a line
// with what came of each request and of the end. Behind these come the tests of its own, a line each: what was looked at, what came, and what had to.
import { spawn } from "node:child_process";
import { once } from "node:events";
import { createInterface } from "node:readline";
import { PassThrough } from "node:stream";
import { Conversation, Ended, Fault, Unexpected } from "../../clients/node/nlldb.mjs";

const [program, ...actor] = process.argv.slice(2);
const RIGHT = "fn () -> int { bb0 { _0 = 1; return; } }";
const PATIENCE = 60_000;
Conversation.grace = 500;

/** What came of a request, as both clients tell it. */
function settled(answer) {
  return answer.catch((error) => {
    if (error instanceof Fault) return { fault: error.words, place: error.place && [error.place.at, error.place.line, error.place.column] };
    if (error instanceof Ended) return { ended: error.end };
    if (error instanceof Unexpected) return { unexpected: true };
    return { "wrong use": true };
  });
}

/** The promise, or an error if it takes too long. */
function inTime(promise) {
  let late;
  const patience = new Promise((_, reject) => {
    late = setTimeout(() => reject(new Error("no answer in time")), PATIENCE);
  });
  return Promise.race([promise, patience]).finally(() => clearTimeout(late));
}

/** What came of each request of a conversation, and of its end. */
async function held({ program, options, steps }) {
  const talk = await Conversation.start({ program, ...options });
  const asked = [];
  for (const { verb, words, session } of steps) {
    if (verb === "wait") {
      await inTime(Promise.all(asked));
    } else if (verb === "kill") {
      const gone = once(talk.process, "exit");
      talk.kill();
      await inTime(gone);
    } else {
      asked.push(settled(talk[verb](...words, ...(verb === "call" && words.length < 2 ? [{}] : []), { session })));
    }
  }
  return [...(await inTime(Promise.all(asked))), await inTime(talk.close())];
}

const tell = (value) => console.log(JSON.stringify(value));
const same = (what, got, wanted) => tell([what, got, wanted]);
const nobody = (number) => ({ id: number, session: 0, number, outcome: { kind: "nobody" } });
const kind = (promise) => promise.then(() => "nothing", (error) => error.code ?? error.name);

/** Calls without a session, a second close, and calls behind it. */
async function closed() {
  const talk = await Conversation.start({ program });
  same("a call without a session", [await talk.ask("f"), await talk.call("ask", { name: "f" })], [nobody(0), nobody(1)]);
  same("a call with too little", await settled(talk.call("askall").then((it) => it.roots)), []);
  same("a put without a text", await settled(talk.put("f")), { fault: "bad text", place: null });
  const asked = settled(talk.ask("f"));
  same("the end", await talk.close(), { status: 0, stderr: "" });
  same("what was asked before the close", await asked, { ...nobody(3), id: 4 });
  same("the end again", await talk.close(), { status: 0, stderr: "" });
  same("a call behind it", await settled(talk.ask("f")), { ended: { status: 0, stderr: "" } });
  const other = await Conversation.start({ program });
  const end = other.close();
  same("a call while it closes", await settled(other.ask("f")), { ended: null });
  same("that end", await end, { status: 0, stderr: "" });
}

/** What is no JSON, and a program that is not there. */
async function wrongUse() {
  const talk = await Conversation.start({ program });
  const circle = {};
  circle.of = circle;
  const wrong = [NaN, Infinity, 1n, () => 1, Symbol("x"), "\ud800", ["\udfff"], { "\ud800": 1 }, circle];
  same("members that are no JSON", await Promise.all(wrong.map((of) => settled(talk.call("ask", { name: "f", of })))), Array(9).fill({ "wrong use": true }));
  same("an id of the caller", await kind(talk.call("ask", { name: "f", id: 1 })), "TypeError");
  same("half a pair in a text", await kind(talk.put("f", "\ud800")), "TypeError");
  same("a session in words", await kind(talk.ask("f", { session: "0" })), "TypeError");
  same("a call behind them", await talk.ask("f"), nobody(0));
  await talk.close();
  same("no program", await kind(Conversation.start({ program: "/nowhere/nlldb" })), "ENOENT");
}

/** A client that sends much more than `serve` takes at once, with and without waiting for room. */
async function room() {
  const talk = await Conversation.start({ program });
  const text = RIGHT + " ".repeat(100_000);
  const puts = [];
  let most = 0;
  for (let count = 0; count < 300; count++) {
    puts.push(talk.put("f", text));
    await talk.room();
    most = Math.max(most, talk.process.stdin.writableLength);
  }
  same("what is kept in memory with room", most < 100_000, true);
  same("a last put", (await Promise.all(puts)).at(-1).number, 299);
  const waits = Array.from({ length: 64 }, () => [talk.put("f", text), talk.room()]).flat();
  await Promise.all(waits);
  talk.kill();
  await talk.room();
  same("the end", await talk.close(), { status: -9, stderr: "" });
}

/** Conversations over streams. */
async function streams() {
  const started = spawn(program, ["serve"], { stdio: ["pipe", "pipe", "inherit"] });
  const talk = Conversation.over(started.stdout, started.stdin);
  const exited = once(started, "exit");
  same("an answer over streams", (await talk.put("f", RIGHT)).reply, "added");
  same("the end of streams", [await talk.close(), (await exited)[0]], [{ status: null, stderr: "" }, 0]);

  const [reader, writer] = [new PassThrough(), new PassThrough()];
  const pieces = Conversation.over(reader, writer);
  const asked = [settled(pieces.ask("é")), settled(pieces.ask("f"))];
  const line = Buffer.from('{"id":0,"number":0,"outcome":{"kind":"é"},"session":0}\n{"id":1,"number":1,"outcome":null,"session":0}\n');
  for (const byte of line) reader.write(Buffer.of(byte));
  same("lines in pieces", await Promise.all(asked), [{ ...nobody(0), outcome: { kind: "é" } }, { ...nobody(1), outcome: null }]);
  reader.setEncoding("utf8");
  const third = settled(pieces.ask("f"));
  reader.write('{"id":2,"number":2,"outcome":null,"session":0}\n');
  same("a line in characters", await third, { ...nobody(2), outcome: null });
  const fourth = settled(pieces.ask("f"));
  reader.destroy(new Error("a reader that fails"));
  same("a reader that fails", [await fourth, await pieces.close()], [{ ended: { status: null, stderr: "" } }, { status: null, stderr: "" }]);

  const broken = new PassThrough();
  const unwritten = Conversation.over(new PassThrough(), broken);
  broken.destroy(new Error("a writer that fails"));
  same("a writer that fails", await settled(unwritten.ask("f")), { ended: { status: null, stderr: "" } });
}

/** The client closes its end of the output and goes on sending. */
async function closedOutput() {
  const started = spawn(program, ["serve"], { stdio: ["pipe", "pipe", "pipe"] });
  const exited = once(started, "close");
  const said = started.stderr.setEncoding("utf8").toArray();
  const talk = Conversation.over(started.stdout, started.stdin);
  same("an answer before the output is closed", await talk.ask("f"), nobody(0));
  const asked = [settled(talk.ask("f"))];
  started.stdout.destroy();
  asked.push(settled(talk.ask("f")));
  const ended = { ended: { status: null, stderr: "" } };
  same("what is not answered", await Promise.all(asked), [ended, ended]);
  await talk.close();
  same("how `serve` ends", [(await exited)[0], (await said).join("")], [3, "cannot write\n"]);
}

/** A program that answers nothing, and is killed. */
async function killed() {
  const talk = await Conversation.start({ program: [...actor, '[["wait"]]'] });
  const asked = settled(talk.ask("f"));
  const end = talk.close();
  setTimeout(() => talk.kill(), 200);
  same("an end by force", [await asked, await end], [{ ended: { status: -9, stderr: "" } }, { status: -9, stderr: "" }]);
}

for await (const line of createInterface({ input: process.stdin })) {
  tell(await held(JSON.parse(line)).catch((error) => [String(error)]));
}
for (const part of [closed, wrongUse, room, streams, closedOutput, killed]) {
  await inTime(part()).catch((error) => same(part.name, String(error), "its end"));
}
process.exit();
