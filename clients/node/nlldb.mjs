/**
 * A client for conversations with `nlldb serve`: one file for Node.js 18 or newer, which needs no package.
 *
 *     import { Conversation, Fault } from "./nlldb.mjs";
 *
 *     const talk = await Conversation.start({ program: "nlldb" });
 *     console.log((await talk.put("one", "fn () -> int { bb0 { _0 = 1; return; } }")).reply);
 *     const answers = await Promise.all(Array.from({ length: 1000 }, () => talk.ask("one")));
 *     console.log(JSON.stringify(answers[999].outcome));
 *     await talk.put("one", "fn () -> int { bb0 { _0 = 1 return; } }").catch((fault) => {
 *       console.log(fault instanceof Fault, fault.message);
 *     });
 *     console.log((await talk.close()).status);
 *
 * docs/user/conversation.md says what each call does, and what its answer has. An answer is the object of JSON that came, so that members of later versions
 * are in it too, and `call` makes calls that have no method here.
 *
 * Each method sends its request at once and returns the promise of its answer; the answers of one session come in the order of its requests. Answers are read
 * as they come, whatever the caller waits for, and requests that `serve` does not take yet are kept in memory. So neither ever waits for the other for good.
 * A client that sends very much awaits `room()` now and then.
 *
 * @typedef {{kind: "conflict", at: string, access: number, loan: string, chain: string[]}} Conflict
 * @typedef {{kind: "lifetime", longer: number, shorter: number, chain: string[]}} Lifetime
 * @typedef {{name: string, errors: (Conflict | Lifetime)[]}} Body
 * @typedef {{kind: "report", bodies: Body[]}} Report
 * @typedef {{kind: "missing", name: string}} Missing
 * @typedef {{kind: "ill", name: string, at: string}} Ill
 * @typedef {{kind: "badtypes", index: number}} BadTypes
 * @typedef {{kind: "nobody"}} NoBody
 * @typedef {Report | Missing | Ill | BadTypes | NoBody} Outcome
 * @typedef {{name: string, outcome: Outcome}} Root
 * @typedef {"stored" | "added" | "replaced" | "full" | "wrongkind" | "removed" | "absent"} Reply
 * @typedef {{id: number, session: number, number: number, reply: Reply}} Written
 * @typedef {{id: number, session: number, number: number, outcome: Outcome}} Asked
 * @typedef {{id: number, session: number, number: number, roots: Root[]}} AskedAll
 * @typedef {{id: number, session: number, outcome: Outcome | null}} Glanced
 * @typedef {{at: number, line: number, column: number}} Place a byte from 0, a line from 1, and a column from 1, in bytes
 * @typedef {{status: number | null, stderr: string}} End null over streams, negative if a signal ended the program
 * @typedef {{session?: number}} In the session that makes a call, 0 if absent
 */
import { spawn } from "node:child_process";
import { constants } from "node:os";

/** A line of more bytes is answered without its id and its session. */
const MOST_LINE = 4_194_304;
/** How deep members may nest. `serve` answers a line that nests deeper without its id. */
const MOST_DEPTH = 100;
/** The member that the answer to a call has, unless it is a fault. */
const MEMBERS = { types: "reply", put: "reply", remove: "reply", ask: "outcome", askall: "roots", glance: "outcome" };

/** A request was answered with a fault: its `words`, its `place` in the text if the answer has one (else null), and the whole `answer`. */
export class Fault extends Error {
  constructor(answer, call) {
    const { at, line, column } = answer;
    const place = [at, line, column].every(Number.isInteger) ? { at, line, column } : null;
    super(`${call}: ${answer.fault}${place ? ` at line ${line}, column ${column}` : ""}`);
    this.name = "Fault";
    Object.assign(this, { answer, call, words: String(answer.fault), place });
  }
}

/** The conversation ended before the request was answered, which may have been made. `end` says how, null if that is not known. */
export class Ended extends Error {
  constructor(end = null) {
    super(`the conversation has ended${end ? `, with status ${end.status}: ${end.stderr.trim() || "nothing on standard error"}` : ""}`);
    this.name = "Ended";
    this.end = end;
  }
}

/** The program wrote a `line` of bytes that answers no request. Nothing that comes later can be relied on, so this ends the conversation. */
export class Unexpected extends Error {
  constructor(line) {
    super(`a line that answers no request: ${line.subarray(0, 200)}`);
    this.name = "Unexpected";
    this.line = line;
  }
}

/** Throws for bytes that are no UTF-8. */
const decoder = new TextDecoder("utf-8", { fatal: true, ignoreBOM: true });

/** Throws for a value that `serve` would not read, and so would answer without an id. */
function check(value, depth = 0) {
  if (depth > MOST_DEPTH) throw new RangeError(`a member nests over ${MOST_DEPTH} deep`);
  if (typeof value === "string" && /\p{Surrogate}/u.test(value)) throw new TypeError("a string has half a surrogate pair");
  if (typeof value === "number" && !Number.isFinite(value)) throw new TypeError(`${value} is no JSON`);
  if (["bigint", "function", "symbol"].includes(typeof value)) throw new TypeError(`a ${typeof value} is no JSON`);
  if (typeof value === "object" && value !== null) {
    for (const [key, it] of Object.entries(value)) {
      check(key);
      check(it, depth + 1);
    }
  }
}

/** A conversation with a program `nlldb serve` (`start`), or over given streams (`over`). */
export class Conversation {
  /** How many milliseconds a program may take to end after its output has ended. Then it is killed. */
  static grace = 5000;
  /** The program, null over streams. */
  process;
  #writer;
  /** The requests that wait for their answers by their ids, in the order in which they were sent. */
  #sent = new Map();
  #next = 0;
  /** The pieces of a line that has not come to its end. */
  #pieces = [];
  /** Makes what a request is rejected with that can no longer be answered. */
  #failure = null;
  #isClosed = false;
  #stderr = [];
  #room = null;
  #ended;

  /**
   * Starts the program, or the words of a command, with `serve` and these options. Rejects if it cannot be started.
   * @param {{program?: string | string[], sessions?: number, solver?: string, capacity?: number, options?: string[]}} how
   * @returns {Promise<Conversation>}
   */
  static async start({ program = "nlldb", sessions, solver, capacity, options = [] } = {}) {
    const [command, ...words] = [program].flat();
    const named = { "--sessions": sessions, "--solver": solver, "--capacity": capacity };
    const chosen = Object.entries(named).flatMap(([option, value]) => (value === undefined ? [] : [option, String(value)]));
    const started = spawn(command, [...words, "serve", ...chosen, ...options], { stdio: "pipe" });
    await new Promise((resolve, reject) => started.once("spawn", resolve).once("error", reject));
    return new Conversation(started.stdout, started.stdin, started);
  }

  /**
   * Converses over streams of bytes: answers are read from `reader` up to its end, and `close` ends `writer`.
   * @param {import("node:stream").Readable} reader
   * @param {import("node:stream").Writable} writer
   */
  static over(reader, writer) {
    return new Conversation(reader, writer, null);
  }

  /** Use `start` or `over`. */
  constructor(reader, writer, started) {
    this.process = started;
    this.#writer = writer;
    reader.on("data", (piece) => this.#hear(typeof piece === "string" ? Buffer.from(piece) : piece));
    const heard = new Promise((resolve) => {
      for (const event of ["end", "error", "close"]) reader.once(event, resolve);
      // (a program whose input cannot be written is about to end its output, too)
      writer.on("error", () => setTimeout(resolve, Conversation.grace).unref());
    });
    this.#ended = this.#finish(heard, started && this.#watch(started));
  }

  /** Stores declarations in place of all before. @param {string} text @param {In} [how] @returns {Promise<Written>} */
  types(text, how) {
    return this.#send("types", { text }, how);
  }

  /** Stores a unit in place of the body of this name. @param {string} name @param {string} text @param {In} [how] @returns {Promise<Written>} */
  put(name, text, how) {
    return this.#send("put", { name, text }, how);
  }

  /** Removes the body of this name. @param {string} name @param {In} [how] @returns {Promise<Written>} */
  remove(name, how) {
    return this.#send("remove", { name }, how);
  }

  /** Finds the outcome of this name. @param {string} name @param {In} [how] @returns {Promise<Asked>} */
  ask(name, how) {
    return this.#send("ask", { name }, how);
  }

  /** Finds the outcomes of all functions that are stored. @param {In} [how] @returns {Promise<AskedAll>} */
  askall(how) {
    return this.#send("askall", {}, how);
  }

  /** Reads the published outcome of this name, without waiting for another session. @param {string} name @param {In} [how] @returns {Promise<Glanced>} */
  glance(name, how) {
    return this.#send("glance", { name }, how);
  }

  /** Makes any call with these members, such as one of a later version. @param {string} call @param {object} [members] @param {In} [how] */
  async call(call, members = {}, how) {
    if ("id" in members) throw new TypeError("the client chooses the id");
    return this.#send(call, members, how);
  }

  /** Resolves once the streams of this process have room for more requests, or the conversation has ended. */
  async room() {
    while (this.#writer.writableNeedDrain && !this.#failure) {
      this.#room ??= new Promise((resolve) => this.#writer.once("drain", resolve));
      await Promise.race([this.#room, this.#ended]);
      this.#room = null;
    }
  }

  /**
   * Ends the input, and resolves once what is left is answered and the program has ended, with how it ended. It may be called again.
   * @returns {Promise<End>}
   */
  close() {
    this.#isClosed = true;
    this.#writer.end();
    return this.#ended;
  }

  /** Kills the program, if one was started. Requests without an answer are rejected with `Ended`. */
  kill() {
    this.process?.kill("SIGKILL");
  }

  /** Sends a request, and returns the promise of its answer. */
  async #send(call, members, { session = 0 } = {}) {
    if (!Number.isSafeInteger(session) || session < 0) throw new TypeError(`a session is a whole number from 0, and not ${String(session)}`);
    check(members);
    if (this.#failure) throw this.#failure();
    if (this.#isClosed) throw new Ended();
    const id = this.#next++;
    const line = JSON.stringify({ ...members, id, call, session });
    const answer = new Promise((resolve, reject) => {
      this.#sent.set(id, { call, session, isLong: Buffer.byteLength(line) > MOST_LINE, resolve, reject });
    });
    this.#writer.write(`${line}\n`);
    return answer;
  }

  /** Takes the lines that end in a piece of the output. */
  #hear(piece) {
    let from = 0;
    for (let at = piece.indexOf(10); at >= 0; at = piece.indexOf(10, from)) {
      const line = Buffer.concat([...this.#pieces, piece.subarray(from, at)]);
      this.#pieces = [];
      from = at + 1;
      this.#take(line);
    }
    this.#pieces.push(piece.subarray(from));
  }

  /** Hands a line to the request that it answers. */
  #take(line) {
    let answer = null;
    try {
      answer = JSON.parse(decoder.decode(line));
    } catch {
      // (it answers nothing)
    }
    const request = typeof answer === "object" && answer !== null ? this.#requestOf(answer) : undefined;
    if (!request) {
      this.#fail(() => new Unexpected(line));
    } else if ("fault" in answer) {
      request.reject(new Fault(answer, request.call));
    } else {
      request.resolve(answer);
    }
  }

  /** Takes the request that an answer answers, if there is one, from those that wait. */
  #requestOf(answer) {
    const { session = null } = answer;
    const isFault = "fault" in answer;
    let id = answer.id ?? null;
    // (memory was refused for the first one of its session, or a line was too long to be read)
    if (id === null && isFault) id = this.#first((request) => (session === null ? request.isLong : request.session === session));
    const request = this.#sent.get(id);
    const isIts = request && (session === request.session || (session === null && isFault));
    if (!isIts || !(isFault || (MEMBERS[request.call] ?? "id") in answer)) return undefined;
    this.#sent.delete(id);
    return request;
  }

  /** The id of the first request that waits and is as asked, or null. */
  #first(isIt) {
    for (const [id, request] of this.#sent) if (isIt(request)) return id;
    return null;
  }

  /** Has all requests that wait fail, and all later ones, unless these have a reason already. */
  #fail(failure) {
    this.#failure ??= failure;
    const left = [...this.#sent.values()];
    this.#sent.clear();
    for (const request of left) request.reject(failure());
  }

  /** Keeps what the program says on standard error, and resolves to its status once it has ended. */
  #watch(started) {
    started.stderr.on("data", (piece) => this.#stderr.push(piece));
    started.on("error", () => {});
    return new Promise((resolve) => started.once("close", (status, signal) => resolve(status ?? -constants.signals[signal])));
  }

  /** Waits for the end of the output, and of the program, and has what is left fail. */
  async #finish(heard, exited) {
    let status = null;
    await heard;
    if (exited) {
      const killing = setTimeout(() => this.kill(), Conversation.grace);
      status = await exited;
      clearTimeout(killing);
    }
    const end = { status, stderr: Buffer.concat(this.#stderr).toString() };
    this.#fail(() => new Ended(end));
    return end;
  }
}
