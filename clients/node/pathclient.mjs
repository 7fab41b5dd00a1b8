/**
 * Calls operations of an object that `pathserve keep` or `pathserve serve` serves.
 *
 *     import { connect, Refused } from "./pathclient.mjs";
 *     const book = await connect(7000, "phone_book", { client: "ann" });
 *     await book.enter("ada", "12 34");
 *     console.log(await book.number_of("ada"));
 *     await book.close();
 *
 * An object is one session: its calls are done one after the other, in the order in which they were made, and sent ahead.
 * Integers and texts are numbers and strings; a procedure gives undefined. `book.call("number_of", ["ada"], { within: 5000 })`
 * has a call cancelled that still waits after 5 seconds, and ends two seconds later at the latest. With a name (`client`) each
 * call has a key: where the connection breaks, the object comes back and asks again, and each call is done once. Without one a
 * broken connection is Lost for all calls that were sent. The next call makes a new one. A server is at a port of this machine,
 * at `host:port`, or at the path of a socket.
 */
import net from "node:net";
import { getSystemErrorMap } from "node:util";

/** There is no reply. The call has changed nothing, unless this is Lost. `word` says why, `text` what the server says of it for people. */
export class CallError extends Error {
  constructor(/** @type {string} */ word, /** @type {string} */ call = "", /** @type {string} */ text = "") {
    super([word, call, text].filter(Boolean).join(": "));
    this.word = word; this.text = text;
  }
}
/** The body said no. */ export class Refused extends CallError {}
/** A fault stopped the call: `device`, `memory` or `damaged`. */ export class Failed extends CallError {}
/** The call waited, and was cancelled. */ export class Cancelled extends CallError {}
/** The server did not take the call, or did not open the object: `UnknownOp`, `BadArgs`, `InUse` .. */ export class Rejected extends CallError {}
/** No server answered, so nothing was called. Where this user may not connect, that is said at once. */ export class NoServer extends CallError {}
/** It is not known whether the call was done. */ export class Lost extends CallError {}
/** The session of this name is not as this client left it: given up, used by somebody else, or what it held was given back meanwhile. */ export class Expired extends Lost {}
/** @typedef {number | string} Value @typedef {Value | undefined} Reply */
/** @typedef {{ client?: string, wait?: number, host?: string }} Options */
/** @typedef {{ answer?: string, why?: string, isSilent?: boolean, isBarred?: boolean }} Came */
/** @typedef {{ text: string, number: string, sent?: boolean, known?: boolean, stale?: boolean, over?: boolean,
 *   resolve: (reply: Reply) => void, reject: (error: CallError) => void }} Asked */
const ENDS = new Map([["refused", Refused], ["failed", Failed], ["cancelled", Cancelled]]);
// A line of a server has some 2,100 bytes; a server knows the last 16 calls of a name; times are in milliseconds.
const LONGEST = 4096, AHEAD = 16, TRIES = 10, ANSWERS = 2000, AGAIN = 20, SOON = 50, LATE = 1000, ALIVE = 10000;
/** @param {number} tries to reach a server, and how long to wait behind them: at random, so that not all clients come back together */
const pause = (tries) => SOON + Math.random() * (Math.min(SOON * 2 ** tries, LATE) - SOON);
/** @param {string} answer `no WORD`, or `no WORD TEXT` @returns {[string, string]} the word, and the text for people */
function refusal(answer) {
  const [, word = "", text = ""] = /^(?:no )?(\S*) ?(.*)$/.exec(answer) ?? [];
  return [word, text];
}
/** @param {number | string} place @param {string} host of a port alone @returns {net.NetConnectOpts} */
function placed(place, host) {
  const [, before = host, port] = /^(?:([^/]*):)?(\d+)$/.exec(String(place)) ?? [];
  return port === undefined ? { path: String(place) } : { host: before.replace(/^\[(.*)\]$/, "$1"), port: Number(port) };
}
/** @param {any} error of a connection that was not made @returns {string} what the system says of it */
function words(error) {
  const one = error.errors?.[0] ?? error;
  return getSystemErrorMap().get(one.errno)?.[1] ?? one.message;
}
/** @param {string} name returned as long as it is a name */
function named(name) {
  if (!/^[A-Za-z][A-Za-z0-9_]{0,63}$/.test(name)) throw new RangeError(`${name} is no name: a letter, then 63 letters, digits and _ at most`);
  return name;
}
/** @param {Value} value an argument, returned as the server reads it */
export function written(value) {
  if (typeof value === "number" && Number.isInteger(value) && value >= 0 && value < 2 ** 32) return String(value);
  if (typeof value === "string" && /^[ -~]{0,1000}$/.test(value)) return `'${value.replaceAll("'", "''")}'`;
  throw new RangeError(`${value} is no integer from 0 to 4294967295, and no text of at most 1000 characters from ' ' to '~'`);
}
/** @param {string} text a value that the server wrote @returns {Value} */
export function read(text) {
  if (text.startsWith("'")) return text.slice(1, -1).replaceAll("''", "'");
  if (!/^\d+$/.test(text)) throw new Lost(`the server wrote ${text}`);
  return Number(text);
}

/** A session: its calls without a last line, of which the first has #key; those of them that this connection is to answer. */
export class PathObject {
  #asked = /** @type {Asked[]} */ ([]);
  #sent = /** @type {Asked[]} */ ([]);
  #socket = /** @type {net.Socket | null} */ (null);
  #key = 0; #tries = 0; #closed = false; #opening = false;
  /** Ends the pause between two tries. */
  #wake = () => {};
  /** How many calls were given up that the server may have done: so far the next key may be past this one; any, where it is below 0. */
  #givenUp = -1;

  /** Of the server at a port of `host`, at `host:port`, or at the path of a socket, which is tried for `wait` milliseconds.
   * @param {number | string} place @param {string} name @param {Options} options */
  constructor(place, name, { client, wait = 10000, host = "127.0.0.1" } = {}) {
    this.opens = `open ${named(name)}${client === undefined ? "" : ` as ${named(client)}`}`;
    this.hasName = client !== undefined; this.wait = wait; this.at = placed(place, host);
  }
  /** Opens the object on a new connection. */
  async open() {
    const end = Date.now() + this.wait, count = this.hasName && this.#asked.filter((it) => it.sent).length, key = this.#key;
    const at = "path" in this.at ? this.at.path : `${this.at.host}:${this.at.port}`;
    let answer = /** @type {string | undefined} */ (undefined);
    for (let tries = 1; ; tries++) {
      const came = /** @type {Came} */ (this.#closed ? { why: "closed" } : await this.#attempt(end));
      if ((answer = came.answer) !== undefined) break;
      // (what was sent is asked for as long as it may be, also where nobody may connect for a moment)
      if (this.#closed || Date.now() >= end || came.isBarred && !count)
        throw new NoServer(came.isSilent ? `the server at ${at} says nothing: it may have as many clients as it takes` : `no server answers at ${at}: ${came.why}`);
      await this.#pause(Math.min(pause(tries), Math.max(end - Date.now(), 0)));
    }
    const next = Number(answer.split(" next ")[1]), [word, text] = refusal(answer);
    const error = !answer.startsWith("opened ") ? new Rejected(word, this.opens, text)
      : count && !(next >= key && next <= key + count) ? new Expired("the session is not as it was left")
      : this.hasName && !count && this.#givenUp >= 0 && next > key + this.#givenUp ? new Expired("the name has called meanwhile")
      : count && next === 1 ? new NoServer("the server may have been started anew, and have no keys") : undefined;
    if (error) { this.#socket?.destroy(); this.#socket = null; this.#givenUp = -1; throw error; }
    this.#givenUp = 0;
    if (!count) this.#key = next; else this.#asked.forEach((it, place) => { it.known = place < next - key; });
  }
  /** @param {number} time for which it is waited, or up to `close` */
  #pause(time) {
    return /** @type {Promise<void>} */ (new Promise((done) => {
      const timer = setTimeout(done, time);
      this.#wake = () => { clearTimeout(timer); done(); };
    }));
  }
  /** The answer to `open` on a new connection, or why there is none. While the name is in use it is said again.
   * @param {number} end the time until which it is waited for
   * @returns {Promise<Came>} */
  #attempt(end) {
    return new Promise((done) => {
      const socket = this.#socket = net.connect(this.at).setNoDelay(true);
      const begin = () => socket.write(`${this.opens}\n`);
      let rest = "", isOpen = false, isSilent = false, inUse = "", why = "it ends the connection", isBarred = false;
      let again = /** @type {NodeJS.Timeout | undefined} */ (undefined);
      const timer = setTimeout(() => { isSilent = true; socket.destroy(); }, Math.max(end - Date.now(), 1000));
      const answered = (/** @type {string} */ answer) => { isOpen = true; clearTimeout(timer); done({ answer }); };
      socket.on("connect", () => { socket.setKeepAlive(true, ALIVE); begin(); }).on("error", (/** @type {any} */ error) => {
        why = words(error);
        isBarred = ["EACCES", "EPERM"].includes(error.code);
      }).on("close", () => {
        clearTimeout(timer); clearTimeout(again);
        done(isSilent && inUse ? { answer: inUse } : { why, isSilent, isBarred });
        if (isOpen && this.#socket === socket) this.#broke(new Lost("the server is gone"));
      }).on("data", (piece) => {
        const lines = (rest + piece.toString("latin1")).split("\n");
        rest = lines.pop() ?? "";
        if (rest.length > LONGEST) socket.destroy();
        for (const line of lines) {
          if (!isOpen && line.startsWith("no ") && refusal(line)[0] === "InUse" && Date.now() + AGAIN < end) { inUse = line; again = setTimeout(begin, AGAIN); }
          else if (!isOpen) answered(line);
          else if (this.#socket === socket) try { this.#hear(line); this.#push(); } catch (error) { this.#broke(/** @type {any} */ (error)); }
        }
      });
    });
  }
  /** Sends what is to be sent, over a new connection where there is none. */
  #push() {
    if (!this.#asked.length || this.#opening) return;
    // (what nobody could hear is not sent)
    if (this.#socket && !this.#sent.length && this.#socket.readyState !== "open") { this.#socket.destroy(); this.#socket = null; }
    if (!this.#socket) {
      const end = (/** @type {CallError | undefined} */ error) => { this.#opening = false; error ? this.#broke(error) : this.#push(); };
      this.#opening = true;
      return void this.open().then(() => end(undefined), end);
    }
    for (let place = this.#sent.length; place < Math.min(this.#asked.length, AHEAD) && !this.#sent[0]?.stale; place++) {
      this.#sent.push(Object.assign(this.#asked[place], { sent: true }));
      this.#socket.write(`call ${this.hasName ? `#${this.#key + place} ` : ""}${this.#asked[place].text}\n`);
    }
  }
  /** @param {string} line which the server wrote */
  #hear(line) {
    let [kind, number, ...rest] = line.split(" ");
    const it = this.#sent[0];
    if (kind === "cancel") return;
    if (it && !it.number && kind === "no") return this.#refuse(it, number, rest.join(" "));
    if (it && !it.number && kind === "accepted" && !it.stale) {
      it.number = number;
      return void (it.over && this.#socket?.write(`cancel ${number}\n`));
    }
    const isRepeat = it && !it.number && kind === "repeat" && this.hasName;
    if (isRepeat) [kind, , ...rest] = [number, ...rest];
    const text = rest.join(" "), Kind = ENDS.get(kind);
    if (!it || !isRepeat && (!it.number || number !== it.number) || !Kind && kind !== "done") throw new Lost(`the server wrote ${line}`);
    const reply = Kind || !text ? undefined : read(text);
    this.#sent.shift(); this.#asked.shift(); this.#key++; this.#tries = 0;
    if (Kind) it.reject(new Kind(text, it.text)); else it.resolve(reply);
  }
  /** @param {Asked} it answered by `no`, which takes no key: those behind are stale, answered by `no`, and sent anew
   * @param {string} word @param {string} said for people */
  #refuse(it, word, said) {
    if (!it.stale && word === "KeyReused") throw new Expired("somebody else has called by the name");
    if (it.known) throw new Lost(`the server has the call, and wrote no ${word}`);
    this.#sent.shift();
    if (it.stale) return it.stale = it.sent = false, void (it.over && this.#leave(it));
    this.#asked.shift();
    for (const behind of this.#sent) behind.stale = this.hasName;
    it.reject(new Rejected(word, it.text, said));
    if (word === "LineTooLong") throw new Lost("the server has ended the session");
  }
  /** @param {Asked} it a call that was not sent, which is ended */
  #leave(it) { this.#asked.splice(this.#asked.indexOf(it), 1); it.reject(new Cancelled("", it.text)); }
  /** @param {CallError} error why the connection broke: it comes back with what can be asked again, and ends the rest */
  #broke(error) {
    this.#socket?.destroy(); this.#socket = null;
    for (const it of this.#sent.splice(0)) Object.assign(it, { sent: !it.stale, number: "", stale: false, known: false });
    if (this.hasName && error.constructor === Lost && !this.#closed && ++this.#tries < TRIES) {
      if (this.#tries === 1) return this.#push();
      this.#opening = true;
      return void this.#pause(pause(this.#tries)).then(() => { this.#opening = false; this.#push(); });
    }
    this.#tries = 0;
    if (error instanceof Expired) this.#givenUp = -1; else if (this.#givenUp >= 0) this.#givenUp += this.#asked.filter((it) => it.sent).length;
    for (const it of this.#asked.splice(0)) {
      const [lost, other] = error instanceof Expired ? [Expired, Expired] : error instanceof Lost ? [error.constructor, NoServer] : [Lost, error.constructor];
      it.reject(new /** @type {any} */ (it.sent || this.#closed ? lost : other)(error.word, it.text, error.text));
    }
  }
  /** Calls an operation: its reply, or what is thrown in place of it.
   * @param {string} operation @param {Value[]} [args] @param {{ within?: number }} options @returns {Promise<Reply>} */
  async call(operation, args = [], { within } = {}) {
    const text = [named(operation), ...args.map(written)].join(" ");
    let timer = /** @type {NodeJS.Timeout | undefined} */ (undefined);
    if (this.#closed) throw new Lost("closed", text);
    return new Promise((resolve, reject) => {
      const it = /** @type {Asked} */ ({ text, number: "", resolve, reject });
      const lost = () => { reject(new Lost("the server says nothing", text)); this.#broke(new NoServer("the server says nothing")); };
      if (within !== undefined) timer = setTimeout(() => {
        it.over = true;
        if (it.number) this.#socket?.write(`cancel ${it.number}\n`);
        if (it.sent) timer = setTimeout(lost, ANSWERS); else this.#leave(it);
      }, within);
      this.#asked.push(it);
      this.#push();
    }).finally(() => clearTimeout(timer));
  }
  /** Leaves the object, for good. A call that has not ended is Lost. */
  async close() {
    const socket = this.#socket; this.#closed = true;
    this.#wake();
    if (socket && !this.#asked.length) {
      socket.write("quit\n");
      await new Promise((done) => {
        const timer = setTimeout(done, ANSWERS);
        socket.once("close", () => { clearTimeout(timer); done(undefined); });
      });
    }
    this.#broke(new Lost("closed"));
  }
}
/** @param {number | string} place @param {string} name @param {Options} [options] of an object that is opened; its operations are methods */
export async function connect(place, name, options) {
  const it = new PathObject(place, name, options);
  await it.open();
  return new Proxy(/** @type {any} */ (it), { get(own, key) {
    if (typeof own[key] === "function") return own[key].bind(it);
    return typeof key !== "string" || key in own || key === "then" ? own[key] : (/** @type {Value[]} */ ...args) => it.call(key, args);
  } });
}
