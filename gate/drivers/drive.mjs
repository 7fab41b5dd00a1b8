// Drives the client for Node: gate/try_client says how.
import readline from "node:readline";
import { CallError, connect, Expired, Failed, Lost, NoServer, Refused, Rejected, Cancelled, read, written } from "../../clients/node/pathclient.mjs";

const WORDS = [[Refused, "refused"], [Failed, "failed"], [Cancelled, "cancelled"], [Rejected, "no"], [NoServer, "no server"], [Expired, "expired"],
  [Lost, "lost"]];
const say = (line) => process.stdout.write(`${line}\n`);
const done = (reply) => (reply === undefined ? "done" : `done ${written(reply)}`);

let message = "";
function told(error) {
  if (!(error instanceof CallError)) throw error;
  message = error.message;
  const [, word] = WORDS.find(([kind]) => error instanceof kind);
  return ["refused", "failed", "no"].includes(word) ? `${word} ${error.word}` : word;
}

function call(it, line) {
  const [, within, operation, rest] = /^call (\d+) (\S+) ?(.*)$/.exec(line);
  const args = (rest.match(/'(?:[^']|'')*'|\d+/g) ?? []).map(read);
  return it.call(operation, args, { within: Number(within) || undefined }).then(done, told);
}

let it;
let ahead = [], left = 0;
say("can values within name ahead tells host pauses alive");
for await (const line of readline.createInterface({ input: process.stdin })) {
  const [word, ...words] = line.split(" ");
  if (left) {
    ahead.push(line);
    left -= 1;
    // (all at once: a connection that breaks meanwhile has each of them)
    if (!left) for (const answer of ahead.splice(0).map((text) => call(it, text))) say(await answer);
  } else if (word === "open") {
    await it?.close();
    it = undefined;
    const [place, name, wait, client] = words;
    try {
      it = await connect(/[/:]/.test(place) ? place : Number(place), name, { wait: Number(wait), client: client === "-" ? undefined : client });
      say("opened");
    } catch (error) {
      say(told(error));
    }
  } else if (word === "call") say(await call(it, line));
  else if (word === "ahead") left = Number(words[0]);
  else if (word === "told") say(message);
  else {
    await it.close();
    it = undefined;
    const timers = process.getActiveResourcesInfo().filter((kind) => kind === "Timeout").length;
    say(timers ? `closed, and it left ${timers} timers` : "closed");
  }
}
await it?.close();
