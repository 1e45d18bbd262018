// This page's conversation with the desk: lines go out, answers come back.
const FOLLOWED = ["picture", "lag", "inputs", "movie", "history"]; // bytes follow these answers; the last word is their number
const decoder = new TextDecoder();
let lease;

/** The server, or the desk behind it, can't answer any more. */
export class Lost extends Error {}

async function post(path, body) {
  const answer = await fetch(path, { method: "POST", body }).catch(() => { throw new Lost("The server of this page has ended. Its folder has end.movie, or, where it was cut off, a journal."); });
  if (answer.ok) return answer;
  throw new (answer.status === 500 ? Error : Lost)(await answer.text());
}

/** Takes a seat at the desk, and returns its number. It is given up when the page is left. */
export async function sit() {
  const words = (await (await post("sit")).text()).split(" ");
  lease = words[0];
  addEventListener("pagehide", () => navigator.sendBeacon(`${lease}/leave`));
  return Number(words[1]);
}

/** The answers to some lines, each with its words and the bytes that follow it. */
export async function ask(...lines) {
  const bytes = new Uint8Array(await (await post(`${lease}/ask`, lines.join("\n") + "\n")).arrayBuffer()), answers = [];
  for (let at = 0, next; at < bytes.length; at = next) {
    const end = bytes.indexOf(10, at), words = decode(bytes.subarray(at, end)).split(" ");
    next = end + 1 + (FOLLOWED.includes(words[0]) ? Number(words.at(-1)) : 0);
    answers.push({ words, bytes: bytes.subarray(end + 1, next) });
  }
  return answers;
}

export const decode = bytes => decoder.decode(bytes);
export const lines = bytes => decode(bytes).split("\n").slice(0, -1);

/** Makes lines as one edit of a movie of so many edits; returns the words of what refuses it, or of `commit`. */
export const edit = async (at, lines) => decode(await (await post(`${lease}/edit`, [at, ...lines, ""].join("\n"))).arrayBuffer()).trimEnd().split(" ");

/** Has the server save the movie, or write a film of some frames; returns what it says. */
export const save = async () => (await post(`${lease}/save`)).text();
export const film = async (from, to) => (await post(`${lease}/film`, `${from} ${to}`)).text();

/** A refusal, and what it says in words. */
export function refusal(words) {
  const [first, at, second, last] = words, said = {
    full: `a movie takes at most 1,000,000 edits, and ${at} were made`, long: `the movie would have more than 262,144 frames; it has ${last}`,
    place: `this reaches past the movie's end: it has ${last} frames`, no: at === "frame" ? `the movie has ${words[4]} frames` : "no draft is open",
    halted: `the machine has halted in this frame or before it, at address ${second} by the undocumented byte ${last}`,
    moved: `others have edited the movie; it has ${at} edits now`, in: "a draft is open",
    out: "the desk got no memory for it", unknown: "the desk doesn't understand the line",
  }[first];
  return `${words.join(" ")} – ${said}.`;
}
