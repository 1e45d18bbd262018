// The page: it holds a copy of the movie, and asks the desk one thing at a time, the most urgent one first.
import { Lost, ask, decode, edit, film, lines, refusal, save, sit } from "./desk.js";
import { Movie, along, carry, parse, runs, script, step, text, told } from "./movie.js";
import { Roll } from "./roll.js";

const FAR = 1024; // a longer way is played in steps of so many frames, between which one can turn back
const STRIP = 24; // pictures that are asked for at once
const $ = id => document.getElementById(id);
const make = (tag, ...parts) => Object.assign(document.createElement(tag), ...parts);
const screen = $("picture").getContext("2d"), image = screen.createImageData(160, 210), dots = new DataView(image.data.buffer);

// What is shown. In a draft `movie` is the draft's, and `base` the desk's. `lag` is 0 where it isn't known, 1 for a frame that reads its input, else 2.
const view = {
  movie: new Movie(), base: null, draft: null, cursor: 0, anchor: 0, column: 0, states: [0], lag: new Uint8Array(262145), others: [], scrolled: 0,
  get from() { return Math.min(this.cursor, this.anchor); },
  get to() { return Math.min(Math.max(this.cursor, this.anchor) + 1, this.movie.length); },
};
const shown = { frame: -1, ram: -1, read: 0, states: -1 }; // the frames that the picture and RAM are of; when RAM and the states were asked for
const album = new Map(); // the answers with pictures that still hold, of at most 300 frames
const player = { on: false, next: 0, due: 0, told: 0 }; // the first frame to ask for, and the first one to show; when the roll was drawn
const wishes = []; // what the reader wants to have changed, and hasn't been done yet
let at = 0, seat, filled = -1, heard = 0, moved = 0, way = 0, wake = () => {}, past = { undo: [], redo: [] }, doing = null, news = [];

const roll = new Roll($("roll"), view, {
  select: move,
  stroke({ column, from, to, press }) { hold(press, Math.min(from, to), Math.max(from, to) + 1, column); },
});

const say = (words, good = false) => { $("words").textContent = words; $("words").classList.toggle("good", good); };

function tell() {
  const { movie, cursor, draft, from, to } = view;
  view.others = view.others.filter(({ until }) => until > performance.now());
  $("status").textContent = [`frame ${cursor} of ${movie.length}`, cursor < movie.length ? text(movie.frames[cursor]) : "the end",
    ...(to - from > 1 ? [`${to - from} selected`] : []), `edit ${at}`, `seat ${seat}`].join("  ");
  if (document.activeElement !== $("goto")) $("goto").value = cursor;
  $("play").textContent = player.on ? "Stop" : "Play";
  $("fill").setAttribute("aria-pressed", filled >= 0);
  document.body.classList.toggle("draft", !!draft);
  $("draft").textContent = draft ? `Draft of ${draft.steps.length} change${draft.steps.length === 1 ? "" : "s"}: nobody else sees it until you commit it.`
    + (at > draft.at ? " Others have edited the movie since: it will be put on theirs." : "") : "";
  for (const [id, off] of [["undo", !past.undo.length], ["redo", !past.redo.length], ["save", draft], ["film", draft]]) $(id).disabled = !!off;
  roll.draw();
}

function show(frame, { words, bytes } = album.get(frame)) {
  if (words[0] === "picture") {
    for (let from = 15, to = 0; from < bytes.length; from += 3, to += 4) dots.setUint32(to, bytes[from] << 24 | bytes[from + 1] << 16 | bytes[from + 2] << 8 | 255);
    screen.putImageData(image, 0, 0);
  } else screen.clearRect(0, 0, 160, 210);
  $("over").textContent = words[0] === "picture" ? "" : frame === view.movie.length ? "The movie ends here." : refusal(words);
  document.body.dataset.shown = shown.frame = frame;
}

function showRam(before, after) {
  const names = new Map([...$("names").value.matchAll(/\b([89A-F][0-9A-F])\s+(\S+)/gi)].map(([, cell, name]) => [parseInt(cell, 16), name]));
  const cells = Array.from({ length: 128 }, (_, index) => ({ cell: 128 + index, old: parseInt(before.substr(2 * index, 2), 16), now: parseInt(after.substr(2 * index, 2), 16) }));
  const hex = number => number.toString(16).toUpperCase().padStart(2, "0");
  $("ram").replaceChildren(...cells.flatMap(({ cell, old, now }) => [...(cell % 16 ? [] : [make("b", { textContent: hex(cell) })]),
    make("span", { textContent: hex(now), title: `${hex(cell)} ${names.get(cell) ?? ""}`, className: `${old === now ? "" : "new"} ${names.has(cell) ? "named" : ""}` })]));
  $("cells").textContent = cells.filter(({ cell }) => names.has(cell))
    .map(({ cell, old, now }) => `${names.get(cell)} ${hex(now)} = ${now}${old === now ? "" : ` (${now > old ? "+" : ""}${now - old})`}`).join("   ");
}

/** From frame `place` on the movie is another one. The state in which that frame begins is the same. */
function spoil(place) {
  view.lag.fill(0, place);
  view.states = view.states.filter(state => state <= place);
  for (const key of ["cursor", "anchor"]) view[key] = Math.min(view[key], view.movie.length);
  for (const key of ["frame", "ram", "states"]) if (place <= shown[key] || key === "states") shown[key] = -1;
  for (const frame of album.keys()) if (frame >= place) album.delete(frame);
  player.next = Math.min(player.next, Math.max(place, player.due));
  filled = Math.min(filled, place);
}

/** Notes what takes back a change that this page has made: of one wish it is one undo. */
function note(back) {
  if (!doing.backs) {
    if (doing.kind) past[doing.kind].pop();
    else past.redo = [];
    past[doing.kind === "undo" ? "redo" : "undo"].push(doing.backs = []);
  }
  doing.backs.unshift(back);
}

/** Others have made a change: what this page wants to do, or to undo, is moved with its frames, and so is what the reader looks at. */
function meet(change) {
  const { place, count, more } = change, stacks = view.draft?.past ?? past;
  for (const [stack, other] of [[stacks.undo, { ...change }], [stacks.redo, { ...change }]]) stack.splice(0, 1 + stack.findLastIndex(backs => !carry(backs, other)));
  for (const mark of view.others) Object.assign(mark, { place: along(change, mark.place), end: along(change, mark.end) });
  view.others.push({ place, end: place + Math.max(count + more, 1), until: performance.now() + 3000 });
  if (view.draft) return view.draft.others.push(change);
  for (const wish of [doing ?? [], ...wishes]) if (wish.steps && !carry(wish.steps, { ...change })) wish.clash = true;
  roll.follow(change);
}

/** Catches up with the desk: what this page and others have edited is made in this page's copy, too. Returns whether there is more. */
function follow({ words, bytes }) {
  if (words[0] !== "history") throw new Lost(refusal(words));
  let first = Infinity;
  for (const entry of lines(bytes)) {
    const [number, maker, ...line] = entry.split(" "), change = told(line.join(" ")), back = view.base.make(change);
    first = Math.min(first, change.place);
    news.push({ number: Number(number), place: change.place });
    if (doing && Number(maker) === seat) note(back);
    else meet(change);
  }
  if (!view.draft && first < Infinity) spoil(first);
  [at, heard] = [Number(words[2]) + Number(words[3]), performance.now()];
  return at < Number(words[1]);
}

/** Asks some lines that look, and then the history. Returns the answers to the lines. */
async function turn(...looks) {
  news = [];
  const answers = await ask(...looks, `history ${at}`);
  if (follow(answers.pop())) while (follow((await ask(`history ${at}`))[0]));
  return answers;
}

/** Whether what an answer says of a frame is so in the present movie: its history is `edits` long. */
const holds = (edits, frame) => view.draft || !news.some(({ number, place }) => number >= edits && place <= frame);

/** Makes a change in the draft, by one line or more. */
async function sketch(each) {
  const asked = script(each), answers = await ask(asked.join("\n")), { draft, movie } = view;
  for (const [index, { words }] of answers.entries()) {
    if (words[0] !== "edit") return say(refusal(words));
    const change = each.line ? each : told(asked[index]), back = movie.make(change);
    note(back);
    draft.steps.push({ ...change, put: movie.slice(change.place, change.place + back.count) });
    spoil(change.place);
  }
}

/** Makes a wish's changes as one edit, on the movie that the page shows: where others have edited since, they are moved with their frames, and made again. */
async function land(wish) {
  for (let tries = 0; !wish.clash && tries < 100; tries++) {
    const steps = wish.kind ? past[wish.kind].at(-1) : wish.steps;
    if (!steps) return say(`There is nothing to ${wish.kind}. An edit of others at the same frames ends that.`);
    const words = await edit(at, steps.flatMap(script));
    await turn().then(tell); // what others have edited is shown meanwhile
    if (words[0] === "commit") return;
    if (words[0] !== "moved") return say(refusal(words));
  }
  const words = `${refusal(["moved", at])} They have changed the same frames, or do so all the time: `;
  if (!wish.draft) return say(`${words}nothing was done. Look, and do it again.`);
  await begin();
  for (const each of view.draft ? wish.steps : []) await sketch(each);
  say(`${words}it was begun again on their movie. Look, and commit it then, or drop it.`);
}

async function begin() {
  for (;;) {
    const [{ words }] = await turn("begin");
    if (words[0] !== "begin") return say(refusal(words));
    if (Number(words[1]) === at) break;
    await ask("drop"); // others have edited since: it is a draft of the movie before
  }
  view.draft = { at, past, steps: [], others: [], old: view.base, span: [0, 0] };
  [view.base, view.movie, past] = [view.base.copy(), view.base.copy(), { undo: [], redo: [] }];
}

/** Gives the draft up. The cursor stays at its frame by others' changes, and unless those of the draft are made again, by these undone. */
async function drop(_, others = [...view.draft.steps.map(({ place, count, more }) => step(place, count + more, [], null, -more)).reverse(), ...view.draft.others]) {
  await ask("drop");
  const [place] = view.movie.span(view.base);
  [past, view.draft, view.movie] = [view.draft.past, null, view.base];
  others.forEach(change => roll.follow(change));
  spoil(place);
}

/** Makes the draft's changes once more, on the movie as it is now. */
async function commit(wish) {
  const { steps } = view.draft, others = view.draft.others.map(other => ({ ...other })), apart = others.map(other => carry(steps, other));
  await drop(wish, others);
  return land(Object.assign(wish, { steps, draft: true, clash: apart.includes(false) }));
}

/** Does what the reader wanted: a wish is what to `run`, or the steps of an edit, or a kind of undo. */
async function fulfil(wish) {
  doing = wish;
  if (wish.run) await ((view.draft || wish.run === begin) && wish.run(wish));
  else if (view.draft) for (const each of wish.kind ? past[wish.kind].at(-1) ?? [] : wish.steps) await sketch(each);
  else await land(wish);
  doing = null;
  if (view.draft) view.draft.span = view.movie.span(view.draft.old);
}

/** The place of the last kept state that isn't after a frame. */
const nearest = frame => view.states.findLast(state => state <= frame);

/** Asks for pictures, and keeps the answers that still hold. Returns them all. */
async function pictures(from, to) {
  const seen = await turn(`pictures ${from} ${to}`);
  for (let frame = from; frame < to; frame++) album.delete(frame);
  for (const [index, picture] of seen.entries()) if (holds(picture.words[1], from + index)) album.set(from + index, picture);
  for (const oldest of album.keys()) if (album.size > 300) album.delete(oldest);
  return seen;
}

async function look() {
  const { cursor, movie } = view, near = nearest(cursor);
  if (cursor - near > FAR && cursor < movie.length && Math.abs(cursor - shown.frame) > 16) {
    $("over").textContent = `Playing to frame ${cursor}: ${Math.floor(100 * near / cursor)} %`;
    const [shot, states] = await turn(`shot ${near + FAR - 1}`, "states");
    if (shot.words[0] === "shot") return keep(states);
  }
  if (cursor - near >= movie.stride) shown.states = -1; // more of them are kept after this
  const [picture] = await pictures(cursor, cursor + 1);
  if (view.cursor !== cursor) return;
  show(cursor, picture);
  if (!album.has(cursor)) shown.frame = -1; // it was so a moment ago, and another picture comes
}

/** The frames of the next steps whose pictures aren't there; none where there are enough. */
function ahead() {
  const { cursor, movie } = view, next = Array.from({ length: STRIP }, (_, index) => cursor + way * (index + 1)).find(frame => !album.has(frame));
  if (!way || !(Math.abs(next - cursor) <= STRIP / 2) || next < 0 || next >= movie.length) return [];
  return way > 0 ? [next, Math.min(next + STRIP, movie.length)] : [Math.max(0, next + 1 - STRIP), next + 1];
}

function keep({ words }) {
  if (words[0] === "states") view.states = [0, ...words.slice(3).map(Number).filter(state => holds(words[1], state - 1))]; // a frame can always be played from power-on
  shown.states = performance.now();
}

async function strip() {
  await pictures(player.next, Math.min(player.next + STRIP, view.movie.length));
  while (album.has(player.next)) player.next++;
}
async function ram() {
  const { cursor } = view, [before, after] = await turn(`ram ${cursor}`, `ram ${Math.min(cursor + 1, view.movie.length)}`);
  if (before.words[0] === "ram" && after.words[0] === "ram") showRam(before.words[3], after.words[3]);
  Object.assign(shown, { ram: holds(before.words[1], cursor) ? cursor : -1, read: performance.now() });
}
async function lag(from, to) {
  const [{ words, bytes }] = await turn(`lag ${from} ${to}`);
  if (words[0] !== "lag" || !holds(words[1], to - 1)) return;
  view.lag.fill(1, from, to);
  for (const line of lines(bytes)) view.lag.fill(2, ...line.split(" ").map(Number));
}
async function fill() {
  const end = Math.min(filled + 256, view.movie.length), [, states] = await turn(`work ${end}`, "states");
  keep(states);
  filled = end < view.movie.length ? end : -1;
}

/** Asks the most urgent thing. Returns false if there was none. */
async function next() {
  const now = performance.now(), after = ahead(), row = view.lag.indexOf(0, roll.first), end = Math.min(roll.first + roll.rows + 1, view.movie.length);
  if (wishes.length) return fulfil(wishes.shift());
  if (player.on && player.next - player.due < 2 * STRIP && player.next < view.movie.length) return strip();
  if (!player.on && shown.frame !== view.cursor) return look();
  if (now - heard > 250) return turn();
  if (!player.on && after.length && now - moved < 2000) return pictures(...after);
  if (now - (player.on ? shown.read + 190 : moved) < 60) return false;
  if (shown.ram !== view.cursor) return ram();
  if (player.on) return false;
  if (shown.states < 0 || now - shown.states > 2000) return keep((await turn("states"))[0]);
  if (row >= 0 && row < end && row - nearest(row) < FAR && now - view.scrolled > 80) return lag(row, end); // where that isn't a long way
  return filled >= 0 && fill();
}

async function talk() {
  try {
    seat = await sit();
    const [{ words, bytes }] = await ask("movie");
    if (words[0] !== "movie") throw new Lost(refusal(words));
    [at, view.base] = [Number(words[1]), view.movie.read(decode(bytes))];
    $("names").value = localStorage.getItem(view.base.head) ?? "";
    for (;;) await next() === false ? await new Promise(done => { wake = done; setTimeout(done, 40); }) : tell();
  } catch (lost) {
    say(lost.message);
    $("tools").inert = true;
    if (view.base) $("words").append(" ", make("a", { textContent: "Keep this page’s copy of the movie", download: "kept.movie", href: URL.createObjectURL(new Blob([view.movie.text])) }));
    if (!(lost instanceof Lost)) throw lost;
  }
}

const trace = () => { player.told = performance.now(); roll.reveal(view.cursor); tell(); wake(); };

function move(frame, selecting = false) {
  const before = view.cursor;
  view.cursor = Math.max(0, Math.min(frame, view.movie.length));
  way = Math.abs(view.cursor - before) > 1 ? 0 : view.cursor - before || way;
  if (!selecting) view.anchor = view.cursor;
  moved = performance.now();
  player.on = false;
  if (album.has(view.cursor)) show(view.cursor);
  trace();
}

const want = wish => { wishes.push(wish); say(""); wake(); };
const change = (...parts) => want({ steps: [step(...parts)] });

/** Presses or releases a switch from one frame to another. At the movie's end a frame is added. */
function hold(press, from, to, column) {
  const bit = 1 << column, count = to - from;
  if (from === view.movie.length) return change(from, 0, [bit]);
  change(from, count, old => old.map(frame => press ? frame | bit : frame & ~bit), place => `${press ? "press" : "release"} ${place} ${count} ${text(bit)}`, 0);
}

function repeat() {
  const { from, to } = view, count = to - from, times = $("times").value;
  change(from, count, old => Uint16Array.from({ length: count * times + count }, (_, index) => old[index % count]), place => `repeat ${place} ${count} ${times}`, count * times);
}

function paste(words) {
  const put = words.trim().split("\n").map(line => parse(line.trim())), long = put.reduce((sum, part) => sum + part?.count, 0);
  if (!(long <= 262144)) return say(isNaN(long) ? "What was copied isn’t lines of a movie’s text." : "What was copied has more than 262,144 frames.");
  change(view.from, 0, put.flatMap(({ frame, count }) => new Array(count).fill(frame)));
}

function play() {
  Object.assign(player, { on: !player.on && view.cursor < view.movie.length, next: view.cursor, due: view.cursor, start: null });
  view.anchor = view.cursor;
  if (player.on) requestAnimationFrame(tick);
  trace();
}

/** Shows the frame that the clock is at, 60 a second. Where its picture hasn't come yet, the clock waits. */
function tick(now) {
  if (!player.on) return;
  const frame = player.start === null ? player.due : player.from + Math.floor((now - player.start) * .06 + .5), picture = frame < player.next && album.get(frame);
  if (picture && frame >= player.due) {
    if (player.start === null) Object.assign(player, { start: now, from: frame });
    player.due = frame + 1;
    view.cursor = view.anchor = frame;
    show(frame);
    if (now - player.told > 60) trace(); // drawing the roll takes longer than the picture
  } else if (frame >= player.due) player.start = null;
  player.on = player.due < view.movie.length && (!picture || picture.words[0] === "picture");
  if (player.on) requestAnimationFrame(tick);
  else trace();
}

const report = promise => promise.then(words => say(words, true), failed => say(failed.message));
const actions = {
  play, repeat, undo: () => want({ kind: "undo" }), redo: () => want({ kind: "redo" }), save: () => report(save()),
  insert: () => change(view.from, 0, new Uint16Array(Math.max(view.to - view.from, 1))),
  remove() { const { from, to } = view; if (from < to) change(from, to - from, []); move(from); },
  begin: () => want({ run: begin }), commit: () => want({ run: commit }), drop: () => want({ run: drop }),
  fill() { filled = filled < 0 ? 0 : -1; wake(); },
  film() { say("The film is being made …", true); report(view.to - view.from > 1 ? film(view.from, view.to) : film(0, view.movie.length)); },
};
for (const [id, action] of Object.entries(actions)) $(id).addEventListener("click", action);

const turnTo = column => { view.column = Math.max(0, Math.min(column, 14)); tell(); };
const keys = {
  ArrowUp: event => move(view.cursor - 1, event.shiftKey), ArrowDown: event => move(view.cursor + 1, event.shiftKey),
  PageUp: event => move(view.cursor - roll.rows, event.shiftKey), PageDown: event => move(view.cursor + roll.rows, event.shiftKey),
  Home: event => move(0, event.shiftKey), End: event => move(view.movie.length, event.shiftKey), Escape() { roll.cancel(); move(view.cursor); },
  ArrowLeft: () => turnTo(view.column - 1), ArrowRight: () => turnTo(view.column + 1), " ": play, Insert: actions.insert, Delete: actions.remove,
  Enter: () => hold(!(view.movie.frames[view.from] & 1 << view.column), view.from, view.to, view.column),
  "Ctrl+z": actions.undo, "Ctrl+y": actions.redo, "Ctrl+s": actions.save,
};
addEventListener("keydown", event => {
  const action = keys[(event.ctrlKey || event.metaKey ? "Ctrl+" : "") + event.key];
  if (event.key === "Enter" && event.target.matches("input")) $("roll").focus({ preventScroll: true });
  if (!action || event.target.matches("input") || event.target.matches("button, summary, a") && "Enter ".includes(event.key)) return;
  event.preventDefault();
  action(event);
});
for (const kind of ["copy", "cut"]) addEventListener(kind, event => {
  if (event.target.matches?.("input") || String(getSelection())) return;
  event.preventDefault();
  event.clipboardData.setData("text/plain", runs(view.movie.slice(view.from, view.to)).map(({ line }) => line).join(""));
  if (kind === "cut") actions.remove();
});
addEventListener("paste", event => event.target.matches?.("input") || paste(event.clipboardData.getData("text/plain")));
$("goto").addEventListener("change", () => move(Number($("goto").value)));
$("names").addEventListener("change", () => { localStorage.setItem(view.base.head, $("names").value); shown.ram = -1; });
$("roll").focus({ preventScroll: true });
talk();
