// The page: what is shown, and what a click or a key does. What is asked about a position goes to the module in a
// worker (worker.js); boards are drawn by board.js, and pasted texts are read by texts.js.

/** The controls of the page by their ids. */
const id = (name) => document.getElementById(name);

const COLOUR_NAMES = { [BLACK]: "Black", [WHITE]: "White" };

/** What a status of gopat.h says. */
const STATUSES = {
  1: "A board has 2 to 25 rows.",
  2: "A point has neither a stone nor none.",
  3: "A string on the board has no liberty.",
  4: "The ko ban is not at an empty point.",
  5: "The point is not on the board.",
  6: "No stone stands there.",
  7: "These are no depths that can be read.",
  8: "The two stones have different colours.",
  12: "A stone stands there.",
  13: "The ko ban forbids this play. A pass or a play elsewhere lifts it.",
  14: "This is suicide: the stone would have no liberty.",
  15: "The proof is too long for this page.",
  16: "The proof is too long: it has more than 60,000 bytes.",
};

/** Positions to begin with: records, with the plies that tell. */
const EXAMPLES = {
  "a ladder": "(;SZ[9]AB[cg][dg][eg][cf][de]AW[df])",
  "four stones in a corner": "(;SZ[9]AB[ag][bg][cg][dh][di]AW[ah][bh][ch][ci])",
  "a ko": "(;SZ[5]AB[cb][bc][cd][dc]AW[db][ec][dd];W[cc])",
};

// Asking the module.

/** The worker was ended before it answered. */
class Stopped extends Error {}

/** The module in a worker: questions go in, replies come out as promises, and a long one can be stopped. */
class Reader {
  constructor(module) {
    this.module = module;
    this.waiting = new Map();
    this.asked = 0;
    this.script = URL.createObjectURL(new Blob([id("worker").textContent], { type: "text/javascript" }));
    this.start();
  }

  start() {
    const worker = new Worker(this.script);
    worker.onmessage = ({ data }) => this.worker === worker && this.settle(data);
    worker.onerror = (event) => this.worker === worker && this.fail(event.message || "the worker did not start");
    this.worker = worker;
    this.ready = this.send({ module: this.module });
    this.ready.catch(() => {});
  }

  send(message) {
    return new Promise((resolve, reject) => {
      this.asked += 1;
      this.waiting.set(this.asked, { resolve, reject });
      this.worker.postMessage({ id: this.asked, ...message });
    });
  }

  settle({ id: asked, reply, fault }) {
    const { resolve, reject } = this.waiting.get(asked);
    this.waiting.delete(asked);
    if (fault) reject(new Error(fault));
    else resolve(reply);
  }

  /** Tells all that wait for a reply why none comes. */
  fail(why) {
    this.waiting.forEach(({ reject }) => reject(why instanceof Error ? why : new Error(why)));
    this.waiting.clear();
  }

  /** The reply to a question of worker.js. */
  ask(name, words) {
    return this.send({ name, words });
  }

  /** Ends what is being read, and makes the module afresh. */
  stop() {
    this.worker.terminate();
    this.fail(new Stopped());
    this.start();
  }
}

let reader;
let isReading = false;
let running = Promise.resolve();

/** Does something; a reading that is under way is stopped, so that nothing waits for it. */
function perform(action) {
  stopReading();
  return performNext(action);
}

/** Does something when all that is under way has been done. */
function performNext(action) {
  running = running.then(action).catch((why) => {
    if (!(why instanceof Stopped)) tellNote(why instanceof NotRead ? why.message : `This went wrong: ${why.message}`);
  });
  return running;
}

function stopReading() {
  if (isReading) reader.stop();
}

/** Does something that may take long: meanwhile the button Stop works. */
async function reading(action) {
  isReading = true;
  showBusy();
  try {
    await action();
  } catch (why) {
    if (!(why instanceof Stopped)) throw why;
    id("answer").append(element("p", { className: "stopped" }, "Stopped."));
  } finally {
    isReading = false;
    showBusy();
  }
}

function showBusy() {
  id("stop").disabled = !isReading;
  id("answer").setAttribute("aria-busy", String(isReading));
}

// What is shown.

/** What stands on the page: the board, whose turn it is, and the last play. */
let shown = placed(emptyBoard(9));
const earlier = [];
let cursor = 0;
let picked;
let asked;

function element(tag, properties, ...inside) {
  const made = Object.assign(document.createElement(tag), properties);
  made.append(...inside);
  return made;
}

function tellNote(text) {
  id("note").textContent = text;
}

function stoneName(board, point) {
  return { [BLACK]: "black stone", [WHITE]: "white stone" }[board.cells[point]] ?? "empty";
}

/** The marks on the board, those that lie below first. */
function marks() {
  const { board, last } = shown;
  const found = [];
  if (board.banColour !== 0) found.push(["ban", board.banPoint]);
  const pointsOf = (kind) => (asked?.moves[kind] ?? []).filter((move) => move < board.cells.length);
  const [good, safe] = [pointsOf("attack"), pointsOf("defend")];
  for (const point of new Set([...good, ...safe])) {
    const kind = good.includes(point) ? (safe.includes(point) ? "both" : "good") : "safe";
    found.push([kind, point]);
  }
  const named = asked?.points ?? (picked === undefined ? [] : [picked]);
  named.forEach((point) => found.push([asked?.points.length === 1 ? "target" : "picked", point]));
  if (last !== undefined && last !== PASS && !named.includes(last)) found.push(["last", last]);
  return found;
}

const LEGEND = {
  good: "green disc: captures",
  safe: "light square: saves",
  both: "disc with a square: captures and saves",
  target: "triangle: the string asked about",
  picked: "square on a stone: to be connected",
  last: "red dot: the last play",
  ban: "red square: the ko ban",
};

/** The same if two strings were asked about. */
const LEGEND_OF_TWO = {
  ...LEGEND,
  good: "green disc: connects",
  safe: "light square: keeps apart",
  both: "disc with a square: connects and keeps apart",
};

function legend(kinds) {
  const words = asked?.points.length === 2 ? LEGEND_OF_TWO : LEGEND;
  return Object.keys(LEGEND).filter((kind) => kinds.has(kind)).map((kind) => words[kind]).join("; ");
}

function draw() {
  const { board, turn } = shown;
  const drawn = marks();
  id("board").setAttribute("viewBox", viewBoxOf(board.size));
  id("board").innerHTML = boardSvg(board, [...drawn, ["cursor", cursor]]);
  id("board").setAttribute("aria-label", `Go board of ${board.size} rows`);
  id("legend").textContent = legend(new Set(drawn.map(([kind]) => kind)));
  id("size").value = String(board.size);
  id("turn").textContent = COLOUR_NAMES[turn];
  id("undo").disabled = earlier.length === 0;
}

/** Takes up another board; the one before can be taken back by Undo. */
function change(next) {
  earlier.push(shown);
  show(next);
}

function show(next) {
  shown = next;
  cursor = Math.min(cursor, shown.board.cells.length - 1);
  forget();
  draw();
}

/** Forgets the question and its answers. */
function forget() {
  asked = undefined;
  picked = undefined;
  tellNote("");
  id("answer").replaceChildren(element("p", { className: "soft" }, "Click on a stone to ask about its string."));
}

// Changing the board.

function undo() {
  if (earlier.length > 0) show(earlier.pop());
}

/** Plays by the rules; a play that they forbid is told and changes nothing. */
async function play(colour, point) {
  const { status, board } = await reader.ask("play", { board: shown.board, colour, point });
  if (status !== 0) tellNote(`${vertexOf(shown.board.size, point)}: ${STATUSES[status]}`);
  else change({ board, turn: other(colour), last: point });
}

function erase(point) {
  const board = withCell(shown.board, point, EMPTY);
  if (shown.board.cells[point] !== EMPTY) change({ ...shown, board, last: undefined });
}

/** A board without a last play. */
function placed(board) {
  return { board, turn: BLACK, last: undefined };
}

/** Sets up a pasted text. */
async function setUp(text) {
  const next = isRecord(text) ? await playedOut(recordOf(text)) : placed(boardOfRows(text));
  const { status } = await reader.ask("liberties", { board: next.board, point: 0 });
  if (status >= 1 && status <= 4) throw new NotRead(STATUSES[status]);
  change(next);
}

/** What stands at the end of the main line of a record. */
async function playedOut({ size, steps }) {
  let next = placed(emptyBoard(size));
  for (const [number, step] of steps.entries()) {
    if (step.cells) {
      const board = step.cells.reduce((before, [point, colour]) => withCell(before, point, colour), next.board);
      next = { ...next, board };
    } else {
      const { colour, point } = step;
      const { status, board } = await reader.ask("play", { board: next.board, colour, point });
      if (status !== 0) throw new NotRead(`Step ${number + 1}, ${vertexOf(size, point)}: ${STATUSES[status]}`);
      next = { board, turn: other(colour), last: point };
    }
  }
  return next;
}

// Asking about a string.

/** The depths of the page; undefined if they are none. */
function depths() {
  if (!id("depths").reportValidity()) return undefined;
  return { plies: Number(id("plies").value), wide: Number(id("wide").value), tree: Number(id("tree").value) };
}

/** Asks whether the string at a point can be captured and saved. */
async function askString(point) {
  const { board } = shown;
  forget();
  draw();
  const words = { board, target: point, depths: depths() };
  if (!words.depths) return;
  if (board.cells[point] === EMPTY) {
    tellNote(`${vertexOf(board.size, point)}: ${STATUSES[6]}`);
    return;
  }
  asked = { points: [point], moves: {} };
  await answers(async () => {
    const { number } = await reader.ask("liberties", { board, point });
    const vertex = vertexOf(board.size, point);
    const owner = COLOUR_NAMES[board.cells[point]];
    begin(`${owner}'s string at ${vertex}, with ${counted(number, "liberty", "liberties")}`);
    for (const kind of ["attack", "defend"]) await readString(kind, words);
    id("answer").append(worth());
  });
}

function begin(heading) {
  id("answer").replaceChildren(element("h2", {}, heading));
  draw();
}

/** Reads, shows what is told, and draws the moves. */
async function answers(action) {
  await reading(action);
  draw();
}

/** One question about a string: its answer, all moves, and the proof to unfold. */
async function readString(kind, words) {
  const { board, target } = words;
  const reply = await reader.ask(kind, words);
  const name = kind === "attack" ? "Attack" : "Defence";
  const mover = kind === "attack" ? other(board.cells[target]) : board.cells[target];
  const card = answerCard(kind, `${name}: ${COLOUR_NAMES[mover]} plays first`, board.size, reply);
  card.append(element("p", {}, inWords(kind, board, target, reply)));
  if (reply.code > 0) {
    const { moves } = await reader.ask("moves", { ...words, kind });
    asked.moves[kind] = moves;
    card.append(movesLine(board.size, moves));
    draw();
  }
  card.append(proofOf(kind, words));
}

/** The frame of an answer, with the reply as the program prints it. */
function answerCard(kind, heading, size, reply) {
  const text = reply.code === 0 ? "0" : `${reply.code} ${vertexOf(size, reply.at)}`;
  const code = element("code", { className: "reply" }, text);
  const time = element("span", { className: "soft" }, `read in ${reply.milliseconds.toFixed(1)} ms`);
  const head = element("h3", {}, heading);
  const line = element("p", {}, code, " ", time);
  const card = element("article", { id: kind, className: reply.code > 0 ? "reading yes" : "reading" }, head, line);
  id("answer").append(card);
  return card;
}

/** All moves that attain a code. */
function movesLine(size, moves) {
  const names = moves.map((move) => vertexOf(size, move)).join(" ");
  return element("p", { className: "moves" }, "All moves that attain this code: ", element("b", {}, names));
}

/** What a code says, in words. */
function inWords(kind, board, target, { code, at }) {
  const attacker = COLOUR_NAMES[other(board.cells[target])];
  const defender = COLOUR_NAMES[board.cells[target]];
  const [mover, opponent] = kind === "attack" ? [attacker, defender] : [defender, attacker];
  const does = kind === "attack" ? "captures it" : "saves it";
  const plies = counted(Number(id("plies").value), "ply", "plies");
  if (code === 0) return `No: none of the moves that were tried ${does} within ${plies}.`;
  const move = at === PASS ? "without adding a stone" : `by ${vertexOf(board.size, at)}`;
  const retakes = "may once retake where the ko rule forbids it";
  if (code === 3) return `Yes: ${mover} ${does} ${move}, even if ${opponent} ${retakes}.`;
  if (code === 2) return `Yes: ${mover} ${does} ${move}, if neither side plays against the ko rule.`;
  return `Only with a ko threat: ${mover} ${does} ${move}, if ${mover} ${retakes}.`;
}

function worth() {
  const attack = "A yes to the attack holds against the replies that are tried, not against every reply";
  return element("p", { className: "soft" }, `${attack}; a yes to the defence holds within the plies.`);
}

// Asking about a connection.

/** Picks the first stone of a connection, or asks about it and the second. */
async function pick(point) {
  const { board } = shown;
  if (board.cells[point] === EMPTY) {
    tellNote(`${vertexOf(board.size, point)}: ${STATUSES[6]}`);
  } else if (picked === undefined || picked === point) {
    forget();
    picked = point;
    tellNote("");
    const text = `${vertexOf(board.size, point)} is one stone; click on the other one.`;
    id("answer").replaceChildren(element("p", {}, text));
    draw();
  } else {
    await askConnection(picked, point);
  }
}

async function askConnection(a, b) {
  const { board } = shown;
  forget();
  draw();
  const found = depths();
  if (!found) return;
  const { plies } = found;
  asked = { points: [a, b], moves: {} };
  await answers(async () => {
    const names = [a, b].map((point) => vertexOf(board.size, point));
    begin(`The strings at ${names.join(" and ")}`);
    await readConnection("connect", { board, a, b, plies });
    await readConnection("disconnect", { board, a, b, plies });
    const text = "A yes holds within the plies, against the replies that are tried.";
    id("answer").append(element("p", { className: "soft" }, text));
  });
}

async function readConnection(kind, words) {
  const { board, a } = words;
  const reply = await reader.ask(kind, words);
  if (reply.status !== 0) {
    if (!document.querySelector("#answer .refused")) {
      id("answer").append(element("p", { className: "refused" }, STATUSES[reply.status]));
    }
    return;
  }
  const owner = COLOUR_NAMES[board.cells[a]];
  const mover = kind === "connect" ? owner : COLOUR_NAMES[other(board.cells[a])];
  const name = kind === "connect" ? "Connect" : "Disconnect";
  const card = answerCard(kind, `${name}: ${mover} plays first`, board.size, reply);
  card.append(element("p", {}, connectionInWords(kind, board.size, mover, reply)));
  asked.moves[kind === "connect" ? "attack" : "defend"] = reply.code > 0 ? [reply.at] : [];
}

function connectionInWords(kind, size, mover, { code, at }) {
  const does = kind === "connect" ? "joins them" : "keeps them apart";
  if (code === 0) return `No: none of the moves that were tried ${does} within the plies.`;
  return `Yes: ${mover} ${does} ${at === PASS ? "without adding a stone" : `by ${vertexOf(size, at)}`}.`;
}

// Proofs.

/** The proof of an answer, which is asked for when it is unfolded. */
function proofOf(kind, words) {
  const details = element("details", { className: "proof" }, element("summary", {}, "Why: the proof"));
  details.addEventListener("toggle", () => {
    if (details.open && details.children.length === 1) {
      performNext(() => reading(async () => {
        const found = await reader.ask("proof", { ...words, kind });
        details.append(...proofParts(kind, words, found));
      }));
    }
  });
  return details;
}

/** What is shown of a proof: its words, what the checker says of them, and the moves as a tree that folds. */
function proofParts(kind, words, { status, code, text, isProof, parts }) {
  if (status !== 0) return [element("p", {}, STATUSES[status] ?? `Status ${status}.`)];
  const count = counted(text.split(" ").length, "word", "words");
  const accepts = isProof ? "accepts these words" : "does not accept these words";
  const judged = `The checker in the module ${accepts} as a proof of code ${code}.`;
  const shownWords = element("details", {}, element("summary", {}, count), element("pre", {}, text));
  const found = [element("p", { className: "judged" }, judged), shownWords];
  if (!parts) return [...found, element("p", {}, "This page's script could not follow them.")];
  const groups = parts.filter((part, at) => at === parts.length - 1 || part.text !== parts[at + 1].text);
  for (const group of groups) {
    const same = parts.filter((part) => part.text === group.text);
    same.forEach((part) => found.push(element("p", {}, `Code ${part.code}: ${claimInWords(kind, part)}.`)));
    found.push(...stepParts(group.first, words.board, words.board.cells[words.target]));
  }
  return found;
}

/** What a part of a proof claims. */
function claimInWords(kind, { code, claim }) {
  const [mover, opponent] = kind === "attack" ? ["attacker", "defender"] : ["defender", "attacker"];
  const ko = { 3: `if the ${opponent} may ignore a ko ban once`, 1: `if the ${mover} may ignore a ko ban once` };
  const told = claim === "W" ? "captures it" : "does not capture it";
  return `the attacker ${told} ${ko[code] ?? "if nobody may ignore a ko ban"}`;
}

/** What stands behind a step: why it is settled, or its moves, each with the board after it. */
function stepParts({ word, isAttackers, reason, behind }, board, defender) {
  const side = isAttackers ? "attacker" : "defender";
  const colour = isAttackers ? other(defender) : defender;
  if (word === ".") return [element("div", { className: "leaf" }, reason)];
  const each = `Each move that the ${side} tries${isAttackers ? "" : ", and the pass"}:`;
  const told = behind.length === 0 ? `The ${side} has no move to try.` : each;
  const moves = behind.map(({ point, step }) => moveDetails(colour, point, step, board, defender));
  const said = word === "*" ? told : reason;
  return [...(said ? [element("div", { className: "leaf" }, said)] : []), ...moves];
}

/** A move of a proof; its board and what follows are made when it is unfolded. */
function moveDetails(colour, point, step, board, defender) {
  const name = `${COLOUR_NAMES[colour]} ${point === PASS ? "passes" : vertexOf(board.size, point)}`;
  const details = element("details", {}, element("summary", {}, name));
  details.addEventListener("toggle", () => {
    if (!details.open || details.children.length > 1) return;
    const after = point === PASS ? passed(board) : playFree(board, colour, point);
    details.append(picture(after, point, name), ...stepParts(step, after, defender));
  });
  return details;
}

/** A small board. */
function picture(board, last, name) {
  const svg = document.createElementNS("http://www.w3.org/2000/svg", "svg");
  svg.setAttribute("class", "step");
  svg.setAttribute("viewBox", viewBoxOf(board.size));
  svg.setAttribute("role", "img");
  svg.setAttribute("aria-label", `The board after ${name}`);
  svg.innerHTML = boardSvg(board, last === PASS ? [] : [["last", last]]);
  return svg;
}

// Clicks and keys.

function mode() {
  return document.querySelector("input[name=mode]:checked").value;
}

/** What a click on a point does. */
function act(point) {
  cursor = point;
  tellCursor();
  tellNote("");
  return perform(() => ({
    ask: () => askString(point),
    connect: () => pick(point),
    turn: () => play(shown.turn, point),
    black: () => play(BLACK, point),
    white: () => play(WHITE, point),
    erase: () => erase(point),
  })[mode()]());
}

/** Tells what stands under the cursor. */
function tellCursor() {
  const { board } = shown;
  id("here").textContent = `${vertexOf(board.size, cursor)}: ${stoneName(board, cursor)}`;
}

function moveCursor(rows, columns) {
  const { size } = shown.board;
  const row = Math.min(Math.max(Math.floor(cursor / size) + rows, 0), size - 1);
  const column = Math.min(Math.max((cursor % size) + columns, 0), size - 1);
  cursor = row * size + column;
  draw();
  tellCursor();
}

const KEYS = {
  ArrowUp: () => moveCursor(-1, 0),
  ArrowDown: () => moveCursor(1, 0),
  ArrowLeft: () => moveCursor(0, -1),
  ArrowRight: () => moveCursor(0, 1),
  " ": () => act(cursor).then(tellCursor),
  Enter: () => (mode() === "connect" ? act(cursor) : perform(() => askString(cursor))),
  Escape: stopReading,
  u: () => perform(undo),
};

function onKey(event) {
  const action = KEYS[event.key.length === 1 ? event.key.toLowerCase() : event.key];
  if (!action || event.ctrlKey || event.metaKey || event.altKey) return;
  event.preventDefault();
  action();
}

/** Asks again what was asked, at the depths that were changed. */
function askAgain() {
  const points = asked?.points;
  if (points) perform(() => (points.length === 1 ? askString(points[0]) : askConnection(...points)));
}

function listen() {
  id("board").addEventListener("click", (event) => {
    const point = pointAt(id("board"), shown.board.size, event.clientX, event.clientY);
    if (point !== undefined) act(point);
  });
  id("board").addEventListener("keydown", onKey);
  id("board").addEventListener("focus", tellCursor);
  id("stop").addEventListener("click", stopReading);
  id("undo").addEventListener("click", () => perform(undo));
  id("pass").addEventListener("click", () => perform(() => play(shown.turn, PASS)));
  id("clear").addEventListener("click", () => perform(() => startOn(shown.board.size)));
  id("size").addEventListener("change", () => perform(() => startOn(Number(id("size").value))));
  id("paste").addEventListener("click", () => perform(() => setUp(id("text").value)));
  id("example").addEventListener("change", () => perform(() => setUp(EXAMPLES[id("example").value])));
  id("depths").addEventListener("change", askAgain);
  id("depths").addEventListener("submit", (event) => event.preventDefault());
}

function startOn(size) {
  change(placed(emptyBoard(size)));
}

// The beginning.

/** A module of 15 bytes whose memory has 64-bit addresses: header, then one memory of one page. */
const SMALL = [0x00, 0x61, 0x73, 0x6d, 0x01, 0x00, 0x00, 0x00, 0x05, 0x03, 0x01, 0x04, 0x01];

/** Why the page cannot answer in this browser; an empty text if it can. */
function whyNot() {
  const needed = "The board needs Chrome or Edge from version 133, Firefox from version 134, or another with memory64.";
  if (typeof WebAssembly === "undefined") return `This browser has no WebAssembly. ${needed}`;
  const hasMemory = WebAssembly.validate(Uint8Array.from(SMALL));
  return hasMemory ? "" : `This browser has no 64-bit memory for WebAssembly. ${needed}`;
}

/** Shows a message in place of the board. */
function tellMissing(why) {
  id("missing").textContent = why;
  id("missing").hidden = false;
  id("app").hidden = true;
}

async function begins() {
  const why = whyNot();
  if (why) {
    tellMissing(why);
    return;
  }
  for (let size = 2; size <= 25; size += 1) id("size").append(element("option", { value: size }, String(size)));
  for (const name of Object.keys(EXAMPLES)) id("example").append(element("option", { value: name }, name));
  try {
    reader = new Reader(Uint8Array.from(atob(id("module").textContent), (letter) => letter.charCodeAt(0)));
    await reader.ready;
  } catch (broken) {
    tellMissing(`The module in this page cannot be used, so nothing can be asked: ${broken.message}.`);
    return;
  }
  listen();
  id("app").hidden = false;
  show(shown);
  id("example").value = "a ladder";
  await perform(() => setUp(EXAMPLES["a ladder"]));
  earlier.length = 0;
  draw();
}

begins();
