// Runs in a worker of the page: hands each question to the module, and its reply back to the page. The module is the
// proved source of the crate gopat_c; its calls and their statuses are those of crates/gopat_c/gopat.h.
//
// The module's memory has its stack from address 0 up to __heap_base, and its constants below that too. The stack grows
// down, so one that is too small runs below address 0, where the browser stops the call. The script's buffers begin at
// __heap_base.

const KINDS = { attack: 1, defend: 2 };
// Bytes of the types of gopat.h, rounded up.
const REPLY_BYTES = 640;
const BOARD_BYTES = 640;
const DEPTH_BYTES = 16;
const MOST_POINTS = 625;
const MOST_TEXT = 60000;

let compiled;
let calls;
let at;

/** Makes the module afresh, as at the beginning and after a call that was stopped by the browser. */
function makeModule() {
  calls = new WebAssembly.Instance(compiled, {}).exports;
  const first = Math.ceil(Number(calls.__heap_base.value) / 16) * 16;
  at = { reply: first };
  at.board = at.reply + REPLY_BYTES;
  at.depths = at.board + BOARD_BYTES;
  at.text = at.depths + DEPTH_BYTES;
  if (at.text + MOST_TEXT > calls.memory.buffer.byteLength) throw new Error("the module's memory is too small");
}

function bytes() {
  return new Uint8Array(calls.memory.buffer);
}

function numbers() {
  return new DataView(calls.memory.buffer);
}

/** Writes a board as gopat.h has it, and answers where it stands. */
function put(board) {
  const memory = bytes();
  memory.fill(0, at.board, at.board + BOARD_BYTES);
  memory[at.board] = board.size;
  memory[at.board + 1] = board.banColour;
  numbers().setUint16(at.board + 2, board.banPoint, true);
  memory.set(board.cells.subarray(0, MOST_POINTS), at.board + 4);
  return BigInt(at.board);
}

/** Writes depths, and answers where they stand. */
function putDepths({ plies, wide, tree }) {
  bytes().set([plies, wide, tree], at.depths);
  return BigInt(at.depths);
}

/** Writes a text, and answers how many bytes it has. */
function putText(text) {
  const words = new TextEncoder().encode(text);
  if (words.length > MOST_TEXT) throw new Error("the text is too long for this page");
  bytes().set(words, at.text);
  return BigInt(words.length);
}

/** A reply that begins with a status and a byte, and has a number of two bytes behind them. */
function answer() {
  const memory = bytes();
  return { status: memory[at.reply], code: memory[at.reply + 1], at: numbers().getUint16(at.reply + 2, true) };
}

const reply = () => BigInt(at.reply);

/** The questions that the page may ask, by name. */
const QUESTIONS = {
  attack({ board, target, depths }) {
    calls.gopat_attack(reply(), put(board), target, putDepths(depths));
    return answer();
  },

  defend({ board, target, depths }) {
    calls.gopat_defend(reply(), put(board), target, putDepths(depths));
    return answer();
  },

  connect({ board, a, b, plies }) {
    calls.gopat_connect(reply(), put(board), a, b, plies);
    return answer();
  },

  disconnect({ board, a, b, plies }) {
    calls.gopat_disconnect(reply(), put(board), a, b, plies);
    return answer();
  },

  play({ board, colour, point }) {
    calls.gopat_play(reply(), put(board), colour, point);
    const memory = bytes();
    const next = at.reply + 2;
    const banPoint = numbers().getUint16(next + 2, true);
    const cells = memory.slice(next + 4, next + 4 + board.size * board.size);
    return {
      status: memory[at.reply],
      board: { size: memory[next], banColour: memory[next + 1], banPoint, cells },
    };
  },

  liberties({ board, point }) {
    calls.gopat_liberties(reply(), put(board), point);
    return { status: bytes()[at.reply], number: numbers().getUint16(at.reply + 2, true) };
  },

  check({ board, kind, target, depths, code, text }) {
    const length = putText(text);
    calls.gopat_check(reply(), put(board), KINDS[kind], target, putDepths(depths), code, BigInt(at.text), length);
    return { status: bytes()[at.reply], isProof: numbers().getUint16(at.reply + 2, true) === 1 };
  },

  moves({ board, kind, target, depths }) {
    calls.gopat_all(reply(), put(board), KINDS[kind], target, putDepths(depths));
    const memory = bytes();
    const points = memory.subarray(at.reply + 3, at.reply + 3 + board.size * board.size);
    const moves = memory[at.reply + 2] === 1 ? [PASS] : [];
    points.forEach((byte, point) => byte === 1 && moves.push(point));
    return { status: memory[at.reply], code: memory[at.reply + 1], moves };
  },

  proof({ board, kind, target, depths }) {
    const room = BigInt(MOST_TEXT);
    calls.gopat_proof(reply(), put(board), KINDS[kind], target, putDepths(depths), BigInt(at.text), room);
    const { status, code, at: length } = answer();
    if (status !== 0) return { status, code, text: "" };
    const text = new TextDecoder().decode(bytes().slice(at.text, at.text + length));
    const checked = QUESTIONS.check({ board, kind, target, depths, code, text });
    const parts = checked.isProof ? partsOf(board, kind, target, depths, code, text) : null;
    return { status, code, text, isProof: checked.isProof, parts };
  },
};

onmessage = ({ data }) => {
  const start = performance.now();
  try {
    if (data.module) {
      compiled = new WebAssembly.Module(data.module);
      makeModule();
    }
    const found = data.name ? QUESTIONS[data.name](data.words) : {};
    postMessage({ id: data.id, reply: { ...found, milliseconds: performance.now() - start } });
  } catch (why) {
    postMessage({ id: data.id, fault: String(why) });
    // A call that was stopped leaves the module's stack as it was then.
    if (compiled) makeModule();
  }
};
