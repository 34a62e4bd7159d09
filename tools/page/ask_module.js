// Asks the page's module the questions of try_doors.py, as ask_door.c asks the library. It is no part of the page: that
// script lets the page run it. A question is its bytes as ask_door.c has them; a reply is a status, a code, a number.
(questions) => {
  const QUESTION = 898;
  const [A, B, DEPTHS, CALL, TEXT, POINTS] = [630, 632, 634, 637, 641, 625];
  const BEFORE = new Uint8Array(256).fill(7);
  const calls = new WebAssembly.Instance(new WebAssembly.Module(reader.module), {}).exports;
  const first = Math.ceil(Number(calls.__heap_base.value) / 16) * 16;
  const [reply, board, depths, text] = [first, first + 640, first + 1280, first + 1296];
  const mixed = (bytes) => bytes.reduce((number, byte) => (number * 31 + byte) % 65536, 0);
  const memory = new Uint8Array(calls.memory.buffer);
  const number = (at) => memory[at] + 256 * memory[at + 1];
  const put = (at, bytes) => {
    memory.set(bytes, at);
    return BigInt(at);
  };
  const told = [];
  const all = Uint8Array.from(atob(questions), (letter) => letter.charCodeAt(0));
  for (let at = 0; at < all.length; at += QUESTION) {
    const one = all.subarray(at, at + QUESTION);
    const [a, b] = [one[A] + 256 * one[A + 1], one[B] + 256 * one[B + 1]];
    const [call, kind, code, length] = one.subarray(CALL, TEXT);
    const words = [BigInt(reply), put(board, one.subarray(0, A))];
    const deep = put(depths, one.subarray(DEPTHS, CALL));
    const room = BigInt(length);
    memory.fill(0, reply, reply + 640);
    if (call === 0) calls.gopat_attack(...words, a, deep);
    else if (call === 1) calls.gopat_defend(...words, a, deep);
    else if (call === 2) calls.gopat_connect(...words, a, b, one[DEPTHS]);
    else if (call === 3) calls.gopat_disconnect(...words, a, b, one[DEPTHS]);
    else if (call === 4) calls.gopat_liberties(...words, a);
    else if (call === 5) calls.gopat_check(...words, kind, a, deep, code, put(text, one.subarray(TEXT)), room);
    else if (call === 7) calls.gopat_all(...words, kind, a, deep);
    else if (call === 8) calls.gopat_proof(...words, kind, a, deep, put(text, BEFORE.subarray(0, length + 1)), room);
    else calls.gopat_play(...words, kind, a);
    const bytes = (from, n) => memory.subarray(from, from + n);
    const found = {
      4: () => [0, number(reply + 2)],
      5: () => [0, number(reply + 2)],
      6: () => [0, mixed(bytes(reply + 6, POINTS))],
      7: () => [memory[reply + 1], (mixed(bytes(reply + 3, POINTS)) * 31 + memory[reply + 2]) % 65536],
      8: () => [memory[reply + 1], (mixed(bytes(text, length + 1)) + number(reply + 2)) % 65536],
    }[call] ?? (() => [memory[reply + 1], number(reply + 2)]);
    told.push([memory[reply], ...found()]);
  }
  return told;
}
