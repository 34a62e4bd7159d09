// Follows the words of a proof through the game tree, so that the page can show each move: the candidates of
// docs/DEFINITIONS.md and the rules of docs/PROOFS_OF_READINGS.md. Whether the words are a proof is said by the module;
// this finds out which moves they stand for.
//
// A node is { board, target, defender, isAttackers, plies, wide, isWider, attackerKo, defenderKo }. A step is the word
// at a node and the steps behind it: { word, isAttackers, reason, behind: [{ point, step }] }. The reason says why `.`
// stands, or that the defender takes back; else it is empty.

/** The points of these strings' liberties, of each string that has at most and at least so many. */
function libertiesOf(strings, most, least = 0) {
  const isFew = ({ liberties }) => least <= liberties.size && liberties.size <= most;
  return strings.filter(isFew).flatMap((string) => [...string.liberties]);
}

/** The strings of a colour that are next to these points. */
function stringsBeside({ size, cells }, points, colour) {
  const seen = new Set();
  const found = [];
  for (const point of points) {
    for (const near of neighbours(size, point)) {
      if (cells[near] !== colour || seen.has(near)) continue;
      const string = stringAt(size, cells, near);
      string.stones.forEach((stone) => seen.add(stone));
      found.push(string);
    }
  }
  return found;
}

function emptyBeside({ size, cells }, points) {
  return [...points].flatMap((point) => neighbours(size, point).filter((near) => cells[near] === EMPTY));
}

/** Where the attacker's stone at one of these liberties would have its only liberty, if this was empty before. */
function backfilling(board, attacker, liberties) {
  const found = [];
  for (const liberty of liberties) {
    const after = playFree(board, attacker, liberty);
    const left = after ? [...stringAt(after.size, after.cells, liberty).liberties] : [];
    if (left.length === 1 && board.cells[left[0]] === EMPTY) found.push(left[0]);
  }
  return found;
}

/** The points that the stated tree tries at a node. */
function statedPoints({ board, target, defender, wide }) {
  const { stones, liberties } = stringAt(board.size, board.cells, target);
  const found = [...liberties, ...libertiesOf(stringsBeside(board, stones, other(defender)), 1)];
  if (wide === 0) return found;
  found.push(...backfilling(board, other(defender), liberties));
  if (liberties.size <= 2) found.push(...emptyBeside(board, liberties));
  return found;
}

/** Whether a stone of the colour at an empty point would take nothing and have at most one liberty, or none. */
function isCramped(board, colour, point) {
  if (stringsBeside(board, [point], other(colour)).some((enemy) => enemy.liberties.size === 1)) return false;
  const friends = stringsBeside(board, [point], colour);
  const reached = new Set([...emptyBeside(board, [point]), ...friends.flatMap((friend) => [...friend.liberties])]);
  reached.delete(point);
  return reached.size <= 1;
}

/** The points that the wider tree tries besides at a node. */
function furtherPoints({ board, target, defender, isAttackers, wide }) {
  const attacker = other(defender);
  const string = stringAt(board.size, board.cells, target);
  const enemies = stringsBeside(board, string.stones, attacker);
  const isOwn = (ally) => ally.stones.has(target);
  const weak = enemies.filter((enemy) => enemy.liberties.size <= 2);
  const allies = weak.flatMap((enemy) => stringsBeside(board, enemy.stones, defender)).filter((one) => !isOwn(one));
  const linked = stringsBeside(board, string.liberties, defender).filter((friend) => !isOwn(friend));
  const found = libertiesOf(allies, 1);
  if (isAttackers) {
    found.push(...libertiesOf(weak, 2));
    if (wide === 0) return found;
    if (string.liberties.size === 3) found.push(...emptyBeside(board, string.liberties));
    return [...found, ...libertiesOf(linked, 2)];
  }
  const friends = linked.filter((friend) => friend.liberties.size <= 4);
  found.push(...libertiesOf(friends.flatMap((friend) => stringsBeside(board, friend.stones, attacker)), 1));
  if (wide === 0) return found;
  found.push(...libertiesOf(enemies, 4), ...libertiesOf(friends, 4));
  found.push(...emptyBeside(board, new Set(libertiesOf(enemies, 3, 2))));
  const cramped = libertiesOf(weak, 2).filter((point) => isCramped(board, defender, point));
  return [...found, ...cramped.flatMap((point) => libertiesOf(stringsBeside(board, [point], attacker), 2))];
}

/** The points that are tried at a node, in reading order. */
function candidates(node) {
  const further = node.isWider ? furtherPoints(node) : [];
  return [...new Set([...statedPoints(node), ...further])].sort((a, b) => a - b);
}

/** The node after a pass, or after a play at a candidate; null where it cannot be played. */
function nodeAfter(node, point) {
  const colour = node.isAttackers ? other(node.defender) : node.defender;
  let { attackerKo, defenderKo } = node;
  const isBanned = point !== PASS && node.board.banColour === colour && node.board.banPoint === point;
  if (isBanned) {
    if ((node.isAttackers ? attackerKo : defenderKo) === 0) return null;
    if (node.isAttackers) attackerKo -= 1;
    else defenderKo -= 1;
  }
  const board = point === PASS ? passed(node.board) : playFree(node.board, colour, point);
  const { plies, wide, isAttackers } = node;
  const after = { isAttackers: !isAttackers, plies: plies - 1, wide: Math.max(wide - 1, 0), attackerKo, defenderKo };
  return board && { ...node, ...after, board };
}

/** Each move that a side has at a node, the pass first, with the node that it leads to. */
function children(node) {
  const points = [...(node.isAttackers ? [] : [PASS]), ...candidates(node)];
  return points.map((point) => [point, nodeAfter(node, point)]).filter(([, child]) => child);
}

function isCaptured(node) {
  return node.board.cells[node.target] === EMPTY;
}

/** The node after the defender takes back the lone stone that he has just lost in the wider tree: each neighbour of its
    empty point holds a stone of the attacker. Null where he cannot. */
function takingBack(node) {
  const { board, target, defender, isAttackers, isWider } = node;
  if (!isWider || isAttackers || !isCaptured(node)) return null;
  const isAlone = neighbours(board.size, target).every((near) => board.cells[near] === other(defender));
  return isAlone ? nodeAfter(node, target) : null;
}

function libertyCount(node) {
  return stringAt(node.board.size, node.board.cells, node.target).liberties.size;
}

/** Why `.` stands at a node. */
function reasonAt(node) {
  const target = vertexOf(node.board.size, node.target);
  if (takingBack(node)) return `${target} is empty, but the defender can take back, and no ply is left.`;
  if (isCaptured(node)) return `${target} is empty: the string is captured.`;
  if (node.plies === 0) return `${target} still stands, and no ply is left.`;
  const liberties = libertyCount(node);
  const plays = Math.floor((node.plies + (node.isAttackers ? 1 : 0)) / 2);
  const head = `The string at ${target} has ${counted(liberties, "liberty", "liberties")}`;
  const left = counted(node.plies, "ply", "plies");
  if (liberties > plays) return `${head}; with ${left} left the attacker can play ${counted(plays, "move", "moves")}.`;
  if (liberties > 4) return `${head}; against more than 4 the attacker tries nothing.`;
  return `${head}; with no wide ply left the attacker tries nothing against more than 2.`;
}

/** Words that are followed one after another. */
class Words {
  constructor(text) {
    this.all = text.split(/\s+/).filter(Boolean);
    this.at = 0;
  }

  next() {
    this.at += 1;
    return this.all[this.at - 1] ?? "";
  }
}

/** A text that is followed and does not fit the tree. */
class NotFollowed extends Error {}

/** The step at a node whose word comes next. */
function stepAt(node, words) {
  const word = words.next();
  const { isAttackers } = node;
  if (word === ".") return { word, isAttackers, reason: reasonAt(node), behind: [] };
  if (node.plies === 0) throw new NotFollowed(word);
  if (isCaptured(node)) return stepBack(node, word, words);
  if (word === "*") {
    const behind = children(node).map(([point, child]) => ({ point, step: stepAt(child, words) }));
    return { word, isAttackers, reason: "", behind };
  }
  const point = moveNamed(node.board.size, word);
  const child = point === undefined ? null : nodeAfter(node, point);
  if (!child) throw new NotFollowed(word);
  return { word, isAttackers, reason: "", behind: [{ point, step: stepAt(child, words) }] };
}

/** The step at a node whose target is taken, and whose word is the play by which the defender takes back. */
function stepBack(node, word, words) {
  const child = takingBack(node);
  if (!child || moveNamed(node.board.size, word) !== node.target) throw new NotFollowed(word);
  const reason = `${vertexOf(node.board.size, node.target)} is empty, and the defender takes back:`;
  return { word, isAttackers: false, reason, behind: [{ point: node.target, step: stepAt(child, words) }] };
}

/** The node at which a question begins under the ko allowances of a code. */
function firstNode(board, kind, target, { plies, wide, tree }, code) {
  const asked = code === 1 ? 1 : 0;
  const opposed = code === 3 ? 1 : 0;
  const isAttackers = kind === "attack";
  const [attackerKo, defenderKo] = isAttackers ? [asked, opposed] : [opposed, asked];
  const defender = board.cells[target];
  return { board, target, defender, isAttackers, plies, wide, isWider: tree === 1, attackerKo, defenderKo };
}

/** The parts of a proof, from code 3 downwards: { code, claim, text, first }; the claim is W if the attacker wins, and
    the text is the part's words. Null if the words do not fit the tree. */
function partsOf(board, kind, target, depths, code, text) {
  const words = new Words(text);
  const parts = [];
  try {
    for (let level = 3; level >= Math.max(code, 1); level -= 1) {
      const start = words.at;
      const claim = words.next();
      const first = stepAt(firstNode(board, kind, target, depths, level), words);
      parts.push({ code: level, claim, text: words.all.slice(start, words.at).join(" "), first });
    }
  } catch (why) {
    if (why instanceof NotFollowed) return null;
    throw why;
  }
  return words.at === words.all.length ? parts : null;
}
