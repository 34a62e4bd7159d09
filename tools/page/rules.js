// Positions, points and their names, and the rules of play as the page's own script has them. They serve to draw boards
// and to step through a proof. What the page answers about a position comes from the module.
//
// A board is { size, banColour, banPoint, cells }: banColour is the colour that may not play at banPoint, 0 for no ban,
// and cells has 0, 1 or 2 for each point, row by row from the top.

const EMPTY = 0;
const BLACK = 1;
const WHITE = 2;
const PASS = 65535;
const NO_MOVE = 65534;
const COLUMNS = "ABCDEFGHJKLMNOPQRSTUVWXYZ";

/** A board without stones. */
function emptyBoard(size) {
  return { size, banColour: 0, banPoint: 0, cells: new Uint8Array(size * size) };
}

/** A copy of a board, without a ban, in which this colour stands on a point. */
function withCell(board, point, colour) {
  const cells = Uint8Array.from(board.cells);
  cells[point] = colour;
  return { size: board.size, banColour: 0, banPoint: 0, cells };
}

function other(colour) {
  return BLACK + WHITE - colour;
}

/** The name of a move: a vertex such as E5, PASS, or an empty text for no move. */
function vertexOf(size, point) {
  if (point === PASS) return "PASS";
  if (point >= size * size) return "";
  return COLUMNS[point % size] + (size - Math.floor(point / size));
}

/** The move that a word names, in either case; undefined if it names none. */
function moveNamed(size, word) {
  const capitals = word.toUpperCase();
  if (capitals === "PASS") return PASS;
  const column = COLUMNS.slice(0, size).indexOf(capitals[0] ?? " ");
  const row = /^[0-9]{1,2}$/.test(capitals.slice(1)) ? Number(capitals.slice(1)) : 0;
  return column < 0 || row < 1 || row > size ? undefined : (size - row) * size + column;
}

/** The points next to a point. */
function neighbours(size, point) {
  const row = Math.floor(point / size);
  const column = point % size;
  const found = [];
  if (row > 0) found.push(point - size);
  if (column > 0) found.push(point - 1);
  if (column < size - 1) found.push(point + 1);
  if (row < size - 1) found.push(point + size);
  return found;
}

/** The stones and the liberties of the string at a point. */
function stringAt(size, cells, point) {
  const stones = new Set([point]);
  const liberties = new Set();
  for (const stone of stones) {
    for (const near of neighbours(size, stone)) {
      if (cells[near] === EMPTY) liberties.add(near);
      else if (cells[near] === cells[point]) stones.add(near);
    }
  }
  return { stones, liberties };
}

/** The board after a play for which no ban counts; null if the point is occupied or the play is suicide. */
function playFree(board, colour, point) {
  const { size } = board;
  if (board.cells[point] !== EMPTY) return null;
  const cells = Uint8Array.from(board.cells);
  cells[point] = colour;
  const taken = [];
  for (const near of neighbours(size, point)) {
    if (cells[near] !== other(colour)) continue;
    const string = stringAt(size, cells, near);
    if (string.liberties.size > 0) continue;
    for (const stone of string.stones) {
      cells[stone] = EMPTY;
      taken.push(stone);
    }
  }
  const own = stringAt(size, cells, point);
  if (own.liberties.size === 0) return null;
  const isKo = taken.length === 1 && own.stones.size === 1 && own.liberties.size === 1;
  return { size, banColour: isKo ? other(colour) : 0, banPoint: isKo ? taken[0] : 0, cells };
}

/** The board after a pass. */
function passed(board) {
  return { ...board, banColour: 0, banPoint: 0 };
}

/** A number with its noun. */
function counted(number, one, many) {
  return `${number} ${number === 1 ? one : many}`;
}
