// Reads what may be pasted: the text of `showboard`, gopat's or GNU Go's, and game records in SGF.

/** A text that cannot be read; the message says why. */
class NotRead extends Error {}

/** The board that the rows of a text show: X is black, O is white. */
function boardOfRows(text) {
  const lines = text.split("\n").filter((line) => /^ *\d+ +[.+XO]/.test(line));
  const rows = lines.map((line) => line.trim().split(/\s+/));
  const board = emptyBoard(checkedSize(rows.length, "rows"));
  rows.forEach(([name, ...marks], row) => {
    const wanted = board.size - row;
    if (Number(name) !== wanted) throw new NotRead(`row ${name} stands where row ${wanted} belongs`);
    const shown = marks.slice(0, board.size);
    if (shown.length < board.size || !shown.every((mark) => ".+XO".includes(mark) && mark.length === 1)) {
      throw new NotRead(`row ${name} does not have ${board.size} points, each . X or O`);
    }
    shown.forEach((mark, column) => {
      board.cells[row * board.size + column] = { X: BLACK, O: WHITE }[mark] ?? EMPTY;
    });
  });
  return board;
}

function checkedSize(size, what) {
  if (!(size >= 2 && size <= 25)) throw new NotRead(`${size} ${what}: a board has 2 to 25`);
  return size;
}

/** The main line of a record: the size, and steps that each set stones ({ cells: [[point, colour], ..] }) or play
    ({ colour, point }). */
function recordOf(text) {
  const properties = mainLine(text);
  const size = checkedSize(sizeIn(properties), "rows");
  const steps = [];
  for (const [name, values] of properties) {
    const colour = { AB: BLACK, AW: WHITE, AE: EMPTY, B: BLACK, W: WHITE }[name];
    if (name.startsWith("A") && colour !== undefined) {
      const points = values.flatMap((value) => listed(value)).map((value) => pointIn(value, size));
      steps.push({ cells: points.map((point) => [point, colour]) });
    } else if (colour !== undefined) {
      values.forEach((value) => steps.push({ colour, point: moveIn(value, size) }));
    }
  }
  return { size, steps };
}

function sizeIn(properties) {
  const stated = properties.find(([name]) => name === "SZ");
  if (stated && !/^\s*\d+\s*$/.test(stated[1][0])) throw new NotRead(`${stated[1][0]} is no size`);
  return stated ? Number(stated[1][0]) : 19;
}

/** The properties of the first game tree, by the first variation: names, small letters left out, with their values. */
function mainLine(text) {
  const found = [];
  const token = /[()]|([A-Za-z]+)((?:\s*\[(?:\\[\s\S]|[^\\\]])*\])+)/g;
  for (const [whole, name, values] of text.slice(Math.max(text.indexOf("("), 0)).matchAll(token)) {
    if (whole === ")") return found;
    if (name) {
      const each = [...values.matchAll(/\[((?:\\[\s\S]|[^\\\]])*)\]/g)];
      found.push([name.replace(/[a-z]/g, ""), each.map((value) => value[1].replace(/\\([\s\S])/g, "$1"))]);
    }
  }
  throw new NotRead("the record does not end: a closing parenthesis is missing");
}

/** The values that a value of a list stands for: AA:BB is a rectangle. */
function listed(value) {
  const corners = /^([a-y])([a-y]):([a-y])([a-y])$/.exec(value);
  if (!corners) return [value];
  const [left, top, right, bottom] = corners.slice(1).map((letter) => letter.charCodeAt(0));
  const found = [];
  for (let row = top; row <= bottom; row += 1) {
    for (let column = left; column <= right; column += 1) found.push(String.fromCharCode(column, row));
  }
  return found;
}

/** The point of a value of two letters. */
function pointIn(value, size) {
  const [column, row] = [...value.trim()].map((letter) => letter.charCodeAt(0) - "a".charCodeAt(0));
  const isPoint = value.trim().length === 2 && column >= 0 && row >= 0 && column < size && row < size;
  if (!isPoint) throw new NotRead(`${value} is no point of a board of ${size} rows`);
  return row * size + column;
}

/** The point of a move. An empty value is a pass, and so is tt up to 19 rows. */
function moveIn(value, size) {
  return value.trim() === "" || (value.trim() === "tt" && size <= 19) ? PASS : pointIn(value, size);
}

/** Whether a text looks like a game record. */
function isRecord(text) {
  return /\(\s*;/.test(text);
}
