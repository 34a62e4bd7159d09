// Draws boards as SVG. Lines are one unit apart, and the first row and the first column lie at 0.

const BEYOND = 0.6;
const NAMED = 1.15;

/** The frame of a picture of this size, names included: left, top, width and height. */
function frameOf(size) {
  const side = size - 1 + NAMED + BEYOND;
  return { left: -NAMED, top: -BEYOND, width: side, height: side };
}

/** The point of the board at a place of the screen; undefined beside the board. */
function pointAt(picture, size, x, y) {
  const shown = picture.getBoundingClientRect();
  const frame = frameOf(size);
  const column = Math.round(frame.left + ((x - shown.left) / shown.width) * frame.width);
  const row = Math.round(frame.top + ((y - shown.top) / shown.height) * frame.height);
  const isOn = column >= 0 && row >= 0 && column < size && row < size;
  return isOn ? row * size + column : undefined;
}

/** The wood, the lines and the names. */
function gridSvg(size) {
  const frame = frameOf(size);
  const last = size - 1;
  let lines = "";
  let names = "";
  for (let line = 0; line < size; line += 1) {
    lines += `M0 ${line}H${last}M${line} 0V${last}`;
    names += `<text class="name" x="-.78" y="${line + 0.15}">${size - line}</text>`;
    names += `<text class="name" x="${line}" y="${last + 0.98}">${COLUMNS[line]}</text>`;
  }
  const box = `x="${frame.left}" y="${frame.top}" width="${frame.width}" height="${frame.height}"`;
  const edge = `M0 0H${last}V${last}H0Z`;
  const wood = `<rect class="wood" ${box} rx=".15"/>`;
  return `${wood}<path class="line" d="${lines}"/><path class="edge" d="${edge}"/>${names}`;
}

/** A mark at a point, by what it says: "good" (a move of the attack), "safe" (of the defence), "both", "target",
    "picked", "last", "ban", "cursor". */
function markSvg(size, kind, point, colour) {
  const x = point % size;
  const y = Math.floor(point / size);
  const on = { [BLACK]: "on-black", [WHITE]: "on-white" }[colour] ?? "on-wood";
  const disc = `<circle class="good" cx="${x}" cy="${y}" r=".34"/>`;
  const inner = `<rect class="inner" x="${x - 0.2}" y="${y - 0.2}" width=".4" height=".4"/>`;
  const square = `<rect class="safe" x="${x - 0.29}" y="${y - 0.29}" width=".58" height=".58"/>`;
  return {
    good: disc,
    safe: square,
    both: `<circle class="good" cx="${x}" cy="${y}" r=".4"/>${inner}`,
    target: `<path class="mark ${on}" d="M${x} ${y - 0.3}L${x + 0.26} ${y + 0.17}H${x - 0.26}Z"/>`,
    picked: `<rect class="mark ${on}" x="${x - 0.22}" y="${y - 0.22}" width=".44" height=".44"/>`,
    last: `<circle class="last" cx="${x}" cy="${y}" r=".17"/>`,
    ban: `<rect class="ban" x="${x - 0.24}" y="${y - 0.24}" width=".48" height=".48"/>`,
    cursor: `<rect class="cursor" x="${x - 0.46}" y="${y - 0.46}" width=".92" height=".92" rx=".1"/>`,
  }[kind];
}

/** Stones as one path for each colour: each stone is a line without length that has round ends. */
function stonesSvg(board) {
  const dots = { [BLACK]: "", [WHITE]: "" };
  board.cells.forEach((cell, point) => {
    if (cell !== EMPTY) dots[cell] += `M${point % board.size} ${Math.floor(point / board.size)}h0`;
  });
  return `<path class="rim" d="${dots[BLACK] + dots[WHITE]}"/><path class="black" d="${dots[BLACK]}"/>` +
    `<path class="white" d="${dots[WHITE]}"/>`;
}

/** What stands inside the picture of a board; marks are pairs of a kind and a point. */
function boardSvg(board, marks) {
  const drawn = marks.map(([kind, point]) => markSvg(board.size, kind, point, board.cells[point]));
  return gridSvg(board.size) + stonesSvg(board) + drawn.join("");
}

/** The value of a picture's viewBox. */
function viewBoxOf(size) {
  const frame = frameOf(size);
  return `${frame.left} ${frame.top} ${frame.width} ${frame.height}`;
}
