// Boards and pieces as SVG, drawn from the text of a position.
import { element, figureOf } from "./figures.js";
import { isWhite, parseFen, squareName } from "./texts.js";

const SIZE = 60;
// The rim has the names of files and ranks at the left and below.
const MARGIN = 18;
const RIM = 6;

/** A piece whose middle is at a point: the figure of its kind, or its letter in a disc. */
export function drawPiece(piece, figures, x, y) {
  const letter = piece.replace(/[+~]/g, "");
  const figure = piece.includes("+") ? null : figureOf(figures[letter.toLowerCase()]);
  const side = isWhite(letter) ? "white" : "black";
  const made = element("g", { class: `piece ${side}${figure ? " figure" : ""}`, transform: `translate(${x} ${y})` });
  if (figure) made.append(figure);
  else made.append(element("circle", { r: 0.4 * SIZE }), element("text", { y: 1 }, piece.replace("~", "").toUpperCase()));
  if (piece.includes("~")) made.append(element("circle", { r: 4, cx: 0.3 * SIZE, cy: -0.3 * SIZE, class: "promoted" }));
  return made;
}

/** A piece by itself, for a hand. */
export function pieceIcon(piece, figures) {
  return element("svg", { viewBox: `0 0 ${SIZE} ${SIZE}`, "aria-hidden": "true" }, drawPiece(piece, figures, SIZE / 2, SIZE / 2));
}

// The kinds of squares by the marks.
const SQUARES = {
  last: (marks, name) => (marks.last || []).includes(name), checker: (marks, name) => (marks.checkers || []).includes(name),
  chosen: (marks, name) => marks.chosen === name, checked: (marks, name) => marks.checked === name,
};

/** A board that shows positions. Squares have their names as `data-square`. */
export class BoardView {
  constructor(place) {
    this.place = place;
    this.squares = new Map();
    this.isTurned = false;
  }

  /** Draws a position. `marks` has the chosen square and that of a king in check, the squares of the last move, of pieces that give check, of
   *  targets and of rings, the shades, and arrows: `{ from, to, kind }`. */
  draw(fen, figures, marks = {}) {
    const position = parseFen(fen);
    const rows = position.ranks.length;
    const focused = this.place.contains(document.activeElement) ? document.activeElement.dataset.square : null;
    Object.assign(this, { files: position.files, rows, squares: new Map() });
    this.svg = element("svg", {
      class: "board", viewBox: `0 0 ${position.files * SIZE + MARGIN + RIM} ${rows * SIZE + MARGIN + RIM}`, role: "grid", "aria-label": "The board",
    });
    this.svg.append(element("rect", { class: "edge", width: "100%", height: "100%", rx: 4 }));
    this.drawNames();
    position.ranks.forEach((rank, row) => rank.forEach((piece, file) => this.drawSquare(file, rows - 1 - row, piece, figures, marks)));
    for (const arrow of marks.arrows || []) this.drawArrow(arrow);
    this.place.replaceChildren(this.svg);
    this.focus(focused && this.squares.has(focused) ? focused : null);
  }

  /** The left upper corner of a square. */
  corner(file, rank) {
    const [x, y] = this.isTurned ? [this.files - 1 - file, rank] : [file, this.rows - 1 - rank];
    return [MARGIN + x * SIZE, RIM + y * SIZE];
  }

  drawNames() {
    for (let file = 0; file < this.files; file += 1) {
      const x = this.corner(file, 0)[0] + SIZE / 2;
      this.svg.append(element("text", { class: "name", x, y: RIM + this.rows * SIZE + 13 }, squareName(file, 0)[0]));
    }
    for (let rank = 0; rank < this.rows; rank += 1) {
      const y = this.corner(0, rank)[1] + SIZE / 2 + 4;
      this.svg.append(element("text", { class: "name", x: MARGIN / 2, y }, String(rank + 1)));
    }
  }

  drawSquare(file, rank, piece, figures, marks) {
    const name = squareName(file, rank);
    const [x, y] = this.corner(file, rank);
    const at = { x, y, width: SIZE, height: SIZE };
    const kinds = ["square", ...Object.keys(SQUARES).filter((kind) => SQUARES[kind](marks, name))];
    const group = element("g", {
      class: kinds.join(" "), "data-square": name, tabindex: -1, role: "gridcell", "aria-label": piece ? `${name}, ${piece}` : name,
    });
    group.append(element("rect", { ...at, class: (file + rank) % 2 ? "light" : "dark" }));
    for (const [kind, squares] of Object.entries(marks.shades || {})) {
      if (squares.has(name)) group.append(element("rect", { ...at, class: `shade ${kind}` }));
    }
    if (piece) group.append(drawPiece(piece, figures, x + SIZE / 2, y + SIZE / 2));
    if ((marks.targets || []).includes(name)) group.append(this.mark(x, y, piece !== null));
    if ((marks.rings || []).includes(name)) group.append(element("circle", { cx: x + SIZE / 2, cy: y + SIZE / 2, r: 0.45 * SIZE, class: "drawn-ring" }));
    group.append(element("rect", { x: x + 2, y: y + 2, width: SIZE - 4, height: SIZE - 4, class: "ring" }));
    this.squares.set(name, group);
    this.svg.append(group);
  }

  mark(x, y, isTake) {
    const middle = { cx: x + SIZE / 2, cy: y + SIZE / 2 };
    return element("circle", isTake ? { ...middle, r: 0.46 * SIZE, class: "take" } : { ...middle, r: 0.15 * SIZE, class: "dot" });
  }

  middle(square) {
    const [x, y] = this.corner(square.charCodeAt(0) - 97, Number(square.slice(1)) - 1);
    return [x + SIZE / 2, y + SIZE / 2];
  }

  drawArrow({ from, to, kind }) {
    if (!this.squares.has(from) || !this.squares.has(to)) return;
    const [[x1, y1], [x2, y2]] = [this.middle(from), this.middle(to)];
    const length = Math.hypot(x2 - x1, y2 - y1) || 1;
    const [dx, dy] = [(x2 - x1) / length, (y2 - y1) / length];
    const head = [[x2, y2], [x2 - 16 * dx + 9 * dy, y2 - 16 * dy - 9 * dx], [x2 - 16 * dx - 9 * dy, y2 - 16 * dy + 9 * dx]];
    this.svg.append(element("line", { class: `arrow ${kind}`, x1, y1, x2: x2 - 14 * dx, y2: y2 - 14 * dy, "stroke-width": 6 }));
    this.svg.append(element("polygon", { class: `arrow ${kind}`, points: head.map((point) => point.join(",")).join(" ") }));
  }

  /** The square at a point of the window, or null. */
  squareAt(x, y) {
    const point = new DOMPoint(x, y).matrixTransform(this.svg.getScreenCTM().inverse());
    const [column, row] = [Math.floor((point.x - MARGIN) / SIZE), Math.floor((point.y - RIM) / SIZE)];
    if (column < 0 || row < 0 || column >= this.files || row >= this.rows) return null;
    return this.isTurned ? squareName(this.files - 1 - column, row) : squareName(column, this.rows - 1 - row);
  }

  /** Moves the picture of a piece with a pointer. */
  drag(square, x, y) {
    const piece = this.squares.get(square).querySelector(".piece");
    if (!piece) return;
    const point = new DOMPoint(x, y).matrixTransform(this.svg.getScreenCTM().inverse());
    piece.classList.add("dragged");
    piece.setAttribute("transform", `translate(${point.x} ${point.y})`);
    this.svg.append(piece.parentNode);
  }

  /** One square can be reached by the Tab key: that which is focused, or the first. */
  focus(square) {
    const name = square || this.current || squareName(0, 0);
    const target = this.squares.get(name) || this.squares.values().next().value;
    for (const one of this.squares.values()) one.setAttribute("tabindex", one === target ? 0 : -1);
    this.current = target.dataset.square;
    if (square) target.focus({ preventScroll: true });
  }

  /** Goes to the next square in a direction of the keyboard. */
  step(dx, dy) {
    const turn = this.isTurned ? -1 : 1;
    const file = this.current.charCodeAt(0) - 97 + turn * dx;
    const rank = Number(this.current.slice(1)) - 1 + turn * dy;
    if (file >= 0 && rank >= 0 && file < this.files && rank < this.rows) this.focus(squareName(file, rank));
  }
}

/** A small board with marks for where a piece goes and what it takes, and the hurdles that it hops over. */
export function picture(fen, figures, { quiet, take, hurdles = [] }, caption) {
  const place = document.createElement("div");
  const view = new BoardView(place);
  view.draw(fen, figures);
  const found = document.createElement("figure");
  for (const square of hurdles) {
    const [x, y] = view.middle(square);
    view.svg.append(element("rect", { class: "hurdle", x: x - 0.3 * SIZE, y: y - 0.3 * SIZE, width: 0.6 * SIZE, height: 0.6 * SIZE, rx: 8 }));
  }
  for (const [squares, isTake] of [[quiet, false], [take, true]]) {
    for (const square of squares) {
      const [x, y] = view.middle(square);
      view.svg.append(view.mark(x - SIZE / 2, y - SIZE / 2, isTake));
    }
  }
  for (const square of view.squares.values()) square.removeAttribute("tabindex");
  const text = document.createElement("figcaption");
  text.textContent = caption;
  found.append(view.svg, text);
  return found;
}
