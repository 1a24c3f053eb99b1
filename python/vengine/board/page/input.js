// Moves by hand: clicks, drags and keys on the board, drags from the hand, and the choice among moves of the same squares.
import { pieceIcon } from "./drawing.js";
import { play, stepByKey } from "./game.js";
import { clearMarks, drawnMarks } from "./marks.js";
import { $, chosen, game, onShow, show, shownFen, strategy, thinking, view } from "./state.js";
import { addedName, castleTo, isWhite, kingSquare, parseFen, parseMove, pieceAt, regionSquares, sideOf } from "./texts.js";

// From how many pixels on a pointer drags.
const DRAGS = 6;
const pressed = { from: null, x: 0, y: 0, isDrag: false };

// ---- what is shown

onShow(() => {
  view.draw(shownFen(), game.figures, strategy.isShown ? drawnMarks() : marks());
  showHands();
  $("strategy-note").hidden = !strategy.isShown;
});

function marks() {
  const last = game.ply ? parseMove(game.line[game.ply - 1]) : null;
  const drawn = drawnMarks();
  return {
    chosen: chosen.from, last: last ? [last.from, last.to] : [], rings: drawn.rings, arrows: [...thoughtArrows(), ...drawn.arrows], shades: shades(),
    targets: game.legal.filter((move) => move.from === chosen.from).map((move) => move.to),
    checkers: game.at.checkers, checked: game.at.checkers.length ? kingSquare(game.at.fen, game.rules) : null,
  };
}

/** The best moves as arrows, the best of all last so that it is on top. */
function thoughtArrows() {
  if (chosen.from) return [];
  return thinking.lines.map((info, place) => ({ ...parseMove(info.move), kind: place ? "other" : "best" })).reverse();
}

/** The squares of the regions that are asked for, of the side to move. */
function shades() {
  const found = {};
  const position = parseFen(game.at.fen);
  const side = position.side === "w" ? "White" : "Black";
  const rules = new Map(game.rules);
  const keys = { promotion: `promotionRegion${side}`, drop: `dropRegion${side}`, flag: `flagRegion${side}` };
  const all = position.ranks.map((_, row) => `*${row + 1}`).join(" ");
  const defaults = { promotion: side === "White" ? "*8" : "*1", drop: rules.get("pieceDrops") === "true" ? all : "-", flag: "-" };
  for (const box of $("shades").querySelectorAll("input:checked")) {
    found[box.value] = regionSquares(rules.get(keys[box.value]) || defaults[box.value], position.files, position.ranks.length);
  }
  return found;
}

function showHands() {
  const { hand } = parseFen(shownFen());
  for (const [id, isUpper] of [["hand-top", view.isTurned], ["hand-bottom", !view.isTurned]]) {
    const letters = [...(hand || "")].filter((letter) => isWhite(letter) === isUpper);
    const held = [...new Set(letters)].map((letter) => [letter, letters.filter((one) => one === letter).length]);
    $(id).replaceChildren(...held.map(([letter, count]) => handButton(letter, count)));
  }
}

function handButton(letter, count) {
  const made = document.createElement("button");
  const from = `${letter.toUpperCase()}@`;
  const isMovers = isWhite(letter) === (sideOf(game.at.fen) === "w");
  made.append(pieceIcon(letter, game.figures), count > 1 ? `×${count}` : "");
  made.setAttribute("aria-label", `${count} ${letter} in hand`);
  made.dataset.hand = letter;
  made.disabled = strategy.isShown || !isMovers || !game.legal.some((move) => move.from === from);
  made.setAttribute("aria-pressed", chosen.from === from && isMovers);
  made.addEventListener("click", () => choose(chosen.from === from ? null : from));
  return made;
}

// ---- what is meant

function choose(from) {
  $("choice").close();
  chosen.from = from;
  show();
}

/** What a click on a square means: the target of what was chosen, a piece to choose, or nothing. */
function pick(square) {
  const moves = game.legal.filter((move) => move.from === chosen.from && move.to === square);
  const meant = moves.length ? moves : castles(chosen.from, square);
  if (meant.length) return choice(meant, square);
  return choose(square !== chosen.from && game.legal.some((move) => move.from === square) ? square : null);
}

/** The castles of a king that is put onto its rook, those with which a piece comes in at the rook's gate among them. */
function castles(from, square) {
  const target = castleTo(game.at.fen, game.rules, from, square);
  return target === null ? [] : game.legal.filter((move) => (move.from === from && move.to === target) || (move.from === square && move.to === from));
}

/** Plays the move, or lets the user say which of several is meant, beside the square. */
function choice(moves, square) {
  if (moves.length === 1) return play(moves[0].text);
  $("choices").replaceChildren(...moves.map(choiceButton));
  const [box, frame] = [view.squares.get(square).getBoundingClientRect(), $("table").getBoundingClientRect()];
  $("choice").show();
  const most = frame.width - $("choice").offsetWidth;
  $("choice").style.left = `${Math.max(0, Math.min(most, box.left - frame.left + box.width / 2 - $("choice").offsetWidth / 2))}px`;
  const below = box.bottom - frame.top + 4;
  $("choice").style.top = `${below + $("choice").offsetHeight > frame.height ? box.top - frame.top - $("choice").offsetHeight - 4 : below}px`;
  $("choices").firstChild.focus();
  return undefined;
}

/** One of several moves, as the figure of what the piece becomes or of what comes in. */
function choiceButton(move) {
  const made = document.createElement("button");
  const piece = pieceAt(game.at.fen, move.from) || move.from[0];
  const added = move.added.toUpperCase();
  const shown = move.added === "" ? piece : move.added === "+" ? `+${piece}` : isWhite(piece) ? added : added.toLowerCase();
  const name = Object.assign(document.createElement("span"), { textContent: addedName(move, game.names) });
  made.append(pieceIcon(shown, game.figures), name);
  made.dataset.move = move.text;
  made.addEventListener("click", () => {
    $("choice").close();
    play(move.text);
  });
  return made;
}

onShow(() => chosen.from || $("choice").close());
$("cancel").addEventListener("click", () => choose(null));
document.addEventListener("pointerdown", (event) => {
  if ($("choice").open && !$("choice").contains(event.target)) $("choice").close();
}, true);

// ---- pointers

$("board").addEventListener("pointerdown", (event) => {
  $("board").classList.remove("by-keys");
  if (event.button === 0) clearMarks();
  if (strategy.isShown || event.button !== 0) return;
  press(event, view.squareAt(event.clientX, event.clientY));
  if (pressed.from) view.focus(pressed.from);
  event.preventDefault();
});

for (const id of ["hand-top", "hand-bottom"]) {
  $(id).addEventListener("pointerdown", (event) => {
    const held = event.target.closest("[data-hand]:not(:disabled)");
    if (event.button === 0 && held) press(event, `${held.dataset.hand.toUpperCase()}@`);
  });
}

function press(event, from) {
  Object.assign(pressed, { from, x: event.clientX, y: event.clientY, isDrag: false });
}

document.addEventListener("pointermove", (event) => {
  if (!pressed.from) return;
  if (!pressed.isDrag && Math.hypot(event.clientX - pressed.x, event.clientY - pressed.y) > DRAGS
      && game.legal.some((move) => move.from === pressed.from)) {
    pressed.isDrag = true;
    choose(pressed.from);
  }
  if (pressed.isDrag) carry(event);
});

/** Moves the picture of what is dragged with the pointer. */
function carry(event) {
  if (!pressed.from.endsWith("@")) return view.drag(pressed.from, event.clientX, event.clientY);
  const ghost = $("ghost");
  const letter = sideOf(game.at.fen) === "w" ? pressed.from[0] : pressed.from[0].toLowerCase();
  if (ghost.hidden) ghost.replaceChildren(pieceIcon(letter, game.figures));
  Object.assign(ghost.style, { left: `${event.clientX}px`, top: `${event.clientY}px` });
  ghost.hidden = false;
  return undefined;
}

document.addEventListener("pointerup", (event) => {
  const { from, isDrag } = pressed;
  if (!from || event.button !== 0) return;
  letGo();
  const isHand = from.endsWith("@");
  const target = isHand && $("board").contains(document.elementFromPoint(event.clientX, event.clientY)) || !isHand
    ? view.squareAt(event.clientX, event.clientY) : null;
  if (!isDrag) {
    if (!isHand) pick(from);
  } else if (target && target !== from) pick(target);
  else choose(isHand ? null : from);
});

function letGo() {
  pressed.from = null;
  $("ghost").hidden = true;
}

document.addEventListener("pointercancel", () => {
  if (!pressed.from) return;
  letGo();
  choose(null);
});

// ---- keys

const STEPS = { ArrowLeft: [-1, 0], ArrowRight: [1, 0], ArrowUp: [0, 1], ArrowDown: [0, -1] };

/** Whether the keys walk over the squares: where they came to the board by Tab, and where a piece is chosen that is to move. */
const isWalking = () => $("board").classList.contains("by-keys") || (chosen.from !== null && $("board").contains(document.activeElement));

$("board").addEventListener("keyup", (event) => event.key === "Tab" && $("board").classList.add("by-keys"));

document.addEventListener("keydown", (event) => {
  if (event.target.closest("input, textarea, select") || event.ctrlKey || event.altKey || event.metaKey) return;
  const isBoard = $("board").contains(event.target);
  if (event.key === "Escape") choose(null);
  else if ($("choice").contains(event.target) || strategy.isShown) return;
  else if (isBoard && (event.key === "Enter" || event.key === " ")) pick(view.current);
  else if (isBoard && isWalking() && STEPS[event.key]) walk(event.key);
  else if (!stepByKey(event.key)) return;
  event.preventDefault();
});

function walk(key) {
  $("board").classList.add("by-keys");
  view.step(...STEPS[key]);
}
