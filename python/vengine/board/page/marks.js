// Arrows and rings that the right button draws on the board, until the position is another one or the left button is pressed.
import { $, onShow, show, shownFen, view } from "./state.js";

const drawn = { fen: "", from: null, arrows: [], rings: [] };

/** The arrows and rings of the position that is shown. */
export function drawnMarks() {
  return { arrows: drawn.arrows, rings: drawn.rings };
}

/** Takes a mark away if it is there, else adds it. */
function toggled(list, mark) {
  const same = (one) => JSON.stringify(one) === JSON.stringify(mark);
  return list.some(same) ? list.filter((one) => !same(one)) : [...list, mark];
}

export function clearMarks() {
  if (!drawn.arrows.length && !drawn.rings.length) return;
  Object.assign(drawn, { arrows: [], rings: [] });
  show();
}

/** Forgets the marks of another position. It is to be called before the board is drawn. */
export function forgetMarks() {
  if (drawn.fen !== shownFen()) Object.assign(drawn, { fen: shownFen(), arrows: [], rings: [] });
}

onShow(forgetMarks);

$("board").addEventListener("contextmenu", (event) => event.preventDefault());
$("board").addEventListener("pointerdown", (event) => {
  if (event.button === 2) drawn.from = view.squareAt(event.clientX, event.clientY);
});
document.addEventListener("pointerup", (event) => {
  if (event.button !== 2 || !drawn.from) return;
  const [from, to] = [drawn.from, view.squareAt(event.clientX, event.clientY)];
  drawn.from = null;
  if (!to) return;
  if (from === to) drawn.rings = toggled(drawn.rings, from);
  else drawn.arrows = toggled(drawn.arrows, { from, to, kind: "by-hand" });
  show();
});
