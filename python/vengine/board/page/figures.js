// The figures of pieces: signs of the font for the usual kinds, and own drawings for others. The middle of each is at 0, 0; it is 44 wide at most.

export function element(name, attributes = {}, ...children) {
  const made = document.createElementNS("http://www.w3.org/2000/svg", name);
  for (const [key, value] of Object.entries(attributes)) made.setAttribute(key, value);
  made.append(...children);
  return made;
}

const SIGNS = { king: "♚", queen: "♛", rook: "♜", bishop: "♝", knight: "♞", pawn: "♟" };

const FOOT = "M-15,22 L15,22 L15,17 L11,15 L-11,15 L-15,17 Z";
// A horse that looks to the left, and its ear.
const HORSE = "M-11,15 C-11,7 -3,3 -4,-2 C-8,0 -10,4 -13,4 C-16,4 -18,1 -17,-2 C-15,-6 -12,-9 -10,-12 L-9,-17 L-4,-14 C4,-13 12,-3 11,15 Z";
const EYE = "M-9,-7 L-6,-9 L-6,-6 Z";
// The horse of a piece that is a knight and another one stands lower, and wears the other's head.
const WORN = {
  amazon: ["M-9,-9 L-13,-20 L-6,-14 L-3,-22 L1,-14 L8,-22 L8,-14 L15,-19 L11,-7 Z"],
  chancellor: ["M-9,-8 L-10,-21 L-5,-21 L-5,-17 L-1,-17 L-1,-21 L5,-21 L5,-17 L9,-17 L9,-21 L14,-21 L12,-6 Z"],
  archbishop: ["M-7,-8 C-11,-15 -3,-20 2,-24 C8,-19 14,-14 9,-6 Z", "M3,-20 L0,-13 M-1,-16 L5,-14"],
  centaur: ["M-8,-8 C-14,-14 -4,-18 1,-13 C6,-18 15,-13 10,-6 Z", "M1,-14 L1,-24 M-4,-20 L6,-20"],
};
const QUEEN = [
  "M-13,15 L-19,-10 L-9,3 L-8,-15 L0,2 L8,-15 L9,3 L19,-10 L13,15 Z", FOOT,
  "M-22,-13 a3,3 0 1,0 6,0 a3,3 0 1,0 -6,0 M-11,-18 a3,3 0 1,0 6,0 a3,3 0 1,0 -6,0 M5,-18 a3,3 0 1,0 6,0 a3,3 0 1,0 -6,0 M16,-13 a3,3 0 1,0 6,0 a3,3 0 1,0 -6,0",
];
const CANNON = [
  "M-21,12 L-14,1 L12,-17 L21,-4 L-6,14 L-17,18 Z", "M10,-19 L14,-21 L23,-8 L20,-4 Z",
  "M-13,11 a11,11 0 1,0 22,0 a11,11 0 1,0 -22,0", "M-2,0 L-2,22 M-13,11 L9,11 M-10,3 L6,19 M-10,19 L6,3",
];

/** A part of a drawing: a closed line is filled, another one is only drawn. */
function part(line) {
  return element("path", { d: line, class: line.includes("Z") || line.includes("a") ? "filled" : "stroke" });
}

function drawing(lines, transform) {
  return element("g", { class: "drawn", ...(transform ? { transform } : {}) }, ...lines.map(part));
}

const DRAWN = {
  // As in problems: a queen and a knight that stand on their heads.
  grasshopper: () => drawing(QUEEN, "rotate(180)"),
  nightrider: () => drawing([HORSE, FOOT, EYE], "rotate(180) scale(1.1)"),
  cannon: () => drawing(CANNON, "scale(0.95)"),
};

function rider(worn) {
  const horse = element("g", { transform: "translate(0 5) scale(0.9)" }, ...[HORSE, FOOT, EYE].map(part));
  return element("g", { class: "drawn" }, ...worn.map(part), horse);
}

/** The figure of a name, or null where it has none. */
export function figureOf(name) {
  // The sign after one of the font asks for its plain form, not for a picture in colours.
  if (SIGNS[name]) return element("text", { y: 1 }, `${SIGNS[name]}\uFE0E`);
  if (WORN[name]) return rider(WORN[name]);
  return DRAWN[name] ? DRAWN[name]() : null;
}
