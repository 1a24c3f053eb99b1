// The texts that the engine and the page exchange: positions, moves, results and faults. Nothing here knows a rule of play.

// The words of the pieces that a variants file may name.
const WORDS = {
  wazir: "W", fers: "F", alfil: "A", fersAlfil: "FA", knight: "N", bishop: "B", rook: "R", queen: "Q", king: "K", commoner: "K",
  archbishop: "BN", chancellor: "RN", amazon: "QN", centaur: "KN", silver: "FfW", gold: "WfF", dragonHorse: "BW", dragon: "RF", bers: "RF",
  lance: "fR", shogiPawn: "fW", shogiKnight: "ffN", cannon: "mRcpR", horse: "nN", elephant: "nA", soldier: "fsW", knibis: "mNcB",
  biskni: "mBcN", kniroo: "mNcR", rookni: "mRcN",
};

// The words of these need no picture.
const USUAL = ["king", "commoner", "queen", "rook", "bishop", "knight", "pawn"];

/** The name of the piece of each letter, by the rules of a variant. Where there is no king, a commoner is drawn and told as one. */
export function namesOf(rules) {
  const names = {};
  const hasKing = rules.some(([key]) => key === "king");
  for (const [key, value] of rules) {
    const isPiece = key in WORDS || key === "pawn" || key === "immobile" || /^customPiece\d+$/.test(key);
    if (isPiece) names[value.slice(0, 1).toLowerCase()] = key === "commoner" && !hasKing ? "king" : key;
  }
  return names;
}

// The figures of pieces that are none of the usual kinds, by the parts of their Betza words in alphabetical order.
const FIGURES = {
  "B N R": "amazon", "N R": "chancellor", "B N": "archbishop", "F N W": "centaur", NN: "nightrider", "gB gR": "grasshopper", "cpR mR": "cannon",
};
const ATOMS = { Q: ["R", "B"], K: ["W", "F"] };
const DOUBLED = { WW: "R", FF: "B", RR: "R", BB: "B" };

/** The parts of a Betza word, each once and in the order of their texts: those of `QN` and `RNB` are the same. */
export function partsOf(word) {
  const parts = new Set();
  for (const [, letters, atom, again, number] of word.matchAll(/([a-z]*)([A-Z])(\2?)(\d*)/g)) {
    const way = [...letters].sort().join("").replace(/^cm$/, "");
    for (const one of ATOMS[atom] || [atom]) {
      const rider = again || number === "0" ? one + one : one;
      parts.add(way + (DOUBLED[rider] || rider) + (number === "0" ? "" : number));
    }
  }
  return [...parts].sort();
}

/** The name of the figure of each letter that has one: of the usual kinds by their names, of others by their words. */
export function figuresOf(rules) {
  const figures = {};
  for (const [letter, word] of Object.entries(wordsOf(rules))) {
    const figure = FIGURES[partsOf(word).join(" ")];
    if (figure) figures[letter] = figure;
  }
  for (const [letter, name] of Object.entries(namesOf(rules))) {
    if (USUAL.includes(name)) figures[letter] = name;
  }
  return figures;
}

/** The Betza word of the piece of each letter, but for those of the usual kinds. */
export function wordsOf(rules) {
  const words = {};
  for (const [key, value] of rules) {
    const word = value.split(":")[1] || WORDS[key];
    if ((key in WORDS || key.startsWith("customPiece")) && !USUAL.includes(key)) words[value.slice(0, 1).toLowerCase()] = word;
  }
  return words;
}

/** A FEN as ranks of squares, from the highest down; a square is null or the text of a piece. `hand` is null where there is none. */
export function parseFen(fen) {
  const [placement, side] = fen.split(" ");
  const [squares, hand] = placement.split("[");
  const ranks = squares.split("/").map((rank) =>
    rank.match(/\d+|\+?[A-Za-z]~?/g).flatMap((part) => (/\d/.test(part) ? Array(Number(part)).fill(null) : [part])));
  return { ranks, files: ranks[0].length, side, hand: hand === undefined ? null : hand.slice(0, -1).replace("-", "") };
}

export function squareName(file, rank) {
  return String.fromCharCode(97 + file) + (rank + 1);
}

/** The piece on a square of a FEN, or null. */
export function pieceAt(fen, square) {
  const { ranks } = parseFen(fen);
  const row = ranks[ranks.length - Number(square.slice(1))];
  return (row && row[square.charCodeAt(0) - 97]) || null;
}

/** The square of the king of the side to move, or null where the variant has none. */
export function kingSquare(fen, rules) {
  const letter = (new Map(rules).get("king") || "").slice(0, 1);
  const { ranks, side } = parseFen(fen);
  const king = side === "w" ? letter.toUpperCase() : letter;
  for (const [row, rank] of ranks.entries()) {
    if (letter && rank.includes(king)) return squareName(rank.indexOf(king), ranks.length - 1 - row);
  }
  return null;
}

/** To which square the king castles that is put onto a rook, by the rights of the position; or null. Whether it may is not looked at. */
export function castleTo(fen, rules, from, square) {
  if (!from || from !== kingSquare(fen, rules) || from.slice(1) !== square.slice(1)) return null;
  const keys = new Map(rules);
  const rook = pieceAt(fen, square);
  const rooks = keys.get("castlingRookPieces") || (keys.get("rook") || "").slice(0, 1);
  if (!rook || !rooks.includes(rook.toLowerCase()) || isWhite(rook) !== (sideOf(fen) === "w")) return null;
  const isKings = square > from;
  const right = isWhite(rook) === isKings ? (isKings ? "K" : "q") : isKings ? "k" : "Q";
  const file = isKings ? keys.get("castlingKingsideFile") || "g" : keys.get("castlingQueensideFile") || "c";
  return fen.split(" ")[2].includes(right) ? file + from.slice(1) : null;
}

/** A move's text as what moves, where it goes, and what is added. A drop comes from its letter. */
export function parseMove(text) {
  const drop = /^([A-Z]@)(.+)$/.exec(text);
  if (drop) return { text, from: drop[1], to: drop[2], added: "" };
  const [, from, to, added] = /^([a-l]\d+)([a-l]\d+)(.*)$/.exec(text);
  return { text, from, to, added };
}

/** What one of several moves between two squares does more than go there. */
export function addedName(move, names) {
  if (move.added === "") return "just move";
  if (move.added === "+") return "promote";
  return `${names[move.added] || move.added.toUpperCase()} (${move.added})`;
}

export function isWhite(piece) {
  return /[A-Z]/.test(piece);
}

export function sideName(side) {
  return side === "w" ? "White" : "Black";
}

/** The side to move of a FEN. */
export const sideOf = (fen) => fen.split(" ")[1];

const ORDINALS = { 2: "second", 3: "third", 4: "fourth", 5: "fifth" };
const WINNERS = { white: "White", black: "Black" };

/** How a game stands, in words: who wins, and the cause by whom it is of. */
export function stateText(at, rules, names) {
  const mover = sideName(sideOf(at.fen));
  if (!at.cause) return `${mover} to move${at.checkers.length ? ", in check" : ""}`;
  return `${at.winner ? `${WINNERS[at.winner]} wins` : "Drawn"}: ${causeText(at, mover, new Map(rules), names)}`;
}

function causeText(at, mover, rules, names) {
  const winner = WINNERS[at.winner];
  const fold = Number(rules.get("nFoldRule") || 3);
  const causes = {
    checkmate: () => `${mover} is checkmated`,
    stalemate: () => `${mover} is stalemated`,
    repetition: () => `the position stands for the ${ORDINALS[fold] || `${fold}th`} time`,
    movecount: () => `${Number(rules.get("nMoveRule") || 50)} moves of each side without progress`,
    flag: () => `its ${nameOf(rules.get("flagPiece") || "", names)} is on its goal`,
    checks: () => `${winner} has given its last check`,
    extinction: () => extinctionText(WINNERS[at.few] || "one side", rules, names),
  };
  return causes[at.cause] ? causes[at.cause]() : at.cause;
}

/** What a side has too few of: all pieces together, or those of one kind among some. */
function extinctionText(side, rules, names) {
  const most = Number(rules.get("extinctionPieceCount") || 0);
  const types = rules.get("extinctionPieceTypes") || "*";
  const few = most === 0 ? "no" : `at most ${most}`;
  if (types.includes("*")) return `${side} has ${few} ${most === 1 || most === 0 ? "piece" : "pieces"} left`;
  const kinds = [...types].map((letter) => nameOf(letter, names));
  if (kinds.length === 1) return `${side} has ${few} ${kinds[0]} left`;
  return `${side} has ${few} piece left of one of these kinds: ${kinds.join(", ")}`;
}

function nameOf(letter, names) {
  return names[letter.toLowerCase()] || letter.toUpperCase();
}

/** The value of a line of a search in words, for the side to move. */
export function valueText(info) {
  if (info.mate === null) return `${info.points >= 0 ? "+" : ""}${(info.points / 100).toFixed(2)}`;
  return info.mate > 0 ? `mate in ${info.mate}` : `mated in ${-info.mate}`;
}

/** A line of a search in words. */
export function infoText(info) {
  return `${valueText(info)} at depth ${info.depth}, best ${info.move}`;
}

/** How much of the bar for the value is White's, from 0 to 100: half of it where the sides are equal, all of it where White mates. */
export function whiteShare(info, side) {
  const sign = side === "w" ? 1 : -1;
  if (info.mate !== null) return sign * info.mate > 0 ? 100 : 0;
  return 100 / (1 + Math.exp(-0.004 * sign * info.points));
}

/** The first moves that win, each within how many moves. */
export function keysText(keys, within) {
  if (keys.length === 0) return `No first move wins within ${within}`;
  const told = keys.map((key) => `${key.move} within ${key.moves}`).join(", ");
  return keys.length === 1 ? `One first move wins: ${told}` : `${keys.length} first moves win: ${told}`;
}

/** What is wrong with an answer, in words, or null. */
export function faultText(answer) {
  if (answer.fault) return answer.fault.words !== answer.fault.text ? `${answer.fault.words} (${answer.fault.text})` : answer.fault.text;
  return answer.error || null;
}

/** The squares of a region of a variants file: squares and whole ranks. */
export function regionSquares(value, files, ranks) {
  const squares = new Set();
  for (const part of value.toLowerCase().split(/\s+/)) {
    for (let file = 0; file < files; file += 1) {
      for (let rank = 0; rank < ranks; rank += 1) {
        const name = squareName(file, rank);
        if (part === name || part === `*${rank + 1}`) squares.add(name);
      }
    }
  }
  return squares;
}
