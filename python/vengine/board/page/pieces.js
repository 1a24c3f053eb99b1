// Pictures of where pieces go: by the legal moves of the variant, and by a Betza word alone.
import { picture } from "./drawing.js";
import { stop } from "./search.js";
import { ask } from "./session.js";
import { $, game } from "./state.js";
import { faultText, parseFen, parseMove, squareName, wordsOf } from "./texts.js";

$("word").addEventListener("submit", async (event) => {
  event.preventDefault();
  const word = $("betza").value.trim();
  const answer = await ask("reach", { word });
  if (faultText(answer)) {
    $("reach").replaceChildren(Object.assign(document.createElement("p"), { className: "fault", textContent: faultText(answer) }));
    return;
  }
  $("reach").replaceChildren(reachFigure(word, /[A-Z]/.exec(word)[0], answer, `${word} from d4: dots are quiet moves, rings are takes${answer.hurdles.length ? ", the grey pieces are hurdles" : ""}`));
});

/** Where the piece of a Betza word goes from d4 of a board of 8 by 8. */
function reachFigure(word, letter, answer, caption) {
  return picture(`8/8/8/8/3${letter}4/8/8/8 w`, {}, answer, caption);
}

/** A position with one piece of White in the middle, and with kings where the variant wants them. */
function* aloneOn(letter, square) {
  const start = parseFen(game.start);
  const rest = game.start.split(" ").slice(1);
  const [file, rank] = [square.charCodeAt(0) - 97, Number(square.slice(1)) - 1];
  const fields = ["w", "-", "-", ...rest.slice(3)];
  const corners = [[[0, 0], [start.files - 1, start.ranks.length - 1]], [[start.files - 1, 0], [0, start.ranks.length - 1]]];
  const homes = ["K", "k"].map((king) => start.ranks.flatMap((row, from) => row.flatMap((piece, at) =>
    (piece === king ? [[at, start.ranks.length - 1 - from]] : [])))[0]);
  for (const kings of [null, ...corners, homes[0] && homes[1] ? homes : null]) {
    const empty = start.ranks.map((row) => row.map(() => null));
    if (kings && letter !== "K") empty[start.ranks.length - 1 - kings[0][1]][kings[0][0]] = "K";
    if (kings) empty[start.ranks.length - 1 - kings[1][1]][kings[1][0]] = "k";
    empty[start.ranks.length - 1 - rank][file] = letter;
    yield [empty.map(rankText).join("/") + (start.hand === null ? "" : "[]"), ...fields].join(" ");
  }
}

function rankText(row) {
  let [text, empty] = ["", 0];
  for (const piece of row) {
    if (piece !== null && empty) text += empty;
    empty = piece === null ? empty + 1 : 0;
    text += piece === null ? "" : piece;
  }
  return text + (empty || "");
}

async function pieceFigure(letter) {
  const start = parseFen(game.start);
  const square = squareName(Math.floor((start.files - 1) / 2), Math.floor((start.ranks.length - 1) / 2));
  for (const fen of aloneOn(letter, square)) {
    const answer = await ask("look", { variant: game.variant, fen, moves: [] });
    if (answer.moves && (answer.moves.length || !answer.cause)) {
      const quiet = new Set(answer.moves.map(parseMove).filter((move) => move.from === square).map((move) => move.to));
      return picture(answer.fen, game.figures, { quiet, take: [] }, `${game.names[letter.toLowerCase()] || letter}`);
    }
  }
  return null;
}

/** A picture of each piece by its legal moves, and one by its word where it is none of the usual kinds. */
async function showPieces() {
  await stop();
  game.start = (await ask("look", { variant: game.variant, fen: "startpos", moves: [] })).fen;
  const { ranks, hand } = parseFen(game.start);
  const words = wordsOf(game.rules);
  const letters = [...new Set([...ranks.flat().join(""), ...(hand || ""), ...Object.keys(game.names)].join("").toUpperCase().match(/[A-Z]/g))];
  $("pieces").replaceChildren();
  for (const letter of letters.sort()) {
    const drawn = await pieceFigure(letter);
    const word = words[letter.toLowerCase()];
    const answer = word ? await ask("reach", { word }) : {};
    if (drawn) $("pieces").append(drawn);
    if (answer.quiet) $("pieces").append(reachFigure(word, letter, answer, `${letter}: ${word}`));
  }
}

/** Draws them anew where they are on the page. */
export function refreshPieces() {
  if ($("pieces-panel").open) showPieces();
}

$("pieces-panel").addEventListener("toggle", refreshPieces);
