// The game: it is taken where the engine accepts it, moves are played, and any ply of it can be gone to.
import { search, stop } from "./search.js";
import { ask, tell } from "./session.js";
import { $, chosen, game, onShow, show, strategy, thinking } from "./state.js";
import { faultText, figuresOf, namesOf, parseMove, sideOf, stateText } from "./texts.js";

/** Takes a game where the engine accepts it; else says why not, and the game stays. What was asked last counts. */
export async function take(variant, fen, line, ply = line.length) {
  const number = (game.number += 1);
  await stop();
  const answer = await ask("look", { variant, fen, moves: line.slice(0, ply) });
  if (number !== game.number) return false;
  if (faultText(answer)) {
    tell(faultText(answer) + (await meant(variant, answer)));
    return false;
  }
  tell("");
  if (variant !== game.rulesOf) await takeRules(variant);
  if (number !== game.number) return false;
  Object.assign(game, { variant, fen, line, ply, at: answer, legal: answer.moves.map(parseMove) });
  chosen.from = null;
  thinking.lines = [];
  Object.assign(strategy, { nodes: null, way: [], isShown: false });
  show();
  return true;
}

/** Which variants a name may mean that is none. */
async function meant(variant, answer) {
  if (!answer.fault || !answer.fault.text.startsWith("OptionFault 2")) return "";
  const { names } = await ask("meant", { variant });
  return names && names.length ? `. Is ${names.join(" or ")} meant?` : "";
}

async function takeRules(variant) {
  const answer = await ask("rules", { variant });
  if (faultText(answer)) tell(faultText(answer));
  const rules = answer.rules || [];
  Object.assign(game, { rules, rulesOf: variant, names: namesOf(rules), figures: figuresOf(rules) });
}

/** Plays a move, and lets the engine answer. The next move of the line that is known is the same step as redo. */
export async function play(move) {
  const line = game.line[game.ply] === move ? game.line : [...game.moves, move];
  if (await take(game.variant, game.fen, line, game.ply + 1)) await engineTurn();
}

/** The ply to which the game is on its way, or null: steps that come faster than the engine's answers are all counted. */
let nextPly = null;
const currentPly = () => nextPly ?? game.ply;

/** Goes to a ply of the game, where there is such a one. */
export async function goToPly(ply) {
  if (ply < 0 || ply > game.line.length || ply === currentPly()) return;
  nextPly = ply;
  await take(game.variant, game.fen, game.line, ply);
  if (nextPly === ply) nextPly = null;
}

/** Against the engine, its answer is taken back too. */
const stepBack = () => ($("side").value.length === 1 && currentPly() > 1 && !isEngines() ? 2 : 1);

// ---- the engine's turn

const isEngines = () => $("side").value.includes(sideOf(game.at.fen));

/** How long or how deep the engine looks, for each of a number of lines. */
export function limits(many = 1) {
  const amount = Math.max(1, Math.floor(Number($("amount").value)) || 1);
  return $("limit").value === "depth" ? { depth: Math.min(64, amount) } : { movetime: Math.max(1, Math.round(amount / many)) };
}

export async function engineTurn() {
  if (game.at.cause || game.legal.length === 0 || !isEngines()) return;
  const answer = await search(limits());
  if (answer && answer.best && isEngines()) await play(answer.best);
}

// ---- how it stands, and the list of moves

onShow(() => {
  $("state").textContent = stateText(game.at, game.rules, game.names);
  $("variant").value = game.variant;
  $("undo").disabled = game.ply === 0;
  $("redo").disabled = game.ply === game.line.length;
  showMoves();
});

function showMoves() {
  const isBlackFirst = game.fen !== "startpos" && sideOf(game.fen) === "b";
  $("moves").replaceChildren(...game.line.map((move, place) => {
    const item = document.createElement("li");
    const ply = place + (isBlackFirst ? 1 : 0);
    if (ply % 2 === 0 || place === 0) {
      const number = Object.assign(document.createElement("span"), { className: "number" });
      number.textContent = `${Math.floor(ply / 2) + 1}${ply % 2 ? "…" : "."} `;
      item.append(number);
    }
    const made = Object.assign(document.createElement("button"), { textContent: move });
    made.addEventListener("click", () => goToPly(place + 1));
    item.classList.toggle("later", place >= game.ply);
    if (place === game.ply - 1) made.setAttribute("aria-current", "step");
    item.append(made);
    return item;
  }));
  const current = $("moves").querySelector("[aria-current]");
  if (current) $("moves").scrollTop = current.offsetTop - $("moves").clientHeight / 2;
}

$("undo").addEventListener("click", () => goToPly(currentPly() - stepBack()));
$("redo").addEventListener("click", () => goToPly(currentPly() + 1));

const PLIES = { ArrowLeft: () => currentPly() - 1, ArrowRight: () => currentPly() + 1, ArrowUp: () => 0, ArrowDown: () => game.line.length };

/** Goes through the moves by a key, if it is one for that; whether it was. */
export function stepByKey(key) {
  if (!PLIES[key]) return false;
  goToPly(PLIES[key]());
  return true;
}
