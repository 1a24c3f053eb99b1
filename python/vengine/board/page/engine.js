// The engine looks at the game: one to five best moves with their values, and a bar for the value.
import { engineTurn, limits, play } from "./game.js";
import { search, stop } from "./search.js";
import { $, game, onShow, thinking, view } from "./state.js";
import { infoText, sideOf, valueText, whiteShare } from "./texts.js";

/** Looks for as many best moves as are asked for: each is looked for among the moves that were not yet found. */
async function analyse() {
  const many = Number($("many").value);
  const found = [];
  for (let place = 0; place < many; place += 1) {
    const rest = game.legal.map((move) => move.text).filter((text) => !found.includes(text));
    if (rest.length === 0) return;
    const answer = await search({ ...limits(many), ...(found.length ? { searchmoves: rest } : {}) }, place);
    if (!answer || !answer.best) return;
    found.push(answer.best);
  }
}

onShow(() => {
  const [best, ...others] = thinking.lines;
  $("thought").textContent = best ? infoText(best) : thinking.isOn ? "thinking" : "";
  $("thought").classList.toggle("busy", thinking.isOn && !thinking.isMate);
  $("others").replaceChildren(...others.map(otherLine));
  $("mated").classList.toggle("busy", thinking.isOn && thinking.isMate);
  $("think").disabled = game.legal.length === 0;
  $("stop").disabled = !thinking.isOn;
  $("best").disabled = thinking.isOn || !best;
  showBar(best);
});

function otherLine(info) {
  const item = document.createElement("li");
  const made = Object.assign(document.createElement("button"), { textContent: info.move });
  made.addEventListener("click", () => play(info.move));
  item.append(made, ` ${valueText(info)} at depth ${info.depth}`);
  return item;
}

function showBar(info) {
  const share = info ? whiteShare(info, sideOf(game.at.fen)) : 50;
  $("bar").classList.toggle("unknown", !info);
  $("bar").classList.toggle("turned", view.isTurned);
  $("bar-white").style.height = `${share}%`;
  $("bar").setAttribute("aria-valuenow", Math.round(share));
  $("bar").title = info ? `${valueText(info)} for the side to move` : "";
}

$("side").addEventListener("change", engineTurn);
$("think").addEventListener("click", analyse);
$("stop").addEventListener("click", stop);
$("best").addEventListener("click", () => thinking.lines.length && play(thinking.lines[0].move));
