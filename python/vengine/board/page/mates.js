// Mates: the strategy of one is walked on the board, and all first moves that win are told.
import { copy } from "./address.js";
import { search, stop } from "./search.js";
import { ask } from "./session.js";
import { $, asked, game, onShow, show, strategy } from "./state.js";
import { faultText, keysText, sideName, sideOf } from "./texts.js";

$("mate").addEventListener("submit", async (event) => {
  event.preventDefault();
  leaveStrategy();
  const within = Math.min(100, Math.max(1, Math.floor(Number($("within").value)) || 1));
  $("mated").textContent = `looking for a mate within ${within}`;
  const answer = await search({ mate: within });
  const mate = answer && answer.mate;
  $("mated").textContent = mate ? mateText(mate, within) : "stopped";
  if (mate && mate.nodes) {
    Object.assign(strategy, { nodes: mate.nodes, text: mate.strategy, way: [0], isShown: false });
    goTo([0]);
  }
});

function mateText(mate, within) {
  const side = sideName(sideOf(game.at.fen));
  if (mate.answer === "mate") return `${side} mates within ${mate.moves} by ${mate.first}. The strategy's check says: ${mate.check}`;
  if (mate.answer === "none") return `${side} has no mate within ${within}`;
  if (mate.answer === "unsettled") return `Near the limit of the move count it cannot be told: ${mate.note}`;
  return mate.answer === "over" ? "There is no legal move" : "Stopped: nothing is known";
}

/** The node of the strategy at the end of the way: its moves, each of which leads to a node. */
function showNode() {
  const node = strategy.nodes[strategy.way.at(-1)];
  const edges = Object.entries(node.edges);
  const isFirst = strategy.way.length === 1;
  $("node").textContent = edges.length === 0 ? "The game is over here, and won."
    : isAttackers(node) ? `Within ${node.rank} ${node.rank === 1 ? "move" : "moves"}, by this one:` : "Against each of these replies:";
  $("edges").replaceChildren(...edges.map(([move, to]) => {
    const made = document.createElement("button");
    made.textContent = move;
    made.addEventListener("click", () => goTo([...strategy.way, to]));
    return made;
  }));
  $("back").disabled = isFirst;
}

const isAttackers = (node) => sideOf(node.fen) === sideOf(strategy.nodes[0].fen);

function goTo(way) {
  Object.assign(strategy, { way, isShown: way.length > 1 });
  showNode();
  show();
}

function leaveStrategy() {
  Object.assign(strategy, { nodes: null, way: [], isShown: false });
  $("mated").textContent = "";
  show();
}

/** What was said of another game is taken away. */
let told = null;
onShow(() => {
  $("tree").hidden = !strategy.nodes;
  if (told !== game.at) $("mated").textContent = "";
  told = game.at;
});

$("back").addEventListener("click", () => goTo(strategy.way.slice(0, -1)));
$("to-game").addEventListener("click", () => goTo([0]));
$("copy-strategy").addEventListener("click", () => copy(strategy.text));
$("keys").addEventListener("click", async () => {
  await stop();
  leaveStrategy();
  const number = game.number;
  const within = Math.floor(Number($("within").value)) || 1;
  $("mated").textContent = "looking at every first move";
  $("mated").classList.add("busy");
  $("keys").disabled = true;
  const answer = await ask("keys", { ...asked(), within });
  $("keys").disabled = false;
  $("mated").classList.remove("busy");
  if (number === game.number) $("mated").textContent = faultText(answer) || keysText(answer.keys, within);
});
