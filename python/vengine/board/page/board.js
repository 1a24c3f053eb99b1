// The page begins: its parts are joined, and the game of its address is taken, or that of the first variant.
import { gameOfAddress } from "./address.js";
import "./engine.js";
import { beginFile, startVariant, watchFile } from "./file.js";
import { engineTurn, play, take } from "./game.js";
import "./input.js";
import "./mates.js";
import { refreshPieces } from "./pieces.js";
import { ask, open, tell } from "./session.js";
import { $, show, view } from "./state.js";

const WATCH = 1500;
const BEAT = 60000;
// How many variants are built in: the first one of a file comes after them.
const BUILT_IN = 10;

$("variant").addEventListener("change", async () => {
  $("fen").value = "";
  if (await startVariant($("variant").value)) engineTurn();
  refreshPieces();
});
$("start").addEventListener("submit", async (event) => {
  event.preventDefault();
  if (await startVariant($("variant").value, $("fen").value.trim() || "startpos")) engineTurn();
});
$("typed").addEventListener("submit", (event) => {
  event.preventDefault();
  play($("move").value.trim());
  $("move").value = "";
});
$("turn").addEventListener("click", () => {
  view.isTurned = !view.isTurned;
  show();
});
$("shades").addEventListener("change", show);

/** Takes the game of the address; whether there is one that is accepted. Why it is not is told. */
async function takeAddress() {
  const given = gameOfAddress();
  if (!given) return false;
  return await take(given.variant, given.fen, given.line) && (given.ply === given.line.length || take(given.variant, given.fen, given.line, given.ply));
}

addEventListener("hashchange", takeAddress);

async function begin() {
  await open();
  const variants = await beginFile();
  if (!variants) return;
  if (!(await takeAddress())) {
    const told = $("message").textContent;
    await take(variants[BUILT_IN] || "chess", "startpos", []);
    tell(told);
  }
  setInterval(watchFile, WATCH);
  setInterval(() => ask("beat"), BEAT);
  document.body.dataset.ready = "yes";
}

begin();
