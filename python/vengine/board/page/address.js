// The address of the page has the game, so that a reload or a copied address brings it back.
import { $, game, onShow } from "./state.js";

/** The game that an address has: the variant, the position, the moves and how many of them are played; or null. */
export function gameOfAddress() {
  const words = new URLSearchParams(location.hash.slice(1));
  if (!words.get("variant")) return null;
  const line = (words.get("moves") || "").split(",").filter(Boolean);
  const ply = words.has("ply") ? Number(words.get("ply")) : line.length;
  const isPly = Number.isInteger(ply) && ply >= 0 && ply <= line.length;
  return { variant: words.get("variant"), fen: words.get("fen") || "startpos", line, ply: isPly ? ply : line.length };
}

onShow(() => {
  const words = new URLSearchParams({ variant: game.variant });
  if (game.fen !== "startpos") words.set("fen", game.fen);
  if (game.line.length) words.set("moves", game.line.join(","));
  if (game.ply !== game.line.length) words.set("ply", game.ply);
  history.replaceState(null, "", `#${words}`);
});

/** Copies a text, or shows and selects it where the browser does not let a page copy. */
export async function copy(text) {
  $("line").textContent = text;
  try {
    await navigator.clipboard.writeText(text);
  } catch {
    getSelection().selectAllChildren($("line"));
  }
}

$("copy-fen").addEventListener("click", () => copy(game.at.fen));
$("copy-moves").addEventListener("click", () => copy(game.moves.join(" ")));
$("copy-address").addEventListener("click", () => copy(location.href));
