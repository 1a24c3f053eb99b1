// What the page knows: the game, what is chosen, what was thought. Each part of the page shows its share of it when `show` is called.
import { BoardView } from "./drawing.js";

export const $ = (id) => document.getElementById(id);
export const view = new BoardView($("board"));

/** The moves of `line` are known, and the first `ply` of them are played. `at` is the engine's answer to the game as it stands. The rules are
 *  those of the variant `rulesOf`, null where they have to be asked anew. */
export const game = {
  variant: "chess", fen: "startpos", line: [], ply: 0, at: null, legal: [], rules: [], rulesOf: null, names: {}, figures: {}, number: 0,
  get moves() { return this.line.slice(0, this.ply); },
};
/** The square or the piece in hand (`P@`) that is to move. */
export const chosen = { from: null };
/** The last line of the search of each of the best moves. */
export const thinking = { isOn: false, isMate: false, lines: [], number: 0 };
/** The nodes of a strategy, and the way from the first to the one that is shown. */
export const strategy = { nodes: null, text: "", way: [], isShown: false };

const parts = [];

/** Has a function called whenever what is known has changed. */
export function onShow(part) {
  parts.push(part);
}

export function show() {
  if (game.at) for (const part of parts) part();
}

/** The position on the board: that of the game, or that of the strategy's node. */
export function shownFen() {
  return strategy.isShown ? strategy.nodes[strategy.way.at(-1)].fen : game.at.fen;
}

/** The game as the engine is asked of it. */
export const asked = () => ({ variant: game.variant, fen: game.fen, moves: game.moves });
