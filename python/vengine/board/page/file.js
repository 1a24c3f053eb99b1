// The text of the variants: it is loaded as it is typed, and the game goes on by the text before while it cannot be played by this one.
import { take } from "./game.js";
import { refreshPieces } from "./pieces.js";
import { stop } from "./search.js";
import { ask, tab, tell } from "./session.js";
import { $, game } from "./state.js";
import { faultText } from "./texts.js";

const LONGEST_TEXT = 2 ** 20 + 1;
const TYPING = 400;
// Where the text that was typed is kept over a reload.
const STORED = "variants";

/** `disk` is the text of the file that was named at the start, as it was read last, and `changed` when that was changed. */
const file = { disk: "", changed: null, number: 0, waiting: 0, typed: null, isKept: false };

/** The text of the page, or so much of it as is refused as well. */
const written = () => $("text").value.slice(0, LONGEST_TEXT);

/** The variants that there are, and what is wrong with the sections of the text. */
function showVariants(answer) {
  const names = answer.variants.includes(game.variant) || !game.at ? answer.variants : [...answer.variants, game.variant];
  $("variant").replaceChildren(...names.map((name) => new Option(name, name)));
  $("variant").value = game.variant;
  $("refused").textContent = answer.refused ? `The file is refused: ${faultText({ fault: answer.refused })}` : "";
  $("sections").replaceChildren(...answer.sections.map(sectionItem));
}

function sectionItem(section) {
  const item = document.createElement("li");
  const made = document.createElement("button");
  made.className = section.fault ? "fault" : "ok";
  const parent = section.parent ? `:${section.parent}` : "";
  made.textContent = `[${section.name}${parent}], line ${section.line}: ${section.fault ? faultText(section) : "ok"}`;
  made.addEventListener("click", () => goToLine(section.line));
  item.append(made);
  return item;
}

function goToLine(number) {
  const lines = $("text").value.split("\n");
  const begins = lines.slice(0, number - 1).reduce((sum, line) => sum + line.length + 1, 0);
  $("text").focus();
  $("text").setSelectionRange(begins, begins + (lines[number - 1] || "").length);
  $("text").scrollTop = Math.max(0, (number - 4) * $("text").scrollHeight / lines.length);
}

/** Says beside the board that the game goes on by the text before, and why; or that it is played by this one. */
function showKept(why, isAccepted) {
  file.isKept = Boolean(why);
  $("kept").hidden = !why;
  $("kept-why").textContent = why || "";
  $("take-text").hidden = !isAccepted;
}

/** Loads the text. The game is not touched while it cannot be played by it. */
export async function load() {
  await stop();
  const number = (file.number += 1);
  keepTyped();
  const answer = await ask("load", { text: written(), variant: game.variant, fen: game.fen, moves: game.line });
  if (number !== file.number) return;
  if (faultText(answer)) {
    $("refused").textContent = `The file is refused, and the one before it holds: ${faultText(answer)}`;
    showKept(faultText(answer), false);
    return;
  }
  showVariants(answer);
  tab.inForce = answer.in_force;
  if (answer.kept) {
    showKept(faultText({ fault: answer.kept }), answer.variants.includes(game.variant));
    return;
  }
  game.rulesOf = null;
  await take(game.variant, game.fen, game.line, game.ply);
  showKept("", false);
  refreshPieces();
}

/** Begins a game of a variant from a position, by the text as it stands. */
export async function startVariant(name, fen = "startpos") {
  if (file.isKept && name !== game.variant) await enforce();
  return take(name, fen, []);
}

/** Puts the text in force, whatever the game. */
async function enforce() {
  const answer = await ask("load", { text: written() });
  if (faultText(answer)) return tell(faultText(answer));
  tab.inForce = answer.in_force;
  game.rulesOf = null;
  showVariants(answer);
  showKept("", false);
  return undefined;
}

$("take-text").addEventListener("click", async () => {
  const { variant } = game;
  await enforce();
  await take(variant, "startpos", []);
  refreshPieces();
});

$("text").addEventListener("input", () => {
  clearTimeout(file.waiting);
  keepTyped();
  file.waiting = setTimeout(load, TYPING);
});

$("file").addEventListener("change", async () => {
  if (!$("file").files.length) return;
  $("text").value = await $("file").files[0].text();
  await load();
});

// ---- the file that was named at the start, and a reload

/** Keeps what differs from the file on the disk for a reload of the page. */
function keepTyped() {
  if ($("text").value === file.disk) sessionStorage.removeItem(STORED);
  else sessionStorage.setItem(STORED, JSON.stringify({ text: written(), disk: file.disk }));
}

/** What was typed before the page was loaded again, if the file on the disk is as it was then; or null. */
function storedText() {
  const stored = JSON.parse(sessionStorage.getItem(STORED) || "null");
  return stored && stored.disk === file.disk ? stored.text : null;
}

/** Looks whether the file that was named at the start has changed. What was typed can be put back. */
export async function watchFile() {
  if (!tab.hasFile || document.hidden) return;
  const answer = await ask("file", { changed: file.changed });
  if (typeof answer.text !== "string") return;
  const isTyped = $("text").value !== file.disk && $("text").value !== answer.text;
  Object.assign(file, { changed: answer.changed, disk: answer.text, typed: isTyped ? $("text").value : null });
  $("back-to-typed").hidden = !isTyped;
  if (answer.text === $("text").value) return;
  $("text").value = answer.text;
  await load();
}

$("back-to-typed").addEventListener("click", async () => {
  $("text").value = file.typed;
  $("back-to-typed").hidden = true;
  await load();
});

/** Takes the text of the session, and what was typed before a reload; the variants that there are then, or nothing where the session fails. */
export async function beginFile() {
  const answer = await ask("variants");
  if (faultText(answer)) return tell(faultText(answer));
  const { changed } = tab.hasFile ? await ask("file", { changed: null }) : { changed: null };
  Object.assign(file, { disk: answer.text, changed });
  $("text").value = answer.text;
  tab.inForce = answer.refused ? "" : answer.text;
  showVariants(answer);
  const stored = storedText();
  const typed = stored === null ? {} : await ask("load", { text: stored });
  if (stored !== null) $("text").value = stored;
  if (typed.variants) showVariants(typed);
  if (typed.variants) tab.inForce = stored;
  else if (stored !== null) $("refused").textContent = `The file is refused: ${faultText(typed)}`;
  $("file-panel").open = $("text").value !== "";
  return (typed.variants ? typed : answer).variants;
}
