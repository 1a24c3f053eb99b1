// One search at a time, of which the page hears until it is over.
import { ask, tell } from "./session.js";
import { asked, show, thinking } from "./state.js";
import { faultText } from "./texts.js";

const PAUSE = 120;

/** Searches the game as it stands, for the best line of a number; nothing where it failed, was stopped, or another one has begun. */
export async function search(limits, place = 0) {
  await stop();
  const number = (thinking.number += 1);
  Object.assign(thinking, { isOn: true, isMate: "mate" in limits, place, lines: thinking.lines.slice(0, place) });
  show();
  const begun = await ask("go", { ...asked(), ...limits });
  const answer = faultText(begun) ? begun : await heard(number);
  if (number !== thinking.number) return null;
  thinking.isOn = false;
  if (faultText(answer)) tell(faultText(answer));
  show();
  return faultText(answer) ? null : answer;
}

/** The answer at the end of a search, or its fault; each depth is shown as it comes. */
async function heard(number) {
  for (;;) {
    const answer = await ask("think");
    if (number !== thinking.number || faultText(answer)) return answer;
    keep(answer);
    if (answer.is_over) return answer;
    show();
    await new Promise((done) => setTimeout(done, PAUSE));
  }
}

function keep(answer) {
  if (answer.infos && answer.infos.length) thinking.lines[thinking.place] = answer.infos.at(-1);
}

export async function stop() {
  if (!thinking.isOn) return;
  thinking.number += 1;
  thinking.isOn = false;
  keep(await ask("stop"));
  show();
}
