// The session of this tab: what is asked of the board's program, and what is told where it cannot answer.
import { faultText } from "./texts.js";

/** `inForce` is the text of variants by which the session plays. */
export const tab = { name: null, hasFile: false, inForce: "" };

/** Asks the board's program; a session that is gone is opened anew. */
export async function ask(name, given = {}) {
  const answer = await post(name, { tab: tab.name, ...given });
  if (answer.status === 410) {
    await open();
    return (await post(name, { tab: tab.name, ...given })).body;
  }
  return answer.body;
}

async function post(name, given) {
  try {
    const reply = await fetch(`/${name}`, { method: "POST", body: JSON.stringify(given) });
    return { status: reply.status, body: await reply.json() };
  } catch {
    return { status: 0, body: { error: "the board's program does not answer" } };
  }
}

/** Opens a session, with the text that was in force. */
export async function open() {
  const answer = (await post("open", {})).body;
  if (faultText(answer)) return tell(faultText(answer));
  Object.assign(tab, { name: answer.tab, hasFile: answer.has_file });
  if (tab.inForce) await post("load", { tab: tab.name, text: tab.inForce });
  return undefined;
}

/** Shows a message at the top of the page; an empty one takes it away. */
export function tell(text) {
  const place = document.getElementById("message");
  place.textContent = text || "";
  place.hidden = !text;
}

addEventListener("pagehide", () => navigator.sendBeacon("/close", JSON.stringify({ tab: tab.name })));
// A page that comes back from the browser's memory has no session any more.
addEventListener("pageshow", (event) => event.persisted && location.reload());
