// The page: its three views, the languages by the keys 1 to 4, and the keyboard.
import { LANGUAGES, choose, language, loadSheet, word } from "./words.js";
import { byId, make } from "./make.js";
import { back } from "./keys.js";
import * as hand from "./hand.js";
import * as evening from "./evening.js";
import * as damage from "./damage.js";

const VIEWS = { hand, evening, damage };
const LETTERS = { h: "hand", e: "evening", d: "damage" };

function show(name) {
  for (const view of Object.keys(VIEWS)) {
    byId(view).hidden = view !== name;
    byId(`tab-${view}`).setAttribute("aria-selected", String(view === name));
  }
  VIEWS[name].show?.();
}

function speak(number) {
  choose(number);
  for (const button of byId("languages").children) button.setAttribute("aria-pressed", String(Number(button.dataset.language) === number));
  Object.values(VIEWS).forEach((view) => view.ask());
}

function languageKeys() {
  const key = ({ name, mark }, at) =>
    make("button", { type: "button", "data-language": at + 1, lang: mark, onclick: () => speak(at + 1) }, make("kbd", {}, String(at + 1)), ` ${name}`);
  byId("languages").replaceChildren(...LANGUAGES.map(key));
}

/** Keys that work wherever nothing is being typed. */
function keyboard(event) {
  const typing = event.target.matches?.("input, textarea, select");
  if (event.key === "Escape" && typing) event.target.blur();
  if (typing || event.ctrlKey || event.altKey || event.metaKey) return;
  if ("1234".includes(event.key)) speak(Number(event.key));
  else if (LETTERS[event.key.toLowerCase()]) show(LETTERS[event.key.toLowerCase()]);
  else if (event.key === "Backspace") back();
  else if (event.key === "/") byId("typed-text").focus();
  else return;
  event.preventDefault();
}

async function begin() {
  languageKeys();
  Object.keys(VIEWS).forEach((name) => byId(`tab-${name}`).addEventListener("click", () => show(name)));
  document.addEventListener("keydown", keyboard);
  try {
    await loadSheet();
  } catch {
    document.body.prepend(make("p", { class: "fault", role: "alert" }, word("no-server")));
    return;
  }
  Object.values(VIEWS).forEach((view) => view.begin());
  show("hand");
  speak(language());
}

begin();
