// The view of a hand: each change is put to the tool, and its answer drawn; the hand stands as tiles in a row.
import { draft } from "./ask.js";
import { drawAnswer, drawFault } from "./answer.js";
import * as keys from "./keys.js";
import { byId, make } from "./make.js";
import { first } from "./plain.js";
import { change, fieldsOf, settle, state, words } from "./state.js";
import { named, picture, tilesOf } from "./tiles.js";
import { language, word } from "./words.js";

let asked = null; // stops the question before
let last = null;

/** The answer that is shown, for the other views. */
export const shown = () => last;

/** What stands at a place of the row is taken out; the focus stays there. */
async function takeOut(event, fields) {
  const at = standing().indexOf(event.currentTarget);
  change(fields);
  await ask();
  if (event.detail === 0) standing()[Math.min(at, standing().length - 1)]?.focus();
}

const standing = () => [...byId("row").querySelectorAll("button")];

/** A tile of the row that can be taken out. */
function taken(tile, fields, label) {
  const out = (event) => takeOut(event, fields());
  return make("button", { type: "button", class: "standing", "aria-label": word("take-out", label ?? named(tile)), onclick: out }, picture(tile, true));
}

const without = (list, at) => list.filter((_, place) => place !== at);
const gap = (key, ...children) =>
  make("div", { class: `part ${key}`, role: "group", "aria-label": word(key) },
    make("span", { class: "part-name" }, word(key)), make("div", { class: "part-tiles" }, children));
const slot = () => make("span", { class: "slot", "aria-hidden": "true" });

function drawRow(answer) {
  const hand = state();
  if (hand.fixed !== null) {
    byId("row").replaceChildren(gap("record", make("code", {}, hand.fixed)));
    return;
  }
  const needs = Number(first(answer.own, "needs"));
  const concealed = hand.concealed.map((tile, at) => taken(tile, () => ({ concealed: without(state().concealed, at) })));
  const empty = Array.from({ length: Math.max(needs - concealed.length, 0) }, slot);
  const winning = hand.winning ? taken(hand.winning, () => ({ winning: null })) : slot();
  const melds = (answer.own.meld ?? []).map((text, at) => {
    const [kind, tiles] = text.split(" ");
    const label = `${word(`mode-${kind}`)} ${tilesOf(tiles).map(named).join(" ")}`;
    const down = (place) => kind === "ankan" && (place === 0 || place === 3);
    const pictures = tilesOf(tiles).map((tile, place) => (down(place) ? make("span", { class: "face-down" }) : picture(tile, true)));
    const out = (event) => takeOut(event, { melds: without(state().melds, at) });
    return make("button", { type: "button", class: "standing meld", "aria-label": word("take-out", label), onclick: out }, pictures);
  });
  const discards = hand.discards.map((tile, at) => taken(tile, () => ({ discards: without(state().discards, at) })));
  byId("row").replaceChildren(...[
    gap("concealed", concealed, empty),
    melds.length > 0 && gap("melds", melds),
    gap("winning", winning),
    gap("indicator", picture(hand.indicator)),
    gap("dora", picture(first(answer.own, "dora-tile"))),
    discards.length > 0 && gap("discards", discards),
  ].filter(Boolean));
}

/** What comes next; for a screen reader also what the unit will say. */
function drawNext(answer) {
  const [key, number] = first(answer.own, "next").split(" ");
  const said = (answer.answers.say?.words ?? []).join(", ");
  byId("next").replaceChildren(make("span", {}, word(`next-${key}`, number)), make("span", { class: "unseen" }, ` ${said}`));
  byId("next").className = key;
}

function drawAll(answer) {
  last = answer;
  drawRow(answer);
  drawNext(answer);
  keys.draw(answer);
  drawAnswer(answer);
}

/** Puts words to the tool and draws its answer, once `take` has taken it over; only the last question is drawn. */
async function put(text, take) {
  const start = performance.now();
  asked?.abort();
  asked = new AbortController();
  const { signal } = asked;
  byId("answer").ariaBusy = "true";
  try {
    const answer = await draft(text, language(), signal);
    if (signal.aborted) return;
    take(answer);
    drawAll(answer);
    document.dispatchEvent(new CustomEvent("answered"));
  } catch (error) {
    if (error.name === "AbortError") return;
    drawFault(error);
  }
  byId("answer").ariaBusy = "false";
  performance.measure("answer", { start });
  keys.goOn();
}

/** The hand as it stands now. */
export const ask = () => put(words(), (answer) => state().fixed === null && settle(answer));

/** The evening goes on: the next hand is keyed in at its table. */
export function sitDown({ dealer, wind, over }) {
  if (over || (state().dealer === dealer && state().wind === wind)) return;
  change({ dealer, wind });
  ask();
}

/** Reads what was typed: notation or a record in hexadecimal; dealer and wind stay where it does not name them. */
function read(event) {
  event.preventDefault();
  const text = byId("typed-text").value.trim();
  const { dealer, wind } = state();
  const table = [/dealer[=＝]/i.test(text) ? "" : `dealer=${dealer}`, /wind[=＝]/i.test(text) ? "" : `wind=${wind}`];
  put([text, ...table].join(" "), (answer) => change(fieldsOf(answer)));
}

export function begin() {
  keys.begin(ask);
  byId("typed").addEventListener("submit", read);
}
