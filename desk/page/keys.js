// The keys: 34 tiles, what the next one is to be, and what else is keyed in of a hand. Which tiles can be pressed is the tool's to say.
import { button, byId, make } from "./make.js";
import { first, numbers } from "./plain.js";
import { canUndo, change, clear, state, undo } from "./state.js";
import { KINDS, named, picture, tilesOf } from "./tiles.js";
import { clip, word } from "./words.js";

const MODES = ["tile", "chi", "pon", "kan", "ankan", "indicator", "discard"];
const SITUATIONS = ["", "rinshan", "chankan", "last", "first"];
const SEATS = [0, 1, 2, 3];

let mode = "tile";
let open = null; // the keys that can be pressed, by mode, as the tool has said
let needs = 13;
const waiting = []; // tiles pressed before the last answer
let changed; // called after each change

/** Tells the buttons of a group, made once, what they are now: [value, text, whether it is off] each. */
function tell(group, values, chosen, choose) {
  if (group.children.length === 0) {
    group.append(...values.map(([value]) => button("", () => choose(value), { role: "radio", "data-value": String(value) })));
  }
  const reached = values.find(([value, , off]) => value === chosen && !off) ?? values.find(([, , off]) => !off) ?? values[0];
  values.forEach(([value, text, off], at) => {
    const key = group.children[at];
    key.tabIndex = value === reached[0] ? 0 : -1;
    if (key.textContent !== text) key.textContent = text;
    key.ariaChecked = String(value === chosen);
    key.disabled = Boolean(off);
  });
}

/** A choice with its heading; `wanted` marks what is to be said next. */
function choice(id, label, values, chosen, choose, wanted = false) {
  if (!byId(id)) {
    const heading = make("span", { class: "label", id: `${id}-label` });
    byId("choices").append(make("div", { id }, heading, make("div", { role: "radiogroup", "aria-labelledby": `${id}-label` })));
  }
  const node = byId(id);
  node.className = wanted ? "choice wanted" : "choice";
  node.firstChild.textContent = label;
  tell(node.lastChild, values, chosen, choose);
}

const set = (fields) => {
  change(fields);
  changed();
};

/** A tile key is pressed; while an answer is awaited the tile waits for it, as it may be a fifth. */
function press(tile) {
  if (byId("answer").ariaBusy === "true") return void waiting.push(tile);
  if (!isOpen(tile)) return;
  const { concealed, melds, discards } = state();
  const now = mode;
  if (now !== "discard") mode = "tile";
  if (now === "tile" && concealed.length < needs) set({ fixed: null, concealed: [...concealed, tile] });
  else if (now === "tile") set({ fixed: null, winning: tile });
  else if (now === "indicator") set({ fixed: null, indicator: tile });
  else if (now === "discard") set({ fixed: null, discards: [...discards, tile] });
  else set({ fixed: null, melds: [...melds, { word: now, tile }] });
}

const isOpen = (tile) => state().fixed !== null || open === null || open[mode].includes(tile);

/** How many of a tile stand in the hand, for its key. */
function times(tile) {
  const { concealed, winning } = state();
  return [...concealed, winning].filter((one) => one === tile).length;
}

/** The keys are made once, and then told what has changed. */
function makeTiles() {
  const badge = () => make("span", { class: "times", "aria-hidden": "true" });
  const key = (tile) => button([picture(tile, true), badge()], () => press(tile), { "data-tile": tile, tabindex: tile === "1m" ? 0 : -1 });
  byId("tiles").replaceChildren(...[0, 9, 18, 27].map((start) => make("div", { class: "keys-row" }, KINDS.slice(start, start + 9).map(key))));
}

function drawTiles() {
  for (const key of byId("tiles").querySelectorAll("button")) {
    const { tile } = key.dataset;
    const count = times(tile);
    key.ariaLabel = count > 0 ? `${named(tile)}, ${count}` : named(tile);
    key.ariaDisabled = String(!isOpen(tile));
    key.lastChild.textContent = count > 0 ? String(count) : "";
  }
}

function drawMode() {
  const off = (name) => open !== null && state().fixed === null && open[name].length === 0 && name !== "tile";
  const choose = (name) => {
    mode = name;
    draw();
  };
  tell(byId("mode"), MODES.map((name) => [name, word(`mode-${name}`), off(name)]), mode, choose);
}

/** A seat with its wind, as the unit names the player. */
function seatText(seat, winds) {
  const wind = "ESWN".indexOf(winds[seat]);
  return wind < 0 ? String(seat) : `${seat} ${clip(60 + wind)}`;
}

function drawChoices(answer) {
  const { seat, how, riichi, situation, dealer, wind, fixed } = state();
  const off = fixed !== null; // a record that no keys can make stands as it is
  const winds = first(answer.own, "winds").split(" ");
  const from = numbers(answer.own, "from");
  const next = first(answer.own, "next");
  const seats = SEATS.map((number) => [number, seatText(number, winds), off]);
  const ron = (number) => [`ron=${number}`, word("ron-from", seatText(number, winds)), !from.includes(number)];
  const ways = [["tsumo", word("tsumo"), off], ...SEATS.map(ron)];
  const won = (value) => set({ seat: value, how: state().how === `ron=${value}` ? null : state().how });
  choice("seat", word("who"), seats, seat, won, next === "seat");
  choice("how", word("how"), ways, how, (value) => set({ how: value }), next === "how");
  const riichis = [["", word("none"), off], ["riichi", clip(150), off], ["double", clip(151), off]];
  const situations = SITUATIONS.map((name) => [name, word(`situation-${name || "none"}`), off]);
  choice("riichi", clip(150), riichis, riichi, (value) => set({ riichi: value }));
  choice("situation", word("situation"), situations, situation, (value) => set({ situation: value }));
  choice("dealer", word("dealer"), SEATS.map((number) => [number, String(number)]), dealer, (value) => set({ dealer: value }));
  choice("wind", word("wind"), [[0, word("wind-0")], [1, word("wind-1")]], wind, (value) => set({ wind: value }));
}

/** Draws all keys again; with an answer, by what it says can be pressed. */
export function draw(answer) {
  if (answer?.own.key) {
    open = Object.fromEntries(answer.own.key.map((line) => [line.split(" ")[0], tilesOf(line.split(" ")[1] ?? "")]));
    needs = numbers(answer.own, "needs")[0];
  }
  if (answer) drawChoices(answer);
  drawMode();
  drawTiles();
  byId("undo").disabled = !canUndo();
}

/** The next of the tiles that wait. */
export function goOn() {
  if (waiting.length > 0) press(waiting.shift());
}

/** Arrow keys go from tile to tile. */
function walk(event) {
  const at = KINDS.indexOf(event.target.closest?.("#tiles button")?.dataset.tile);
  const step = { ArrowRight: 1, ArrowLeft: -1, ArrowDown: 9, ArrowUp: -9 }[event.key];
  if (at < 0 || step === undefined) return;
  event.preventDefault();
  const tile = KINDS[at + step] ?? KINDS[at];
  for (const key of byId("tiles").querySelectorAll("button")) key.tabIndex = key.dataset.tile === tile ? 0 : -1;
  byId("tiles").querySelector(`[data-tile="${tile}"]`).focus();
}

/** Arrow keys go along a row of choices. */
function along(event) {
  const group = event.target.closest?.("[role=radiogroup]");
  const step = { ArrowRight: 1, ArrowDown: 1, ArrowLeft: -1, ArrowUp: -1 }[event.key];
  if (!group || step === undefined) return;
  event.preventDefault();
  const buttons = [...group.querySelectorAll("button:not(:disabled)")];
  buttons.at((buttons.indexOf(event.target) + step) % buttons.length)?.focus();
}

/** Sets the keys up; `after` is called after each change. */
export function begin(after) {
  changed = after;
  makeTiles();
  byId("undo").addEventListener("click", back);
  byId("clear").addEventListener("click", anew);
  byId("tiles").addEventListener("keydown", walk);
  byId("keys").addEventListener("keydown", along);
}

function anew() {
  mode = "tile";
  waiting.length = 0;
  clear();
  changed();
}

/** Takes the last step back. */
export function back() {
  waiting.length = 0;
  undo();
  changed();
}
