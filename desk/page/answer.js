// What the tool answers to a hand: waits while it is unfinished; who pays what, yaku, fu, readings and slip once it is finished; or a refusal.
import { byId, bytes, grid, make, points, scroll } from "./make.js";
import { first, numbers } from "./plain.js";
import { message } from "./speech.js";
import { words } from "./state.js";
import { table } from "./table.js";
import { row, tilesOf } from "./tiles.js";
import { clip, word } from "./words.js";
import { why } from "./why.js";

const FU_CLIPS = 84; // ten items: base, closed ron, pair, four groups, wait, tsumo, rounding
const FIRST_YAKUMAN = 26;
const card = (kind, heading, ...children) => make("section", { class: `card ${kind}` }, heading && make("h3", {}, heading), children);

/** Whether both scorers agree; where they differ, in red with the bytes. */
export function verdict({ agree, differs }) {
  if (agree) return make("p", { class: "verdict agree" }, "✓ ", word("agree"));
  return make("div", { class: "verdict differ", role: "alert" }, make("p", {}, "✗ ", word("differ")), make("pre", {}, differs.join("\n")));
}

/** The limit as the unit says it, if it says one. */
const limit = (said) => numbers(said, "clips").find((number) => number >= 71 && number <= 75);

function yakuTable(hand) {
  const han = numbers(hand, "han");
  const rows = numbers(hand, "yaku").map((number, at) => [String(number), clip(140 + number), number < FIRST_YAKUMAN ? String(han[at]) : clip(75)]);
  const dora = numbers(hand, "dora")[0];
  if (dora > 0) rows.push(["", word("dora"), String(dora)]);
  const sum = numbers(hand, "h")[0];
  if (sum > 0) rows.push(["", word("sum"), String(sum)]);
  return card("yaku", null, grid(word("yaku"), [], rows, (at) => (rows[at][1] === word("sum") ? "sum" : undefined)));
}

/** What an item of fu is of: the pair, a group with its way, or the wait. */
function fuOf(hand, item) {
  if (item === 2) return row(tilesOf(first(hand, "pair")));
  if (item >= 3 && item <= 6 && hand.group) {
    const [way, kind, tiles] = hand.group[item - 3].split(" ");
    return [row(tilesOf(tiles)), " ", word("set", word(`way-${way}`), word(`group-${kind}`))];
  }
  return item === 7 && hand.wait ? word(`wait-${first(hand, "wait")}`) : "";
}

function fuTable(hand) {
  const items = numbers(hand, "fu-items");
  const rows = items.flatMap((fu, item) => (fu > 0 ? [[clip(FU_CLIPS + item), fuOf(hand, item), String(fu)]] : []));
  rows.push([word("sum"), "", first(hand, "fu")]);
  const basic = make("p", { class: "hint" }, word("basic", points(numbers(hand, "basic")[0])));
  return card("fu", null, grid(clip(70), [], rows, (at) => (at === rows.length - 1 ? "sum" : undefined)), basic);
}

/** A reading's parts, the one that the winning tile completes marked. */
function parted(shape, pair, groups, place) {
  if (shape !== "regular") return word(shape);
  const list = [pair, ...groups.split(",")].filter((part) => part !== "-");
  return make("span", { class: "groups" }, list.map((part, at) => make("span", { class: at === Number(place) ? "group place" : "group" }, row(tilesOf(part)))));
}

function readingsTable(readings) {
  const lines = (readings.reading ?? []).map((line) => line.split(" "));
  if (lines.length === 0) return null;
  const names = (yaku) => (yaku === "-" ? "–" : yaku.split(",").map((number) => clip(140 + Number(number))).join(", "));
  const mark = (n) => make("strong", { "aria-label": `${n}, ${word("reported")}` }, `▶ ${n}`);
  const rows = lines.map(([n, shape, pair, groups, place, yaku, h, fu, gain, end]) =>
    [end === "reported" ? mark(n) : n, parted(shape, pair, groups, place), names(yaku), h, fu, points(Number(gain))]);
  const heads = ["", word("reading"), word("yaku"), clip(69), clip(70), word("gain")];
  const marked = (at) => (lines[at][9] === "reported" ? "reported" : undefined);
  const caption = word("readings", lines.length);
  const hint = make("p", { class: "hint" }, `▶ ${word("reported")}. ${word("tried", first(readings, "tried"))}`);
  return card("readings", null, scroll(caption, grid(caption, heads, rows, marked)), hint);
}

function slipCard(slip) {
  const lines = slip?.["slip-line"];
  return lines && card("slip-card", word("slip"), make("pre", { class: "slip" }, lines.join("\n")));
}

const recordCard = (hand) => card("record", word("record"), bytes(first(hand, "record")), make("p", {}, make("code", {}, first(hand, "notation"))));

function accepted(answer) {
  const { hand, readings, slip, say } = answer.answers;
  const [h, fu, changes] = [numbers(hand, "h")[0], numbers(hand, "fu")[0], numbers(hand, "changes")];
  const reached = limit(say);
  const figures = h > 0 ? `${h} ${clip(69)} ${fu} ${clip(70)}` : "";
  const middle = [make("span", { class: "figures" }, figures), reached && make("span", { class: "limit" }, clip(reached))];
  const parts = [
    table(first(answer.own, "winds").split(" "), changes, middle, word("who-pays")),
    message(word("said"), say, { of: "score", words: words() }),
    make("div", { class: "pair-of-cards" }, yakuTable(hand), h > 0 && fuTable(hand)),
  ];
  const saidFu = message(word("said-fu"), answer.answers["say-fu"], { of: "fu", words: words() });
  return { parts, details: [readingsTable(readings), slipCard(slip), recordCard(hand), saidFu] };
}

/** A refusal by its number, its sentence and what it is about. */
function refusalCard(number, list) {
  const reasons = (list.why ?? []).map((text) => make("li", {}, why(text)));
  return card("refusal", null,
    make("p", { class: "refusal-number" }, word("refusal", number)),
    make("p", { class: "sentence" }, clip(200 + number)),
    make("ul", { class: "why" }, reasons));
}

function refused(answer) {
  const { hand, readings, say } = answer.answers;
  const number = Number(first(hand, "refusal"));
  const parts = [
    refusalCard(number, hand),
    message(word("said"), say, { of: "refusal", words: String(number) }),
  ];
  return { parts, details: [readingsTable(readings), recordCard(hand)] };
}

/** What a wait would score: h, fu and gain, or why not. */
function score(line) {
  const [refusal, h, fu, gain] = line.map(Number);
  if (refusal !== 0) return clip(200 + refusal);
  return h > 0 ? `${h} ${clip(69)} ${fu} ${clip(70)}, ${points(gain)}` : `${clip(75)}, ${points(gain)}`;
}

function waitsCard(waits) {
  const scores = (waits.score ?? []).map((line) => line.split(" "));
  const of = (tile, how) => scores.find((line) => line[0] === tile && line[1] === how)?.slice(2);
  const rows = (waits.wait ?? []).map((line) => {
    const [tile, left] = line.split("; ");
    const worth = ["ron", "tsumo"].map((how) => of(tile, how)).filter(Boolean).map(score);
    return [row([tile]), left, ...worth];
  });
  const heads = [word("wait"), word("left"), ...(scores.length > 0 ? [clip(64), clip(65)] : [])];
  const furiten = first(waits, "furiten") === "1";
  const told = make("p", { class: furiten ? "furiten yes" : "furiten" }, word(furiten ? "furiten-yes" : "furiten-no"));
  return card("waits", null, grid(clip(79), heads, rows), told);
}

function readyCard(ready) {
  const swaps = Number(first(ready, "swaps"));
  const tiles = (key) => row(tilesOf(first(ready, key)));
  return card("ready", null,
    make("p", { class: "sentence" }, word("from-ready", swaps)),
    make("p", { class: "swap" }, word("give"), " ", tiles("out"), " ", word("take"), " ", tiles("in")),
    make("p", { class: "swap" }, word("then"), " ", tiles("waits")));
}

function unfinished({ answers: { waits, ready, say, "say-ready": sayReady } }) {
  const number = Number(first(waits, "refusal"));
  if (number !== 0) return { parts: [refusalCard(number, waits)], details: [] };
  const hand = first(waits, "notation");
  const discards = first(waits, "discards") ? ` kinds=${first(waits, "discards")}` : "";
  const waiting = first(waits, "waits") !== "";
  const parts = [
    waiting ? waitsCard(waits) : readyCard(ready),
    waiting && message(word("said"), say, { of: "waits", words: hand + discards }),
    message(waiting ? word("said-ready") : word("said"), sayReady, { of: "ready", words: hand }),
  ];
  return { parts, details: [] };
}

/** Puts parts beside the keys, and details below both. */
function put(kind, parts, details = []) {
  byId("answer").replaceChildren(...parts.filter(Boolean));
  byId("details").replaceChildren(...details.filter(Boolean));
  byId("answer").dataset.kind = kind;
}

/** Draws an answer to a hand. */
export function drawAnswer(answer) {
  const { hand, waits } = answer.answers;
  if (!hand && !waits) return put("empty", [make("p", { class: "hint" }, word("nothing-yet"))]);
  const { parts, details } = !hand ? unfinished(answer) : first(hand, "refusal") === "0" ? accepted(answer) : refused(answer);
  put(hand ? "finished" : "unfinished", [verdict(answer), ...parts], details);
}

/** Draws what was wrong with a question, in its one line. */
export function drawFault(error) {
  const text = error.message === "server" ? word("no-server") : error.message;
  put("fault", [make("p", { class: "fault", role: "alert" }, text)]);
}
