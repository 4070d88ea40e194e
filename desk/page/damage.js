// The view of damage: every single-bit change, cut and swap of the hand's record or of the evening's log, and the refusals met.
import { damage } from "./ask.js";
import { verdict } from "./answer.js";
import { shown } from "./hand.js";
import * as log from "./log.js";
import { button, byId, bytes, grid, make, points, scroll } from "./make.js";
import { first, parse } from "./plain.js";
import { clip, word } from "./words.js";

let of = "hand";
let number = "";
let under = null; // stops what is under way
let tried = [0, 1];
let result = null;
let fault = null;

/** What is damaged: the words of a record with its table, or the log's digits. */
function subject() {
  const hand = shown()?.answers.hand;
  if (of === "hand" && !hand) return null;
  if (of === "hand") {
    const digits = first(hand, "record");
    return { fields: { of, words: `${digits} dealer=${first(hand, "dealer")} wind=${first(hand, "wind")}` }, digits };
  }
  return log.digitsOf() ? { fields: { of, as: "hex" }, body: log.digitsOf(), digits: log.digitsOf() } : null;
}

async function start() {
  const { fields, body } = subject();
  [under, tried, result, fault] = [new AbortController(), [0, 1], null, null];
  byId("damage").ariaBusy = "true";
  draw();
  const lines = [];
  try {
    await damage({ ...fields, random: number }, body, under.signal, (line) => {
      if (!line.startsWith("progress ")) return void lines.push(line);
      tried = line.split(" ").slice(1).map(Number);
      drawProgress();
    });
    const ended = lines.find((line) => line.startsWith("ended "));
    if (ended) fault = ended.slice("ended ".length);
    else result = parse(lines.join("\n"));
  } catch (error) {
    fault = error.name === "AbortError" ? word("damage-stopped", points(tried[0]), points(tried[1])) : error.message;
  }
  under = null;
  draw();
  byId("damage").ariaBusy = "false";
}

function drawProgress() {
  const bar = byId("progress");
  if (!bar) return;
  [bar.value, bar.max] = tried;
  byId("progress-text").textContent = word("tried-of", points(tried[0]), points(tried[1]));
}

const KINDS = ["bit-changed", "cut", "bytes-swapped", "random"];

/** The counts by refusal: a row for each kind of change, a column for each number that was met. */
function counts() {
  const lines = KINDS.filter((kind) => result.own[kind]).map((kind) => [kind, ...first(result.own, kind).split(" ").map(Number)]);
  const met = lines[0].slice(2).map((_, at) => at).filter((at) => lines.some((line) => line[at + 2] > 0));
  const heads = [word("change"), word("tried-heading"), ...met.map((at) => (at === 0 ? word("accepted") : String(at)))];
  const rows = lines.map((line) => [word(line[0]), points(line[1]), ...met.map((at) => points(line[at + 2]))]);
  const sentences = met.filter((at) => at > 0).map((at) => make("li", { value: at }, clip(200 + at)));
  return make("section", { class: "card counts" }, scroll(word("counts"), grid(word("counts"), heads, rows)),
    of === "log" && make("p", { class: "hint" }, word("counts-log")), make("ol", { class: "met" }, sentences));
}

function draw() {
  const given = subject();
  const choose = (value) => () => {
    [of, result, fault] = [value, null, null];
    draw();
  };
  const off = { disabled: under !== null };
  const choice = (value) =>
    button(word(`damage-${value}`), choose(value), { role: "radio", "aria-checked": String(of === value), "data-value": value, ...off });
  const ways = [["", word("every")], ["1000", word("random-of", "1,000")], ["100000", word("random-of", "100,000")]];
  const onchange = (event) => {
    number = event.target.value;
  };
  const options = ways.map(([value, text]) => make("option", { value, selected: value === number }, text));
  const way = make("select", { id: "way", "aria-label": word("way"), onchange, ...off }, options);
  const progress = make("progress", { id: "progress", value: tried[0], max: tried[1], "aria-label": word("progress") });
  const parts = [
    make("section", { class: "card" },
      make("p", { class: "hint" }, word("damage-about")),
      make("div", { role: "radiogroup", "aria-label": word("damage-what") }, choice("hand"), choice("log")),
      make("p", {}, given ? bytes(given.digits, 200) : word(of === "hand" ? "no-hand" : "no-log")),
      make("div", { class: "buttons" }, way,
        button(word("start"), start, { id: "start", disabled: !given || under !== null }),
        button(word("stop"), () => under?.abort(), { id: "stop", disabled: under === null })),
      under && make("div", { class: "progress" }, progress, " ", make("span", { id: "progress-text", role: "status" }))),
    fault && make("p", { class: "fault", role: "alert" }, fault === "server" ? word("no-server") : fault),
    result && verdict(result),
    result && counts(),
  ];
  byId("damage").replaceChildren(...parts.filter(Boolean));
}

export const ask = () => draw();
export const show = draw;
export function begin() {
  document.addEventListener("answered", () => byId("damage").hidden || draw());
}
