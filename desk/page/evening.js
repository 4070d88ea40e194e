// The view of an evening: the table with its scores, bookings one after the other, the scores as lines, and the log to save and to load.
import { verdict } from "./answer.js";
import { bookings } from "./bookings.js";
import { chart } from "./chart.js";
import { sitDown } from "./hand.js";
import * as log from "./log.js";
import { button, byId, bytes, make, points, scroll } from "./make.js";
import { message } from "./speech.js";
import { clip, word } from "./words.js";
import { why } from "./why.js";

const STEP = 100; // entries that the tool shows at a time
const EXAMPLE = "0124"; // document 01's example of a log
const KINDS = { R: "riichi", W: "win", D: "draw", C: "chombo", M: "multi", P: "pao", X: "correction" };
let fault = null;

const deal = ({ wind, dealer }) => `${word(`wind-${wind}`)} ${dealer + 1}`;
const player = (letter) => clip(60 + "ESWN".indexOf(letter));

/** The four players by seat, wind and score. */
function tableNow({ now, places, paos }) {
  const sides = ["below", "right", "across", "left"];
  const card = (score, seat) => make("div", { class: `seat ${sides[seat]}`, "data-seat": seat },
    make("span", { class: "wind" }, player(now.winds[seat]), seat === now.dealer && make("span", { class: "dealer-mark" }, word("dealer"))),
    make("span", { class: "number" }, `${word("seat", seat)} · ${word("place", places[seat])}`),
    make("span", { class: "amount" }, points(score)),
    now.declared.includes(seat) && make("span", { class: "stick" }, clip(150)),
    paos.filter(([holder]) => holder === seat).map(([, feeder, yaku]) => make("span", { class: "what" }, word("fed-by", feeder, clip(140 + yaku)))));
  const middle = make("div", { class: "middle" },
    make("span", { class: "limit" }, now.over ? word("over") : deal(now)),
    make("span", { class: "figures", id: "sticks" }, `${clip(77)} ${now.sticks}`),
    make("span", { class: "figures", id: "counter" }, `${clip(78)} ${now.counter}`),
    make("span", { class: "basic" }, word("hands", now.hands)));
  return make("div", { class: "table", role: "group", "aria-label": word("table") }, now.scores.map(card), make("div", { class: "felt" }, middle));
}

/** An entry as a row; below a refused one stands why. */
function entryRows(entry) {
  const { n, letter, refusal, changes, scores, sticks, counter, text, remark } = entry;
  const moved = (by) => by !== 0 && make("span", { class: by > 0 ? "up" : "down" }, points(by, true));
  const seats = scores.map((score, seat) => make("td", { class: "score-cell" }, points(score), moved(changes[seat])));
  const said = refusal !== 0 ? `${word("refusal", refusal)}: ${clip(200 + refusal)}` : "";
  const row = make("tr", { class: refusal === 0 ? "entry" : "entry refused", "data-entry": n, "data-refusal": refusal },
    make("td", {}, String(n)), make("td", {}, deal(entry)), make("td", {}, make("span", { class: "kind" }, word(KINDS[letter])), " ", make("code", {}, text)),
    seats, make("td", {}, String(sticks)), make("td", {}, String(counter)));
  const told = [said, remark && why(remark)].filter(Boolean).join(" – ");
  return [row, told && make("tr", { class: refusal === 0 ? "remark" : "remark refused" }, make("td", { colspan: 9 }, told))];
}

function entryTable({ entries, number, stopped, cut }) {
  const [first, last] = [entries[0]?.n ?? 0, entries.at(-1)?.n ?? 0];
  const heads = ["", word("deal"), word("entry"), ...[0, 1, 2, 3].map((seat) => word("seat", seat)), clip(77), clip(78)];
  const head = make("thead", {}, make("tr", {}, heads.map((text) => make("th", { scope: "col" }, text))));
  const turn = (from) => () => run(log.turn(Math.max(from, 1)));
  const pager = number > STEP && make("div", { class: "buttons" },
    button(word("earlier"), turn(first - STEP), { id: "earlier", disabled: first <= 1 }),
    button(word("later"), turn(first + STEP), { id: "later", disabled: last >= number }),
    make("span", { class: "hint" }, word("entries", first, last, number)));
  const rows = make("tbody", {}, entries.flatMap(entryRows).filter(Boolean));
  return make("section", { class: "card entries" },
    scroll(word("log"), make("table", {}, make("caption", {}, word("log")), head, rows)),
    pager, stopped && stop(stopped), cut && make("p", { class: "fault" }, cut));
}

/** Where a log stops: the byte, what stands there, and why it is no entry. */
function stop(stopped) {
  const [at, digits, ...reason] = stopped.split(" ");
  const told = [word("stopped", at, digits.slice(0, 20)), `${word("refusal", 14)}: ${clip(214)} –`, why(reason.join(" "))];
  return make("p", { class: "fault", id: "stopped" }, told.join(" "));
}

/** Saves what the log is, as a file. */
function save(name, content) {
  const address = URL.createObjectURL(new Blob([content]));
  make("a", { href: address, download: name }).click();
  setTimeout(() => URL.revokeObjectURL(address), 10000);
}

function files() {
  const taken = async ({ target: { files: [given] } }) => given && run(log.load(await given.arrayBuffer(), "", given.name));
  const file = make("input", { type: "file", id: "load", onchange: taken });
  const typed = make("textarea", { id: "log-text", rows: 6, spellcheck: "false", "aria-label": word("log-text") }, log.textShown());
  const fill = async () => { typed.value ||= await log.text(); };
  return make("section", { class: "card files" },
    make("h3", {}, word("files")),
    make("div", { class: "buttons" },
      button(word("example"), () => run(log.load(EXAMPLE, "hex")), { id: "example" }),
      button(word("fresh"), () => run(log.load("", "text")), { id: "fresh" }),
      button(word("take-back"), () => run(log.takeBack()), { id: "take-back", disabled: log.answerOf().number === 0 })),
    make("div", { class: "buttons" },
      make("label", { class: "file" }, `${word("load")} `, file),
      button(word("save-text"), async () => save("evening.txt", await log.text()), { id: "save-text" }),
      button(word("save-bytes"), () => save("evening.log", log.bytes()), { id: "save-bytes" })),
    make("details", { id: "as-text", ontoggle: fill }, make("summary", {}, word("log-text")), typed,
      make("div", { class: "buttons" }, button(word("read"), () => run(log.load(typed.value)), { id: "read-log" }))),
    make("details", { id: "as-bytes" }, make("summary", {}, word("log-bytes", log.digitsOf().length / 2)), bytes(log.digitsOf(), 4000, { id: "log-bytes" })));
}

/** Draws the view as the log stands; what was open stays open. */
function draw() {
  const answer = log.answerOf();
  if (!answer) return;
  const open = [...byId("evening").querySelectorAll("details[open]")].map((node) => node.id);
  const focus = document.activeElement?.closest("#evening [id]");
  const within = document.activeElement?.dataset?.value;
  const names = answer.now.winds.map((letter, seat) => `${seat} ${player(letter)}`);
  const said = message(word("said-scores"), answer.answers.say, { of: "scores", as: "hex" }, log.digitsOf());
  const parts = [
    fault && make("p", { class: "fault", role: "alert" }, fault === "server" ? word("no-server") : fault),
    make("div", { class: "columns" },
      make("div", { class: "stack" }, bookings(names, book, draw), files()),
      make("div", { class: "stack" }, verdict(answer), tableNow(answer), chart(answer.scores, answer.now), said)),
    entryTable(answer),
  ];
  byId("evening").replaceChildren(...parts.filter(Boolean));
  open.forEach((id) => byId(id)?.setAttribute("open", ""));
  const again = focus && byId(focus.id);
  (again?.querySelector(`button[data-value="${within}"]`) ?? again)?.focus?.();
}

/** Waits for an answer about the log, and draws it, or the line that says what is wrong. */
async function run(answer) {
  fault = null;
  byId("evening").ariaBusy = "true";
  try {
    await answer;
  } catch (error) {
    fault = error.message;
  }
  draw();
  byId("evening").ariaBusy = "false";
}

/** Books an entry; the hand's view takes the table over as it stands then. */
async function book(line) {
  await run(log.book(line));
  if (fault === null) sitDown(log.answerOf().now);
}

export const ask = () => run(log.again());
export const show = draw;
export function begin() {
  document.addEventListener("answered", () => byId("evening").hidden || draw());
}
