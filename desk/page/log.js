// The evening's log as the page keeps it: its digits, and what the tool has made of them. The tool alone reads and writes entries.
import { game, text as asText } from "./ask.js";
import { first, numbers } from "./plain.js";
import { language } from "./words.js";

let digits = "";
let answer = null;

export const digitsOf = () => digits;
export const answerOf = () => answer;

/** An entry by the names of its numbers. */
function entryOf(line) {
  const [n, at, letter, refusal, ...rest] = line.split(" ");
  const [dealer, wind, , , ...more] = rest.map(Number);
  return {
    n: Number(n), at: Number(at), letter, refusal: Number(refusal), dealer, wind,
    changes: more.slice(0, 4), scores: more.slice(4, 8), sticks: more[8], counter: more[9],
  };
}

/** The entries that are shown; text and remark stand behind an entry's line. */
function entriesOf(lines) {
  const list = [];
  for (const line of lines) {
    const [key] = line.split(" ", 1);
    const rest = line.slice(key.length + 1);
    if (key === "entry") list.push(entryOf(rest));
    else if (key === "text" || key === "remark") list.at(-1)[key] = rest;
  }
  return list;
}

const lineNumbers = (lines) => (lines ?? []).map((line) => line.split(" ").map(Number));

/** Asks the tool about a log, and keeps it. */
async function take(body, form, more = {}) {
  const given = await game(body, form, language(), more);
  const { own } = given;
  const [dealer, wind, sticks, counter, hands, over] = numbers(own, "now");
  digits = first(own, "log");
  answer = {
    ...given,
    entries: entriesOf(given.lines),
    number: numbers(own, "entries")[0],
    last: numbers(own, "last")[0] ?? 0,
    scores: [[0, ...numbers(own, "start")], ...lineNumbers(own.result)],
    now: {
      dealer, wind, sticks, counter, hands, over: over !== 0,
      scores: numbers(own, "scores"), winds: first(own, "winds").split(" "), declared: numbers(own, "declared"),
    },
    paos: lineNumbers(own.pao),
    places: Object.fromEntries(lineNumbers(own.place).map(([place, seat]) => [seat, place])),
    stopped: own.stopped?.[0],
    cut: first(own, "cut"),
  };
}

/** Other entries of the same log. */
export const turn = (from) => take(digits, "hex", { from });

/** The log again, as after a change of the language. */
export const again = () => take(digits, "hex");

/** Another log, in a form that its content tells; `called` is the name of its file. */
export const load = (content, form = "", called = "") => take(content, form, { called });

/** One more entry, in words. */
export const book = (line) => take(digits, "hex", { more: line });

/** The log up to its last entry. */
export const takeBack = () => take(digits.slice(0, 2 * answer.last), "hex");

/** The log as text: a line for each entry, and bytes that are none. */
export const text = () => (digits === "" ? "" : asText(digits));

/** The same, where all entries are shown. */
export function textShown() {
  if (answer.entries.length < answer.number) return "";
  const bytes = answer.stopped ? [`bytes ${answer.stopped.split(" ")[1]}`] : [];
  return [...answer.entries.map((entry) => entry.text), ...bytes].map((line) => `${line}\n`).join("");
}

/** The log as bytes. */
export const bytes = () => Uint8Array.from(digits.match(/../g) ?? [], (two) => parseInt(two, 16));
