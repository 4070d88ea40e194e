// The table seen from above: seat 0 below, then in turn order to the right, across and to the left, with what each pays or gets.
import { draw, make, points } from "./make.js";
import { clip, word } from "./words.js";

const SIDES = ["below", "right", "across", "left"];

// Where an arrow begins or ends on a felt of 100 by 100.
const ENDS = [[50, 92], [92, 42], [50, 8], [8, 42]];

/** An arrow from who pays to who gets, bent so that it leaves the middle free. */
function arrow(from, to) {
  const [[x1, y1], [x2, y2]] = [ENDS[from], ENDS[to]];
  const [dx, dy] = [x2 - x1, y2 - y1];
  const corner = [(x1 + x2) / 2, (y1 + y2) / 2].map((place) => place + (place - 50) * 0.25);
  const across = dx === 0 ? [50 + dy * 0.85, 50] : [50, y1 - Math.abs(dx) * 0.55];
  const bend = from % 2 === to % 2 ? across : corner;
  const angle = Math.atan2(y2 - bend[1], x2 - bend[0]);
  const wing = (turn) => `${x2 - 7 * Math.cos(angle + turn)} ${y2 - 7 * Math.sin(angle + turn)}`;
  return [
    draw("path", { d: `M${x1} ${y1} Q${bend[0]} ${bend[1]} ${x2} ${y2}`, class: "arrow" }),
    draw("path", { d: `M${wing(0.5)} L${x2} ${y2} L${wing(-0.5)} Z`, class: "arrow-head" }),
  ];
}

function seatCard(seat, wind, amount, more, dealer) {
  const kind = amount > 0 ? "gets" : amount < 0 ? "pays" : "still";
  const what = amount === 0 ? "" : make("span", { class: "what" }, clip(amount > 0 ? 67 : 66));
  return make("div", { class: `seat ${SIDES[seat]} ${kind}`, "data-seat": seat },
    make("span", { class: "wind" }, wind, dealer && make("span", { class: "dealer-mark" }, word("dealer"))),
    make("span", { class: "number" }, word("seat", seat)),
    make("span", { class: "amount" }, points(amount, true)), what, more);
}

/** The table with the four changes; `middle` stands on the felt. */
export function table(winds, changes, middle, label) {
  const gets = changes.findIndex((amount) => amount > 0);
  const winners = changes.filter((amount) => amount > 0).length;
  const arrows = winners === 1 ? changes.flatMap((amount, seat) => (amount < 0 ? arrow(seat, gets) : [])) : [];
  const names = winds.map((wind) => clip(60 + "ESWN".indexOf(wind)));
  const cards = changes.map((amount, seat) => seatCard(seat, names[seat] ?? "", amount, null, winds[seat] === "E"));
  const felt = make("div", { class: "felt" }, draw("svg", { viewBox: "0 0 100 100", "aria-hidden": "true" }, arrows), make("div", { class: "middle" }, middle));
  return make("div", { class: "table", role: "group", "aria-label": label }, cards, felt);
}
