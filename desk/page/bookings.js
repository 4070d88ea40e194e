// What can be booked in the evening: riichi, a win, a draw, a chombo, a multiple ron, a pao, and corrections.
import { shown } from "./hand.js";
import { button, make } from "./make.js";
import { first } from "./plain.js";
import { clip, word } from "./words.js";

const SEATS = [0, 1, 2, 3];
let correcting = false;
let ready = [];
let hands = []; // of a multiple ron

/** The notation of the hand just keyed in, or of its record; none while it is unfinished. */
function lastHand() {
  const hand = shown()?.answers.hand;
  return hand ? first(hand, "notation") || first(hand, "record") : "";
}

/** Books a result, or a correction by it. */
const result = (book, line) => book(correcting ? `correct ${line}` : line);

const group = (id, label, ...children) =>
  make("div", { class: "choice booking", id }, make("span", { class: "label" }, label), make("div", { class: "buttons" }, children));

/** A list of seats to choose from. */
const select = (id, label, values) => make("label", {}, `${label} `, make("select", { id }, values.map(([value, text]) => make("option", { value }, text))));

/** The keys of all bookings; `book` books a line, `draw` draws them again. */
export function bookings(names, book, draw) {
  const hand = lastHand();
  const settle = (line) => {
    [ready, hands] = [[], []];
    result(book, line);
    correcting = false;
  };
  return make("section", { class: "card bookings" },
    make("h3", {}, word("book")),
    group("book-riichi", clip(150), seatKeys(names, (seat) => book(`riichi ${seat}`))),
    make("div", { class: correcting ? "results correcting" : "results" },
      correction(draw),
      group("book-win", word("win"),
        button(word("book-win"), () => settle(`win ${hand}`), { disabled: hand === "", id: "win" }),
        make("code", { class: "hand-words" }, hand || word("no-hand"))),
      group("book-draw", word("draw"),
        SEATS.map((seat) => toggle(word("ready", names[seat]), seat, draw)),
        button(word("book-draw"), () => settle(["draw", ...ready].join(" ")), { id: "draw" })),
      group("book-chombo", word("chombo"), seatKeys(names, (seat) => settle(`chombo ${seat}`))),
      group("book-multi", word("multi"), together(hand, settle, draw))),
    group("book-pao", word("pao"), pao(names, book)));
}

const seatKeys = (names, send) => SEATS.map((seat) => button(names[seat], () => send(seat), { "data-value": seat }));

/** Whether the next result is a correction. */
function correction(draw) {
  const onchange = (event) => {
    correcting = event.target.checked;
    draw();
  };
  return make("label", { class: "correct" }, make("input", { type: "checkbox", id: "correct", checked: correcting, onchange }), " ", word("correct"));
}

/** A seat that is ready at the draw, or not. */
function toggle(text, seat, draw) {
  const flip = () => {
    ready = ready.includes(seat) ? ready.filter((one) => one !== seat) : [...ready, seat].sort();
    draw();
  };
  return button(text, flip, { "aria-pressed": String(ready.includes(seat)), "data-value": seat });
}

/** The hands of a multiple ron, gathered one after the other. */
function together(hand, settle, draw) {
  const keep = (list) => () => {
    hands = list;
    draw();
  };
  return [
    button(word("add-hand"), keep([...hands, hand]), { disabled: hand === "" || hands.length > 2, id: "add-hand" }),
    button(word("book-multi", hands.length), () => settle(`multi ${hands.join(" / ")}`), { disabled: hands.length === 0, id: "multi" }),
    hands.length > 0 && button(word("drop-hands"), keep([])),
    make("ol", {}, hands.map((text) => make("li", {}, make("code", { class: "hand-words" }, text)))),
  ];
}

/** Who feeds whom, and which yaku. */
function pao(names, book) {
  const seats = SEATS.map((seat) => [seat, names[seat]]);
  const value = (id) => document.getElementById(id).value;
  const send = () => book(`pao holder=${value("holder")} feeder=${value("feeder")} yaku=${value("pao-yaku")}`);
  return [
    select("holder", word("holder"), seats),
    select("feeder", word("feeder"), [...seats].reverse()),
    select("pao-yaku", word("yaku"), [[28, clip(168)], [29, clip(169)]]),
    button(word("book-pao"), send, { id: "pao" }),
  ];
}
