// The hand as far as it was keyed in, and the way back: every change keeps what was before it.
import { first, numbers } from "./plain.js";
import { tilesOf } from "./tiles.js";

const fresh = (dealer = 0, wind = 0) => ({
  concealed: [], winning: null, melds: [], discards: [], indicator: "N", seat: null, how: null, riichi: "", situation: "", dealer, wind, fixed: null,
});

let hand = fresh();
const past = [];
const KEPT = 300;

export const state = () => hand;
export const canUndo = () => past.length > 0;

/** Changes fields of the hand; what was before can be had back. */
export function change(fields) {
  past.push(hand);
  if (past.length > KEPT) past.shift();
  hand = { ...hand, ...fields };
}

export function undo() {
  hand = past.pop() ?? hand;
}

/** A new hand at the same table. */
export const clear = () => change(fresh(hand.dealer, hand.wind));

/** The hand as words for the tool. */
export function words(of = hand) {
  const table = [`dealer=${of.dealer}`, `wind=${of.wind}`];
  if (of.fixed !== null) return [of.fixed, ...table].join(" ");
  const tiles = of.concealed.join("") + (of.winning ? `+${of.winning}` : "");
  const melds = of.melds.map((meld) => `${meld.word}=${meld.tile}`);
  const seat = of.seat === null ? "" : `seat=${of.seat}`;
  const discards = of.discards.length > 0 ? `discards=${of.discards.join("")}` : "";
  const all = [tiles, ...melds, seat, of.how ?? "", of.riichi, of.situation, `indicator=${of.indicator}`, discards, ...table];
  return all.filter((word) => word !== "").join(" ");
}

/** The fields that an answer of the tool has understood. */
export function fieldsOf({ own }) {
  const table = { dealer: numbers(own, "dealer")[0], wind: numbers(own, "wind")[0] };
  if (own.fixed) return { ...fresh(), ...table, fixed: first(own, "fixed") };
  const meld = (text) => ({ word: text.split(" ")[0], tile: tilesOf(text.split(" ")[1])[0] });
  return {
    concealed: tilesOf(first(own, "concealed")),
    winning: first(own, "winning") || null,
    melds: (own.meld ?? []).map(meld),
    discards: tilesOf(first(own, "discards")),
    indicator: first(own, "indicator"),
    seat: numbers(own, "seat")[0] ?? null,
    how: first(own, "how").replace(" ", "=") || null,
    riichi: first(own, "riichi"),
    situation: first(own, "situation"),
    fixed: null,
    ...table,
  };
}

/** Takes over what the tool has made of the same hand, such as its order; no step of the way back. */
export function settle(answer) {
  hand = { ...hand, ...fieldsOf(answer) };
}
