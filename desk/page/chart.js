// The four scores as lines over the finished hands.
import { draw, make, points } from "./make.js";
import { word } from "./words.js";

const [HIGH, LEFT, RIGHT, TOP, BOTTOM] = [260, 58, 84, 12, 26];
const NARROW = matchMedia("(max-width: 40rem)");
const DASHES = ["", "7 4", "2 4", "10 4 2 4"];

/** Steps of 1, 2 or 5 times a power of ten, about four of them. */
function step(span) {
  const rough = Math.max(span / 4, 1);
  const power = 10 ** Math.floor(Math.log10(rough));
  return [1, 2, 5, 10].map((times) => times * power).find((size) => size >= rough);
}

/** Labels at the right end, moved apart where scores are close. */
function apart(places) {
  const order = [...places.keys()].sort((a, b) => places[a] - places[b]);
  const moved = [];
  order.forEach((seat, at) => {
    moved[seat] = Math.max(places[seat], at > 0 ? moved[order[at - 1]] + 15 : TOP + 4);
  });
  return moved;
}

/** The picture of rows of hands finished and four scores; its label has the scores that stand now in words. */
export function chart(rows, now) {
  const wide = NARROW.matches ? 370 : 640;
  const data = rows.map(([hands, ...scores]) => [hands, scores]);
  const all = data.flatMap(([, scores]) => scores);
  const size = step(Math.max(...all) - Math.min(...all) || 10000);
  const low = Math.floor(Math.min(...all) / size) * size;
  const high = Math.max(Math.ceil(Math.max(...all) / size) * size, low + size);
  const last = Math.max(data.at(-1)[0], 1);
  const x = (hands) => LEFT + ((wide - LEFT - RIGHT) * hands) / last;
  const y = (score) => TOP + ((HIGH - TOP - BOTTOM) * (high - score)) / (high - low);

  const levels = Array.from({ length: Math.round((high - low) / size) + 1 }, (_, at) => low + at * size);
  const grid = levels.map((score) => [
    draw("line", { x1: LEFT, x2: wide - RIGHT, y1: y(score), y2: y(score), class: "level" }),
    draw("text", { x: LEFT - 6, y: y(score) + 4, class: "level-name" }, points(score)),
  ]);
  const every = Math.ceil((last * 55) / wide);
  const hands = Array.from({ length: last + 1 }, (_, at) => at).filter((at) => at % every === 0);
  const axis = hands.map((at) => draw("text", { x: x(at), y: HIGH - 8, class: "hand-name" }, String(at)));
  const ends = apart(data.at(-1)[1].map(y));
  const path = (seat) => data.map(([at, scores]) => `${x(at)},${y(scores[seat])}`).join(" ");
  const lines = [0, 1, 2, 3].map((seat) => [
    draw("polyline", { points: path(seat), class: `score seat-${seat}`, "stroke-dasharray": DASHES[seat] }),
    data.length < 40 && data.map(([at, scores]) => draw("circle", { cx: x(at), cy: y(scores[seat]), r: 3, class: `dot seat-${seat}` })),
    draw("text", { x: wide - RIGHT + 8, y: ends[seat] + 4, class: `end seat-${seat}` }, `${seat} ${points(data.at(-1)[1][seat])}`),
  ]);
  const label = `${word("chart")}: ${now.scores.map((score, seat) => `${word("seat", seat)} ${points(score)}`).join(", ")}`;
  const picture = draw("svg", { viewBox: `0 0 ${wide} ${HIGH}`, role: "img", "aria-label": label, class: "chart" }, grid, axis, lines);
  return make("figure", { class: "card" }, make("figcaption", {}, word("chart")), picture);
}
