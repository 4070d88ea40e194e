// Tiles drawn as pictures: circles, bars and strokes; characters only where the system has them, else a letter. Each of the 34 is drawn
// once, and shown as an image wherever it stands.
import { draw, make } from "./make.js";
import { clip } from "./words.js";

const HONOURS = ["E", "S", "W", "N", "P", "F", "C"];
const SIGNS = { E: "東", S: "南", W: "西", N: "北", F: "發", C: "中" };
const DIGITS = ["一", "二", "三", "四", "五", "六", "七", "八", "九"];

/** The 34 tiles by their names in notation, in the order of their kinds. */
export const KINDS = [..."mps"].flatMap((suit) => [..."123456789"].map((digit) => digit + suit)).concat(HONOURS);

/** The names of the tiles in a text of the tool's, such as 123m99pEE. */
export function tilesOf(text) {
  const stretches = text.match(/[1-9]+[mps]|[ESWNPFC]/g) ?? [];
  return stretches.flatMap((stretch) => (stretch.length === 1 ? [stretch] : [...stretch.slice(0, -1)].map((digit) => digit + stretch.at(-1))));
}

/** The tile in words, as the unit says it. */
export const named = (tile) => clip(100 + KINDS.indexOf(tile));

/** Whether the system has a character: it is drawn otherwise than one that nobody has. */
function has(sign) {
  const picture = (text) => {
    const canvas = make("canvas", { width: 20, height: 20 });
    const context = canvas.getContext("2d", { willReadFrequently: true });
    context.font = "16px sans-serif";
    context.fillText(text, 1, 16);
    return context.getImageData(0, 0, 20, 20).data.join();
  };
  return picture(sign) !== picture("\u{10fffe}") && picture(sign) !== picture("");
}

let known;
const hasSigns = () => (known ??= [..."萬東發中一"].every(has));

// Places of the marks on a face of 60 by 80, and their colours: g green, b blue, r red.
const COLUMNS = { 1: [30], 2: [19, 41], 3: [14, 30, 46] };
const rows = (...list) => list.flatMap(([y, columns, colours]) => COLUMNS[columns].map((x, at) => [x, y, colours[at] ?? colours[0]]));
const PIN = [
  rows([42, 1, "r"]),
  rows([26, 1, "g"], [58, 1, "b"]),
  [[15, 22, "b"], [30, 42, "r"], [45, 62, "g"]],
  rows([26, 2, "bg"], [58, 2, "gb"]),
  [...rows([24, 2, "bg"], [60, 2, "gb"]), [30, 42, "r"]],
  rows([22, 2, "g"], [44, 2, "r"], [62, 2, "r"]),
  [[14, 17, "g"], [30, 24, "g"], [46, 31, "g"], ...rows([48, 2, "r"], [64, 2, "r"])],
  rows([17, 2, "b"], [34, 2, "b"], [51, 2, "b"], [67, 2, "b"]),
  rows([22, 3, "g"], [43, 3, "r"], [64, 3, "b"]),
];
const SOU = [
  rows([42, 1, "g"]),
  rows([26, 1, "g"], [58, 1, "b"]),
  rows([26, 1, "g"], [58, 2, "g"]),
  rows([26, 2, "g"], [58, 2, "b"]),
  [...rows([25, 2, "g"], [59, 2, "b"]), [30, 42, "r"]],
  rows([26, 3, "g"], [58, 3, "b"]),
  rows([20, 1, "r"], [42, 3, "g"], [64, 3, "g"]),
  rows([20, 3, "g"], [42, 2, "r"], [64, 3, "g"]),
  rows([20, 3, "grb"], [42, 3, "grb"], [64, 3, "grb"]),
];

const COLOURS = { r: "#b8322a", g: "#1d7a4c", b: "#24507f" };
const IVORY = "#fdfbf3";

function circle([x, y, colour], size) {
  const ring = (r, fill) => draw("circle", { cx: x, cy: y, r, fill });
  return [ring(size, COLOURS[colour]), ring(size * 0.62, IVORY), ring(size * 0.36, COLOURS[colour])];
}

function bar([x, y, colour], height) {
  const width = 6;
  const body = draw("rect", { x: x - width / 2, y: y - height / 2, width, height, rx: 2.5, fill: COLOURS[colour] });
  return [body, draw("line", { x1: x - 2, x2: x + 2, y1: y, y2: y, stroke: IVORY, "stroke-width": 1.6 })];
}

const FONT = "Noto Serif CJK JP, Noto Sans CJK JP, serif";
const letters = (x, y, size, colour, text) =>
  draw("text", { x, y, "font-size": size, "font-family": FONT, "font-weight": 700, "text-anchor": "middle", fill: COLOURS[colour] }, text);

function face(tile) {
  const [digit, suit] = tile;
  const number = Number(digit);
  if (suit === "p") {
    const size = [17, 13, 10.5, 10.5, 10, 9.2, 7.6, 8, 8][number - 1];
    return PIN[number - 1].flatMap((place) => circle(place, size));
  }
  if (suit === "s") {
    const height = [44, 28, 28, 28, 26, 27, 19, 19, 19][number - 1];
    const bars = SOU[number - 1].flatMap((place) => bar(place, height));
    return number === 1 ? [...bars, ...circle([30, 20, "r"], 8)] : bars;
  }
  if (suit === "m") {
    const signs = hasSigns();
    return [letters(30, 37, 28, "b", signs ? DIGITS[number - 1] : digit), letters(30, 69, 28, "r", signs ? "萬" : "m")];
  }
  if (tile === "P") return [draw("rect", { x: 14, y: 18, width: 32, height: 48, rx: 3, fill: "none", stroke: COLOURS.b, "stroke-width": 4 })];
  const colour = { F: "g", C: "r" }[tile] ?? "b";
  return [letters(30, 57, 40, colour, hasSigns() ? SIGNS[tile] : tile)];
}

/** A tile as the address of an image. */
function image(tile) {
  const body = draw("rect", { x: 1, y: 1, width: 58, height: 82, rx: 7, fill: "#2f7d5b" });
  const front = draw("rect", { x: 1, y: 1, width: 58, height: 77, rx: 7, fill: IVORY, stroke: "#b9b39f" });
  const plain = { x: 5, y: 13, "font-size": 11, "font-family": "sans-serif", "font-weight": 600, fill: "#6d6754" };
  const corner = draw("text", plain, tile.length === 2 ? tile[0] : tile);
  const whole = draw("svg", { viewBox: "0 0 60 84", width: 120, height: 168 }, body, front, face(tile), corner);
  return `data:image/svg+xml,${encodeURIComponent(new XMLSerializer().serializeToString(whole))}`;
}

const images = new Map();

/** A tile's picture; `silent` leaves its words to what stands around it. */
export function picture(tile, silent = false) {
  if (!images.has(tile)) images.set(tile, make("img", { src: image(tile), class: "tile", "data-tile": tile, draggable: "false" }));
  const copy = images.get(tile).cloneNode();
  copy.alt = silent ? "" : named(tile);
  return copy;
}

/** Small tiles in a row, read out one after the other. */
export const row = (tiles) => make("span", { class: "small-tiles" }, tiles.map((tile) => picture(tile)));
