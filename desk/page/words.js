// The language that is chosen, the page's own words in it, and the words of the clips, which are the sheet's (docs/CLIPS.md).
import { sheet } from "./ask.js";
import { en } from "./words-en.js";
import { ja } from "./words-ja.js";
import { ko } from "./words-ko.js";
import { zh } from "./words-zh.js";

/** The languages as on the label, 1 to 4: words, the page's mark, the name, and the sheet's columns of words and of their reading. */
export const LANGUAGES = [
  { words: ja, mark: "ja", name: "日本語", column: 2, reading: 3 },
  { words: en, mark: "en", name: "English", column: 4 },
  { words: ko, mark: "ko", name: "한국어", column: 5 },
  { words: zh, mark: "zh-Hans", name: "中文", column: 6, reading: 7 },
];

let chosen = Number(sessionStorage.getItem("language")) || 2;
const clips = new Map();
export let voice = false;

/** The number of the language. */
export const language = () => chosen;

/** Takes the sheet from the tool. */
export async function loadSheet() {
  const given = await sheet();
  voice = given.voice;
  given.rows.forEach((row) => clips.set(Number(row[0]), row));
}

/** The words of a clip in the language, and how they are read where that is another thing. */
export const clip = (number) => clips.get(number)?.[LANGUAGES[chosen - 1].column] ?? "?";
export function clipReading(number) {
  const { column, reading } = LANGUAGES[chosen - 1];
  const row = clips.get(number);
  return reading && row?.[reading] !== row?.[column] ? row?.[reading] : undefined;
}

/** The page's words for a key; {0}, {1} stand for what is put in. */
export function word(key, ...values) {
  const text = LANGUAGES[chosen - 1].words[key] ?? en[key] ?? key;
  return text.replace(/\{(\d)\}/g, (_, at) => values[at]);
}

/** Chooses a language and puts its words into every element that names a key. */
export function choose(number) {
  chosen = number;
  sessionStorage.setItem("language", String(number));
  document.documentElement.lang = LANGUAGES[number - 1].mark;
  document.title = word("title");
  for (const node of document.querySelectorAll("[data-word]")) node.textContent = word(node.dataset.word);
  for (const node of document.querySelectorAll("[data-label]")) node.setAttribute("aria-label", word(node.dataset.label));
}
