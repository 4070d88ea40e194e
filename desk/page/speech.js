// What the unit will say: the clips of a message in their parts, each with its words, and a button to hear them.
import { sound } from "./ask.js";
import { button, make } from "./make.js";
import { first, numbers } from "./plain.js";
import { clip, clipReading, language, voice, word } from "./words.js";

const bare = (text) => text.replaceAll(" ", "");

/** The clips by parts, as the tool has the words of each part. */
function parts(said) {
  const clips = numbers(said, "clips");
  return (said.words ?? []).map((text) => {
    const part = [];
    let heard = "";
    while (clips.length > 0 && heard !== bare(text)) {
      part.push(clips.shift());
      heard += bare(clip(part.at(-1)));
    }
    return part;
  });
}

function one(number) {
  const reading = clipReading(number);
  const text = reading ? make("ruby", {}, clip(number), make("rt", {}, reading)) : clip(number);
  return make("span", { class: "clip", "data-clip": number },
    make("span", { class: "clip-words" }, text), make("span", { class: "clip-number", "aria-hidden": "true" }, String(number)));
}

async function hear(key, fields, body) {
  key.disabled = true;
  try {
    const address = URL.createObjectURL(await sound({ ...fields, language: language() }, body));
    const audio = new Audio(address);
    audio.addEventListener("ended", () => URL.revokeObjectURL(address));
    await audio.play();
    key.dataset.heard = "1";
  } catch (error) {
    key.after(make("span", { class: "fault" }, error.message));
  }
  key.disabled = false;
}

/** A message with its heading; `fields` and `body` are what the sound is asked with. */
export function message(heading, said, fields, body) {
  if (!said || first(said, "said").split(" ")[0] !== "0") return null;
  const list = parts(said).map((part) => make("li", {}, part.map(one)));
  const key = button(`▶ ${word("hear")}`, (event) => hear(event.currentTarget, fields, body), { class: "hear" });
  const silent = make("p", { class: "hint" }, word("no-voice"), " ", make("code", {}, "apt-get install espeak-ng"));
  return make("section", { class: "card speech" }, make("h3", {}, heading, voice && key), make("ol", {}, list), !voice && silent);
}
