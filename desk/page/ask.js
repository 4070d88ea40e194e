// Questions to the server, which hands them to the tester's tool. What is bad in a question comes back as one line, and is thrown.
import { parse } from "./plain.js";

/** An answer to a request, or the line that says what is wrong. */
async function fetched(address, options) {
  let response;
  try {
    response = await fetch(address, options);
  } catch (error) {
    if (error.name === "AbortError") throw error;
    throw new Error("server");
  }
  if (!response.ok) throw new Error((await response.text()).trim());
  return response;
}

const query = (fields) => new URLSearchParams(fields).toString();

/** A hand as far as it was keyed in. */
export async function draft(words, language, signal) {
  const response = await fetched(`/ask/draft?${query({ words, language })}`, { signal });
  return parse(await response.text());
}

/** A log: text, digits or bytes. `form` is "" where its content says what it is. Of `more`: `from` is the first entry to be shown, `called`
 * the file that it was loaded from, `more` a line that is booked after it. */
export async function game(body, form, language, more) {
  const response = await fetched(`/ask/game?${query({ as: form, language, ...more })}`, { method: "POST", body });
  return parse(await response.text());
}

/** The text of a log in hexadecimal digits. */
export async function text(body) {
  return (await fetched("/ask/text", { method: "POST", body })).text();
}

/** The sheet of clips: rows of columns; before them whether there is a voice. */
export async function sheet() {
  const response = await fetched("/ask/sheet");
  const [voice, ...rows] = (await response.text()).trimEnd().split("\n").map((line) => line.split("\t"));
  return { voice: voice[1] === "1", rows };
}

/** The sound of a message. */
export async function sound(fields, body) {
  const response = await fetched(`/ask/sound?${query(fields)}`, { method: "POST", body });
  return response.blob();
}

/** Damage: `onLine` gets each line as it comes. */
export async function damage(fields, body, signal, onLine) {
  const response = await fetched(`/ask/damage?${query(fields)}`, { method: "POST", body, signal });
  const reader = response.body.pipeThrough(new TextDecoderStream()).getReader();
  let rest = "";
  for (;;) {
    const { done, value } = await reader.read();
    if (done) return;
    const lines = (rest + value).split("\n");
    rest = lines.pop();
    lines.forEach(onLine);
  }
}
