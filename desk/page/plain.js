// The tool's lines for scripts as lists by key: each line is a key and its text. A line `answer NAME` begins the lines of another command.

/** The lists of a stretch of lines; the slip's lines stand as they are under `slip-line`. */
function lists(lines) {
  const found = {};
  let slip = false;
  for (const line of lines) {
    const at = line.indexOf(" ");
    const key = at < 0 ? line : line.slice(0, at);
    if (slip && key !== "differences" && key !== "differs") {
      (found["slip-line"] ??= []).push(line);
      continue;
    }
    slip = key === "slip";
    (found[key] ??= []).push(at < 0 ? "" : line.slice(at + 1));
  }
  return found;
}

/** An answer of the tool: its own lists, those of each command in it, and what differs. */
export function parse(text) {
  const lines = text.trimEnd().split("\n");
  const starts = [...lines.keys()].filter((at) => lines[at].startsWith("answer "));
  const ends = [...starts.slice(1), lines.length];
  const own = lists(lines.slice(0, starts[0] ?? lines.length));
  const answers = {};
  starts.forEach((start, at) => {
    answers[lines[start].slice("answer ".length)] = lists(lines.slice(start + 1, ends[at]));
  });
  const end = lines.slice(-100);
  const last = end.filter((line) => line.startsWith("differences ")).pop();
  const differs = end.filter((line) => line.startsWith("differs ")).map((line) => line.slice("differs ".length));
  return { own, answers, differs, lines, agree: last === "differences 0" };
}

/** The first text of a key, or nothing. */
export const first = (list, key) => list?.[key]?.[0] ?? "";

/** The numbers of a key's first text. */
export const numbers = (list, key) => first(list, key).split(" ").filter((word) => word !== "").map(Number);
