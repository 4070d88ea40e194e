// Elements of the page and of pictures, made in one call.

const SVG = "http://www.w3.org/2000/svg";

function fill(node, attributes, children) {
  for (const [name, value] of Object.entries(attributes)) {
    if (value === undefined || value === null || value === false) continue;
    if (name.startsWith("on")) node.addEventListener(name.slice(2), value);
    else node.setAttribute(name, value === true ? "" : String(value));
  }
  node.append(...children.flat(Infinity).filter((child) => child !== null && child !== undefined && child !== false));
  return node;
}

/** An element with attributes (those that begin with on are listeners) and children. */
export const make = (name, attributes = {}, ...children) => fill(document.createElement(name), attributes, children);

/** The same of a picture. */
export const draw = (name, attributes = {}, ...children) => fill(document.createElementNS(SVG, name), attributes, children);

export const byId = (id) => document.getElementById(id);

/** Points with a comma at each thousand; `signed` puts + before a gain. */
export function points(number, signed = false) {
  const text = Math.abs(number).toLocaleString("en-US");
  return (number < 0 ? "−" : signed && number > 0 ? "+" : "") + text;
}

/** A button that does something. */
export const button = (text, onclick, more = {}) => make("button", { type: "button", onclick, ...more }, text);

/** Hexadecimal digits, byte by byte; of very many the first ones. */
export const bytes = (digits, most = 4000, more = {}) =>
  make("code", { class: "bytes", ...more }, digits.slice(0, most).replace(/../g, "$& ").trim(), digits.length > most && " …");

/** What may be wider than the page, and is then scrolled. */
export const scroll = (label, ...children) => make("div", { class: "scroll", tabindex: 0, role: "group", "aria-label": label }, children);

/** A table with a caption, heads and rows of cells; a cell may be an element. */
export function grid(caption, heads, rows, rowClass = () => undefined) {
  const head = make("thead", {}, make("tr", {}, heads.map((text) => make("th", { scope: "col" }, text))));
  const body = rows.map((cells, at) => make("tr", { class: rowClass(at) }, cells.map((cell) => make("td", {}, cell))));
  return make("table", {}, make("caption", {}, caption), heads.length > 0 && head, make("tbody", {}, body));
}
