// Elements of the page. All text is set as text, so that no name is read as HTML.

/** @type {<Kind extends HTMLElement = HTMLElement>(id: string, kind?: new () => Kind) => Kind} The element with this id. */
export function byId(id, kind = /** @type {any} */ (HTMLElement)) {
  const found = document.getElementById(id);
  if (!(found instanceof kind)) throw new Error(`the page has no ${id}`);
  return found;
}

/** @type {(name: string, attributes: Record<string, string>, ...content: (string | Node)[]) => HTMLElement} A new element with attributes, and texts or elements in it. */
export function element(name, attributes, ...content) {
  const made = document.createElement(name);
  for (const [key, value] of Object.entries(attributes)) made.setAttribute(key, value);
  made.append(...content);
  return made;
}

/** @type {(text: string, work: () => void, attributes?: Record<string, string>) => HTMLElement} A new button and what it does. */
export function button(text, work, attributes = {}) {
  const made = element("button", { type: "button", ...attributes }, text);
  made.addEventListener("click", work);
  return made;
}

/** @type {(name: string, attributes: Record<string, string>, ...content: Node[]) => HTMLElement} A part that scrolls by itself, also by keys. */
export function region(name, attributes, ...content) {
  return element("div", { tabindex: "0", role: "region", "aria-label": name, ...attributes }, ...content);
}

/** @type {(rows: string[][]) => HTMLElement} A table, below its titles. Cells are of no language that we know. */
export function table([titles, ...rows]) {
  const head = element("tr", {}, ...titles.map((title) => element("th", { scope: "col" }, title)));
  const body = rows.map((row) => element("tr", {}, ...row.map((cell) => element("td", {}, cell))));
  return element("table", { class: "plan", lang: "" }, element("thead", {}, head), element("tbody", {}, ...body));
}
