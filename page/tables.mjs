// The files that were read: what each is, which can be chosen, and their cells, which can be changed.
import { button, byId, element, region } from "./elements.mjs";

// Tables with more cells are changed in a spreadsheet.
const MOST_EDITED = 6000;
const WORDS = {
  roster: "roster", places: "places: how many persons each takes", tasks: "tasks: how many each person takes",
  groups: "groups: nobody takes two of one", plan: "earlier plan", calendars: "calendars of an earlier plan",
  rules: "rules (the command's)", unused: "not used",
};
// Chooses a kind for a table, or other cells, which are taken when the plan is asked for again; or takes it away.
/** @typedef {(table: Shown, changed: Partial<Given> | null) => void} Change */

/** @type {(shown: Shown, rows: string[][], change: Change) => HTMLElement} The cells of a table, each to be changed. */
function editor(shown, rows, change) {
  const line = (/** @type {string[]} */ cells, /** @type {number} */ row) => element("tr", {}, ...cells.map((cell, column) => {
    const input = /** @type {HTMLInputElement} */ (element("input", {
      value: cell, size: String(Math.min(20, Math.max(3, cell.length))), "aria-label": row ? `${rows[row][0] || `line ${row + 1}`}, ${rows[0][column]}` : `title ${column + 1}` }));
    input.addEventListener("change", () => {
      rows[row][column] = input.value;
      change(shown, { rows });
    });
    return element(row ? "td" : "th", {}, input);
  }));
  const body = element("tbody", {}, ...rows.map(line));
  const add = button("Add a line", () => {
    rows.push(rows[0].map(() => ""));
    body.append(line(rows[rows.length - 1], rows.length - 1));
    /** @type {HTMLElement | null} */ (body.querySelector("tr:last-child input"))?.focus();
  }, { "aria-label": `Add a line to ${shown.name}` });
  const room = region(`The cells of ${shown.name}`, { class: "scroll edit" }, element("table", { lang: "" }, body));
  return element("div", {}, room, element("p", {}, add, " An empty cell of a matrix forbids the pair; an emptied line is left out."));
}

/** @type {(shown: Shown, isEditable: boolean, change: Change) => HTMLElement} */
function entryOf(shown, isEditable, change) {
  const options = Object.entries(WORDS).map(([kind, word]) => new Option(word, kind, kind === shown.kind, kind === shown.kind));
  const choice = /** @type {HTMLSelectElement} */ (element("select", { "aria-label": `What ${shown.name} is` }, ...options));
  choice.addEventListener("change", () => change(shown, { kind: choice.value }));
  const remove = button("Remove", () => change(shown, null), { "aria-label": `Remove ${shown.name}` });
  const item = element("li", {}, element("b", { lang: "" }, shown.name || "pasted cells"), ` ${shown.count} lines `, choice, " ", remove);
  const { rows } = shown;
  if (!isEditable || !rows || rows.length * (rows[0]?.length || 0) > MOST_EDITED) return item;
  const details = element("details", {}, element("summary", {}, `Change the cells of ${shown.name || "the pasted cells"}`));
  details.addEventListener("toggle", () => {
    if (details.childElementCount === 1) details.append(editor(shown, rows.map((cells) => [...cells]), change));
  });
  item.append(details);
  return item;
}

/** @type {(tables: Shown[], change: Change) => void} Lists the files on the page. */
export function showTables(tables, change) {
  const whole = (/** @type {Shown} */ shown) => tables.filter(({ place }) => place === shown.place).every(({ rows }) => rows);
  byId("files").replaceChildren(...tables.map((shown) => entryOf(shown, whole(shown), change)));
  byId("read").hidden = !tables.length;
  byId("rules").hidden = !tables.some(({ kind }) => kind === "rules");
}
