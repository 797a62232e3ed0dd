// The answer on the page: the cost, the plan as one sheet and as lists, who is left over or short, and the matrix.
import { shortDay } from "./days.mjs";
import { button, byId, element, region, table } from "./elements.mjs";
import { drawMatrix, MOST_AT_ONCE, MOST_CELLS } from "./matrix.mjs";
import { said } from "./texts.mjs";

// So many kinds have a colour of their own. What is printed: the height of a sheet for rows, and of a row at most.
const [COLOURS, HEIGHT, ROW] = [6, 600, 17];

/** Takes the answer off the page. */
export function clearResult() {
  byId("result").hidden = true;
  for (const id of ["answer", "matrix"]) byId(id).replaceChildren();
  delete byId("matrix").dataset.drawn;
}

/** @type {(title: string, content: HTMLElement, isOpen: boolean) => HTMLElement} A line that unfolds. */
function unfolding(title, content, isOpen) {
  return element("details", isOpen ? { open: "" } : {}, element("summary", {}, title), content);
}

/** @type {(left: Found["left"][number]) => HTMLElement[]} Who and what is left over, to unfold; on paper the names. */
function leftOver({ how, count, names }) {
  const title = `${how}: ${count}`;
  return [unfolding(title, element("p", { lang: "" }, names), true), element("p", { class: "paper" }, `${title}: ${names}`)];
}

/** @type {(sheet: DaySheet) => Map<string, string>} The class of each kind's colour. */
function coloursOf({ letters }) {
  return new Map([...letters.keys()].map((kind, k) => [kind, k < COLOURS ? `k${k}` : ""]));
}

/** @type {(sheet: DaySheet, person: number, place: number, colours: Map<string, string>) => HTMLElement} */
function cellElement({ letters, days, persons }, person, place, colours) {
  const [day, { entries, gone, isOff }] = [days[place], persons[person].cells[place]];
  const isChanged = gone.length > 0 || entries.some(({ isNew }) => isNew);
  const marks = [
    day.isWeekend ? "weekend" : "", isChanged ? "changed" : "", entries.some(({ isFixed }) => isFixed) ? "fixed" : "", day.isPast ? "past" : "",
    entries.length ? colours.get(entries[0].label) || "" : isOff ? "off" : ""];
  const texts = entries.map(({ label }) => letters.get(label) || "").join(" ");
  const made = element("td", { class: marks.filter(Boolean).join(" ") }, texts);
  if (!entries.length) gone.forEach((label) => made.append(element("s", {}, letters.get(label) || "")));
  const words = entries.map(({ label, isFixed, isNew }) => `${label}${isFixed ? ", given" : ""}${isNew && isChanged ? ", new" : ""}`);
  made.title = words.join("; ") || (isOff ? "nothing possible" : "free");
  return made;
}

/** @type {(sheet: DaySheet, title: string) => HTMLElement} Nurses by days, what each has in all, and each day's staff. */
export function sheetTable(sheet, title) {
  const colours = coloursOf(sheet);
  const head = element("tr", {}, element("th", { scope: "col" }, title), ...sheet.days.map((day) => {
    const [first, second] = shortDay(day.name, day.when);
    const inner = second ? element("abbr", { title: day.name }, element("span", { lang: "en" }, first), element("br", {}), second) : element("span", { class: "up" }, first);
    return element("th", { scope: "col", class: day.isWeekend ? "weekend" : "" }, inner);
  }), ...sheet.columns.map((column) => element("th", { scope: "col", class: "sum" }, column.title)));
  const rows = sheet.persons.map(({ name, cells, sums }, person) => element(
    "tr", {}, element("th", { scope: "row" }, name), ...cells.map((_, k) => cellElement(sheet, person, k, colours)),
    ...sheet.columns.map((_, k) => element("td", { class: "sum" }, sums[k]))));
  const staff = sheet.kinds.map(({ kind, staff: own }, place) => element(
    "tr", place ? {} : { class: "first" }, element("th", { scope: "row" }, kind), ...own.map((cell, k) => {
      const isShort = cell && cell.wanted !== null && cell.had < cell.wanted;
      const marks = [cell ? "staff" : "", sheet.days[k].isWeekend ? "weekend" : "", isShort ? "short" : ""].filter(Boolean).join(" ");
      return element("td", { class: marks }, cell ? `${cell.had}${cell.wanted === null ? "" : `/${cell.wanted}`}` : "");
    }), element("td", { class: "rest", colspan: String(sheet.columns.length) })));
  const made = element("table", { class: "month", lang: "" }, element("thead", {}, head), element("tbody", {}, ...rows, ...staff));
  made.style.setProperty("--days", String(sheet.days.length));
  made.style.setProperty("--row", `${Math.min(ROW, HEIGHT / (rows.length + staff.length + 2)).toFixed(1)}px`);
  return made;
}

/** @type {(sheet: DaySheet) => HTMLElement} What letters and marks mean. */
export function legendOf(sheet) {
  const colours = coloursOf(sheet);
  const cells = sheet.persons.flatMap((person) => person.cells);
  const kinds = [...sheet.letters].flatMap(([kind, letter]) => [element("span", { class: `key ${colours.get(kind)}`, lang: "" }, letter), ` ${kind} \u00b7 `]);
  const notes = sheet.columns.filter(({ meaning }) => meaning && !sheet.letters.has(meaning)).map(({ title, meaning }) => `${title}: ${meaning}`);
  const marks = [
    sheet.days.some(({ isWeekend }) => isWeekend) && "shaded: weekend",
    cells.some(({ isOff }) => isOff) && said("hatched"),
    cells.some(({ entries, gone }) => gone.length || entries.some(({ isNew }) => isNew)) && said("framed"),
    cells.some(({ entries }) => entries.some(({ isFixed }) => isFixed)) && "underlined: given",
    sheet.kinds.some(({ staff }) => staff.some((own) => own && own.wanted !== null)) && said("3/4")];
  return element("p", { class: "legend" }, ...kinds, [...notes, ...marks.filter(Boolean)].join(" \u00b7 "));
}

/** @type {(texts: string[]) => HTMLElement} */
export function listOf(texts) {
  return element("ul", { lang: "" }, ...texts.map((text) => element("li", {}, text)));
}

/** @type {(made: HTMLElement, sheet: DaySheet, onCell: (person: number, day: number) => void) => HTMLElement} The sheet as a grid whose cells are chosen by click or by keys. */
function withCells(made, sheet, onCell) {
  const rows = [...made.querySelectorAll("tbody tr")].slice(0, sheet.persons.length).map((row) => /** @type {HTMLElement[]} */ ([...row.querySelectorAll("td:not(.sum)")]));
  made.setAttribute("role", "grid");
  const at = (/** @type {number} */ row, /** @type {number} */ column) => {
    const cell = rows[row]?.[column];
    if (!cell) return;
    made.querySelectorAll("td[tabindex='0']").forEach((other) => other.setAttribute("tabindex", "-1"));
    cell.tabIndex = 0;
    cell.focus();
  };
  rows.forEach((cells, row) => cells.forEach((cell, column) => {
    cell.tabIndex = row || column ? -1 : 0;
    cell.classList.add("choice");
    cell.setAttribute("aria-label", `${sheet.persons[row].name}, ${sheet.days[column].name}: ${cell.title}`);
    cell.addEventListener("click", () => onCell(row, column));
    cell.addEventListener("keydown", (event) => {
      const step = { ArrowUp: [-1, 0], ArrowDown: [1, 0], ArrowLeft: [0, -1], ArrowRight: [0, 1] }[event.key];
      if (step) at(row + step[0], column + step[1]);
      else if (event.key === "Enter" || event.key === " ") onCell(row, column);
      else return;
      event.preventDefault();
    });
  }));
  return made;
}

/** @type {(found: Found, name: string, onCell: (person: number, day: number) => void) => void} Puts an answer on the page; the roster's name is for paper. */
export function showResult(found, name, onCell) {
  clearResult();
  byId("name").textContent = name;
  const { sheet, lists, plan } = found;
  const [answer, cost] = [byId("answer"), found.lines.length - 1];
  byId("result-title").textContent = plan ? found.lines[cost] : "There is no plan for all";
  answer.append(...found.lines.slice(0, plan ? cost : cost + 1).map((line) => element("p", { class: "short" }, line)));
  const [person, object] = found.roster.titles;
  if (plan && sheet) {
    const grid = withCells(sheetTable(sheet, person), sheet, onCell);
    answer.append(element("div", { class: "sheet" }, region("The plan", { class: "scroll" }, grid), legendOf(sheet)));
  } else if (plan) {
    answer.append(region("The plan", { class: "scroll" }, table(found.rows)));
  }
  answer.append(...found.left.flatMap(leftOver));
  answer.append(...found.notes.map((note) => element("p", { class: "note" }, note)));
  if (sheet) answer.append(unfolding(`By ${object}`, listOf(lists.objects), false), unfolding(`By ${person}`, listOf(lists.persons), false));
  for (const id of ["copy", "save", "wall", "calendars", "keep"]) byId(id).hidden = !plan;
  byId("calendars").hidden = !sheet || sheet.days[0].when === null;
  byId("result").hidden = false;
  // On paper the sheet of days stands alone.
  byId("matrix").classList.toggle("screen", sheet !== null);
  showMatrix(found);
}

/** @type {(found: Found) => void} Draws the matrix, a great one on request alone. */
function showMatrix(found) {
  const count = found.roster.persons.length * found.roster.objects.length;
  const room = byId("matrix");
  const draw = async () => {
    const inner = region("The costs of all pairs", { class: "matrix", lang: "" });
    const key = found.rows.length ? "; the plan's are outlined" : "; who is short is marked";
    room.replaceChildren(inner, element("p", {}, `Stronger colours cost more, hatched cells are forbidden${key}.`));
    await drawMatrix(found, inner);
    if (inner.isConnected) room.dataset.drawn = "yes";
  };
  if (count > MOST_CELLS) {
    room.append(element("p", { class: "screen" }, `The matrix has more than ${MOST_CELLS} cells and isn't drawn.`));
  } else if (count > MOST_AT_ONCE) {
    room.append(button(`Draw the matrix of ${count} cells`, draw, { class: "screen" }));
  } else {
    draw();
  }
}
