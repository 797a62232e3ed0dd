// An earlier plan in the command's JSON, as a sheet of its pairs. The number of a pair is its line.
import { Sheet } from "./sheet.mjs";
import { guarded, quoted, refuse, said, stripped } from "./texts.mjs";

// Of plans in JSON; those before are read too.
const FORMAT = 4;

/** @type {(value: any) => string} What a value is. */
function kindOf(value) {
  return value === null ? "null" : said(Array.isArray(value) ? "array" : typeof value);
}

/** @type {(pair: any, key: string, line: number) => string} The name of a pair's person or object. */
function nameIn(pair, key, line) {
  const name = pair[key];
  if (typeof name !== "string") {
    refuse(line, 0, "two texts", key in pair ? said("its name", key, kindOf(name)) : said("it has no", key));
  }
  if (!stripped(name)) refuse(line, 0, "odd name", said("no name"), key);
  return guarded(stripped(name));
}

/** @type {(text: string, comma: boolean) => Sheet} The pairs of a plan with their costs, below titles. */
export function sheetOfJson(text, comma) {
  let plan;
  try {
    plan = JSON.parse(text);
  } catch (fault) {
    refuse(0, 0, "no JSON", said("JSON is otherwise"));
  }
  if (!Array.isArray(plan?.pairs)) {
    const kind = kindOf(plan);
    const found = kind === said("object") && ("pairs" in plan ? said("its pairs", kindOf(plan.pairs)) : said("it has no", "'pairs'"));
    refuse(0, 0, "no plan", found || said("it is", kind));
  }
  const { pairs, format = FORMAT } = plan;
  if (!Number.isInteger(format) || format < 1 || format > FORMAT) {
    const shown = typeof format === "string" ? quoted(format) : typeof format === "number" ? format : kindOf(format);
    refuse(0, 0, "format", shown, FORMAT);
  }
  const rows = pairs.map((/** @type {any} */ pair, /** @type {number} */ k) => {
    if (kindOf(pair) !== said("object")) refuse(k + 1, 0, "no pair", kindOf(pair));
    const cost = pair.cost ?? "";
    if (!["string", "number"].includes(typeof cost)) refuse(k + 1, 0, "odd cost", kindOf(cost));
    return [nameIn(pair, "person", k + 1), nameIn(pair, "object", k + 1), String(cost).replace(".", comma ? "," : ".")];
  });
  return Sheet.ofRows([["person", "object", "cost"], ...rows], comma ? ";" : ",", 0);
}
