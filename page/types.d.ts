// What the modules of the page hand to each other. Persons, objects and pairs have numbers from 0; lines and columns are from 1.

type Library = import("./library.mjs").Library;
type Sheet = import("./sheet.mjs").Sheet;

/** With which the page is put together: words and texts that the command says too. */
declare var SHARED: {
  weekdays: string[], day_names: string, with_s: string, western: Record<string, string>, texts: Record<string, string>,
};
declare var DecompressionStream: new (format: string) => ReadableWritablePair<Uint8Array, Uint8Array>;

/** A file, or what was made of it in the page; its kind where somebody chose it. */
type Given = { name: string, kind: string, source?: string | ArrayBuffer, rows?: string[][], separator?: string };
/** `place` is that of its file. */
type Table = { name: string, kind: string, sheet: Sheet, isGuess: boolean, isChosen: boolean, place: number };
type Shown = ReturnType<typeof import("./answers.mjs").shownTables>[number];
/** A pair that is to be in the plan, or must not be. */
type Mark = { person: string, object: string, isFixed: boolean };
type Choices = { form: string, comma: boolean, max: boolean, fullest: boolean, past: string };
type Question = { files: Given[], choices: Choices, marks: Mark[], module: WebAssembly.Module };
type Found = ReturnType<typeof import("./answers.mjs").foundIn>;
type Fault = { kind: "fault", text: string, file: string, line: number, column: number, tables: Shown[] };
type Progress = { kind: "progress", text: string };
type Reply = Found | Fault | { kind: "failure", text: string } | Progress;

type Spot = { person: number, object: number };
/** A cost is in the roster's units of 10^-decimals. */
type Pair = Spot & { cost: number };
/** At least and at most so many. */
type Bounds = { least: number, most: number };
/** What isn't named takes at most one, an object just one; with `areSums` the side whose sum is smaller takes all. */
type Takes = { persons: Map<number, Bounds>, objects: Map<number, Bounds>, areSums: boolean };
/** Groups of objects of which nobody takes two; times are minutes after midnight; `of` is the title of objects in their file. */
type Groups = {
  title: string, names: string[], ofObjects: Map<number, number>, times: Map<number, { begin: number, end: number }>,
  kinds: Map<number, string>, of: string,
};
/** A problem by names. No pair is there twice; `titles` are the words for a person, an object and a cost. */
type Roster = {
  titles: string[], persons: string[], objects: string[], personNumbers: Map<string, number>, objectNumbers: Map<string, number>,
  pairs: Pair[], decimals: number, separator: string, comma: boolean, isMatrix: boolean,
  /** Where there is none each takes one at most, and the fewer ones one. */
  takes: Takes | null,
  groups: Groups | null,
  /** Objects of which nothing is planned. */
  past: Set<number>,
  /** Persons of the past alone. */
  gone: Set<number>,
};
/** What is named, with the roster's numbers, a key and a name of its own. */
type Numbered<Own> = Omit<Own, "person" | "object"> & Spot & { key: number, name: string };
/** A pair of an earlier plan by names, and its cost as it stands there. */
type Named = { person: string, object: string, line: number, cost: string };
/** An earlier plan, and its names that the roster didn't have. */
type OldPlan = { named: Named[], gone: string[] };

// Pairs that may be made, by rising rows, none twice, and their costs, whose sum is to be least; how many columns each
// row takes, and how many rows each column; and the group of each column, of which a row takes one at most. Groups that
// were given are below `nGroups`; a column k in none is alone in the group `nGroups` + k.
type Counted = {
  rows: Bounds[], columns: Bounds[], groupOf: number[], nGroups: number, ofRows: number[], ofColumns: number[], costs: number[],
};
/** A problem whose plans, with the pairs that are taken, are plans of a greater one; `pairs` are the roster's of its pairs. */
type Part = { counted: Counted, pairs: Pair[], taken: Pair[] };
/** A byte for each pair, and numbers of rows and columns that prove the plan best. */
type Answer = { code: string, plan: Uint8Array, rows: bigint[], columns: bigint[] };
// Least counts that can't be met: these rows (or columns) must have `wanted`, and can have no more than `had`: as many
// as the columns (or rows) take at most, and one for each row group in `once`.
type Lack = {
  ofColumns: boolean, rows: number[], columns: number[], once: { row: number, group: number }[], wanted: number, had: number,
};
type Plan = ReturnType<typeof import("./plan.mjs").planOf>;
type DaySheet = NonNullable<ReturnType<typeof import("./days.mjs").sheetOf>>;
