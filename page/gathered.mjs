// Numbers and things by what they have in common.

/** @type {<Item, Key>(items: Iterable<Item>, keyOf: (item: Item) => Key) => Map<Key, Item[]>} The items of each key, in their order. */
export function gathered(items, keyOf) {
  const all = new Map();
  for (const item of items) {
    const key = keyOf(item);
    if (all.has(key)) all.get(key).push(item);
    else all.set(key, [item]);
  }
  return all;
}

/** @type {(one: number, other: number) => number} */
export function rising(one, other) {
  return one - other;
}

/** @type {<Item>(items: Item[]) => Map<Item, number>} How often each is there. */
export function countsOf(items) {
  return new Map([...gathered(items, (item) => item)].map(([item, own]) => [item, own.length]));
}

/** @type {(pairs: Pair[]) => bigint} What some pairs cost. */
export function sumOf(pairs) {
  return pairs.reduce((sum, { cost }) => sum + BigInt(cost), 0n);
}

/** @type {(pairs: Spot[]) => Map<number, number>[]} How many each person has, and each object. */
export function usesOf(pairs) {
  return [countsOf(pairs.map(({ person }) => person)), countsOf(pairs.map(({ object }) => object))];
}
