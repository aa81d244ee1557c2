// Who waits for whom, worked out of the reading of the queues. This module knows no page.

/** Returns for each bank that is paid by queued orders who pays it: a Map of lists of {from, queued, queued_value}. */
export function payers(queues) {
  const pairs = queues.flatMap(({ code: from, receivers }) => receivers.map((it) => ({ ...it, from })));
  return Map.groupBy(pairs, ({ to }) => to);
}

/** Returns the rings: sets of banks of which the queued orders of each lead, over one bank or more, to each other. */
export function rings(queues) {
  const next = new Map(queues.map((it) => [it.code, it.receivers.map(({ to }) => to)]));
  const reached = (code, seen = new Set()) => {
    for (const to of next.get(code) ?? []) if (!seen.has(to)) reached(to, seen.add(to));
    return seen;
  };
  const from = new Map(queues.map(({ code }) => [code, reached(code)]));
  const ringOf = (code) => [...from.get(code)].filter((it) => from.get(it)?.has(code)).sort();
  const found = new Map(queues.map(({ code }) => ringOf(code)).filter((it) => it.length > 1).map((it) => [it[0], it]));
  return [...found.values()].sort((a, b) => b.length - a.length || (a[0] < b[0] ? -1 : 1));
}
