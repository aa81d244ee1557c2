// Elements of the page. Only texts are set, never markup.
import { refusals } from "./refusals.js";

export const $ = (id) => document.getElementById(id);
export const on = (id, what, does) => $(id).addEventListener(what, does);

export function equipped(it, attributes, within) {
  for (const [name, value] of Object.entries(attributes)) it.setAttribute(name, value);
  it.append(...within);
  return it;
}

export const made = (name, attributes = {}, ...within) => equipped(document.createElement(name), attributes, within);
export const paragraph = (...within) => made("p", {}, ...within);
/** Returns a button that begins a command or a look-up, as its data say. A screen reader says its label. */
export const button = (text, data, label = text) => made("button", { type: "button", "aria-label": label,
  ...Object.fromEntries(Object.entries(data).map(([name, value]) => [`data-${name}`, value])) }, text);
export const items = (list, pairs) =>
  list.replaceChildren(...pairs.map(([text, kind = ""]) => made("li", { class: kind }, text)));

/** Sets a table's heads, its rows, each a key and cells as pairs of text and class, and likewise the row of its sums.
 * A row that is as it was is left alone: the focus and a selection stay. `more` makes the buttons of a new row. */
export function fill(table, heads, rows, { sums = [], more = null } = {}) {
  const focus = document.activeElement, body = table.tBodies[0] ?? table.createTBody();
  const kinds = rows[0]?.slice(1).map(([, kind = ""]) => /^n(ame)?\b/.exec(kind)?.[0] ?? "") ?? heads.map(() => "");
  const head = (text, i) => made("th", { scope: "col", class: kinds[i] ?? "act" }, text);
  const all = more ? [...heads, "Commands"] : heads;
  (table.tHead ?? table.createTHead()).replaceChildren(made("tr", {}, ...all.map(head)));
  fillRows(body, rows, more);
  fillRows(table.tFoot ?? table.createTFoot(), sums, null);
  if (focus !== document.activeElement && body.contains(focus)) focus.focus();
}

function fillRows(body, rows, more) {
  const had = new Map([...body.rows].map((it) => [it.dataset.key, it]));
  rows.forEach(([key, ...cells], i) => {
    const row = had.get(key) ?? made("tr", { "data-key": key });
    had.delete(key);
    cells.forEach(([text, kind = ""], j) => {
      const cell = row.cells[j] ?? row.appendChild(j ? made("td") : made("th", { scope: "row" }));
      if (cell.textContent !== text) cell.textContent = text;
      if (cell.className !== kind) cell.className = kind;
    });
    if (more && row.cells.length === cells.length) row.append(made("td", { class: "act" }, ...more(key)));
    if (body.rows[i] !== row) body.insertBefore(row, body.rows[i] ?? null);
  });
  for (const row of had.values()) row.remove();
}

/** Says why something was not done: a refusal in the words of `desk explain`, or that no answer came. */
export function explained({ refused, missing }) {
  if (!refused) return [paragraph(missing)];
  const { code, name, first, count, row } = refused, { means, todo } = refusals[code];
  const marked = (text) => text.split("`").map((it, i) => (i % 2 ? made("code", {}, it) : it));
  const where = first ? ` ${first} is the first of ${count}.` : row ? ` It is row ${row}.` : "";
  return [paragraph(made("strong", {}, `Refused: ${code} ${name}.`), where),
    paragraph("What it means: ", ...marked(means), "."), paragraph("What to do: ", ...marked(todo), ".")];
}
