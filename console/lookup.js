// What the operator looks up, each as a table that can be saved.
import { ask } from "./asking.js";
import { $, button, explained, fill, items, made, on } from "./elements.js";
import { offerFields } from "./fields.js";
import { readings } from "./polling.js";
import { ROUTES } from "./routes.js";
import { count, csvOf, shown } from "./values.js";

const MOST = 500; // rows that are shown: what is saved has all
/** By name: what it is called, and its title, which has the fields that are asked for. */
const KINDS = {
  report: ["report of a date", "Report of {date}"],
  orders: ["orders of a date", "Orders of {date}: {state}"],
  marks: ["marks of a date", "Marks of {date}"],
  statement: ["statement of a bank", "Statement of {code}, {date}"],
  queue: ["queue of a bank", "Queue of {code}"],
  held: ["held orders of a bank", "Orders of {code} that are held, by due date"],
  order: ["one order", "Order {reference} of {code}"],
};
const PLACE = /\{(\w+)\}/g;
let found = null; // what is shown: {name, values, title, heads, rows}
let offered = ""; // the business date and the number of banks by which the fields were offered
const typed = () => Object.fromEntries(new FormData($("look-form")));

export function enable() {
  $("look-what").append(...Object.entries(KINDS).map(([value, [text]]) => made("option", { value }, text)));
  on("look-what", "change", () => offer(typed()));
  on("look-form", "submit", () => look($("look-what").value, typed()));
  on("look-save", "click", () => saved(`${found.title.replace(/\W+/g, "-")}.csv`, csvOf(found)));
}

function offer(values) {
  const names = [...KINDS[$("look-what").value][1].matchAll(PLACE)].map((it) => it[1]);
  offerFields($("look-fields"), names, { date: readings.accounts?.data.date, ...values });
}

/** Offers the fields again where the business date is another, or a bank is, unless the operator is typing. */
export function renew({ date, accounts } = { accounts: [] }) {
  const now = `${date} ${accounts.length}`;
  if (now === offered || $("look-fields").contains(document.activeElement)) return;
  offered = now;
  offer({ ...typed(), date });
}

/** Looks something up, and shows it: of orders those of a state or a mark alone, where one is given. */
export async function look(name, values) {
  const { data, text, isLocked, ...why } = await ask(name, values), reads = ROUTES[name][3];
  if (isLocked) return;
  $("look-answer").replaceChildren(...(data ? [] : explained(why)));
  if (!data) return;
  const heads = data.heads ?? reads.split(" ").filter((it) => it !== "orders");
  const all = data.rows ?? (data.orders ?? [data]).map((it) => heads.map((head) => it[head] ?? ""));
  const [state, mark] = ["state", "mark"].map((it) => heads.indexOf(it)), wanted = values.state ?? "all";
  const rows = all.filter((row) => wanted === "all" || wanted === row[state] || wanted === `mark ${row[mark]}`);
  const title = KINDS[name][1].replace(PLACE, (_, key) => values[key]);
  show(title, { name, values, heads, rows, sums: data.sums, text: reads ? "" : text });
  $("look-head").focus();
}

/** Shows a table under a title, with its sums, and the text of the desk where there is one. */
export function show(title, { text = "", sums = [], ...table }) {
  const { heads, rows } = found = { title, ...table }, some = rows.slice(0, MOST);
  const cell = (it) => [typeof it === "bigint" ? shown(it) : String(it), typeof it === "string" ? "one" : "n"];
  const more = some.some((row) => buttons(row).length) ? (key) => buttons(some[Number(key)]) : null;
  $("look-head").textContent = title;
  $("look-age").textContent = `As of ${new Date().toLocaleTimeString("en-GB")}, and not read again.`;
  $("look-text").textContent = text;
  $("look-whole").hidden = !text;
  items($("look-sums"), sums.map((it) => [it.join(" ")]));
  $("look-found").hidden = false;
  $("look-table").replaceChildren();
  fill($("look-table"), heads, some.map((row, i) => [String(i), ...row.map(cell)]), { more });
  $("look-many").textContent = !rows.length ? "There is none."
    : rows.length > MOST ? `The first ${MOST} of ${rows.length} are shown. What is saved has all.` : "";
}

/** Returns the buttons of a row: an order that waits can be withdrawn, and the orders of a mark can be shown. */
function buttons(row) {
  const { name, values } = found, of = (head) => row[found.heads.indexOf(head)], state = `mark ${of("number")}`;
  if (name === "marks") return [button("Orders", { look: "orders", ...values, state }, `Orders of ${state}`)];
  if (name !== "queue" && name !== "held" && !["queued", "held"].includes(of("state"))) return [];
  const order = { code: of("sender") ?? values.code, reference: of("reference") };
  return [button("Withdraw…", { command: "withdraw", ...order }, `Withdraw… ${order.reference} of ${order.code}`)];
}

/** Returns buttons for what can be looked up after a command: what a resolution settled, or what a close rejected. */
export function afterwards({ mark = 0, auto, rejected = 0 }) {
  const { date } = readings.accounts.data, under = mark || auto?.mark;
  const orders = (text, state) => button(text, { look: "orders", date, state });
  return [...(under ? [orders("Show what it settled", `mark ${under}`)] : []),
    ...(rejected ? [orders(`Show ${count(rejected, "rejected order")}`, "rejected")] : [])];
}

export function saved(name, text) {
  const href = URL.createObjectURL(new Blob([text], { type: "text/plain" }));
  made("a", { download: name, href }).click();
  URL.revokeObjectURL(href);
}

export function forget() {
  [found, offered] = [null, ""];
  $("look-found").hidden = true;
}
