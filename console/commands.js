// The commands of the operator: what each asks for, sends and says of itself before, and what its answer means.
import { closeAsks, settlingNow } from "./overview.js";
import { readings } from "./polling.js";
import { centsOf, count, daysBetween, orNothing, shown, sum, tableOf, total, dayOf } from "./values.js";

const NO_WAY_BACK = "No command takes this back.", FINAL = "What settles is final.";
const book = () => readings.accounts.data;
const bank = (code) => book().accounts.find((it) => it.code === code);
const named = (code) => `${code} ${bank(code).name}`;

/** By name: the title, the fields that are asked for, and by their values the body that is sent, what is said and
 * warned of before, and what it means if it comes again, unless it acts once. */
export const commands = {
  open: { title: "Open a day", fields: ["date", "kind"], of({ date, kind }) {
    const last = book().date, days = last ? daysBetween(last, date) : 0, now = new Date().toLocaleDateString("sv-SE");
    const isAutomatic = kind === "automatic";
    return { body: { ...(isAutomatic && { automatic: true }), date },
      says: `Open ${dayOf(date)} as ${isAutomatic ? "an automatic" : "a plain"} day.`,
      warns: [`${NO_WAY_BACK} No earlier day can be opened afterwards: copy the book first.`,
        days > 4 && `This is ${days} days after the last business date, ${last}. Is the date mistyped?`,
        date !== now && `This computer's date is ${now}.`] };
  } },
  resolve: { title: "Resolve", fields: [], of() {
    const many = settlingNow(), value = many && shown(sum(readings.queues.data.queues, "settling_value"));
    return { warns: [FINAL],
      says: many ? `Settle ${count(many, "order")} of ${value} under one mark, as far as the page knows.`
        : "Settle what can settle together. As far as the page knows, nothing can.",
      again: "If it comes again later, it settles what can settle by then, under a new mark." };
  } },
  cutoff: { title: "Cut off", fields: [], of: ({ date = book().date ?? "" }) =>
    ({ body: { date }, says: `Cut off ${dayOf(date)}. No order is accepted afterwards.`, warns: [NO_WAY_BACK] }) },
  close: { title: "Close the day", fields: [], of({ date = book().date ?? "" }) {
    const { accounts } = book(), many = total(accounts, "queued");
    const bad = closeAsks().filter(([, kind]) => kind === "bad").map(([text]) => text.slice(2)).join("; ");
    return { body: { date }, says: `Close ${dayOf(date)}.`, warns: [NO_WAY_BACK, bad && `The desk may refuse: ${bad}.`,
      many > 0 && `${count(many, "queued order")} of ${shown(sum(accounts, "queued_value"))} will be rejected.`] };
  } },
  post: { title: "Post money", fields: ["code", "way", "amount", "reference"], of({ code, way, amount, reference }) {
    const cents = BigInt(way) * centsOf(amount), { balance } = bank(code);
    const moves = cents < 0n ? `Take ${shown(-cents)} out of` : `Pay ${shown(cents)} into`;
    return { body: { cents, code, reference },
      says: `${moves} the account of ${named(code)}, by the reference ${reference}. Its balance goes from ${
        shown(balance)} to ${shown(balance + cents)}.`,
      warns: [`In cents this is ${cents}.`, "A posting is not taken back. Another one the other way can follow."] };
  } },
  credit: { title: "Set a credit limit", fields: ["code", "amount"], of({ code, amount }) {
    const credit = centsOf(amount);
    return { body: { code, credit }, warns: [`In cents this is ${credit}.`],
      says: `Set the credit limit of ${named(code)} from ${shown(bank(code).credit)} to ${shown(credit)}.`,
      again: "If it comes again later, it sets this limit again, even where another was set since." };
  } },
  batch: { title: "Send an order file", fields: ["code", "file"], of({ code, file, rows }) {
    const what = rows && `${count(rows.length, "order")} of ${shown(sum(rows, 2))}`;
    return { says: `Send the file ${file.name} as the orders of ${named(code)}: ${
      what ?? "its rows cannot be read by this page"}.`,
      warns: ["The orders are the bank's own, as if it had sent them.", FINAL,
        rows?.length > 0 && `The first is ${rows[0][0]} to ${rows[0][1]}, of ${shown(rows[0][2])}.`] };
  } },
  withdraw: { title: "Withdraw an order", fields: ["code", "reference"], of: ({ code, reference }) =>
    ({ says: `Withdraw the order ${reference} of ${named(code)}, in the bank's name.`,
      warns: [`${NO_WAY_BACK} The order's reference stays used.`] }) },
};

/** Returns the rows of an order file, or nothing where the page cannot read them: the desk judges the file. */
export function rowsOf(text) {
  const lines = text.replaceAll("\r\n", "\n"), due = lines.startsWith("reference,to,amount,due\n") ? " due" : "";
  return orNothing(() => tableOf(lines, `reference to amount${due}`).rows);
}

const settled = (it) => `${count(it.count, "order")} of ${shown(it.value)}, under mark ${it.mark}`;

export function told({ answer, number, auto, rejected, ...it }) {
  const first = {
    posted: () => `Posted as number ${number}.`,
    "credit set": () => "The limit is set.",
    opened: () => "The day is open.",
    "cut off": () => "The day is cut off.",
    closed: () => `The day is closed. ${count(rejected, "queued order was", "queued orders were")} rejected.`,
    resolved: () => `Settled ${settled(it)}.`,
    nothing: () => "Nothing could settle: nothing changed.",
    withdrawn: () => `Withdrawn: it was number ${number}.`,
    repeated: () => `Repeated: this was done before${number ? `, as number ${number}` : ""}. Nothing changed.`,
  }[answer]();
  return auto ? `${first} The resolution that followed settled ${settled(auto)}.` : first;
}

export function toldOfBatch({ rows }) {
  const results = Object.entries(Object.groupBy(rows, ([, result]) => result));
  return `${count(rows.length, "row")}: ${results.map(([it, of]) => `${of.length} ${it}`).join(", ")}.`;
}
