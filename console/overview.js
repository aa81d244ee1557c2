// What is seen at a glance: the business day, the participants, and who waits for whom.
import { $, button, fill, items, made } from "./elements.js";
import { draw } from "./graph.js";
import { readings } from "./polling.js";
import { centsOf, count, shown, sum, total, dayOf } from "./values.js";
import { payers, rings } from "./waits.js";

const PHASES = { CLOSED: "Closed", OPEN: "Open", CUTOFF: "Cut off" };
const SORTS = { code: () => 0n, "least headroom": ({ headroom }) => -headroom, "most queued": (it) => it.queued_value,
  "most lacking": ({ lacking }) => lacking };
const BANKS = ["Bank", "Name", "Balance", "Credit limit", "Headroom", "Queued orders", "Lacks for the close"];
const QUEUES = ["Bank", "First order", "To", "Amount", "Short by", "By a resolution now", "All it would pay",
  "Who would pay it"];
$("sort").append(...Object.keys(SORTS).map((it) => made("option", {}, it)));

export const settlingNow = () => readings.queues && total(readings.queues.data.queues, "settling");

/** Returns what the close asks for: of each thing its sign and its class, as far as the readings tell. */
export function closeAsks() {
  const { accounts, phase } = readings.accounts.data, settling = settlingNow();
  const lacking = accounts.filter((it) => it.lacking > 0n);
  const sign = (good, yes, no) => [`${good ? "✓" : "✗"} ${good ? yes : no}`, good ? "good" : "bad"];
  return phase === "CLOSED" ? [] : [
    sign(phase === "CUTOFF", "The day is cut off", "The day is not cut off"),
    sign(settling === 0, "Nothing that is queued could settle", settling === undefined
      ? "Whether queued orders could settle is not known" : `${count(settling, "queued order")} could settle: resolve`),
    sign(!lacking.length, "No balance is below 0", `${count(lacking.length, "bank lacks", "banks lack")} ${
      shown(sum(lacking, "lacking"))}: ${lacking.map((it) => it.code).join(", ")}`)];
}

/** Shows the day's orders, what the close asks for, and which command comes next. Each can be given at any time. */
function showDay() {
  if (!readings.accounts) return;
  const { accounts, date, phase } = readings.accounts.data, report = readings.report?.data, asked = closeAsks();
  // (the accounts are read more often than the report)
  const queued = `queued ${total(accounts, "queued")}\n${shown(sum(accounts, "queued_value"))}`;
  items($("figures"), !report || report.date !== date ? [] : report.sums.map(([name, many, value]) =>
    [name === "queued" ? queued : `${name} ${many}\n${value ? shown(centsOf(value)) : ""}`]));
  items($("ready"), asked);
  const next = phase === "CLOSED" ? "open" : settlingNow() ? "resolve"
    : asked.every(([, kind]) => kind === "good") && "close";
  for (const it of $("commands").children) it.classList.toggle("main", it.dataset.command === next);
}

function showStatus({ automatic, phase, ...it }) {
  $("kind").textContent = phase === "CLOSED" ? "" : automatic ? "automatic day" : "plain day";
  items($("desk"), [[`all balances\n${shown(it.sum)}`], [`held for later days ${it.held}\n${shown(it.held_value)}`],
    [`next numbers\nposting ${it.next_posting}, order ${it.next_order}, mark ${it.next_mark}`],
    [`desk ${it.version}\ntables ${it.tables}, ${count(it.participants, "participant")}`]]);
}

function showAccounts({ date, phase }) {
  $("date").textContent = date ? dayOf(date) : "No day was opened yet";
  $("phase").textContent = PHASES[phase];
  if (phase === "CLOSED") $("kind").textContent = "";
  document.body.dataset.phase = phase;
  $("steps").replaceChildren(...Object.keys(PHASES).map((it) =>
    made("li", it === phase ? { "aria-current": "step" } : {}, PHASES[it])));
  showBanks();
  showDay();
}

/** Shows the accounts as they are sorted. Headroom is what is above the floor, which is 0 while the desk is closed. */
export function showBanks() {
  const { accounts, phase } = readings.accounts.data, by = SORTS[$("sort").value];
  const banks = accounts.map((it) => ({ ...it, headroom: it.balance + (phase === "CLOSED" ? 0n : it.credit) }));
  const cells = (it) => [[it.code], [it.name, "name"], [shown(it.balance), it.balance < 0n ? "n below" : "n"],
    [shown(it.credit), "n"], [shown(it.headroom), it.headroom ? "n" : "n below"],
    it.queued ? [`${shown(it.queued_value)} in ${it.queued}`, "n waits"] : ["none", "n none"],
    [shown(it.lacking), it.lacking ? "n below strong" : "n none"]];
  const rows = banks.sort((a, b) => Number(by(b) - by(a))).map((it) => [it.code, ...cells(it)]);
  const sums = ["balance", "credit", "headroom", "queued_value", "lacking"].map((name) => [name, sum(banks, name)]);
  const all = { code: `All ${banks.length}`, name: "", queued: total(banks, "queued"), ...Object.fromEntries(sums) };
  const more = (code) => [button("Post…", { command: "post", code }, `Post… ${code}`),
    button("Limit…", { command: "credit", code }, `Limit… ${code}`)];
  fill($("banks-table"), BANKS, rows, { more, sums: [["all", ...cells(all), [""]]] });
}

/** Lists pairs of a bank and what is queued: the greatest eight, or seven and what is left. */
function listed(pairs, name) {
  const said = (who, value, many) => `${who} ${shown(value)} in ${many}`.replaceAll(" ", "\u00a0");
  const sorted = [...pairs].sort((a, b) => Number(b.queued_value - a.queued_value));
  const rest = sorted.splice(sorted.length > 8 ? 7 : 8);
  const most = sorted.map((it) => said(it[name], it.queued_value, it.queued));
  if (rest.length) most.push(said(`${rest.length} others`, sum(rest, "queued_value"), total(rest, "queued")));
  return most.join("; ");
}

function showQueues({ queues }) {
  const by = payers(queues), found = rings(queues), inRings = new Set(found.flat());
  const stays = (code) => (!by.has(code) ? "stays: no queued order would pay it"
    : inRings.has(code) ? "stays, though it is in a ring" : "stays");
  fill($("queues-table"), QUEUES, queues.map(({ code, first, receivers, ...it }) => [
    code, [code], [`${first.number} ${first.reference}`, "one"], [first.to], [shown(first.amount), "n"],
    it.short ? [shown(it.short), "n below"] : ["has cover", "n"],
    it.settling ? [`${it.settling} of ${it.queued} would settle, ${shown(it.settling_value)}`, "good"]
      : [stays(code), "bad"], [listed(receivers, "to")], [listed(by.get(code) ?? [], "from") || "nobody"]]));
  $("queues-none").textContent = queues.length ? "" : "No order is queued.";
  $("waits-said").textContent = waitsSaid(queues, found);
  $("picture").className = `pair ${draw($("graph"), queues)}`;
  showDay();
}

function waitsSaid(queues, found) {
  if (!queues.length) return "Nobody waits: no order is queued.";
  const named = found.map((it) => `${it.slice(0, 8).join(", ")}${it.length > 8 ? " and more" : ""}`).join("; ");
  const ring = found.length ? `In ${found.length === 1 ? "a ring" : "rings"}: ${named}.` : "There is no ring.";
  const settling = total(queues, "settling"), value = shown(sum(queues, "settling_value"));
  const now = settling ? `${count(settling, "order")} of ${value} now.` : "nothing now: money has to come in.";
  return `${count(queues.length, "bank has", "banks have")} queued orders. ${ring} A resolution would settle ${now}`;
}

export const shows = { accounts: showAccounts, queues: showQueues, status: showStatus, report: showDay };
