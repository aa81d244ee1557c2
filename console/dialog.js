// The question before each command, its answer, and the journal of what this page sent.
import { ask } from "./asking.js";
import { commands, rowsOf, told, toldOfBatch } from "./commands.js";
import { $, button, explained, items, made, on, paragraph } from "./elements.js";
import { offerFields } from "./fields.js";
import { afterwards, saved, show } from "./lookup.js";
import { all, freshness, readings } from "./polling.js";
import { pathOf, ROUTES } from "./routes.js";
import { written } from "./values.js";

const journal = []; // the commands of this page and their answers, a line for each
let now = null; // the one in the dialog: {name, values, sent, wire, says, warns, again, why, waits, isUnknown, button}

export function enable() {
  $("commands").append(...Object.entries(commands).map(([command, { title }]) => button(`${title}…`, { command })));
  for (const it of document.querySelectorAll(".cancel")) it.addEventListener("click", () => $("dialog").close());
  on("form", "submit", prepare);
  on("back", "click", askFields);
  on("yes", "click", send);
  on("dialog", "cancel", (event) => now.waits && event.preventDefault());
  on("save", "click", () => saved("commands.txt", journal.join("")));
}

export const isUsed = () => journal.length > 0 || Boolean(now?.waits);

/** Opens the dialog of a command, with some of its fields filled in. */
export function begin(name, values) {
  if (!readings.accounts || now?.waits) return;
  now = { name, why: [] };
  offerFields($("fields"), commands[name].fields, values);
  $("dialog").showModal();
  if (commands[name].fields.every((it) => values[it])) prepare();
  else askFields();
}

/** Shows the first stage of the dialog, the fields, or the second, the question, and why it was not accepted. */
function stage(isSecond, focus) {
  $("dialog-head").textContent = commands[now.name].title;
  $("answer").replaceChildren(...now.why);
  [$("form").hidden, $("confirm").hidden] = [isSecond, !isSecond];
  focus.focus();
}
const askFields = () => stage(false, $("fields").querySelector("input, select"));

/** Makes of the fields what is to be sent: of a file its bytes, which are sent again whatever becomes of the file. */
async function prepare() {
  const begun = now, { name } = begun, { at, stale } = freshness();
  const values = Object.fromEntries(new FormData($("form")));
  const bytes = await values.file?.arrayBuffer().catch(() => null);
  begun.why = bytes === null ? [paragraph("The file cannot be read. Choose it again.")] : [];
  if (now !== begun || bytes === null) return void askFields();
  if (bytes) values.rows = rowsOf(new TextDecoder().decode(bytes));
  const { body = {}, says, warns, again = "If it comes twice, it acts once." } = commands[name].of(values);
  const old = stale && `The figures of this page are ${Math.round((Date.now() - at) / 1000)} s old.`;
  const wire = `${ROUTES[name][0]} ${pathOf(name, values)} ${
    bytes ? `(${values.file.name}, ${bytes.byteLength} bytes)` : written(body)}`;
  question({ name, values, sent: bytes ?? written(body), wire, says, warns: [...warns, old], again, why: [] });
}

function question(command) {
  const { title, fields } = commands[command.name], { isUnknown, says, warns, wire, why } = now = command;
  [$("says").textContent, $("wire").textContent] = [says, wire];
  items($("warns"), warns.filter(Boolean).map((it) => [it]));
  $("yes").textContent = isUnknown ? "Send the same again" : title;
  $("later").textContent = isUnknown ? "Later" : "Cancel";
  $("back").hidden = isUnknown || !fields.length;
  // (a browser lets a second Escape close what waits)
  if (!$("dialog").open) $("dialog").showModal();
  stage(true, why.length ? $("answer") : $("says"));
}

/** Sends the command of the dialog, and tells its answer: in the dialog, unless it was accepted. */
async function send() {
  const at = new Date().toISOString(), buttons = $("confirm").querySelectorAll("button");
  const wait = (waits) => buttons.forEach((it) => { it.disabled = now.waits = waits; });
  wait(true);
  $("answer").replaceChildren(paragraph("Sent. The answer is awaited…"));
  const { status, text, data, refused, missing, isLocked } = await ask(now.name, now.values, now.sent);
  wait(false);
  const isAccepted = status === 200 && Boolean(data), batch = data?.rows ? toldOfBatch(data) : "";
  // (after a refusal with 503 the command may have acted, and so may some rows of a file that stopped)
  now.isUnknown = !isAccepted && (!refused || status === 503);
  now.why = isAccepted ? [] : explained({ refused, missing: missing || `The desk stopped within the file. ${batch}` });
  keep(`${at} ${now.wire} -> ${status ? `${status} ${batch || (missing ? "(a proxy's)" : text)}` : "no answer"}`);
  if (isLocked) return;
  if (isAccepted) accepted(data, batch);
  else question(now);
  await all();
}

/** Keeps a line of the journal. From there a command can be sent again of which it is not known whether it acted. */
function keep(line) {
  const row = made("li", {}, line), command = now;
  journal.push(`${line}\n`);
  $("journal-rows").append(row);
  command.button?.remove();
  if (!command.isUnknown) return;
  command.why.push(paragraph("It is not known whether the command acted. Send the same again until an answer comes, ",
    `with no other reference: the journal of this page keeps it. ${command.again}`));
  command.button = made("button", {}, "Send the same again…");
  command.button.addEventListener("click", () => now.waits || question(command));
  row.append(" ", command.button);
}

function accepted(data, batch) {
  const { name, values } = now, said = `${commands[name].title}: ${batch || told(data)} `;
  $("dialog").close();
  $("outcome").replaceChildren(made("p", { class: "done" }, said, ...afterwards(data)));
  if (batch) show(`Result of ${values.file.name} of ${values.code}`, data);
  $("outcome").focus();
}
