// The operator's console of the desk. It judges nothing: it shows what the desk reads out, asks before it sends a
// command, and tells the desk's answer. This file begins and ends it: the key is typed, and forgotten.
import { isUnlocked, useKey } from "./asking.js";
import * as dialog from "./dialog.js";
import { $, explained, on } from "./elements.js";
import * as lookup from "./lookup.js";
import { showBanks, shows } from "./overview.js";
import { all, freshness, isLate, readings, start, stop } from "./polling.js";

const EMPTIED = "tbody, tfoot, #figures, #ready, #desk, #outcome, #drawn, #day span, #phase, #fresh, #waits-said, "
  + "#fields, #says, #warns, #wire, #answer, #look-fields, #look-answer, #look-head, #look-sums, #look-text";
const clock = (at) => new Date(at).toLocaleTimeString("en-GB");
const seconds = (time) => Math.max(0, Math.round(time / 1000));

/** Tells each second how old the readings are. What is read aloud has no number that changes each second. */
function tick() {
  if (!isUnlocked()) return;
  for (const it of document.querySelectorAll("[data-reading]")) {
    const { at } = readings[it.dataset.reading] ?? {}, sign = isLate(it.dataset.reading) ? "STALE: as" : "As";
    it.textContent = at ? `${sign} of ${clock(at)}.` : "Not read yet.";
  }
  const { at, stale, said, tries, next } = freshness(), { phase = "", date = "" } = readings.accounts?.data ?? {};
  const sign = stale ? "STALE: " : "";
  const told = `${at ? `These figures are stale: they are as of ${clock(at)}.` : "Nothing was read yet."} ${said}`;
  document.body.classList.toggle("stale", stale);
  document.title = `${sign}${phase} ${date} Settlement desk`.replace(/ +/g, " ").trim();
  $("fresh").textContent = sign + (at ? `as of ${clock(at)}, ${seconds(Date.now() - at)} s ago` : "nothing read yet");
  $("alarm").hidden = !stale;
  if ($("alarm-text").textContent !== told) $("alarm-text").textContent = told;
  $("alarm-next").textContent = next ? `Try ${tries + 1} in ${seconds(next - Date.now())} s.` : "";
  lookup.renew(readings.accounts?.data);
}

function unlock() {
  useKey($("key").value, lock);
  $("key").value = document.body.className = "";
  $("locked").replaceChildren();
  $("day-head").focus();
  start(shows, tick);
}

/** Forgets the key and all that was read, and says why. The journal stays until the page is left. */
function lock({ refused }) {
  useKey(null);
  stop();
  lookup.forget();
  $("dialog").close();
  for (const it of document.querySelectorAll(EMPTIED)) it.replaceChildren();
  [document.title, document.body.className, document.body.dataset.phase] = ["Settlement desk", "locked", ""];
  $("locked").replaceChildren(...(refused ? explained({ refused }) : []));
  $("key").focus();
}

document.addEventListener("submit", (event) => event.preventDefault());
document.addEventListener("click", ({ target }) => {
  const { command, look, ...values } = target.dataset;
  if (command) dialog.begin(command, values);
  if (look) lookup.look(look, values);
});
on("key-form", "submit", unlock);
on("lock", "click", lock);
on("print", "click", () => window.print());
on("now", "click", all);
on("sort", "change", showBanks);
dialog.enable();
lookup.enable();
// (a browser may keep the page that is left for the way back)
window.addEventListener("pagehide", lock);
window.addEventListener("beforeunload", (event) => dialog.isUsed() && event.preventDefault());
setInterval(tick, 1000);
$("key").focus();
