// What the page reads by itself: which reading is next, when, and whether its figures are still to be trusted.
import { ask, isUnlocked } from "./asking.js";
import { refusals } from "./refusals.js";

/** In milliseconds: the least pause, the longest one, how late a reading may be, and how long two of them are kept. */
const PAUSE = 2000, LONGEST = 30000, LATE = 10000, SELDOM = 10000;
/** A pause takes at least this many times as long as the last reply. */
const SHARE = 10;
const OFTEN = ["accounts", "queues"], NAMES = [...OFTEN, "status", "report"];
export const readings = {}; // by name: {text, data, at, took}
let trouble = null; // {said, tries, next} while the desk does not answer
let timer = 0, shows = {}, ticks = () => {};

/** Begins to read. What has changed is given to the call of its name in `show`, and `tick` is called after each. */
export function start(show, tick) {
  [shows, ticks] = [show, tick];
  all();
}

export function stop() {
  clearTimeout(timer);
  trouble = null;
  for (const name of NAMES) delete readings[name];
}

const age = (name) => Date.now() - (readings[name]?.at ?? 0);
/** Returns how long the page waits after a reading, and until it makes the same again. */
const pause = (name) => Math.min(LONGEST, Math.max(PAUSE, SHARE * (readings[name]?.took ?? 0)));
const rest = (name) => (OFTEN.includes(name) ? 0 : Math.max(SELDOM, 10 * SHARE * (readings[name]?.took ?? 0)));

/** Makes a reading, shows it, and returns whether the desk answered. There is no report before the first day. */
async function refresh(name) {
  if (name === "report" && !readings.accounts?.data.date) return true;
  const { text, data, took, refused, missing, isLocked } = await ask(name, readings.accounts?.data);
  if (isLocked) return false;
  if (data) {
    const isNew = readings[name]?.text !== text;
    readings[name] = { text, data, took, at: Date.now() };
    trouble = null;
    if (isNew) shows[name](data);
  } else {
    const said = missing || `The desk refused: ${refused.code} ${refused.name}, ${refusals[refused.code].means}.`;
    const tries = (trouble?.tries ?? 0) + 1;
    trouble = { said, tries, next: Date.now() + Math.min(LONGEST, PAUSE * 2 ** tries) };
  }
  ticks();
  return Boolean(data);
}

/** Makes readings one after another, and after a pause the next that is due, unless nobody sees the page. */
async function run(names) {
  clearTimeout(timer);
  for (const name of names) if (!(await refresh(name))) break;
  clearTimeout(timer);
  const last = names.at(-1), order = [...NAMES.slice(NAMES.indexOf(last) + 1), ...NAMES];
  const goOn = () => run(document.hidden ? [] : [order.find((it) => age(it) >= rest(it))]);
  if (isUnlocked()) timer = setTimeout(goOn, trouble ? Math.max(PAUSE, trouble.next - Date.now()) : pause(last));
}

export const all = () => run(NAMES);

export function isLate(name) {
  const pauses = NAMES.reduce((it, each) => it + pause(each), 0);
  return name in readings && age(name) > LATE + pauses + rest(name);
}

/** Tells as of when the figures are (0 where they were not all read yet), whether one is stale, and why. */
export function freshness() {
  const at = Math.min(...OFTEN.map((name) => readings[name]?.at ?? 0));
  return { at, stale: Boolean(trouble) || NAMES.some(isLate), said: "A reply is awaited.", ...trouble };
}
