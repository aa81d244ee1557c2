// One request after another, with the operator's key, which stands in `key` alone.
import { pathOf, REFUSAL, ROUTES } from "./routes.js";
import { refusals } from "./refusals.js";
import { answerOf, orNothing, read } from "./values.js";

const LIMIT = 70000; // how long a reply may take, in milliseconds (a proxy waits 60 seconds)
const HOW = { cache: "no-store", credentials: "omit", redirect: "error", referrerPolicy: "no-referrer" };
const OF_PROXIES = { 502: "the desk is not there, or has ended", 504: "the desk did not answer in time" };

let key = null, keyRefused = () => {}; // the operator's key while the page is unlocked, and what is done if it is wrong
let leave = new AbortController(); // ends what is under way once the page is locked
let line = Promise.resolve();
export const isUnlocked = () => key !== null;

/** Keeps the key that was typed, or forgets it, and ends what is under way. A call is made if the key is wrong. */
export function useKey(typed, whenRefused = () => {}) {
  leave.abort();
  [key, keyRefused, leave] = [typed, whenRefused, new AbortController()];
}

/** Makes a request of routes.js once those before it were answered. Returns the reply, with `data` if the desk did it,
 * `refused` if it refused, or `missing`, why no answer of it came, and `isLocked` if the page was locked meanwhile. */
export function ask(name, values = {}, body = undefined) {
  const own = leave.signal;
  line = line.then(() => answer(own, name, values, body));
  return line;
}

async function answer(own, name, values, body) {
  const got = own.aborted ? {} : await fetched(own, name, values, body), { status, text } = got;
  const isBad = status !== 200, said = isBad && orNothing(() => read(text, REFUSAL));
  const refused = refusals[said?.code] ? said : null;
  if (refused?.code === 68 && !own.aborted) keyRefused({ refused });
  // (a batch that stops has a result file all the same, as far as it went)
  const data = refused || (isBad && name !== "batch") ? null : orNothing(() => answerOf(name, text));
  const missing = status ? `The proxy answered ${status}: ${OF_PROXIES[status] ?? "this is no answer of the desk"}.`
    : "The server does not answer: the connection was refused, was lost, or took too long.";
  return { ...got, data, refused, missing: refused || data ? "" : missing, isLocked: own.aborted };
}

async function fetched(own, name, values, body) {
  const began = performance.now(), type = name === "batch" ? "text/csv" : "application/json";
  const headers = { "desk-key": key, ...(body !== undefined && { "content-type": type }) };
  const signal = AbortSignal.any([own, AbortSignal.timeout(LIMIT)]);
  const how = { method: ROUTES[name][0], body, headers, signal, ...HOW };
  return fetch(pathOf(name, values), how).then(async (reply) =>
    ({ status: reply.status, text: await reply.text(), took: performance.now() - began })).catch(() => ({}));
}
