// What the desk sends, read exactly, and how it is shown. This module knows no page. Cents are BigInts.
import { CENTS, NUMBERS, ROUTES } from "./routes.js";

const [ofCents, ofNumbers] = [CENTS, NUMBERS].map((it) => new Set(it.split(" ")));
const HEADS = { report: "bank posted sent received", statement: "kind number reference other amount mark" };

/** Returns what a call returns, or nothing where it throws, since a text is not of its form. */
export function orNothing(reads) {
  try {
    return reads();
  } catch {
    return null;
  }
}

function valueOf(key, text) {
  if (ofCents.has(key)) return BigInt(/^-?\d+$/.exec(text)[0]);
  return ofNumbers.has(key) && /^\d+$/.test(text) ? Number(text) : text;
}

/** Reads a JSON body of the desk, of which it takes these keys. Its numbers are whole, and no text has an escape. */
export function read(text, keys) {
  const known = new Set(keys.split(" "));
  const quoted = text.replace(/"[^"]*"|-?\d+/g, (it) => (it.startsWith('"') ? it : `"${it}"`));
  return JSON.parse(quoted, function (key, value) {
    if (key !== "" && !Array.isArray(this) && !known.has(key)) return undefined;
    return typeof value === "string" ? valueOf(key, value) : value;
  });
}

/** Shows cents with two decimals, thousands apart: 1 234 567.89. */
export function shown(cents) {
  const digits = String(cents < 0n ? -cents : cents).padStart(3, "0");
  const whole = digits.slice(0, -2).replace(/\B(?=(\d{3})+$)/g, "\u202f");
  return `${cents < 0n ? "\u2212" : ""}${whole}.${digits.slice(-2)}`;
}

/** Reads an amount in units with two decimals. */
export const centsOf = (text) => BigInt(/^(-?\d+)\.(\d\d)$/.exec(text.replace(/[ \u202f]/g, "")).slice(1).join(""));
export const written = (fields) => `{${Object.entries(fields).map(([key, value]) =>
  `"${key}":${typeof value === "bigint" ? value : JSON.stringify(value)}`).join(",")}}`;
/** Writes a table as CSV, with amounts in cents, as the desk itself writes them. */
export const csvOf = ({ heads, rows }) => [heads, ...rows].map((row) => `${row.join()}\n`).join("");

/** Reads CSV, of which no field has quotes, with these columns and no others. A table has heads, and rows of values. */
export function tableOf(text, columns) {
  const [heads, ...lines] = text.replace(/\n$/, "").split("\n").map((it) => it.split(","));
  if (heads.join(" ") !== columns || lines.some((it) => it.length !== heads.length)) throw new Error("other columns");
  return { heads, rows: lines.map((line) => line.map((it, i) => valueOf(heads[i], it))) };
}

/** Reads a report or a statement, whose fields have no space in them: its table, and the shorter lines behind it. */
function printedOf(name, text) {
  const [first, ...lines] = text.trimEnd().split("\n").map((line) => line.split(/ +/)), heads = HEADS[name].split(" ");
  if (first[0] !== name) throw new Error(`no ${name}`);
  const rows = lines.filter((it) => it.length === heads.length), sums = lines.filter((it) => it.length < heads.length);
  const value = (it) => (/\.\d\d$/.test(it) ? centsOf(it) : it);
  return { date: first.at(-1), heads, rows: rows.map((row) => row.map(value)), sums };
}

/** Reads what the desk answers to a request: JSON, CSV, or what it prints as a text. */
export function answerOf(name, text) {
  if (name in HEADS) return printedOf(name, text);
  return (text.startsWith("{") ? read : tableOf)(text, ROUTES[name][3]);
}

/** Returns a date with its weekday before it, if it exists. */
export function dayOf(date) {
  const day = new Date(`${date}T00:00:00Z`), isThere = orNothing(() => day.toISOString().startsWith(date));
  return isThere ? `${day.toLocaleDateString("en", { weekday: "long", timeZone: "UTC" })} ${date}` : date;
}

export const daysBetween = (from, to) => Math.round((Date.parse(to) - Date.parse(from)) / 86400000);
export const sum = (rows, name) => rows.reduce((it, row) => it + row[name], 0n);
export const total = (rows, name) => rows.reduce((it, row) => it + row[name], 0);
export const count = (many, one, more = `${one}s`) => `${many} ${many === 1 ? one : more}`;
