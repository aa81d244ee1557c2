// The fields that a command or a look-up asks for: what each is called, and the form of what is typed.
import { made } from "./elements.js";
import { readings } from "./polling.js";

const banks = () => (readings.accounts?.data.accounts ?? []).map(({ code, name }) => [code, `${code} ${name}`]);
/** By name: the label, and what there is to choose from, or the attributes of what is typed. */
const FIELDS = {
  code: ["Bank", () => [["", "choose…"], ...banks()]],
  date: ["Date", { pattern: "2[0-9]{3}-[0-9]{2}-[0-9]{2}", title: "YYYY-MM-DD", placeholder: "YYYY-MM-DD" }],
  reference: ["Reference", { pattern: "[A-Z0-9\\-]{1,16}", title: "1 to 16 capital letters, digits or hyphens" }],
  state: ["Show", () => ["all", "settled", "queued", "held", "withdrawn", "rejected"].map((it) => [it, it])],
  way: ["Direction", () => [["1", "pay in (credit the account)"], ["-1", "take out (debit the account)"]]],
  amount: ["Amount", { pattern: "([0-9][ \\u202f]?){1,14}[.][0-9]{2}", inputmode: "decimal",
    title: "units and two decimals, such as 1234.50", placeholder: "units, such as 1234.50" }],
  kind: ["Kind of day", () =>
    [["plain", "plain: queues wait for resolve"], ["automatic", "automatic: a resolution follows each command"]]],
  file: ["Order file", { type: "file", accept: ".csv,text/csv" }],
};

/** Gives a place fields of these names, with these values. Each has to be filled in. */
export const offerFields = (place, names, values) => place.replaceChildren(...names.map((name) => {
  const [text, form] = FIELDS[name], own = { name, required: "" };
  const options = () => form().map(([value, choice]) => made("option", { value }, choice));
  const it = typeof form === "function" ? made("select", own, ...options()) : made("input", { ...own, ...form });
  if (values[name]) it.value = values[name];
  return made("label", {}, `${text} `, it);
}));
