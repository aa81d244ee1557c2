// The picture of who waits for whom. Attributes and classes alone: the policy allows no style in markup.
import { equipped } from "./elements.js";
import { shown } from "./values.js";
import { payers, rings } from "./waits.js";

const [WIDTH, HEIGHT, STEP, EDGE] = [600, 520, 16, 100];
const BANKS = 16, ARROWS = 48; // with more than these the picture is a matrix
const about = new Intl.NumberFormat("en", { notation: "compact", maximumSignificantDigits: 3 });

const part = (name, attributes, ...within) =>
  equipped(document.createElementNS("http://www.w3.org/2000/svg", name), attributes, within);
/** Returns a shape in the middle of a place. Shapes tell the kinds apart, not colours alone. */
const shape = (isRound, x, y, half, kind, ...within) => (isRound
  ? part("circle", { class: kind, cx: x, cy: y, r: half }, ...within)
  : part("rect", { class: kind, x: x - half, y: y - half, width: 2 * half, height: 2 * half }, ...within));

/** Returns the codes in groups: each ring along its first orders, then other banks with a queue, then those without. */
function groups(queues) {
  const next = new Map(queues.map(({ code, first }) => [code, first.to])), had = new Set();
  const along = (ring) => {
    const found = new Set();
    for (let at = ring[0]; found.size < ring.length; at = next.get(at)) {
      if (!ring.includes(at) || found.has(at)) at = ring.find((it) => !found.has(it));
      found.add(at);
    }
    return [...found];
  };
  const waiting = [...queues].sort((a, b) => (a.queued_value < b.queued_value ? 1 : -1)).map(({ code }) => code);
  const fresh = (codes) => codes.filter((it) => !had.has(it) && had.add(it));
  return [...rings(queues).map(along), waiting, [...payers(queues).keys()].sort()].map(fresh).filter((it) => it.length);
}

/** Returns the arrow between two places, and its amount. It is bent to the left of its way: that back stays apart. */
function arrow(from, to, { kind, value, told }) {
  const [dx, dy] = [to.x - from.x, to.y - from.y], far = Math.hypot(dx, dy), by = Math.max(1 / 7, 20 / far);
  const bend = { x: from.x + dx / 2 + dy * by, y: from.y + dy / 2 - dx * by };
  const path = part("path", { class: `arrow ${kind}`, d: `M${from.x} ${from.y}Q${bend.x} ${bend.y} ${to.x} ${to.y}`,
    "marker-end": "url(#head)" }, part("title", {}, told));
  const isNear = far < 150, amount = kind !== "later" || !isNear ? about.format(Number(value) / 100) : "";
  // (beside a short arrow, and on a long one, nearer to where it begins)
  const on = (axis) => (isNear ? bend[axis] : 0.36 * from[axis] + 0.48 * bend[axis] + 0.16 * to[axis]);
  return [path, part("text", { x: on("x"), y: on("y") + 4, class: "amount" }, amount)];
}

function node(code, { x, y, cos, sin }, it) {
  const kind = !it ? "none" : it.settling ? "settles" : "first", side = Math.abs(cos) < 0.12 ? 0 : Math.sign(cos);
  const sign = !it ? "no queue" : it.settling ? `settles ${it.settling} of ${it.queued}` : `short ${shown(it.short)}`;
  const at = { x: x + 20 * side, "text-anchor": ["end", "middle", "start"][side + 1] };
  const top = side ? y + sin * 24 - 2 : sin > 0 ? y + 28 : y - 42;
  return [shape(kind !== "first", x, y, it ? 9 : 5, `node ${kind}`),
    part("text", { ...at, y: top, class: "code" }, code),
    part("text", { ...at, y: top + 15, class: `sign ${kind}` }, sign)];
}

function circle(found, queues, pairs) {
  const by = new Map(queues.map((it) => [it.code, it])), places = new Map();
  // (a place is left free behind each of several groups)
  found.flatMap((codes) => [...codes, ...(found[1] ? [""] : [])]).forEach((code, i, { length }) => {
    const angle = (2 * Math.PI * i) / length - Math.PI / 2, [cos, sin] = [Math.cos(angle), Math.sin(angle)];
    places.set(code, { x: WIDTH / 2 + cos * (WIDTH / 2 - 145), y: HEIGHT / 2 + sin * (HEIGHT / 2 - 58), cos, sin });
  });
  const drawn = pairs.map((it) => arrow(places.get(it.from), places.get(it.to), it));
  const nodes = found.flat().flatMap((code) => node(code, places.get(code), by.get(code)));
  return [...drawn.map(([path]) => path), ...drawn.map(([, amount]) => amount), ...nodes];
}

/** Returns a row for each bank that would pay, and a column for each that would be paid. */
function matrix(codes, size, pairs) {
  const most = pairs.reduce((it, { value }) => (value > it ? value : it), 1n);
  const at = new Map(codes.map((code, i) => [code, EDGE + i * STEP + STEP / 2]));
  const lines = [...at].flatMap(([code, place]) => [
    part("path", { class: "grid", d: `M${EDGE} ${place}H${size}M${place} ${EDGE}V${size}` }),
    part("text", { x: EDGE - 6, y: place + 5, class: "code", "text-anchor": "end" }, code),
    part("text", { x: 6, y: 5, class: "code", transform: `translate(${place} ${EDGE})rotate(-90)` }, code)]);
  return [...lines, ...pairs.map(({ from, to, kind, value, told }) => {
    const half = 2 + (STEP / 2 - 3) * Math.sqrt(Number(value) / Number(most)), [x, y] = [at.get(to), at.get(from)];
    return shape(kind === "later", x, y, half, `cell ${kind}`, part("title", {}, told));
  })];
}

/** Draws the queues, and returns what picture it is. A pair of banks "settles" if the payer's first order is to the
 * other, or all its orders would settle, and a resolution would settle the first. It is "first" if the first stays. */
export function draw(svg, queues) {
  const found = groups(queues), many = found.flat().length, size = EDGE + many * STEP + 10;
  const pairs = queues.flatMap(({ code: from, first, queued, receivers, settling }) => receivers.map((it) => ({
    from, to: it.to, value: it.queued_value, told: `${from} to ${it.to}: ${shown(it.queued_value)} in ${it.queued}`,
    kind: first.to !== it.to && settling < queued ? "later" : settling ? "settles" : "first",
  })));
  const isMatrix = many > BANKS || pairs.length > ARROWS;
  svg.setAttribute("viewBox", isMatrix ? `0 0 ${size} ${size}` : `0 0 ${WIDTH} ${HEIGHT}`);
  const drawn = isMatrix ? matrix(found.flat(), size, pairs) : circle(found, queues, pairs);
  svg.lastElementChild.replaceChildren(...drawn);
  return !many ? "empty" : !isMatrix ? "circle" : many > 20 ? "matrix wide" : "matrix";
}
