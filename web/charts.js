// Larger pictures as SVG, whose places are percentages too: a line through the years, and lines from one order to
// another. Their numbers stand beside them as text.

import { el, svg } from "./elements.js";

// the height of a line through the years, and what is left free above and below, in pixels
const HEIGHT = 200;
const MARGIN = 12;

/** Values from 0 on, in their order from left to right, as dots with lines between them; each has words. */
export function lineChart(values, label) {
  const most = roundedUp(Math.max(...values.map(({ value }) => value)));
  const x = (place) => `${values.length > 1 ? 12 + (86 * place) / (values.length - 1) : 55}%`;
  const y = (value) => MARGIN + (HEIGHT - 2 * MARGIN) * (1 - value / most);
  const grid = [0, most / 2, most].flatMap((value) => [
    svg("line", { class: "track", x1: "0%", x2: "100%", y1: y(value), y2: y(value) }),
    svg("text", { x: 0, y: y(value) - 3 }, value.toFixed(2)),
  ]);
  const lines = values.slice(1).map(({ value }, place) =>
    svg("line", { class: "change", x1: x(place), x2: x(place + 1), y1: y(values[place].value), y2: y(value) }),
  );
  const dots = values.map(({ value, words }, place) =>
    svg("circle", { class: "dot", cx: x(place), cy: y(value), r: 5 }, svg("title", {}, words)),
  );
  return svg(
    "svg",
    { class: "picture", width: "100%", height: HEIGHT, role: "img", "aria-label": label },
    ...grid,
    ...lines,
    ...dots,
  );
}

// The next tenth of the scale that has room for a value.
function roundedUp(value) {
  return Math.max(0.1, Math.ceil(value * 10) / 10);
}

/**
 * Two orders of the same things side by side, each with a title and an array of keys and texts, and a line from each
 * thing to itself; its words are those of the first order.
 */
export function orderChart([title, before], [otherTitle, after], label) {
  const places = new Map(after.map(({ key }, place) => [key, place]));
  const y = (place) => `${(100 * (place + 0.5)) / after.length}%`;
  const lines = before.map(({ key, words }, place) => {
    const to = places.get(key);
    const name = to < place ? "rises" : to > place ? "falls" : "stays";
    return svg("line", { class: name, x1: "0%", x2: "100%", y1: y(place), y2: y(to) }, svg("title", {}, words));
  });
  const list = (order) =>
    el("ol", {}, ...order.map(({ key, text }) => el("li", { title: key }, el("span", {}, key), el("span", {}, text))));
  const picture = svg("svg", { class: "picture", role: "img", "aria-label": label }, ...lines);
  const heading = (name) => el("h3", {}, name);
  const headings = [heading(title), el("span"), heading(otherTitle)];
  return el("div", { class: "orders" }, ...headings, list(before), el("div", {}, picture), list(after));
}
