// Pictures as SVG: bars and dots whose places are percentages, so that they fit any width. Each has its words as label,
// and its numbers stand beside it as text.

import { svg } from "./elements.js";

const HEIGHT = 14;

const percent = (part, whole) => `${whole > 0 ? (100 * part) / whole : 0}%`;

function picture(label, ...parts) {
  return svg("svg", { class: "picture", width: "100%", height: HEIGHT, role: "img", "aria-label": label }, ...parts);
}

function stretch(name, from, length, whole) {
  return svg("rect", {
    class: name,
    x: percent(from, whole),
    y: 0,
    width: percent(length, whole),
    height: HEIGHT,
  });
}

/** Parts of a whole, side by side: each has the name of its colour and a number. */
export function partsBar(parts, whole, label) {
  const shapes = [stretch("open", 0, whole, whole)];
  let from = 0;
  for (const { name, number } of parts) {
    shapes.push(stretch(name, from, number, whole));
    from += number;
  }
  return picture(label, ...shapes);
}

/** One value as a bar, beside the most that any has. */
export function valueBar(value, most, label) {
  return picture(label, stretch("value", 0, value, most));
}

/** A value from 0 to 1 as a dot, with a line where the mean is. */
export function meanDot(value, mean, most, label) {
  const middle = HEIGHT / 2;
  const place = (of) => `${2 + 96 * (most > 0 ? of / most : 0)}%`;
  return picture(
    label,
    svg("line", { class: "track", x1: "2%", x2: "98%", y1: middle, y2: middle }),
    svg("line", { class: "mean", x1: place(mean), x2: place(mean), y1: 0, y2: HEIGHT }),
    svg("circle", { class: "dot", cx: place(value), cy: middle, r: 5 }),
  );
}
