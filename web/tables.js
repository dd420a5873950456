// The table of the runs: a column a measure, sorted by the one that is pressed, with bars of that one.

import { button, el } from "./elements.js";
import { valueBar } from "./pictures.js";
import { texts } from "./texts.js";

const FIRST = "map";

/** A table of the summaries that score lines give, by run. */
export function scoreTable(runs) {
  const rows = [...runs].map(([run, topics]) => ({ run, values: topics.get("all") }));
  const measures = [...rows[0].values.keys()];
  const shown = { by: measures.includes(FIRST) ? FIRST : measures[0], falling: true };
  const place = el("div", { class: "sideways", role: "region", tabindex: 0, "aria-label": texts.table.region });
  const show = () => place.replaceChildren(tableOf(sorted(rows, shown), measures, shown, press));
  const press = (by) => {
    shown.falling = by === shown.by ? !shown.falling : by !== "run";
    shown.by = by;
    show();
    place.querySelector("th[aria-sort] button").focus();
  };
  show();
  return el("div", {}, el("p", { class: "hint" }, texts.table.hint), place);
}

function sorted(rows, { by, falling }) {
  const byRun = (a, b) => compareTexts(a.run, b.run);
  const byValue = (a, b) => Number(a.values.get(by)) - Number(b.values.get(by));
  const order = by === "run" ? byRun : byValue;
  return rows.toSorted((a, b) => (falling ? order(b, a) : order(a, b)));
}

const compareTexts = (a, b) => (a < b ? -1 : a > b ? 1 : 0);

function tableOf(rows, measures, shown, press) {
  const by = shown.by === "run" ? FIRST : shown.by;
  const most = Math.max(...rows.map((row) => Number(row.values.get(by))));
  const sort = shown.falling ? "descending" : "ascending";
  const head = (name, title, kind) =>
    el(
      "th",
      { scope: "col", class: kind, "aria-sort": name === shown.by ? sort : null },
      button(title, () => press(name), { class: "sort" }),
    );
  const bars = el("th", { scope: "col" }, texts.table.bar(by));
  const heads = [head("run", texts.table.run), bars, ...measures.map((one) => head(one, one, "number"))];
  const row = ({ run, values }) =>
    el(
      "tr",
      {},
      el("th", { scope: "row" }, run),
      el("td", { class: "bar" }, valueBar(Number(values.get(by)), most, `${by} ${values.get(by)}`)),
      ...measures.map((measure) => el("td", { class: measure === by ? "number by" : "number" }, values.get(measure))),
    );
  return el(
    "table",
    { class: "scores", "aria-label": texts.organise.table },
    el("thead", {}, el("tr", {}, ...heads)),
    el("tbody", {}, ...rows.map(row)),
  );
}
