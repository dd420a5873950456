// The page of the archive: a run through the years and two releases beside each other, drawn from files that
// `campaign history` and `campaign export` made. It asks the server nothing, so it needs no key.

import { lineChart, orderChart } from "./charts.js";
import { tell } from "./dialogs.js";
import { el, labelled } from "./elements.js";
import { fileField, textOf } from "./files.js";
import { setUpFrame } from "./frame.js";
import { comparisonOf, historyOf, releasesOf, unitsOf } from "./reports.js";
import { texts } from "./texts.js";

const words = texts.archive;

// A card with a field for a file; what the file gives is shown below it, and where it is none its line is told.
function reportCard(heading, label, hint, read, shown) {
  const place = el("div");
  const chosen = async (file) => {
    place.replaceChildren();
    tell("");
    const text = file === null ? null : await textOf(file);
    if (text === null) {
      return;
    }
    const report = read(text);
    if (report.fault === undefined) {
      place.replaceChildren(...shown(report, file.name));
    } else {
      tell(words.fault(report.fault), "refused");
    }
  };
  return el("section", { class: "card" }, el("h2", {}, heading), labelled(label, fileField(chosen), hint), place);
}

function table(label, columns, rows) {
  const kind = (place) => (columns[place].isNumber ? "number" : null);
  const head = columns.map(({ title }, place) => el("th", { scope: "col", class: kind(place) }, title));
  const cell = (value, place) =>
    place === 0 ? el("th", { scope: "row" }, value) : el("td", { class: kind(place) }, value);
  return el(
    "div",
    { class: "sideways", role: "region", tabindex: 0, "aria-label": label },
    el(
      "table",
      { class: "names", "aria-label": label },
      el("thead", {}, el("tr", {}, ...head)),
      el("tbody", {}, ...rows.map((row) => el("tr", {}, ...row.map(cell)))),
    ),
  );
}

const textColumn = (title) => ({ title, isNumber: false });
const numberColumn = (title) => ({ title, isNumber: true });

// ---- a run through the years

function shownHistory({ rows }, name) {
  if (rows.length === 0) {
    return [el("p", { class: "hint" }, words.noRows)];
  }
  const values = rows.map(({ release, topics, map }) => ({
    value: Number(map),
    words: words.dot(release, map, topics),
  }));
  const ends = [...new Set([rows[0], rows.at(-1)])];
  const columns = [textColumn(words.release), numberColumn(words.topics), numberColumn(words.map)];
  return [
    lineChart(values, words.history(name, rows.length)),
    el("div", { class: "row between" }, ...ends.map(({ release }) => el("span", {}, release))),
    table(words.historyTable, columns, rows.map(({ release, topics, map }) => [release, topics, map])),
  ];
}

// ---- two releases beside each other

function shownReleases({ releases }) {
  const names = [...releases.keys()];
  if (names.length === 0) {
    return [el("p", { class: "hint" }, words.noRows)];
  }
  const choice = (place) => {
    const field = el("select", { onchange: () => show() }, ...names.map((name) => el("option", {}, name)));
    field.value = names.at(place);
    return field;
  };
  const [first, second] = [choice(0), choice(-1)];
  const place = el("div", { id: "comparison" });
  const show = () => place.replaceChildren(...shownComparison(releases, first.value, second.value));
  show();
  return [el("div", { class: "row" }, labelled(words.first, first), labelled(words.second, second)), place];
}

function shownComparison(releases, first, second) {
  const [its, others] = [releases.get(first), releases.get(second)];
  const { before, after, pairs } = comparisonOf(its, others);
  const alone = [
    [first, [...its.keys()].filter((run) => !others.has(run))],
    [second, [...others.keys()].filter((run) => !its.has(run))],
  ];
  const onlyIn = alone
    .filter(([, runs]) => runs.length > 0)
    .map(([name, runs]) => el("p", {}, words.onlyIn(name, runs)));
  if (before.length === 0) {
    return [el("p", { class: "hint" }, words.noCommon), ...onlyIn];
  }
  const item = (side) => (one) => ({ key: one.run, text: one[side], words: words.line(one.run, one.first, one.second) });
  const orders = [[first, before.map(item("first"))], [second, after.map(item("second"))]];
  const groupOf = ({ run }) => [...new Set([its.get(run).group, others.get(run).group])].join(", ");
  const changes = before.map((one) => [one.run, groupOf(one), one.first, one.second, changeOf(one)]);
  const titles = [first, second, words.change];
  const columns = [textColumn(words.run), textColumn(words.group), ...titles.map(numberColumn)];
  const legend = Object.entries(words.legend).map(([name, title]) => el("li", { class: name }, title));
  return [
    el("p", { id: "pairs" }, words.pairs(before.length, pairs)),
    el("p", { class: "hint" }, words.pairsHint),
    el("ul", { class: "legend" }, ...legend),
    orderChart(...orders, words.orders(first, second)),
    ...onlyIn,
    table(words.comparisonTable, columns, changes),
  ];
}

// The change of a map, with its sign.
function changeOf({ first, second }) {
  const units = unitsOf(second) - unitsOf(first);
  const sign = units > 0 ? "+" : units < 0 ? "-" : "";
  return `${sign}${(Math.abs(units) / 10000).toFixed(4)}`;
}

setUpFrame();
document.title = texts.titleOf(words.heading);
document.getElementById("menu").append(el("a", { href: "./" }, words.back));
document.getElementById("main").append(
  el("h1", {}, words.heading),
  el("p", { class: "hint" }, words.about),
  reportCard(words.historyHeading, words.historyFile, words.historyHint, historyOf, shownHistory),
  reportCard(words.comparisonHeading, words.exportFile, words.exportHint, releasesOf, shownReleases),
);
// (tests wait for it)
document.body.dataset.ready = "";
