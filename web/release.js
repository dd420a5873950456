// What is published, for everyone: the table of the runs, and the qrels and scores as files.

import { query } from "./client.js";
import { button, el } from "./elements.js";
import { handOut } from "./files.js";
import { countOf, scoresOf } from "./pages.js";
import { scoreTable } from "./tables.js";
import { sentence, texts } from "./texts.js";

const QRELS = "/releases/1/qrels";
const SCORES = "/releases/1/scores";

let place = null;

/** Shows the view in an element. */
export async function show(main) {
  place = el("div");
  const others = el("p", {}, el("a", { href: "archive.html" }, texts.release.archive));
  main.append(el("h1", {}, texts.release.heading), place, others);
  await look();
}

/** What the view leaves behind when another one is shown. */
export function leave() {
  place = null;
}

async function look() {
  const shown = place;
  const [qrels, scores] = await Promise.all([query(QRELS), query(SCORES)]);
  if (shown !== place) {
    return;
  }
  if (scores.status === 200 && qrels.status === 200) {
    place.replaceChildren(...published(qrels.text, scores.text));
  } else {
    const why = scores.fields.refusal === "unknown-release" ? texts.release.waiting : sentence(scores);
    place.replaceChildren(el("p", { class: "idle" }, why), button(texts.release.look, look));
  }
}

function published(qrels, scores) {
  const runs = scoresOf(scores);
  const noRuns = el("p", { class: "hint" }, texts.organise.noRuns);
  return [
    el("p", {}, texts.release.published, " ", texts.release.qrelsCount(countOf(qrels))),
    el(
      "div",
      { class: "row" },
      button(texts.release.qrels, () => handOut("release-1.qrels", qrels)),
      button(texts.release.scores, () => handOut("release-1.scores", scores)),
    ),
    el("section", { class: "card" }, el("h2", {}, texts.release.table), runs.size > 0 ? scoreTable(runs) : noRuns),
  ];
}
