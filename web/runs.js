// One run for those who may look at it: its scores by topic beside their mean, its withdrawal, its scores as a file.

import { command, onAnswer, query } from "./client.js";
import { askTwice, tell, tellRefusal } from "./dialogs.js";
import { button, el, form, labelled, plainText } from "./elements.js";
import { handOut } from "./files.js";
import { scoresOf } from "./pages.js";
import { meanDot } from "./pictures.js";
import { keep, kept } from "./session.js";
import { sentence, texts } from "./texts.js";

const FIRST = "map";

let place = null;
let known = null;
let wanted = "";

const knownRuns = () => kept("runs", []);

/** Keeps the name of a run that this tab handed in or looked at, the last one behind. */
export function keepRun(run) {
  keep("runs", [...knownRuns().filter((one) => one !== run), run]);
  showKnown();
}

/** A field for the name of a run, and below it what is shown of it. */
export function runPanel(heading) {
  const field = el("input", { ...plainText, id: "run-name", required: true });
  const choice = form(
    { class: "row" },
    () => showRun(field.value.trim()),
    labelled(texts.run.name, field),
    el("button", {}, texts.run.show),
  );
  known = el("div", { class: "row tight" });
  place = el("div", { id: "run" });
  showKnown();
  return el("section", { class: "card" }, el("h2", {}, heading), known, choice, place);
}

// A button for each run that is known.
function showKnown() {
  known?.replaceChildren(...knownRuns().map((run) => button(run, () => showRun(run), { class: "quiet" })));
}

/** Shows the scores of a run in the panel. */
export async function showRun(run) {
  wanted = run;
  const answer = await query(`/runs/${encodeURIComponent(run)}/scores`);
  if (run !== wanted) {
    return;
  }
  if (answer.status !== 200) {
    place.replaceChildren(el("p", { class: "refusal", role: "alert" }, sentence(answer)));
    return;
  }
  keepRun(run);
  const topics = scoresOf(answer.text).get(run);
  const measures = [...topics.get("all").keys()].filter((measure) => !measure.startsWith("num_"));
  const choice = el("select", {}, ...measures.map((measure) => el("option", {}, measure)));
  choice.value = FIRST;
  const picture = el("div");
  const show = () => picture.replaceChildren(pictureOf(topics, choice.value));
  choice.addEventListener("change", show);
  show();
  place.replaceChildren(
    el("h3", {}, texts.run.scoresOf(run)),
    labelled(texts.run.measure, choice),
    picture,
    el(
      "div",
      { class: "row" },
      button(texts.run.download, () => handOut(`${run}.scores`, answer.text), { class: "quiet" }),
      button(texts.run.withdraw, () => withdraw(run), { class: "danger" }),
    ),
  );
}

function pictureOf(topics, measure) {
  const mean = topics.get("all").get(measure);
  const rows = [...topics].filter(([topic]) => topic !== "all");
  if (rows.length === 0) {
    return el("p", { class: "hint" }, texts.run.noScores);
  }
  const { topic, picture, value } = texts.run.columns;
  const title = (text, kind) => el("th", { scope: "col", class: kind }, text);
  const row = ([name, values]) => {
    const own = values.get(measure);
    const words = texts.run.dot(name, measure, own, mean);
    return el(
      "tr",
      {},
      el("th", { scope: "row" }, name),
      el("td", { class: "wide" }, meanDot(Number(own), Number(mean), 1, words)),
      el("td", { class: "number" }, own),
    );
  };
  const head = [title(topic), title(picture), title(value, "number")];
  const meanTitle = el("th", { scope: "row", colspan: 2 }, texts.run.mean);
  return el(
    "table",
    { class: "dots", "aria-label": measure },
    el("thead", {}, el("tr", {}, ...head)),
    el("tbody", {}, ...rows.map(row)),
    el("tfoot", {}, el("tr", {}, meanTitle, el("td", { class: "number" }, mean))),
  );
}

async function withdraw(run) {
  if (await askTwice(texts.run.askWithdraw(run), texts.run.withdraw)) {
    command("withdraw", `/runs/${run}/withdraw`, "", { run });
  }
}

onAnswer("withdraw", (answer, { run }) => {
  if (answer?.status === 201) {
    tell(texts.run.withdrawn(run));
    place?.replaceChildren(el("p", {}, texts.run.withdrawn(run)));
  } else {
    tellRefusal(answer);
  }
});
