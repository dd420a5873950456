// The organiser's view: the steps of the campaign, its progress, disagreements and rulings, pools, table and runs.

import { command, onAnswer, query } from "./client.js";
import { askTwice, tell, tellRefusal } from "./dialogs.js";
import { button, el, form, labelled, newTab, plainText } from "./elements.js";
import { chosenText, fileField, handOut, tellFault } from "./files.js";
import { gradeField, gradeForm } from "./grades.js";
import { disagreementsOf, progressOf, scoresOf } from "./pages.js";
import { partsBar } from "./pictures.js";
import { runPanel } from "./runs.js";
import { addressOf, gradeText, topicOf } from "./settings.js";
import { scoreTable } from "./tables.js";
import { sentence, texts } from "./texts.js";

// how often progress and disagreements are asked for while the tab is seen, in milliseconds
const REFRESH = 30000;

let view = null;
let refreshing = 0;

/** Shows the view in an element. */
export async function show(main) {
  view = { progress: el("div"), disagreements: el("div"), topics: [], pool: el("select"), lines: [] };
  main.append(
    el("h1", {}, texts.organise.heading),
    progressCard(),
    disagreementCard(),
    stepsCard(),
    tableCard(),
    poolCard(),
    runPanel(texts.run.headingAll),
  );
  refreshing = setInterval(() => document.hidden || refresh(), REFRESH);
  await refresh();
}

/** What the view leaves behind when another one is shown. */
export function leave() {
  clearInterval(refreshing);
  view = null;
}

// Progress and disagreements as they are now; a ruling that is being typed stays.
async function refresh() {
  const shown = view;
  if (shown === null) {
    return;
  }
  const [progress, disagreements] = await Promise.all([query("/progress"), query("/disagreements")]);
  if (shown !== view) {
    return;
  }
  if (progress.status !== 200 || disagreements.status !== 200) {
    view.time.textContent = sentence(progress.status !== 200 ? progress : disagreements);
    return;
  }
  view.lines = progressOf(progress.text);
  view.time.textContent = texts.organise.refreshed(new Date().toLocaleTimeString());
  view.progress.replaceChildren(progressTable(view.lines));
  showDisagreements(disagreementsOf(disagreements.text));
  showTopicChoice(view.lines.map((line) => line.topic));
}

// ---- progress

function progressCard() {
  view.time = el("p", { class: "hint", id: "refreshed" });
  const again = button(texts.organise.refresh, refresh, { class: "quiet" });
  const head = el("div", { class: "row" }, el("h2", {}, texts.organise.progress), again);
  return el("section", { class: "card" }, head, view.progress, view.time);
}

function progressTable(lines) {
  if (lines.length === 0) {
    return el("p", { class: "hint" }, texts.organise.noTopics);
  }
  const { topic, bar, ...numbers } = texts.organise.progressColumns;
  const title = (text, kind) => el("th", { scope: "col", class: kind }, text);
  const titles = [title(topic), title(bar), ...Object.values(numbers).map((text) => title(text, "number"))];
  const sum = (name) => lines.reduce((total, line) => total + line[name], 0);
  const sums = ["pool", "relevant", "lower", "leases"].map((name) => [name, sum(name)]);
  const all = { topic: texts.organise.all, ...Object.fromEntries(sums) };
  return el(
    "div",
    {},
    legend(),
    el(
      "div",
      { class: "sideways", role: "region", tabindex: 0, "aria-label": texts.organise.progress },
      el(
        "table",
        { class: "progress", "aria-label": texts.organise.progress },
        el("thead", {}, el("tr", {}, ...titles)),
        el("tbody", {}, ...lines.map(progressRow)),
        el("tfoot", {}, progressRow(all)),
      ),
    ),
  );
}

function progressRow(line) {
  const parts = ["relevant", "lower", "leases"].map((name) => ({ name, number: line[name] }));
  // graded documents of withdrawn runs have left the pool
  const whole = Math.max(line.pool, line.relevant + line.lower + line.leases);
  const title = topicOf(line.topic)?.title;
  return el(
    "tr",
    {},
    el("th", { scope: "row" }, line.topic, title ? el("span", { class: "title" }, ` ${title}`) : null),
    el("td", { class: "wide" }, partsBar(parts, whole, texts.organise.progressBar(line))),
    ...["pool", "relevant", "lower", "leases"].map((name) => el("td", { class: "number" }, String(line[name]))),
  );
}

function legend() {
  const items = Object.entries(texts.organise.legend).map(([name, text]) => el("li", { class: name }, text));
  return el("ul", { class: "legend", "aria-hidden": "true" }, ...items);
}

// ---- disagreements and rulings

function disagreementCard() {
  const topic = el("input", { ...plainText, required: true });
  const docno = el("input", { ...plainText, required: true });
  const grade = gradeField(texts.organise.grade);
  const other = el(
    "details",
    {},
    el("summary", {}, texts.organise.otherRuling),
    el("p", { class: "hint" }, texts.organise.otherHint),
    form(
      { class: "row", id: "other-ruling" },
      () => rule(topic.value.trim(), docno.value.trim(), Number(grade.value)),
      labelled(texts.assess.topic, topic),
      labelled(texts.organise.docno, docno),
      labelled(texts.organise.grade, grade),
      el("button", {}, texts.organise.rule),
    ),
  );
  const heading = el("h2", {}, texts.organise.disagreements);
  return el("section", { class: "card", id: "disagreements" }, heading, view.disagreements, other);
}

function showDisagreements(all) {
  const shown = [...view.disagreements.querySelectorAll("tr[data-doc]")];
  const rows = new Map(shown.map((row) => [row.dataset.doc, row]));
  if (all.length === 0) {
    view.disagreements.replaceChildren(el("p", { class: "hint" }, texts.organise.noDisagreements));
    return;
  }
  const body = all.map(({ topic, docno }) => rows.get(`${topic} ${docno}`) ?? disagreementRow(topic, docno));
  // (nothing is moved where nothing changed, so that a field keeps the focus)
  if (body.length === rows.size && body.every((row) => row.isConnected)) {
    return;
  }
  const titles = Object.values(texts.organise.disagreementColumns).map((title) => el("th", { scope: "col" }, title));
  const table = el(
    "table",
    { "aria-label": texts.organise.disagreements },
    el("thead", {}, el("tr", {}, ...titles)),
    el("tbody", {}, ...body),
  );
  view.disagreements.replaceChildren(el("div", { class: "sideways" }, table));
}

function disagreementRow(topic, docno) {
  const address = addressOf(docno);
  const name = address === null ? docno : newTab(address, docno);
  const words = texts.organise.rulingOf(docno);
  const ruling = gradeForm(words, texts.organise.rule, (grade) => rule(topic, docno, grade));
  return el(
    "tr",
    { "data-doc": `${topic} ${docno}` },
    el("td", {}, topic),
    el("th", { scope: "row" }, name),
    el("td", {}, ruling),
  );
}

function rule(topic, doc, grade) {
  command("rule", `/topics/${encodeURIComponent(topic)}/rule`, JSON.stringify({ doc, grade }), { doc, grade });
}

onAnswer("rule", (answer, { doc, grade }) => {
  told(answer, () => texts.organise.ruled(doc, gradeText(grade)));
});

// ---- the steps of the campaign

function stepsCard() {
  view.fault = el("div", { id: "fault" });
  view.file = fileField(() => view.fault.replaceChildren());
  const step = (hint, ...parts) => el("li", {}, ...parts, hint ? el("p", { class: "hint" }, hint) : null);
  return el(
    "section",
    { class: "card" },
    el("h2", {}, texts.organise.steps),
    el(
      "ol",
      { class: "steps" },
      step(
        null,
        labelled(texts.organise.topics, view.file, texts.organise.topicsHint),
        button(texts.organise.giveTopics, giveTopics),
        view.fault,
      ),
      step(texts.organise.openHint, button(texts.organise.open, open)),
      step(texts.organise.publishHint, button(texts.organise.publish, publish)),
    ),
  );
}

const topicsIn = (text) => text.split("\n").filter((line) => line.trim() === "<top>").length;

async function giveTopics() {
  const text = await chosenText(view.file);
  if (text !== null && (await askTwice(texts.organise.askTopics(topicsIn(text)), texts.organise.giveTopics))) {
    command("topics", "/topics", text);
  }
}

onAnswer("topics", (answer, _about, text) => {
  if (answer?.status === 201) {
    told(answer, () => texts.organise.topicsGiven(answer.fields.topics));
  } else {
    tellFault(answer, text, view?.fault);
  }
});

async function open() {
  if (await askTwice(texts.organise.askOpen, texts.organise.open)) {
    command("open", "/open", "");
  }
}

onAnswer("open", (answer) => told(answer, () => texts.organise.opened));

async function publish() {
  await refresh();
  // (graded documents of withdrawn runs aren't in the pool)
  const left = ({ pool, relevant, lower }) => Math.max(0, pool - relevant - lower);
  const ungraded = (view?.lines ?? []).reduce((total, line) => total + left(line), 0);
  if (await askTwice(texts.organise.askPublish(ungraded), texts.organise.publish)) {
    command("publish", "/publish", "");
  }
}

onAnswer("publish", (answer) => told(answer, () => texts.organise.published));

// What became of a command; what is shown is asked for again, as it may have changed.
function told(answer, done) {
  if (answer?.status === 201) {
    tell(done());
  } else {
    tellRefusal(answer);
  }
  refresh();
}

// ---- table, downloads and pools

function tableCard() {
  const place = el("div", { id: "table" });
  const showTable = () =>
    shownIn(place, "/table", (text) => {
      const runs = scoresOf(text);
      return runs.size > 0 ? scoreTable(runs) : el("p", { class: "hint" }, texts.organise.noRuns);
    });
  const file = (title, path, name) => {
    const made = (text) => handOut(name, text);
    return button(title, () => shownIn(place, path, made), { class: "quiet" });
  };
  return el(
    "section",
    { class: "card" },
    el("h2", {}, texts.organise.table),
    el(
      "div",
      { class: "row" },
      button(texts.organise.showTable, showTable),
      file(texts.organise.downloadTable, "/table", "table.scores"),
      file(texts.organise.downloadQrels, "/qrels", "campaign.qrels"),
    ),
    place,
  );
}

// What is made of a page is shown in a place, or the sentence of its refusal. Nothing is shown where nothing was made.
async function shownIn(place, path, made) {
  const answer = await query(path);
  if (answer.status !== 200) {
    place.replaceChildren(el("p", { class: "refusal", role: "alert" }, sentence(answer)));
    return;
  }
  const shown = made(answer.text, answer.fields);
  if (shown) {
    place.replaceChildren(shown);
  }
}

function poolCard() {
  const place = el("div", { id: "pool" });
  const press = el("button", {}, texts.organise.showPool);
  const showPool = () => {
    const topic = view.pool.value;
    shownIn(place, `/topics/${encodeURIComponent(topic)}/pool`, (_text, { docs }) => poolOf(topic, docs));
  };
  return el(
    "section",
    { class: "card" },
    el("h2", {}, texts.organise.pool),
    form({ class: "row" }, showPool, labelled(texts.assess.topic, view.pool), press),
    place,
  );
}

function poolOf(topic, docs) {
  const text = docs.map((doc) => `${doc}\n`).join("");
  return el(
    "div",
    {},
    el("p", {}, texts.organise.poolOf(topic, docs.length)),
    button(texts.organise.downloadPool, () => handOut(`${topic}.pool`, text), { class: "quiet" }),
    el("ul", { class: "docs" }, ...docs.map((doc) => el("li", {}, doc))),
  );
}

// The topics that the server knows, to choose from.
function showTopicChoice(topics) {
  if (topics.join(" ") !== view.topics.join(" ")) {
    view.topics = topics;
    const option = (id) => el("option", { value: id }, `${id} ${topicOf(id)?.title ?? ""}`);
    view.pool.replaceChildren(...topics.map(option));
  }
}
