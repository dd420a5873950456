// The assessor's view: takes documents of a topic, one after another, and grades each by one key.

import { command, isBusy, onAnswer } from "./client.js";
import { tell, tellRefusal } from "./dialogs.js";
import { button, el, form, labelled, newTab, plainText } from "./elements.js";
import { gradeForm, gradeNumber } from "./grades.js";
import { dropLease, graded, heldLease, holdLease, keepGrade, secondsLeft } from "./leases.js";
import { keep, kept } from "./session.js";
import { addressOf, buttonGrades, gradeName, gradeText, isRelevant, topGrade, topicOf, topics } from "./settings.js";
import { texts } from "./texts.js";

// how long a new document is there before a grade is taken, in milliseconds: a bouncing key grades nothing unread
const LOOK = 250;
// the place of the last graded document, beside the grades
const LAST = "last";
// what a frame has below its text, in pixels: a scroll bar fits in
const ROOM = 20;
// what ends a lease for this tab
const ENDS = ["ended", "expired", "unknown-lease", "not-yours", "wrong-phase"];

let view = null;
let ticking = 0;
let readying = 0;

/** Shows the view in an element. */
export function show(main) {
  view = { topic: topicField(), desk: el("div"), done: el("section", { class: "card" }) };
  const chooser = form(
    { class: "row" },
    take,
    labelled(texts.assess.topic, view.topic, topics().length > 0 ? null : texts.assess.topicHint),
    (view.take = el("button", { class: "strong" }, texts.assess.take)),
  );
  main.append(el("div", { class: "head" }, el("h1", {}, texts.assess.heading), chooser), view.desk, view.done);
  document.addEventListener("keydown", keyPressed);
  showDesk();
  showDone();
}

/** What the view leaves behind when another one is shown. */
export function leave() {
  clearInterval(ticking);
  clearTimeout(readying);
  document.removeEventListener("keydown", keyPressed);
  view = null;
}

onAnswer("lease", (answer) => {
  if (answer?.status === 201) {
    holdLease(answer);
    tell("");
  } else {
    tellRefusal(answer);
  }
  showDesk(true);
});

onAnswer("grade", (answer, { topic, doc, grade }) => {
  if (answer?.status !== 201) {
    tellRefusal(answer);
    leaseRefused(answer);
    return;
  }
  dropLease();
  keepGrade(topic, doc, grade);
  showDone();
  if (view === null) {
    return;
  }
  take();
});

onAnswer("release", (answer, { doc }) => {
  if (answer?.status !== 201) {
    tellRefusal(answer);
    leaseRefused(answer);
    return;
  }
  dropLease();
  tell(texts.assess.released(doc));
  showDesk(true);
});

onAnswer("amend", (answer, { topic, doc, grade, place }) => {
  if (answer?.status === 201) {
    keepGrade(topic, doc, grade);
    tell(texts.assess.amended(doc, gradeText(grade)));
  } else {
    tellRefusal(answer);
  }
  showDone(place);
});

function leaseRefused(answer) {
  if (ENDS.includes(answer?.fields.refusal)) {
    dropLease();
    showDesk(true);
  }
}

function take() {
  const topic = view.topic.value.trim();
  if (heldLease() === null && topic !== "") {
    command("lease", `/topics/${encodeURIComponent(topic)}/lease`, "");
  }
}

function give(grade) {
  const lease = heldLease();
  if (lease !== null && view.grades?.hasAttribute("data-ready")) {
    const { topic, doc } = lease;
    command("grade", `/leases/${lease.lease}/grade`, JSON.stringify({ grade }), { topic, doc, grade });
  }
}

function release() {
  const lease = heldLease();
  if (lease !== null) {
    command("release", `/leases/${lease.lease}/release`, "", { doc: lease.doc });
  }
}

function keyPressed(event) {
  const isPlain = !(event.repeat || event.ctrlKey || event.altKey || event.metaKey);
  const isElsewhere = event.target.closest("input:not([type=checkbox]), select, textarea, dialog") !== null;
  if (isPlain && !isElsewhere && kept("digits", true) && /^[0-9]$/.test(event.key)) {
    const grade = Number(event.key);
    if (buttonGrades().includes(grade) && !isBusy()) {
      event.preventDefault();
      give(grade);
    }
  }
}

function topicField() {
  const chosen = heldLease()?.topic ?? kept("topic", topics()[0]?.id ?? "");
  const field =
    topics().length > 0
      ? el("select", { id: "topic" }, ...topics().map(({ id, title }) => el("option", { value: id }, `${id} ${title}`)))
      : el("input", { ...plainText, id: "topic", required: true });
  field.value = chosen;
  field.addEventListener("change", () => keep("topic", field.value.trim()));
  return field;
}

// The desk: the document that is held, its topic and the grades; or what to do where none is.
function showDesk(isFocused = false) {
  if (view === null) {
    return;
  }
  const lease = heldLease();
  clearInterval(ticking);
  view.take.hidden = lease !== null;
  view.grades = null;
  if (lease === null) {
    view.desk.replaceChildren(el("p", { class: "idle" }, texts.assess.idle));
    view.desk.className = "";
    (isFocused ? view.take : null)?.focus();
    return;
  }
  const heading = el("h2", { tabindex: -1, id: "docno" }, texts.assess.document(lease.doc));
  view.left = el("p", { role: "timer", class: "left" });
  view.desk.className = "desk";
  view.article = el("article", {}, el("header", { class: "row" }, heading, view.left), ...textOf(lease.doc));
  view.desk.replaceChildren(view.article, el("aside", {}, gradePanel(), statement(lease)));
  ticking = setInterval(tick, 1000);
  tick();
  if (isFocused) {
    heading.focus({ preventScroll: true });
    toTop(view.article);
  }
}

// The document's head comes to the top, unless it is to be seen with room below it.
function toTop(element) {
  const { top } = element.getBoundingClientRect();
  if (top < 0 || top > innerHeight / 2) {
    element.scrollIntoView({ block: "start" });
  }
}

function statement({ topic, title }) {
  const known = topicOf(topic);
  const parts = [el("h2", {}, `${topic} ${title}`)];
  for (const [heading, text] of [
    [texts.assess.description, known?.desc],
    [texts.assess.narrative, known?.narr],
  ]) {
    if (text) {
      parts.push(el("h3", {}, heading), el("p", {}, text));
    }
  }
  return el("section", { class: "statement", "aria-label": texts.assess.statement }, ...parts);
}

// No script of a document runs in its frame. It counts as of the page's origin, so that the page can measure it and
// hears the keys that are pressed in it.
function textOf(docno) {
  const address = addressOf(docno);
  if (address === null) {
    return [el("p", { class: "idle" }, texts.assess.noText)];
  }
  const frame = el("iframe", {
    sandbox: "allow-same-origin",
    title: texts.assess.textOf(docno),
    src: address,
    onload: () => fit(frame),
  });
  return [frame, el("p", { class: "hint" }, newTab(address, texts.assess.ownTab))];
}

// A frame as high as its text, so that the page alone scrolls. (A text on another host isn't seen: it scrolls itself.)
function fit(frame) {
  const inside = frame.contentDocument;
  if (inside === null) {
    return;
  }
  let width = 0;
  const measure = () => {
    if (frame.clientWidth !== width) {
      width = frame.clientWidth;
      frame.style.height = "0";
      frame.style.height = `${inside.documentElement.scrollHeight + ROOM}px`;
    }
  };
  new ResizeObserver(measure).observe(frame);
  inside.addEventListener("keydown", keyPressed);
}

function gradePanel() {
  const panel = el("section", { class: "grades", "aria-label": texts.assess.grades }, ...gradeButtons());
  const digits = el("input", { type: "checkbox", id: "digits", onchange: () => keep("digits", digits.checked) });
  digits.checked = kept("digits", true);
  view.last = el("div", { class: "last" });
  const more = el("div", { class: "row" }, button(texts.assess.release, release, { class: "quiet", id: "give-back" }));
  if (buttonGrades().length > 0) {
    more.append(el("label", { class: "check", for: "digits" }, digits, texts.assess.digits));
  }
  panel.append(more, view.last);
  view.grades = panel;
  showLast();
  clearTimeout(readying);
  readying = setTimeout(() => panel.toggleAttribute("data-ready", true), LOOK);
  return panel;
}

function gradeButtons() {
  const grades = buttonGrades();
  if (grades.length === 0) {
    const field = gradeNumber();
    const words = labelled(texts.assess.gradeField(topGrade()), field);
    const press = el("button", { class: "strong" }, texts.assess.give);
    return [form({ class: "row" }, () => give(Number(field.value)), words, press)];
  }
  const isNamed = grades.some((grade) => gradeName(grade) !== "");
  return [
    el("h2", {}, texts.assess.grades),
    el("div", { class: isNamed ? "choices" : "choices short" }, ...grades.map(gradeButton)),
    el("p", { class: "hint" }, texts.assess.gradesHint(grades.length - 1)),
  ];
}

function gradeButton(grade) {
  const kind = { true: "grade relevant", false: "grade lower", null: "grade" }[isRelevant(heldLease()?.topic, grade)];
  const words = { class: kind, "aria-label": gradeText(grade), "aria-keyshortcuts": String(grade) };
  const made = button(el("kbd", {}, String(grade)), () => give(grade), words);
  if (gradeName(grade) !== "") {
    made.append(el("span", {}, gradeName(grade)));
  }
  return made;
}

// Each second: what is left of the lease, once a warning, and its end.
function tick() {
  const lease = heldLease();
  if (lease === null || isBusy()) {
    return;
  }
  const left = secondsLeft(lease);
  if (left <= 0) {
    dropLease();
    tell(texts.assess.over(lease.doc), "refused");
    showDesk(true);
    return;
  }
  view.left.textContent = leftText(Math.ceil(left));
  if (left <= lease.warning && !view.left.classList.contains("warning")) {
    view.left.classList.add("warning");
    tell(texts.assess.ending(Math.ceil(left)), "warning");
  }
}

function leftText(seconds) {
  const { leftSeconds, left, leftHours, leftDays } = texts.assess;
  if (seconds <= 90) {
    return leftSeconds(seconds);
  }
  if (seconds < 2 * 3600) {
    return left(Math.ceil(seconds / 60));
  }
  return seconds < 2 * 86400 ? leftHours(Math.floor(seconds / 3600)) : leftDays(Math.floor(seconds / 86400));
}

// The documents that were graded in this tab, each with a way to amend its grade; the focus goes to one of these ways.
function showDone(focused = null) {
  if (view === null) {
    return;
  }
  const titles = Object.values(texts.assess.columns).map((title) => el("th", { scope: "col" }, title));
  const rows = graded().map((one) => doneRow(one, focused));
  const table = el(
    "table",
    { class: "done", "aria-label": texts.assess.done },
    el("thead", {}, el("tr", {}, ...titles)),
    el("tbody", {}, ...rows),
  );
  view.done.replaceChildren(el("h2", {}, texts.assess.done), el("div", { class: "sideways" }, table));
  if (rows.length === 0) {
    view.done.append(el("p", { class: "hint" }, texts.assess.none));
  }
  showLast(focused);
}

function doneRow(one, focused) {
  const place = `${one.topic} ${one.doc}`;
  const cell = el("td", { "data-place": place });
  showGrade(cell, one, place === focused);
  return el("tr", {}, el("th", { scope: "row" }, one.doc), el("td", {}, one.topic), cell);
}

// The last graded document, beside the grades of the next one.
function showLast(focused = null) {
  const [last] = graded();
  if (view.last && last) {
    const cell = el("div", { "data-place": LAST });
    view.last.replaceChildren(el("p", { class: "hint" }, texts.assess.last(last.doc)), cell);
    showGrade(cell, last, focused === LAST);
  }
}

// A grade with a button, which a form comes in the place of.
function showGrade(cell, one, isFocused = false) {
  const { doc, topic, grade } = one;
  const amend = (value) =>
    command("amend", `/topics/${topic}/amend`, JSON.stringify({ doc, grade: value }), {
      topic,
      doc,
      grade: value,
      place: cell.dataset.place,
    });
  const open = () => {
    const cancel = button(texts.cancel, () => showGrade(cell, one, true), { class: "quiet" });
    const sheet = gradeForm(texts.assess.newGrade(doc), texts.assess.amend, amend, { grade, cancel });
    cell.replaceChildren(sheet);
    sheet.elements[0].focus();
  };
  const press = button(texts.assess.amend, open, { class: "quiet", "aria-label": texts.assess.amendOf(doc) });
  cell.replaceChildren(el("div", { class: "row tight" }, el("span", {}, gradeText(grade)), press));
  (isFocused ? press : null)?.focus();
}
