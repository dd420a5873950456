// The group's view: hands in a run from a file, shows where it is at fault, and the group's runs.

import { command, leftOver, onAnswer } from "./client.js";
import { tell } from "./dialogs.js";
import { el, form, labelled, plainText } from "./elements.js";
import { chosenText, fileField, RUN_FIELDS, tellFault } from "./files.js";
import { keepRun, runPanel, showRun } from "./runs.js";
import { texts } from "./texts.js";

let view = null;

/** Shows the view in an element. */
export function show(main) {
  view = { file: fileField(chosen), fault: el("div", { id: "fault" }) };
  view.name = el("input", { ...plainText, required: true, maxlength: 32, pattern: "[A-Za-z0-9._\\-]+" });
  const sheet = form(
    { class: "card" },
    handIn,
    labelled(texts.submit.file, view.file, texts.submit.fileHint),
    labelled(texts.submit.name, view.name, texts.submit.nameHint),
    el("button", { class: "strong" }, texts.submit.send),
    view.fault,
  );
  const late = el("p", { class: "hint" }, texts.submit.late);
  main.append(el("h1", {}, texts.submit.heading), late, sheet, runPanel(texts.run.heading));
  const left = leftOver();
  if (left !== null && left.kind === "submit" && left.body === null) {
    tell(texts.submit.left(left.about.run), "warning");
    view.name.value = left.about.run;
  }
}

/** What the view leaves behind when another one is shown. */
export function leave() {
  view = null;
}

function chosen(file) {
  view.fault.replaceChildren();
  if (file !== null && view.name.value === "") {
    const stem = file.name.replace(/\.(run|txt|trec|res|out)$/i, "");
    view.name.value = stem.replaceAll(/[^A-Za-z0-9._-]/g, "-").slice(0, 32);
  }
}

async function handIn() {
  const run = view.name.value.trim();
  const text = await chosenText(view.file);
  if (text !== null) {
    view.fault.replaceChildren();
    tell(texts.submit.sending(run));
    command("submit", `/runs/${encodeURIComponent(run)}`, text, { run });
  }
}

onAnswer("submit", (answer, { run }, text) => {
  if (answer?.status === 201) {
    const { topics, lines } = answer.fields;
    keepRun(run);
    tell(texts.submit.sent(run, topics, lines));
    if (view !== null) {
      showRun(run);
    }
    return;
  }
  tellFault(answer, text, view?.fault, RUN_FIELDS);
});
