// Files of the person at the page: choosing one, showing where it is at fault, and handing one out.

import { tell, tellRefusal } from "./dialogs.js";
import { el } from "./elements.js";
import { sentence, texts } from "./texts.js";

// the greatest body that the server takes, in bytes
const MOST_BODY = 16777216;
// how much of a line is shown, in characters
const MOST_SHOWN = 400;
// which field of a run's line each kind of fault is about, from 0
export const RUN_FIELDS = { topic: 0, docno: 2, score: 4 };

/** A field for a file. */
export function fileField(chosen) {
  const field = el("input", { type: "file", onchange: () => chosen(field.files[0] ?? null) });
  return field;
}

/** The text of the file that is chosen now, or null where there is none that can be sent, which is told. */
export async function chosenText(field) {
  const [file] = field.files;
  if (file === undefined || file.size > MOST_BODY) {
    tell(file === undefined ? texts.file.none : texts.file.tooLong, "refused");
    return null;
  }
  return textOf(file);
}

/** The text of a file, or null where it was written since it was chosen, which is told. */
export async function textOf(file) {
  try {
    return await file.text();
  } catch {
    tell(texts.file.changed, "refused");
    return null;
  }
}

/** Offers a text for download under a name. */
export function handOut(name, text) {
  const address = URL.createObjectURL(new Blob([text], { type: "text/plain" }));
  const link = el("a", { href: address, download: name });
  document.body.append(link);
  link.click();
  link.remove();
  setTimeout(() => URL.revokeObjectURL(address), 60000);
}

// Whether an answer refuses a file at one of its lines.
function isAtLine(answer) {
  return answer.fields.refusal === "format" || answer.fields.refusal === "line-topic";
}

/**
 * Tells why a file was refused, and shows its line in a place, where there is one. For a run the fields of its lines
 * are given, so that the one that is at fault is marked.
 */
export function tellFault(answer, text, place, fields = {}) {
  if (answer === null || !isAtLine(answer)) {
    tellRefusal(answer);
    return;
  }
  tell(texts.fault.whole(whatIsWrong(answer)), "refused");
  place?.replaceChildren(faultAt(text, answer, fields));
}

function whatIsWrong(answer) {
  const { refusal, kind, cause, line } = answer.fields;
  if (refusal === "line-topic") {
    return sentence(answer);
  }
  const what = texts.fault.kinds[kind];
  return texts.fault.at(line, typeof what === "object" ? what[cause] : what);
}

// A refused file at the line that the answer tells, with the lines beside it.
function faultAt(text, answer, fields) {
  // (a line whose topic the campaign hasn't has no kind)
  const { kind = "topic", line, first } = answer.fields;
  const lines = text.split("\n");
  const parts = [el("h3", { class: "what" }, whatIsWrong(answer))];
  if (first !== undefined) {
    parts.push(el("p", {}, texts.fault.first(first)), listing(lines, first, 0));
  }
  if (line > 0) {
    parts.push(listing(lines, line, 1, fields[kind]));
  }
  return el("div", {}, ...parts);
}

// The lines around one, which is marked, with its field where the fault is in one.
function listing(lines, marked, around, field) {
  const list = el("ol", { class: "lines" });
  for (let line = Math.max(1, marked - around); line <= marked + around; line += 1) {
    const text = lines[line - 1];
    if (line === marked || text) {
      const shown = line === marked ? withField(text || texts.fault.end, field) : [text.slice(0, MOST_SHOWN)];
      list.append(el("li", { value: line, class: line === marked ? "marked" : null }, el("code", {}, ...shown)));
    }
  }
  return list;
}

function withField(text, field) {
  let place = -1;
  return text
    .slice(0, MOST_SHOWN)
    .split(/([ \t\v\f\r]+)/)
    .map((part) => {
      const isField = part !== "" && part.trim() !== "";
      place += isField ? 1 : 0;
      return isField && place === field ? el("mark", {}, part) : part;
    });
}
