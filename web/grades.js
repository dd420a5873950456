// A field for a grade: the names to choose from where the grades are known and few, else a number.

import { el, form } from "./elements.js";
import { buttonGrades, gradeText, topGrade } from "./settings.js";

/** A field for a grade, which begins with one of them; its words are its label for screen readers. */
export function gradeField(words, grade = null) {
  const isKnown = topGrade() !== null && buttonGrades().length > 0;
  const field = isKnown ? choice() : gradeNumber();
  field.setAttribute("aria-label", words);
  field.value = String(grade ?? (isKnown ? 0 : ""));
  return field;
}

function choice() {
  return el("select", {}, ...buttonGrades().map((grade) => el("option", { value: grade }, gradeText(grade))));
}

/** A field for the number of a grade. */
export function gradeNumber() {
  return el("input", { type: "number", min: 0, max: topGrade() ?? 255, required: true, inputmode: "numeric" });
}

/** A form of one grade: the field, a button, and what is done with the grade. */
export function gradeForm(words, press, act, { grade = null, cancel = null } = {}) {
  const field = gradeField(words, grade);
  return form({ class: "row tight" }, () => act(Number(field.value)), field, el("button", {}, press), cancel);
}
