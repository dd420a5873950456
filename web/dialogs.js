// What can't be undone is asked twice, and what happens is told: by a line that screen readers read out.

import { button, el, newId } from "./elements.js";
import { sentence, texts } from "./texts.js";

/** Asks in a dialogue; true where the answer is yes. The first focus is on the way out. One is open at a time. */
export async function askTwice(question, yes) {
  if (document.querySelector("dialog") !== null) {
    return false;
  }
  const id = newId();
  const close = (answer) => () => dialog.close(answer);
  const dialog = el(
    "dialog",
    { "aria-labelledby": id },
    el("p", { id }, question),
    el(
      "div",
      { class: "row end" },
      button(texts.cancel, close("no"), { autofocus: true, class: "quiet" }),
      button(yes, close("yes"), { class: "strong" }),
    ),
  );
  document.body.append(dialog);
  dialog.showModal();
  return new Promise((resolve) => {
    dialog.addEventListener("close", () => {
      dialog.remove();
      resolve(dialog.returnValue === "yes");
    });
  });
}

/** Tells what happened: kind is "done", "refused", "warning" or "note". An empty text clears the line. */
export function tell(text, kind = "done") {
  const place = document.getElementById("message");
  place.className = text === "" ? "" : kind;
  document.getElementById("told").textContent = text;
  place.querySelector("button")?.remove();
  if (text !== "") {
    place.append(button(texts.dismiss, () => tell(""), { class: "quiet" }));
  }
}

/** Tells why a command was refused; null is the answer where the person stopped asking. */
export function tellRefusal(answer) {
  const kind = answer?.fields.refusal === "nothing-left" ? "note" : "refused";
  tell(answer === null ? texts.lost.gaveUp : sentence(answer), kind);
}
