// What stands around the content of a page: its fixed texts, the way past the menu, and keys that are held down.

import { texts } from "./texts.js";

/** Fills in the fixed texts of the page, and listens to its keys. */
export function setUpFrame() {
  for (const element of document.querySelectorAll("[data-text]")) {
    element.textContent = texts[element.dataset.text];
  }
  document.querySelector(".skip").addEventListener("click", (event) => {
    event.preventDefault();
    document.getElementById("main").focus();
  });
  document.addEventListener("keydown", pressOnce, { capture: true });
}

// A key that is held down presses no button again, and sends no form.
function pressOnce(event) {
  const isPress = event.key === "Enter" || event.key === " ";
  if (event.repeat && isPress && event.target.closest("button, input, select, summary, a") !== null) {
    event.preventDefault();
  }
}
