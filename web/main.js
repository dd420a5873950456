// The page's frame: who is at it, the view that is shown, and what is told of answers that don't come.

import * as assess from "./assess.js";
import { askAgain, giveUp, goOn, isBusy, leftOver, listen, query } from "./client.js";
import { tell } from "./dialogs.js";
import { button, el, form, labelled, plainText } from "./elements.js";
import { setUpFrame } from "./frame.js";
import * as organise from "./organise.js";
import * as release from "./release.js";
import { drop, dropAll, keep, kept } from "./session.js";
import { readSettings } from "./settings.js";
import * as submit from "./submit.js";
import { sentence, texts } from "./texts.js";

const VIEWS = { assess, organise, submit, release };
// what each role may look at, the first one first
const ROLES = { assessor: ["assess", "release"], group: ["submit", "release"], organiser: ["organise", "release"] };

const main = document.getElementById("main");
let shown = null;

// ---- who is at the page

// The role of a key, or null with the answer that says why not. Organisers alone may ask for progress, and groups
// may not ask for a pool.
async function roleOf(key) {
  const progress = await query("/progress", key);
  if (progress.status === 200) {
    return { role: "organiser" };
  }
  if (progress.fields.fault !== "role") {
    return { role: null, answer: progress };
  }
  const pool = await query("/topics/-/pool", key);
  if (pool.fields.fault === "role") {
    return { role: "group" };
  }
  const isAnswered = pool.status === 200 || pool.fields.refusal === "unknown-topic";
  return isAnswered ? { role: "assessor" } : { role: null, answer: pool };
}

function showKeyForm() {
  leaveView();
  document.title = texts.title;
  const field = el("input", { ...plainText, type: "password", id: "key", autocapitalize: "none" });
  const show = () => (field.type = isShown.checked ? "text" : "password");
  const isShown = el("input", { type: "checkbox", onchange: show });
  const sheet = form(
    { class: "card key" },
    () => enter(field),
    el("h1", {}, texts.key.heading),
    labelled(texts.key.label, field, texts.key.hint),
    el("label", { class: "check" }, isShown, texts.key.show),
    el("button", { class: "strong" }, texts.key.enter),
  );
  main.replaceChildren(sheet);
  field.focus();
  ready();
}

async function enter(field) {
  const key = field.value.trim();
  if (key === "") {
    tell(texts.key.missing, "refused");
    field.focus();
    return;
  }
  tell(texts.key.trying);
  const { role, answer } = await roleOf(key);
  if (role === null) {
    tell(answer.status === 401 ? texts.key.unknown : sentence(answer), "refused");
    field.focus();
    return;
  }
  keep("key", key);
  keep("role", role);
  showView(true);
}

function forget() {
  dropAll();
  location.replace(location.pathname);
}

function keyRefused() {
  drop("key");
  drop("role");
  tell(texts.key.refused, "refused");
  showKeyForm();
}

// ---- the view that is shown

function chosenView() {
  const views = ROLES[kept("role")];
  const name = location.hash.slice(1);
  return views.includes(name) ? name : views[0];
}

async function showView(isFocused) {
  if (kept("key") === null) {
    showKeyForm();
    return;
  }
  const name = chosenView();
  leaveView();
  tell("");
  shown = VIEWS[name];
  document.title = texts.titleOf(texts.views[name]);
  showMenu(name);
  main.replaceChildren();
  await shown.show(main);
  if (isFocused) {
    main.focus();
  }
  ready();
}

function leaveView() {
  delete document.body.dataset.ready;
  shown?.leave();
  shown = null;
  document.getElementById("menu").replaceChildren();
  document.getElementById("who").replaceChildren();
}

function showMenu(name) {
  const links = ROLES[kept("role")].map((view) =>
    el("a", { href: `#${view}`, "aria-current": view === name ? "page" : null }, texts.views[view]),
  );
  document.getElementById("menu").replaceChildren(...links);
  const role = el("span", { class: "role" }, texts.key.roles[kept("role")]);
  document.getElementById("who").replaceChildren(role, button(texts.key.leave, forget, { class: "quiet" }));
}

// (tests wait for it)
function ready() {
  document.body.dataset.ready = "";
}

// ---- answers that don't come

function lost(answer, pause) {
  const seconds = pause / 1000;
  const { disk, memory, waits } = texts.lost;
  const text = { disk, memory }[answer.fields.fault] ?? waits;
  const place = document.getElementById("lost");
  if (place.hidden) {
    const stop = button(texts.lost.giveUp, giveUp, { class: "quiet" });
    place.append(el("p", { role: "alert" }), button(texts.lost.again, askAgain), stop);
    place.hidden = false;
  }
  place.firstChild.textContent = text(seconds);
}

function found() {
  const place = document.getElementById("lost");
  place.hidden = true;
  place.replaceChildren();
}

// ---- the beginning

async function begin() {
  setUpFrame();
  listen({ lost, found, keyRefused });
  addEventListener("hashchange", () => showView(true));
  await readSettings();
  await showView(false);
  if (kept("key") !== null && leftOver() !== null && !isBusy()) {
    goOn();
  }
}

begin();
