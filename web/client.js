// Requests to the server. A query is asked once. A command has a number of its own and is kept in the tab, with its
// path and body, until an answer below 500 came: without one it is sent again just so, after a reload too, and the
// server answers a number that it knows as before and does nothing more. One command is under way at a time.

import { drop, keep, kept } from "./session.js";

// how long an answer may take, in milliseconds, and how long the page waits before it asks again
const PATIENCE = 30000;
const PAUSES = [1000, 2000, 4000, 8000, 15000];
// a run of the greatest length on a slow line takes longer
const BYTES_A_MILLISECOND = 20;

const handlers = new Map();
let listener = { lost() {}, found() {}, keyRefused() {} };
let waiting = kept("waiting");
let underWay = false;
let wake = () => {};
let answered = () => {};

/** What is told of answers that don't come, that came at last, and of a key that the server doesn't know. */
export function listen(to) {
  listener = to;
}

/**
 * Who hears the answers to the commands of a kind, those that were sent before a reload too: the answer, or null where
 * the person stopped asking, and what was given about the command, and its body.
 */
export function onAnswer(kind, handler) {
  handlers.set(kind, handler);
}

/** Whether a command is under way. */
export function isBusy() {
  return underWay;
}

/** The answer to a GET; its status is 0 where none came. */
export async function query(path, key = kept("key")) {
  const answer = await send(path, { headers: { "X-Campaign-Key": key } }, PATIENCE);
  if (answer.status === 401 && key === kept("key")) {
    listener.keyRefused(answer);
  }
  return answer;
}

/**
 * Sends a command; the handler of its kind hears the answer, with what is given about it. False where another one is
 * under way. The promise is kept once the handler was called.
 */
export async function command(kind, path, body, about = {}) {
  if (underWay) {
    return false;
  }
  waiting = { kind, path, body, about, number: numberFor(path) };
  if (!keep("waiting", waiting)) {
    // a large run: its path and number are kept, and its text only while the page is there
    keep("waiting", { ...waiting, body: null });
  }
  await untilAnswered();
  return true;
}

/** The command that was under way when the page was left, if there is one. */
export function leftOver() {
  return underWay ? null : kept("waiting");
}

/** Goes on with the command that was left over, where its body was kept. */
export async function goOn() {
  waiting = leftOver();
  if (waiting !== null && waiting.body !== null) {
    await untilAnswered();
  }
}

/** Asks for a lost answer at once. */
export function askAgain() {
  wake();
}

/** Stops asking: whether the command was done isn't known then. */
export function giveUp() {
  drop("waiting");
  answered(null);
  wake();
}

// A run whose text couldn't be kept is sent again under the number that it had.
function numberFor(path) {
  const left = kept("waiting");
  return left !== null && left.path === path ? left.number : newNumber();
}

// The time in milliseconds and six digits by chance: 19 digits, below 2^63, told as a text since JavaScript's numbers
// are exact only up to 2^53.
function newNumber() {
  const [chance] = crypto.getRandomValues(new Uint32Array(1));
  return String(Date.now()) + String(chance % 1000000).padStart(6, "0");
}

async function untilAnswered() {
  setBusy(true);
  const done = new Promise((resolve) => {
    answered = resolve;
  });
  repeat(waiting);
  const answer = await done;
  const { kind, about, body } = waiting;
  waiting = null;
  setBusy(false);
  listener.found();
  if (answer !== null && answer.status === 401) {
    listener.keyRefused(answer);
  } else {
    handlers.get(kind)(answer, about, body);
  }
}

async function repeat(sent) {
  for (let tries = 0; waiting === sent; tries += 1) {
    const answer = await post(sent);
    if (waiting !== sent || kept("waiting")?.number !== sent.number) {
      return;
    }
    if (answer.status > 0 && answer.status < 500) {
      drop("waiting");
      answered(answer);
      return;
    }
    const pause = PAUSES[Math.min(tries, PAUSES.length - 1)];
    listener.lost(answer, pause);
    await rest(pause);
  }
}

function post({ path, body, number }) {
  const headers = { "X-Campaign-Key": kept("key"), "X-Request-Number": number };
  return send(path, { method: "POST", headers, body }, PATIENCE + body.length / BYTES_A_MILLISECOND);
}

function rest(pause) {
  return new Promise((resolve) => {
    wake = resolve;
    setTimeout(resolve, pause);
    addEventListener("online", resolve, { once: true });
  });
}

async function send(path, options, patience) {
  try {
    const response = await fetch(path, { ...options, cache: "no-store", signal: AbortSignal.timeout(patience) });
    const text = await response.text();
    return { status: response.status, text, fields: fieldsOf(text), ahead: aheadOf(response) };
  } catch (error) {
    return { status: 0, text: "", fields: {}, ahead: 0, error: error.name };
  }
}

// An answer of the server in front isn't JSON, and neither is a page.
function fieldsOf(text) {
  if (!text.startsWith("{")) {
    return {};
  }
  try {
    return JSON.parse(text);
  } catch {
    return {};
  }
}

// How far the server's clock is before this one, in milliseconds: the moments of leases are the server's.
function aheadOf(response) {
  const date = Date.parse(response.headers.get("Date"));
  return Number.isNaN(date) ? 0 : date - Date.now();
}

function setBusy(busy) {
  underWay = busy;
  document.body.toggleAttribute("data-busy", busy);
  document.getElementById("main").setAttribute("aria-busy", String(busy));
}
