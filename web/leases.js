// The lease that this tab holds and the documents that were graded in it, as the tab keeps them: the server tells an
// assessor neither.

import { drop, keep, kept } from "./session.js";

// the last part of a lease, in seconds, in which its end is told: at most a quarter of it
const MOST_WARNING = 60;

/** The lease that is held, or null. */
export function heldLease() {
  return kept("lease");
}

/** Keeps the lease that an answer grants, with how far the server's clock is before this one. */
export function holdLease({ fields, ahead }) {
  const lease = { ...fields, ahead };
  keep("lease", { ...lease, warning: Math.min(MOST_WARNING, secondsLeft(lease) / 4) });
}

export function dropLease() {
  drop("lease");
}

/** How long a lease is live by the server's clock, in seconds. */
export function secondsLeft({ until, ahead }) {
  return until - (Date.now() + ahead) / 1000;
}

/** The documents that were graded in this tab, the last one first. */
export function graded() {
  return kept("graded", []);
}

/** Puts a document with its grade in front, or its new grade in the place where it stands. */
export function keepGrade(topic, doc, grade) {
  const all = graded();
  const place = all.findIndex((one) => one.topic === topic && one.doc === doc);
  if (place < 0) {
    all.unshift({ topic, doc, grade });
  } else {
    all[place].grade = grade;
  }
  keep("graded", all);
}
