// What settings.json tells of the campaign, which make-settings writes from its files: the grades and their names, the
// topics, and where a document's text is. Without it topics are typed by hand. What the server says holds in any case.

import { texts } from "./texts.js";

let settings = {};

/** Reads settings.json, where there is one. */
export async function readSettings() {
  try {
    const response = await fetch("settings.json", { cache: "no-cache" });
    settings = response.ok ? await response.json() : {};
  } catch {
    settings = {};
  }
}

/** The greatest grade, or null where it isn't known. */
export function topGrade() {
  return settings.top_grade ?? null;
}

/** The grades that a button is shown for: all, where digits suffice for them. */
export function buttonGrades() {
  const top = topGrade() ?? 9;
  return top > 9 ? [] : [...Array(top + 1).keys()];
}

/** Whether a topic's documents of this grade are relevant; null where that isn't known. */
export function isRelevant(topic, grade) {
  const level = topicOf(topic)?.level ?? settings.level;
  return level === undefined ? null : grade >= level;
}

/** The name that the campaign has for a grade, or an empty text. */
export function gradeName(grade) {
  return settings.grades?.[grade] ?? "";
}

/** A grade as it is told: its number, and its name where it has one. */
export function gradeText(grade) {
  return texts.assess.gradeName(grade, gradeName(grade));
}

export function topics() {
  return settings.topics ?? [];
}

export function topicOf(id) {
  return topics().find((topic) => topic.id === id) ?? null;
}

/** The address of a document's text, or null where the settings have no pattern. */
export function addressOf(docno) {
  return settings.document ? settings.document.replaceAll("{docno}", () => encodeURIComponent(docno)) : null;
}
